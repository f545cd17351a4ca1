# shellcheck shell=sh disable=SC2034,SC2154
# Sourced by tests/run and tests/faults: builds the second program in $built and tries it, and can build the archive and the driver that makes its calls.
#
# Before: `fail` is a function that says why and leaves, `root` the project's folder. After: what tests/machine.sh sets, and `built`, `archive`,
# `few`, the options with which a run takes few enough networks for this machine, and `few_pages`, the same for pages.
tests=$root/tests
built=$root/target/second
archive=$root/target/staticlib/libcornetariel.a

if ! command -v rustc >/dev/null; then
    echo "installing rustc, since the second program is written in Rust"
    { apt-get update && apt-get install -y --no-install-recommends rustc; } >/dev/null 2>&1 || fail "rustc could not be installed"
fi
. "$tests/machine.sh"
. "$tests/make.sh"
mkdir -p "$built" || exit 2
need_compiler "$built"

# Under an emulator a call takes ten to thirty times as long, and each page is a run of the listing program, which takes long to start.
few='' few_pages=''
if [ -n "$emulator" ]; then few='--every 8' few_pages='--every 80'; fi

build_archive() {
    (flock 9 && make_proved cornetariel) 9<"$root/crates.txt" || fail "the library was not proved, so there is nothing to compare"
}

build_listing() {
    (flock 9 && make_proved listing) 9<"$root/crates.txt" >"$built/listing.log" 2>&1 ||
        fail "the listing program was not proved; see $built/listing.log"
}

build_driver() { # PROGRAM [OPTION...]
    program=$1
    shift
    "$compiler" -O2 -std=c11 -D_POSIX_C_SOURCE=200809L -Wall -Wextra -static "$@" -o "$program" "$tests/driver.c" "$archive" ||
        fail "the driver was not built"
}

if [ ! -x "$built/second" ] || [ -n "$(find "$tests/second" -newer "$built/second" | head -n 1)" ]; then
    rustc -O --edition 2021 -o "$built/second" "$tests/second/main.rs" || fail "the second program was not built"
fi
"$built/second" --self-test || fail "the second program does not give the known answers"
