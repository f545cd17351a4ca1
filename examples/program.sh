# Sourced by the commands here that run a program in C over the library, each of which is made of NAME.c: proves the library and builds the program where
# that has not been done since the sources or the kit changed, and runs it on the text that the command was given.
#
# Before: `name` is the program's name, and the command's words are this script's.
root=$(dirname "$(dirname "$(readlink -f "$0")")") || exit 3
command=examples/$name
. "$root/tests/command.sh"
begin "$@"

archive=target/staticlib/libcornetariel.a
built=$root/target/examples
program=$built/$name

is_current() {
    [ -x "$program" ] &&
        [ -z "$(find "$root/$archive" "$root/include/cornetariel.h" "$root/examples/network.h" "$root/examples/$name.c" -newer "$program")" ]
}

build() {
    mkdir -p "$built" || fail "there is no folder $built"
    need_compiler "$built"
    "$compiler" -O2 -std=c11 -Wall -Wextra -static -o "$program.new" "$root/examples/$name.c" "$root/$archive" >&2 &&
        mv "$program.new" "$program" || fail "the program was not built"
}

need_proved "$archive" cornetariel
if ! is_current; then
    lock
    if ! is_current; then build; fi
    unlock
fi
exec ${emulator:+"$emulator"} "$program"
