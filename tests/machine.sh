# Sourced by the scripts that build or run programs: sets what that takes on this machine. The library and the programs are x86-64 code. On any other
# machine Debian's cross compiler builds what is linked with the library, and the emulator of the Rattle kit runs it.
#
# Before: `fail` is a function that says why and leaves; `without_rt` is yes where what was built can be run without rt, if the machine is an x86-64 one.
# After: `machine`, `emulator` (empty where none is needed), `compiler`, `symbols`.
command -v rt >/dev/null || { [ "${without_rt:-no}" = yes ] && [ "$(uname -m)" = x86_64 ]; } ||
    fail "rt, the Rattle toolchain, is not on this machine; put it on the PATH"

machine=$(uname -m)
emulator=''
compiler=gcc
symbols=nm
if [ "$machine" != x86_64 ]; then
    kit=${RATTLE_HOME:-$(dirname "$(dirname "$(readlink -f "$(command -v rt)")")")}
    tools=$kit/on/$machine/toolchain
    emulator=$tools/bin/qemu-x86_64
    compiler=x86_64-linux-gnu-gcc
    symbols=x86_64-linux-gnu-nm
    [ -x "$emulator" ] || fail "no emulator for x86-64 programs at $emulator"
fi

# Runs in the place of this script a program that rt linked, which wants the kit's own C library where the machine has none for x86-64.
run_linked() { # PROGRAM [WORDS...]
    if [ -z "$emulator" ]; then exec "$@"; fi
    exec "$emulator" "$tools/lib/ld-linux-x86-64.so.2" --library-path "$tools/lib" "$@"
}

can_compile() { # FOLDER
    echo '#include <stdint.h>
    int main(void) { return 0; }' >"$1/try.c"
    "$compiler" -static -o "$1/try" "$1/try.c" >"$1/try.log" 2>&1
}

# Sees that a static program can be built, and installs the compiler where it can't.
need_compiler() { # FOLDER for its files and logs
    if can_compile "$1"; then return; fi
    case $machine in
    x86_64) packages='gcc libc6-dev' ;;
    *) packages='gcc-x86-64-linux-gnu libc6-dev-amd64-cross' ;;
    esac
    echo "installing $packages" >&2
    # shellcheck disable=SC2086
    { apt-get update && apt-get install -y --no-install-recommends $packages; } </dev/null >"$1/install.log" 2>&1 ||
        fail "$packages could not be installed; see $1/install.log"
    can_compile "$1" || fail "$compiler can't build a static program; see $1/try.log"
}

can_compile_cpp() { # FOLDER
    echo '#include <stdint.h>
    uint64_t try_it;' >"$1/try.cpp"
    "$cpp" -std=c++11 -fsyntax-only "$1/try.cpp" >"$1/try.log" 2>&1
}

# Sees that C++ can be compiled, and installs a compiler where it can't. After: `cpp`.
need_cpp() { # FOLDER for its files and logs
    case $machine in
    x86_64) cpp=g++ packages=g++ ;;
    *) cpp=x86_64-linux-gnu-g++ packages='g++-x86-64-linux-gnu libc6-dev-amd64-cross' ;;
    esac
    if can_compile_cpp "$1"; then return; fi
    echo "installing $packages" >&2
    # shellcheck disable=SC2086
    { apt-get update && apt-get install -y --no-install-recommends $packages; } </dev/null >"$1/install.log" 2>&1 ||
        fail "$packages could not be installed; see $1/install.log"
    can_compile_cpp "$1" || fail "$cpp can't compile C++; see $1/try.log"
}
