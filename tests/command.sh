# Sourced by what a user runs, ./list and the commands in examples/: where their text comes from, and the proof of what they need. A thing that was proved
# is used as it is as long as the sources and the kit are those it was proved with; else it is proved again, by one command at a time.
#
# Before: `root` is the repository, `command` the name under which the command speaks. Exit statuses 3 to 5 mean the same in all commands:
# 3 what it needs could not be proved and built, 4 there is no text to read, 5 what it has to print is not printed whole.

say() {
    echo "$command: $*" >&2
}

fail() {
    say "$*"
    exit 3
}

no_text() {
    say "$*"
    exit 4
}

lost() {
    say "$*"
    exit 5
}

without_rt=yes
. "$root/tests/machine.sh"
. "$root/tests/make.sh"
proofs=$root/target/proved

# Shows what the head of the command's script says.
help() {
    sed -n '2,/^[^#]/s/^# \{0,1\}//p' "$0" || lost "the help could not be written to standard output"
    exit 0
}

# Takes the words that the command was given: --help, a file with a text, or none. Standard input is the text from then on.
begin() { # WORDS
    # A shell would open its next file in the place of a closed one.
    (: 3>&1) 2>/dev/null || lost "standard output is closed"
    case ${1:-} in
    --help) help ;;
    -?*) no_text "there is no option $1; --help says what there is" ;;
    esac
    [ $# -le 1 ] || no_text "it takes one file; --help says how"
    if [ $# -eq 1 ]; then
        [ -r "$1" ] || no_text "$1: there is no such file, or it may not be read"
        exec <"$1"
    fi
    (: 3<&0) 2>/dev/null || no_text "standard input is closed, and no file is named"
    [ ! -t 0 ] || say "waiting for the text of a network; Ctrl-D ends it, --help says how to name a file"
}

sum_of_sources() {
    (cd "$root" && find crates crates.txt -name out -prune -o -type f -exec sha256sum {} + | LC_ALL=C sort | sha256sum)
}

# Sees whether FILE is what was proved last, of these sources and by this kit. Where there is no kit, there is none that could have changed.
is_proved() { # FILE NAME
    [ -f "$root/$1" ] && [ -r "$proofs/$2" ] || return 1
    {
        read -r of_kit
        read -r of_sources
        read -r of_file
    } <"$proofs/$2"
    [ "$of_file" = "$(sha256sum <"$root/$1")" ] && [ "$of_sources" = "$(sum_of_sources)" ] || return 1
    ! command -v rt >/dev/null || [ "$of_kit" = "$(rt version </dev/null)" ]
}

# Waits until no other command builds in this repository. The lock is on crates.txt, which is there even when target/ is not.
lock() {
    mkdir -p "$proofs" 2>/dev/null && [ -w "$proofs" ] ||
        fail "something has to be built, and $(id -un) may not write to $root/target; somebody who may has to run this command once"
    exec 9<"$root/crates.txt"
    flock -n 9 && return
    say "waiting for another command that builds in $root/target"
    flock 9 || fail "no lock on $root/crates.txt"
}

unlock() {
    exec 9>&-
}

# The number of crates that NAME rests on, itself counted.
count_crates() { # NAME
    awk -v name="$1" '
        function take(crate, list, i) {
            if (!(crate in under) || crate in taken) return
            taken[crate]
            count++
            for (i = split(under[crate], list, " "); i > 0; i--) take(list[i])
        }
        { sub(/#.*/, "") }
        split($0, part, ":") == 2 { sub(/ .*/, "", part[1]); under[part[1]] = part[2] }
        END { take(name); print count }' "$root/crates.txt"
}

# Passes on what rt prints, and says of each crate when it is proved. Of those that have not changed rt prints nothing.
show_proofs() { # NUMBER of crates
    proved=0 crate=''
    while IFS= read -r line; do
        printf '%s\n' "$line"
        case $line in
        'crate '*': modules loaded='*)
            crate=${line#crate }
            crate=${crate%%:*}
            ;;
        'logic=proved '*)
            proved=$((proved + 1))
            say "$crate proved; so far $proved, of $1 at the most"
            ;;
        *': not proved'* | 'rt: the library '*' did not build'*) say "$line" ;;
        esac
    done
}

# Has FILE made of NAME (tests/make.sh) where it is not there as it was proved last.
need_proved() { # FILE NAME
    if is_proved "$1" "$2"; then return; fi
    command -v rt >/dev/null || fail "$2 has to be proved and built, and rt, the Rattle toolchain, is not on this machine; put it on the PATH"
    lock
    # While this one waited, another may have done it.
    if ! is_proved "$1" "$2"; then
        prove "$@"
    fi
    unlock
}

prove() { # FILE NAME
    log=$proofs/$2.log
    all=$(count_crates "$(crate_of "$2")")
    say "proving $2 and building it: $all crates, of which those that have not changed are passed over; all of them take some minutes; log: $log"
    sources=$(sum_of_sources)
    rm -f "$proofs/$2" "$proofs/status"
    # Nothing here may read standard input: it holds the network.
    {
        make_proved "$2" 2>&1
        echo $? >"$proofs/status"
    } | show_proofs "$all" >"$log"
    [ "$(cat "$proofs/status")" = 0 ] || fail "$2 was not proved; see $log"
    # Sources that changed meanwhile are proved the next time.
    { rt version </dev/null && echo "$sources" && sha256sum <"$root/$1"; } >"$proofs/new" && mv "$proofs/new" "$proofs/$2" ||
        fail "$2 was proved, but that could not be noted in $proofs"
}
