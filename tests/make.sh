# shellcheck shell=sh disable=SC2154
# Sourced by tests/command.sh, tests/build.sh and bench/run: has rt prove a crate and all that it rests on, and puts what is built of it where commands,
# tests and the bench look for it. `root` is the repository.
#
#   listing       the listing program, target/bin/listing
#   cornetariel   the archive for C, target/staticlib/libcornetariel.a, of the crate of its exports
make_proved() { # NAME
    case $1 in
    # What the program prints of no text is not looked at.
    listing) rt_in "$(crate_of listing)" run && place crates/listing/out/listing target/bin/listing ;;
    cornetariel) rt_in "$(crate_of cornetariel)" lib && place crates/cornetariel_c/out/libcornetariel_c.a target/staticlib/libcornetariel.a ;;
    esac
}

# The crate that is proved last for it.
crate_of() { # NAME
    case $1 in
    cornetariel) echo cornetariel_c ;;
    *) echo "$1" ;;
    esac
}

rt_in() { # CRATE VERB
    (cd "$root/crates/$1" && rt "$2") </dev/null
}

# A file is there whole or not at all, and no newer than it has to be.
place() { # FROM TO
    if cmp -s "$root/$1" "$root/$2"; then return; fi
    mkdir -p "$root/$(dirname "$2")" && cp "$root/$1" "$root/$2.new" && mv "$root/$2.new" "$root/$2"
}
