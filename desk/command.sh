# Read by the commands, which set 'home', and by the scripts of tests and bench: a command's sentences, one way of
# delivering text, and what counts as older than its sources.
# shellcheck shell=sh disable=SC2154
me=${0##*/}

tell() { # SENTENCE
    echo "$me: $1" >&2 || :
}

fail() { # SENTENCE
    tell "$1"
    exit 2
}

version() { echo "$me $(cat "$home/VERSION")"; }

every_archive='trap walks quick why screen compare tape delays' # read by those who read this

# need_output: nothing is begun where nothing can be told; a closed standard error is no reason not to begin.
need_output() {
    (: 3>&2) 2>/dev/null || exec 2>/dev/null
    (: 3>&1) 2>/dev/null || fail "standard output is closed, so there is nowhere to write."
}

# deliver COMMAND [WORD..]: what it writes goes to standard output by way of cat, which can tell where a proved program can't
# that there is no room. By descriptor 3 the text goes out; by 4 come cat's words, and COMMAND's status if it isn't 0.
deliver() {
    passed=0
    exec 3>&1
    said=$({ { "$@" 3>&- 4>&- || echo "status $?" >&4; } | LC_ALL=C cat 2>&4 >&3 3>&- 4>&-; } 4>&1) || passed=$?
    [ "$passed" -ne 141 ] || exit 141 # nobody reads on: quiet, as usual
    [ "$passed" -eq 0 ] || fail "standard output can't be written: $(echo "$said" | sed -n 's/^cat: .*: //p')."
    [ -z "$said" ] || fail "the program broke off before its end ($said)."
}

# is_fresh FILE SOURCE..: the file is there, and no source of it is newer. What the kit makes in a crate's folder, its out, is no source.
is_fresh() {
    looked_at=$1
    shift
    [ -f "$looked_at" ] && [ -z "$(find "$@" -path '*/crates/*/out' -prune -o -path '*/crates/*' ! -path '*/crates/*/*' -o \
        -newer "$looked_at" -print 2>/dev/null | head -n 1)" ]
}

need_python() {
    command -v python3 >/dev/null 2>&1 || fail "Python 3 is missing; on Debian it is in the package 'python3'."
}

# need_kit WHAT: the Rattle kit is there, which makes WHAT.
need_kit() {
    command -v rt >/dev/null 2>&1 || fail "the Rattle kit is missing: its command 'rt' is not on the PATH, and $1 is not built yet."
}

# need_compiler WHAT: a C compiler is there, which makes WHAT.
need_compiler() {
    command -v cc >/dev/null 2>&1 || fail "there is no C compiler 'cc', and $1 is not built yet; on Debian it is in the package 'gcc'."
}

# archive_crate NAME: the crate that libNAME.a is made of. A library that other crates use is no archive: NAME_c is one over it.
archive_crate() { case $1 in trap | walks | delays) echo "$1_c" ;; *) echo "$1" ;; esac }

# make_archive NAME: has the kit prove and make the archive, and puts it, whole, at target/staticlib/libNAME.a.
make_archive() {
    crate=$(archive_crate "$1")
    (cd "$home/crates/$crate" && rt lib) && mkdir -p "$home/target/staticlib" &&
        cp "$home/crates/$crate/out/lib$crate.a" "$home/target/staticlib/$1.$$" && mv "$home/target/staticlib/$1.$$" "$home/target/staticlib/lib$1.a"
}

# proved_archive NAME: target/staticlib/libNAME.a is there and no older than the texts of the crates; the kit's own words, some thirty
# lines, are shown only where it fails.
proved_archive() {
    ! is_fresh "$home/target/staticlib/lib$1.a" "$home/crates.txt" "$home/crates" || return 0
    noted=$(make_archive "$1" 2>&1) || {
        echo "$noted" >&2
        fail "the build did not succeed; the kit's own words are above."
    }
}

# build_native NAME WHAT FILE..: target/native/NAME is there, compiled here from these C files, and no older than they or the headers
# are; WHAT is what a person calls it. It is put in its place only when it is whole. The files are named from the root; 'native_flags' has
# what the compiler is told besides, in the repository's folder.
build_native() {
    native=$home/target/native/$1 what=$2
    shift 2
    ! is_fresh "$native" "$@" "$home/include" || return 0
    need_compiler "$what"
    (mkdir -p "$home/target/native" && : >"$native.$$" && rm "$native.$$") 2>/dev/null || fail "$what is not built yet, and '$home/target' can't be written."
    compiler=
    trap 'kill $compiler 2>/dev/null || :; rm -f "$native.$$"; fail "interrupted in the middle of the build."' INT TERM HUP
    # shellcheck disable=SC2086
    (cd "$home" && exec cc -std=c11 -O2 -Iinclude ${native_flags-} -o "$native.$$" "$@") >&2 &
    compiler=$!
    wait "$compiler" || {
        rm -f "$native.$$"
        fail "the build did not succeed; the compiler's own words are above."
    }
    trap - INT TERM HUP
    mv "$native.$$" "$native"
}
