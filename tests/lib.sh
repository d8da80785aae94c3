# Read by the scripts of tests and bench, in the repository's folder: how they end, which archives and C files there are, and what
# compiles and runs for x86-64, the archives' processor. Each script sets 'out', the folder for what it builds.
# shellcheck shell=sh disable=SC2034,SC2154
home=$PWD
. desk/command.sh

wrong() { echo "$me: $*" >&2; exit 1; }
cannot() { echo "$me: can't run here: $*" >&2; exit 2; }

# take_archives WORD..: where the words begin with --archives FOLDER, that is 'folder', the archives' place; otherwise they are the kit's, in
# target/staticlib. Where --vectors comes next, 'only' says so. Then: shift "$taken".
take_archives() {
    folder=target/staticlib taken=0 only=
    if [ "${1:-}" = --archives ]; then
        [ $# -ge 2 ] || cannot "--archives wants a folder."
        folder=$(cd "$2" 2>/dev/null && pwd) || cannot "there is no folder '$2'."
        taken=2
        shift 2
    fi
    [ "${1:-}" != --vectors ] || only=vectors taken=$((taken + 1))
}

# after_vectors: ends the script where nothing but the outside vectors is wanted.
after_vectors() { [ -z "$only" ] || exit 0; }

# have_archives NAME..: these are in the folder; where it is the kit's they are made first.
have_archives() {
    for name; do
        if [ "$folder" = target/staticlib ]; then
            command -v rt >/dev/null || cannot "the Rattle kit's 'rt' is not on the PATH, and it makes the archives."
            (proved_archive "$name") || cannot "'desk/archive $name' makes no archive."
        fi
        [ -f "$folder/lib$name.a" ] || cannot "$folder/lib$name.a isn't there."
    done
}

# translated_archives FOLDER: the C in source/ as archives for this processor, under the names of the proved ones, which are x86-64 code;
# libtrap.a has what libwalks.a and libquick.a have too, so that these are empty.
translated_archives() {
    mkdir -p "$1"
    for source in monitor why screen compare tape delays; do cc -std=c99 -O2 -fPIC -Iinclude -c -o "$1/$source.o" "source/$source.c"; done
    (cd "$1" && rm -f lib*.a && ar rcs libtrap.a monitor.o && ar rcs libwalks.a && ar rcs libquick.a && ar rcs libwhy.a why.o && ar rcs libscreen.a screen.o &&
        ar rcs libcompare.a compare.o && ar rcs libtape.a tape.o && ar rcs libdelays.a delays.o && rm -- *.o)
}

# for_archives: finds what compiles for x86-64 and, on another processor, the Rattle kit's emulator, by which what was compiled is run.
# Sets 'compiler' and 'emulator'.
for_archives() {
    compiler=cc emulator=
    if [ "$(uname -m)" = x86_64 ]; then
        command -v cc >/dev/null || cannot "there is no C compiler 'cc'."
        return 0
    fi
    compiler=x86_64-linux-gnu-gcc
    command -v "$compiler" >/dev/null ||
        { apt-get update && apt-get install -y gcc-x86-64-linux-gnu libc6-dev-amd64-cross; } >/dev/null 2>&1 ||
        cannot "this is no x86-64, and Debian's gcc-x86-64-linux-gnu can't be installed."
    kit=$(cd "$(dirname "$(rt doc)")/.." && pwd)
    emulator=$(find "$kit/on" -name qemu-x86_64 -type f 2>/dev/null | head -n 1)
    [ -n "$emulator" ] || cannot "this is no x86-64, and the kit has no emulator for it."
}

# build PROGRAM FILE..: compiles what is run beside the archives, with every warning an error.
build() { "$compiler" -std=c11 -Wall -Wextra -Wpedantic -Werror "${optimised:--O2}" -static -Iinclude -Itests/monitor -o "$@"; }

# The C files that several programs share: 'second' is the second implementation, 'both' it and what lends words, 'drawn' make tables and
# calls, 'plain' is the benchmarks' monitor; 'beside' compare the calls, 'spoiled' one table in each way, 'waits' ask who is stuck.
second='tests/monitor/second.c tests/monitor/second_moves.c tests/monitor/second_sound.c tests/monitor/second_layout.c'
both="tests/monitor/trial.c tests/monitor/lent.c $second"
drawn='tests/monitor/draw.c tests/monitor/make_lists.c tests/monitor/make_tables.c tests/monitor/make_calls.c'
plain='bench/plain.c bench/plain_sound.c bench/plain_layout.c'
spoiled='tests/monitor/spoiled.c tests/monitor/spoiled_listing.c'
beside='tests/monitor/against.c tests/monitor/editions.c tests/monitor/semaphores.c'
waits='tests/stuck/lending.c tests/stuck/second_waits.c tests/monitor/entry_trap.c'
