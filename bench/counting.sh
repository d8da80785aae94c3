# Read by the scripts beside it, behind tests/lib.sh: count() counts a program's instructions. On x86-64 valgrind counts; on another
# processor the Rattle kit's emulator runs the programs. What is measured is compiled at -O3. Sets 'out', the folder for what is built,
# and 'log', a file for what nobody reads.
# shellcheck shell=sh disable=SC2034,SC2154
optimised=-O3
for_archives
out=target/bench
mkdir -p "$out"
log=$(mktemp)
trap 'rm -f "$log"' EXIT

# count PROGRAM [WORD..]: how many instructions a run executes.
if [ -z "$emulator" ]; then
    command -v valgrind >/dev/null || cannot "valgrind is missing; install it to count instructions."
    count() {
        valgrind --tool=callgrind --callgrind-out-file=/dev/null "$@" >/dev/null 2>"$log"
        sed -n 's/.*Collected : //p' "$log"
    }
else
    count() {
        "$emulator" -one-insn-per-tb -d exec,nochain -D "$log" "$@" >/dev/null
        grep -c '^Trace' "$log"
    }
fi

# inside PROGRAM [WORD..]: how many instructions each call of its function 'measured' takes, a line each; what it says, a line for each
# of them, goes to the file 'names' in 'out'.
if [ -z "$emulator" ]; then
    inside() {
        rm -f "$out"/part*
        valgrind --tool=callgrind --toggle-collect=measured --dump-after=measured --callgrind-out-file="$out/part" \
            "$@" >"$out/names" 2>"$log" || return
        place=0
        while read -r name; do
            place=$((place + 1))
            sed -n 's/^totals: //p' "$out/part.$place"
        done <"$out/names"
    }
else
    inside() { # the emulator tells each instruction; awk counts from where 'measured' begins to where a caller goes on
        code=$(x86_64-linux-gnu-objdump -d --no-show-raw-insn "$1")
        begin=$(echo "$code" | sed -n 's/^\([0-9a-f]*\) <measured>:$/\1/p')
        back=$(echo "$code" | awk '/call.* <measured>$/ { getline; sub(":", "", $1); printf "%016s/", $1 }' | tr ' ' 0)
        rm -f "$out/trace"
        mkfifo "$out/trace"
        awk -F / -v begin="$begin" -v back="$back" '!/^Trace/ { next }
            $2 == begin { within = 1; number = 0 } within && index(back, $2 "/") { print number; within = 0 } within { number++ }' "$out/trace" &
        exec 3<>"$out/trace" # held open, so that awk ends when the emulator has, whatever became of it
        status=0
        "$emulator" -one-insn-per-tb -d exec,nochain -D "$out/trace" "$@" >"$out/names" || status=$?
        exec 3>&-
        wait
        return $status
    }
fi
