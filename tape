#!/bin/sh
# Runs the tape reader on a tape, and builds the program over it, source/tape.c, first where that is needed.
set -eu
home=$(dirname "$(readlink -f "$0")")
. "$home/desk/command.sh"

usage() {
    cat <<'END'
usage: ./tape MODE [--table TABLE] [--base N] [--area N] [--rows] [TAPE]

Reads a paper tape as the reader's input operation does. Its bytes come from
the file TAPE or from standard input, what is delivered goes to standard
output, and what happened is told on standard error. The operation is proved
code, translated to C; the program is compiled at the first use, in a second.

  MODE           1 all eight bits, 5 odd parity, 9 even parity. In 5 and 9 a
                 byte with wrong parity becomes 26, and the top bit goes
  --table TABLE  convert each character by this table, in modes 5 and 9
  --base N       where in the table character 0 is; 0 unless given
  --area N       room for N bytes; for the whole tape unless given
  --rows         the tape is text, a row of eight holes a line: 'o' a hole,
                 '.' none, top bit first; what follows behind a blank is not
                 read, nor lines that begin with '#'

A table is text too. A line says what the entry at a place does:

  PLACE normal VALUE    deliver VALUE
  PLACE skip            deliver nothing
  PLACE up VALUE        move the base up by VALUE (0: by 256) and look the
  PLACE down VALUE      character up again; or down
  PLACE end             end the block
  PLACE parity VALUE    deliver VALUE, and set the status
  PLACE CLASS VALUE     any class by its number
  page N                later places count from N

FIRST..LAST for PLACE names a range, in which the values of normal and parity
count up. A number is decimal, or hexadecimal behind 0x, or 'x' for the code of
x. A later line wins; a place that no line names is refused with 18. '#' begins
a remark.

Exit codes: 0 done; 1 refused with a number, nothing delivered; 2 it could not
be tried (one sentence says why).
Try: ./tape 9 --table examples/shop.table --rows examples/order.rows
./tape --version says which version this is.
END
}

need_output
case "${1-}" in
--help | -h) deliver usage && exit 0 ;;
--version) deliver version && exit 0 ;;
esac
build_native tape 'the tape reader' "$home"/desk/tape/*.c "$home/source/tape.c"
exec "$native" "$@"
