#!/bin/sh
# table.sh PROGRAM BENCH: what a request, a byte of a body and a byte of a head cost in instructions,
# for a program that h1_serve_main was built as and one that h1_bench was built as. Each number is
# the difference of the counts for two sizes of input, divided by what the larger has more. In all
# rows but the first the instructions that make and give the input are taken off.
#
# The tunables keep the C library off `rep movsb` and `rep stosb`, each step of which callgrind
# counts as an instruction.
set -eu

if [ $# -ne 2 ]; then
    echo "usage: table.sh PROGRAM BENCH" >&2
    exit 2
fi
program=$1
bench=$2
GLIBC_TUNABLES=glibc.cpu.x86_rep_movsb_threshold=1000000000
GLIBC_TUNABLES=$GLIBC_TUNABLES:glibc.cpu.x86_rep_stosb_threshold=1000000000
export GLIBC_TUNABLES

# So many bytes hold each input whole.
whole=1000000000
# So many bytes has one request of the kind `get`.
one_get=27

# The instructions of a command line, which has to end with status 0.
count() {
    told=$(valgrind --tool=callgrind --callgrind-out-file=/dev/null "$@" 2>&1 >/dev/null) || {
        echo "failed: $*" >&2
        exit 1
    }
    echo "$told" | sed -n 's/.*Collected : //p'
}

# row NAME FEWER MORE COUNT: the difference of two counts for each of COUNT, with two digits.
row() {
    hundredths=$((($3 - $2) * 100 / $4))
    printf '%-46s %6d.%02d\n' "$1" $((hundredths / 100)) $((hundredths % 100))
}

# served KIND SIZE PIECE: the instructions of serving alone.
served() {
    all=$(count "$bench" "$@")
    given=$(count "$bench" "$@" give)
    echo $((all - given))
}

# serving NAME KIND SIZE LARGER PIECE
serving() {
    fewer=$(served "$2" "$3" "$5")
    more=$(served "$2" "$4" "$5")
    row "$1" "$fewer" "$more" $(($4 - $3))
}

fewer=$(count "$program" gen 1000)
more=$(count "$program" gen 4000)
row 'a request of gen' "$fewer" "$more" 3000
serving 'a GET of one field, pipelined' get 1000 4000 $whole
serving 'a GET of one field, one in each poll' get 1000 4000 $one_get
serving 'a GET of nine fields, pipelined' browser 500 2000 $whole
serving 'a POST of 100 bytes, pipelined' post 1000 4000 $whole
serving 'a byte of a counted body, whole' counted 65536 1048576 $whole
serving 'a byte of a counted body, in pieces of 64' counted 65536 1048576 64
serving 'a byte of a body in chunks of 4,096, whole' chunked 65536 1048576 $whole
serving 'a byte of a head, in pieces of 64' head 65536 262144 64
serving 'a byte of a head, byte by byte' head 16384 65536 1
