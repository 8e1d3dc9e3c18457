#!/bin/bash
# Changes each byte of five logs, and compares what the built program says of them with what the rules of a log say, in
# the C program damage.c. It prints what is wrong, and then ends with status 1. It needs a C compiler.
#
# usage: tests/damage.sh            builds the program, where that is needed
#        tests/damage.sh PROGRAM    runs this one
#        tests/damage.sh -l ..      lists each change with the offset and the cause of the damage
here=$(dirname -- "$(readlink -f -- "$0")")
list=
[ "${1:-}" != -l ] || { list=1; shift; }
if [ $# = 0 ]; then
    # What the building says isn't judged here.
    "$here/../nanolog" --build || exit 1
    program=$here/../crates/nanolog/out/nanolog
else
    program=$(readlink -f -- "$1")
fi
[ -x "$program" ] || exit 1
room=$(mktemp -d) || exit 1
trap 'rm -rf -- "$room"' EXIT
cd -- "$room" || exit 1
"${CC:-cc}" -O2 -o damage "$here/damage.c" || exit 1
failures=0 changes=0

# bytes BYTE.. writes bytes that are given in hexadecimal.
bytes() {
    printf "$(printf '\\x%s' "$@")"
}

# The magic and the version, behind which so many writers stand; the clock; one of a second later; and a message of
# srv.cc with the format x=%d.
header='4e 4c 4f 47 01'
second='4e 4c 4f 47 02'
clock='e8 03 00 00 00 00 00 00 00 00 44 5e 8f 86 05 15 00 94 35 77 00 00 00 00'
later='d0 07 00 00 00 00 00 00 00 ca de 99 8f 86 05 15 00 ca 9a 3b 00 00 00 00'
message='01 00 00 00 00 01 00 03 0c 00 00 00 06 00 73 72 76 2e 63 63 04 00 78 3d 25 64'

# One call of one writer.
bytes $header 01 $clock $message 02 00 04 00 00 00 10 03 01 07 04 00 >one.log

# %d%u%ld%lu%*.*s of the limits of each type, and a text.
bytes $header 01 $clock 01 00 00 00 00 01 00 03 01 00 00 00 01 00 61 0f 00 25 64 25 75 25 6c 64 25 6c 75 25 2a 2e 2a 73 \
    02 00 20 00 00 00 10 02 49 88 2b 01 ff ff ff ff 00 00 00 00 00 00 00 80 ff ff ff ff ff ff ff ff fe 0f ff 0f 01 71 \
    04 00 >limits.log

# Extents of three writers, two of which are closed.
bytes $header 03 $clock $message 02 01 04 00 00 00 10 03 01 01 02 00 08 00 00 00 10 03 01 02 10 02 01 03 04 01 \
    02 02 04 00 00 00 10 05 01 02 02 00 04 00 00 00 10 07 01 04 04 00 >three.log

# Two clocks, and one call of one writer, in version 2.
bytes $second 01 00 $clock 03 $later $message 02 00 00 05 00 00 00 20 eb 03 01 07 04 00 00 >clocks.log

# Extents of three of 258 writers, two of which are closed. A clock parts them: a record in front of it nearly reaches its
# tick, and one behind it has that very stamp.
bytes $second 02 01 $clock $message 02 01 01 05 00 00 00 20 e7 03 01 01 02 00 00 04 00 00 00 10 03 01 02 04 01 01 \
    03 $later 02 00 01 05 00 00 00 20 e8 03 01 03 02 00 00 09 00 00 00 20 e6 03 01 04 10 05 01 05 04 00 01 >parted.log

for log in one limits three clocks parted; do
    ./damage "$program" "$log.log" >table || failures=$((failures + 1))
    [ -z "$list" ] || sed "s/^/$log /" table
    grep '!' table | sed "s/^/damage.sh: $log.log: /"
    changes=$((changes + $(wc -l <table)))
done
echo "damage.sh: $changes changes, $([ "$failures" = 0 ] && echo all is well || echo "see above")"
[ "$failures" = 0 ]
