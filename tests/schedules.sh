#!/bin/bash
# Plays long schedules with the built program: as many steps as there may be and one more, and more bytes than are read.
# It prints how long each run takes and how much memory, and what is wrong, and then ends with status 1. It needs a C
# compiler.
#
# usage: tests/schedules.sh            builds the program, where that is needed
#        tests/schedules.sh PROGRAM    runs this one
top=$(readlink -f -- "$(dirname -- "$(readlink -f -- "$0")")/..")
if [ $# = 0 ]; then
    # What the building says isn't judged here.
    "$top/nanolog" --build || exit 1
    program=$top/crates/nanolog/out/nanolog
else
    program=$(readlink -f -- "$1")
fi
[ -x "$program" ] || exit 1
room=$(mktemp -d) || exit 1
trap 'rm -rf -- "$room"' EXIT
cd -- "$room" || exit 1
most=1000000 seconds=20 failures=0

fail() {
    echo "schedules.sh: $*"
    failures=$((failures + 1))
}

# It runs its words, and puts how many kilobytes they had at most into the file `peak`.
cat >peak.c <<'END_OF_C'
#include <stdio.h>
#include <sys/resource.h>
#include <sys/wait.h>
#include <unistd.h>

int main(int count, char **words) {
    int status = 0;
    struct rusage usage;
    pid_t child = fork();
    if (child == 0) {
        execv(words[1], words + 1);
        _exit(127);
    }
    waitpid(child, &status, 0);
    getrusage(RUSAGE_CHILDREN, &usage);
    FILE *peak = fopen("peak", "w");
    if (count < 2 || !peak || fprintf(peak, "%ld\n", usage.ru_maxrss) < 0 || fclose(peak) != 0) return 127;
    return WIFEXITED(status) ? WEXITSTATUS(status) : 127;
}
END_OF_C
"${CC:-cc}" -O2 -o measure peak.c || exit 1

# play FILE STATUS ERR plays the schedule, and compares how that ends. What it prints is in the file `out`.
play() {
    local began=$SECONDS status
    ./measure "$program" schedule "$1" >out 2>err
    status=$?
    took=$((SECONDS - began))
    kilobytes=$(cat peak)
    echo "schedule $1: $(stat -c %s "$1") bytes in $took s and $kilobytes kB, $(wc -l <out) lines"
    [ "$status" = "$2" ] || fail "$1: status $status, not $2"
    [ "$(cat err)" = "$3" ] || fail "$1: it said: $(cat err)"
    [ "$took" -le "$seconds" ] || fail "$1: it took $took s"
}

# ends LINE.. compares the last lines that were printed.
ends() {
    cmp -s <(tail -n $# out) <(printf '%s\n' "$@") || fail "it printed at its end: $(tail -n $# out)"
}

# looks COUNT prints a schedule of one ring, with so many steps.
looks() {
    printf 'nanolog-schedule 1\nrings 1 1024\n'
    yes 'look 0' | head -n "$1"
}

at='written 0 published 0 released 0 seen 0 loaded 0 read 0'
too_many='refused: 11 TooMany'

# As many steps as there may be, and then one more, which is no step or isn't ended.
looks $most >whole
play whole 0 ''
ends "$((most - 1)) look 0: $at" "$most look 0: $at" 'ring 0: sent 0 got 0 open'
printing=$kilobytes
head -n $most out >steps
for line in 'look 0' 'jump' 'look 1'; do
    { cat whole && echo "$line"; } >more
    play more 2 "nanolog: more:$((most + 3)): $too_many"
    cmp -s out steps || fail "with $line behind the steps it printed something else"
done
{ cat whole && printf 'look 0'; } >more
play more 2 "nanolog: more:$((most + 3)): $too_many"

# Memory doesn't grow with what is printed: a text of the same length that prints nothing takes as much.
{ printf 'nanolog-schedule 1\nrings 1 1024\nlook 1\n' && tail -n $((most - 1)) whole; } >silent
play silent 2 'nanolog: silent:3: refused: 3 Ring'
[ "$printing" -le "$((kilobytes + 1024))" ] || fail "printing takes $printing kB, and else $kilobytes kB are taken"

# The longest lines of steps, in rings of the greatest size, and then more bytes than are read.
awk -v most=$most 'BEGIN {
    print "nanolog-schedule 1"
    print "rings 64 65536"
    for (step = 0; step < most; step++)
        print "store", 10 + int(step / 65536), step % 512 == 0 ? "4294902272" : "18446744073709551615"
}' >longest
play longest 0 ''
ends 'ring 62: sent 0 got 0 open' 'ring 63: sent 0 got 0 open'
{ cat longest && head -c 70000000 /dev/zero | tr '\0' 'x'; } >longer
play longer 2 "nanolog: longer:$((most + 3)): $too_many"

# A line without an end, longer than all that is read.
{ printf 'nanolog-schedule 1\nrings 1 1024\n' && head -c 70000000 /dev/zero | tr '\0' 'x'; } >endless
play endless 2 'nanolog: endless:3: refused: 2 Step'
[ "$failures" = 0 ]
