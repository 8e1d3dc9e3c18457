#!/bin/bash
# Runs each command of the built program with one piece of memory refused: the first that it asks for, then the second,
# and so on, until none is refused. Each run ends as it does with ample memory, or wants memory; what it was to make then
# isn't there, is as it was, or is empty. It prints how many pieces were refused, and what is wrong, and then ends with
# status 1. It needs a C compiler. Files of the system take memory where they are opened or created: wanting there is told
# as a call that failed.
#
# usage: tests/memory.sh            builds the program, where that is needed
#        tests/memory.sh PROGRAM    runs this one
top=$(readlink -f -- "$(dirname -- "$(readlink -f -- "$0")")/..")
if [ $# = 0 ]; then
    # What the building says isn't judged here.
    "$top/nanolog" --build || exit 1
    program=$top/crates/nanolog/out/nanolog
else
    program=$(readlink -f -- "$1")
fi
[ -x "$program" ] || exit 1
room=$(mktemp -d) || exit 1
trap 'rm -rf -- "$room"' EXIT
cd -- "$room" || exit 1
failures=0 refused=0

fail() {
    echo "memory.sh: $*"
    failures=$((failures + 1))
}

# What stands in front of the allocator of the C library: the piece with the number NANOLOG_PIECE isn't given, and then
# the file `refused` is made.
cat >refusing.c <<'END'
#define _GNU_SOURCE
#include <dlfcn.h>
#include <errno.h>
#include <fcntl.h>
#include <stdatomic.h>
#include <stdlib.h>
#include <unistd.h>

extern void *__libc_malloc(size_t);
extern void *__libc_calloc(size_t, size_t);
extern void *__libc_realloc(void *, size_t);
extern void *__libc_memalign(size_t, size_t);

static atomic_long asked;
static long piece = -1;

__attribute__((constructor)) static void begin(void) {
    const char *number = getenv("NANOLOG_PIECE");
    atomic_store(&asked, 0);
    piece = number ? atol(number) : 0;
}

static int is_refused(void) {
    if (piece <= 0 || atomic_fetch_add(&asked, 1) + 1 != piece) return 0;
    close(open("refused", O_CREAT | O_WRONLY, 0644));
    errno = ENOMEM;
    return 1;
}

void *malloc(size_t size) { return is_refused() ? NULL : __libc_malloc(size); }
void *calloc(size_t count, size_t size) { return is_refused() ? NULL : __libc_calloc(count, size); }
void *realloc(void *old, size_t size) { return is_refused() ? NULL : __libc_realloc(old, size); }
void *memalign(size_t align, size_t size) { return is_refused() ? NULL : __libc_memalign(align, size); }
void *aligned_alloc(size_t align, size_t size) { return memalign(align, size); }
int posix_memalign(void **into, size_t align, size_t size) {
    void *piece_of = memalign(align, size);
    if (!piece_of) return ENOMEM;
    *into = piece_of;
    return 0;
}
END
"${CC:-cc}" -O2 -shared -fPIC -o refusing.so refusing.c -ldl || exit 1

# The file that what is to be made holds before each run; none, where that isn't there then.
older=

# lay MADE makes it so. MADE is the file that a run makes, or -.
lay() {
    [ "$1" = - ] || rm -f -- "$1"
    [ "$1" = - ] || [ -z "$older" ] || cp -- "$older" "$1"
}

# begin MADE WORD.. runs the program with ample memory, and keeps how that ended.
begin() {
    local made=$1
    shift
    lay "$made"
    "$program" "$@" >want_out 2>want_err
    want=$?
    rm -f want_made
    [ "$made" = - ] || [ ! -e "$made" ] || told "$made" >want_made
}

# told FILE prints what a file that was made holds; of a log its lines, since a session may cut it in any way.
told() {
    if head -c 4 -- "$1" | grep -q NLOG; then "$program" decompress "$1"; else cat -- "$1"; fi
}

# is_left MADE tells whether nothing was made: the file isn't there, is empty, or is as it was.
is_left() {
    [ "$1" = - ] || [ ! -s "$1" ] || { [ -n "$older" ] && cmp -s -- "$1" "$older"; }
}

# is_made MADE tells whether what was made is what ample memory makes; that is nothing where the run isn't done.
is_made() {
    if [ "$1" = - ] || [ "$want" != 0 ]; then is_left "$1"; else cmp -s <(told "$1") want_made; fi
}

# is_as_wanted MADE tells whether a run ended as with ample memory.
is_as_wanted() {
    [ "$status" = "$want" ] && cmp -s out want_out && cmp -s err want_err && is_made "$1"
}

# is_fault MADE tells whether a run said that a call on a file failed, before anything was printed.
is_fault() {
    [ ! -s out ] && is_left "$1" &&
        case $status in
            4) grep -qx 'nanolog: [a-z0-9.]*: read fault' err ;;
            5) [ "$(cat err)" = "nanolog: $1: write fault" ] ;;
            *) false ;;
        esac
}

# wants_memory MADE tells whether a run said that memory was wanting. A front of the text may be printed, but with
# `replay`, which prints nothing then.
wants_memory() {
    [ "$status" = 6 ] && cmp -s err <(printf 'nanolog: want of memory\n') && is_left "$1" &&
        if [ "$2" = replay ]; then [ ! -s out ]; else cmp -s out <(head -c "$(stat -c %s out)" want_out); fi
}

# each MADE WORD.. refuses one piece of memory after the other.
each() {
    local made=$1 piece=0 wanting=0
    shift
    begin "$made" "$@"
    while :; do
        piece=$((piece + 1))
        rm -f refused
        lay "$made"
        NANOLOG_PIECE=$piece LD_PRELOAD=$room/refusing.so "$program" "$@" >out 2>err
        status=$?
        [ -e refused ] || break
        refused=$((refused + 1))
        [ "$status" != 6 ] || wanting=$((wanting + 1))
        is_as_wanted "$made" || wants_memory "$made" "$1" || is_fault "$made" ||
            fail "nanolog $*: piece $piece: status $status, $(cat err)"
    done
    is_as_wanted "$made" || fail "nanolog $*: status $status where nothing is refused"
    echo "nanolog $*: $((piece - 1)) pieces, and memory was wanting $wanting times"
}

cat >t <<'END'
nanolog-trace 1
message 0 NOTICE 12 "srv.cc" "x=%d"
clock 1000 1514764800000000000 2000000000
writers 1
call 0 1003 0 7
end
END
sed 's/^end$/call 0 1003 0 -3\ncall 0 1003 0 7\nend/' t >t3
printf '# 7 "h.h"\nNANO_LOG(ERROR, "e");\n' >m.cc
cp m.cc n.cc
printf '# 7 "h.h"\nNANO_LOG(ERROR, "e%%f");\n' >f.cc
printf '%s\n' 'nanolog-schedule 1' 'rings 1 1024' 'look 0' 'store 0 3' 'store 0 1003' 'store 0 7' 'publish 0' 'load 0' \
    'read 0' 'read 0' 'read 0' 'release 0' >s
"$program" preprocess d m.cc n.cc >/dev/null || exit 1
"$program" replay t l >/dev/null || exit 1
"$program" replay t3 l3 >/dev/null || exit 1

each - direct t
each made preprocess made m.cc n.cc
each made preprocess made f.cc f.cc
each made replay t made
each - decompress l
each made replay t3 made
each - aggregate l3 0 0
each - aggregate l3 1 0
each - aggregate l3 0 1
each - schedule s
each - generate 1 2 1
each - selftest 1 2 1
each made inject d m.cc made
each made header d made
each - direct nofile
each - words that are no command

# What is to be made is there already.
older=t
each made replay t3 made
each made preprocess made m.cc n.cc

echo "$refused pieces were refused"
[ "$failures" = 0 ]
