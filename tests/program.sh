#!/bin/bash
# Runs the built program over files of the system, and the commands that the pages show. It prints what is wrong, and
# then ends with status 1.
top=$(readlink -f -- "$(dirname -- "$(readlink -f -- "$0")")/..")
[ -x "$top/nanolog" ] || exit 1
room=$(mktemp -d) || exit 1
trap 'rm -rf -- "$room"' EXIT
cd -- "$room" || exit 1
ln -s -- "$top/nanolog" "$top/examples" .
failures=0

fail() {
    echo "program.sh: $*"
    failures=$((failures + 1))
}

# What a run printed is kept in the files out and err, which it can't read as a trace.
# judge WHAT ENDED STATUS ERR compares the status that a run ended with, and what it said.
judge() {
    [ "$2" = "$3" ] || fail "$1: status $2, not $3"
    cmp -s err <(printf '%s' "$4") || fail "$1: it said: $(cat err)"
}

# expect STATUS OUT ERR WORD.. runs the program on the words, and compares.
expect() {
    local status=$1 out=$2 err=$3
    shift 3
    ./nanolog "$@" >out 2>err
    judge "nanolog $*" $? "$status" "$err"
    cmp -s out <(printf '%s' "$out") || fail "nanolog $*: it printed: $(cat out)"
}

# holds FILE TEXT compares what a file holds.
holds() {
    cmp -s -- "$1" <(printf '%s' "$2") || fail "$1 holds: $(cat -- "$1")"
}

# The program is built, where that is needed. What a trial run prints isn't judged here.
./nanolog --build || exit 1

cat >t <<'END'
nanolog-trace 1
message 0 NOTICE 12 "srv.cc" "x=%d"
clock 1000 1514764800000000000 2000000000
writers 1
call 0 1003 0 7
end
END
line=$'1514764800.000000001 srv.cc:12 NOTICE[0]: x=7\n'
accepted=$'accepted 1 dropped 0 filtered 0\n'
usage='usage:
  nanolog preprocess DICT FILE..
  nanolog replay TRACE LOG [--ring N] [--batch B] [--full wait|drop] [--level S]
  nanolog decompress LOG
  nanolog aggregate LOG ID NTH
  nanolog direct TRACE
  nanolog generate SEED CALLS WRITERS
  nanolog selftest SEED CALLS WRITERS
  nanolog schedule FILE
  nanolog migrate OLD NEW
  nanolog inject DICT FILE OUT
  nanolog header DICT OUT
'

# ---- words

expect 1 '' "$usage"
expect 1 '' "$usage" preprocess
expect 1 '' "$usage" preprocess d
expect 1 '' "$usage" preprocess d m.cc d
expect 1 '' "$usage" preprocess d '' m.cc
expect 1 '' "$usage" preprocess d $(seq 1025)
expect 1 '' "$usage" direct
expect 1 '' "$usage" direct --help
expect 1 '' "$usage" direct t t
expect 1 '' "$usage" replay t
expect 1 '' "$usage" replay t t
expect 1 '' "$usage" replay t l --level
expect 1 '' "$usage" replay t l --level notice
expect 1 '' "$usage" replay t l --level ERROR --level ERROR
expect 1 '' "$usage" replay t l --ring
expect 1 '' "$usage" replay t l --ring 1000
expect 1 '' "$usage" replay t l --ring 1048577
expect 1 '' "$usage" replay t l --ring +2048
expect 1 '' "$usage" replay t l --ring 2048 --ring=2048
expect 1 '' "$usage" replay t l --batch 0
expect 1 '' "$usage" replay t l --batch 65537
expect 1 '' "$usage" replay t l --full
expect 1 '' "$usage" replay t l --full shed
expect 1 '' "$usage" replay t l --threads 2
expect 1 '' "$usage" direct t --level ERROR
expect 1 '' "$usage" direct t --ring 2048
expect 1 '' "$usage" direct -t
expect 1 '' "$usage" decompress
expect 1 '' "$usage" decompress l --full drop
expect 1 '' "$usage" aggregate l 0
expect 1 '' "$usage" aggregate l 0 4294967296
expect 1 '' "$usage" aggregate '' 0 0
expect 1 '' "$usage" generate 1 2
expect 1 '' "$usage" generate 1 1000001 1
expect 1 '' "$usage" generate 18446744073709551616 2 1
expect 1 '' "$usage" selftest 1 2 0
expect 1 '' "$usage" selftest 1 2 65
expect 1 '' "$usage" schedule t t
expect 1 '' "$usage" migrate l
expect 1 '' "$usage" migrate l l
expect 1 '' "$usage" migrate l ''
expect 1 '' "$usage" inject d m.cc
expect 1 '' "$usage" inject d l d
expect 1 '' "$usage" inject d l l
expect 1 '' "$usage" inject d m.cc l l
expect 1 '' "$usage" inject d '' l
expect 1 '' "$usage" header d
expect 1 '' "$usage" header d d
expect 1 '' "$usage" header d l --level ERROR
expect 1 '' "$usage" direct $'\xff'
[ -e l ] && fail "words that are no command created a log"

# ---- lines and logs

expect 0 "$line" '' direct t
expect 0 "$line" '' direct "$room/t"

# The log is in the file when the program has ended, and nothing of what the file held.
head -c 1000 /dev/zero >l
expect 0 "$accepted" '' replay t l
log='4e4c4f470101 e803000000000000 0000445e8f860515 0094357700000000 01000000000100 030c0000000600 7372762e6363'
log+=' 0400783d2564 020004000000 10030107 0400'
[ "$(od -An -v -tx1 l | tr -d ' \n')" = "${log// /}" ] || fail "the log of t is: $(od -An -v -tx1 l)"
expect 0 "$line" '' decompress l

# The level leaves the call out, or doesn't. It stands anywhere, and behind `--` any word is a name.
expect 0 $'accepted 0 dropped 0 filtered 1\n' '' replay t l --level WARNING
[ "$(wc -c <l)" = 32 ] || fail "the log without a call has $(wc -c <l) bytes"
expect 0 '' '' decompress l
expect 0 $'accepted 0 dropped 0 filtered 1\n' '' replay --level=ERROR t l
expect 0 "$accepted" '' replay t --level NOTICE -- -l
expect 0 "$line" '' decompress -- -l
expect 0 "$accepted" '' replay t l

# Pipes in place of files, which have no size.
expect 0 "$line" '' direct <(cat t)
expect 0 "$line" '' decompress <(cat l)

# ---- sessions

# same_lines LOG TRACE WHAT compares the lines of a log with those of a trace.
same_lines() {
    cmp -s <(./nanolog decompress "$1" 2>&1) <(./nanolog direct "$2" 2>&1) || fail "$3: the log has other lines"
}

# Whatever the options, a call for which there is room is logged.
cp l one
for options in '--full drop --ring 1024' '--full=wait --ring=1048576 --batch=1' '--batch 65536 --level DEBUG'; do
    # shellcheck disable=SC2086 # These are several words.
    expect 0 "$accepted" '' replay t l $options
    cmp -s one l || fail "replay t l $options: another log"
done

expect 0 $'accepted 9 dropped 0 filtered 0\n' '' replay examples/first.trace first.log
same_lines first.log examples/first.trace first.trace
expect 0 $'count 4 least 9 greatest 1207 sum 1611\n' '' aggregate first.log 1 2
expect 0 $'count 1 least -28 greatest -28 sum -28\n' '' aggregate first.log 3 1
expect 2 '' $'nanolog: first.log: refused: 2 NoSuchArgument\n' aggregate first.log 1 0
expect 2 '' $'nanolog: first.log: refused: 1 NoSuchMessage\n' aggregate first.log 5 0
expect 7 '' $'nanolog: none: absent\n' aggregate none 0 0
head -c 60 l >cut
expect 3 $'count 0\n' $'nanolog: cut:56: damaged: 4 Cut\n' aggregate cut 0 0

# A log of version 1 becomes one of version 2, with the same line. No other file becomes one.
expect 0 $'migrated 3\n' '' migrate l new
new='4e4c4f47020100 e803000000000000 0000445e8f860515 0094357700000000 01000000000100 030c0000000600 7372762e6363'
new+=' 0400783d2564 02000004000000 10030107 040000'
[ "$(od -An -v -tx1 new | tr -d ' \n')" = "${new// /}" ] || fail "the migrated log of t is: $(od -An -v -tx1 new)"
expect 0 "$line" '' decompress new
expect 2 '' $'nanolog: new: refused: 1 NotOne\n' migrate new newer
expect 3 '' $'nanolog: cut:56: damaged: 4 Cut\n' migrate cut newer
expect 7 '' $'nanolog: none: absent\n' migrate none newer
[ -e newer ] && fail "a log that isn't migrated left a file"

expect 0 $'accepted 3 dropped 0 filtered 6\n' '' replay examples/first.trace first.log --level WARNING

# Calls of one stamp are printed by writer, whichever thread came first. A writer without calls is closed too.
sed -e 's/^writers 1/writers 3/' -e '/^call/c\call 1 1003 0 2\ncall 0 1003 0 1\ncall 1 1003 0 3' t >equal
later=$'1514764800.000000001 srv.cc:12 NOTICE[1]: x=2\n1514764800.000000001 srv.cc:12 NOTICE[1]: x=3\n'
all=$'1514764800.000000001 srv.cc:12 NOTICE[0]: x=1\n'$later
expect 0 "$all" '' direct equal
for ((turn = 0; turn < 10; turn++)); do
    expect 0 $'accepted 3 dropped 0 filtered 0\n' '' replay equal equal.log
    expect 0 "$all" '' decompress equal.log
done

# made WRITERS CALLS prints a trace of so many calls, of which every third is an error with a text.
made() {
    printf '%s\n' 'nanolog-trace 1' 'message 0 NOTICE 12 "srv.cc" "x=%d"' 'message 1 ERROR 13 "srv.cc" "%s=%08x"' \
        'clock 1000 1514764800000000000 2000000000' "writers $1"
    awk -v writers="$1" -v calls="$2" 'BEGIN {
        for (at = 0; at < calls; at++) {
            print "call", (at + int(at / 7)) % writers, 1000 + int(at / 5), at % 3 ? "0 " at : "1 \"y\" " at
        }
        print "end"
    }'
}

# not_listed TRACE prints the trace without the calls that lines on the standard input list as dropped.
not_listed() {
    awk 'NR == FNR { if ($1 == "drop") listed[$2 " " $3]; next }
        $1 != "call" || !(($2 " " ordinals[$2]++) in listed)' - "$1"
}

# Rings that are full at times, extents of few calls and of many, and more writers than processors.
calls=20000
for writers in 1 3 64; do
    made "$writers" "$calls" >many
    for batch in 1 100 65536; do
        expect 0 "accepted $calls dropped 0 filtered 0"$'\n' '' replay many many.log --ring 1024 --batch "$batch"
        same_lines many.log many "$writers writers, batch $batch"
        # The log has all calls but those that are told as dropped.
        ./nanolog replay many many.log --ring 1024 --batch "$batch" --full drop >told 2>err
        judge "nanolog replay many many.log --full drop" $? 0 ''
        drops=$(grep -c '^drop [0-9]* [0-9]* need [0-9]* room [0-9]*$' told)
        not_listed many <told >others
        cmp -s <(tail -n +$((drops + 1)) told) <(echo "accepted $((calls - drops)) dropped $drops filtered 0") ||
            fail "nanolog replay many many.log --full drop: it told: $(tail -n 3 told)"
        same_lines many.log others "$writers writers, batch $batch, $drops drops"
    done
    errors=$(grep -c '^call [0-9]* [0-9]* 1 ' many)
    expect 0 "accepted $errors dropped 0 filtered $((calls - errors))"$'\n' '' replay many many.log --level WARNING
    grep -v '^call [0-9]* [0-9]* 0 ' many >others
    same_lines many.log others "$writers writers, level WARNING"
done

# Where no thread can be started, or only a few can, the calls are made all the same: stacks as large as these have no
# room, or room for a few.
for size in 37 35; do
    (ulimit -s $((1 << size))) 2>/dev/null || continue
    (ulimit -s $((1 << size)) && ./nanolog replay many many.log --ring 1024) >out 2>err
    judge "nanolog replay many, without threads" $? 0 ''
    holds out "accepted $calls dropped 0 filtered 0"$'\n'
    same_lines many.log many "without threads"
done

# Where memory is wanting for the rings, the log is there and holds no bytes.
(ulimit -v 262144 && ./nanolog replay many many.log --ring 1048576) >out 2>err
judge "nanolog replay many, in little memory" $? 6 $'nanolog: want of memory\n'
holds out ''
[ "$(stat -c %s many.log)" = 0 ] || fail "a replay in little memory left a log"

# A reader of the log that goes: all writers end, though their rings are full.
mkfifo pipe
timeout 100 head -c 100 pipe >/dev/null &
expect 5 '' $'nanolog: pipe: write fault\n' replay many pipe --ring 1024
wait $!

# ---- generated traces

expect 0 $'calls 2 errors 0 warnings 0 notices 1 debugs 1 text 119\n' '' selftest 1 2 1
for writers in 1 8 64; do
    ./nanolog generate 7 20000 "$writers" >generated 2>err
    judge "nanolog generate 7 20000 $writers" $? 0 ''
    expect 0 $'accepted 20000 dropped 0 filtered 0\n' '' replay generated generated.log
    same_lines generated.log generated "a generated trace of $writers writers"
    ./nanolog direct generated >lines
    severities=$(for name in ERROR WARNING NOTICE DEBUG; do grep -c " $name\[" lines; done | paste -sd' ')
    # shellcheck disable=SC2086 # These are four words.
    told=$(printf 'calls 20000 errors %s warnings %s notices %s debugs %s text %s' $severities "$(wc -c <lines)")
    expect 0 "$told"$'\n' '' selftest 7 20000 "$writers"
done

# ---- logs of several writers, and what is left of one that is cut

# Each block with the offset where it ends, the lines that it adds up to, and the writers that are open behind it. The
# first is the header. The extent of writer 1 stands before that of writer 0.
blocks=(4e4c4f470103e8030000000000000000445e8f8605150094357700000000
    01000000000100030c00000006007372762e63630400783d2564
    02010700000010030102000103
    02000400000010030101
    0400 0401 0402)
ends=(30 56 69 79 81 83 85)
lines=('' '' "$later" "$all" "$all" "$all" "$all")
open=('0 1 2' '0 1 2' '0 1 2' '0 1 2' '1 2' 2 '')
printf "$(printf %s "${blocks[@]}" | sed 's/../\\x&/g')" >three

whole=0
for ((length = 0; length <= ends[-1]; length++)); do
    head -c "$length" three >cut
    if [ "$length" = "${ends[whole]}" ]; then
        still=${open[whole]:+$'nanolog: cut: writers still open: '${open[whole]}$'\n'}
        expect 0 "${lines[whole]}" "$still" decompress cut
        whole=$((whole + 1))
    elif [ "$whole" = 0 ]; then
        expect 3 '' $'nanolog: cut:0: damaged: 4 Cut\n' decompress cut
    else
        expect 3 "${lines[whole - 1]}" "nanolog: cut:${ends[whole - 1]}: damaged: 4 Cut"$'\n' decompress cut
    fi
done

# The lines in front of a damaged block are printed, and those behind it aren't.
{
    head -c 69 three
    printf '\3'
    tail -c +70 three
} >damaged
expect 3 "$later" $'nanolog: damaged:69: damaged: 5 BadBlock\n' decompress damaged

# ---- inputs that can't be taken

expect 7 '' $'nanolog: nofile: absent\n' direct nofile
expect 7 '' $'nanolog: no/file: absent\n' direct no/file
expect 7 '' $'nanolog: nofile: absent\n' decompress nofile
expect 7 '' $'nanolog: nofile: absent\n' replay nofile m
expect 7 '' $'nanolog: nofile: absent\n' schedule nofile
expect 2 '' $'nanolog: t:1: refused: 1 Header\n' schedule t

mkdir folder
expect 4 '' $'nanolog: folder: read fault\n' direct folder
expect 4 '' $'nanolog: folder: read fault\n' decompress folder
expect 4 '' $'nanolog: folder: read fault\n' replay folder m
expect 4 '' $'nanolog: t/t: read fault\n' direct t/t
long=$(printf '%256s' '' | tr ' ' n)
expect 4 '' "nanolog: $long: read fault"$'\n' direct "$long"
if [ "$(id -u)" != 0 ]; then
    : >closed
    chmod 000 closed
    expect 4 '' $'nanolog: closed: read fault\n' direct closed
fi

: >empty
sed 's/%d/%5d/' t >wide
sed 's/1003/999/' t >early
expect 2 '' $'nanolog: empty:1: refused: 14 NoEnd\n' direct empty
expect 2 '' $'nanolog: early:5: refused: 7 BeforeClock\n' direct early
expect 2 '' $'nanolog: early:5: refused: 7 BeforeClock\n' replay early m
expect 0 $'1514764800.000000001 srv.cc:12 NOTICE[0]: x=    7\n' '' direct wide
expect 0 "$accepted" '' replay wide wide.log
same_lines wide.log wide wide
expect 3 '' $'nanolog: t:0: damaged: 1 BadMagic\n' decompress t
expect 3 '' $'nanolog: empty:0: damaged: 4 Cut\n' decompress empty
expect 2 '' $'nanolog: l:1: refused: 14 NoEnd\n' replay l m

# So many zeros are no trace. Where memory is too small for them, that can't be known.
truncate -s 100M zeros
expect 2 '' $'nanolog: zeros:0: refused: 18 TooLarge\n' direct zeros
(ulimit -v 65536 && ./nanolog direct zeros) >out 2>err
judge "nanolog direct zeros, in little memory" $? 6 $'nanolog: want of memory\n'
# They are no log either, as the first bytes tell.
(ulimit -v 65536 && ./nanolog decompress zeros) >out 2>err
judge "nanolog decompress zeros, in little memory" $? 3 $'nanolog: zeros:0: damaged: 1 BadMagic\n'

[ -e m ] && fail "a trace that isn't taken created a log"

# ---- outputs that take nothing

expect 5 '' $'nanolog: no/l: write fault\n' replay t no/l
expect 5 '' $'nanolog: folder: write fault\n' replay t folder
expect 5 '' $'nanolog: /dev/full: write fault\n' replay t /dev/full

# A pipe whose reader has gone. There the program ends with its own status, and no signal stops it.
exec {gone}> >(:)
wait $!

# unprinted OUTPUT WORD.. runs the program on the words with a standard output that takes nothing.
unprinted() {
    local output=$1
    shift
    case $output in
        full) ./nanolog "$@" >/dev/full 2>err ;;
        gone) ./nanolog "$@" >&"$gone" 2>err ;;
        closed) ./nanolog "$@" >&- 2>err ;;
    esac
    judge "nanolog $*, its standard output $output" $? 5 $'nanolog: standard output: write fault\n'
}

for output in full gone closed; do
    unprinted "$output" direct t
    unprinted "$output" decompress l
    # The log is written before anything is printed.
    rm -f -- new
    unprinted "$output" replay t new
    cmp -s l new || fail "nanolog replay t new, its standard output $output: another log"
done

# The words of an error are lost, and its status isn't.
./nanolog direct nofile 2>/dev/full
ended=$?
[ "$ended" = 7 ] || fail "words to a full device: status $ended, not 7"
./nanolog direct nofile 2>&-
ended=$?
[ "$ended" = 7 ] || fail "words to no standard error: status $ended, not 7"

# ---- log statements

cat >m.cc <<'END'
// NANO_LOG(NOTICE, "no");
#define L NANO_LOG(NOTICE, "no")
auto s = R"x(NANO_LOG(NOTICE, "no"))x";
NANO_LOG(NOTICE, "a" "%" PRIu64, f(1, 2));
END
dictionary=$'nanolog-trace 1\nmessage 0 NOTICE 4 "m.cc" "a%lu"\n'
expect 0 $'messages 1 statements 1\n' '' preprocess d m.cc
holds d "$dictionary"
expect 0 $'messages 1 statements 2\n' '' preprocess -- -d m.cc m.cc
holds -d "$dictionary"

# Where a statement is bad no dictionary is made, and one that is there stays. Each bad one of all files is told.
echo 'NANO_LOG(FATAL, "x"); NANO_LOG(NOTICE, "%d");' >e.cc
bad=$'nanolog: e.cc:1: refused: 1 Severity\nnanolog: e.cc:1: refused: 4 TooFew\n'
expect 2 '' "$bad" preprocess undone e.cc m.cc
expect 2 '' "$bad$bad" preprocess d e.cc m.cc e.cc
expect 2 '' "$bad" preprocess d e.cc nofile
expect 7 '' $'nanolog: nofile: absent\n' preprocess d m.cc nofile e.cc
expect 4 '' $'nanolog: folder: read fault\n' preprocess d folder e.cc

# As many messages as there may be, and as large a source.
seq -f 'NANO_LOG(NOTICE, "%.0f");' 65536 >full.cc
expect 0 $'messages 65536 statements 65536\n' '' preprocess full full.cc
[ "$(tail -n 1 full)" = 'message 65535 NOTICE 65536 "full.cc" "65536"' ] || fail "full ends with $(tail -n 1 full)"
expect 2 '' $'nanolog: m.cc:4: refused: 8 TooMany\n' preprocess d full.cc m.cc e.cc
printf '%16777216s' '' >large.cc
expect 0 $'messages 0 statements 0\n' '' preprocess none large.cc
holds none $'nanolog-trace 1\n'
echo >>large.cc
expect 2 '' $'nanolog: large.cc:0: refused: 7 TooLarge\n' preprocess d large.cc

expect 5 '' $'nanolog: no/d: write fault\n' preprocess no/d m.cc
expect 5 '' $'nanolog: folder: write fault\n' preprocess folder m.cc
expect 5 '' $'nanolog: /dev/full: write fault\n' preprocess /dev/full m.cc
holds d "$dictionary"
[ -e undone ] && fail "a dictionary was made although statements are bad"
for output in full gone closed; do
    rm -f -- new
    unprinted "$output" preprocess new m.cc
    holds new "$dictionary"
done

# ---- calls by number

rewritten=$(sed '4s/.*/NANO_LOG_CALL(0, f(1, 2));/' m.cc)$'\n'
header='/* nanolog-header 1 */
#define NANO_LOG_MESSAGES 1
static const char *const nano_log_types[] = {
"m",
0};
static const unsigned char nano_log_severity[] = {
3,
0};
'
head -c 1000 /dev/zero >o.cc
expect 0 $'injected 1\n' '' inject d m.cc o.cc
holds o.cc "$rewritten"
expect 0 $'messages 1\n' '' header d o.h
holds o.h "$header"
expect 0 $'injected 1\n' '' inject <(cat d) m.cc -- -o
holds -o "$rewritten"

# Where DICT or FILE can't be taken nothing is made, and a file that is there stays. DICT is read first.
expect 2 '' $'nanolog: m.cc:4: refused: 9 NotInDictionary\n' inject none m.cc undone
expect 2 '' "$bad" inject d e.cc o.cc
expect 2 '' $'nanolog: large.cc:0: refused: 7 TooLarge\n' inject d large.cc undone
expect 2 '' $'nanolog: empty:1: refused: 1 Header\n' inject empty nofile undone
expect 2 '' $'nanolog: t:3: refused: 2 Message\n' header t undone
head -c -1 d >unended
expect 2 '' $'nanolog: unended:2: refused: 2 Message\n' header unended undone
{
    cat full
    echo 'message 65536 NOTICE 1 "full.cc" "one too many"'
} >overfull
expect 2 '' $'nanolog: overfull:65538: refused: 15 TooMany\n' inject overfull m.cc undone
expect 2 '' $'nanolog: zeros:0: refused: 18 TooLarge\n' header zeros undone
expect 7 '' $'nanolog: nofile: absent\n' inject nofile none undone
expect 7 '' $'nanolog: none.cc: absent\n' inject d none.cc undone
expect 4 '' $'nanolog: folder: read fault\n' inject d folder undone
expect 4 '' $'nanolog: folder: read fault\n' header folder undone
holds o.cc "$rewritten"
[ -e undone ] && fail "an output was made although an input can't be taken"

# As many calls as there may be messages.
expect 0 $'injected 65536\n' '' inject full full.cc numbered.cc
cmp -s numbered.cc <(seq -f 'NANO_LOG_CALL(%.0f);' 0 65535) || fail "the calls by number are others"

expect 5 '' $'nanolog: no/o: write fault\n' inject d m.cc no/o
expect 5 '' $'nanolog: folder: write fault\n' header d folder
expect 5 '' $'nanolog: /dev/full: write fault\n' inject d m.cc /dev/full
for output in full gone closed; do
    rm -f -- new
    unprinted "$output" inject d m.cc new
    holds new "$rewritten"
    unprinted "$output" header d new
    holds new "$header"
done

# ---- the example program

sources=(examples/store/main.cc examples/store/store.cc examples/store/store.h)
expect 0 $'messages 7 statements 7\n' '' preprocess store.dictionary "${sources[@]}"
cmp -s store.dictionary examples/store.dictionary || fail "another dictionary: $(cat store.dictionary)"
grep -v '^[cwe]' examples/store.trace | cmp -s - examples/store.dictionary || fail "store.trace has other messages"

# messages DICTIONARY prints them without their numbers, in one order.
messages() {
    sed -n 's/^message [0-9]* //p' "$1" | sort
}

compiler=$(type -P c++ g++ clang++ | head -n 1)
if [ -n "$compiler" ]; then
    "$compiler" -std=c++17 -Wall -Wextra -Werror -o store "${sources[@]:0:2}" 2>err || fail "not compiled: $(cat err)"
    # What the program prints are the severity and the text of each line of its trace.
    ./store 2>err
    ./nanolog direct examples/store.trace | sed 's/^[^ ]* [^ ]* \([A-Z]*\)\[0\]/\1/' | cmp -s - err ||
        fail "the example program prints something else than the lines of its trace: $(cat err)"

    # The compiler's preprocessor puts the header's statement into both files, and line directives tell where it stands.
    for source in main store; do
        "$compiler" -std=c++17 -E -DNANO_LOG_UNEXPANDED "examples/store/$source.cc" >"$source.ii"
    done
    expect 0 $'messages 7 statements 8\n' '' preprocess included.dictionary main.ii store.ii
    cmp -s <(messages included.dictionary) <(messages store.dictionary) || fail "other messages of what is included"

    # A copy whose statements are calls by number is compiled with a macro of its own. Each call prints its number, the
    # severity and the types of its message, and how many arguments it got.
    mkdir numbered
    expect 0 $'injected 2\n' '' inject store.dictionary examples/store/main.cc numbered/main.cc
    expect 0 $'injected 4\n' '' inject store.dictionary examples/store/store.cc numbered/store.cc
    expect 0 $'injected 1\n' '' inject store.dictionary examples/store/store.h numbered/store.h
    expect 0 $'messages 7\n' '' header store.dictionary numbered/messages.h
    cat >numbered/nano_log.h <<'END'
#pragma once

#include <cstddef>
#include <cstdio>

#include "messages.h"

namespace nano {

static_assert(sizeof nano_log_severity == NANO_LOG_MESSAGES + 1);

template <typename... Arguments>
std::size_t count(const Arguments&...) {
    return sizeof...(Arguments);
}

}  // namespace nano

#define NANO_LOG_CALL(id, ...)                                              \
    std::fprintf(stderr, "%d %d %s %zu\n", id, nano_log_severity[id],       \
                 nano_log_types[id], nano::count(__VA_ARGS__))
END
    "$compiler" -std=c++17 -Wall -Wextra -Werror -o numbered/store numbered/{main,store}.cc 2>err ||
        fail "not compiled with calls by number: $(cat err)"
    numbered/store 2>made
    holds made $'0 3  0\n2 4 sm 2\n2 4 sm 2\n6 2 mm 2\n3 1 s 1\n4 4 wss 3\n4 4 wss 3\n5 3 mmmm 4\n1 3 ii 2\n'
    # The lines keep their numbers, and no format is left in the program.
    for source in "${sources[@]##*/}"; do
        [ "$(wc -l <"numbered/$source")" = "$(wc -l <"examples/store/$source")" ] || fail "$source has other lines"
    done
    for format in 'stopped, ' 'of the room taken' 'no value for' 'bytes taken' 'no room for'; do
        grep -q -a -e "$format" store || fail "the example program lacks the format with: $format"
        grep -q -a -e "$format" numbered/store && fail "the program with calls by number has a format with: $format"
    done

    # The headers of the C++ library have no statements.
    mapfile -t folders < <("$compiler" -E -x c++ -v /dev/null 2>&1 | sed -n '/^#include </,/^End/s/^ //p' | grep 'c++')
    mapfile -d '' headers < <(find "${folders[@]}" -type f -print0 | sort -zu)
    [ "${#headers[@]}" != 0 ] || fail "$compiler names no headers of the C++ library"
    for ((at = 0; at < ${#headers[@]}; at += 1024)); do
        expect 0 $'messages 0 statements 0\n' '' preprocess none "${headers[@]:at:1024}"
    done
fi

# ---- a trial run

# Where the program isn't built its sources are tried, and what they write comes to the folder of the call.
mkdir trial
cp -r -- "$top/crates.txt" "$top/HANDLES" "$top/nanolog" trial
(cd -- "$top" && find crates -name out -prune -o -type f -print0 | xargs -0 cp --parents -t "$room/trial" --)
trial/nanolog replay t trial.log >out 2>err
judge "a trial run of replay" $? 0 \
    $'nanolog: a trial run, in which nothing is proved; ./nanolog --build proves and builds the program\n'
holds out "$accepted"
cmp -s l trial.log || fail "a trial run of replay: another log"

# ---- pages

# A page shows commands, each behind `$ `, and below each what that prints. try_page PAGE HEADING runs those that stand
# under the heading and begin with ./nanolog, cat or tail.
mkdir pages
ln -s -- "$top/nanolog" "$top/examples" pages
try_page() {
    local row is_run=
    : >shown
    : >printed
    while IFS= read -r row; do
        case $row in
            '$ ./nanolog '* | '$ cat '* | '$ tail '*)
                is_run=yes
                echo "$row" | tee -a shown >>printed
                (cd pages && bash -c "${row#'$ '}") >>printed 2>&1 </dev/null
                ;;
            '$ '*) is_run= ;;
            *) [ -z "$is_run" ] || echo "$row" >>shown ;;
        esac
    done < <(awk -v heading="## $2" \
        '/^## / { here = $0 == heading } /^```/ { inside = !inside; next } here && inside' "$top/$1")
    [ -s shown ] || fail "$1 shows no command under \"$2\""
    cmp -s shown printed || fail "$1 shows something else than its commands print: $(diff shown printed)"
}

try_page README.md 'Try it'
try_page docs/log-statements.md 'An example'
try_page docs/log-statements.md 'Calls by number'
try_page docs/log-statements.md 'What is refused'
try_page docs/sessions.md 'Replaying and reading it'
try_page docs/rings.md 'A ring by hand'

[ "$failures" = 0 ] && echo "program.sh: all is well"
[ "$failures" = 0 ]
