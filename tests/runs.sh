#!/bin/bash
# Makes sixty runs of the built program from end to end, with 1 to 64 writers and rings of 1,024 words: a trace is
# generated and replayed, and the lines of the log are compared with those of the trace. Then it makes runs of traces of
# version 2, with 1,024 writers and 256 clocks, some of which step back: their lines are compared with those that awk
# makes. It prints what is wrong, and then ends with status 1.
top=$(readlink -f -- "$(dirname -- "$(readlink -f -- "$0")")/..")
[ -x "$top/nanolog" ] || exit 1
room=$(mktemp -d) || exit 1
trap 'rm -rf -- "$room"' EXIT
cd -- "$room" || exit 1
calls=20000 failures=0

fail() {
    echo "runs.sh: $*"
    failures=$((failures + 1))
}

# run WORD.. runs the program, and keeps what it printed in the files out and err.
run() {
    "$top/nanolog" "$@" >out 2>err || fail "nanolog $*: status $?"
    [ -s err ] && fail "nanolog $*: it said: $(cat err)"
}

# replay WORD.. replays the trace, with rings that are soon full, and then sets the counts that it told.
replay() {
    run replay trace log --ring 1024 "$@"
    told=$(tail -n 1 out)
    read -r accepted dropped filtered < <(tr -cd '0-9 ' <<<"$told")
    [ "$told" = "accepted $accepted dropped $dropped filtered $filtered" ] || fail "$what: replay told: $told"
    [ "$((accepted + dropped + filtered))" = "$calls" ] || fail "$what: replay told: $told"
    run decompress log
    mv out printed
}

# are_among FILE ALL tells whether the lines of a file are some of those of another one, in the same order.
are_among() {
    awk 'FILENAME == ARGV[1] { some[++count] = $0; next } at < count && $0 == some[at + 1] { at++ }
        END { exit at < count }' "$1" "$2"
}

"$top/nanolog" --build || exit 1
levels=(DEBUG NOTICE WARNING ERROR)
for ((seed = 0; seed < 30; seed++)); do
    writers=$((1 + seed * 63 / 29))
    what="seed $seed, $writers writers"
    run generate "$seed" "$calls" "$writers"
    mv out trace
    run direct trace
    mv out lines

    replay --full wait
    [ "$accepted" = "$calls" ] || fail "$what, wait: replay told: $told"
    cmp -s printed lines || fail "$what, wait: the log has other lines"

    # Calls are dropped where there is no room. Those below the level are left out.
    level=${levels[seed % 4]}
    above=${levels[*]:seed % 4}
    grep -E "^[^ ]+ [^ ]+ (${above// /|})\[" lines >kept
    what+=", drop, level $level"
    replay --full drop --level "$level"
    [ "$((accepted + dropped))" = "$(wc -l <kept)" ] || fail "$what: replay told: $told"
    [ "$accepted" = "$(wc -l <printed)" ] || fail "$what: the log has $(wc -l <printed) lines, but replay told: $told"
    are_among printed kept || fail "$what: the log has other lines"
done

# From its tick on each clock tells another time: it is some hours ahead, or behind. Ticks are 4,000 apart, and a tick is
# a nanosecond. As many clocks as there can be reach behind the last stamp.
clocks='function nanos(k) { return (k % 3 == 2 ? 500 + k : 1000 + 7 * k) * 1000000000000 }
    function tick(k) { return 1000 + 4000 * k }'

# with_clocks WRITERS makes a trace of version 2 of one of version 1: its calls are those of so many writers.
with_clocks() {
    awk -v writers="$1" "$clocks"'
        $1 == "nanolog-trace" { $2 = 2 }
        $1 == "clock" { for (k = 0; k < 256; k++) printf "clock %d %.0f 1000000000\n", tick(k), nanos(k); next }
        $1 == "writers" { $2 = writers }
        $1 == "call" { $2 = count++ % writers }
        { print }'
}

# by_clocks WRITERS makes the lines of those calls of lines whose times are their stamps.
by_clocks() {
    awk -v writers="$1" "$clocks"'{
        split($1, parts, "."); stamp = parts[1] * 1000000000 + parts[2]; writer = (NR - 1) % writers
        k = int((stamp - 1000) / 4000); if (k > 255) k = 255
        time = nanos(k) + stamp - tick(k); line = substr($0, length($1) + 1)
        sub(/\[0\]/, "[" writer "]", line)
        printf "%.0f %d %d.%09d%s\n", stamp, writer, int(time / 1000000000), time % 1000000000, line }' |
        sort -s -k1,1n -k2,2n | cut -d ' ' -f 3-
}

for seed in 1 2 3; do
    run generate "$seed" "$calls" 1
    mv out generated
    sed 's/^clock .*/clock 1000 1000 1000000000/' generated >stamped
    for writers in 1 64 65 1024; do
        what="seed $seed, version 2, $writers writers"
        with_clocks "$writers" <generated >trace
        run direct stamped
        by_clocks "$writers" <out >lines
        run direct trace
        cmp -s out lines || fail "$what: the trace has other lines"
        replay --full wait
        [ "$accepted" = "$calls" ] || fail "$what: replay told: $told"
        cmp -s printed lines || fail "$what: the log has other lines"
    done
done

[ "$failures" = 0 ] && echo "runs.sh: all is well"
[ "$failures" = 0 ]
