# Part of cpp/tests/run: how programs end. The runs of a case go by `program`, and `runs` is how many there are where
# threads log.

# end_case STATUS CASE [WORD] runs a case, which is to end with this status.
end_case() {
    local wanted=$1 status
    shift
    rm -f -- ./*.log ./*.log.[0-9]* pipe
    # Where a signal ends it, a shell says so.
    (
        timeout 120 "./$program" "$@" >out 2>err
        exit $?
    ) 2>/dev/null
    status=$?
    [ "$status" = "$wanted" ] || fail "$compiler: $program $*: status $status, not $wanted: $(head -n 20 err)"
}

# run_ends STATUS SAID CASE [WORD] runs a case, which is to say this on standard error. M stands for any number, and for
# what may follow on it.
run_ends() {
    local said=$2
    end_case "$1" "${@:3}"
    printf '%s' "$said" >wanted
    [[ $said != *': M'* ]] || sed -E -i 's/(dropped|written|session): [0-9]+(, the last.*)?$/\1: M/' err
    same "$program ${*:3} says" wanted err
}

# ends_with STATUS SAID LINES CASE [WORD] is to leave a whole log of so many lines behind, too.
ends_with() {
    local wanted=$3
    run_ends "$1" "$2" "${@:4}"
    whole_log ends.log "$wanted"
}

# leaves STATUS SAID LINES CASE [WORD] is to leave so many lines behind, in a log whose writers haven't ended.
leaves() {
    local wanted=$3
    run_ends "$1" "$2" "${@:4}"
    lines ends.log 0 got
    has_lines got "$wanted"
    grep -q 'writers still open' err || fail "$compiler: $program $4: all writers have ended"
}

# whole_log LOG LINES looks at a log, whose writers are all to have ended.
whole_log() {
    lines "$1" 0 got
    has_lines got "$2"
    [ ! -s err ] || fail "$compiler: decompress $1: $(cat err)"
}

# has_returned CASE looks that the file got has all calls that had returned, as the file out has it, each once and in
# its thread's order.
has_returned() {
    local wrong
    wrong=$(awk '
        FILENAME == "out" { for (thread = 0; thread < NF; thread++) returned[thread] = $(thread + 1); next }
        {
            for (at = 1; at < NF && $at != "thread"; at++);
            thread = $(at + 1)
            if ($(at + 3) != seen[thread]++) { print "out of order: " $0; exit }
        }
        END {
            for (thread in returned) {
                if (seen[thread] + 0 < returned[thread]) {
                    print "thread " thread ": " seen[thread] + 0 " calls of " returned[thread]
                }
            }
        }' out got)
    [ -z "$wrong" ] || fail "$compiler: $program $1: $wrong"
}

# keeps_returned RUNS STATUS CASE [WORD] runs a case in which threads log, so many times.
keeps_returned() {
    local turn
    for ((turn = 0; turn < $1; turn++)); do
        end_case "${@:2}"
        [ -s out ] || fail "$compiler: $program ${*:3}: nothing had returned"
        lines ends.log 0 got
        has_returned "${*:3}"
    done
}

# What programs leave that end by themselves.
test_exits() {
    local case turn
    ends_with 0 '' 5 returns
    ends_with 7 '' 5 exits
    ends_with 7 '' 5 exits_static
    ends_with 7 '' 5 exits_elsewhere
    ends_with 7 '' 5 exits_beside_close
    ends_with 7 '' 7 exits_late
    ends_with 0 '' 5 throws_caught
    keeps_returned "$runs" 7 exits_busy
    for ((turn = 0; turn < runs; turn++)); do run_ends 7 '' exits_beside_sessions $((turn * 97 % 2000)); done
    # Nothing is written by these, but what was flushed is there.
    for case in underscore_exits quick_exits; do
        run_ends 7 '' $case
        lines ends.log 0 got
        equal "lines flushed before $case" "$(grep -c ': line [0-4]$' got)" 5
    done
    # Nor is it where one of these signals has no handler.
    for case in TERM INT HUP KILL; do
        run_ends $((128 + $(kill -l $case))) '' signalled "$(kill -l $case)"
        lines ends.log 0 got
        equal "lines flushed before SIG$case" "$(grep -c ': line [0-4]$' got)" 5
    done
}

# Handlers that end the program, and have interrupted their own thread in a call or a flush.
test_handlers() {
    local turn
    for ((turn = 0; turn < runs; turn++)); do
        keeps_returned 1 7 handler $((turn * 37 % 1000))
        ((turn % 4 == 0)) || continue
        keeps_returned 1 7 handler_static $((turn * 37 % 1000))
        keeps_returned 1 7 handler_shared $((turn * 37 % 1000))
    done
    keeps_returned 5 7 handler_inside 8
    keeps_returned 5 7 handler_inside 1
    keeps_returned $((runs / 4)) 7 handler_flush
}

test_crashes() {
    local case signal terminated
    terminated="terminate called after throwing an instance of 'std::runtime_error'
  what():  thrown
"
    # A sanitizer has handlers of its own for faults.
    if [ -z "${is_sanitized-}" ]; then
        keeps_returned "$runs" 139 crashes null
        for signal in SEGV BUS ILL FPE; do
            keeps_returned 10 $((128 + $(kill -l $signal))) crashes "$(kill -l $signal)"
        done
        for case in 'crashes_all null' 'crashes_idle null' crashes_inside; do
            # shellcheck disable=SC2086 # These are two words.
            leaves 139 '' 5 $case
        done
    fi
    keeps_returned "$runs" 134 crashes abort
    keeps_returned "$runs" 134 crashes throw
    leaves 134 "$terminated" 5 throws
    leaves 134 '' 5 crashes_all abort
    run_ends 0 '' crash_actions
}

# A child's calls are counted, and its own session is another one.
test_forks() {
    local lost='nanolog: calls without a session: ' turns=$runs said
    said=$(for ((turn = 0; turn < turns; turn += 2)); do echo "${lost}1000"; done)
    run_ends 0 "$said"$'\n' forks "$turns"
    lines ends.log 0 got
    has_returned forks
    [ ! -s err ] || fail "$compiler: ends forks: $(cat err)"
    whole_log child.log 5
    ends_with 0 "${lost}4"$'\n' 5 forks_inside
    ends_with 0 '' 5 fork_crashes
}

# test_ends FLAG..
test_ends() {
    local program=ends runs=100
    local -x ASAN_OPTIONS=detect_leaks=0
    [ -z "${is_sanitized-}" ] || runs=4
    way=plain build ends ends.cc "$@" || return
    test_exits
    test_handlers
    test_crashes
    test_forks
    # Where no thread runs at the end it can be said what leaks.
    local case
    for case in returns throws_caught crash_actions; do
        ASAN_OPTIONS=detect_leaks=1 run_ends 0 '' $case
    done
}
