# Part of cpp/tests/run: what is written at once, what can't be written, and what is done meanwhile.

# What a file or a pipe doesn't take is told, at once.
test_failures() {
    local late='nanolog: pipe: not all was written within the time limit' marks
    marks=$'-- flushed\n-- flushed again\n'
    run_ends 0 "nanolog: /dev/full: No space left on device; nothing more is written
${marks}nanolog: /dev/full: bytes not written: M
" fails /dev/full
    run_ends 0 "nanolog: no/such.log: No such file or directory; it is tried again once a second, in a new part
${marks}nanolog: no/such.log: bytes not written: M
" fails no/such.log
    run_ends 0 "$marks" fails quiet
    local case
    for case in closes replaces; do
        leaves 0 'nanolog: ends.log: Bad file descriptor; it is tried again once a second, in a new part
-- flushed
nanolog: ends.log: bytes not written: M
' 5 $case
    done
    ends_with 0 '' 10 no_streams
    run_ends 7 "$late"$'\n' handler_full
    run_ends 134 '' pipe_crashes
    ends_with 0 "$late"$'\n-- another one\n' 5 pipe_closes
    # Threads wait for room, and what they want to log then is dropped; or was about to be logged.
    end_case 7 pipe_exits
    grep -v -e '^nanolog: pipe: calls of writer [0-3] dropped: 1, the last with need 4 room [0-3]$' \
        -e '^nanolog: \(pipe: \)\?calls without a session: [1-4]$' err >said
    printf '%s\n' '-- exit' "$late" >wanted
    same 'writing pipe_exits says' wanted said
    [ -n "${is_sanitized-}" ] && return
    # A log without parts that nobody could read to its end.
    run_ends 0 'nanolog: /dev/null: a log of more than 134217728 bytes can'"'"'t be read; nothing more is written
-- told
nanolog: /dev/null: bytes not written: M
' too_large
}

# What is grave enough is printed, and written at once.
test_last_words() {
    local one
    for one in ./writing ./writing_injected; do
        $one echoes 2>err || fail "$compiler: $one echoes: status $?"
        grep -v '^nanolog: ' err | sed -E 's/^[0-9.]+ //; s/\[[0-9]+\]/[W]/' >said
        lines ends.log 0 got
        grep -E ' (ERROR|WARNING)\[' got | sed -E 's/^[0-9.]+ //; s/\[[0-9]+\]/[W]/' >wanted
        same "what $one echoes" wanted said
        has_lines said 6
    done
    keeps_returned "$runs" 7 flushes_at
    run_ends 0 'nanolog: pipe: not all was written within the time limit'$'\n' pipe_flushes_at
}

# Members that are called at once, clocks that throw, and what the consumer does where nothing is logged.
test_members() {
    local turns=$runs
    run_ends 0 '' members "$((turns / 2))"
    run_ends 0 '' clock_throws
    run_ends 0 '' idle
    [ "$(cat out)" -le 30 ] || fail "$compiler: the consumer woke $(cat out) times in two seconds"
    whole_log ends.log 10
    run_ends 0 '' wakes
}

# test_writing FLAG..
test_writing() {
    local program=writing runs=100
    local -x ASAN_OPTIONS=detect_leaks=0
    [ -z "${is_sanitized-}" ] || runs=4
    build writing writing.cc "$@" && mv writing writing_injected
    way=plain build writing writing.cc "$@" || return
    test_failures
    test_last_words
    test_members
    # Where no thread runs at the end it can be said what leaks.
    ASAN_OPTIONS=detect_leaks=1 run_ends 0 '' clock_throws
    ASAN_OPTIONS=detect_leaks=1 run_ends 0 '' members 3
}
