# Part of cpp/tests/run: how the times of lines are kept right.

# run_times SAID CASE [WORD] runs a case, which is to say this on standard error, and looks at the times of its lines. N
# is any number.
run_times() {
    local said=$1 status
    shift
    rm -f times.log times.log.[0-9]* times.expected
    timeout 120 ./times "$@" >out 2>err
    status=$?
    [ "$status" = 0 ] || fail "$compiler: times $*: status $status: $(head -n 20 err)"
    printf '%s' "$said" >wanted
    [[ $said != *': N'* ]] || sed -i -E 's/: [0-9]+$/: N/' err
    same "times $* says" wanted err
    lines times.log 0 got
    [ -e times.expected ] || return
    sed -n -E 's/^([0-9.]+) [^ ]+ NOTICE\[0\]: (call .*)$/\1 \2/p' got >times.got
    same "the times of times $*" times.expected times.got
}

# Each of four lines has the time that it tells, but for what a busy machine takes to log it.
test_soon() {
    local wrong
    run_times '' soon "$1"
    wrong=$(awk '
        / NOTICE\[/ { apart = $1 - $NF / 1e9; count++; if (apart > 0.25 || apart < -0.25) print }
        END { if (count != 4) print count " lines" }' got)
    [ -z "$wrong" ] || fail "$compiler: times soon $1: $wrong"
}

# test_times FLAG..
test_times() {
    local way=plain case over
    local -x ASAN_OPTIONS=detect_leaks=0
    compiles times_plugin.so times_plugin.cc "$@" -fPIC -shared || return
    build times times.cc "$@" -rdynamic -ldl || return
    for case in steps drifts still unkept nanos stands ahead held_up anew; do run_times '' $case; done
    # The thread sanitizer takes a child's thread for that of its parent.
    [[ "$*" == *sanitize=thread* ]] || run_times '' forks
    for case in 1 3 1000 1000000000 2400000000 18446744073709551615; do run_times '' rates $case; done
    for case in clock real; do run_times '' throws $case; done
    run_times $'nanolog: times.log: calls whose stamps would fall: N\n' falls
    run_times $'nanolog: times.log: calls refused, for which there was no writer: N\n' logs
    over="nanolog: times.log: 255 clocks were told; times don't follow real time any more"$'\n'
    run_times "$over" many
    run_times '' many quiet
    test_soon asleep
    test_soon busy
    [ -z "${is_sanitized-}" ] || return
    way=injected
    build times times.cc "$@" -rdynamic -ldl && run_times '' steps
}
