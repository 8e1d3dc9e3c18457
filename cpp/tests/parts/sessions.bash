# Part of cpp/tests/run: sessions.

# run_session CASE SAID runs a case, which is to say this on standard error. N is any number of four digits or more.
run_session() {
    rm -f -- ./*.log ./*.log.[0-9]*
    timeout 120 ./sessions "$1" >out 2>err
    local status=$?
    [ "$status" = 0 ] || fail "$compiler: sessions $1: status $status: $(cat err)"
    printf '%s' "$2" >wanted
    sed -i -E 's/[0-9]{4,}$/N/' err
    same "sessions $1 says" wanted err
}

# logs LOG COUNT looks how many lines a log has.
logs() {
    lines "$1" 0 got
    has_lines got "$2"
}

# These sessions can't be.
test_unopened() {
    local name why=': an option is out of its range' lost='nanolog: sessions.log: calls without a session: 1'$'\n'
    printf '%s\n' 'nanolog-trace 1' 'message 0 NOTICE 1 "x.cc" "x"' >other.dict
    { cat other.dict; echo 'message 2 NOTICE 1 "x.cc" "y"'; } >bad.dict
    { cat other.dict; printf 'message 1 NOTICE 1 "x.cc" "y"'; } >torn.dict
    run_session no_dictionary $'nanolog: no/such.dict: No such file or directory\n'"$lost"
    run_session a_folder $'nanolog: /: Is a directory\n'"$lost"
    run_session bad_dictionary $'nanolog: bad.dict:3: this is no line of a dictionary\n'"$lost"
    run_session torn_dictionary $'nanolog: torn.dict:3: this is no line of a dictionary\n'"$lost"
    for name in no_ring no_writers more_writers more_words no_batch; do
        run_session $name "nanolog: sessions.log$why"$'\n'"$lost"
    done
    if [ -z "${is_sanitized-}" ]; then
        run_session no_memory $'nanolog: sessions.log: there is no memory for the rings\n'"$lost"
    fi
    run_session quiet ''
    run_session second $'nanolog: sessions2.log: another session is open\n'
    logs sessions.log 2
    [ ! -e sessions2.log ] || fail "$compiler: a second session made a file"
    if [ "$way" = plain ]; then
        run_session other_dictionary ''
        logs sessions.log 2
    else
        run_session other_dictionary \
            $'nanolog: sessions.log: calls of sessions.cc refused, which has another dictionary: 2\n'
        logs sessions.log 0
    fi
}

# test_sessions FLAG..
test_sessions() {
    local way=injected
    build sessions sessions.cc "$@" && test_calls_of_sessions
    way=plain
    build sessions sessions.cc "$@" && test_calls_of_sessions && test_lives_of_sessions
}

test_calls_of_sessions() {
    local logged counted=''
    test_unopened
    run_session level ''
    logs sessions.log 2
    run_session set_level $'nanolog: calls without a session: 1\n'
    lines sessions.log 0 got
    equal 'lines at the level' "$(grep -c ': kept [0-9]*$' got) $(grep -c ': left out' got)" '100 0'
    run_session many_without $'nanolog: sessions2.log: calls without a session: N\n'
    rm -f -- ./*.log ./*.log.[0-9]*
    ./sessions without >out 2>err || fail "$compiler: sessions without: status $?"
    [ "$way" = plain ] && logged=1 || logged=0
    equal 'lines without a session' "$(grep -c ' NOTICE\[0\]: before 1$' err)" "$logged"
    sed -i '/ NOTICE\[0\]: before 1$/d' err
    [ "$way" = plain ] || counted=$'nanolog: sessions.log: calls without a session: 1\n'
    printf '%s' "${counted}nanolog: sessions2.log: calls without a session: 2
nanolog: calls without a session: 2
" >wanted
    same 'sessions without says' wanted err
    logs sessions.log 1
    logs sessions2.log 1
    run_session losses "nanolog: /dev/full: No space left on device; nothing more is written
nanolog: /dev/full: calls refused, with a width or a precision out of range: 4
nanolog: /dev/full: texts cut: 4
nanolog: /dev/full: calls whose stamps would fall: 1
nanolog: /dev/full: bytes not written: N
"
    run_session interrupted $'nanolog: sessions.log: calls refused, for which there was no writer: 1\n'
    logs sessions.log 2
}

test_lives_of_sessions() {
    local logged
    run_session successive ''
    logs sessions.log 1000
    logs sessions2.log 2000
    run_session late_end ''
    logs sessions2.log 20
    run_session abandoned ''
    run_session thread_locals ''
    logs sessions.log 300
    run_session statics $'nanolog: calls without a session: 1\n'
    logs sessions.log 2
    rm -f -- ./*.log ./*.log.[0-9]*
    timeout 60 ./sessions exiting >out 2>err || fail "$compiler: sessions exiting: status $?: $(cat err)"
    lines sessions.log 0 got
    run_session one_writer ''
    logs sessions.log 40000
    run_session reports ''
    logs sessions.log 10
    run_session flush ''
    logs sessions.log 2000
    lines flushed.log 0 got
    has_lines got 2000
    run_session many_flushes ''
    logs sessions.log 20000
    run_session busy_flush ''
    read -r logged <out
    logs sessions.log "$logged"
    "$nanolog" decompress flushed.log 2>err | grep -c ' NOTICE\[[0-9]*\]: flush ' >got
    equal 'lines that were flushed' "$(cat got)" 500
}
