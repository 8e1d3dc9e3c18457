# Part of cpp/tests/run: the C calls.

# test_calls FLAG..
test_calls() {
    local number
    "$compiler" -std=c++17 "$@" -I . -I "$library" -o text_limits text_limits.cc "${archives[@]}" 2>err ||
        fail "$compiler: text_limits.cc isn't built: $(cat err)"
    passes ./text_limits
    "$compiler" -std=c++17 "$@" -Wl,--wrap=malloc,--wrap=realloc,--wrap=free -I . -I "$library" -o calls calls.cc \
        "${archives[@]}" 2>err || fail "$compiler: calls.cc isn't built: $(cat err)"
    passes ./calls
    lines calls.log 0 got
    cat >wanted <<'END'
0.000000006 calls.cc:1 NOTICE[0]: -5 of int
0.000000007 calls.cc:6 NOTICE[1]: a piece of text
0.000000008 calls.cc:5 NOTICE[0]:    007 of width and precision
0.000000009 calls.cc:8 NOTICE[1]: of nothing
END
    same calls.log wanted got
    lines clocks.log 0 got
    echo '1514764801.000000003 srv.cc:12 NOTICE[0]: x=7' >wanted
    same clocks.log wanted got
    lines part1.log 0 got
    echo '0.000000006 calls.cc:1 NOTICE[0]: 1 of int' >wanted
    same part1.log wanted got
    lines part2.log 0 got
    cat >wanted <<'END'
0.000000007 calls.cc:1 NOTICE[1]: 2 of int
0.000000008 calls.cc:1 NOTICE[0]: 3 of int
END
    same part2.log wanted got
    lines writers.log 0 got
    for ((number = 0; number < 1024; number++)); do
        printf '0.%09d calls.cc:1 NOTICE[%d]: %d of int\n' $((number + 5)) $number $number
    done >wanted
    same writers.log wanted got
}
