# Part of cpp/tests/run: sanitizers.

test_sanitizers() {
    local sanitizer flags case is_sanitized=yes
    echo 'int main() { return 0; }' >empty.cc
    for sanitizer in address,undefined thread; do
        if ! "$compiler" -fsanitize=$sanitizer -o empty empty.cc 2>err || ! ./empty 2>err; then
            say "$compiler has no -fsanitize=$sanitizer here, and it is left out"
            continue
        fi
        flags=(-O1 -g -w -fno-omit-frame-pointer "-fsanitize=$sanitizer" -fno-sanitize-recover=all)
        # Dictionaries are never freed.
        ASAN_OPTIONS=detect_leaks=0 test_calls "${flags[@]}"
        local way=plain
        build conversions conversions.cc "${flags[@]}" && passes ./conversions
        build files files.cc "${flags[@]}"
        for case in 'no/such.log plain' '/dev/full plain' 'files.log close' 'files.log mend'; do
            # shellcheck disable=SC2086 # These are two words.
            passes ./files $case
        done
        build threads threads.cc "${flags[@]}"
        for case in '1 10000 wait' '4 5000 wait' '64 500 wait' '4 5000 drop' '64 500 drop' '200 3 one' '100 30 all' \
            '1000 5 all 1024'; do
            # shellcheck disable=SC2086 # These are several words.
            run_threads $case
        done
        rm -rf statements && cp -r -- "$tests/statements" .
        test_texts "${flags[@]}"
        test_shared_plugins "${flags[@]}"
        test_sessions "${flags[@]}"
        # A child may begin threads, and `exit` in a handler is the program's own risk.
        TSAN_OPTIONS='die_after_fork=0 report_signal_unsafe=0' test_ends "${flags[@]}"
        TSAN_OPTIONS='report_signal_unsafe=0' test_writing "${flags[@]}"
        test_times "${flags[@]}"
        TSAN_OPTIONS='die_after_fork=0 report_signal_unsafe=0' test_keeping "${flags[@]}"
    done
}
