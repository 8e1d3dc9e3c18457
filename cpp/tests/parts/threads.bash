# Part of cpp/tests/run: threads.

# in_order COUNT checks the lines in the file got: so many, each thread's in the order of its calls.
in_order() {
    awk -v wanted="$1" '{
        for (at = 1; at < NF && $at != "thread"; at++);
        thread = $(at + 1)
        call = $(at + 3)
        if ((thread in last) && call <= last[thread]) { print "out of order: " $0; exit }
        last[thread] = call
    } END { if (NR != wanted) print NR " lines, not " wanted }' got
}

# owned prints how many threads of the file got have a writer that is no other's, and no other one.
owned() {
    sed -E 's/^[^[]*\[([0-9]+)\]: thread ([0-9]+) .*/\1 \2/' got | sort -u |
        awk '{ threads[$1]++; writers[$2]++; pair[$1] = $2 }
            END { for (writer in pair) count += threads[writer] == 1 && writers[pair[writer]] == 1; print count }'
}

# run_threads THREADS CALLS WAY [WRITERS] runs the program, and sets `logged`, `dropped`, `writers` and `shared`.
run_threads() {
    local wrong
    logged='' dropped='' writers='' shared=''
    rm -f threads.log*
    passes ./threads "$@" || return
    read -r logged dropped writers shared <out
    lines threads.log 0 got
    wrong=$(in_order "$logged")
    [ -z "$wrong" ] || fail "$compiler: threads $*: $wrong"
}

test_threads() {
    local threads calls way=injected
    build threads threads.cc -O2 -Wall -Wextra -Werror || return
    run_threads 4 10000 wait
    equal '4 threads wait, injected' "$logged $dropped" '40000 0'
    way=plain
    build threads threads.cc -O2 -Wall -Wextra -Werror || return
    for threads in 1 4 64; do
        calls=$((100000 / threads))
        run_threads "$threads" "$calls" wait
        equal "$threads threads wait" "$logged $dropped" "$((threads * calls)) 0"
        run_threads "$threads" "$calls" drop
        equal "$threads threads drop" "$((logged + dropped))" "$((threads * calls))"
    done
    run_threads 1000 3 one
    equal '1000 threads, one after the other' "$logged $writers $shared" '3000 1 0'
    run_threads 10 30 least
    equal '10 threads with the least stack' "$logged $writers $shared" '300 1 0'
    # 63 threads have a writer each, and 37 share one.
    run_threads 100 30 all
    equal '100 threads at once' "$logged $writers $shared" '3000 64 1110'
    # A thousand threads have a writer each.
    run_threads 1000 30 all 1024
    equal '1000 threads at once' "$logged $writers $shared" '30000 1000 0'
    equal 'threads with a writer of their own' "$(owned)" 1000
}
