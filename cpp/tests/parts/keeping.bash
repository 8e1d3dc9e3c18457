# Part of cpp/tests/run: parts of a log, what is kept, and who may write.

# run_keeping SAID CASE [WORD] runs a case, which is to end well and to say this. N stands for a number behind a colon.
run_keeping() {
    local said=$1 status
    shift
    rm -rf -- ./ends.log* ./moved.* later pipe
    timeout 120 ./keeping "$@" >out 2>err
    status=$?
    [ "$status" = 0 ] || fail "$compiler: keeping $*: status $status: $(head -n 20 err)"
    printf '%s' "$said" >wanted
    [[ $said != *': N'* ]] || sed -i -E 's/: [0-9]+$/: N/' err
    same "keeping $* says" wanted err
}

# whole LOG decompresses a part, which is to be a whole log, behind what is in the file got.
whole() {
    "$nanolog" decompress "$1" >>got 2>err && [ ! -s err ] || fail "$compiler: decompress $1: $(head -n 3 err)"
}

# part_files prints the names of all parts, the newest one last.
part_files() {
    ls -- ends.log.[0-9]* 2>err
    echo ends.log
}

# whole_parts COUNT looks that all parts are whole, and that the calls of each thread, of which there are so many, stand
# there once and in their order.
whole_parts() {
    local part wrong
    : >got
    for part in $(part_files); do whole "$part"; done
    has_lines got "$1"
    wrong=$(sed -E 's/.*: thread ([0-9]+) call ([0-9]+)$/\1 \2/' got |
        awk '$2 != seen[$1]++ { print "out of order: " $0; exit }')
    [ -z "$wrong" ] || fail "$compiler: $case: $wrong"
}

# has_calls FILE NUMBER.. looks that a log has these calls.
has_calls() {
    : >got
    whole "$1"
    equal "$case: calls of $1" "$(sed -E 's/.* call //' got | tr '\n' ' ')" "${*:2} "
}

# has_parts COUNT looks how many parts there are beside the newest one.
has_parts() { equal "$case: parts" "$(($(part_files | wc -l) - 1))" "$1"; }

test_parts() {
    local size case
    for size in 1 5000 1048576; do
        case="parts $size"
        run_keeping '' parts "$size"
        whole_parts "$(($size < 10000 ? 20000 : 400000))"
        above "$case: parts" "$(part_files | wc -l)" "$((size < 10000 ? 4 : 2))"
        # A part ends behind the extent with which it has so many bytes.
        [ "$size" != 1048576 ] || above "$case: the least bytes" "$(stat -c %s -- ends.log.[0-9]* | sort -n | head -n 1)" \
            "$((size - 1))"
        [ "$size" != 1048576 ] || above "$case: the most bytes" "$((size + 100000))" \
            "$(stat -c %s -- ends.log* | sort -n | tail -n 1)"
    done
    case=keeps_two
    run_keeping '' keeps_two
    has_parts 2
    : >got
    for size in $(part_files); do whole "$size"; done
    above 'the last calls of what is kept' "$(grep -c ' call 19999$' got)" 0
    case=rotates
    run_keeping '' rotates
    whole_parts 80000
    above "$case: parts" "$(part_files | wc -l)" 10
    case=rotates_between
    run_keeping '' rotates_between
    has_calls ends.log.000001 0
    has_calls ends.log.000002 1
    has_calls ends.log 2
}

test_moves() {
    local case=moved
    run_keeping '' moved
    has_calls moved.1 0 1
    has_calls moved.2 2
    has_calls moved.3 3
    has_calls ends.log 4
    has_parts 1
    equal 'what somebody else wrote' "$(cat ends.log.000001)" 'of somebody else'
    case=elsewhere
    run_keeping '' elsewhere
    has_calls ends.log.000001 0
    has_calls ends.log 1
    case=begins_anew
    run_keeping '' begins_anew
    has_calls ends.log 0
    has_parts 2
}

# What is there when a session begins is kept.
test_kept() {
    local case=sessions number
    run_keeping '' sessions
    has_parts 199
    has_calls ends.log.000001 0
    has_calls ends.log.000199 198
    has_calls ends.log 199
    case=one
    # An empty file is taken as it is, with its mode; another one is kept, whatever it holds.
    rm -f ./ends.log* && : >ends.log && chmod 600 ends.log && ./keeping one
    has_parts 0
    equal 'the mode of an empty file' "$(stat -c %a ends.log)" 600
    rm -f ./ends.log* && echo kept >ends.log && : >ends.log.000041 && : >ends.log.0000099 && : >ends.log.12 && ./keeping one
    equal 'a kept file' "$(cat ends.log.000042)" kept
    equal 'the mode of a log' "$(stat -c %a ends.log)" "$(printf %o $((0666 & ~$(umask))))"
    # More than 999,999 parts, and a number that somebody else takes.
    rm -f ./ends.log* && echo kept >ends.log && : >ends.log.999999 && ./keeping one
    equal 'a kept file of seven digits' "$(cat ends.log.1000000)" kept
    # The file is kept to which a link leads, and not the link.
    rm -rf ./ends.log* folder && mkdir folder && echo kept >folder/target && ln -s folder/target ends.log && ./keeping one
    [ -L ends.log ] && [ "$(cat folder/target.000001)" = kept ] || fail "$compiler: a link isn't followed"
    has_calls folder/target 0
    # A session that was killed between the two steps, and what it left.
    rm -rf ./ends.log* && echo kept >ends.log && ln ends.log ends.log.000007 && : >ends.log.new && ./keeping one
    equal 'what a killed session left' "$(ls ends.log* | tr '\n' ' ')" 'ends.log ends.log.000007 '
    for number in 1 2; do
        bash -c './keeping killed; :' 2>err
        case="killed $number"
        equal "$case: parts" "$(ls ends.log.[0-9]* | tail -n 1)" "ends.log.00000$((number + 7))"
    done
    lines ends.log.000009 0 got
    has_lines got 1
    run_keeping 'nanolog: ends.log: an option is out of its range
nanolog: ends.log: an option is out of its range
' bad_options
}

test_locks() {
    local case=locked taken='nanolog: ends.log: another session writes this file'
    run_keeping "$taken"$'\nnanolog: ends.log: calls without a session: 1\n' locked
    case=second_process
    run_keeping "$(for ((number = 0; number < 20; number++)); do echo "$taken"; done)"$'\n' second_process
    has_parts 21
    case=child_stays
    run_keeping '' child_stays
    whole_parts 3
}

# What isn't a regular file is written as it is.
test_plain_files() {
    local case=plain_file
    run_keeping "$(for number in 1 2; do
        echo 'nanolog: /dev/full: No space left on device; nothing more is written'
        echo 'nanolog: /dev/full: bytes not written: N'
    done)"$'\n' plain_file /dev/full
    run_keeping '' plain_file /dev/null
    rm -f pipe && mkfifo pipe && (cat pipe >piped; cat pipe >>piped) &
    until [ -p pipe ]; do sleep 0.01; done
    timeout 60 ./keeping plain_file pipe 2>err || fail "$compiler: keeping plain_file pipe: $(cat err)"
    wait $!
    [ -p pipe ] && above 'bytes in a pipe' "$(stat -c %s piped)" 100
    rm -f ./ends.log* && echo before >ends.log && ./keeping plain_file /dev/stdout >>ends.log 2>err ||
        fail "$compiler: keeping plain_file /dev/stdout: $(cat err)"
    [ "$(head -n 1 ends.log)" = before ] && above 'bytes on standard output' "$(stat -c %s ends.log)" 200
    has_parts 0
}

test_refusing_files() {
    local again='it is tried again once a second, in a new part' case=full
    run_keeping "nanolog: ends.log: No space left on device; $again
-- full
-- emptied
nanolog: ends.log: it goes on in a new part; bytes not written meanwhile: N
-- goes on
nanolog: ends.log: bytes not written: N
" full
    has_parts 1
    lines ends.log.000001 0 got
    above 'lines before a disk was full' "$(wc -l <got)" 999
    equal 'those that are in order' "$(sed -E 's/.* call //' got | awk '$1 == NR - 1' | wc -l)" "$(wc -l <got)"
    : >got
    whole ends.log
    equal 'lines behind' "$(sed -E 's/.* call //' got | awk '$1 >= 4000' | wc -l)" 1000
    case=no_folder
    run_keeping "nanolog: later/ends.log: No such file or directory; $again
-- made
nanolog: later/ends.log: it goes on in a new part; bytes not written meanwhile: N
nanolog: later/ends.log: bytes not written: N
" no_folder
    case=stuck
    run_keeping 'nanolog: ends.log: Too many open files; the part goes on, and a new one is tried once a second
' stuck
    has_calls ends.log.000001 0 1
    has_calls ends.log 2
}

# test_keeping FLAG..
test_keeping() {
    local way=plain
    build keeping keeping.cc "$@" || return
    test_parts
    test_moves
    test_kept
    test_locks
    test_plain_files
    test_refusing_files
}
