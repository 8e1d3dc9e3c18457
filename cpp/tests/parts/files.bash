# Part of cpp/tests/run: files that fail.

# run_files LOG WAY ERROR runs the program, which is to tell this error, and sets `written` and `unwritten`.
run_files() {
    local logged error
    written=0 unwritten=0
    [ ! -f "$1" ] || rm -f -- "$1" "$1".[0-9]*
    passes ./files "$1" "$2" || return
    read -r logged written unwritten error <out
    equal "files $1 $2" "$logged $error" "40000 $3"
    [ ! -f "$1" ] || equal "bytes of $1" "$written" "$(stat -c %s -- "$1")"
}

test_files() {
    build files files.cc -O2 -Wall -Wextra -Werror || return
    # Files that take nothing: one that can't be made, a folder, and a full device.
    run_files no/such.log plain 'No such file or directory'
    equal 'written into no file' "$written" 0
    above 'not written into no file' "$unwritten" 1000000
    mkdir folder && run_files folder plain 'Is a directory'
    equal 'written into a folder' "$written" 0
    run_files /dev/full plain 'No space left on device'
    equal 'written into a full device' "$written" 0
    above 'not written into a full device' "$unwritten" 1000000
    # A descriptor that is closed in mid-stream: what was flushed before is there.
    run_files files.log close 'Bad file descriptor'
    lines files.log 0 got
    has_lines got 20001
    above 'not written into a closed descriptor' "$unwritten" 500000
    # A file that may not grow: it ends with its last whole block.
    run_files files.log limit 'File too large'
    lines files.log 0 got
    above 'written into a file of limited length' 100001 "$written"
    above 'lines of a file of limited length' "$(wc -l <got)" 900
    # Short and interrupted writes.
    run_files files.log mend none
    lines files.log 0 got
    has_lines got 40000
    equal 'not written by short writes' "$unwritten" 0
    # A flush while another one is under way.
    passes ./files files.log between
    lines flushed.log 0 got
    has_lines got 2
    # A reader that goes.
    rm -f pipe && mkfifo pipe
    timeout 100 head -c 100000 pipe >/dev/null &
    run_files pipe plain 'Broken pipe'
    wait $!
    above 'written into a pipe' "$written" 99999
    above 'not written into a pipe' "$unwritten" 500000
}
