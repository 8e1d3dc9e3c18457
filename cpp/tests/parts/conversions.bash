# Part of cpp/tests/run: conversions and types.

# The lines of a log are those that snprintf prints, whether the statements were taken out or not, and so are the lines
# of statements in a program without a session.
test_conversions() {
    bash "$tests/random_statements" 7 1000 >random.cc
    local way
    for way in plain injected; do
        build conversions conversions.cc -O1 -w && passes ./conversions && lines conversions.log 0 got
        sed -i 's/ conversions\.cc:[0-9]* / /' got
        same "conversions.log, $way" conversions.expected got
        build random random.cc -O0 -w && passes ./random && lines random.log 0 got
        same "random.log, $way" random.expected got
    done
    printed conversions
}

# printed PROGRAM builds a program without a session, which prints the same texts on standard error. It needs no archive.
printed() {
    "$compiler" -std=c++17 -O0 -w -D PRINTED -I . -I "$library" -o "$1" "$1.cc" 2>err ||
        { fail "$compiler: $1.cc isn't built without a session: $(head -n 20 err)"; return; }
    "./$1" 2>err || fail "$compiler: $1 without a session: status $?"
    sed -E 's/^[0-9]{10}\.[0-9]{9} (conversions\.cc:[0-9]+ )?//' err >got
    sed -E 's/^[0-9]{10}\.[0-9]{9} //' "$1.expected" >wanted
    same "$1 without a session" wanted got
}
