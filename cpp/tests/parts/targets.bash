# Part of cpp/tests/run: the build step.

test_targets() {
    rm -rf projects steps
    cp -r -- "$tests/projects" .
    # The script is no matter of the compiler.
    if [ "$compiler" = "${compilers[0]}" ]; then
        step_by_hand
        many_files
        step_in_awks
    fi
    stale_dictionary
    local generator last='' words=(-D PLAIN=ON)
    while read -r generator; do
        several_targets "$generator" "${words[@]}"
        last=$generator words=(-D ABOVE=ON)
    done < <(generators)
    [ -n "$last" ] || return 0
    several_folders "$last"
    other_cases "$last"
}

# inject WORD.. runs the script.
inject() { NANOLOG=$nanolog sh "$library/nanolog-inject" "$@" >out 2>err; }

# ---- the script

step_by_hand() {
    rm -rf steps
    mkdir -p 'steps/a folder/in' steps/up
    cd steps/up || exit 1
    printf '%b' '#include <nanolog.hpp>\r\nvoid f() { NANO_LOG(NOTICE, "one %d",\r\n 1); }\r\n' \
        '// NANO_LOG_CALL(3x) \0351\0377' >../f.cc
    printf '\357\273\277void g() { NANO_LOG(NOTICE, "two\\\\n"); NANO_LOG(ERROR,\n "three\\n"\n\n, 5); }\n' >g.cc
    : >none.cc
    echo 'void MY_NANO_LOG_CALL(int); void h() { MY_NANO_LOG_CALL(0); NANO_LOG(NOTICE, "four"); }' \
        >'../a folder/in/h h.cc'
    inject d.dict gen ../f.cc g.cc none.cc '../a folder/in/h h.cc' "$PWD/g.cc" || fail "nanolog-inject: $(cat err)"
    # Two backslashes and a letter are no line feed.
    equal 'what it warns of' "$(grep -c 'warning: nanolog: the format ends with a line feed' err)" 2
    # What it makes is what the program makes, with a line in front, and with numbers.
    local file place
    for file in ../f.cc g.cc none.cc '../a folder/in/h h.cc' "$PWD/g.cc"; do
        place=gen/${file//..\//__/}
        "$nanolog" inject d.dict "$file" wanted >out
        LC_ALL=C sed -E '1{N; s/^(\xef\xbb\xbf)?#line 1 "[^"]*"\n/\1/}
            s/NANOLOG_NUMBERED\(0x[0-9a-f]{16}, /NANO_LOG_CALL(/g' "$place" >made
        [ "$file" = none.cc ] || same "nanolog-inject $file" wanted made
        equal "the name in $place" "$(LC_ALL=C sed -n '1s/^[^#]*#line 1 "\(.*\)"$/\1/p' "$place")" "$file"
    done
    equal 'numbers' "$(cat gen/__/f.cc gen/g.cc "gen/__/a folder/in/h h.cc" | grep -ao 'NUMBERED(0x' | wc -l)" 4
    # Nothing is written again where nothing has changed.
    touch -d 2001-01-01 d.dict gen/*.cc gen/nanolog_messages.h
    inject d.dict gen ../f.cc g.cc none.cc '../a folder/in/h h.cc' "$PWD/g.cc"
    equal 'files that are written again' \
        "$(find d.dict gen/*.cc gen/nanolog_messages.h -newermt 2002-01-01 | wc -l)" 0
    # A source with such words of its own, and more files than a dictionary takes.
    echo 'void k() { NANO_LOG(NOTICE, "five"); NANO_LOG_CALL(0, 1); }' >own.cc
    if inject own.dict own own.cc || ! grep -q 'own.cc can.t be injected, since it has words of its own' err ||
        [ -e own.dict ]; then
        fail "nanolog-inject takes a source with words of its own: $(cat err)"
    fi
    if inject same.dict . g.cc || ! grep -q 'g.cc is g.cc itself' err; then
        fail "nanolog-inject overwrites a source: $(cat err)"
    fi
    cd ../.. || exit 1
}

# The program is a stand-in here, which finds no statements, and is as quick as a shell.
many_files() {
    local nth nanolog=$room/many/nanolog
    mkdir -p many
    for ((nth = 1; nth <= 1025; nth++)); do echo '// No NANO_LOG here.' >many/$nth.cc; done
    cat >many/nanolog <<'END'
#!/bin/sh
case $1 in
    preprocess) echo 'nanolog-trace 1' >"$3" ;;
    header) echo '#define NANO_LOG_MESSAGES 0' >"$4" ;;
    inject) echo '// No NANO_LOG here.' >"$5" && echo 'injected 0' ;;
esac
END
    chmod +x many/nanolog
    if inject many.dict whole many/*.cc || ! grep -q 'there are 1025 files, and a dictionary takes 1,024' err; then
        fail "nanolog-inject takes 1,025 files: $(cat err)"
    fi
    inject -t many.dict tree many/*.cc || fail "nanolog-inject takes no 1,025 files in a tree: $(cat err)"
    equal 'files that are left' "$(grep -c 'is left as it is, since a dictionary takes 1,024 files at most' err)" 1
    equal 'sources for which there is a file' "$(find tree/sources -name '*.cc' -size 0 | wc -l)" 1025
}

# The script makes the same by each awk that is here.
step_in_awks() {
    local awk first=
    rm -rf awks
    for awk in mawk gawk busybox original-awk; do
        type -P $awk >/dev/null || continue
        mkdir -p awks/bin awks/$awk
        ln -sf -- "$(type -P $awk)" awks/bin/awk
        (cd steps/up && PATH=$room/awks/bin:$PATH inject "$room/awks/$awk/d.dict" "$room/awks/$awk/gen" \
            ../f.cc g.cc '../a folder/in/h h.cc') || fail "nanolog-inject with $awk: $(cat steps/up/err)"
        [ -z "$first" ] || diff -r "awks/$first" awks/$awk >out ||
            fail "nanolog-inject makes something else with $awk than with $first: $(cat out)"
        first=${first:-$awk}
    done
}

# A dictionary of as many messages of the same severities, of which two have changed places.
stale_dictionary() {
    rm -rf stale
    mkdir stale
    cat >stale/stale.cc <<'END'
#include <nanolog.hpp>
int main() {
    nanolog::Session log("stale.log", "stale.dict");
    NANO_LOG(NOTICE, "the first says %d", 1);
    NANO_LOG(NOTICE, "the second says %d", 2);
    NANO_LOG(NOTICE, "the third says %d", 3);
}
END
    (cd stale && inject stale.dict gen stale.cc &&
        "$compiler" -std=c++17 -pthread -rdynamic -I gen -I "$library" -o stale gen/stale.cc "$library/libnanolog.a") \
        >out 2>&1 || fail "$compiler: stale.cc isn't built: $(cat out)"
    (cd stale && passes ./stale)
    lines stale/stale.log 0 got
    has_lines got 3
    sed -i 's/first/xxxx/; s/second/first/; s/xxxx/second/' stale/stale.cc
    (cd stale && inject stale.dict other stale.cc && ./stale 2>err) || fail "$compiler: stale: $(cat stale/err)"
    lines stale/stale.log 0 got
    equal 'lines by a stale dictionary' "$(sed 's/^[^ ]* //' got)" 'stale.cc:6 NOTICE[0]: the third says 3'
    grep -q 'stale.cc.*refused.*: 2$' stale/err || fail "$compiler: a stale dictionary isn't told: $(cat stale/err)"
}

# ---- projects

# log_of LOG prints its lines without times, and each file without its folders.
log_of() {
    lines "$1" 0 got
    sed -E 's/^[^ ]* //; s/^[^ ]*\/([^ ]*)/\1/; s/\[[0-9]+\]/[W]/' got
}

several_targets() {
    by_cmake "$1" projects/targets "${@:2}" || return
    cat >wanted <<'END'
main.cc:19 NOTICE[W]: the program begins
archive.cc:6 NOTICE[W]: an archive says 42
both.h:6 WARNING[W]: an inline function, called by the archive
shared.cc:6 NOTICE[W]: a shared library says yes
both.h:6 WARNING[W]: an inline function, called by the shared library
objects.cc:5 ERROR[W]: an object library has 4 parts
piece.cc:5 DEBUG[W]: a source of an interface library
made.cc:5 NOTICE[W]: a source that is made
macros.cc:8 NOTICE[W]: a wrapper says hello to you
macros.cc:9 NOTICE[W]: properties say hello to you
special.c:5 NOTICE[W]: a source of C++ with another name
table.inc:1 NOTICE[W]: an included piece has 1
part.h:9 NOTICE[W]: a template of an interface library, 42
both.h:6 WARNING[W]: an inline function, called by the program
END
    (cd build/app && passes ./app)
    log_of build/app/app.log >made
    same "cmake $1: the log of several targets" wanted made
    no_formats build/app/app build/app/app.dict
    no_formats build/libraries/libshared.so build/app/app.dict
    builds_nothing "cmake $1, several targets" cmake --build build

    installs_to installed
    (cd installed/bin && LD_LIBRARY_PATH=../lib passes ./app)
    log_of installed/bin/app.log >made
    same "cmake $1: the log of several targets that are installed" wanted made

    consumer "$1"

    # A new text has its own unit compiled, and no other one.
    sed -i 's/an archive says/an archive now says/' projects/targets/libraries/archive.cc wanted
    cmake --build build >out 2>&1 || fail "$compiler: cmake $1: a new text: $(tail -n 20 out)"
    equal "cmake $1: what is compiled for a new text" "$(grep -o 'Building.*' out)" \
        'Building CXX object libraries/CMakeFiles/archive.dir/archive.cc.o'
    (cd build/app && passes ./app)
    log_of build/app/app.log >made
    same "cmake $1: the log with a new text" wanted made
    # A new statement shifts the numbers of all behind it.
    sed -i 's/    archive();/    NANO_LOG(NOTICE, "something new"); archive();/' projects/targets/app/main.cc
    sed -i '1a main.cc:20 NOTICE[W]: something new' wanted
    cmake --build build -j2 >out 2>&1 || fail "$compiler: cmake $1: a new statement: $(tail -n 20 out)"
    (cd build/app && passes ./app)
    log_of build/app/app.log >made
    same "cmake $1: the log with a new statement" wanted made
    # The compiler tells of the sources that were written.
    sed -i 's/"something new"); archive();/"something new"); archive(1);/' projects/targets/app/main.cc
    ! cmake --build build >out 2>&1 && grep -q "$room/projects/targets/app/main.cc:20:.*error" out ||
        fail "$compiler: cmake $1: an error isn't told of its source: $(cat out)"
    rm -r projects/targets
    cp -r -- "$tests/projects/targets" projects
}

# The archive that was installed is linked by another project, with the dictionary beside the installed program.
consumer() {
    mv build kept
    if by_cmake "$1" projects/consumer -D INSTALLED="$PWD/installed"; then
        (cd build && passes ./consumer ../installed/bin/app.dict)
        log_of build/consumer.log | sed '/by the archive/d' >made
        printf '%s\n' 'archive.cc:6 NOTICE[W]: an archive says 42' \
            'both.h:6 WARNING[W]: an inline function, called by the consumer' >wanted_of_consumer
        same "cmake $1: the log of a consumer" wanted_of_consumer made
    fi
    rm -rf build
    mv kept build
}

several_folders() {
    by_cmake "$1" projects/folders || return
    (cd build/app && passes ./program)
    lines build/app/program.log 0 got
    sed -i 's/^[^ ]* //' got
    cat >wanted <<'END'
main.cc:9 NOTICE[0]: main 1
net/net.h:9 WARNING[0]: net.h 11
net/net.cc:7 NOTICE[0]: net.cc name
../include/things/thing.h:8 DEBUG[0]: thing.h 2
../other.cc:9 ERROR[0]: other.cc name
END
    same "cmake $1: the log of several folders" wanted got
    no_formats build/app/program build/app/program.dict
}

# refuses GENERATOR CASE SAID configures a project that is refused with these words.
refuses() {
    rm -rf build
    ! cmake -G "$1" -S projects/cases -B build -D CMAKE_CXX_COMPILER="$compiler" -D nanolog_DIR="$library" \
        -D NANOLOG_PROGRAM="$nanolog" -D CASE="$2" >out 2>&1 || fail "cmake takes $2"
    tr -s '\n ' ' ' <out | grep -qF -- "$3" || fail "cmake $2 says: $(cat out)"
}

# logs_case GENERATOR CASE SAID builds a case, which says this as it is built, and looks at its log.
logs_case() {
    by_cmake "$1" projects/cases -D CASE="$2" || return 1
    [ -z "$3" ] || grep -q -- "$3" out || fail "$compiler: cmake $2 doesn't say: $3: $(cat out)"
    [ -n "$3" ] || ! grep -q 'warning' out || fail "$compiler: cmake $2 says: $(cat out)"
    (cd build && ./app) >out 2>told || fail "$compiler: cmake $2: status $?"
    log_of build/app.log >made
}

# holds_not PATTERN looks that the program of a case holds no such format.
holds_not() { ! strings -a build/app | grep -q -- "$1" || fail "$compiler: the program holds a format: $1"; }

other_cases() {
    local case said
    refuses "$1" no_target 'main.cc is no target; files stand behind the word FILES'
    refuses "$1" no_file 'there is no none.h'
    refuses "$1" again 'name all targets of a program, and all files, in one call'
    cat >wanted <<'END'
main.cc:12 NOTICE[W]: the disk has 7 parts
main.cc:13 WARNING[W]: the disk is 91% full
told.h:5 NOTICE[W]: a header says 1
lib.cc:6 NOTICE[W]: the library says 42
lib.cc:7 WARNING[W]: the library is 43% full
more.cc:10 ERROR[W]: more of it
told.h:5 NOTICE[W]: a header says 2
END
    for case in plain unity precompiled skip two_ways two_ways_told; do
        said=
        [ $case != two_ways ] || said='more.cc: it is compiled with its headers as they are'
        logs_case "$1" $case "$said" || continue
        same "cmake $1: the log of $case" wanted made
        [ ! -s told ] || fail "$compiler: cmake $1: $case says: $(cat told)"
        case $case in
            unity | two_ways_told) no_formats build/app build/app.dict ;;
            precompiled | two_ways) holds_not 'the disk has\|more of' ;;
            skip) holds_not 'the disk has' ;;
        esac
    done
    # Each of two dictionaries has its first message: no line is another one's, and what can't be logged is told.
    logs_case "$1" two_dictionaries '' || return
    sed -i '/^lib.cc/d' wanted
    same "cmake $1: the log of two dictionaries" wanted made
    grep -q 'lib.cc.*refused.*: 2$' told || fail "$compiler: two dictionaries aren't told: $(cat told)"
}
