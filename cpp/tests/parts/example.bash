# Part of cpp/tests/run: the example.

# no_formats PROGRAM DICTIONARY looks that no longer piece of a format of the dictionary stands in the program.
no_formats() {
    local piece
    sed -n 's/^message [0-9]* [A-Z]* [0-9]* "[^"]*" "\(.*\)"$/\1/p' "$2" | sed 's/%[-+ #0-9.*hljzt]*[a-zA-Z%]/\n/g' |
        awk 'length($0) > 5' >pieces
    [ -s pieces ] || fail "$2 has no formats"
    while IFS= read -r piece; do
        ! strings -a "$1" | grep -qF -- "$piece" || fail "$compiler: $1 holds the format: $piece"
    done <pieces
}

# serves FOLDER [PROGRAM] runs the example's server there, with 500 requests, and looks at its log.
serves() {
    rm -f -- "$1/server.log"
    (cd "$1" && passes "./${2-server}" 500) || fail "$compiler: the server in $1"
    lines "$1/server.log" 0 got
    # Files are told by all their folders where statements aren't taken out.
    sed -E -i 's/^[^ ]* //; s/^[^ ]*\///; s/:[0-9]+ /: /; s/\[[0-9]+\]/[W]/' got
    sed -E -i 's/ in [0-9]+ us by thread [0-2]$/ in N us/' got
    equal "requests, $1" "$(grep -c '^server.cc: NOTICE\[W\]: GET /page[0-9]*: [0-9]* bytes in N us$' got)" 495
    equal "errors, $1" "$(grep -c '^server.cc: ERROR\[W\]: GET /page[0-9]*: there is no such file$' got)" 5
    equal "first line, $1" "$(head -n 1 got)" 'main.cc: NOTICE[W]: listening on port 8080'
    equal "last line, $1" "$(tail -n 1 got)" 'main.cc: NOTICE[W]: stopped after 500 requests'
}

test_example() {
    rm -rf example
    cp -r -- "$tests/../example" .
    # As it is written, without a step.
    "$compiler" -std=c++17 -O1 -Wall -Wextra -Werror -pthread -rdynamic -I "$library" -o example/plain example/*.cc \
        "$library/libnanolog.a" 2>err || fail "$compiler: the example isn't built as it is: $(head -n 20 err)"
    serves example plain
    shown_on_the_page
    example_by_make
    example_by_autotools
    local generator
    while read -r generator; do
        example_by_cmake "$generator"
    done < <(generators)
}

# The page shows these files as they are.
shown_on_the_page() {
    local file
    for file in Makefile CMakeLists.txt autotools/Makefile.am; do
        awk -v first="$(head -n 1 "example/$file")" '
            /^```/ { inside = !inside; at = 0; next }
            inside && ++at == 1 { is_it = $0 == first }
            inside && is_it' "$top/docs/cpp.md" >shown
        same "docs/cpp.md and $file" "example/$file" shown
    done
}

# generators prints those of CMake that can be had here.
generators() {
    if ! type -P cmake >/dev/null; then
        say "cmake isn't here, and is left out" >&2
        return
    fi
    type -P make >/dev/null && echo 'Unix Makefiles' || say "make isn't here, and is left out" >&2
    type -P ninja >/dev/null && echo 'Ninja' || say "ninja isn't here, and is left out" >&2
}

# builds_nothing WHAT WORD.. runs a build that has nothing to compile.
builds_nothing() {
    local what=$1
    shift
    "$@" >out 2>&1 || fail "$compiler: $what: $(tail -n 20 out)"
    ! grep -q 'Building\| -c ' out || fail "$compiler: $what builds anew: $(tail -n 20 out)"
}

example_by_make() {
    if ! type -P make >/dev/null; then
        say "make isn't here, and is left out"
        return
    fi
    local make=(make -C example CXX="$compiler" NANOLOG="$nanolog" LIBRARY="$library")
    "${make[@]}" -j2 >out 2>&1 || fail "$compiler: make: $(tail -n 20 out)"
    serves example
    no_formats example/server example/server.dict
    builds_nothing make "${make[@]}"
    touch example/server.cc
    builds_nothing 'make behind a touch' "${make[@]}"
    echo >>example/main.cc
    "${make[@]}" >out 2>&1
    equal 'what make compiles where one file has changed' "$(grep -o 'gen/[a-z]*\.cc$' out)" gen/main.cc
}

example_by_autotools() {
    if ! type -P autoreconf >/dev/null || ! type -P automake >/dev/null; then
        say "autoconf and automake aren't here, and are left out"
        return
    fi
    (cd example/autotools && autoreconf -i) >out 2>&1 || fail "autoreconf: $(tail -n 20 out)"
    mkdir -p example/made
    (cd example/made && ../autotools/configure -q CXX="$compiler" NANOLOG="$nanolog" NANOLOG_LIBRARY="$library" \
        CXXFLAGS=-O1 --prefix="$PWD/installed" && make -j2 && make install) >out 2>&1 ||
        fail "$compiler: autotools: $(tail -n 20 out)"
    serves example/made/installed/bin
    no_formats example/made/installed/bin/server example/made/server.dict
    builds_nothing autotools make -C example/made
}

# by_cmake GENERATOR FOLDER WORD.. builds a project in the folder build.
by_cmake() {
    local generator=$1 folder=$2
    shift 2
    rm -rf build
    cmake -G "$generator" -S "$folder" -B build -D CMAKE_CXX_COMPILER="$compiler" \
        -D CMAKE_CXX_FLAGS='-Wall -Wextra -Werror' -D nanolog_DIR="$library" -D NANOLOG_PROGRAM="$nanolog" \
        "$@" >out 2>&1 && cmake --build build -j2 >out 2>&1 && return
    fail "$compiler: cmake $generator $folder $*: $(tail -n 20 out)"
    return 1
}

# installs_to FOLDER installs what is in the folder build.
installs_to() {
    rm -rf -- "$1"
    cmake -D CMAKE_INSTALL_PREFIX="$PWD/$1" -P build/cmake_install.cmake >out 2>&1 || fail "cmake installs: $(tail out)"
}

example_by_cmake() {
    by_cmake "$1" example -D TAKE_OUT=OFF && serves build
    by_cmake "$1" example || return
    serves build
    no_formats build/server build/server.dict
    builds_nothing "cmake $1" cmake --build build
    installs_to installed
    serves installed/bin
    # A statement that is wrong is told, and the next turn tries again.
    sed -i 's/thread %d begins/thread %d begins %f/' example/server.cc
    ! cmake --build build >out 2>&1 && grep -q 'server.cc:[0-9]*: refused: 3 Format Float at ' out ||
        fail "$compiler: cmake $1 takes a wrong statement: $(cat out)"
    sed -i 's/thread %d begins %f/thread %d has begun/' example/server.cc
    cmake --build build >out 2>&1 || fail "$compiler: cmake $1 doesn't mend: $(cat out)"
    (cd build && ./server 5)
    lines build/server.log 0 got
    equal "cmake $1: lines of a new text" "$(grep -c 'thread [0-2] has begun$' got)" 3
    sed -i 's/thread %d has begun/thread %d begins/' example/server.cc
}
