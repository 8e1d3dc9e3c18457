# Part of cpp/tests/run: statements that register themselves, wherever they stand, and those that were taken out.

# module OUT SOURCE FLAG.. builds a unit of the folder statements, or a library.
module() {
    local out=$1 source=$2
    shift 2
    "$compiler" -pthread -I statements -I . -I "$library" -o "$out" "$source" "$@" 2>err && return
    fail "$compiler: $source isn't built with $*: $(head -n 20 err)"
    return 1
}

# said FILE prints what a program said on standard error, without times, folders and lines.
said() { sed -E 's/^[0-9]+\.[0-9]+ ([^ ]*\/)?([^ /]*):[0-9]+ ([A-Z]+)\[[0-9]+\]/\2: \3/' "$1"; }

# ---- places

# logs_places WAY runs the program `places` and looks at its log, and at what its static objects said before the session
# began and behind it.
logs_places() {
    rm -f places.log
    timeout 60 ./places 2>places.said || fail "$compiler: places, $1: status $?: $(head -n 20 places.said)"
    lines places.log 0 got
    said got | LC_ALL=C sort >sorted
    LC_ALL=C sort statements/places.wanted >wanted
    same "the log of places, $1" wanted sorted
    LC_ALL=C sort <<'END' >wanted
library.cc: NOTICE: library begins
main.cc: WARNING: initialiser of a global
nanolog: calls without a session: 1
other.cc: WARNING: static constructor
END
    said places.said | LC_ALL=C sort >sorted
    same "what places says, $1" wanted sorted
}

test_places() {
    local hidden=(-fPIC -shared -fvisibility=hidden -fvisibility-inlines-hidden -Wl,-z,defs) unit
    # Units, a static library, and a shared one that needs no archive and hides what it has.
    module library.so statements/library.cc -std=c++17 "$@" "${hidden[@]}" || return
    for unit in main other archive; do module $unit.o statements/$unit.cc -std=c++17 "$@" -c; done
    rm -f libplaces.a && ar rcs libplaces.a archive.o
    module places main.o other.o libplaces.a ./library.so "${archives[@]}" && logs_places units
    # The static objects of a unit are made in the order in which units are linked.
    module global.o statements/global.cc -std=c++17 "$@" -c
    module global global.o other.o "${archives[@]}" && passes ./global
    lines global.log 0 got
    equal 'a static constructor in a static session' "$(grep -c 'WARNING.*: static constructor$' got) $(wc -l <got)" '1 6'
    # All in one unit, by another standard.
    printf '#include "%s.cc"\n' main other archive >unity.cc
    module places unity.cc -std=c++20 "$@" ./library.so "${archives[@]}" && logs_places unity
    # With a precompiled header, by the latest standard, and with what isn't used thrown away.
    local header=(-include statements/shared.h)
    rm -f statements/shared.h.gch
    case $compiler in
        *clang*)
            module shared.pch statements/shared.h -std=c++2b -O1
            header=(-include-pch shared.pch)
            ;;
        *) module statements/shared.h.gch statements/shared.h -std=c++2b -O1 ;;
    esac
    for unit in main other archive; do
        module $unit.o statements/$unit.cc -std=c++2b -O1 "${header[@]}" -ffunction-sections -fdata-sections -c
    done
    module places main.o other.o archive.o ./library.so "${archives[@]}" -Wl,--gc-sections &&
        logs_places 'a precompiled header'
    rm -f statements/shared.h.gch
    # Without exceptions and types at run time, and not optimised.
    for unit in main other archive; do
        module $unit.o statements/$unit.cc -std=c++17 -O0 -fno-exceptions -fno-rtti -c
    done
    module places main.o other.o archive.o ./library.so "${archives[@]}" && logs_places 'no exceptions'
}

test_unusual() {
    local standard
    cat >wanted <<'END'
default argument 1
member of a template 2
default argument of a template 3
friend 4
operator 6
conversion
destructor
function try block
its handler
extern C 7
recursive 2
recursive 1
of a pack 1
of a pack 98
of a pack 3
pack of 3 and a text
local class
lambda of a local class 1
beside names of ours here
binding 1 2
body of do
init
body of for
step
END
    for standard in c++17 c++20 c++2b; do
        module unusual statements/unusual.cc -std=$standard -O1 -Wall -Wextra -Werror "${archives[@]}" || continue
        # A variable is made before the session.
        ./unusual 2>err || fail "$compiler: unusual: status $?"
        equal 'what a variable template says' "$(said err)" 'unusual.cc: NOTICE: variable template 5'
        lines unusual.log 0 got
        cut -d ' ' -f 4- got >lines
        same "unusual.log by $standard" wanted lines
    done
}

# ---- plugins

# visits CASE SAID COUNT runs a case, which is to say this and to leave so many lines in its log.
visits() {
    timeout 120 ./plugins "$1" 2>err || fail "$compiler: plugins $1: status $?: $(tail -n 5 err)"
    printf '%s' "$2" >wanted
    same "plugins $1 says" wanted err
    [ -z "$3" ] || { lines plugins.log 0 got && has_lines got "$3"; }
}

# test_shared_plugins FLAG..
test_shared_plugins() {
    local name why="calls without a message in the session's dictionary"
    for name in one two; do
        module $name.so statements/library.cc -std=c++17 "$@" -fPIC -shared -fvisibility=hidden \
            -fvisibility-inlines-hidden -D "NAME=\"$name\"" || return
    done
    module plugins statements/plugins.cc -std=c++17 "$@" -rdynamic "${archives[@]}" -ldl || return
    visits first '' 401
    visits late "nanolog: plugins.log: $why: 6"$'\n' 6
    visits next "nanolog: first.log: $why: 4
nanolog: plugins.log: calls without a session: 1
nanolog: calls without a session: 1
" 3
    visits busy "nanolog: plugins.log: $why: 900"$'\n' ''
}

test_plugins() {
    test_shared_plugins "$@" -Wl,-z,defs
    # Where the program doesn't share what it has, a plugin's calls are told, and never another's.
    module plugins statements/plugins.cc -std=c++17 "$@" "${archives[@]}" -ldl || return
    visits alone "nanolog: calls without a session (the program isn't linked with -rdynamic): 4"$'\n' 1
    # A library of a program that knows nothing of logging prints its lines.
    echo 'extern "C" void of_library(int); int main() { of_library(1); }' >none.cc
    module none none.cc ./one.so && ./none 2>err
    said err >got
    printf '%s\n' 'library.cc: NOTICE: one begins' 'shared.h: NOTICE: inline function 1' \
        'library.cc: NOTICE: one logs 1, a text' 'library.cc: NOTICE: one ends' >wanted
    same 'what a library by itself says' wanted got
}

# ---- formats

# The compiler's reader of formats takes those that the program takes, finds the same faults, and the same arguments.
test_formats() {
    module formats statements/formats.cc -std=c++17 -O1 || return
    ./formats 60 3000 || fail "$compiler: formats: status $?"
    "$nanolog" preprocess formats.dict formats_all.cc >out 2>err
    awk 'BEGIN {
            split("Float Wide Store BadPercent BadLength Unknown TooWide Ends Nul TooManyArgs Long", names)
            for (number in names) numbers[names[number]] = number
        }
        { split($2, at, ":"); print at[2], numbers[$6] }' err >got
    same 'faults of formats' formats.faults got
    "$nanolog" preprocess formats.dict formats_right.cc >out 2>err &&
        "$nanolog" header formats.dict formats.h >out || fail "$compiler: a format is refused: $(head -n 3 err)"
    sed -n '/nano_log_types/,/^}/s/^"\(.*\)",$/\1/p' formats.h >got
    same 'arguments of formats' formats.types got
}

# ---- dictionaries

# The messages of statements that register themselves are spelled as the program spells them.
test_spelling() {
    local long
    long=$(printf 'folder%.0s/' {1..60})
    cat >spelling.cc <<'END'
#include <nanolog.hpp>
#include <cstdio>

void all(int number) {
    NANO_LOG(NOTICE, "\001\002\n\t\r\"\\\177\200\377 \xc3\xa9 \? %d%%", number);
    NANO_LOG(ERROR, "");
    NANO_LOG(WARNING, "joined " "of %s" R"( raw\n)", "pieces");
    NANO_LOG(DEBUG, "%s\x41", "text");
#line 4294 "a\"b\\c\td.cc"
    NANO_LOG(NOTICE, "in another file");
    NANO_LOG(NOTICE, "of a line without a number");
}

int main() {
    nanolog::detail::Directory directory;
    if (directory.dictionary.begin(nullptr) != 0) return 1;
    directory.take_in();
    std::fwrite(directory.dictionary.bytes(), 1, directory.dictionary.len(), stdout);
}
END
    module spelling spelling.cc -std=c++17 -O0 "${archives[@]}" && ./spelling >got
    "$nanolog" preprocess spelling.dict spelling.cc >out 2>err || fail "spelling.cc is refused: $(cat err)"
    for file in got spelling.dict; do
        sed -i 's/^message [0-9]* //' $file
        LC_ALL=C sort -o $file $file
    done
    same 'the spelling of messages' spelling.dict got
    # Of a file's name the last 255 bytes are kept, and one has a name at least.
    sed -i "s|^#line 4294 .*|#line 7 \"$long/long.cc\"|" spelling.cc
    sed -i 's|^    NANO_LOG(NOTICE, "of a line.*|#line 8 ""\n&|' spelling.cc
    module spelling spelling.cc -std=c++17 -O0 -w "${archives[@]}" && ./spelling >got
    grep -qF "NOTICE 7 \"$(printf '%s' "$long/long.cc" | tail -c 255)\" \"in another file\"" got ||
        fail "$compiler: the name of a file isn't cut: $(grep 'in another file' got)"
    grep -qF 'NOTICE 8 "?" "of a line' got || fail "$compiler: a file has no name: $(grep 'of a line' got)"
}

# unit NAME DICTIONARY builds a unit of the program `mixed`, by a dictionary if there is one.
unit() {
    local flags=(-std=c++17 -O0 -c -D "UNIT=$1") source=mixed.cc
    [ "$1" != main ] || source=mixed_main.cc
    if [ -n "$2" ]; then
        # The compiler's name of the file is that of the dictionary.
        (
            cd statements || exit
            NANOLOG=$nanolog "$library/nanolog-inject" "../$2" "../of_$2" mixed.cc mixed.h mixed_main.cc
        ) >out 2>err || fail "$compiler: $2 isn't made: $(cat err)"
        module "mixed_$1.o" "of_$2/$source" -I "of_$2" "${flags[@]}"
    else
        module "mixed_$1.o" "statements/$source" "${flags[@]}"
    fi
}

# mixes WHAT COUNTS LINES WORD.. runs the program `mixed`, which is to print these counts and to log so many lines. None
# of them may be of another message.
mixes() {
    local what=$1 counts=$2 wanted=$3
    shift 3
    module mixed mixed_main.o mixed_one.o mixed_other.o "${archives[@]}" || return
    timeout 60 ./mixed "$@" >got 2>mixed.said || fail "$compiler: mixed, $what: status $?: $(cat mixed.said)"
    equal "counts of mixed, $what" "$(cat got)" "$counts"
    lines mixed.log 0 got
    has_lines got "$wanted"
    only_true "$what"
}

# only_true WHAT looks that none of the lines of mixed.log, in the file got, is of another message.
only_true() {
    said got >lines
    grep -vxE -e 'mixed\.h: NOTICE: header of both [12]' -e 'mixed\.cc: NOTICE: unit (one of 1|other of 2)' \
        -e 'mixed\.cc: WARNING: text abc, number     [12]' -e 'mixed_main\.cc: NOTICE: main 3' lines >wrong
    [ ! -s wrong ] || fail "$compiler: mixed, $1, has false lines: $(cat wrong)"
}

# Statements that were taken out beside others, in one log; and dictionaries that aren't the session's.
test_mixed() {
    local name
    for name in one other main; do unit $name mixed.dict; done
    mixes 'all taken out' '7 0 0' 7 mixed.log mixed.dict
    [ ! -s mixed.said ] || fail "$compiler: mixed says: $(cat mixed.said)"
    unit one ''
    mixes 'some taken out' '7 0 0' 7 mixed.log mixed.dict
    [ ! -s mixed.said ] || fail "$compiler: mixed says: $(cat mixed.said)"
    # Without the dictionary only those are logged that have their texts themselves.
    mixes 'no dictionary' '4 3 0' 4 mixed.log
    # A unit with a dictionary of its own, whose ids are those of other messages. The linker takes the function of the
    # header from either.
    printf '%s\n' '#include <nanolog.hpp>' \
        'inline void more() { NANO_LOG(NOTICE, "more"); NANO_LOG(WARNING, "and more %d", 1); }' >statements/more.cc
    (cd statements && NANOLOG=$nanolog "$library/nanolog-inject" ../more.dict ../of_more.dict more.cc mixed.cc mixed.h) \
        >out 2>err || fail "$compiler: more.dict isn't made: $(cat err)"
    module mixed_one.o of_more.dict/mixed.cc -I of_more.dict -std=c++17 -O0 -c -D UNIT=one
    mixes 'two dictionaries' '5 2 0' 5 mixed.log mixed.dict
    grep -qF 'calls of mixed.cc refused, which has another dictionary: 2' mixed.said ||
        fail "$compiler: two dictionaries aren't told: $(cat mixed.said)"
    # What the linker takes of the header is this unit's now.
    mv mixed_main.o main.o && mv mixed_one.o mixed_main.o && mv main.o mixed_one.o
    mixes 'two dictionaries in another order' '3 4 0' 3 mixed.log mixed.dict
    grep -qF 'calls of mixed.h refused, which has another dictionary: 2' mixed.said ||
        fail "$compiler: a header of two dictionaries isn't told: $(cat mixed.said)"
    mv mixed_one.o mixed_main.o
    # A dictionary with as many messages of the same severities, of which two have changed places.
    unit one mixed.dict
    awk '$4 == 7 { held = $0; next } { print } held != "" { print held; held = "" }' mixed.dict >swapped
    awk '/^message/ { sub(/message [0-9]+/, "message " count++) } { print }' swapped >stale.dict
    ! cmp -s mixed.dict stale.dict || fail 'no message has changed its place'
    module mixed mixed_main.o mixed_one.o mixed_other.o "${archives[@]}" &&
        ./mixed mixed.log stale.dict >got 2>mixed.said
    read -r logged stale _ <got
    equal 'calls by a stale dictionary' "$((logged + stale))" 7
    above 'refused by a stale dictionary' "$stale" 3
    lines mixed.log 0 got
    only_true 'by a stale dictionary'
    # It is looked for beside the program, too.
    mkdir -p elsewhere
    (cd elsewhere && timeout 60 ../mixed ../mixed.log build/mixed.dict) >got 2>mixed.said
    equal 'counts of mixed, from elsewhere' "$(cat got)" '7 0 0'
}

# refused WORDS FLAG.. compiles statements/mixed.cc, which is to be refused with these words.
refused() {
    local words=$1
    shift
    ! "$compiler" -std=c++17 -fsyntax-only -w -D UNIT=one -I statements -I "$library" "$@" 2>err &&
        grep -qF "$words" err || fail "$compiler: this isn't told: $words: $(head -n 5 err)"
}

# Sources that didn't come to the compiler as they should.
test_unbuilt() {
    refused "nanolog: this statement wasn't injected" -D NANOLOG_INJECTED_ONLY statements/mixed.cc
    "$compiler" -std=c++17 -fsyntax-only -D NANOLOG_INJECTED_ONLY -D UNIT=one -I of_mixed.dict -I "$library" \
        of_mixed.dict/mixed.cc 2>err || fail "$compiler: injected statements alone: $(head -n 5 err)"
    sed 's/NANOLOG_NUMBERED(0x[0-9a-f]*, /NANO_LOG_CALL(/' of_mixed.dict/mixed.cc >unnumbered.cc
    grep -q NANO_LOG_CALL unnumbered.cc || fail 'there are no calls without numbers'
    refused 'nanolog: this source was injected without numbers' -I of_mixed.dict unnumbered.cc
    refused "nanolog: this source was injected, but its nanolog_messages.h isn't on the include path" \
        of_mixed.dict/mixed.cc
}

# More messages than a dictionary has ids.
test_many() {
    cat >many.cc <<'END'
#include <memory>
#include <nanolog.hpp>
#include <vector>

#include "check.hpp"

using namespace nanolog::detail;

int main() {
    using Made = Calls<std::index_sequence<>>;
    std::vector<std::unique_ptr<Site>> sites;
    nanolog::Options options;
    options.quiet = true;
    for (unsigned line = 0; line < 70000; line++) {
        sites.emplace_back(new Site(Message{"many.cc", "one of many", Made::kKinds, 0, 0, line, 3, 0}));
        registry.add(*sites.back());
    }
    nanolog::Session log("many.log", options);
    CHECK(log);
    for (const auto &site : sites) Made::make(*site);
    const nanolog::Report report = log.close();
    CHECK(report.logged == 65536 && report.unknown == 70000 - 65536);
    return 0;
}
END
    module many many.cc -std=c++17 -O1 "${archives[@]}" && passes ./many
}

# ---- texts

test_texts() {
    local way
    cp statements/texts.cc .
    for way in plain injected; do
        build texts texts.cc "$@" && passes ./texts && lines texts.log 0 got
        sed -i 's/ texts\.cc:[0-9]* / /' got
        same "texts.log, $way" texts.expected got
    done
}

# test_statements FLAG..
test_statements() {
    rm -rf statements && cp -r -- "$tests/statements" .
    test_places "$@"
    test_unusual
    test_plugins "$@"
    test_texts "$@"
    test_formats
    test_spelling
    test_mixed
    test_unbuilt
    test_many
}
