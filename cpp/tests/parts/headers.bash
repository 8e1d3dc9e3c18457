# Part of cpp/tests/run: the headers.

# Statements that aren't to compile: what is wrong, by the number of the argument or by a word, and the statement.
misfits() {
    cat <<'END'
1 NANO_LOG(NOTICE, "%d", 1.5);
1 NANO_LOG(NOTICE, "%d", "text");
2 NANO_LOG(NOTICE, "%d %d", 1, std::string("text"));
1 NANO_LOG(NOTICE, "%u", nullptr);
1 NANO_LOG(NOTICE, "%x", &number);
1 NANO_LOG(NOTICE, "%ld", std::atomic<long>());
1 NANO_LOG(NOTICE, "%lu", 1.0f);
1 NANO_LOG(NOTICE, "%d", Converts());
1 NANO_LOG(NOTICE, "%lld", static_cast<__int128>(number));
1 NANO_LOG(NOTICE, "%c", "c");
1 NANO_LOG(NOTICE, "%s", 5);
1 NANO_LOG(NOTICE, "%s", 'c');
1 NANO_LOG(NOTICE, "%s", &number);
1 NANO_LOG(NOTICE, "%s", std::vector<char>());
1 NANO_LOG(NOTICE, "%s", std::wstring());
1 NANO_LOG(NOTICE, "%s", reinterpret_cast<const unsigned char *>("text"));
2 NANO_LOG(NOTICE, "%s %s", "text", L"wide");
1 NANO_LOG(NOTICE, "%p", 1.0);
1 NANO_LOG(NOTICE, "%p", std::string());
1 NANO_LOG(NOTICE, "%*d", "width", 5);
2 NANO_LOG(NOTICE, "%*.*d", 5, 5.0, 5);
3 NANO_LOG(NOTICE, "%*.*d", 5, 5, 5.0);
12 NANO_LOG(NOTICE, "%d%d%d%d%d%d%d%d%d%d%d%d", 1, 2, 3, 4, 5, 6, 7, 8, 9, 10, 11, 12.0);
more NANO_LOG(NOTICE, "%d", 1, 2);
more NANO_LOG(NOTICE, "nothing", 1);
END
    # It has two arguments for `nanolog preprocess`, and one for a compiler.
    echo 'fewer NANO_LOG(NOTICE, "%d %d", std::pair<int, int>(1, 2).first);'
}

# Those that `nanolog preprocess` refuses, too.
unformed() {
    cat <<'END'
severity NANO_LOG(FATAL, "text");
a_floating_conversion NANO_LOG(NOTICE, "%f", 1.0);
a_floating_conversion NANO_LOG(NOTICE, "%-5.3Lg", 1.0);
%lc_or_%ls NANO_LOG(NOTICE, "%ls", L"text");
%n NANO_LOG(NOTICE, "%n", &number);
stands_behind_a_flag NANO_LOG(NOTICE, "%5%");
go_with_its_length NANO_LOG(NOTICE, "%hs", "text");
ends_within_a_conversion NANO_LOG(NOTICE, "%5");
an_unknown_conversion NANO_LOG(NOTICE, "%y", 1);
above_4095 NANO_LOG(NOTICE, "%4096d", 1);
a_NUL NANO_LOG(NOTICE, "a\0b");
fewer NANO_LOG(NOTICE, "%d %s", 1);
END
}

# Two that are too long to stand in a row.
overlong() {
    local many
    many=$(printf '%%d%.0s' {1..65})
    echo "more_than_64_arguments NANO_LOG(NOTICE, \"$many\"$(printf ', 1%.0s' {1..65}));"
    many=$(printf 'x%.0s' {1..4096})
    echo "more_than_4095_bytes NANO_LOG(NOTICE, \"$many\");"
}

# misfit_program ROW.. prints a program of these statements, each in a line of its own.
misfit_program() {
    cat <<'END'
#include <atomic>
#include <nanolog.hpp>
#include <string>
#include <utility>
#include <vector>
struct Converts {
    operator int() const { return 5; }
};
int number = 5;
END
    local row
    for row; do echo "void of_line_$((++line))() { ${row#* } }"; done
}

# refuses_all FOLDER ROW.. compiles the program of these statements, of which none is to compile, and the compiler is to
# name the line of each and to say what is wrong.
refuses_all() {
    local folder=$1 row line said
    shift
    if "$compiler" -std=c++17 -w -fsyntax-only -I "$folder" -I "$library" $limit "$folder/misfits.cc" 2>err; then
        fail "$compiler: $folder/misfits.cc compiles"
        return
    fi
    line=$(grep -n '^int number' misfits.cc | cut -d : -f 1)
    for row; do
        line=$((line + 1))
        case ${row%% *} in
            more) said='nanolog: there are more arguments than the format takes' ;;
            fewer) said='nanolog: there are fewer arguments than the format takes' ;;
            severity) said='nanolog: the first argument of a statement is ERROR, WARNING, NOTICE or DEBUG' ;;
            [0-9]*) said="nanolog: argument ${row%% *} doesn't fit the format" ;;
            *) said=${row%% *} && said=${said//_/ } ;;
        esac
        grep -q "misfits.cc:$line:" err && grep -qF -- "$said" err || fail "$compiler: this compiles: ${row:0:200}"
    done
}

test_misfits() {
    local rows=() more=() line=0 limit=
    [[ $compiler != *clang* ]] || limit=-ferror-limit=0
    mapfile -t rows < <(misfits)
    mapfile -t more < <(unformed && overlong)
    misfit_program "${rows[@]}" >misfits.cc
    take_out misfits.cc || fail "$compiler: misfits.cc has no statements"
    refuses_all gen "${rows[@]}"
    misfit_program "${rows[@]}" "${more[@]}" >misfits.cc
    refuses_all . "${rows[@]}" "${more[@]}"
    # Rewritten statements beside another header.
    echo 'nanolog-trace 1' >none.dict
    "$nanolog" header none.dict gen/nanolog_messages.h >out
    "$compiler" -std=c++17 -w -fsyntax-only -I gen -I "$library" gen/misfits.cc 2>err
    grep -q 'nanolog: there is no such message' err || fail "$compiler: there is such a message: $(head -n 5 err)"
}

# What compiles, but for a warning: `wide` and the number of the argument, or `line`, and the statement. What stands
# behind these is to compile without.
warned() {
    cat <<'END'
wide1 NANO_LOG(NOTICE, "%d", sizeof number);
wide2 NANO_LOG(NOTICE, "%d %u", number, 5l);
wide1 NANO_LOG(NOTICE, "%x", large);
wide1 NANO_LOG(NOTICE, "%c", large);
wide1 NANO_LOG(NOTICE, "%*d", large, 5);
wide2 NANO_LOG(NOTICE, "%s %.*s", "text", large, "text");
wide1 NANO_LOG(NOTICE, "%hhd", Wide::kOne);
wide1 WRAPPED("%d", large);
line NANO_LOG(NOTICE, "text\n");
line NANO_LOG(NOTICE, "number %d" "\n", 5);
line WRAPPED("%d\n", 5);
none NANO_LOG(NOTICE, "%ld %zu %d %hhd %lu", large, sizeof large, 'c', number, large);
none NANO_LOG(NOTICE, "%lld %u %x %d %p", large, number, number, true, static_cast<void *>(nullptr));
none NANO_LOG(NOTICE, "\nline %s", "text\n");
END
}

# warns_all WAY FLAG.. compiles a program of these statements.
warns_all() {
    local way=$1 row line=0
    shift
    "$compiler" -std=c++17 -fsyntax-only -Wall -Wextra -Wpedantic "$@" warned.cc 2>err ||
        fail "$compiler: warned.cc isn't compiled, $way: $(head -n 5 err)"
    line=$(grep -n '^long large' injected/warned.cc | cut -d : -f 1)
    while IFS= read -r row; do
        line=$((line + 1))
        # In place of a macro's line g++ tells that of its definition, and then where it is used.
        grep -n "warned.cc:$line:" err | grep -q . && told=yes || told=no
        case $row in
            none*) equal "warning for ${row#* }, $way" $told no ;;
            line*) [ "$way" != plain ] || equal "warning for ${row#* }, $way" $told yes ;;
            wide*) equal "warning for ${row#* }, $way" $told yes ;;
        esac
    done < <(warned)
    grep -q 'nanolog: this integer is wider than its conversion' err || fail "$compiler: no integer is wide, $way"
    case $compiler in
        # clang++ points to the argument, and g++ has its number.
        *clang*) ;;
        *) grep -q 'Number = 2[;,].*wider than its conversion' err || fail "$compiler: no argument is named, $way" ;;
    esac
    [ "$way" != plain ] || grep -q 'nanolog: the format ends in a line feed' err ||
        fail "$compiler: no format ends in a line feed"
}

# They are to be seen where the headers are installed, too.
test_warnings() {
    local row line=0
    {
        printf '%s\n' '#include <nanolog.hpp>' '#define WRAPPED(...) NANO_LOG(NOTICE, __VA_ARGS__)' \
            'enum class Wide : long { kOne };' 'int number = 5;' 'long large = 5;'
        warned | while IFS= read -r row; do echo "void of_line_$((++line))() { ${row#* } }"; done
    } >warned.cc
    mkdir -p installed/include/nanolog injected
    cp -- "$library"/*.h "$library"/*.hpp installed/include/nanolog
    cp warned.cc injected
    warns_all plain -I installed/include/nanolog
    (
        cd injected && NANOLOG=$nanolog "$library/nanolog-inject" warned.dict gen warned.cc
    ) >out 2>err || fail "$compiler: warned.cc isn't injected: $(cat err)"
    cp injected/gen/warned.cc warned.cc
    warns_all injected -I injected/gen -I installed/include/nanolog
}

# Names that others have as macros, and what they may stand for.
test_names() {
    local name
    {
        for name in slots signals emit foreach forever check verify require major minor makedev log warn warning \
            info debug notice fatal test likely unlikely near far small interface linux unix None Bool True False \
            Success Always Complex IN OUT OPTIONAL CONST VOID TEXT ERROR WARNING NOTICE DEBUG TRACE INFO LOG ASSERT \
            CHECK REQUIRE STRICT NULLABLE T N SEVERITY FILE_NAME ROOM LINE MESSAGE SESSION DICTIONARY OK BUSY; do
            echo "#define $name this is the macro $name of somebody else"
        done
        echo '#include <nanolog.hpp>'
        echo 'void all() { NANO_LOG(DEBUG, "text %d", 1); NANO_LOG(ERROR, "%s", "text"); NANO_LOG(nano::NOTICE, "none"); }'
    } >names.cc
    "$compiler" -std=c++17 -fsyntax-only -Wall -Wextra -I "$library" names.cc 2>err ||
        fail "$compiler: the headers meet a macro of others: $(head -n 5 err)"
    {
        echo '#include <nanolog.hpp>'
        echo 'int main() { NANO_LOG(DEBUG, "text %d", 1); NANO_LOG(ERROR, "%s", "text"); NANO_LOG(nano::NOTICE, "none"); }'
    } >names.cc
    "$compiler" -std=c++17 -fsyntax-only -Wall -Wextra -Werror -DDEBUG -DERROR=0 -DNOTICE= -DNDEBUG -DLOG -Dlinux=1 \
        -I "$library" names.cc 2>err || fail "$compiler: the headers meet a -D: $(head -n 5 err)"
}

# A program doesn't link with the archive of another version, and is told what is missing.
test_version() {
    echo '#include <nanolog.hpp>' >version.cc
    echo 'int main() { nanolog::Session log("version.log"); }' >>version.cc
    if ! type -P objcopy >/dev/null; then
        say "objcopy isn't here, and versions are left out"
        return
    fi
    objcopy --redefine-sym nanolog_version_1=nanolog_version_2 "$library/libnanolog.a" other_version.a
    ! "$compiler" -std=c++17 -pthread -I "$library" -o version version.cc other_version.a 2>err &&
        grep -q "undefined.*nanolog_version_1" err || fail "$compiler: links with another version: $(head -n 3 err)"
}

# bytes_of FLAG.. prints how many bytes a source has with all that it includes.
bytes_of() { "$compiler" -std=c++17 -E -P "$@" | wc -c; }

test_headers() {
    test_misfits
    test_warnings
    test_names
    test_version

    # Without exceptions and without types at run time.
    build threads threads.cc -O1 -fno-exceptions -fno-rtti && run_threads 4 1000 wait
    equal 'logged without exceptions' "$logged" 4000

    # With warnings, and by later standards.
    cat >strict.cc <<'END'
#include <nanolog.hpp>
#include <string>
#include <string_view>

#ifndef DICTIONARY
#define DICTIONARY nullptr
#endif

int main(int count, char **words) {
    nanolog::Options options;
    options.level = nanolog::Severity::Notice;
    nanolog::Session log("strict.log", DICTIONARY, options);
    const std::string string = "text";
    NANO_LOG(NOTICE, "nothing");
    NANO_LOG(WARNING, "%d %s %p", count, words[0], static_cast<void *>(words));
    log.set_level(nanolog::Severity::Warning);
    log.set_level(nanolog::Severity::Notice);
    NANO_LOG(ERROR, "%s %s %zu %*d", string, std::string_view(string), string.size(), 5, 6);
    NANO_LOG(DEBUG, "%llu %c", 5ull, 'c');
    if (!log.flush()) return 1;
    return log.close().is_clean() ? 0 : 1;
}
END
    take_out strict.cc
    local standard way
    local warnings=(-Wall -Wextra -Wpedantic -Wconversion -Wsign-conversion -Wshadow -Wold-style-cast -Wformat=2
        -Wnon-virtual-dtor -Woverloaded-virtual -Wundef -Werror)
    for standard in c++17 c++20 c++2b; do
        for way in gen .; do
            "$compiler" -std=$standard -fsyntax-only "${warnings[@]}" -I $way -I "$library" $way/strict.cc 2>err ||
                fail "$compiler: $way/strict.cc isn't clean by $standard: $(head -n 20 err)"
        done
    done
    build strict strict.cc -O2 -Wall -Wextra -Werror && passes ./strict
    logs strict.log 3

    # No macros of its own but those that begin with NANOLOG_; the headers that it includes have others.
    echo '#include <nanolog.hpp>' >with.cc
    grep -h '^#include <' "$library"/nanolog* | sort -u >without.cc
    for way in gen .; do
        comm -13 <(macros without.cc) <(macros -I $way -I "$library" with.cc) |
            grep -v '^NANOLOG_\|^NANO_LOG$\|^NANO_LOG_CALL$' >got
        [ ! -s got ] || fail "$compiler: the header leaves macros: $(cat got)"
    done

    # With it a source gets less text than with two headers of C++.
    printf '#include <%s>\n' string thread >two.cc
    above 'bytes of <string> and <thread>' "$(bytes_of two.cc)" "$(bytes_of -I "$library" with.cc)"

    # What it wants is said.
    ! "$compiler" -std=c++14 -fsyntax-only -I "$library" with.cc 2>err && grep -q 'error.*C++17' err ||
        fail "$compiler: it doesn't tell of C++17: $(head -n 5 err)"

    # The header of the C calls, in C.
    printf '%s\n' '#include "nanolog.h"' 'int main(void) { nanolog_free(0); return 0; }' >c.c
    "$(c_compiler)" -std=c99 -Wall -Wextra -Wpedantic -Werror -fsyntax-only -I "$library" c.c 2>err ||
        fail "nanolog.h in C: $(cat err)"
}

# macros FLAG.. prints the names of all macros that there are behind a source.
macros() { "$compiler" -std=c++17 -dM -E "$@" | awk '{ sub(/\(.*/, "", $2); print $2 }' | sort -u; }

# Prints the compiler of C that goes with the one of C++.
c_compiler() {
    case $compiler in
        *clang++*) type -P "${compiler/clang++/clang}" ;;
        *) type -P "${compiler/g++/gcc}" ;;
    esac || type -P cc
}
