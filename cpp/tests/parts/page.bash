# Part of cpp/tests/run: the page.

# The page's files are those blocks whose first line is a comment with a name. In the others commands stand behind `$ `,
# and below each what it prints, but for times and threads. The library is here already.
test_page() {
    rm -rf page tools blocks
    mkdir page tools blocks
    ln -s -- "$nanolog" page/nanolog
    ln -s -- "$library" page/library
    ln -s -- "$tests/.." page/cpp
    ln -s -- "$(type -P "$compiler")" tools/c++
    ln -s -- "$(c_compiler)" tools/cc
    awk '
        /^```/ { inside = !inside; first = 1; name = $0 == "```console" ? sprintf("blocks/%03d", ++count) : ""; next }
        inside && first { first = 0; if ($0 ~ /^(\/\/|#|\/\*) [A-Za-z_]+(\.[a-z]+)?( \*\/)?$/) name = "page/" $2 }
        inside && name != "" { print > name }' "$top/docs/cpp.md"
    local block row
    : >shown
    : >printed
    for block in blocks/*; do
        for tool in make cmake; do
            if grep -q "^\$ $tool " "$block" && ! type -P $tool >/dev/null; then
                say "$tool isn't here, and commands of the page are left out"
                continue 2
            fi
        done
        grep -q '^\$ \./nanolog --' "$block" && continue
        while IFS= read -r row; do
            echo "$row" >>shown
            [[ $row == '$ '* ]] || continue
            echo "$row" >>printed
            (cd page && PATH=$room/tools:$PATH CXX=$compiler bash -c "${row#'$ '}") >>printed 2>&1 </dev/null
        done <"$block"
    done
    [ -s shown ] || fail "docs/cpp.md shows no command"
    sed -i -E 's/^[0-9]{10}\.[0-9]{9} /T /; s/(ERROR|NOTICE)\[[0-9]+\]/\1[W]/' shown printed
    same "docs/cpp.md shows something else than its commands print" shown printed
}
