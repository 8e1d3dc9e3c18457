# Part of cpp/tests/run: the script and the configuration of docs/shipping.md, with rsyslog where that is here.

# fenced KIND WORD prints the first block of this kind on the page that has the word.
fenced() {
    awk -v front="\`\`\`$1" -v word="$2" '
        $0 == "```" && inside { if (index(text, word)) { printf "%s", text; exit } inside = 0; next }
        !inside && $0 == front { inside = 1; text = ""; next }
        /^```/ { inside = !inside && $0 != front ? 2 : 0; text = ""; next }
        inside { text = text $0 "\n" }' "$top/docs/shipping.md"
}

# ship_all decompresses the parts that have ended, and tries to do so once more.
ship_all() {
    local turn
    for turn in 1 2; do PATH=$PWD/bin:$PATH bash ship ends.log shipped || true; done
    [ ! -s shipped/errors ] || fail "$compiler: ship: $(head -n 3 shipped/errors)"
    equal 'shipped parts' "$(ls shipped/*.txt | wc -l)" "$(ls ends.log.[0-9]* | wc -l)"
}

# taken_by PROGRAM runs rsyslogd until it has taken all lines that were shipped, and compares them.
taken_by() {
    local turn count
    count=$(cat shipped/*.txt | wc -l)
    "$1" -n -f "$PWD/rsyslog.conf" -i "$PWD/rsyslog.pid" 2>err &
    for ((turn = 0; turn < 300; turn++)); do
        [ "$(cat taken 2>/dev/null | wc -l)" -ge "$count" ] && break
        sleep 0.1
    done
    kill $! && wait $!
    sed 's/^.* app: //' taken | sort >got
    sort shipped/*.txt >wanted
    same 'lines that rsyslog has taken' wanted got
}

# test_shipping FLAG..
test_shipping() {
    local way=plain program turn
    build keeping keeping.cc "$@" || return
    rm -rf ends.log* shipped bin && mkdir shipped bin && ln -s -- "$nanolog" bin/nanolog
    fenced bash 'usage: ship' >ship
    {
        fenced '' imfile | sed "s|/var/spool/rsyslog|$PWD|; s|/var/spool/app/app.log|$PWD/shipped/ends.log|"
        echo "local0.* $PWD/taken"
    } >rsyslog.conf
    program=$(type -P rsyslogd) || program=/usr/sbin/rsyslogd
    [ -x "$program" ] || say "rsyslogd isn't here, and is left out"
    # It is down while the parts of the second turn come.
    for turn in 1 2; do
        ./keeping parts 5000 || fail "$compiler: keeping parts 5000: status $?"
        ship_all
        [ ! -x "$program" ] || taken_by "$program"
    done
}
