# Sourced by faults: a cart with an old route and a question for a new one, what becomes of it, and what is counted.

# ---- a floor, two questions, and what has to come of them

# Numbers of 32 bits on standard input, as their bytes.
words() {
    printf '%b' "$(awk '{ for (i = 0; i < 4; i++) { printf "\\0%03o", $1 % 256; $1 = int($1 / 256) } }')"
}

# A corridor of rooms a metre square in a row: a corner below and above at each metre, the rooms before and behind each; a wall before room WALL.
corridor() { # FOLDER ROOMS [WALL]
    mkdir -p "$1" || stop "$1 could not be made"
    awk -v n="$2" '
        function float(x,    e) {
            if (x == 0) { print 0; return }
            e = 127
            while (x >= 2) { x /= 2; e++ }
            printf "%d\n", (e + x - 1) * 8388608
        }
        BEGIN { for (i = 0; i <= n; i++) { float(i); float(0); float(i); float(1) } }' | words >"$1/floor.vtx"
    awk -v n="$2" -v wall="${3:-0}" '
        function unused(count) { while (count--) print none }
        function across(p, q) { print (q < 0 || q >= n || (wall && (p < wall) != (q < wall)) ? none : q) }
        BEGIN {
            none = "4294967295"
            for (p = 0; p < n; p++) {
                print 2 * p; print 2 * p + 2; print 2 * p + 3; print 2 * p + 1; unused(4)
                unused(1); across(p, p + 1); unused(1); across(p, p - 1); unused(4)
            }
        }' | words >"$1/floor.ply"
}

# From (0.5, 0.5) to (x, 0.5).
question() { # BYTES OF X
    printf '%b' "\0\0\0\077\0\0\0\077$1\0\0\0\077"
}

# To x = 128 and to x = 140: routes of more than 4,096 bytes, so that a disk with one page left takes a part of them.
prepare() {
    corridor old 144
    cp -r old new && question '\0\0\0\0103' >old/question && question '\0\0\014\0103' >new/question || stop "the floor could not be made"
    for cart in old new; do
        (cd "$cart" && "$bin/route_main" <question >route) && judged "$cart" "$cart/route" || stop "the $cart route could not be made"
    done
    [ "$(wc -c <new/route)" -gt 4096 ] || stop "the new route is too short"
    cmp -s old/route new/route && stop "the two routes are the same"
    cp -r "$root/crates/judge_main/data" example && (cd example && "$bin/route_main" <question >route) || stop "document 01's example is missing"
}

judged() { # CART FILE
    local file
    file=$(readlink -f -- "$2")
    [ "$(cd "$1" && "$judge" <"$file" 2>&1)" = '0 accepted' ]
}

# A cart with the new question and the old route.
lay() { # CART
    rm -rf -- "$1/route" && mkdir -p -- "$1" && cp new/floor.vtx new/floor.ply new/question "$1/" && cp old/route "$1/route" && chmod 664 "$1/route" ||
        stop "the cart $1 could not be laid"
}

# What the route of a cart is now.
state() { # CART
    if [ ! -e "$1/route" ]; then
        echo none
    elif cmp -s -- "$1/route" old/route && judged old "$1/route"; then
        echo old
    elif cmp -s -- "$1/route" new/route && judged new "$1/route"; then
        echo new
    else
        echo broken
    fi
}

# ---- what is counted

survived() { echo "$1" >>survived; }

lost() { # FAULT WORDS
    printf '%s: %s\n' "$1" "${2//$'\n'/ / }" >>lost
    printf 'faults: lost: %s: %s\n' "$1" "${2//$'\n'/ / }" >&2
}

# Whether what a keep_route said is what became of the route, whatever its status was.
matches() { # SAID STATE
    case $1 in
    *'the new route is in place') [ "$2" = new ] ;;
    *'the old route is untouched') [ "$2" = old ] ;;
    *'there was no old route') [ "$2" = none ] ;;
    esac
}

# A command, what it said and how it ended; every line is kept for the page.
run() { # COMMAND WORDS...
    said=$("$@" 2>&1)
    status=$?
    printf '%s\n' "$said" >>said
}

# A fault that a keep_route met, which ended by itself: its status, what became of the route, its one line, and nothing left behind.
met() { # FAULT CART STATUS STATE LINE
    local now
    now=$(state "$2")
    if [ "$status" = "$3" ] && [ "$now" = "$4" ] && [[ $said == $5 ]] && [[ $said != *$'\n'* ]] && [ -z "$(find "$2" -maxdepth 1 -name ".route.new.*")" ]; then
        survived "$1"
    else
        lost "$1" "status $status, the route is the $now one, and it said: $said"
    fi
}

# The same of any command that keeps no route.
answered() { # FAULT STATUS LINES
    if [ "$status" = "$2" ] && [[ $said == $3 ]]; then survived "$1"; else lost "$1" "status $status, and it said: $said"; fi
}

# Bytes over those of a file, from a place on.
put() { # FILE AT BYTES
    printf '%b' "$3" | dd of="$1" bs=1 seek="$2" conv=notrunc status=none
}

as_nobody() { # COMMAND WORDS...
    if [ "$(id -u)" = 0 ]; then setpriv --reuid=65534 --regid=65534 --clear-groups -- "$@"; else "$@"; fi
}

# A random moment between two.
moment() { # MILLISECONDS MILLISECONDS
    local at=$(($1 + RANDOM * ($2 - $1) / 32768))
    sleep "$((at / 1000)).$(printf '%03d' $((at % 1000)))"
}

# ---- the night page

# Its lines stand in the first column of its tables, with N for a number and FOLDER, FILE, WHY, TOOL for what differs. Each has to have been said, as
# a part of some line; and each line that was said has to have one of them as a part.
look_up() {
    local line
    sed -n 's/^| `\([^`]*\)` |.*/\1/p' installed/doc/AT-NIGHT.md |
        sed -e 's/[][\.*^$+?(){}|]/\\&/g; s/FOLDER/.+/g; s/WHY/.+/g; s/TOOL/[a-z]+/g; s/\bN\b/[0-9]+/g' \
            -e 's/FILE/(floor\\.vtx|floor\\.ply|question|route|standard input)/g' >patterns
    [ -s patterns ] || { lost 'the night page' 'it has no lines'; return; }
    while read -r line; do
        if grep -qE -- "$line" said; then survived page; else lost 'the night page' "nothing said its line $line"; fi
    done <patterns
    sort -u said | grep -vE -f patterns | grep . >unknown
    if [ ! -s unknown ]; then survived page; else lost 'the night page' "it does not have: $(head -n 20 unknown)"; fi
}
