# Sourced by building/proved.sh: tells on stderr how far a build is. On a terminal one line is written over and over, else there
# is a line for every tenth crate.
# shellcheck shell=sh disable=SC2154 # building/proved.sh sets what is used here

duration() {
    if [ "$1" -lt 60 ]; then echo "$1 s"; else echo "$(($1 / 60)) min $(($1 % 60)) s"; fi
}

# below CRATE..: these crates and all that they need, as crates.txt has it, one a line.
below() {
    WANTED="$*" awk '
        { sub(/#.*/, ""); sub(/:/, " ") }
        NF { name = $1; $1 = ""; needs[name] = $0 }
        END {
            todo = ENVIRON["WANTED"]
            while (n = split(todo, names, " ")) {
                todo = ""
                for (i = 1; i <= n; i++) if (names[i] in needs && !(names[i] in seen)) {
                    seen[names[i]] = 1
                    print names[i]
                    todo = todo " " needs[names[i]]
                }
            }
        }' "$root/crates.txt"
}

# The crates that the log has as proved, one a line.
proved_crates() { awk '/^crate / { name = $2; sub(/:/, "", name) } /^logic=proved/ { print name }' "$log" 2>/dev/null; }

# progress_begins CRATE..: tells what is built, and goes on telling until progress_ends.
progress_begins() {
    total=$(below "$@" | wc -l | tr -d " ")
    last="it takes some minutes"
    [ "$total" -gt 9 ] || last="it takes some seconds"
    [ ! -f "$copy.stamp" ] || last="the last build took $(duration "$(stamped "$copy" took)")"
    say "proving and building $copy (crates to prove: $total): $last"
    rm -f "$log"
    watch 9>&- >/dev/null &
    watcher=$!
}

# A script that was killed ends no watcher: so it looks by itself.
watch() {
    tens=0
    while sleep 1 2>/dev/null && kill -0 $$ 2>/dev/null; do
        count=$(proved_crates | sort -u | wc -l | tr -d ' ')
        line="$count of $total crates are proved, the last of them $(proved_crates | tail -n 1)"
        line="$line, after $(duration $(($(date +%s) - began)))"
        if [ -t 2 ]; then
            printf '\r\033[K%s: %s' "$script" "$line" >&2
        elif [ "$((count / 10))" -gt "$tens" ]; then
            tens=$((count / 10))
            say "$line"
        fi
    done
}

progress_ends() {
    kill "$watcher" 2>/dev/null || :
    wait "$watcher" 2>/dev/null || :
    [ ! -t 2 ] || printf '\r\033[K' >&2
}
