# shellcheck shell=sh
# What the checks of this folder share: a room for their files, complaints, and the words of a document. A check begins with
# `. tests/docs/check.sh` in the project's root, and ends with `verdict WORDS`.
export LC_ALL=C
room=$(mktemp -d)
trap 'rm -rf "$room"' EXIT
wrong=0
check=$(basename "$0")
complain() { printf 'docs: %s\n' "$*" >&2; wrong=$((wrong + 1)); }

# Each line of a file is a complaint.
complaints() {
    while read -r line; do complain "$line"; done <"$1"
}

# The words between backquotes of some files, a word a line.
quoted() { grep -oh '`[^`]*`' "$@" | tr -d '`' | sort -u; }

verdict() {
    echo "docs, $check: $*: $wrong wrong"
    [ "$wrong" -eq 0 ]
}
