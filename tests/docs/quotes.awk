# Reads the texts that may be quoted (the files of `texts`), then specs and sources: each "quote" of a comment has to stand in one of
# the texts, word for word. Two points leave words out, and what they part comes in that order. Not compared are case, the mark
# *ruling*, the bars of tables, the colon after a refusal's name, and a point at the end. Writes what stands nowhere, then counts.
function plain(s) {
    gsub(/ *[(][*]ruling[*][)]/, "", s); gsub(/[|*`]/, " ", s); gsub(/[ \t]+/, " ", s)
    sub(/^ /, "", s); sub(/ $/, "", s)
    return tolower(s)
}

function read_text(file,    s, all) {
    while ((getline s < file) > 0) {
        sub(/^ *([*]|\/\*|\/\/|#) /, "", s)
        if (file ~ /paper/) sub(/^([A-Z]([0-9]+|[a-z])|[0-9]+[.][0-9]+) (- )?/, "", s)
        all = all " " s
    }
    close(file)
    known[++texts_read] = " " plain(all) " "
}

function stands(quote,    i, j, n, p, at, rest) {
    if (quote ~ /^[0-9]+ [A-Z]+: /) sub(/:/, "", quote)
    sub(/ ?[.]+$/, "", quote)
    n = split(plain(quote), p, / ?[.][.] ?/)
    for (i = 1; i <= texts_read; i++) {
        rest = known[i]
        for (j = 1; j <= n; j++) {
            sub(/^[;,] ?/, "", p[j])
            if (p[j] == "") continue
            at = index(rest, p[j])
            if (!at) break
            rest = substr(rest, at + length(p[j]))
        }
        if (j > n) return i
    }
    return 0
}

function comment_ends(    s, quote, i) {
    for (s = comment; match(s, /"[^"]*"/); ) {
        quote = substr(s, RSTART + 1, RLENGTH - 2)
        s = substr(s, RSTART + RLENGTH)
        quotes++
        i = stands(quote)
        from[i]++
        if (!i) print FILENAME ": \"" quote "\""
    }
    comment = ""
}

BEGIN { n = split(texts, file, " "); for (i = 1; i <= n; i++) read_text(file[i]) }
FNR == 1 { comment_ends() }
/^ *(--|\/\/) / { line = $0; sub(/^ *(--|\/\/) (---- )?/, "", line); comment = comment " " line; next }
{ comment_ends() }
END {
    comment_ends()
    print "all " quotes
    for (i = 1; i <= n; i++) print "of " file[i] " " from[i] + 0
}
