# Lists as specs/ writes them (`a ++ b`, `x ∷ y ∷ []`, `replicate n x`, names with arguments), written out element by element.
function parts_of(s, separator, p,    i, n, k, w, d) {
    gsub(/[()]/, " & ", s)
    k = split(s, w, " ")
    n = 1; p[1] = ""
    for (i = 1; i <= k; i++) {
        if (w[i] == "(") d++
        if (w[i] == ")") d--
        if (d == 0 && w[i] == separator) p[++n] = ""
        else p[n] = p[n] (p[n] == "" ? "" : " ") w[i]
        if (separator == "" && d == 0 && i < k) p[++n] = ""
    }
    return n
}

# Writes a list out into element[1 ..]; `elements` counts them.
function write_out(s,    p, n, i) {
    if ((n = parts_of(s, "++", p)) > 1) { for (i = 1; i <= n; i++) write_out(p[i]); return }
    if ((n = parts_of(s, "∷", p)) > 1) {
        for (i = 1; i < n; i++) element[++elements] = p[i]
        if (p[n] != "[]") die("a list ends in `" p[n] "`, which cannot be read")
        return
    }
    n = parts_of(s, "", p)
    if (n == 1 && p[1] ~ /^[(]/) write_out(substr(p[1], 2, length(p[1]) - 2))
    else if (p[1] == "replicate") for (i = number(p[2]); i > 0; i--) element[++elements] = p[3]
    else if (p[1] != "[]") write_out(unfolded(p, n))
}

# The right side of a definition of `list_files`, with the arguments in their places.
function unfolded(p, n,    i, k, w, s, file, files) {
    if (!(p[1] in clauses)) {
        k = split(list_files, files, " ")
        for (i = 1; i <= k; i++) { load(files[i]); if (defines(files[i], p[1])) file = files[i] }
        if (file == "") die("the list `" p[1] "` is defined nowhere that is known")
        read_clauses(file, p[1])
    }
    if (split(left[p[1], 1], w, " ") != n) die("the list `" p[1] "` has other arguments than its definition")
    s = " " right[p[1], 1] " "
    gsub(/[()]/, " & ", s); gsub(/ /, "  ", s)
    for (i = 2; i <= n; i++) gsub(" " w[i] " ", " " p[i] " ", s)
    return s
}

function defines(file, name,    i) {
    for (i = 1; i <= lines[file]; i++) if (index(line[file, i] " ", name " ") == 1) return 1
    return 0
}
