# Reads the definitions that pictures are drawn from. A definition of specs/ is its clauses: a line `NAME PATTERNS = TERM`, with
# further lines indented. What cannot be read ends the drawing: a picture shows the definitions, or there is none.
function die(why) {
    print "pictures: " why | "cat >&2"
    close("cat >&2")
    failed = 1
    exit 1
}

function load(file,    text, n) {
    if (file in lines) return
    while ((getline text < file) > 0) line[file, ++n] = text
    close(file)
    if (!n) die(file " cannot be read: it is drawn from")
    lines[file] = n
}

# Fails if a line that a picture rests on is no longer there, word for word.
function rests_on(file, text,    i) {
    load(file)
    for (i = 1; i <= lines[file]; i++) if (trimmed(line[file, i]) == text) return
    die(file " has no line `" text "` any more: look at the picture that rests on it, and mend its table")
}

function trimmed(s) { gsub(/^ +| +$/, "", s); return s }

# The clauses of a definition: left[NAME, i] and right[NAME, i], i from 1 to clauses[NAME].
function read_clauses(file, name,    i, n, text, at) {
    load(file)
    for (i = 1; i <= lines[file]; i++) {
        text = line[file, i]
        if (index(text, name " ") == 1 && (at = index(text " ", " = "))) {
            left[name, ++n] = substr(text, 1, at - 1)
            text = trimmed(substr(text, at + 2))
            while (line[file, i + 1] ~ /^ /) text = text " " trimmed(line[file, ++i])
            right[name, n] = trimmed(text)
        }
    }
    if (!n) die(file " does not define " name " by clauses that can be read")
    clauses[name] = n
}

# The variants of an enum of src/: variant[TYPE, i], i from 1 to variants[TYPE].
function read_variants(file, type,    i, n, text) {
    load(file)
    for (i = 1; i <= lines[file] && line[file, i] != "pub enum " type " {"; i++);
    while (++i <= lines[file] && line[file, i] != "}") {
        text = trimmed(line[file, i])
        if (text ~ /^\/\//) continue
        sub(/[(,].*/, "", text)
        variant[type, ++n] = text
    }
    if (!n || i > lines[file]) die(file " does not declare the enum " type " in a form that can be read")
    variants[type] = n
}

# A number as the files write it: decimal, or hexadecimal after 0x; -1 for anything else.
function number(s,    v, i) {
    if (s ~ /^[0-9]+$/) return s + 0
    if (s !~ /^0x[0-9A-Fa-f]+$/) return -1
    for (i = 3; i <= length(s); i++) v = v * 16 + index("0123456789abcdef", tolower(substr(s, i, 1))) - 1
    return v
}

# ---- the value of a definition that computes a number by cond, ltb and the four operations

function value_of(name, a, b,    i, j, n, p, d, given) {
    if (!(name in clauses)) die("the value of " name " is asked, which is not known")
    given[1] = a; given[2] = b
    for (i = 1; i <= clauses[name]; i++) {
        n = split(left[name, i], p, " ")
        for (j = 2; j <= n && (p[j] ~ /^[a-z]/ || p[j] == given[j - 1]); j++);
        if (j <= n) continue
        d = ++depth
        for (j = 2; j <= n; j++) bound[d, p[j]] = given[j - 1]
        tokens_of(right[name, i], d)
        a = sum(d)
        if (at[d] <= token_count[d]) die("the clause `" left[name, i] "` cannot be read past " token[d, at[d]])
        for (j = 2; j <= n; j++) delete bound[d, p[j]]
        depth--
        return a
    }
    die("no clause of " name " fits " given[1])
}

function tokens_of(text, d,    i, p) {
    gsub(/[()]/, " & ", text)
    token_count[d] = split(text, p, " ")
    for (i = 1; i <= token_count[d]; i++) token[d, i] = p[i]
    token[d, token_count[d] + 1] = ""
    at[d] = 1
}

function sum(d,    v, w) {
    v = product(d)
    while (token[d, at[d]] == "+" || token[d, at[d]] == "-") {
        if (token[d, at[d]++] == "+") v += product(d)
        else { w = product(d); v = v > w ? v - w : 0 }
    }
    return v
}

function product(d,    v) {
    v = applied(d)
    while (token[d, at[d]] == "*" || token[d, at[d]] == "/") {
        if (token[d, at[d]++] == "*") v *= applied(d)
        else v = int(v / applied(d))
    }
    return v
}

function applied(d,    name, a, b, c) {
    name = token[d, at[d]]
    if (name == "cond") { at[d]++; a = atom(d); b = atom(d); c = atom(d); return a ? b : c }
    if (name == "ltb") { at[d]++; a = atom(d); b = atom(d); return a < b }
    if (!(name in clauses)) return atom(d)
    at[d]++
    a = atom(d)
    if (split(left[name, 1], arguments, " ") == 3) b = atom(d)
    return value_of(name, a, b)
}

function atom(d,    t, v) {
    t = token[d, at[d]++]
    if (t == "(") {
        v = sum(d)
        if (token[d, at[d]++] != ")") die("a bracket is not closed in a definition")
        return v
    }
    if ((d, t) in bound) return bound[d, t]
    if (number(t) < 0) die("the term `" t "` of a definition cannot be read")
    return number(t)
}
