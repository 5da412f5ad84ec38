# What the roots rest on. Reads the sources' paths (crates/..), then the roots: `contracts FILE` for the public functions of a file,
# `statement FILE NAME` for a theorem. A file of specs/ counts whole; of code a type's declaration and a function's contract (its
# signature, where a statement goes by what callers learn) count, of a proof a statement. Writes `CRATE|FILES|LINES` by crate, and `kit|MODULE|NAMES`.
function words(s) { gsub(/[][(){},;:.]/, " ", s); return " " s " " }

function load(f,    line, n, use, at) {
    if (f in size) return size[f] >= 0
    size[f] = -1
    while ((getline line < f) > 0) {
        text[f, ++n] = line
        # Of code a `use` may have several lines.
        if (line ~ /^(pub |ghost )*use /) { sub(/^(pub |ghost )*use /, "", line); use = line; at = 1 }
        else if (at) use = use line
        if (at && use !~ /[{][^}]*$/) {
            gsub(/ +/, " ", use); gsub(/[{] /, "{", use); gsub(/,? ?[}]/, "}", use); sub(/;$/, "", use)
            import[f, ++imports[f]] = use
            at = 0
        }
    }
    close(f)
    if (n) size[f] = n
    return n > 0
}

# The word by which an imported name is met: `◌≡◌` as ≡, `if◌then◌else◌` as if.
function met(name,    p, n, i) {
    n = split(name, p, "◌")
    for (i = 1; i <= n; i++) if (p[i] != "") return p[i]
}

# The imports of a file whose names a text has; of a file of specs/, all.
function follows(f, all, used,    i, j, n, m, names, name, line) {
    for (i = 1; i <= imports[f]; i++) {
        line = import[f, i]
        if (line ~ /::/) {
            m = line; sub(/::.*/, "", m)
            sub(/.*::[{]?/, "", line); sub(/[}]$/, "", line)
            n = split(line, names, ", ")
            for (j = 1; j <= n; j++) if (index(used, " " names[j] " ")) declared(m == "crate" ? crate_of(f) : m, names[j])
        } else if (line ~ / as / && line !~ /[{]/) {
            split(line, names, " as ")
            if (all || index(used, " " names[2] " ")) follow(names[1], names[2])
        } else {
            m = line; sub(/[.][{].*/, "", m)
            sub(/.*[.][{]/, "", line); sub(/[}]$/, "", line)
            n = split(line, names, ", ")
            for (j = 1; j <= n; j++) { name = names[j]; sub(/ as .*/, "", name); if (all || index(used, " " met(name) " ")) follow(m, name) }
        }
    }
}

function follow(module, name,    p, n, i, c, f, last) {
    if (module !~ /^Rattle[.]/ || module ~ /^Rattle[.]std[.]/) {
        if (!((module, name) in cited)) { cited[module, name] = 1; kit[module]++ }
        return
    }
    sub(/^Rattle[.]/, "", module)
    n = split(module, p, "[.]"); c = p[1]
    if (p[2] == "specs" && p[3] == "declared") {
        for (i = 4; i < n && p[i] !~ /^[A-Z]/; i++);
        declared(c, p[i])
        return
    }
    f = "crates/" c "/" p[2] "/" p[3] ".antt"
    if (p[2] == "specs") whole(f)
    else if (load(f)) { locals(f); stated(f, name) }
    else {
        # By what callers of a function learn of it: whatever its contract says, the statement holds. Its arguments are handed over there.
        for (i = 3; i <= n; i++) if (p[i] !~ /^[A-Z]/) last = p[i]
        if (!((c, last) in function_in)) lost("the function " last " of " c)
        else signature(function_in[c, last], last)
    }
}

function crate_of(f,    p) { split(f, p, "/"); return p[2] }
function lost(what) { print "lost|" what "|0" }
function counts(f, what, many) { found[crate_of(f), what] += many; sum[crate_of(f)] += many }

function whole(f,    p) {
    split(f, p, "/")
    # Worked rows are held to the definitions; no statement rests on them.
    if (p[4] ~ /^(Bench|Worked)[.]/ || f in seen) return
    seen[f]
    if (!load(f)) { lost(f); return }
    counts(f, p[4], size[f])
    follows(f, 1)
}

# Lines FROM to TO of a file, and the comment above; what they have imported is followed. A hint to the prover promises nothing.
function lines(f, from, to, what,    i, used, hints) {
    while (text[f, from - 1] ~ /^ *(\/\/|--|#\[)/) from--
    for (i = from; i <= to; i++)
        if (text[f, i] ~ /^ *#\[tactic/) hints++
        else if (text[f, i] !~ /^ *(\/\/|--)/) used = used words(text[f, i])
    counts(f, what, to - from + 1 - hints)
    follows(f, 0, used)
    return used
}

function declared(c, type,    f, i, j, used, p, n) {
    if (!((c, type) in type_in) || (c, type) in seen) return
    seen[c, type]
    f = type_in[c, type]
    i = j = type_at[c, type]
    while (text[f, j] !~ /}$/) j++
    used = lines(f, i, j, "types")
    n = split(used, p, " ")
    for (i = 1; i <= n; i++) declared(c, p[i])
}

# The lines of a function up to its contract, or up to its body.
function head(f, name, end, what,    i, j, used, p, n) {
    i = j = function_at[f, name]
    while (text[f, j + 1] !~ end && text[f, j] !~ /[{]$/) j++
    used = lines(f, i, j, what)
    n = split(used, p, " ")
    for (i = 1; i <= n; i++) declared(crate_of(f), p[i])
}

function contract(f, name) {
    if ((f, name) in seen) return
    seen[f, name]
    head(f, name, "^ *[{]$", "contracts")
}

function signature(f, name) { if (!((f, name) in seen)) learnt[f, name] }

# A theorem's statement, or a definition that stands among proofs, with the head of the module around it.
function stated(f, name,    i, j, k, p, n, used, line, blanks) {
    if ((f, name) in seen) return
    seen[f, name]
    if (!load(f)) { lost(f); return }
    for (i = 1; i <= size[f]; i++) {
        line = text[f, i]
        match(line, /^ */); blanks = RLENGTH
        sub(/^ *((pub|abbrev|unfoldable|data|record) )*/, "", line)
        if (index(line, name " ") == 1 && line ~ / : /) break
    }
    if (i > size[f]) { lost(name " of " f); return }
    for (j = i; text[f, j + 1] ~ /[^ ]/ && (match(text[f, j + 1], /^ */) && RLENGTH > blanks || name ~ /^[A-Z]/); j++);
    used = lines(f, i, j, "statements")
    for (k = i; blanks && k > 0 && text[f, k] !~ /^module /; k--);
    if (blanks && !((f, k) in seen)) { seen[f, k]; used = used lines(f, k, k, "statements") }
    n = split(used, p, " ")
    for (i = 1; i <= n; i++)
        if (p[i] != name && (f, p[i]) in local_def) stated(f, p[i])
}

# The definitions of a file of proofs that its statements may speak of.
function locals(f,    i, line, p) {
    load(f)
    for (i = 1; i <= size[f]; i++) {
        line = text[f, i]
        if (line ~ /^ *(pub )?((abbrev|unfoldable|data|record) )+(pub )?[^ ]+ / || line ~ /^ *(pub )?[A-Z][^ ]* : /) {
            sub(/^ *((pub|abbrev|unfoldable|data|record) )*/, "", line); split(line, p, " "); local_def[f, p[1]]
        }
    }
}

/^crates\/.*[.]rt$/ {
    load($0)
    for (i = 1; i <= size[$0]; i++) {
        line = text[$0, i]
        if (line ~ /^pub (struct|enum) /) { split(line, p, /[ {]/); type_in[crate_of($0), p[3]] = $0; type_at[crate_of($0), p[3]] = i }
        if (line ~ /^ *pub (extern "C" )?fn /) {
            name = line; sub(/.*fn /, "", name); sub(/[(<].*/, "", name)
            function_in[crate_of($0), name] = $0; function_at[$0, name] = i; public[$0] = public[$0] " " name
        }
    }
}
/^order / { order[++ordered] = $2 }
/^contracts / { if (!load($2)) lost($2); n = split(public[$2], p, " "); for (i = 1; i <= n; i++) contract($2, p[i]) }
/^statement / { locals($2); stated($2, $3) }

END {
    for (l in learnt) if (!(l in seen)) { split(l, p, SUBSEP); head(p[1], p[2], "^ *([{]$|requires |ensures )", "signatures") }
    for (o = 1; o <= ordered; o++) {
        c = order[o]
        if (!sum[c]) continue
        load("crates/" c "/specs/Lib.antt")
        cell = ""
        for (i = 1; i <= size["crates/" c "/specs/Lib.antt"]; i++) {
            file = text["crates/" c "/specs/Lib.antt", i]; sub(/^pub mod /, "", file)
            if ((c, file ".antt") in found) { cell = cell ", " file " " found[c, file ".antt"] }
        }
        if ((c, "types") in found) cell = cell ", types " found[c, "types"]
        if ((c, "signatures") in found) cell = cell ", signatures " found[c, "signatures"]
        if ((c, "contracts") in found) cell = cell ", contracts " found[c, "contracts"]
        if ((c, "statements") in found) cell = cell ", statements " found[c, "statements"]
        print c "|" substr(cell, 3) "|" sum[c]
        total += sum[c]
    }
    print "all||" total
    for (m in kit) print "kit|" m "|" kit[m]
}
