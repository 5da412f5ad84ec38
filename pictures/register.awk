# The command register: its states are the declared variants, and what each write does is read from the clauses of
# crates/plain/specs/Commands.antt, test by test. From ground it is a tree, which register-tree.awk draws: an effect's leaf is back at
# ground.
function outcomes() {
    outcome["resumes"] = "what is suspended goes on"
    outcome["begins"] = "the program starts"
    outcome["chip_erase"] = "the chip erase starts"
    outcome["block_erase"] = "the erase's window opens"
    outcome["locked"] = "the PPB lock bit is set"
    outcome["dyb_set"] = "its block's DYB is set"
    outcome["dyb_cleared"] = "its block's DYB is cleared"
    outcome["ppb_set"] = "the block's PPB is set"
    outcome["ppbs_cleared"] = "all PPBs are cleared"
    outcome["InOneTime"] = "the one-time block is entered"
    outcome["Idle"] = "the one-time block is left"
    outcome["sealed_for"] = "the customer's words are locked"
}

# ---- tests in words

function hex(s) { sub(/^0x/, "", s); return s "H" }

# What a test asks of the write; `inside` is set if it also asks that the one-time block is entered.
function test_words(s,    p) {
    s = bare(s)
    if (parts_of(s, "&&", p) == 2) return joined(test_words(p[1]), test_words(p[2]))
    parts_of(s, "", p)
    if (s == "is_entered s") { inside = 1; return "" }
    if (p[1] == "is" && p[2] == "w") return hex(p[3])
    if (p[1] == "is_at" && p[2] == "a") return hex(p[3])
    if (p[1] == "is_dyb" && p[2] == "w") return "low four bits " p[3]
    if (p[1] == "eqb" && p[2] == "( a % 256 )") return hex(p[3])
    if (s == "eqb ( block_of p a ) b") return "same block"
    if (s == "first_unlock a w" || s == "second_unlock a w" || s == "is_lock_address a") return test_words(meant(cycles, p[1]))
    if (s == "at_lock s a") return test_words(meant(commands, p[1]))
    die("the test `" s "` of Commands.antt has no words here")
}

function joined(a, b) { return a == "" || b == "" ? a b : b == "same block" ? a ", " b : a "/" b }

# The right side of a definition by one clause.
function meant(file, name) {
    if (!(name in clauses)) read_clauses(file, name)
    if (clauses[name] != 1) die(name " has several clauses, and is read as one")
    return right[name, 1]
}

# `exits` goes by the reading, too: its clause for that one.
function exit_test(state,    i, p) {
    read_clauses(commands, "exits")
    for (i = 1; i <= clauses["exits"]; i++) {
        parts_of(left["exits", i], "", p)
        p[3] = bare(p[3]); sub(/ .*/, "", p[3])
        if (state == "Reads " p[3]) return bare(right["exits", i])
    }
    die("no clause of exits is for the state " state)
}

# Without the brackets around all of it.
function bare(s,    p) {
    while (parts_of(s, "", p) == 1 && p[1] ~ /^[(]/) s = substr(p[1], 3, length(p[1]) - 4)
    parts_of(s, "+++", p)
    return p[1]
}

# ---- what a clause comes to, from a state and on the words of a test

function comes_to(state, cause, s,    p, kept) {
    s = bare(s)
    parts_of(s, "", p)
    kept = proviso
    if (p[1] == "if") choice(state, cause, s)
    else if (p[1] == "or_reset") { resets[state] = 1; comes_to(state, cause, p[4]) }
    else if (p[1] == "unless") { provided(suspended_words(bare(p[2]))); comes_to(state, cause, p[3]) }
    else if (p[1] == "Falls") { if (p[2] != "Sequence") die("a write of " state " falls to " p[2] ", which has no place here") }
    else if (p[1] == "Goes") goes(state, cause, bare(p[2]))
    else if (p[1] == "Protects" || p[1] == "Starts") leaf(state, cause, p[2])
    else if (p[1] == "unless_locked") { provided("LOCKED if the PPB lock bit is set"); leaf(state, cause, p[3]) }
    else if (p[1] in outcome) leaf(state, cause, s)
    else comes_to(state, cause, meant(commands, p[1]))
    proviso = kept
}

# A note to the arrows that follow.
function provided(s) { proviso = with(proviso, s) }

function with(notes, s) { return notes (notes == "" ? "" : "|") s }

function suspended_words(s) {
    if (s == "is_suspended s") return "SUSPENDED while an erase or a program is suspended"
    if (s == "program_is_suspended s") return "SUSPENDED while a program is suspended"
    die("the suspension `" s "` of Commands.antt has no words here")
}

# `if TEST then A else B`: a test that only refuses is told with what follows.
function choice(state, cause, s,    p, q, test, then, other, kept) {
    if (parts_of(s, "else", q) < 2 || parts_of(q[1], "then", p) != 2) die("the choice `" s "` cannot be read")
    other = substr(s, length(q[1]) + 7)
    test = bare(substr(p[1], 4)); then = p[2]
    if (test == "exits s r w") test = exit_test(state)
    kept = also
    if (test ~ /^not / && then == "Falls Sequence") prefix[state] = test_words(substr(test, 5))
    else if (test == "barred p bits d" && then == "Falls ( barred_as d )")
        provided("PROTECTED if its block is, or below " value_of("otp_words") " in the one-time block OTPLOCKED if its word is locked")
    else if (test ~ /^(keeps_out|raises) / && then ~ /^Falls [A-Z][a-z]*$/) also = also (also == "" ? "or " : ", ") toupper(substr(then, 7))
    else if (test != "false") chosen(state, cause, test, then)
    comes_to(state, cause, other)
    also = kept
}

# A test of the write, and of the one-time block if it asks for that: what it takes there does not come to what follows.
function chosen(state, cause, test, then,    s, kept) {
    inside = 0
    s = test_words(test)
    kept = proviso
    if (inside && then !~ /^(Goes|Starts|Protects) /) kept = with(kept, "not " (s == "" ? "" : "at " s " ") "in the one-time block")
    if (then != "Falls Sequence") {
        if (s == "") die("the choice by `" test "` has no place here")
        if (inside) provided("in the one-time block only")
        comes_to(state, joined(cause == "" ? prefix[state] : cause, s), then)
    } else if (!inside) die("the refusal by `" test "` has no place here")
    proviso = kept
}

function goes(state, cause, s,    p) {
    parts_of(s, "", p)
    if (p[1] != "Entering" && p[1] != "Reads") die("the register goes to `" s "`, which cannot be read")
    s = bare(p[2])
    sub(/ .*/, "", s)
    edge(state, cause, p[1] " " s)
    reached[s] = 1
}

function leaf(state, cause, s,    p) {
    s = bare(s)
    parts_of(s, "", p)
    if (!(p[1] in outcome)) die("the effect `" s "` of Commands.antt has no words here")
    edge(state, cause, "= " outcome[p[1]])
    or_refused[outcome[p[1]]] = also == "" ? refusals_of(p[1]) : also
}

# The refusals that a starting function of Commands.antt may give instead.
function refusals_of(name,    i, s, r, refusal) {
    if (!defines(commands, name)) return ""
    read_clauses(commands, name)
    for (i = 1; i <= clauses[name]; i++)
        for (s = right[name, i]; match(s, /Falls [A-Z][a-z]*/); s = substr(s, RSTART + RLENGTH)) {
            refusal = toupper(substr(s, RSTART + 6, RLENGTH - 6))
            if (!index(r, refusal)) r = r (r == "" ? "or " : ", ") refusal
        }
    return r
}

function edge(from, cause, to) {
    children[from]++
    child[from, children[from]] = to
    child_cause[from, children[from]] = cause == "" ? "any write" : cause
    child_proviso[from, children[from]] = proviso
}

# ---- the states and their clauses

# What the words of the picture rest on.
function read_words(    i, n, p) {
    rests_on(commands, "or_reset s w else' = if is w 0xF0 then resets s else else'")
    n = split("Unsuspended|(OfProgram q)|(OfErase e)", p, "|")
    for (i = 1; i <= n; i++) rests_on(commands, "resets " p[i] " = Goes Ground")
    rests_on(commands, "resets Entered = Starts Idle")
    rests_on(commands, "unless suspended effect = if suspended then Falls Suspended else effect")
    rests_on(commands, "unless_locked bits new = if bits.lock then Falls Locked else Protects new")
    rests_on(commands, "after_a0 p bits s l a w = program_data p bits s l (writing (selected s a) a w)")
    rests_on("crates/plain/specs/Operations.antt", "selected s a = if is_entered s && ltb a otp_words then OneTime else Main")
    read_clauses("crates/plain/specs/Lent.antt", "otp_words")
    rests_on("crates/plain/specs/Programs.antt", "barred_by Main = Protected")
    rests_on("crates/plain/specs/Programs.antt", "barred_by OneTime = OtpLocked")
    rests_on(cycles, "is_at a at = eqb (a % 2048) at")
    rests_on(cycles, "is w code = eqb (w % 256) code")
    rests_on(cycles, "is_dyb w value = eqb (w % 16) value")
}

function read_register(    i, j, p, state) {
    read_clauses(commands, "entered"); read_clauses(commands, "continued")
    read_variants("crates/plain/src/lib.rt", "Reading")
    for (i = 1; i <= clauses["entered"]; i++) {
        parts_of(left["entered", i], "", p)
        if (p[5] == "Ground") comes_to("Ground", "", right["entered", i])
        else if (p[5] == "( Reads r )")
            for (j = 1; j <= variants["Reading"]; j++) comes_to("Reads " variant["Reading", j], "", right["entered", i])
        else if (p[5] != "( Entering c )") die("the register's state " p[5] " is not known here")
    }
    for (i = 1; i <= clauses["continued"]; i++) {
        parts_of(left["continued", i], "", p)
        state = bare(p[5]); sub(/ .*/, "", state)
        comes_to("Entering " state, "", right["continued", i])
    }
}

# Each declared variant is reached from ground, and there is no other.
function all_reached(type,    i) {
    read_variants("crates/plain/src/lib.rt", type)
    for (i = 1; i <= variants[type]; i++) if (!(variant[type, i] in reached)) die("the register does not reach " variant[type, i])
    many += variants[type]
}
