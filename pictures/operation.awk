# The states of an operation: the declared variants (a suspended erase by what is inside it), what a microsecond does by the clauses
# of Time.antt, and what writes start by those of Commands.antt. An arrow that has no place, or has lost its clause, is an error.
function arrow(from, to, cause,    key) {
    key = from ">" to
    if (key in cause_of) cause = cause_of[key] ", or " cause
    cause_of[key] = cause
    if (!(key in route)) die("the arrow from " from " to " to " has no place: give it one in pictures/operation-places.awk")
}

# ---- time

function read_time(    i, p, from) {
    time_file = "crates/plain/specs/Time.antt"
    read_clauses(time_file, "operation_tick"); read_clauses(time_file, "inside_tick")
    rests_on(time_file, "if ltb (first_from e.list (suc e.hand)) (block_count p)")
    rests_on(time_file, "else Idle")
    for (i = 1; i <= clauses["operation_tick"]; i++) if (right["operation_tick", i] ~ /^inside_tick /) {
        parts_of(left["operation_tick", i], "", p)
        has_inside[first_word(p[3])] = 1
    }
    for (i = 1; i <= clauses["operation_tick"]; i++) {
        parts_of(left["operation_tick", i], "", p)
        from = first_word(p[3])
        if (from in has_inside) inside_ticks(from)
        else ticks(from, right["operation_tick", i])
    }
}

# What time does inside; around it the state stays.
function inside_ticks(from,    i, p) {
    for (i = 1; i <= clauses["inside_tick"]; i++) {
        parts_of(left["inside_tick", i], "", p)
        ticks(from " " first_word(p[3]), right["inside_tick", i])
    }
}

# `if last (..) then A else B`, where B goes on as it is; or a state that time leaves alone.
function ticks(from, s,    p, q) {
    if (s !~ /^if last / && target(s) == from) return
    if (parts_of(s, "else", q) != 2 || parts_of(q[1], "then", p) != 2 || p[1] !~ /^if last / || target(q[2]) != from)
        die("what time does to " from " cannot be read")
    if (p[2] !~ /^onward p /) { arrow(from, target(p[2]), "after " full_time(from) " " micro); return }
    split(p[2], q, " ")
    arrow(from, q[3], "block finished (" full_time(from) " " micro "): the next one")
    arrow(from, "Idle", "the last listed block is finished")
}

# The state that a term makes.
function target(s,    p) {
    split(s, p, /[ (]+/)
    return p[1] in has_inside ? p[1] (s ~ /Runs/ ? " Runs" : " Nothing") : p[1]
}

function first_word(s) { gsub(/[()]/, " ", s); s = trimmed(s); sub(/ .*/, "", s); return s }

function full_time(state) {
    if (state == "Window") return grouped(figure["window_time"])
    if (state == "ChipErasing") return grouped(figure["chip_time"])
    if (state == "Recovering") return grouped(figure["recovery_time"])
    return grouped(figure[state == "Erasing" ? "erase_time" : "program_time"])
}

# ---- writes

# Every clause of Commands.antt that starts something, by its left side; a program by the clauses of `begins`.
function read_starts(    file, i, s, name) {
    file = commands
    load(file)
    for (i = 1; i <= lines[file]; i++) {
        s = line[file, i]
        if (s !~ /^[a-z]/ || s !~ / =( |$)/) continue
        name = substr(s, 1, index(s " ", " = ") - 1)
        s = substr(s, length(name) + 3)
        while (line[file, i + 1] ~ /^ /) s = s " " trimmed(line[file, ++i])
        if (name ~ /^begins /) started[name] = target(trimmed(s))
        else starts_in(name, s)
        if (s ~ / Drops$/) started[name " drops"] = "Idle"
    }
}

# `Starts STATE`, once in a clause; `begins` has clauses of its own.
function starts_in(name, s,    p, state) {
    for (; match(s, /Starts [^ ]/); s = substr(s, RSTART + 7)) {
        parts_of(substr(s, RSTART + 7), "", p)
        state = p[1]
        gsub(/^[(] *| *[)]$/, "", state)
        if (state ~ /^begins /) continue
        if (name in started) die(commands ": `" name "` starts two states: mend pictures/operation.awk")
        started[name] = target(state)
    }
}

# An arrow of a write: the clause that starts it, and a line that says where from.
function wrote_arrow(from, to, cause, clause, why) {
    if (started[clause] != to) die(commands ": `" clause "` does not start " to " any more: mend pictures/operation.awk")
    rests_on(commands, why)
    used[clause] = 1
    arrow(from, to, cause)
}

# The codes that the words of the arrows have.
function codes() {
    rests_on(commands, "else if is w 0xA0 then unless (program_is_suspended s) (Goes (Entering ProgramData))")
    rests_on(commands, "(if is_at a 0x555 && is w 0x10 then chip_erase p bits")
    rests_on(commands, "else if is w 0x30 then block_erase p bits (block_of p a)")
    rests_on(commands, "else or_reset s w (if is w 0x30 then resumes s else Falls Sequence)")
    rests_on(commands, "else if is w 0xB0 then Starts (EraseSuspended (suspended (erase_left e (erase_time p)) Nothing))")
    rests_on(commands, "else Starts (begins s (started p d))")
    rests_on(commands, "else if is w 0x90 then Goes (Reads (Identity (bank_of p a)))")
    rests_on(commands, "or_reset s w else' = if is w 0xF0 then resets s else else'")
}

function read_writes(    c) {
    read_starts(); codes()
    wrote_arrow("Idle", "Programming", "A0H, then address and data", "begins Unsuspended q", \
        "written p bits Idle c l a w = entered p bits Unsuspended c l a w")
    # A suspended program lets none begin, so that clause draws nothing.
    rests_on(commands, "keeps_out p (OfProgram q) d = true")
    used["begins (OfProgram resting) q"] = 1
    c = "else if is w 0x80 then unless (is_suspended s) (if is_entered s then Falls Sequence else Goes (Entering EraseSetup))"
    wrote_arrow("Idle", "Window", "80H, then 30H in a block", "block_erase p bits b", c)
    wrote_arrow("Idle", "ChipErasing", "80H, then 10H", "chip_erase p bits", c)
    wrote_arrow("ProgramSuspended", "Programming", "30H", "resumes (OfProgram q)", \
        "written p bits (ProgramSuspended q) c l a w = entered p bits (OfProgram q) c l a w")
    erase_writes(); one_time_writes()
    for (c in started) if (!(c in used)) die(commands ": `" c "` starts " started[c] ", which pictures/operation.awk does not draw")
}

function erase_writes(    c) {
    c = "written p bits (EraseSuspended s) c l a w = in_suspended_erase s.inside (entered p bits (OfErase s.erase) c l a w)"
    wrote_arrow("EraseSuspended Nothing", "Erasing", "30H", "resumes (OfErase e)", c)
    wrote_arrow("EraseSuspended Nothing", "EraseSuspended Runs", "A0H, then address and data off the list", \
        "begins (OfErase e) q", c)
    wrote_arrow("Window", "Window", "30H adds a block: " full_time("Window") " " micro " again", "add_block p bits e a", \
        "if is w 0x30 then add_block p bits e a")
    c = "written p bits (Window e) c l a w = in_window p bits e a w"
    wrote_arrow("Window", "EraseSuspended Nothing", "B0H", "in_window p bits e a w", c)
    rests_on(commands, "effected r Drops = answer Sequence 0 (device r.meter Ground Idle r.bits)")
    wrote_arrow("Window", "Idle", "any other write: SEQUENCE", "in_window p bits e a w drops", c)
    wrote_arrow("Erasing", "Recovering", "B0H", "in_erase p e w", "written p bits (Erasing e) c l a w = in_erase p e w")
}

# In and out of the one-time block, and the program inside it.
function one_time_writes(    c) {
    c = "else if is w 0x88 then unless (is_suspended s) (Starts InOneTime)"
    rests_on(commands, "is_suspended Unsuspended = false")
    wrote_arrow("Idle", "InOneTime", "88H", "after_unlocked p bits s a w", c)
    rests_on(commands, "is_suspended Entered = false")
    wrote_arrow("InOneTime", "InOneTime", "88H again", "after_unlocked p bits s a w", c)
    c = "written p bits InOneTime c l a w = entered p bits Entered c l a w"
    wrote_arrow("InOneTime", "OneTimeProgramming", "A0H, then address and data", "begins Entered q", c)
    rests_on(commands, "exits s Dybs w = false"); rests_on(commands, "exits s OtpLock w = false")
    wrote_arrow("InOneTime", "Idle", "90H, then 00H", "after_reading s r w", \
        "exits s (Identity bank) w = is_entered s && is w 0x00")
    wrote_arrow("InOneTime", "Idle", "F0H", "resets Entered", c)
}

# ---- what is told of a state: whether writes are BUSY, and what a microsecond draws

function read_states(    i, p, state) {
    read_clauses(commands, "written"); read_clauses(time_file, "current")
    read_clauses("crates/plain/specs/Operations.antt", "running_of")
    read_clauses("crates/plain/specs/Operations.antt", "running_inside")
    rests_on(commands, "in_suspended_erase (Runs q) effect = Stays Busy")
    rests_on(commands, "in_erase p e w = if is w 0xB0 then Starts (Recovering (recovery e (recovery_time p))) else Stays Busy")
    rests_on("crates/plain/specs/Machine.antt", "hands_back o = is_entered (suspension_of o) && is_still (running_of o)")
    told["Erasing"] = "any other write is BUSY"; told["InOneTime"] = "ranges are handed back"
    for (i = 1; i <= clauses["written"]; i++) {
        parts_of(left["written", i], "", p)
        state = first_word(p[4])
        if (right["written", i] == "Stays Busy") told[state] = "every write is BUSY"
        if (right["written", i] ~ /^in_suspended_erase /) told[state " Runs"] = "every write is BUSY"
    }
    for (i = 1; i <= clauses["current"]; i++) {
        parts_of(left["current", i], "", p)
        drawing[first_word(p[3])] = first_word(right["current", i])
    }
    for (i = 1; i <= clauses["running_of"]; i++) {
        parts_of(left["running_of", i], "", p)
        runs_in(first_word(p[2]), right["running_of", i])
    }
}

# What runs in a state: by the clause itself, or by what is inside.
function runs_in(state, s,    i, p) {
    if (!(state in has_inside)) { runs[state] = first_word(s); return }
    if (s !~ /^running_inside /) die("what runs in " state " cannot be read")
    for (i = 1; i <= clauses["running_inside"]; i++) {
        parts_of(left["running_inside", i], "", p)
        runs[state " " first_word(p[2])] = first_word(right["running_inside", i])
    }
}
