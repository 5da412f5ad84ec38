# Follows a device from its events and their answers alone, as crates/plain/specs/History.antt and Doings.antt do, under the same names:
# the commands as far as they were heard, what is under way, the protection bits, the customer's lock, clock and charge. A write leaves
# in `said` what it came to, and a wait tells each stretch of one doing by `stretch`. The charge passes what awk counts exactly, so
# it is kept as thousands of millions and the rest.
function follow_fresh(    b) {
    command = "Ground"; doing = "nothing"
    clock = charge_high = charge_low = sealed = 0
    for (b = 0; b < block_count; b++) dyb[b] = ppb[b] = 0
}

# What an answer says by the clauses of History's `kind`: taken, lost, dropped or unheard.
function kind(refusal,    i, p) {
    if (!("kind" in clauses)) {
        read_clauses("crates/plain/specs/History.antt", "kind")
        for (i = 1; i <= clauses["kind"]; i++) { split(left["kind", i], p, " "); kind_of[toupper(p[2])] = right["kind", i] }
    }
    if (!(refusal in kind_of)) die("no answer is called " substr(refusal, 1, 20))
    return kind_of[refusal]
}

# ---- writes

function follow_write(a, w, refusal,    how) {
    said = ""
    how = kind(refusal)
    if (how == "taken") wrote(a, w)
    else if (how == "lost" && doing == "waits") { doing = "nothing"; command = "Ground"; said = "the list is dropped" }
    else if (how != "unheard" && doing != "waits") command = "Ground"
}

function wrote(a, w) {
    if (doing == "nothing" || doing == "rests" || doing == "entered") hears(a, w)
    else if (doing == "waits" && w % 256 == 48) {
        if (!listed(block_at(a))) list = list block_at(a) " "
        if (block_at(a) < hand) hand = block_at(a)
        gone = 0
        said = "adds block " block_at(a)
    } else if (doing == "waits") { doing = "rests"; gone = 0; said = "suspends" }
    else if (doing == "erases") { doing = "recovers"; over = 0; said = "suspends" }
}

function hears(a, w,    code) {
    code = w % 256
    if (command == "Ground") {
        if (a % 2048 == 1365 && code == 170) command = "Unlock"
        else if (code == 48) { if (doing == "rests") { doing = "erases"; said = "resumes" } }
        else resets()
    } else if (command == "Identity" || command == "Dybs" || command == "OtpLock") { said = "array reading"; resets() }
    else if (command == "ProgramData") begins_program(a, w)
    else if (command == "DybData") sets_dyb(block_at(a), w % 16)
    else if (code == 240) resets()
    else hears_cycle(a, code)
}

# Back to ground, and out of the one-time block.
function resets() {
    command = "Ground"
    if (has_entered()) { doing = "nothing"; said = "leaves one-time block" }
}

function has_entered() { return doing == "entered" || doing == "programs_entered" }

# The array that an address is of, by the name that the answers have for it.
function array_at(a) { return has_entered() && a < figure["otp_words"] ? "otp" : "main" }

function sets_dyb(b, bit) { dyb[b] = bit; command = "Ground"; said = "DYB " b (bit ? " set" : " cleared") }

function hears_cycle(a, code) {
    if (command == "Unlock") command = "Unlocked"
    else if (command == "Unlocked") third(code)
    else if (command == "EraseSetup") command = "EraseUnlock"
    else if (command == "EraseUnlock") command = "EraseUnlocked"
    else if (command == "EraseUnlocked") begins_erase(a, code)
    else if (command == "PpbSetup" && has_entered() && a % 256 == 26) lock_setup(code)
    else if (command == "PpbSetup" && code == 104) { command = "PpbSetting"; ppb_block = block_at(a) }
    else if (command == "PpbSetup") command = "PpbClearing"
    else if (command == "PpbSetting") { ppb[ppb_block] = 1; command = "Ground"; said = "PPB " ppb_block " set" }
    else if (command == "OtpLocking") { sealed = 1; command = "Ground"; said = "one-time words locked" }
    else clear_ppbs()
}

function lock_setup(code) {
    if (code == 104) command = "OtpLocking"
    else { command = "OtpLock"; said = "lock reading" }
}

function third(code) {
    if (code == 160) command = "ProgramData"
    else if (code == 128) command = "EraseSetup"
    else if (code == 144) { command = "Identity"; said = "identity reading" }
    else if (code == 88) { command = "Dybs"; said = "58H reading" }
    else if (code == 72) command = "DybData"
    else if (code == 96) command = "PpbSetup"
    else if (code == 136) { doing = "entered"; command = "Ground"; said = "enters one-time block" }
    else { command = "Ground"; said = "PPB lock set" }
}

function clear_ppbs(    b) {
    for (b = 0; b < block_count; b++) ppb[b] = 0
    command = "Ground"; said = "PPBs cleared"
}

function begins_program(a, w) {
    program_at = a; program_array = array_at(a); program_gone = 0
    doing = doing == "rests" ? "programs_in" : doing == "entered" ? "programs_entered" : "programs"
    command = "Ground"; said = program_name() " " sprintf("%04X", w)
}

function program_name() { return "program " (program_array == "otp" ? "otp " : "") program_at }

function begins_erase(a, code,    b) {
    gone = 0; command = "Ground"
    if (code == 16) {
        doing = "wipes"; list = " "; said = "chip erase"
        for (b = 0; b < block_count; b++) if (!dyb[b] && !ppb[b]) list = list b " "
        hand = next_listed(-1)
    } else { doing = "waits"; hand = block_at(a); list = " " hand " "; said = "erase block " hand }
}

function listed(b) { return index(list, " " b " ") > 0 }

# The next listed block past b, or as many as there are blocks.
function next_listed(b) {
    for (b++; b < block_count && !listed(b); b++);
    return b
}

# ---- time: a stretch at a time

function follow_wait(n,    left) {
    while (n > 0) {
        left = time_left()
        if (left == 0 || left > n) left = n
        stretch(left)
        draws(left)
        passes(left)
        n -= left
    }
}

# Microseconds until what runs is finished; 0 where nothing runs.
function time_left() {
    if (doing ~ /^programs/) return figure["program_time"] - program_gone
    if (doing == "waits") return figure["window_time"] - gone
    if (doing == "erases") return figure["erase_time"] - gone
    if (doing == "recovers") return figure["recovery_time"] - over
    return doing == "wipes" ? figure["chip_time"] - gone : 0
}

function current() { return figure[doing ~ /^(nothing|waits|rests|entered)$/ ? "standby_current" : "running_current"] }

function draws(n) {
    clock += n
    charge_low += n * current()
    charge_high += int(charge_low / 1000000000)
    charge_low %= 1000000000
}

function charge() { return charge_high ? sprintf("%.0f%09.0f", charge_high, charge_low) : sprintf("%.0f", charge_low) }

function passes(n,    ended) {
    ended = n == time_left()
    if (doing ~ /^programs/) {
        program_gone += n
        if (ended) doing = doing == "programs" ? "nothing" : doing == "programs_in" ? "rests" : "entered"
    } else if (doing == "waits") {
        gone += n
        if (ended) { doing = "erases"; gone = 0 }
    } else if (doing == "recovers") {
        over += n
        if (ended) doing = "rests"
    } else if (doing == "erases" || doing == "wipes") {
        gone += n
        if (ended) { hand = next_listed(hand); gone = 0; if (hand == block_count) doing = "nothing" }
    }
}

# ---- an accepted cut: what had begun is left in cut_block and cut_word (of cut_array), "" where there is none

function follow_cut(    b) {
    cut_block = doing ~ /^(erases|recovers|wipes|rests|programs_in)$/ && gone > 0 ? hand : ""
    cut_word = doing ~ /^programs/ && program_gone > 0 ? program_at : ""
    cut_array = program_array
    command = "Ground"; doing = "nothing"
    for (b = 0; b < block_count; b++) { guarded[b] = dyb[b] || ppb[b]; dyb[b] = 0 }
}
