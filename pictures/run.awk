# A run of ./replay, read from its script and its answers (`script` and `answers` are the files): each event is
# followed by follow.awk and recorded by record.awk, and rows.awk draws a panel for each device. Clock, charge and what a cut
# exposed have to be the answers'.
function broken(why) { die("line " number_now " of the script: " why ": are these the answers of this script?") }

# The items of a line of the script.
function line_of(n,    s, i, k, p) {
    while (script_line < n && (getline s < script) > 0) script_line++
    if (script_line != n) broken("it is not there")
    sub(/\r$/, "", s)
    k = split(s, p, /[ \t]+/)
    items = 0
    for (i = 1; i <= k; i++) if (p[i] != "") item[++items] = p[i]
}

# A number of a script may have any number of digits, and is below 2^53 where the event was taken.
function number_of(s) {
    sub(/^0+/, "", s)
    if (s ~ /^x/) s = "0" s
    return s == "" ? 0 : number(s)
}

function words_of_cut(    i, n) {
    for (i = 2; i <= items; i++) n += index(item[i], "*") ? number_of(substr(item[i], 1, index(item[i], "*") - 1)) : 1
    return n + 0
}

function event(refusal, word) {
    events++
    if (!panel_line) panel_line = number_now
    line_of(number_now)
    if (kind(refusal) != "taken") refusals++
    if (item[1] == "write" && items == 3) wrote_line(refusal)
    else if (item[1] ~ /^(read|wait|cut|range)$/ && refusal != "DONE") note("refused", refusal " (" item[1] ")")
    else if (item[1] == "read" && items == 2) note_read("read " number_of(item[2]) ": " word)
    else if (item[1] == "wait" && items == 2) { new_wait = 1; follow_wait(number_of(item[2])) }
    else if (item[1] == "cut") { follow_cut(); record_cut(words_of_cut()); owes_cut() }
    else if (item[1] == "range" && items == 3) handed_back(number_of(item[2]), number_of(item[3]))
    else broken("it is no event")
}

# A range that was taken: of the array that its first address is of.
function handed_back(first, count) {
    if (doing != "entered") broken("a range is handed back where the one-time block is not entered, or a program runs")
    note("taken", "range " array_at(first) " " first " " count)
    owes(array_at(first) " " first " " count)
}

function wrote_line(refusal,    a, w) {
    a = number_of(item[2]); w = number_of(item[3])
    follow_write(a, w, refusal)
    if (refusal == "DONE") { if (said != "") note("taken", said) }
    else note("refused", refusal " (" (length(item[2]) > 8 ? "" : item[2] "/") sprintf("%02XH", w % 256) ")")
}

function agrees(told_clock, told_charge) {
    if (sprintf("%.0f", clock) != told_clock) broken("the answers have the clock " told_clock ", its events " sprintf("%.0f", clock))
    if (charge() != told_charge) broken("the answers have the charge " told_charge ", its events " charge())
}

# ---- the further lines of an event: `owed` has those that have to follow, as far as its events tell them

function owes(s) { owed = owed s "\n" }

function owes_cut() {
    if (cut_block != "") owes("block " cut_block " " block_first[cut_block] " " block_first[cut_block] + block_size[cut_block] - 1)
    if (cut_word != "") owes((cut_array == "otp" ? "otp " : "word ") cut_word)
}

function pays(s) {
    if (index(owed, s "\n") != 1) broken("the answers tell of " substr(foreign(s), 1, 40) ", its events do not")
    owed = substr(owed, length(s) + 2)
}

function settled() { if (owed != "") broken("the answers do not tell of " substr(owed, 1, index(owed, "\n") - 1)) }

# `N block B FIRST LAST`, `N word A BEFORE AFTER` or `N otp A BEFORE AFTER` of a cut, `N otp A COUNT O1 O2` or `N main A COUNT S1 S2`
# of a range.
function further(p, n) {
    if (p[1] != number_now) broken("a line of another number follows its answer")
    if (n == 5 && p[2] == "block") pays("block " p[3] " " p[4] " " p[5])
    else if (n == 5 && (p[2] == "word" || p[2] == "otp")) pays(p[2] " " p[3])
    else if (n == 6 && (p[2] == "main" || p[2] == "otp")) pays(p[2] " " p[3] " " p[4])
    else broken("its answer cannot be read")
    if (n == 5) exposed(p[2], p[3], p[4], p[5])
}

function exposed(what, at, from, to) {
    if (map_line[maps] != number_now) return
    map_said[maps] = map_said[maps] (map_said[maps] == "" ? "" : "; ") (what == "otp" ? "one-time " : "") \
        (what == "block" ? "block " at ", words " from " to " to ", holds the debris" : "word " at " was " from "H and is " to "H")
}

function answer(    p, n) {
    n = split($0, p, " ")
    if (p[1] == "end" && n == 7) { settled(); agrees(p[2], p[3]); end_panel(); follow_fresh(); return }
    if (p[1] !~ /^[0-9]+$/) die("the answers have a line that no answer has: `" substr(foreign($0), 1, 40) "`")
    if (n > 2 && p[2] !~ /^[0-9]+$/) { further(p, n); return }
    settled()
    number_now = p[1]
    if (n == 2 && p[2] == "malformed") malformed++
    else if (n == 6) { event(p[3], p[4]); agrees(p[5], p[6]) }
    else broken("its answer cannot be read")
}

BEGIN {
    part = "Small"; heading = ENVIRON["HEADING"]
    read_parts(); lay_out(part); read_figures()
    follow_fresh()
    top = head_height()
    while (!failed && (getline < answers) > 0) answer()
    if (!failed) settled()
    if (!failed && columns) end_panel()
    if (!failed) whole_picture()
}
