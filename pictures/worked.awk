# The worked example `cut_flat` of crates/plain/specs/Worked.antt as a script (`script`) and its answers (`answers`): the events, the
# refusals and the words are those that are stated there; clock and charge are followed, and have to end as stated.
function stretch(n) { }

function listing(s, p,    i) {
    elements = 0
    write_out(s)
    for (i = 1; i <= elements; i++) p[i] = element[i]
    return elements
}

function refusal_names(    i, file, p) {
    file = "crates/plain/specs/Refusals.antt"
    read_clauses(file, "number")
    for (i = 1; i <= clauses["number"]; i++) { split(left["number", i], p, " "); refusal_name[right["number", i]] = toupper(p[2]) }
}

# A cut's debris are written as a script has them.
function cut_line(s,    debris, n, i) {
    n = listing(substr(s, 5), debris)
    s = "cut"
    for (i = 1; i <= n; i++) s = s " " debris[i]
    return s
}

# What a cut exposed is what the stated facts and words say.
function exposures(n, facts,    i) {
    if (cut_block != "") {
        if (!index(facts, "erase_cut " cut_block " debris")) die("cut_flat states no cut of block " cut_block)
        print n " block " cut_block " " block_first[cut_block] " " block_first[cut_block] + block_size[cut_block] - 1 > answers
    }
    if (cut_word == "") return
    if (cut_array != "main") die("cut_flat cuts a one-time word, and looks at cells")
    if (!index(facts, "program_cut ( writing Main " cut_word " ")) die("cut_flat states no cut of the word " cut_word)
    if (index(facts, "program_done ( writing Main " cut_word " ")) die("the word " cut_word " is not blank when it is cut")
    for (i = 1; looked[i] != cut_word; i++) if (i > addresses) die("cut_flat does not look at the word " cut_word)
    print n " word " cut_word " FFFF " substr(held[i], 3) > answers
}

function play(n, s, refusal, facts,    p, k) {
    k = split(s, p, " ")
    if (p[1] == "write" && k == 3) follow_write(number(p[2]), number(p[3]), refusal)
    else if (p[1] == "wait" && refusal == "DONE") follow_wait(number(p[2]))
    else if (p[1] == "cut" && refusal == "DONE") { s = cut_line(s); follow_cut() }
    else die("the event `" s "` of cut_flat cannot be played")
    print s > script
    print n " " refusal_number " " refusal " 0000 " sprintf("%.0f", clock) " " charge() > answers
    if (p[1] == "cut") exposures(n, facts)
}

BEGIN {
    part = "Small"
    read_parts(); lay_out(part); read_figures(); refusal_names()
    list_files = "crates/plain/specs/Worked.antt crates/plain/specs/Rows.antt"
    read_clauses("crates/plain/specs/Worked.antt", "cut_flat")
    if (parts_of(right["cut_flat", 1], "", work) != 4 || work[1] != "work") die("cut_flat is not `work EVENTS ADDRESSES (tale ..)`")
    if (parts_of(substr(work[4], 2, length(work[4]) - 2), "", tale) != 6 || tale[1] != "tale") die("cut_flat states no tale")
    addresses = listing(work[3], looked)
    if (listing(tale[4], held) != addresses) die("cut_flat states other words than it looks at")
    many = listing(tale[2], refusals)
    if (listing(work[2], happens) != many) die("cut_flat states " many " refusals for another number of events")
    follow_fresh()
    for (n = 1; n <= many; n++) { refusal_number = refusals[n]; play(n, happens[n], refusal_name[refusals[n]], tale[3]) }
    if (clock != tale[5] || charge() != tale[6])
        die("cut_flat states clock " tale[5] " and charge " tale[6] ", its events give " clock " and " charge())
    print "end " tale[5] " " tale[6] " 0 0 0 0" > answers
}
