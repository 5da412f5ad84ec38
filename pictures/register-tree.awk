# Draws the tree that register.awk has read: each state with its writes, the notes to them, and what is said above it.
function place(state, depth,    i, to) {
    if (!children[state]) { y_of[state] = next_y; next_y += 44; x_of[state] = 20 + depth * 212; return }
    for (i = 1; i <= children[state]; i++) {
        to = child[state, i]
        if (to ~ /^=/) to = child[state, i] = to " @" state i
        place(to, depth + 1)
    }
    x_of[state] = 20 + depth * 212
    y_of[state] = (y_of[child[state, 1]] + y_of[child[state, children[state]]]) / 2
}

function draw_tree(state,    i, to, x, y, s) {
    x = x_of[state]; y = y_of[state]
    draw_state(state, x, y)
    for (i = 1; i <= children[state]; i++) {
        to = child[state, i]
        s = " " round(y_of[to])
        path("M" x + 96 " " round(y) "C" x + 112 " " round(y) " " x + 102 s " " x + 118 s "L" x_of[to] - 3 s, "arrow")
        words(x + 118, y_of[to] - 5, "small mono", child_cause[state, i])
        if (child_proviso[state, i] != "") words(x + 118, y_of[to] + 12, "small dim", "(" footnotes_to(child_proviso[state, i]) ")")
        draw_tree(to)
    }
}

function draw_state(state, x, y,    p) {
    if (sub(/^= /, "", state)) {
        sub(/ @.*/, "", state)
        words(x + 2, y + 4, "", state)
        words(x + 2, y + 17, "small dim", or_refused[state])
        return
    }
    box(x, y - 16, 96, 32, state in resets ? "state" : "data")
    if (split(state, p, " ") == 1) words(x + 48, y + 4, "middle", state)
    else { words(x + 48, y - 4, "middle small dim", p[1]); words(x + 48, y + 9, "middle", p[2]) }
}

# The numbers of an arrow's notes.
function footnotes_to(s,    i, n, p, told) {
    n = split(s, p, "|")
    for (i = 1; i <= n; i++) {
        if (!(p[i] in footnote_of)) { footnote_of[p[i]] = ++footnotes; footnote_words[footnotes] = p[i] }
        told = told (i > 1 ? ", " : "") footnote_of[p[i]]
    }
    return told
}

# The notes in as many lines as they need, two of which have room.
function draw_footnotes(y,    i, s, told) {
    for (i = 1; i <= footnotes; i++) {
        s = "(" i ") " footnote_words[i] (i < footnotes ? ";" : ".")
        if (length(told s) > 200) { words(20, y, "dim", told); told = ""; y += 18 }
        told = told (told == "" ? "" : "  ") s
    }
    words(20, y, "dim", told)
    if (y > 122) die("the notes have more lines than there is room for: make some in pictures/register-tree.awk")
}

BEGIN {
    commands = "crates/plain/specs/Commands.antt"; cycles = "crates/plain/specs/Cycles.antt"
    outcomes()
    read_words(); read_register()
    all_reached("Cycle"); all_reached("Reading")
    next_y = 168
    place("Ground", 0)
    draw_tree("Ground")
    words(20, 30, "bold large", "The command register")
    words(20, 50, "dim", "While nothing runs: the " many + 1 " states, and what each write does, as address/data or data at any address. " \
        "Drawn from crates/plain/specs/Commands.antt and Cycles.antt.")
    words(20, 68, "dim", "Addresses are compared on their low 11 bits, that of the one-time block's lock on its low 8, data on " \
        "their low 8. From a solid frame F0H goes back to ground, and out of the one-time block;")
    words(20, 86, "dim", "a dashed frame is a data cycle, where F0H is data. Any other write is SEQUENCE, and goes back to ground. " \
        "So do the refusals under an arrow, and each effect.")
    draw_footnotes(104)
    if (!failed) picture(1460, next_y, "The command register", \
        "The states of the command register as a tree from ground, each arrow with the write that causes it", \
        ".state { fill: #ebf8ff; stroke: #2b6cb0 } .data { fill: #fffaf0; stroke: #c05621; stroke-dasharray: 4 3 }")
}
