# Draws the panels of a run: rows of columns, each with its notes, the charge over time, the bands of what went on and the figures.
function style() {
    return ".read { fill: #4a5568 } .refused { fill: #c53030 } .cut { fill: #c53030; font-weight: bold } .taken { fill: #1a202c }" \
        " .curve { stroke: #2f855a; stroke-width: 2; fill: none } .under { fill: #c6f6d5 } .tick { stroke: #a0aec0; stroke-dasharray: 2 2 }" \
        " .power { stroke: #c53030; stroke-width: 2.5 } .nothing { fill: #edf2f7 } .programs { fill: #90cdf4 } .waits { fill: #faf089 }" \
        " .erases { fill: #fbb36b } .recovers { fill: #f6ad9b } .wipes { fill: #fc9d9d } .rests { fill: #d6bcfa } .entered { fill: #9ae6d4 } .frame { fill: none; stroke: #cbd5e0 }" \
        " .safe { fill: #ffffff; stroke: #cbd5e0 } .guard { fill: #cbd5e0; stroke: #a0aec0 } .hit { fill: #c53030; stroke: #742a2a }" \
        " .part { fill: #ed8936; stroke: #7b341e }"
}

function wider(width, s) { return length(s) * 6.1 + 10 > width ? length(s) * 6.1 + 10 : width }

# As wide as its words need, and a stretch by the digits of its microseconds.
function column_width(c,    w, i) {
    w = wider(70, "at " grouped(clock_at[c]) " us")
    w = wider(w, grouped(charge_at[c]) " pC")
    for (i = 1; i <= notes[c] && i <= 8; i++) w = wider(w, note_words[c, i])
    if (!has_stretch[c]) return w
    w = wider(wider(w, band[c]), inner_band[c])
    w = wider(wider(w, "+" grouped(stretch_time[c]) " us"), "+" grouped(stretch_charge[c]) " pC")
    if (inner_waits[c] > 1) w = wider(w, inner_words(c))
    i = 58 + 12 * length(sprintf("%.0f", stretch_time[c]))
    return w > i ? w : i
}

function inner_words(c) {
    return inner_waits[c] " waits" (inner_reads[c] ? ", " inner_reads[c] (inner_reads[c] > 1 ? " reads" : " read") : "")
}

function end_panel(    c, first, x, w) {
    if (columns) open_column()
    if (!columns) { late_reads = panel_line = 0; return }
    panels_drawn++
    words(20, top + 16, "bold", "device " panels_drawn ", from line " panel_line ": " \
        grouped(clock) " " micro ", " grouped(charge()) " pC")
    top += 26
    first = 1; x = 20
    for (c = 1; c <= columns; c++) {
        w = column_width(c)
        if (x + w > 1380 && c > first) { draw_row(first, c - 1); first = c; x = 20 }
        column_x[c] = x; column_w[c] = w
        x += w
    }
    draw_row(first, columns)
    draw_maps()
    columns_drawn += columns
    columns = late_reads = panel_line = 0
}

function draw_row(first, last,    c, i, n, most, y) {
    for (c = first; c <= last; c++) if (notes[c] > most) most = notes[c]
    if (most > 8) most = 9
    y = top + most * 12 + 6
    lowest = charge_near[first]; highest = charge_near[last] + (has_stretch[last] ? stretch_charge[last] : 0)
    for (c = first; c <= last; c++) {
        stroke(column_x[c], top, column_x[c], y + 104, cuts_at[c] ? "power" : "tick")
        n = notes[c] > 8 ? 8 : notes[c]
        for (i = 1; i <= n; i++) words(column_x[c] + 4, top - 2 + 12 * i, "small mono " note_class[c, i], note_words[c, i])
        if (notes[c] > 8) words(column_x[c] + 4, top - 2 + 108, "small mono read", "and " notes[c] - 8 " more")
        draw_column(c, y)
    }
    top = y + 174
}

# The height of a charge, between that of its row's begin and that of its end.
function level(y, q) { return y + 58 - (highest > lowest ? 56 * (q - lowest) / (highest - lowest) : 0) }

function draw_column(c, y,    x, w, y0, y1, curve) {
    x = column_x[c]; w = column_w[c]
    words(x + 4, y + 148, "small mono dim", "at " grouped(clock_at[c]) " " micro)
    words(x + 4, y + 160, "small mono dim", grouped(charge_at[c]) " pC")
    if (!has_stretch[c]) return
    y0 = level(y, charge_near[c]); y1 = level(y, charge_near[c] + stretch_charge[c])
    curve = round(x) " " round(y0) "L" round(x + w) " " round(y1)
    path("M" round(x) " " round(y + 58) "L" curve "L" round(x + w) " " round(y + 58) "z", "under")
    path("M" curve, "curve")
    box(x, y + 64, w, 18, band_class[c])
    words(x + 4, y + 77, "small mono", band[c])
    if (inner_band[c] != "") { box(x, y + 84, w, 18, "programs"); words(x + 4, y + 97, "small mono", inner_band[c]) }
    words(x + 4, y + 115, "small mono", "+" grouped(stretch_time[c]) " " micro)
    words(x + 4, y + 126, "small mono", "+" grouped(stretch_charge[c]) " pC")
    if (inner_waits[c] > 1) words(x + 4, y + 137, "small mono dim", inner_words(c))
}

function head_height() { micro = "\302\265s"; return 126 }

function legend(x, y, class, s) {
    box(x, y - 10, 14, 12, class)
    words(x + 19, y, "", s)
    return x + 19 + length(s) * 6.6 + 16
}

# What the bands are, and in the row below what the boxes of a cut's map are.
function legends(y,    x) {
    x = legend(20, y, "programs", "program")
    x = legend(x, y, "waits", "erase window")
    x = legend(x, y, "erases", "block erase")
    x = legend(x, y, "recovers", "erase recovers")
    x = legend(x, y, "rests", "erase suspended")
    x = legend(x, y, "wipes", "chip erase")
    x = legend(x, y, "entered", "one-time block entered")
    legend(x, y, "nothing", "nothing runs")
    x = legend(20, y + 18, "hit", "a cut's block of debris")
    x = legend(x, y + 18, "part", "block of a cut's word, or eight one-time words with it")
    x = legend(x, y + 18, "guard", "protected block, or locked one-time words")
    legend(x, y + 18, "safe", "any other")
}

function whole_picture(    s, height) {
    height = top + 20
    s = grouped(events + 0) " events, " grouped(refusals + 0) " refused"
    if (malformed) s = s "; " grouped(malformed) " malformed lines, which change nothing"
    words(20, 30, "bold large", foreign(heading))
    words(20, 50, "dim", s ". The number before each note is its line in the script.")
    words(20, 68, "dim", "Time is not to scale: a stretch is as wide as its words need, and grows with the digits of its microseconds, which " \
        "stand below it with its charge. The green curve is the charge drawn, to the scale of its row.")
    legends(92)
    if (full_at) words(20, height, "bold cut", "The picture is full: what follows from line " full_at " on is not drawn.")
    if (maps_left_out) words(full_at ? 520 : 20, height, "bold cut", "The maps of " maps_left_out " cuts are not drawn.")
    if (full_at || maps_left_out) height += 24
    if (!panels_drawn) { words(20, height, "", "No event was answered."); height += 24 }
    picture(1400, height, foreign(heading), s ": charge over time, with what went on as bands, and what each cut exposed", style())
}
