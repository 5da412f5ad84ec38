# What a run comes to, as columns: what happened at one moment, and the stretch of time after it in which one thing went on. A picture
# has limits, so that one of any run can be opened: `full_at` is the first line that is not drawn.
function is_full() {
    if (full_at || columns && !has_stretch[columns]) return full_at
    if (columns_drawn + columns >= 300 || panels_drawn >= 40) full_at = number_now
    return full_at
}

# The column that is open for what happens now; 0 where the picture is full.
function open_column() {
    if (is_full()) return 0
    if (columns == 0 || has_stretch[columns]) {
        columns++
        notes[columns] = inner_reads[columns] = has_stretch[columns] = cuts_at[columns] = 0
        clock_at[columns] = clock; charge_at[columns] = charge(); charge_near[columns] = charge_high * 1000000000 + charge_low
    }
    place_reads()
    return columns
}

# A moment has room for eight notes: what is no read takes a read's place.
function add_note(class, n, s,    at) {
    at = ++notes[columns]
    if (at > 8) {
        if (class == "read") return
        for (at = 8; at && note_class[columns, at] != "read"; at--);
        if (!at) return
        for (; at < 8; at++) {
            note_words[columns, at] = note_words[columns, at + 1]
            note_class[columns, at] = note_class[columns, at + 1]
        }
    }
    note_words[columns, at] = substr(foreign(n " " s), 1, 30)
    note_class[columns, at] = class
}

function note(class, s) { if (open_column()) add_note(class, number_now, s) }

# A read stands at its moment, unless the same thing goes on after it: then it is counted with that stretch.
function note_read(s) { if (++late_reads <= 8) { late_read[late_reads] = s; late_number[late_reads] = number_now } }

function place_reads(    i, n) {
    n = late_reads; late_reads = 0
    for (i = 1; i <= n; i++) add_note("read", late_number[i], late_read[i])
}

# Stretches of one doing are one, and the blocks of a chip erase, too.
function stretch(n,    what, c) {
    what = doing " " (doing ~ /^program/ ? program_name() : "") " " (doing ~ /^(waits|erases|recovers|rests|programs_in)$/ ? hand list : "")
    if (columns && has_stretch[columns] && !full_at && what == stretch_what[columns]) {
        inner_reads[columns] += late_reads; late_reads = 0; inner_waits[columns] += new_wait; band[columns] = band_words()
    } else {
        c = open_column()
        if (!c) return
        has_stretch[c] = inner_waits[c] = 1; first_hand = hand
        stretch_what[c] = what; stretch_time[c] = stretch_charge[c] = 0
        band[c] = band_words(); band_class[c] = has_entered() ? "entered" : doing == "programs_in" ? "rests" : doing
        inner_band[c] = doing == "programs_in" || doing == "programs_entered" ? program_name() : ""
    }
    stretch_time[columns] += n; stretch_charge[columns] += n * current()
    new_wait = 0
}

function band_words() {
    if (doing == "nothing") return "nothing runs"
    if (doing == "programs") return program_name()
    if (doing == "waits") return "window" short_list()
    if (doing == "erases") return "erase " hand
    if (doing == "recovers") return "recovers " hand
    if (doing == "wipes") return "chip erase " (hand == first_hand ? hand : first_hand " to " hand)
    return has_entered() ? "one-time block" : "suspended " hand
}

function short_list() { return length(list) > 14 ? " " hand " .." : " " trimmed(list) }

# An accepted cut, with what the answers say that it exposed.
function record_cut(debris,    b) {
    if (maps >= 20 || is_full()) maps_left_out++
    if (!open_column()) return
    cuts_at[columns]++
    add_note("cut", number_now, "cut, " debris (debris == 1 ? " word" : " words"))
    if (maps >= 20) return
    maps++
    map_line[maps] = number_now; map_block[maps] = cut_block; map_said[maps] = ""
    map_word[maps] = cut_word; map_array[maps] = cut_array; map_sealed[maps] = sealed
    for (b = 0; b < block_count; b++) map_guard[maps, b] = guarded[b]
}
