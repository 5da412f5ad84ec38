# For each accepted cut the blocks by bank and the one-time words by eights, with what it exposed: two maps side by side.
function draw_maps(    x) {
    x = 20
    for (; maps_drawn < maps; ) {
        draw_map(++maps_drawn, x, top)
        x = x == 20 ? 710 : 20
        if (x == 20) top += 137
    }
    if (x != 20) top += 137
}

function draw_map(m, x, y,    b, k, at) {
    words(x, y + 12, "bold", "cut at line " map_line[m])
    words(x + 120, y + 12, "", map_said[m] == "" ? "exposes nothing: no word can have changed" : map_said[m])
    y += 22
    for (k = 0; k < bank_count; k++) {
        words(x, y + 9, "small mono", bank_names[k + 1])
        for (b = at = 0; b < block_count; b++) if (block_bank[b] == k) {
            if (at && at % 48 == 0) y += 12
            box(x + 24 + at++ % 48 * 13, y, 11, 10, map_class(m, b))
        }
        y += 15
    }
    words(x, y + 9, "small mono", "OTP")
    for (at = 0; at < figure["otp_words"]; at += 8) box(x + 24 + at / 8 * 13, y, 11, 10, one_time_class(m, at))
}

function map_class(m, b) {
    if (map_block[m] != "" && map_block[m] == b) return "hit"
    if (hits(m, "main") && block_at(map_word[m]) == b) return "part"
    return map_guard[m, b] ? "guard" : "safe"
}

function one_time_class(m, at) {
    if (hits(m, "otp") && map_word[m] >= at && map_word[m] < at + 8) return "part"
    return at < figure["factory_words"] || map_sealed[m] ? "guard" : "safe"
}

# Does the cut come upon a program of this array?
function hits(m, array) { return map_word[m] != "" && map_array[m] == array }
