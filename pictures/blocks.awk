# The map of blocks and banks, and the words of each run of equal blocks on both parts.
function bank_rows(y,    b, k, x, last, width) {
    width = 27
    for (k = 0; k < bank_count; k++) {
        for (b = 0; block_bank[b] != k; b++);
        for (last = b; last + 1 < block_count && block_bank[last + 1] == k; last++);
        words(20, y, "bold", "bank " k " (" bank_names[k + 1] "), blocks " b " to " last)
        x = 20; y += 8
        for (; b <= last; b++) {
            if (x + width > 20 + 48 * width) { x = 20; y += 26 }
            box(x, y, width - 2, 24, block_size[b] == smallest ? "boot" : "main")
            words(x + (width - 2) / 2, y + 16, "small mono middle", b)
            x += width
        }
        y += 52
    }
    return y
}

function is_like(b, c) { return full_size[b] == full_size[c] && block_bank[b] == block_bank[c] }

# A run: neighbours of one bank and one size.
function run_rows(y,    b, last, i, n, column, head) {
    n = split("blocks|bank|words each, small part|first word|last word|words each, full part|first word|last word", head, "|")
    split("20 130 280 440 560 760 920 1060", column, " ")
    for (i = 1; i <= n; i++) words(column[i], y, "bold", head[i])
    for (b = 0; b < block_count; b = last + 1) {
        for (last = b; last + 1 < block_count && is_like(last + 1, b); last++);
        y += 20
        words(column[1], y, "mono", b " to " last)
        words(column[2], y, "mono", block_bank[b] " (" bank_names[block_bank[b] + 1] ")")
        words(column[3], y, "mono", grouped(block_size[b]))
        words(column[4], y, "mono", grouped(block_first[b]))
        words(column[5], y, "mono", grouped(block_first[last] + block_size[last] - 1))
        words(column[6], y, "mono", grouped(full_size[b]))
        words(column[7], y, "mono", grouped(full_first[b]))
        words(column[8], y, "mono", grouped(full_first[last] + full_size[last] - 1))
    }
    return y
}

BEGIN {
    read_parts()
    lay_out("Full"); full_words = word_count
    for (b = 0; b < block_count; b++) { full_size[b] = block_size[b]; full_first[b] = block_first[b] }
    lay_out("Small")
    smallest = block_size[0]
    words(20, 30, "bold large", "Blocks and banks")
    words(20, 50, "dim", block_count " blocks in " bank_count " banks: " grouped(word_count) " words on the small part, " \
        grouped(full_words) " on the full one. Boot blocks are darker. Drawn from crates/geometry/specs/Parts.antt.")
    y = run_rows(bank_rows(80) + 4)
    if (!failed) picture(1340, y + 24, "Blocks and banks", \
        "The blocks of each bank by number, and the words of each run of blocks on both parts", \
        ".boot { fill: #90cdf4; stroke: #2b6cb0 } .main { fill: #ebf8ff; stroke: #90cdf4 }")
}
