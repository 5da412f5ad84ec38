# Blocks and banks by the definitions of crates/geometry/specs/Parts.antt, for `part` Small or Full: block_first, block_size and
# block_bank, by number, and how many there are.
function read_parts(    file, i, n, p) {
    file = "crates/geometry/specs/Parts.antt"
    n = split("block_count bank_count unit_of word_count size_in first_in block_in size_of first_of block_of bank_in bank_of", p, " ")
    for (i = 1; i <= n; i++) read_clauses(file, p[i])
    rests_on(file, "-- \"Banks 1A, 1B, 2A, 2B are 0 to 3\"")
    split("1A 1B 2A 2B", bank_names, " ")
}

function lay_out(part,    b) {
    block_count = value_of("block_count", part)
    bank_count = value_of("bank_count", part)
    word_count = value_of("word_count", part)
    for (b = 0; b < block_count; b++) {
        block_first[b] = value_of("first_of", part, b)
        block_size[b] = value_of("size_of", part, b)
        block_bank[b] = value_of("bank_in", b)
        if (value_of("block_of", part, block_first[b]) != b) die("block " b " does not begin where its first word lies")
        if (value_of("bank_of", part, block_first[b]) != block_bank[b]) die("block " b " and its first word lie in two banks")
    }
}

function block_at(address,    low, high, middle) {
    low = 0; high = block_count - 1
    while (low < high) {
        middle = int((low + high + 1) / 2)
        if (block_first[middle] <= address) low = middle
        else high = middle - 1
    }
    return low
}
