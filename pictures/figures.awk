# Times and currents by the definitions of crates/plain/specs/Figures.antt, on which both parts agree, and the numbers of one-time words.
function read_figures(    file, i, n, p) {
    file = "crates/plain/specs/Figures.antt"
    n = split("program_time window_time erase_time recovery_time chip_time running_current standby_current", p, " ")
    for (i = 1; i <= n; i++) { read_clauses(file, p[i]); figure[p[i]] = value_of(p[i], part) }
    read_clauses("crates/plain/specs/Lent.antt", "otp_words"); figure["otp_words"] = value_of("otp_words")
    file = "crates/protection/specs/Protection.antt"
    read_clauses(file, "factory_words"); figure["factory_words"] = value_of("factory_words")
    rests_on(file, "word_locked_by sealed at = ltb at factory_words || sealed")
}
