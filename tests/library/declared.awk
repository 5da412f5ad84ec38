# The functions that C headers declare and do not define, one a line: comments, directives and bodies are passed over.
function tell(statement) {
    if (statement ~ /^[ \t]*(static|typedef)/ || !match(statement, /k5l_[a-z0-9_]*[ \t]*\(/)) return
    name = substr(statement, RSTART, RLENGTH - 1)
    sub(/[ \t]+$/, "", name)
    print name
}

/^[ \t]*#/ || continued {
    continued = /\\$/
    next
}
{ text = text $0 " " }

END {
    gsub(/\/\*[^*]*\*+([^\/*][^*]*\*+)*\//, " ", text)
    gsub(/extern "C" \{/, "", text)
    while (match(text, /[;{}]/)) {
        mark = substr(text, RSTART, 1)
        if (depth == 0) statement = statement substr(text, 1, RSTART - 1)
        text = substr(text, RSTART + 1)
        if (mark == "{") depth++
        else if (mark == "}" && depth > 0) depth--
        else if (depth == 0) tell(statement)
        if (depth == 0) statement = ""
    }
}
