# The pieces of an SVG picture: they are kept until its size is known, and `picture` writes it.
function xml(s) { gsub(/&/, "\\&amp;", s); gsub(/</, "\\&lt;", s); gsub(/>/, "\\&gt;", s); gsub(/"/, "\\&quot;", s); return s }

# Text that is not ours: any byte that XML may not have becomes a question mark.
function foreign(s) { gsub(/[^ -~]/, "?", s); return s }

function put(s) { drawn[++drawings] = s }

function box(x, y, width, height, class) {
    put("<rect class=\"" class "\" x=\"" round(x) "\" y=\"" round(y) "\" width=\"" round(width) "\" height=\"" round(height) "\"/>")
}

function words(x, y, class, s) { put("<text class=\"" class "\" x=\"" round(x) "\" y=\"" round(y) "\">" xml(s) "</text>") }

function stroke(x1, y1, x2, y2, class) {
    put("<line class=\"" class "\" x1=\"" round(x1) "\" y1=\"" round(y1) "\" x2=\"" round(x2) "\" y2=\"" round(y2) "\"/>")
}

function path(d, class) { put("<path class=\"" class "\" d=\"" d "\"/>") }

function round(v) { v = sprintf("%.1f", v); sub(/[.]0$/, "", v); return v }

# 1234567 as 1,234,567, from a number or from its digits.
function grouped(s,    t) {
    if (s !~ /^[0-9]+$/) s = sprintf("%.0f", s)
    for (t = ""; length(s) > 3; s = substr(s, 1, length(s) - 3)) t = "," substr(s, length(s) - 2) t
    return s t
}

function picture(width, height, title, description, style,    i) {
    width = round(width); height = round(height)
    print "<svg xmlns=\"http://www.w3.org/2000/svg\" viewBox=\"0 0 " width " " height "\" width=\"" width "\" height=\"" height "\"" \
        " role=\"img\">"
    print "<title>" xml(title) "</title>"
    print "<desc>" xml(description) "</desc>"
    print "<style>text { font-family: sans-serif; font-size: 12px; fill: #1a202c } .mono { font-family: monospace } .middle { text-anchor: middle }"
    print ".end { text-anchor: end } .bold { font-weight: bold } .large { font-size: 16px } .small { font-size: 10px } .dim { fill: #4a5568 }"
    print ".arrow { stroke: #2d3748; stroke-width: 1.3; fill: none; marker-end: url(#head) } " style "</style>"
    print "<defs><marker id=\"head\" viewBox=\"0 0 8 8\" refX=\"7\" refY=\"4\" markerWidth=\"7\" markerHeight=\"7\" orient=\"auto\">" \
        "<path d=\"M0 0L8 4L0 8z\" fill=\"#2d3748\"/></marker></defs>"
    print "<rect width=\"" width "\" height=\"" height "\" fill=\"#ffffff\"/>"
    for (i = 1; i <= drawings; i++) print drawn[i]
    print "</svg>"
}
