# From lines of contender, n and instructions, tabs between them and n rising: the cost of a product over n, as SVG, both scales logarithmic.
# Contenders differ by mark and dashes, not by colour.
BEGIN {
    FS = "\t"
    left = 90; right = 560; top = 50; bottom = 430
    least = log(32 * sqrt(2)); most = log(1024 * sqrt(2)) # of n, half a doubling beyond either end
    low = 4; high = 9 # powers of ten
    split("ours|C|LinBox sliced3|PARI F3m_mul|FLINT nmod_mat_mul", order, "|")
    split("|7 4|2 3|9 3 2 3|12 5", dashes, "|")
}

{ points[$1]++; n[$1, points[$1]] = $2; cost[$1, points[$1]] = $3 }

function x(size) { return left + (right - left) * (log(size) - least) / (most - least) }
function y(instructions) { return bottom - (bottom - top) * (log(instructions) / log(10) - low) / (high - low) }

function text(at, height, anchor, what) {
    printf "<text x=\"%.1f\" y=\"%.1f\" text-anchor=\"%s\">%s</text>\n", at, height, anchor, what
}

function line(x1, y1, x2, y2, style) {
    printf "<line x1=\"%.1f\" y1=\"%.1f\" x2=\"%.1f\" y2=\"%.1f\" %s/>\n", x1, y1, x2, y2, style
}

# Our own mark is full; the C's is larger and open, so that both show where they meet.
function mark(k, at, height) {
    if (k == 1) printf "<circle cx=\"%.1f\" cy=\"%.1f\" r=\"3.5\"/>\n", at, height
    if (k == 2) printf "<circle cx=\"%.1f\" cy=\"%.1f\" r=\"7\" fill=\"none\" stroke=\"black\"/>\n", at, height
    if (k == 3) shape(at, height, "-5,-5 5,-5 5,5 -5,5")
    if (k == 4) shape(at, height, "0,-6 6,5 -6,5")
    if (k == 5) shape(at, height, "0,-7 6,0 0,7 -6,0")
}

function shape(at, height, corners) {
    printf "<polygon transform=\"translate(%.1f,%.1f)\" points=\"%s\" fill=\"none\" stroke=\"black\"/>\n", at, height, corners
}

function dashed(k) { return "stroke=\"black\" stroke-width=\"1.3\"" (dashes[k] == "" ? "" : " stroke-dasharray=\"" dashes[k] "\"") }

function axes(  e, size, names) {
    split("10,000|100,000|1 million|10 million|100 million|1,000 million", names, "|")
    for (e = low; e <= high; e++) {
        line(left, y(10 ^ e), right, y(10 ^ e), "stroke=\"#ccc\"")
        text(left - 8, y(10 ^ e) + 4, "end", names[e - low + 1])
    }
    for (size = 64; size <= 1024; size *= 2) {
        line(x(size), bottom, x(size), bottom + 5, "stroke=\"black\"")
        text(x(size), bottom + 20, "middle", size == 1024 ? "1,024" : size)
    }
    line(left, bottom, right, bottom, "stroke=\"black\"")
    line(left, top, left, bottom, "stroke=\"black\"")
    text((left + right) / 2, bottom + 42, "middle", "n: rows and columns")
    text(left - 75, top - 22, "start", "x86-64 instructions for a product of n by n cells over the field of three elements")
}

function curve(name, k,  i) {
    for (i = 2; i <= points[name]; i++)
        line(x(n[name, i - 1]), y(cost[name, i - 1]), x(n[name, i]), y(cost[name, i]), dashed(k))
    for (i = 1; i <= points[name]; i++) mark(k, x(n[name, i]), y(cost[name, i]))
}

function legend(name, k, height) {
    line(left + 20, height, left + 70, height, dashed(k))
    mark(k, left + 45, height)
    text(left + 80, height + 4, "start", name (k <= 2 ? ", best width" : ""))
}

END {
    print "<svg xmlns=\"http://www.w3.org/2000/svg\" viewBox=\"0 0 580 485\" width=\"580\" height=\"485\" font-family=\"sans-serif\" font-size=\"12\">"
    print "<rect width=\"580\" height=\"485\" fill=\"white\"/>"
    axes()
    height = top + 20
    # The costliest first, as the curves lie; ours last, so that it is drawn over the others.
    for (k = 5; k >= 1; k--)
        if (order[k] in points) {
            curve(order[k], k)
            legend(order[k], k, height)
            height += 22
        }
    print "</svg>"
}
