# Panels of a plot as SVG, with a logarithmic cost upwards. The panel's numbers
# are globals: top, width, height; left, first, final (its ends from left to
# right), low, high (powers of ten), xs and x_count (where ticks are) by panel,
# log_x of those whose x is logarithmic, and no_tick of x for which there is no
# room below. Read before the plot's own lines.

function log10(x) { return log(x) / log(10) }

function px(panel, x,    share) {
    if (panel in log_x)
        share = log(x / first[panel]) / log(final[panel] / first[panel])
    else
        share = (x - first[panel]) / (final[panel] - first[panel])
    return left[panel] + share * width
}

function py(panel, cost) {
    return top + height - (log10(cost) - low[panel]) / (high[panel] - low[panel]) * height
}

function text(x, y, anchor, words) {
    printf "<text x=\"%.1f\" y=\"%.1f\" text-anchor=\"%s\">%s</text>\n", x, y, anchor, words
}

function rule(x1, y1, x2, y2, colour) {
    printf "<path d=\"M%.1f %.1fL%.1f %.1f\" stroke=\"%s\" fill=\"none\"/>\n", x1, y1, x2, y2, colour
}

function tick(x) {
    if (x >= 1) return sprintf("%d", x)
    return sprintf("%.1f", x)
}

function axes(panel, title, below,    d, i, x) {
    printf "<text x=\"%.1f\" y=\"%d\" text-anchor=\"middle\" font-weight=\"bold\">%s</text>\n", left[panel] + width / 2, top - 16, title
    for (d = low[panel]; d <= high[panel]; d++) {
        rule(left[panel], py(panel, 10 ^ d), left[panel] + width, py(panel, 10 ^ d), "#dddddd")
        text(left[panel] - 6, py(panel, 10 ^ d) + 4, "end", tick(10 ^ d))
        if (high[panel] - low[panel] > 2 || d == high[panel])
            continue
        for (i = 2; i <= 5; i += 3) {
            rule(left[panel], py(panel, i * 10 ^ d), left[panel] + width, py(panel, i * 10 ^ d), "#eeeeee")
            text(left[panel] - 6, py(panel, i * 10 ^ d) + 4, "end", tick(i * 10 ^ d))
        }
    }
    for (i = 1; i <= x_count[panel]; i++) {
        if (xs[panel, i] in no_tick) continue
        x = px(panel, xs[panel, i])
        rule(x, top + height, x, top + height + 5, "#444444")
        text(x, top + height + 18, "middle", xs[panel, i])
    }
    rule(left[panel], top, left[panel], top + height, "#444444")
    rule(left[panel], top + height, left[panel] + width, top + height, "#444444")
    text(left[panel] + width / 2, top + height + 38, "middle", below)
}

# A line through the points that are there: value[panel, x, line].
function series(panel, line, colour, dash, dots,    i, path, x, y) {
    path = ""
    for (i = 1; i <= x_count[panel]; i++) {
        if (!((panel, xs[panel, i], line) in value)) continue
        x = px(panel, xs[panel, i])
        y = py(panel, value[panel, xs[panel, i], line])
        path = path sprintf("%s%.1f %.1f", path == "" ? "M" : "L", x, y)
        if (dots)
            printf "<circle cx=\"%.1f\" cy=\"%.1f\" r=\"2.5\" fill=\"%s\"/>\n", x, y, colour
    }
    printf "<path d=\"%s\" stroke=\"%s\" stroke-width=\"1.5\" fill=\"none\"%s/>\n", path, colour, dash
}

function legend(x, y, colour, dash, words) {
    printf "<path d=\"M%d %dh34\" stroke=\"%s\" stroke-width=\"1.5\" fill=\"none\"%s/>\n", x, y - 4, colour, dash
    text(x + 40, y, "start", words)
}

# Enough powers of ten for a value.
function fit(panel, v) {
    while (log10(v) > high[panel]) high[panel]++
    while (log10(v) < low[panel]) low[panel]--
}

function begin_picture(title) {
    print "<svg xmlns=\"http://www.w3.org/2000/svg\" viewBox=\"0 0 880 450\" font-family=\"sans-serif\" font-size=\"12\">"
    print "<title>" title "</title>"
    print "<rect width=\"880\" height=\"450\" fill=\"#ffffff\"/>"
}
