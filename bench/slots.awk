# How many slots a search reads, by load, beside Knuth's formulas for linear
# probing (The Art of Computer Programming, volume 3, section 6.4).
#     -v form=page      a section in Markdown
#     -v form=picture   a plot as SVG
# Behind svg.awk. Lines, as slots.c prints them:
#     N load hit|miss lookups mean p99 largest

# Slots read on average at a load of a percent; on a full table a miss reads
# all of it, and a hit about the root of pi N / 8.
function expected(what, load,    free) {
    if (load == 100)
        return what == "hit" ? sqrt(3.14159265 * slots / 8) : slots
    free = 1 - load / 100
    return what == "hit" ? (1 + 1 / free) / 2 : (1 + 1 / (free * free)) / 2
}

function shown(x) {
    return x < 100 ? sprintf("%.2f", x) : sprintf("%.0f", x)
}

function page(    i, load, w, line) {
    print "## How many slots a search reads\n"
    print "Counted by `bhtf_lookup_slots` on " tables " tables of N = " slots ", K = " key_size ": every stored name (hit), and as many that are not there (miss; fewer from 95 % on). 99 in 100 lookups read at most what stands under 99 %. Beside the mean stands what Knuth's formulas for linear probing in a large table give at a load of a: a hit (1 + 1/(1 − a))/2, a miss (1 + 1/(1 − a)²)/2, and on a full table √(πN/8) and N. No lookup read more than N slots, nor more than one above the number of points.\n"
    print "| load | hit, mean | Knuth | 99 % | largest | miss, mean | Knuth | 99 % | largest |"
    print "|--:|--:|--:|--:|--:|--:|--:|--:|--:|"
    for (i = 1; i <= x_count["hit"]; i++) {
        load = xs["hit", i]
        line = "| " load " % |"
        for (w = 1; w <= 2; w++)
            line = line " " shown(value[what[w], load, "mean"]) " | " shown(expected(what[w], load)) " | " value[what[w], load, "p99"] " | " value[what[w], load, "largest"] " |"
        print line
    }
    print "\n![Slots read by load, beside Knuth's formulas](slots-read.svg)"
}

function picture(    w, panel, load) {
    top = 50; width = 340; height = 300
    left["hit"] = 70; left["miss"] = 500
    no_tick[95] = no_tick[99] = 1
    for (panel in left) {
        first[panel] = xs[panel, 1]
        final[panel] = xs[panel, x_count[panel]]
        low[panel] = 0; high[panel] = 1
    }
    for (key in value) {
        split(key, part, SUBSEP)
        fit(part[1], value[key])
    }
    for (w = 1; w <= 2; w++)
        for (load = 10; load < 100; load++) {
            knuth[what[w]] = knuth[what[w]] sprintf("%s%.1f %.1f", load == 10 ? "M" : "L", px(what[w], load), py(what[w], expected(what[w], load)))
        }
    begin_picture("Slots read by load, beside Knuth's formulas")
    axes("hit", "A name that is there, N = " slots, "slots taken, %; slots read")
    axes("miss", "A name that is not there", "slots taken, %; slots read")
    for (w = 1; w <= 2; w++) {
        panel = what[w]
        printf "<path d=\"%s\" stroke=\"#bbbbbb\" stroke-width=\"6\" fill=\"none\"/>\n", knuth[panel]
        printf "<circle cx=\"%.1f\" cy=\"%.1f\" r=\"6\" fill=\"#bbbbbb\"/>\n", px(panel, 100), py(panel, expected(panel, 100))
        series(panel, "mean", "#1f5fa8", "", 1)
        series(panel, "p99", "#1f5fa8", " stroke-dasharray=\"6 4\"", 1)
        series(panel, "largest", "#d07010", " stroke-dasharray=\"2 3\"", 1)
    }
    legend(90, 430, "#1f5fa8", "", "mean")
    legend(280, 430, "#1f5fa8", " stroke-dasharray=\"6 4\"", "99 in 100 at most")
    legend(470, 430, "#d07010", " stroke-dasharray=\"2 3\"", "largest")
    legend(660, 430, "#bbbbbb", "", "Knuth, mean")
    print "</svg>"
}

BEGIN { what[1] = "hit"; what[2] = "miss" }

{
    slots = $1
    xs[$3, ++x_count[$3]] = $2
    value[$3, $2, "mean"] = $5
    value[$3, $2, "p99"] = $6
    value[$3, $2, "largest"] = $7
}

END {
    if (form == "page") page()
    else picture()
}
