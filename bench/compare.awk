# Compares what the subjects answered and hold, phase by phase, with the base
# of their group: plain, the library among the engines, tuned for the plots.
# "again" is a second run of the same program and is compared with nothing.
# Prints the numbers of comparisons passed and failed; says on standard error
# which failed.
# Lines: group round K N subject phase load common exact calls nanoseconds..

function compare(what, mine, other) {
    if (mine == other) {
        passed++
        return
    }
    failed++
    print "differs: " what > "/dev/stderr"
}

BEGIN {
    base_of["images"] = "plain"
    base_of["engines"] = "library"
    base_of["by-load"] = base_of["by-slots"] = "tuned"
}

$1 in base_of && $5 != "again" {
    base_name = base_of[$1]
    place = $1 " " $2 " " $3 " " $4 " " $6 " " $7
    common[place, $5] = $8
    exact[place, $5] = $9
    subjects[$1, $5] = 1
    if ($5 == base_name) {
        places[++count] = place
        base[count] = base_name
    }
}

END {
    for (i = 1; i <= count; i++) {
        split(places[i], part, " ")
        for (pair in subjects) {
            split(pair, ends, SUBSEP)
            subject = ends[2]
            if (ends[1] != part[1] || subject == base[i])
                continue
            what = subject ", " places[i]
            compare(what, common[places[i], subject], common[places[i], base[i]])
            if (part[1] != "engines")
                compare(what " (places)", exact[places[i], subject], exact[places[i], base[i]])
        }
    }
    print passed + 0, failed + 0
}
