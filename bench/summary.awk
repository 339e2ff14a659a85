# Of the output of one or more runs of the benchmark: with several, a table of the median ratio of each row, with the least and the greatest,
# the numbers of samples side by side; and in any case a last line that counts the rows whose ratio (of several: the median) is above 1.05.
BEGIN { FS = " *[|] *" }
FNR == 1 { runs++ }

# a table's heading: what is timed, and of how many samples
$5 == "ratio" {
    kind = $2
    samples = "ratio"
    if (match($2, /, [0-9,]+$/)) {
        kind = substr($2, 1, RSTART - 1)
        samples = substr($2, RSTART + 2)
    }
    next
}

$5 ~ /^[0-9]+[.][0-9]+$/ {
    row = kind SUBSEP $2
    cell = row SUBSEP samples
    if (!(row in known)) {
        known[row] = 1
        rows[++row_count] = row
    }
    if (!((kind, samples) in known)) {
        known[kind, samples] = 1
        columns[kind, ++column_count[kind]] = samples
    }
    if (!(cell in count))
        total++
    ratio[cell, ++count[cell]] = $5 + 0
}

function sort(cell, n,    i, j, x) {
    for (i = 2; i <= n; i++) {
        x = ratio[cell, i]
        for (j = i - 1; j >= 1 && ratio[cell, j] > x; j--)
            ratio[cell, j + 1] = ratio[cell, j]
        ratio[cell, j + 1] = x
    }
}

function show_heading(kind,    c, line) {
    printf "\n| %-28s |", kind
    for (c = 1; c <= column_count[kind]; c++) {
        printf " %-19s |", columns[kind, c]
        line = line "---|"
    }
    print "\n|---|" line
}

function show_cell(cell, n) {
    printf " %.2f (%.2f to %.2f) |", ratio[cell, int((n + 1) / 2)], ratio[cell, 1], ratio[cell, n]
}

END {
    limit = 1.05
    for (r = 1; r <= row_count; r++) {
        row = rows[r]
        split(row, name, SUBSEP)
        kind = name[1]
        if (runs > 1) {
            if (kind != shown)
                show_heading(kind)
            shown = kind
            printf "| %-28s |", name[2]
        }
        for (c = 1; c <= column_count[kind]; c++) {
            samples = columns[kind, c]
            cell = row SUBSEP samples
            n = count[cell]
            sort(cell, n)
            if (runs > 1)
                show_cell(cell, n)
            median = ratio[cell, int((n + 1) / 2)]
            above += median > limit
            if (median > worst) {
                worst = median
                worst_name = kind ", " (samples == "ratio" ? "" : samples ", ") name[2]
            }
        }
        if (runs > 1)
            print ""
    }
    of = runs > 1 ? " at the median of " runs " runs" : ""
    printf "\n%d of %d rows are above %.2f%s; the worst is %.2f: %s\n", above, total, limit, of, worst, worst_name
}
