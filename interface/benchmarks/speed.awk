# From callgrind's counts (a row's name, then its total) and the times of several runs (nodes, name, calls, nanoseconds a call):
# cells with the instructions of a call, less those of the measuring itself, and the best time.
FILENAME == "counts" {
    if (/^totals: /) counts[label] = substr($0, 9)
    else label = $0
    next
}
{ label = $1 " " $2 }
!(label in calls) { order[++rows] = label; calls[label] = $3; best[label] = $4; nodes[label] = $1; name[label] = $2 }
$4 < best[label] { best[label] = $4 }
END {
    none = "0 nothing"
    for (i = 1; i <= rows; i++) {
        label = order[i]
        if (label == none) continue
        number = label in counts ? sprintf("%.2f", counts[label] / calls[label] - counts[none] / calls[none]) : ""
        printf "calls\t%s\t%s\t%s\t%s\t%.0f ns\n", name[label], nodes[label], column, number, best[label]
    }
}
