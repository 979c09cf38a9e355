# Reads callgrind's log of worst.c: the kind of each call, then what was counted so far. Prints each kind and the most that one call
# took; nothing where the run did not come to its end or nothing was counted.
/^\*\*[0-9]+\*\* / {
    kind = $0
    sub(/^\*\*[0-9]+\*\* /, "", kind)
}
/^events-1: / {
    count = $2 - before
    before = $2
    if (kind == "nothing") nothing = count
    else if (!(kind in most)) { order[++kinds] = kind; most[kind] = count }
    else if (count > most[kind]) most[kind] = count
    if (kind ~ /^step/ && count > worst) worst = count
}
END {
    if (kind != "end" || !nothing) exit
    for (i = 1; i <= kinds; i++) printf "%s\t%d\n", order[i], most[order[i]] - nothing
    printf "worst single step\t%d\n", worst - nothing
}
