# The whole printed part of docs/PERFORMANCE.md, from the cells (section, row, nodes, column, number, what stands beside it). Other
# inputs are files beside them: tools, missing, cards_measured, and the table of bounds. Exit status 1 where a bound is broken that
# is not marked as known.
BEGIN {
    FS = "\t"
    sizes = split("4 60 600 2600 any", size, " ")
}

{
    number[$1, $2, $3, $4] = $5
    beside[$1, $2, $3, $4] = $6
    filled[$1, $2, $3, $4] = 1
    if (!(($1, $2) in row_seen)) { row_seen[$1, $2] = 1; row[$1, ++rows[$1]] = $2 }
    if (!(($1, $4) in column_seen)) { column_seen[$1, $4] = 1; column[$1, ++columns[$1]] = $4 }
    section_of[$2, $3] = $1
}

# 1234567 as 1,234,567
function grouped(n,    text, out) {
    if (n == "" || n ~ /[^0-9.]/) return n
    text = sprintf("%.0f", n)
    out = ""
    while (length(text) > 3) {
        out = "," substr(text, length(text) - 2) out
        text = substr(text, 1, length(text) - 3)
    }
    return text out
}

function cell(section, name, nodes, col,    value) {
    if (!((section, name, nodes, col) in filled)) return "-"
    value = number[section, name, nodes, col]
    if (section != "updates" || value >= 100) value = grouped(value)
    if (beside[section, name, nodes, col] == "") return value
    if (value == "") return beside[section, name, nodes, col]
    return value " (" grouped(beside[section, name, nodes, col]) ")"
}

function print_section(section, title, first_column,    r, s, c, found, line) {
    if (!rows[section]) return
    printf "\n### %s\n\n| %s | N |", title, first_column
    for (c = 1; c <= columns[section]; c++) printf " %s |", column[section, c]
    printf "\n|---|---|"
    for (c = 1; c <= columns[section]; c++) printf "---|"
    print ""
    for (r = 1; r <= rows[section]; r++)
        for (s = 1; s <= sizes; s++) {
            line = ""
            found = 0
            for (c = 1; c <= columns[section]; c++) {
                found = found || ((section, row[section, r], size[s], column[section, c]) in filled)
                line = line " " cell(section, row[section, r], size[s], column[section, c]) " |"
            }
            if (found) printf "| %s | %s |%s\n", row[section, r], size[s], line
        }
}

function lines_of(file,    line, all) {
    all = ""
    while ((getline line < file) > 0) all = all (all == "" ? "" : "; ") line
    return all
}

# One bound: row, nodes, at most, times column, and the name of the reason where it is known to be broken.
function print_bound(part,    section, here, most, other, by, verdict, limit, mark, times) {
    section = section_of[part[1], part[2]]
    here = number[section, part[1], part[2], "proved"]
    other = part[4] == "" ? 1 : number[section, part[1], part[2], part[4]]
    most = part[3] * other
    limit = part[4] == "" ? grouped(part[3]) : part[3] " × " part[4]
    if (here == "" || other == "" || most == 0) {
        printf "| %s | %s | %s | - | not measured | |\n", part[1], part[2], limit
        return
    }
    by = 100 * (here / most - 1)
    mark = part[5]
    if (by <= 0) {
        met++
        verdict = sprintf("met by %.0f %%", -by)
        if (mark != "") mark = mark ": no longer, the mark can go"
    } else {
        verdict = sprintf(by < 1 ? "missed by %.1f %%" : "missed by %.0f %%", by)
        if (mark == "") { broken++; verdict = "**" verdict "**" }
        else { known++; known_by[mark]++ }
    }
    times = part[4] == "" ? "" : sprintf(" (%.2f ×)", here / other)
    printf "| %s | %s | %s | %s | %s | %s |\n", part[1], part[2], limit, grouped(here) times, verdict, mark
}

function print_bounds(    line, part, reasons, i) {
    print "\n### Bounds\n\n| bound | N | at most | here | | known |\n|---|---|---|---|---|---|"
    while ((getline line < bounds) > 0) {
        if (line ~ /^ *(#|$)/) continue
        split(line, part, / *\| */)
        sub(/ +$/, "", part[5])
        if (part[1] == "known") { reason_name[++reasons] = part[2]; reason[reasons] = part[3] }
        else print_bound(part)
    }
    printf "\n%d met, %d missed and known, %d missed and not known.%s\n", met, known, broken, known ? " Known:\n" : ""
    for (i = 1; i <= reasons; i++)
        if (known_by[reason_name[i]]) printf "- %s (%d): %s\n", reason_name[i], known_by[reason_name[i]], reason[i]
}

function print_cards(    line, part) {
    print "\n### The cards\n\n| card | N | nodes used | pairs | internal levels |\n|---|---|---|---|---|"
    while ((getline line < "cards_measured") > 0) {
        split(line, part, "\t")
        printf "| %s | %s | %s | %s | %s |\n", part[1], part[2], part[3], grouped(part[4]), part[5]
    }
}

END {
    printf "Commit %s. By %s.\n", commit, lines_of("tools")
    left_out = lines_of("missing")
    if (left_out != "") printf "\nLeft out: %s.\n", left_out
    print_bounds()
    print_section("calls", "Instructions of a call (best wall time)", "call")
    print_section("worst", "The most instructions of any single call of a mixed run", "call")
    print_section("memory", "Memory, bytes", "what")
    print_section("updates", "What a durable update writes, average (most)", "what")
    print_cards()
    exit (broken > 0)
}
