# Prints a table. A line of input is data, bytes, segments, variants and m, then a figure of each call: for each byte if 'per' is byte,
# in all if it is call. 'calls' names them. 'notes' are further columns: A/B is a ratio; A/B,C,D the ratio to the least of some,
# with its name; A-B a difference.
function heading(note, side) {
    return split(note, side, "/") == 2 && side[2] ~ /,/ ? side[1] "/best" : note
}

function figure(name, i) {
    for (i = 1; i <= count; i++) if (call[i] == name) return $(5 + i)
    return 0
}

function least(names, name, some, i) {
    some = split(names, name, ",")
    best = name[1]
    for (i = 2; i <= some; i++) if (figure(name[i]) < figure(best)) best = name[i]
    return figure(best)
}

# What stands in the column of a note.
function noted(note, side) {
    if (split(note, side, "/") == 2) {
        if (least(side[2]) <= 0) return "-"
        return sprintf("%.2f", figure(side[1]) / least(side[2])) (side[2] ~ /,/ ? " " best : "")
    }
    split(note, side, "-")
    return sprintf(form, figure(side[1]) - figure(side[2]))
}

function wide(name, least_width) {
    return length(name) > least_width ? length(name) : least_width
}

BEGIN {
    count = split(calls, call, " ")
    more = split(notes, note, " ")
    form = per == "byte" ? "%.2f" : "%.0f"
    printf "%-7s %5s %5s %5s %2s", "data", "bytes", "segm.", "vars.", "m"
    for (i = 1; i <= count; i++) printf " %" wide(call[i], 7) "s", call[i]
    for (i = 1; i <= more; i++) printf " | %s", heading(note[i])
    printf "\n"
}

{
    printf "%-7s %5s %5s %5s %2s", $1, $2, $3, $4, $5
    for (i = 1; i <= count; i++) {
        if ($(5 + i) <= 0) print "no figure of " call[i] " on " $1 > "/dev/stderr"
        if (per == "byte") $(5 + i) = $(5 + i) / $2
        printf " %" wide(call[i], 7) "s", sprintf(form, $(5 + i))
    }
    for (i = 1; i <= more; i++) printf " | %-" (i < more ? length(heading(note[i])) : 1) "s", noted(note[i])
    printf "\n"
}
