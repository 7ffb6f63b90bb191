# The tables of docs/LAYOUT.md against the definitions: the range of each byte, the chord types in order, the numbers of refusal. Prints where they differ.
# Files: Ranges.antt, Plays.antt and Refusals.antt of crates/layout/specs, then the page.


# A range as the page spells it: lowest and highest, or one value, or any.
function spelled(text) {
    if (text ~ /any$/) return "00-FF"
    return text ~ /-/ ? text : text "-" text
}

# The first edition's bytes: those that the editions share, its rule and table, what follows them in a set, and the rest of its own.
FILENAME ~ /Ranges\.antt$/ && /^(common_ranges|set_ranges .*|ranges First) =/ { list = $1 == "ranges" ? "first" : $1 }
FILENAME ~ /Ranges\.antt$/ && list != "" {
    line = $0
    while (match(line, /0x[0-9A-F]+ to 0x[0-9A-F]+/)) {
        split(substr(line, RSTART, RLENGTH), bound, / to /)
        bytes_of[list, many[list]++] = substr(bound[1], 3) "-" substr(bound[2], 3)
        line = substr(line, RSTART + RLENGTH)
    }
    if (/∷ \[\]/) list = ""
}
# The second edition's bytes from 20 on; a set's table, which the rule before it decides too, is 00-8A, and the rest of the set stands behind it.
FILENAME ~ /Ranges\.antt$/ && second && !/^ *--/ {
    line = $0
    while (match(line, /0x[0-9A-F]+ to 0x[0-9A-F]+|\) table/)) {
        token = substr(line, RSTART, RLENGTH)
        line = substr(line, RSTART + RLENGTH)
        if (token == ") table") {
            later[20 + laters++] = "00-8A"
            for (k = 0; k < many["set_ranges"]; k++) later[20 + laters++] = bytes_of["set_ranges", k]
            continue
        }
        split(token, bound, / to /)
        later[20 + laters++] = substr(bound[1], 3) "-" substr(bound[2], 3)
    }
    if (/∷ \[\]/) second = 0
}
FILENAME ~ /Ranges\.antt$/ && /^ranges Second =/ {
    second = 1
    for (k = 0; k < many["common_ranges"]; k++) range[bytes++] = bytes_of["common_ranges", k]
    for (k = 0; k < 2; k++) range[bytes++] = bytes_of["first", k]
    for (k = 0; k < many["set_ranges"]; k++) range[bytes++] = bytes_of["set_ranges", k]
    for (k = 2; k < many["first"]; k++) range[bytes++] = bytes_of["first", k]
}

FILENAME ~ /Plays\.antt$/ && /^chord_types =/ { inside = 1 }
FILENAME ~ /Plays\.antt$/ && inside {
    n = split($0, quoted, "\"")
    for (i = 2; i <= n; i += 2) chord[types++] = quoted[i]
    if (/∷ \[\]/) inside = 0
}

FILENAME ~ /Refusals\.antt$/ && /^[a-z_]+ = [0-9]+$/ { number[$1] = $3; numbers++ }

FILENAME !~ /LAYOUT\.md$/ { next }
/^## / { part = substr($0, 4) }
{ cells = split($0, cell, / *\| */) }

part == "The record" && cell[2] ~ /^[0-9]+(-[0-9]+)?$/ {
    split(cell[2], place, "-"); last = place[2] == "" ? place[1] : place[2]
    ranges = split(cell[4], told, ", ")
    for (k = place[1] + 0; k <= last + 0; k++) {
        shown = spelled(k == place[1] || ranges == 1 ? told[1] : told[2])
        if (shown != range[k]) print "docs/LAYOUT.md: byte " k " is " shown ", and " range[k] " in Ranges.ranges"
        met++
    }
}
part == "The record of the second edition" && cell[2] ~ /^[0-9]+(-[0-9]+)?$/ {
    split(cell[2], place, "-"); last = place[2] == "" ? place[1] : place[2]
    for (k = place[1] + 0; k <= last + 0; k++) {
        if (spelled(cell[4]) != later[k]) print "docs/LAYOUT.md: byte " k " of a Ctb2 is " spelled(cell[4]) ", and " later[k] " in Ranges.ranges"
        metLater++
    }
}
part == "Who plays" && cell[2] ~ /^[0-9]+-[0-9]+$/ {
    split(cell[2], place, "-"); names = cell[4]; sub(/;.*/, "", names); split(names, told, ", ")
    for (k = place[1] + 0; k <= place[2] + 0; k++) {
        if (told[k - place[1] + 1] != chord[k]) print "docs/LAYOUT.md: chord type " k " is " told[k - place[1] + 1] ", and " chord[k] " in Plays.chord_types"
        named++
    }
    if (cell[3] != 17 - int(place[1] / 8)) print "docs/LAYOUT.md: types " cell[2] " stand in byte " 17 - int(place[1] / 8) ", and not in " cell[3]
}
part == "Refusals" && cell[5] ~ /^`Refusals\./ {
    name = substr(cell[5], 11); sub(/`.*/, "", name)
    if (number[name] != cell[2]) print "docs/LAYOUT.md: " name " is " cell[2] ", and " number[name] " in Refusals"
    refused++
}

END {
    if (met != bytes || bytes == 0) print "docs/LAYOUT.md has " met + 0 " bytes of the record, Ranges.ranges " bytes + 0
    if (metLater != laters || laters != 27) print "docs/LAYOUT.md has " metLater + 0 " bytes of a Ctb2 from 20 on, Ranges.ranges " laters + 0
    if (named != types || types == 0) print "docs/LAYOUT.md has " named + 0 " chord types, Plays.chord_types " types + 0
    if (refused != numbers - 1) print "docs/LAYOUT.md has " refused + 0 " refusals, Refusals " numbers - 1
}
