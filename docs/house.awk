# Draws the house, the crates and what each stands on, as an SVG picture: reads crates.txt, writes to standard output.
#   awk -f docs/house_layout.awk -f docs/house.awk crates.txt >docs/house.svg
# A line of crates.txt is `NAME: the crates that it stands on`; `## NAME: what it holds` begins a group. A line is drawn
# from a crate to each that it stands on, unless its others imply it; the kit's libraries, which have no line of their
# own in the file, are left out. All numbers are whole, so that every awk draws the same picture.
#
# A crate's row is above the rows of all that it stands on. A group is drawn as a room, in a column above the base (COLUMNS).
# The places of a row are its crates, the headings of rooms, and the lines that pass: so no line runs through a name.
# docs/house_layout.awk finds where each place of a row is.

BEGIN {
    COLUMNS = "link C demands|frame users|codes trials"
    COLOURS = "base 5b6b7f e9edf2 codes b7791f fcf1dc frame 3c8a4e e4f3e6 link 2f6fb3 e2eefb C 7d4fb5 efe7fa " \
        "demands c0392b fce6e3 users 148a86 dcf3f1 trials 8a7148 f3eee4"
    WIDTH = 1100; EDGE = 20; TOP = 44; PITCH = 64; BOX = 30; PAD = 16; GAP = 12; LINE = 9; CROSSING = 200; TRACKS = 29
    BELOW = 1; ABOVE = 2; BOTH = 3
}

/^## / { group = $2; sub(/:$/, "", group); groups[++group_count] = group; sub(/^## [^:]*: */, ""); holds[group] = $0; next }
/^#/ || !/:/ { next }
{
    name = $1
    sub(/:$/, "", name)
    if (group == "") fail("no heading stands before the crate " name)
    crates[++crate_count] = name
    group_of[name] = group
    stands_on[name] = substr($0, index($0, ":") + 1)
}

function fail(what) { print "docs/house.awk: " what | "cat 1>&2"; failed = 1; exit 1 }
function within(value, least, most) { return value < least ? least : value > most ? most : value }

# Which crates each stands on, and through them; the longest way down is its level. Then the edges that are drawn.
function find_edges(    i, j, k, c, count, word) {
    for (i = 1; i <= crate_count; i++) {
        c = crates[i]
        level[c] = 0
        count = split(stands_on[c], word, " ")
        for (k = 1; k <= count; k++) if (word[k] in group_of) {
            if (!(word[k] in level)) fail(c " stands on " word[k] ", which comes after it")
            direct[c, word[k]] = reaches[c, word[k]] = 1
            if (level[word[k]] >= level[c]) level[c] = level[word[k]] + 1
            for (j = 1; j < i; j++) if ((word[k], crates[j]) in reaches) reaches[c, crates[j]] = 1
        }
    }
    for (i = 1; i <= crate_count; i++) for (j = 1; j < i; j++)
        if (((crates[i], crates[j]) in direct) && !is_implied(crates[i], crates[j])) {
            low[++edge_count] = crates[j]
            high[edge_count] = crates[i]
            lines_up[crates[j]]++
            lines_down[crates[i]]++
        }
}

function is_implied(c, other,    k) {
    for (k = 1; k <= crate_count; k++) if (((c, crates[k]) in direct) && ((crates[k], other) in reaches)) return 1
    return 0
}

# The column of each group, and the group that is beneath it there.
function find_columns(    column, list, k, count, member) {
    column_of["base"] = 0
    columns = split(COLUMNS, list, "|")
    for (column = 1; column <= columns; column++) {
        count = split(list[column], member, " ")
        for (k = 1; k <= count; k++) {
            column_of[member[k]] = column
            beneath[member[k]] = k == 1 ? "base" : member[k - 1]
        }
    }
    for (k = 1; k <= group_count; k++) if (!(groups[k] in column_of)) fail("COLUMNS has no place for the group " groups[k])
}

# A crate is above all that it stands on and above the group beneath its own. One that stands on nothing, but for those
# of the base, is then right below the lowest that stands on it. A room reaches up to the one above it.
function find_rows(    i, e, c, group, least, changed, rounds) {
    for (i = 1; i <= crate_count; i++) row[crates[i]] = level[crates[i]] + (group_of[crates[i]] != "base")
    do {
        changed = 0
        if (++rounds > 100) fail("a group stands on one that is above it in its column")
        find_ends()
        for (i = 1; i <= crate_count; i++) {
            c = crates[i]
            least = group_of[c] == "base" ? 0 : top_row[beneath[group_of[c]]] + 1
            for (e = 1; e <= edge_count; e++) if (high[e] == c && row[low[e]] >= least) least = row[low[e]] + 1
            if (row[c] < least) { row[c] = least; changed = 1 }
        }
    } while (changed)
    for (i = 1; i <= crate_count; i++) {
        c = crates[i]
        least = 0
        for (e = 1; e <= edge_count; e++) if (low[e] == c && (!least || row[high[e]] < least)) least = row[high[e]]
        if (level[c] == 0 && group_of[c] != "base" && least) row[c] = least - 1
    }
    find_ends()
    for (i = 1; i <= group_count; i++) {
        group = groups[i]
        if (group != "base" && beneath[group] != "base") top_row[beneath[group]] = bottom_row[group] - 1
    }
}

function find_ends(    i, group) {
    for (i = 1; i <= group_count; i++) { bottom_row[groups[i]] = 1000; top_row[groups[i]] = 0 }
    for (i = 1; i <= crate_count; i++) {
        group = group_of[crates[i]]
        if (row[crates[i]] < bottom_row[group]) bottom_row[group] = row[crates[i]]
        if (row[crates[i]] > top_row[group]) top_row[group] = row[crates[i]]
        if (row[crates[i]] > rows) rows = row[crates[i]]
    }
}

# A heading is its group's name and what the group holds, in at most three lines, as short as that allows.
function lines_within(group, most,    count, word, k, line, now) {
    count = split(holds[group], word, " ")
    heading[group, line = 1] = ""
    now = int(3 * length(group) / 2)
    for (k = 1; k <= count; k++) {
        if (now + 1 + length(word[k]) > most) { heading[group, ++line] = ""; now = -1 }
        heading[group, line] = heading[group, line] (now < 0 ? "" : " ") word[k]
        now += 1 + length(word[k])
    }
    return headings[group] = line
}

function heading_width(group,    most) {
    for (most = 15; lines_within(group, most) > 3; ) most++
    return int(13 * most / 2) + 14
}

# The more lines meet a crate, the wider it is.
function crate_width(c,    lines) {
    lines = lines_up[c] > lines_down[c] ? lines_up[c] : lines_down[c] + 0
    return within(24 * lines, 7 * length(c) + 22, WIDTH)
}

function place(node, r, column, width) {
    nodes[r, ++nodes_in[r]] = node
    row[node] = r
    column_at[node] = column
    half[node] = int(width / 2)
}

function join(below, above,    r) {
    near[below, ABOVE, ++nears[below, ABOVE]] = above
    near[above, BELOW, ++nears[above, BELOW]] = below
    r = row[below]
    from[r, ++segments[r]] = below
    to[r, segments[r]] = above
}

function find_places(    i, e, r, before) {
    for (i = 1; i <= group_count; i++) place("# " groups[i], top_row[groups[i]], column_of[groups[i]], heading_width(groups[i]))
    for (i = 1; i <= crate_count; i++) place(crates[i], row[crates[i]], column_of[group_of[crates[i]]], crate_width(crates[i]))
    for (e = 1; e <= edge_count; e++) {
        before = low[e]
        for (r = row[low[e]] + 1; r < row[high[e]]; r++) {
            place(e " " r, r, -1, 0)
            join(before, e " " r)
            before = e " " r
        }
        join(before, high[e])
    }
}

function top_of(r) { return HEIGHT - EDGE - PAD - BOX - r * PITCH }
function quoted(name, value) { return " " name "=\"" value "\"" }
function rect(look, left_end, y, width, height, round) {
    print "<rect" quoted("class", look) quoted("x", left_end) quoted("y", y) quoted("width", width) quoted("height", height) quoted("rx", round) "/>"
}
function words(look, at, y, text) { print "<text" quoted("class", look) quoted("x", at) quoted("y", y) ">" text "</text>" }

function draw_edge(e,    r, a, b, xa, xb, ya, yb, path) {
    for (r = row[low[e]]; r < row[high[e]]; r++) {
        a = r == row[low[e]] ? low[e] : e " " r
        b = r + 1 == row[high[e]] ? high[e] : e " " (r + 1)
        xa = port(a, ABOVE, b); ya = top_of(r)
        xb = port(b, BELOW, a); yb = top_of(r + 1) + BOX
        if (r == row[low[e]]) path = "M" xa " " ya
        path = path (xa == xb ? "V" yb : "C" xa " " int((ya + yb) / 2) " " xb " " int((ya + yb) / 2) " " xb " " yb)
        if (!half[b]) path = path "V" top_of(r + 1)
    }
    print "<path" quoted("class", group_of[high[e]] "-line") quoted("d", path) "/>"
}

function draw_room(group,    column, y) {
    column = column_of[group]
    y = top_of(top_row[group]) - PAD
    rect(group "-room", left[column], y, right[column] - left[column], top_of(bottom_row[group]) + BOX + PAD - 4 - y, 8)
}

function draw_heading(group,    k, name) {
    name = "<tspan" quoted("class", "heading " group "-word") ">" group "</tspan>"
    for (k = 1; k <= headings[group]; k++)
        words("holds", x["# " group] - half["# " group] + 2, top_of(top_row[group]) + 3 + 15 * (k - 1), (k == 1 ? name : "") heading[group, k])
}

function draw_crate(c) {
    rect("crate " group_of[c] "-box", x[c] - half[c], top_of(row[c]), 2 * half[c], BOX, 5)
    words("name", x[c], top_of(row[c]) + 20, c)
}

# The picture in words, for those who have it read to them.
function describe(    i, j, text) {
    for (i = 1; i <= group_count; i++) {
        text = text (i > 1 ? " " : "") groups[i] ", " holds[groups[i]] ":"
        for (j = 1; j <= crate_count; j++) if (group_of[crates[j]] == groups[i]) text = text " " crates[j]
        text = text "."
    }
    print "<title id=\"title\">The house: " crate_count " crates in " group_count " groups, and what each stands on</title>"
    print "<desc id=\"desc\">From the bottom to the top. " text "</desc>"
}

function draw_style(    count, word, k) {
    print "<style>"
    print "text { font-family: Helvetica, Arial, \"Liberation Sans\", sans-serif; font-size: 13px; fill: #1f2933 }"
    print ".title { font-size: 20px; font-weight: bold } .holds { font-size: 12px; fill: #4a5560 } .heading { font-size: 15px; font-weight: bold }"
    print ".name { text-anchor: middle } .crate { fill: #fff; stroke-width: 1.4 } path { fill: none; stroke-width: 1.5 } .paper { fill: #fff }"
    count = split(COLOURS, word, " ")
    for (k = 1; k <= count; k += 3) {
        printf ".%s-room { fill: #%s } ", word[k], word[k + 2]
        printf ".%s-box, .%s-line { stroke: #%s } .%s-word { fill: #%s }\n", word[k], word[k], word[k + 1], word[k], word[k + 1]
    }
    print "</style>"
}

END {
    if (failed) exit 1
    find_edges()
    find_columns()
    find_rows()
    find_places()
    find_widths()
    find_x()
    HEIGHT = TOP + rows * PITCH + BOX + PAD + EDGE
    print "<svg xmlns=\"http://www.w3.org/2000/svg\"" quoted("viewBox", "0 0 " WIDTH " " HEIGHT) quoted("width", WIDTH) quoted("height", HEIGHT) \
        " role=\"img\" aria-labelledby=\"title desc\">"
    describe()
    draw_style()
    rect("paper", 0, 0, WIDTH, HEIGHT, 10)
    words("title", EDGE, 38, "The house: " crate_count " crates, and what each stands on")
    words("holds", EDGE, 58, "A line leads down from a crate to one that it stands on. Lines that follow from others are left out.")
    for (i = 1; i <= group_count; i++) draw_room(groups[i])
    for (i = 1; i <= edge_count; i++) draw_edge(i)
    for (i = 1; i <= crate_count; i++) draw_crate(crates[i])
    for (i = 1; i <= group_count; i++) draw_heading(groups[i])
    print "</svg>"
}
