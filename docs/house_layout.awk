# The layout of docs/house.awk: where in its row each crate, heading and passing line has its place (`find_x`). They are
# found as layered drawings usually are: rows ordered by barycentre, neighbours exchanged, then lines and crates moved
# one at a time while that makes it better. Names are those of docs/house.awk, whose rows and lines stand by then.

# The width of a column is that of its widest row; what is left over is shared.
function find_widths(    r, i, column, wide, need, total) {
    for (r = 0; r <= rows; r++) {
        split("", wide)
        for (i = 1; i <= nodes_in[r]; i++) wide[column_at[nodes[r, i]]] += 2 * half[nodes[r, i]] + GAP
        for (column = 1; column <= columns; column++) if (wide[column] + GAP > need[column]) need[column] = wide[column] + GAP
    }
    for (column = 1; column <= columns; column++) total += need[column]
    left[0] = left[1] = EDGE
    for (column = 1; column <= columns; column++) {
        right[column] = left[column] + need[column] + int((WIDTH - 2 * EDGE - (columns - 1) * GAP / 2 - total) / columns)
        left[column + 1] = right[column] + GAP / 2
    }
    right[0] = right[columns] = WIDTH - EDGE
}

function is_heading(node) { return node ~ /^#/ }
function least_x(node) { return half[node] ? left[column_at[node]] + GAP + half[node] : EDGE + 6 }
function most_x(node) { return half[node] ? right[column_at[node]] - GAP - half[node] : WIDTH - EDGE - 6 }
function apart(a, b) { return half[a] + half[b] + (half[a] && half[b] ? GAP : LINE) }

# How far a node of a row may go to either side, between its neighbours and within its room.
function at_least(r, i,    least) {
    least = i > 1 ? x[nodes[r, i - 1]] + apart(nodes[r, i - 1], nodes[r, i]) : 0
    return within(least, least_x(nodes[r, i]), WIDTH)
}
function at_most(r, i,    most) {
    most = i < nodes_in[r] ? x[nodes[r, i + 1]] - apart(nodes[r, i], nodes[r, i + 1]) : WIDTH
    return within(most, 0, most_x(nodes[r, i]))
}

# Where a node's line to another one meets it: its lines are side by side, in the order of where they go.
function port(node, side, other,    k, count, before, step) {
    if (!half[node]) return x[node]
    count = nears[node, side]
    for (k = 1; k <= count; k++) before += x[near[node, side, k]] < x[other]
    step = count > 1 ? within(int((2 * half[node] - 16) / (count - 1)), 0, 22) : 0
    return x[node] + before * step - int((count - 1) * step / 2)
}

# Where a node would like to be: amid those that it is joined to at the sides, at last so that its lines are upright.
function wish(node, sides,    side, k, other, sum, count, pull) {
    if (is_heading(node)) return least_x(node)
    for (side = BELOW; side <= ABOVE; side++) for (k = 1; (sides == side || sides == BOTH) && k <= nears[node, side]; k++) {
        other = near[node, side, k]
        pull = half[node] && half[other] ? 1 : half[node] || half[other] ? 2 : 8
        sum += pull * (by_ports ? port(other, 3 - side, node) - port(node, side, other) + x[node] : x[other])
        count += pull
    }
    return within(count ? int(sum / count) : x[node], least_x(node), most_x(node))
}

# A row in the order of its wishes; headings come first in their room.
function turn_of(node) { return is_heading(node) ? left[column_at[node]] + GAP : wished[node] }
function order_row(r,    i, j, node) {
    for (i = 2; i <= nodes_in[r]; i++) {
        node = nodes[r, i]
        for (j = i - 1; j >= 1 && turn_of(nodes[r, j]) > turn_of(node); j--) nodes[r, j + 1] = nodes[r, j]
        nodes[r, j + 1] = node
    }
}

# Each node as near to its wish as the others leave it: those that would overlap become a block about their mean.
function spread_row(r,    i, k, n, node, offset, sum, mass, size) {
    for (i = 1; i <= nodes_in[r]; i++) {
        node = nodes[r, i]
        offset[i] = i == 1 ? 0 : offset[i - 1] + apart(nodes[r, i - 1], node)
        mass[++n] = is_heading(node) ? 50 : half[node] ? 1 : 4
        sum[n] = mass[n] * (wished[node] - offset[i])
        size[n] = 1
        while (n > 1 && sum[n - 1] * mass[n] > sum[n] * mass[n - 1]) {
            sum[n - 1] += sum[n]
            mass[n - 1] += mass[n]
            size[n - 1] += size[n]
            n--
        }
    }
    i = 1
    for (k = 1; k <= n; k++) for (; size[k] > 0; size[k]--) { x[nodes[r, i]] = int(sum[k] / mass[k]) + offset[i]; i++ }
    for (i = 1; i <= nodes_in[r]; i++) x[nodes[r, i]] = within(x[nodes[r, i]], at_least(r, i), 2 * WIDTH)
    for (i = nodes_in[r]; i >= 1; i--) x[nodes[r, i]] = within(x[nodes[r, i]], -WIDTH, at_most(r, i))
}

function settle_row(r, sides, in_turn,    i) {
    for (i = 1; i <= nodes_in[r]; i++) wished[nodes[r, i]] = wish(nodes[r, i], sides)
    if (in_turn) order_row(r)
    spread_row(r)
}

function relax(sweeps,    sweep, r) {
    for (sweep = 1; sweep <= sweeps; sweep++) for (r = 0; r <= rows; r++) settle_row(sweep % 2 ? r : rows - r, BOTH, 0)
}

# Neighbours change places where that takes crossings away.
function crossings(a, b,    side, k, l, count) {
    for (side = BELOW; side <= ABOVE; side++) for (k = 1; k <= nears[a, side]; k++) for (l = 1; l <= nears[b, side]; l++)
        count += x[near[a, side, k]] > x[near[b, side, l]]
    return count + 0
}
function may_change(a, b) { return !is_heading(a) && !is_heading(b) && (column_at[a] == column_at[b] || !half[a] || !half[b]) }
function change_places(    r, i, a, b, rounds, changed, here) {
    do {
        changed = 0
        for (r = 0; r <= rows; r++) for (i = 1; i < nodes_in[r]; i++) {
            a = nodes[r, i]
            b = nodes[r, i + 1]
            if (!may_change(a, b) || crossings(a, b) <= crossings(b, a)) continue
            nodes[r, i] = b
            nodes[r, i + 1] = a
            here = x[a]
            x[a] = x[b]
            x[b] = here
            changed = 1
        }
    } while (changed && ++rounds < 20)
}

# How bad a placing is: by its crossings, and by how far its lines go to the side, of which CROSSING is as bad as one.
function count_crossings(first, last,    r, i, j, a, b, c, d, count) {
    for (r = first; r <= last; r++) for (i = 1; i <= segments[r]; i++) {
        a = x[from[r, i]]
        b = x[to[r, i]]
        for (j = 1; j < i; j++) { c = x[from[r, j]]; d = x[to[r, j]]; count += (a < c && b > d) || (a > c && b < d) }
    }
    return count
}
function count_sides(    r, i, aside, sum) {
    for (r = 0; r < rows; r++) for (i = 1; i <= segments[r]; i++) { aside = x[from[r, i]] - x[to[r, i]]; sum += aside < 0 ? -aside : aside }
    return sum
}

function keep_best(    r, i) {
    least_crossings = count_crossings(0, rows - 1)
    best = least_crossings * CROSSING + count_sides()
    for (r = 0; r <= rows; r++) for (i = 1; i <= nodes_in[r]; i++) { kept[r, i] = nodes[r, i]; kept_x[nodes[r, i]] = x[nodes[r, i]] }
}
function restore(    r, i) {
    for (r = 0; r <= rows; r++) for (i = 1; i <= nodes_in[r]; i++) { nodes[r, i] = kept[r, i]; x[nodes[r, i]] = kept_x[nodes[r, i]] }
}

# Whether what was just changed is better once the rows have settled; otherwise all is as it was.
function is_better(    bad) {
    bad = count_crossings(0, rows - 1)
    if (bad <= least_crossings + 1) {
        relax(2)
        if (bad * CROSSING + count_sides() < best) { keep_best(); return 1 }
    }
    restore()
    return 0
}

# A line passes its rows elsewhere, on one of the tracks; or two crates of a room change places, with their lines.
function is_long(e) { return row[high[e]] - row[low[e]] > 1 }
function move_line(e, to_x,    r, i) {
    for (r = row[low[e]] + 1; r < row[high[e]]; r++) {
        x[e " " r] = to_x
        for (i = 1; i <= nodes_in[r]; i++) wished[nodes[r, i]] = x[nodes[r, i]]
        order_row(r)
        spread_row(r)
    }
}
function try_lines(    e, k, better) {
    for (e = 1; e <= edge_count; e++) for (k = 1; is_long(e) && k <= tracks; k++) { move_line(e, track[k]); better += is_better() }
    return better
}
function move_lines_of(c,    e, k, count, least, at) {
    for (e = 1; e <= edge_count; e++) if ((low[e] == c || high[e] == c) && is_long(e)) {
        for (k = 1; k <= tracks; k++) {
            move_line(e, track[k])
            count = count_crossings(row[low[e]], row[high[e]] - 1)
            if (k == 1 || count < least) { least = count; at = k }
        }
        move_line(e, track[at])
    }
}
function try_crates(    r, i, j, a, b, better) {
    for (r = 0; r <= rows; r++) for (i = 1; i < nodes_in[r]; i++) for (j = i + 1; j <= nodes_in[r]; j++) {
        a = nodes[r, i]
        b = nodes[r, j]
        if (!(a in group_of) || !(b in group_of) || column_at[a] != column_at[b]) continue
        nodes[r, i] = b
        nodes[r, j] = a
        spread_row(r)
        move_lines_of(a)
        move_lines_of(b)
        change_places()
        better += is_better()
    }
    return better
}

function find_x(    sweep, r, i, better) {
    for (r = 0; r <= rows; r++) for (i = 1; i <= nodes_in[r]; i++) x[nodes[r, i]] = int((least_x(nodes[r, i]) + most_x(nodes[r, i])) / 2)
    for (sweep = 1; sweep <= 8; sweep++) {
        for (r = 0; r <= rows; r++) settle_row(sweep % 2 ? r : rows - r, sweep % 2 ? BELOW : ABOVE, 1)
        change_places()
    }
    relax(8)
    keep_best()
    for (i = 1; i <= TRACKS; i++) track[++tracks] = EDGE + int(i * (WIDTH - 2 * EDGE) / (TRACKS + 1))
    for (i = 1; i <= columns; i++) track[++tracks] = left[i] - 1
    do better = try_crates() + try_lines()
    while (better)
    by_ports = 1
    relax(40)
    for (sweep = 1; sweep <= 3; sweep++) for (i = 1; i <= edge_count; i++) straighten(i)
}

# A line that passes rows goes straight up as far as its neighbours leave it.
function straighten(e,    r, first, i, least, most, low_end, high_end, at) {
    for (first = row[low[e]] + 1; first < row[high[e]]; first = r) {
        least = 0
        most = WIDTH
        for (r = first; r < row[high[e]]; r++) {
            for (i = 1; nodes[r, i] != e " " r; ) i++
            if (at_least(r, i) > most || at_most(r, i) < least) break
            least = within(least, at_least(r, i), WIDTH)
            most = within(most, 0, at_most(r, i))
        }
        low_end = first == row[low[e]] + 1 ? port(low[e], ABOVE, e " " first) : x[e " " (first - 1)]
        high_end = r == row[high[e]] ? port(high[e], BELOW, e " " (r - 1)) : x[e " " r]
        at = within(low_end, least, most)
        if (at != low_end && within(high_end, least, most) == high_end) at = high_end
        for (i = first; i < r; i++) x[e " " i] = at
    }
}
