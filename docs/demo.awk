# Draws the demonstration's run as an SVG picture: reads what the program `demo_session` prints, and writes the picture to standard output.
#   awk -f docs/demo.awk crates/demo_session/stdout >docs/demo.svg

function x(frame) { return LEFT + frame * CELL }
function rect(left, top, width, height, look) { printf "<rect x=\"%g\" y=\"%g\" width=\"%g\" height=\"%g\" %s/>\n", left, top, width, height, look }
function line(x1, y1, x2, y2, look) { printf "<line x1=\"%g\" y1=\"%g\" x2=\"%g\" y2=\"%g\" %s/>\n", x1, y1, x2, y2, look }
function words(left, top, look, text) { printf "<text x=\"%g\" y=\"%g\" %s>%s</text>\n", left, top, look, text }
function lane(top, name, below) {
    words(LEFT - 14, top, "text-anchor=\"end\" font-weight=\"bold\"", name)
    words(LEFT - 14, top + 16, "text-anchor=\"end\" class=\"small\"", below)
}

# "3 to 5" or "3"
function first_of(range) { return range + 0 }
function last_of(range,    parts) { return split(range, parts, " to ") == 2 ? parts[2] + 0 : range + 0 }

BEGIN { CELL = 17; LEFT = 150; frames = 0; blocks = 0 }

# A frame's line has its parts at fixed columns.
/^ *[0-9]+ +[0-9]+ / {
    f = substr($0, 1, 5) + 0
    frames = f + 1
    shake[f] = substr($0, 6, 7) + 0
    carries = substr($0, 28, 11)
    arrival[f] = substr($0, 39, 21)
    is_idle[f] = carries ~ /idle/
    if (substr($0, 13, 7) ~ /[0-9]/) blocks = substr($0, 13, 7) + 1
    if (!is_idle[f]) for (b = first_of(carries); b <= last_of(carries); b++) {
        if (!(b in begins)) begins[b] = f
        ends[b] = f
        if (fate(f) == "repaired") mended[b] = 1
    }
    out[f] = substr($0, 69, 13)
    count = split(out[f], numbers, " ")
    for (k = 1; k <= count; k++) { came[numbers[k] + 0] = 1; outs++ }
    gaps[f] = count ? substr($0, 87, 6) + 0 : gaps[f - 1]
    run = substr($0, 95)
    length_of_run[f] = count ? last_of(run) - first_of(run) + 1 : length_of_run[f - 1]
    newest = count ? run : newest
}

# What became of a frame, for its colour.
function fate(f) { return arrival[f] ~ /repaired/ ? "repaired" : arrival[f] ~ /received/ ? "received" : arrival[f] ~ /lost/ ? "lost" : "refused" }

# The number that a frame's arrival tells: how many bytes were repaired, or the refusal's.
function told(f,    number) {
    number = arrival[f]
    sub(/^[^0-9]*/, "", number)
    return number + 0
}

# What became of a block.
function end_of(b) { return b in came ? (b in mended ? "mended" : "came") : "gone" }

function limit(y, label, text) {
    line(LEFT, y, x(frames), y, "class=\"limit\"")
    words(x(frames) + 6, label, "class=\"small\"", text)
}

function draw_beam(top, height,    f, y) {
    lane(top + 40, "beam", "off its target")
    for (f = 0; f < frames; f++) {
        y = shake[f] * height / 50
        rect(x(f) + 2, top + height - y, CELL - 4, y, "class=\"" fate(f) "-bar\"")
    }
    # The labels stand further apart than the limits.
    y = top + height - 33 * height / 50
    limit(top + height - 29 * height / 50, y + 17, "29: 5 wrong")
    limit(y, y + 4, "33: 9 wrong")
    limit(top + height - 37 * height / 50, y - 9, "37: lost")
    line(LEFT, top + height, x(frames), top + height, "class=\"axis\"")
}

function draw_frames(top,    f) {
    lane(top + 12, "frames", "one every slot")
    for (f = 0; f < frames; f++) {
        rect(x(f) + 1, top, CELL - 2, 24, "class=\"" (is_idle[f] && fate(f) == "received" ? "idle" : fate(f)) "\"")
        if (fate(f) == "refused" || fate(f) == "repaired")
            words(x(f) + CELL / 2, top + 16, "text-anchor=\"middle\" class=\"" fate(f) "-number\"", told(f))
        if (fate(f) == "lost") {
            line(x(f) + 5, top + 8, x(f) + CELL - 5, top + 16, "class=\"cross\"")
            line(x(f) + 5, top + 16, x(f) + CELL - 5, top + 8, "class=\"cross\"")
        }
        if (f % 4 == 0) words(x(f) + CELL / 2, top + 40, "text-anchor=\"middle\" class=\"small\"", f)
    }
}

# Each block goes to the highest row that is free at its frames.
function draw_blocks(top,    b, r) {
    lane(top + 24, "blocks sent", "over which frames")
    for (b = 0; b < blocks; b++) {
        for (r = 0; r in taken && begins[b] <= taken[r]; r++) continue
        taken[r] = ends[b]
        rect(x(begins[b]) + 1, top + r * 22, (ends[b] - begins[b] + 1) * CELL - 2, 18, "rx=\"3\" class=\"" end_of(b) "\"")
        words((x(begins[b]) + x(ends[b] + 1)) / 2, top + r * 22 + 13, "text-anchor=\"middle\" class=\"" end_of(b) "-number\"", b)
    }
}

function draw_recorder(top,    f, k, count, parts) {
    lane(top + 14, "recorder", "keeps every block")
    for (f = 0; f < frames; f++) {
        count = split(out[f], parts, " ")
        for (k = 1; k <= count; k++) {
            rect(x(f) + 1, top + (k - 1) * 20, CELL - 2, 18, "rx=\"3\" class=\"" end_of(parts[k]) "\"")
            words(x(f) + CELL / 2, top + (k - 1) * 20 + 13, "text-anchor=\"middle\" class=\"" end_of(parts[k]) "-number\"", parts[k])
        }
        if (f > 0 && gaps[f] > gaps[f - 1]) {
            line(x(f) - 1, top - 4, x(f) - 1, top + 42, "class=\"gap\"")
            words(x(f) - 5, top + 34, "text-anchor=\"end\" class=\"gap-word\"", "gap")
        }
    }
}

function draw_tuner(top, height,    f, y) {
    lane(top + 24, "tuner", "newest run, no gap")
    for (f = 0; f < frames; f++) {
        y = length_of_run[f] * height / 12
        rect(x(f), top + height - y, CELL + 0.4, y, "class=\"run\"")
    }
    for (f = 1; f <= frames; f++) if (f == frames || length_of_run[f] < length_of_run[f - 1])
        words(x(f) - 5, top + height - 6, "text-anchor=\"end\" class=\"run-word\"", length_of_run[f - 1] (length_of_run[f - 1] == 1 ? " block" : " blocks"))
    line(LEFT, top + height, x(frames), top + height, "class=\"axis\"")
}

function key(left, top, look, text) {
    rect(left, top - 12, 16, 16, "class=\"" look "\"")
    words(left + 23, top + 1, "", text)
}

function draw_keys(top) {
    key(LEFT, top, "received", "DATA received")
    key(LEFT + 145, top, "idle", "IDLE received")
    key(LEFT + 290, top, "repaired", "repaired, with the count of bytes")
    key(LEFT + 570, top, "refused", "refused, with the number")
    key(LEFT + 795, top, "lost", "lost")
    key(LEFT, top + 26, "came", "block that came out")
    key(LEFT + 183, top + 26, "mended", "block that came out by a repaired frame")
    key(LEFT + 500, top + 26, "gone", "block that did not: a frame of it is missing")
}

function draw_style() {
    print "<style>"
    print "text { font-family: Helvetica, Arial, sans-serif; font-size: 14px; fill: #222 }"
    print ".title { font-size: 19px; font-weight: bold } .small { font-size: 12px; fill: #555 }"
    print ".received { fill: #3f78b5 } .idle { fill: #dce8f5; stroke: #3f78b5 } .repaired { fill: #7d4fa3 } .refused { fill: #f4b04a } " \
        ".lost { fill: #fff; stroke: #c0392b; stroke-dasharray: 3 2 }"
    print ".received-bar { fill: #b9c4cf } .repaired-bar { fill: #b79bd0 } .refused-bar { fill: #f4b04a } .lost-bar { fill: #d9695c } " \
        ".cross { stroke: #c0392b; stroke-width: 1.6 }"
    print ".repaired-number { font-size: 11px; font-weight: bold; fill: #fff } .refused-number { font-size: 11px; font-weight: bold }"
    print ".came { fill: #2f8f5b } .mended { fill: #7d4fa3 } .gone { fill: #fff; stroke: #c0392b; stroke-width: 1.2 }"
    print ".came-number, .mended-number { font-size: 11px; fill: #fff } .gone-number { font-size: 11px; fill: #c0392b } " \
        ".run { fill: #9ccfb3 } .run-word { font-size: 12px; fill: #14532d }"
    print ".limit { stroke: #c0392b; stroke-dasharray: 5 4 } .axis { stroke: #888 } " \
        ".gap { stroke: #c0392b; stroke-width: 2 } .gap-word { font-size: 12px; fill: #c0392b }"
    print ".missing { fill: #fbe9e7 }"
    print "</style>"
}

END {
    width = x(frames) + 92
    printf "<svg xmlns=\"http://www.w3.org/2000/svg\" viewBox=\"0 0 %d 486\" width=\"%d\" height=\"486\">\n", width, width
    draw_style()
    rect(0, 0, width, 486, "fill=\"#fff\"")
    words(LEFT, 34, "class=\"title\"", frames " frames through a shaken beam: " blocks " blocks of samples sent, " outs " came out, whole and in order")
    for (f = 0; f < frames; f++) if (fate(f) == "refused" || fate(f) == "lost") rect(x(f), 56, CELL, 344, "class=\"missing\"")
    draw_beam(56, 100)
    draw_frames(172)
    draw_blocks(230)
    draw_recorder(296)
    draw_tuner(350, 50)
    draw_keys(436)
    print "</svg>"
}
