# Adds to a picture what its application's texts tell: the title, the names of alarms, and by the run's events, which stand on standard input with the
# lines of the source, who holds a resource, and deadlines of what makes a task ready in the picture. It follows oil.awk.

# Reads the deadlines of a load.
function read_load(file,    text, words) {
    while ((getline text < file) > 0) if (split(text, words, " ") == 3 && words[1] == "deadline") deadline[words[2]] = words[3]
    close(file)
}

# Keeps an event: the ends of services and of `left` of each task, the ticks of each counter with the first arrival that each serves, and what is held.
function keep_event(    task, name) {
    task = $4; name = $0
    if (!sub(/.*# line [0-9]+: GetResource +/, "", name)) name = "a resource"
    if ($3 == "admit" && !(task in due)) due[task] = $1
    if ($3 == "tick") { edge[task, ++ends[task]] = due[task]; end[task, ends[task]] = $2; delete due[task] }
    if ($3 == "left") { left[task, ++lefts[task]] = $2; release(task, $1) }
    if ($3 == "call" || $3 == "left") { edge[task, ++ends[task]] = $2; end[task, ends[task]] = $2 }
    if ($3 == "call" && $5 == "GetResource") { held[task, ++holds[task]] = name; since[task, holds[task]] = $2 + 1 }
    if ($3 == "call" && $5 == "ReleaseResource" && holds[task]) until_count(task, $2)
}
function until_count(task, at,    i) {
    i = holds[task]--
    if (since[task, i] < to && at >= from) { pieces++; piece_task[pieces] = task; piece_name[pieces] = held[task, i]; piece_from[pieces] = since[task, i]; piece_to[pieces] = at }
}
function release(task, at) { while (holds[task]) until_count(task, at) }

function place(count) { return sprintf("%.2f", edge_left + (count - from) * 1020 / (to > from ? to - from : 1)) }

# The line of a task's deadline, by what makes it ready: from a count on, of which `first` is 1 where that count counts too.
function deadline_line(task, made, first,    i, at, gone, late) {
    at = made + 1 - first + deadline[task]
    for (i = 1; i <= lefts[task] && left[task, i] < made; i++);
    gone = i <= lefts[task] ? left[task, i] : ""
    late = gone == "" || gone + 1 > at
    if (at >= to) return ""
    if (late) missed = 1; else met = 1
    return sprintf("<path class=\"%s\" d=\"M%s %dv30%s\"><title>%s: deadline %d after %d, %s</title></path>\n", late ? "l" : "d", place(at), middle[task] - 15,
        late ? "m-4 -4l8 8m0 -8l-8 8" : "", task, deadline[task], made, gone == "" ? "not left by " to : (late ? "missed" : "met") ": left " gone + first - made " after it")
}

# Reads what makes a task ready from a line of the picture, and keeps the line of its deadline.
function read_making(text,    words, n, i) {
    n = split(text, words, " ")
    if (words[2] == "arrives" && words[5] == "" && words[1] in deadline) added = added deadline_line(words[1], words[4] + 0, 1)
    if (words[2] ~ /^(wakes|activates)$/ && words[3] in deadline) {
        for (i = ends[words[1]]; i > 0 && end[words[1], i] >= words[5]; i--);
        if (i) added = added deadline_line(words[3], edge[words[1], i], words[1] in is_counter)
    }
}

function held_line(i,    a, b, width) {
    a = piece_from[i] > from ? piece_from[i] : from; b = piece_to[i] + 1 < to ? piece_to[i] + 1 : to
    width = place(b) - place(a)
    return sprintf("<rect class=\"h\" x=\"%s\" y=\"%d\" width=\"%.2f\" height=\"2.5\"><title>%s holds %s, %d to %d</title></rect>\n", place(a), middle[piece_task[i]] + 14,
        width < 1.5 ? 1.5 : width, piece_task[i], piece_name[i], piece_from[i], piece_to[i])
}

# Marks of alarms that expire at one tick lie upon each other: each tells of all.
function mark_of(text) { sub(/<title>.*/, "", text); return text }
function keep_expiry(text, name,    mark) { mark = mark_of(text); expiring[mark] = expiring[mark] (expiries[mark]++ ? ", " : "") name }
function tell_expiries(i,    mark) {
    mark = mark_of(line[i])
    if (expiries[mark] > 1) sub(/<title>alarm [^ ]+ expires/, "<title>alarms " expiring[mark] " expire", line[i])
}

function legend_part(x, shape, text) { return "<" shape "/><text x=\"" x "\" y=\"44\">" text "</text>\n" }

BEGIN {
    read_tokens(ENVIRON["OIL"]); parse_oil()
    for (i = 1; i <= objects; i++) {
        if (object_kind[i] == "ALARM") alarm[alarms++] = object_name[i]
        if (object_kind[i] == "COUNTER") is_counter[object_name[i]] = 1
    }
    read_load(ENVIRON["LOAD"])
    from = ENVIRON["FROM"] + 0; to = ENVIRON["TO"] + 0; picture = ENVIRON["PICTURE"]
}
{ keep_event() }
END {
    for (task in holds) release(task, to - 1)
    while ((getline text < picture) > 0) {
        line[++lines] = text
        if (text ~ /^<text class="n"/) {
            split(text, part, /[">< ]+/)
            edge_left = part[6] + 12; name = text; sub(/.*text-anchor="end">/, "", name); sub(/<.*/, "", name)
            middle[name] = part[8] - 5
        }
    }
    for (i = 1; i <= lines; i++) {
        if (match(line[i], /<title>alarm [0-9]+ expires/)) {
            number = substr(line[i], RSTART + 13, RLENGTH - 21)
            sub(/alarm [0-9]+/, "alarm " alarm[number + 0], line[i])
            keep_expiry(line[i], alarm[number + 0])
        }
        sub(/>counts /, ">" ENVIRON["TITLE"] ": counts ", line[i])
        if (match(line[i], /<title>.*<\/title>/)) read_making(substr(line[i], RSTART + 7, RLENGTH - 15))
    }
    for (i = 1; i <= lines; i++) tell_expiries(i)
    for (i = 1; i <= pieces; i++) held_lines = held_lines held_line(i)
    for (i = 1; i <= lines; i++) {
        if (line[i] == "@media screen and (prefers-color-scheme:dark){") print ".h{fill:#7a3fa0}\n.d{fill:none;stroke:#2a7d46;stroke-width:1.5}\n" line[i] "\n.h{fill:#b98ae0}\n.d{stroke:#58b878}"
        else if (line[i] ~ /^<g transform="translate/) { printf "%s%s", held_lines, added; print line[i] }
        else if (line[i] == "</g>") {
            if (held_lines != "") printf "%s", legend_part(636, "rect class=\"h\" x=\"600\" y=\"39\" width=\"28\" height=\"2.5\"", "holds a resource")
            if (met) printf "%s", legend_part(782, "path class=\"d\" d=\"M774 32v16\"", "deadline, met")
            if (missed) printf "%s", legend_part(912, "path class=\"l\" d=\"M902 30v16m-4 -4l8 8m0 -8l-8 8\"", "missed")
            print line[i]
        } else print line[i]
    }
}
