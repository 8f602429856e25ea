# Warnings of accepted texts, in the form that editors read: the lines of `unused`, then a line `-` and those of `shares`. Names of files are in the
# environment; without ARR nothing is said of tasks, which arrivals may activate. Nothing is said of a symbol that is meant to be shared without a resource:
# a comment that begins with `open`, on its line or the one above. The status is 1 where something is said.

function say(file, at, text) { warned = 1; print file (at ? ":" at : "") ": warning: " text }
function said(kind, name, text) { wanted[++count] = kind " " name; text_of[count] = text " " name }

# The lines of objects by kind and name, two words in a row outside comments and strings.
function read_oil(    text, at, i, n, inside, rest, found, words, last, last_at) {
    while ((getline text < ENVIRON["OIL"]) > 0) {
        at++; rest = ""
        while (text != "")
            if (inside) { i = index(text, "*/"); text = i ? substr(text, i + 2) : ""; inside = !i }
            else if (match(text, /"[^"]*"|\/\/|\/\*/)) {
                rest = rest substr(text, 1, RSTART - 1) " "; found = substr(text, RSTART, 2); text = substr(text, RSTART + RLENGTH)
                if (found == "//") text = ""
                inside = found == "/*"
            } else { rest = rest text; text = "" }
        gsub(/[^A-Za-z0-9_]/, " & ", rest)
        n = split(rest, words)
        for (i = 1; i <= n; i++) {
            if (!((last, words[i]) in place)) place[last, words[i]] = last_at
            last = words[i]; last_at = at
        }
    }
}
function read_src(    text, at, is_meant) {
    while ((getline text < ENVIRON["SRC"]) > 0) {
        at++
        is_meant = (text ~ /#[ \t]*open([ \t:,.\r]|$)/) + (is_meant && text !~ /^[ \t]*#/ && text ~ /^[ \t]*data/)
        sub(/^[ \t]+/, "", text)
        if (split(text, words, /[ \t,]+/) > 1 && words[1] == "data") { data[words[2]] = at; meant[words[2]] = is_meant }
    }
}
$1 == "-" { shares = 1; next }
shares && $2 == "open" { open[++opens] = $0 }
shares { next }
$1 == "task" && ENVIRON["ARR"] != "" { said("TASK", $2, "no alarm, no task and no arrival activates the task") }
$1 == "resource" { said("RESOURCE", $2, "no task takes the resource") }
$1 == "event" { said("EVENT", $2, "no alarm and no task uses the event") }
$1 == "alarm" { said("ALARM", $2, "nothing starts the alarm") }
$1 == "symbol" { said("data", $2, "no task uses the symbol") }
$1 == "function" { said("func " $3, $2, "no task reaches a call of the function") }
END {
    if (count) read_oil()
    if (count || opens) read_src()
    if (ENVIRON["ARR"] != "")
        while ((getline text < ENVIRON["ARR"]) > 0) { sub(/\r$/, "", text); sub(/^[0-9]+ /, "", text); arrives[text] = 1 }
    for (i = 1; i <= count; i++) {
        split(wanted[i], words, " ")
        if (words[1] == "data") say(ENVIRON["SRC"], data[words[2]], text_of[i])
        else if (words[1] == "func") say(ENVIRON["SRC"], words[2], text_of[i])
        else if (words[1] != "TASK" || !(words[2] in arrives)) say(ENVIRON["OIL"], place[words[1], words[2]], text_of[i])
    }
    for (i = 1; i <= opens; i++) {
        $0 = open[i]
        if (!meant[$1]) say(ENVIRON["SRC"], $4, $1 ": " $5 " may preempt " $3 " here and do line " $6 "; one of the two stores")
    }
    exit warned
}
