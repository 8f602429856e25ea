# Answers about a text that was translated from C, told of the source in C. In the environment: TEXT is the text, whose table TEXT.map the translator
# wrote, and SOURCE the source in C.

function short(n) { return n in place ? substr(place[n], 1, match(place[n], /:[0-9]+$/) - 1) : ENVIRON["TEXT"] ":" n }
function line(n,    text) { text = short(n); sub(/.*:/, "", text); return text }

# Words with each line of the text as a place in C, same places once.
function placed(words,    n, i, it, last, out) {
    n = split(words, part, " ")
    for (i = 1; i <= n; i++) {
        it = part[i] ~ /^[0-9]+$/ ? short(part[i]) : part[i]
        if (it != last) out = out (out == "" ? "" : " ") it
        last = it
    }
    return out
}

# A message whose lines are the numbers behind `line` or `lines`, ranges among them.
function told(message,    out, list, n, i, ends, it, last) {
    while (match(message, /lines? [0-9][0-9 .-]*/)) {
        list = substr(message, RSTART, RLENGTH)
        out = out substr(message, 1, RSTART - 1) (list ~ /^lines/ ? "lines" : "line")
        message = substr(message, RSTART + RLENGTH)
        n = split(list, part, " ")
        last = ""
        for (i = 2; i <= n; i++) {
            it = part[i]
            if (split(it, ends, "-") == 2) it = line(ends[1]) == line(ends[2]) ? line(ends[1]) : line(ends[1]) "-" line(ends[2])
            else if (it ~ /^[0-9]+$/) it = line(it)
            if (it != last) out = out " " it
            last = it
        }
    }
    return out message
}

BEGIN {
    text = ENVIRON["TEXT"]
    while ((getline row < (text ".map")) > 0) if (match(row, /^[0-9]+ /)) place[substr(row, 1, RLENGTH - 1)] = substr(row, RLENGTH + 1)
}
/^refused src [0-9]+ [A-Z]+[0-9]+$/ && $3 in place { print place[$3] ": error: " $4; fflush(); next }
/^way / { print "way " placed(substr($0, 5)); fflush(); next }
/^(first|behind|from|among) [0-9]/ { $2 = short($2) }
/^calls / { for (i = 3; i <= NF; i += 2) if (match($i, /^[0-9]+/)) $i = short(substr($i, 1, RLENGTH)) substr($i, RLENGTH + 1) }
/ open [A-Za-z_0-9]+ [0-9]+ [A-Za-z_0-9]+ [0-9]+$/ { $4 = short($4); $6 = short($6) }
/^function [A-Za-z_0-9]+ [0-9]+$/ { $3 = short($3) }
{
    if (index($0, text ":") == 1 && match(substr($0, length(text) + 2), /^[0-9]+/)) {
        at = substr($0, length(text) + 2, RLENGTH)
        $0 = (at in place ? place[at] : text ":" at) told(substr($0, length(text) + 2 + RLENGTH))
    }
    while (i = index($0, text)) $0 = substr($0, 1, i - 1) ENVIRON["SOURCE"] substr($0, i + length(text))
    print
    fflush()
}
