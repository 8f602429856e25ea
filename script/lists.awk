# Lines of arrivals and of loads, and names of a source, as far as what is said of a refusal needs them.

function read_lines(file, into,    text, n) {
    while ((getline text < file) > 0) { sub(/\r$/, "", text); into[++n] = text }
    close(file)
    return n + 0
}

# What is wrong with a line of arrivals, and what would be right.
function said_of_arrival(code, at,    n, words, text, i, earlier) {
    n = read_lines(ENVIRON["ARR"], arrival)
    text = arrival[at]
    split(text, words, " ")
    if (code == "T1") return "`" text "`" line_fault(text, "100 NAME", "a moment, one space and the name of a task or counter", 2)
    if (code == "T2") return "no task and no counter is named " words[2] "; there " list_text(names_of("TASK COUNTER"))
    if (code == "T3") {
        for (i = at - 1; i > 0; i--) if (arrival[i] ~ /^[0-9]/) { split(arrival[i], earlier, " "); break }
        return "the moment " words[1] " is before that of line " i ", " earlier[1] "; moments never fall, so the line belongs above it"
    }
    if (code == "T4" && (words[1] + 0 < 1 || words[1] + 0 > 1000000)) return "the moment " words[1] ": wanted is a number from 1 to 1000000"
    if (code == "T4") return "this is arrival 100001; 100000 are allowed"
    return ""
}

# What a line of words with one space between lacks.
function line_fault(text, example, wants, count,    n, words) {
    n = split(text, words, " ")
    if (text ~ /#|\/\//) return ": a comment stands on a line of its own, which begins with #"
    if (text ~ /\t/) return ": wanted are " wants ", and here stands a tab"
    if (text ~ /^ /) return ": the line begins with a blank; wanted are " wants
    if (text ~ / $/) return ": a blank stands at the end of the line"
    if (n == count && text ~ /  /) return ": one space is wanted between the words"
    if (count == 2 && n == 2 && words[1] !~ /^[0-9]+$/ && words[2] ~ /^[0-9]+$/) return ": the moment comes first: `" words[2] " " words[1] "`"
    if (count == 2 && words[1] !~ /^[0-9]+$/) return ": wanted are " wants ", as in `" example "`; " words[1] " is no moment in decimal digits"
    if (count == 3 && n == 3 && words[3] !~ /^[0-9]+$/) return ": " words[3] " is no number in decimal digits"
    return ": wanted are " wants ", as in `" example "`; here stand" (n == 1 ? "s 1 word" : " " n " words")
}

# What is wrong with a line of a load, and what would be right.
function said_of_load(code, at,    n, words, text, i, earlier, form, limits) {
    n = read_lines(ENVIRON["LOAD"], load)
    text = load[at]
    split(text, words, " ")
    form = words[1] == "every" ? "TASK COUNTER" : "TASK"
    if (code == "L1" && words[1] !~ /^(every|work|deadline)$/)
        return "`" text "`: " words[1] " begins no line of a load; every, work and deadline do, as in `every NAME 1000`"
    if (code == "L1") return "`" text "`" line_fault(text, words[1] " NAME 1000", words[1] ", a name and a number, with one space between", 3)
    if (code == "L2") return "no " (form == "TASK" ? "task" : "task and no counter") " is named " words[2] "; there " list_text(names_of(form))
    if (code == "L3") {
        for (i = 1; i < at; i++) { split(load[i], earlier, " "); if (earlier[1] == words[1] && earlier[2] == words[2]) break }
        return "`" words[1] " " words[2] "` stands on line " i " already; take one of the two away"
    }
    if (code == "L4") { limits = row[code]; sub(/.*outside /, "", limits); return "the number " words[3] ": wanted is a number from " limits }
    return ""
}

# The names that a source has of a kind: data, task, func, or label of the body that holds a line; as a list for a reader.
function names_in_source(kinds, at,    i, first, last, text, n) {
    first = 1; last = lines
    if (kinds == "label") { first = body_before(at); for (last = at; last < lines && source[last] !~ /^[ \t]*end[ \t\r]*$/; last++); }
    for (i = first; i <= last; i++)
        if (source[i] ~ /^[ \t]*(data|task|func|label)[ \t]/ && cut(source[i]) && index(" " kinds " ", " " word " ") && ++n <= 12)
            text = text (text == "" ? "" : ", ") operand[1]
    return n > 12 ? text ", .." : text == "" ? "none" : text
}

# The known word that is nearest to one by changed, lost and added letters, two at most; else nothing.
function nearest(it, known,    n, words, i, cost, best, found) {
    n = split(known, words, /[ ,]+/)
    best = length(it) < 4 ? 1 : 2
    for (i = 1; i <= n; i++) if ((cost = distance(tolower(it), tolower(words[i]))) <= best) { best = cost - 1; found = words[i] }
    return found
}
function distance(a, b,    i, j, row_cost, before, kept, n, m) {
    n = length(a); m = length(b)
    if (n - m > 2 || m - n > 2) return 9
    for (j = 0; j <= m; j++) row_cost[j] = j
    for (i = 1; i <= n; i++) {
        before = row_cost[0]; row_cost[0] = i
        for (j = 1; j <= m; j++) {
            kept = row_cost[j]
            row_cost[j] = least(before + (substr(a, i, 1) != substr(b, j, 1)), least(row_cost[j], row_cost[j - 1]) + 1)
            before = kept
        }
    }
    return row_cost[m]
}
function least(a, b) { return a < b ? a : b }
