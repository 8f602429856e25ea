# Parts of a report that tell times: worst-case response times and what they are made of, blocking times, interrupt latency, and the first lines of the
# report, which judge them. It follows oil.awk and report.awk.

# The `every` lines of the load, the tasks that arrivals alone activate, as `unused` tells, and those that can wait for events.
function read_arrivals(    text, words, i) {
    while ((getline text < ENVIRON["LOAD"]) > 0) { has_load = 1; if (split(text, words, " ") == 3 && words[1] == "every") comes[words[2]] = words[3] + 0 }
    while ((getline text < ENVIRON["UNUSED"]) > 0) if (split(text, words, " ") == 3 && words[1] == "task") alone[words[2]] = 1
    read_objects()
    for (i = 1; i <= objects; i++) if (object_kind[i] == "TASK" && value(i, "TASK", "EVENT") != "") is_extended[object_name[i]] = 1
}

# Reads a task's line: its name, number, the number after boot, verdict, deadline, and whether no activation is lost.
function read_response(    i) {
    task = $1; number_now = $2; later = ""; judged = ""; deadline = ""; is_lossless = 0
    for (i = 3; i <= NF; i++) {
        if ($i == "behind") later = $(++i)
        else if ($i ~ /^(met|open|boot)$/) { judged = $i == "boot" ? "met-after-boot" : $i; deadline = $(++i) }
        else if ($i == "lossless") is_lossless = 1
    }
}
# What a line is of: all together, a counter, a task. Any of these words may be a task's name too.
function is_demand() { return $1 == "demand" && NF == 2 && $2 != "never" }
function is_tick() { return $1 == "tick" && $3 ~ /^([0-9]+|never|none)$/ }
function is_response() { return NF > 1 && !is_demand() && !is_tick() }
function read_tick() { counter = $2; ticked = $3; is_lossless = $NF == "lossless" }

# Whether an arrival of the task may be lost: never blank, since two things would look alike.
function may_lose() { return task in comes && !is_lossless && number_now != "never" }
# Why that is not excluded.
function reason_to_lose() {
    if (number_now == "none") return "no response time is known"
    if (number_now + 0 > comes[task]) return "the response time " number_now " is above the distance " comes[task]
    if (task in is_extended) return "it may be waiting for an event then"
    return task in alone ? "not shown" : "other things make it ready too"
}
function activations_text() {
    if (is_lossless) return cell("none can be lost")
    if (number_now == "never") return cell("none comes")
    return may_lose() ? cell("may be lost: " reason_to_lose(), "bad") : cell("nothing is said")
}
function may_lose_ticks() { return !is_lossless && ticked != "never" }
function reason_to_lose_ticks() {
    return ticked == "none" ? "no bound is known" : "one may end " ticked " after its arrival, and the distance is " comes[counter]
}
function ticks_text() {
    if (ticked == "never") return cell("none comes")
    return may_lose_ticks() ? cell("may be lost: " reason_to_lose_ticks(), "bad") : cell("none can be lost")
}
function tell_tick() {
    read_tick()
    if (!open_table) head("Counter|#Instructions from an arrival to the end of its tick, at most|Its ticks")
    row(cell(counter) (ticked == "never" ? number("-") : known_number(ticked)) ticks_text())
}
# A number, or that none is known.
function known(text) { return text == "none" ? "not-known" : text }
function known_number(text) { return number(text == "none" ? "not known" : text) }
function tell_response(    shown) {
    read_response()
    shown = judged; gsub(/-/, " ", shown)
    use_word(known(number_now)); use_word(known(later)); use_word(judged)
    row(cell(task) known_number(number_now) known_number(later == "" ? number_now : later) number(deadline == "" ? "no deadline" : deadline) \
        (judged == "" ? cell("not asked") : cell(shown, judged == "open" ? "bad" : "")) activations_text())
}

# A cell of a warning, if there is one, and what is well.
function judged_cell(warning, well) {
    if (warning == "") return cell(well)
    return "<td><span class=\"bad\">" safe(warning) "</span>" (well == "" ? "" : "; " safe(well)) "</td>"
}

# The first lines of the report on deadlines, and on what may be lost.
function judge() {
    read_response()
    if (judged == "open") late = joined(late, task)
    else if (judged == "") unasked = joined(unasked, task)
    else if (judged != "met") soon = joined(soon, task)
    else met = joined(met, task)
    if (may_lose()) losing = joined(losing, task " (" reason_to_lose() ")")
    else if (is_lossless) safe_tasks = joined(safe_tasks, task)
    else if (number_now != "never") unsaid = joined(unsaid, task)
}
function judge_tick() {
    read_tick()
    if (may_lose_ticks()) losing_ticks = joined(losing_ticks, counter " (" reason_to_lose_ticks() ")")
    else if (is_lossless) safe_counters = joined(safe_counters, counter)
}
# Two parts of a list, the latter one of counters.
function both(first, more) { return first (first == "" || more == "" ? "" : ", and ") more }
function after(word, list) { return list == "" ? "" : word list }
function tell_losses(    lost, kept) {
    lost = both(after("activations of ", losing), after("ticks of ", losing_ticks))
    kept = both(after("no activation of ", safe_tasks), after("no tick of ", safe_counters))
    if (kept != "") kept = kept " can be lost, if a run keeps the load"
    if (unsaid != "") kept = kept (kept == "" ? "" : "; ") "of activations of " unsaid " nothing is said, but what the run counts"
    if (lost == "" && kept == "") kept = "none comes in a run that keeps the load"
    row("<th>Activations and ticks</th>" judged_cell(lost == "" ? "" : lost " may be lost", kept))
}
function tell_verdicts(    text) {
    text = met == "" ? "" : "met each time that the task is made ready, if a run keeps the load (lost activations are not judged): " met
    if (soon != "") text = text (text == "" ? "" : "; ") "met for what comes after boot alone: " soon
    if (unasked != "") text = text (text == "" ? "" : "; ") "none is asked of " unasked
    row("<th>Deadlines</th>" judged_cell(late == "" ? "" : "open for " late ": no bound within the deadline is known, see response times", text))
    tell_losses()
    if (demand == "none" || demand + 0 > 100)
        row("<th>Demand</th>" judged_cell((demand == "none" ? "no bound of it is known, or more than 400" : demand) \
            " hundredths of the processor, by upper bounds: it is not shown that all can be served", ""))
}

# What a number is made of: after the task's line one window, and a second one where the number after boot is another.
function begin_window() {
    if (windows) end_window()
    printf "<h3>%s%s: %s</h3>\n", safe(task), windows ? ", after boot" : "", windows ? later : number_now
    print "<p>" meaning["start", $2] (NF > 2 ? " " safe($3) "." : "") "</p>"
    windows++
    head("What is in it|#How many|#Instructions of each")
}
function end_window() { if (open_table) row(cell("together") cell("") number(windows == 1 ? number_now : later)); close_table() }
function tell_piece(    what) {
    if ($1 in is_counter) what = "ticks of " $1
    else if (NF == 4) what = "rounds of " $1 ($2 == "first" ? " that begin with its first item" : " after a wait")
    else what = "rounds of " $1 ", each with its entry"
    if (NF == 2) row(cell(meaning["piece", $1]) number(1) number($2))
    else row(cell(what) number($(NF - 1)) number($NF))
}
function read_objects() { read_tokens(ENVIRON["OIL"]); parse_oil() }
function read_counters(    i) {
    read_objects()
    for (i = 1; i <= objects; i++) if (object_kind[i] == "COUNTER") is_counter[object_name[i]] = 1
}

# The items of a lower task that a blocking time is made of, by the lines of the source.
function tell_way(    i) {
    printf "<h3>%s</h3>\n", safe(waiter)
    if ($1 == "cycle") printf "<p>It may go round these items of %s without an end:</p>\n", lower
    else printf "<p>It may wait for one service that a lower task had begun, which counts as an item, and for these items of %s, one after the other:</p>\n", lower
    head("#Line|Item")
    for (i = 2; i <= NF && i <= 41; i++) row(number($i) "<td><code>" safe(statement_text(source[$i])) "</code></td>")
    if (NF > 41) row(cell("..") cell("and more, as why .. " waiter " prints them"))
    close_table()
}
function tell_bound() {
    use_word($2); use_word(exact[$1])
    row(cell($1) number($2) number(exact[$1]) number($3 == "" ? $2 : $3))
}

# Why a run does not keep the load.
function tell_off_load() {
    if ($1 == "arrival") off = $4 == "never" ? "it has no line for the arrival of " $3 " in line " $2 " of " ENVIRON["SAY_ARR"] : "the arrival of " $3 " in line " $2 " of " ENVIRON["SAY_ARR"] " comes " $4 " after the one before, and the load says " $5
    if ($1 == "work" && NF > 2) off = off (off == "" ? "" : "; ") "at count " $3 " a round of " $2 " has executed " $4 " instructions of its own, and the load says " $5
}

function tell_demand() {
    print "<p>Demand: upper bounds of all that comes with arrivals as early as the load allows add up to " \
        (demand == "none" ? "more than 400 hundredths of the processor, or have no greatest sum. " : demand " hundredths of the processor. ") \
        (demand == "none" || demand + 0 > 100 ? "By these bounds it is not shown that all can be served. Runs need not reach them, and may serve all." : "") "</p>"
}

BEGIN {
    is_of_times = part ~ /^(response|tasks|ticks|verdict|window|bounds|way|latency|beside|off_load)$/
    if (part ~ /^(response|ticks|verdict|latency)$/) read_arrivals()
    if (part == "response") head("Task|#Worst-case response time|#The same after boot|#Deadline|Verdict|Its activations")
    if (part == "window") read_counters()
    if (part == "beside") head("Task|#Longest response in this run|#Worst-case response time|#In this run, after boot|#Worst case after boot")
    if (part == "bounds") {
        while ((getline text < ENVIRON["COUNTS"]) > 0) if (split(text, words, " ") == 2) exact[words[1]] = words[2]
        head("Task|#Items of lower tasks|#Instructions of these (add 400)|#The same by 200 an item")
    }
    if (part == "way") read_source()
    if (part == "latency") head("What|#Instructions, at most")
}
part == "response" && is_response() { tell_response() }
part == "tasks" && is_response() { print $1 }
part == "ticks" && is_tick() { tell_tick() }
part ~ /^(response|verdict)$/ && is_demand() { demand = $2 }
part == "verdict" && is_response() { judge() }
part == "verdict" && is_tick() { judge_tick() }
part == "beside" && $3 == "of" && $5 == "behind" { row(cell($1) number($2) known_number($4) number($6) known_number($8)) }
part == "off_load" && FNR < 3 { tell_off_load() }
part == "window" && FNR == 1 { read_response(); next }
part == "window" && $1 == "start" { begin_window(); next }
part == "window" { tell_piece() }
part == "bounds" { tell_bound() }
part == "way" && FNR == 1 { waiter = $1 }
part == "way" && $1 == "task" && FNR > 1 { lower = $2 }
part == "way" && $1 ~ /^(way|cycle)$/ && FNR > 2 { tell_way() }
part == "latency" && $1 == "tick" { row(cell("a tick of " $2) number($3)) }
part == "latency" && $2 == "latency" { use_word($3); row(cell("from an arrival of " $1 " that makes it ready to the end of its entry, if no tick comes between" \
    (has_load && !($1 in comes) ? "; under this load no arrival of it comes" : "")) number($3)) }
END {
    if (part == "verdict") tell_verdicts()
    if (part ~ /^(beside|ticks)$/) close_table()
    if (part == "off_load") print off
    if (part == "window" && open_table) end_window()
    if (part ~ /^(response|bounds|latency|way)$/) { close_table(); tell_words() }
    if (part == "response") tell_demand()
}
