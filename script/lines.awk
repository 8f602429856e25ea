# Puts after each event of an item the line of the source where the item stands, or that of the file that a comment `#line N "FILE"` above it states.
# `run` names its item; of a service the item is the one after the task's last, which registers tell where that branched: `run` tells what each item
# leaves in its register.

function is_item(word) { return word !~ /^(data|task|func|label|end)$/ }

# The file, the line, and the text behind them, of a comment that states them.
function place(text,    parts, name) {
    split(text, parts, "\"")
    name = parts[2]; sub(/.*\//, "", name)
    return name ":" substr(parts[1], 7) + 0 ": " substr(text, length(parts[1] parts[2]) + 5)
}

# Reads items and labels of each body, items numbered from 0.
function read_source(    text, at, stated, body, items, i, n, word, parts) {
    while ((getline text < ENVIRON["SRC"]) > 0) {
        at++
        if (text ~ /^#line [0-9]+ "[^"]+"/) stated = place(text)
        sub(/\r$/, "", text); sub(/#.*/, "", text); gsub(/^[ \t]+|[ \t]+$/, "", text)
        word = text; sub(/[^A-Za-z0-9_].*/, "", word)
        if (word == "") continue
        if (word == "end") stated = ""
        n = split(substr(text, length(word) + 1), parts, ",")
        for (i = 1; i <= n; i++) gsub(/^[ \t]+|[ \t]+$/, "", parts[i])
        if (word == "task" || word == "func") { body = parts[1]; items = 0 }
        else if (word == "label") target[body, parts[1]] = items
        else if (is_item(word)) {
            line_of[body, items] = at; text_of[body, items] = text; stated_of[body, items] = stated; word_of[body, items] = word
            for (i = 1; i <= 3; i++) operand_of[body, items, i] = i <= n ? parts[i] : ""
            items++
        }
    }
}

function register_number(name) {
    if (name == "zero") return 0
    if (name == "fp") return 8
    if (name ~ /^x[0-9]+$/) return substr(name, 2) + 0
    if (name ~ /^t[0-2]$/) return substr(name, 2) + 5
    if (name ~ /^t[34]$/) return substr(name, 2) + 25
    if (name ~ /^s[01]$/) return substr(name, 2) + 8
    if (name ~ /^s[0-9]+$/) return substr(name, 2) + 16
    return substr(name, 2) + 10
}
function value_of(task, name,    n) { n = register_number(name); return n == 0 ? 0 : value[task, n] }
function signed(it) { return it >= 2147483648 ? it - 4294967296 : it }

# Whether a branch goes to its label: 1, 0, or 2 where a register is not known.
function goes(task, body, item,    word, a, b) {
    word = word_of[body, item]; a = value_of(task, operand_of[body, item, 1]); b = value_of(task, operand_of[body, item, 2])
    if (a == "" || b == "") return 2
    a += 0; b += 0
    if (word == "beq") return a == b
    if (word == "bne") return a != b
    if (word == "bltu") return a < b
    if (word == "bgeu") return a >= b
    return word == "blt" ? signed(a) < signed(b) : signed(a) >= signed(b)
}

function start(task,    i) {
    depth[task] = 1; body_at[task, 1] = task; item_at[task, 1] = 0; other_at[task] = ""
    for (i = 1; i < 32; i++) value[task, i] = 0
    runs[task] = 1
}

# Takes the task past an item that was executed with this result.
function pass(task, body, item, result,    word, d, way) {
    word = word_of[body, item]; d = depth[task]; other_at[task] = ""
    body_at[task, d] = body; item_at[task, d] = item + 1
    if (word == "call") { d = ++depth[task]; body_at[task, d] = operand_of[body, item, 1]; item_at[task, d] = 0 }
    else if (word == "ret") depth[task]--
    else if (word == "j") item_at[task, d] = target[body, operand_of[body, item, 1]]
    else if (word ~ /^b/) {
        way = goes(task, body, item)
        if (way == 2) other_at[task] = target[body, operand_of[body, item, 3]]
        else if (way) item_at[task, d] = target[body, operand_of[body, item, 3]]
    } else if (word !~ /^(nop|sw|sb|sh)$/) value[task, register_number(operand_of[body, item, 1])] = result
}

function show(body, item) {
    if (!((body, item) in line_of)) return ""
    return "  # " (stated_of[body, item] == "" ? "line " line_of[body, item] ": " text_of[body, item] : stated_of[body, item])
}

# The item of a service, which stands where the task is.
function service(task, name, status,    d, body, item, text) {
    d = depth[task]; body = body_at[task, d]; item = item_at[task, d]
    if (other_at[task] != "" && word_of[body, item] != name) item = other_at[task]
    else if (other_at[task] != "" && word_of[body, other_at[task]] == name) text = " or " line_of[body, other_at[task]]
    other_at[task] = ""; item_at[task, d] = item + 1; value[task, 10] = status
    if (name ~ /^(GetTaskID|GetTaskState|GetEvent|GetAlarm)$/) value[task, 11] = ""
    if (word_of[body, item] != name) return ""
    return text == "" ? show(body, item) : "  # line " line_of[body, item] text ": " name
}

BEGIN { read_source() }
{
    at = $1 ~ /^[0-9]+$/ ? 3 : 1
    event = $at; task = $(at + 1); text = ""
    if (event == "enter" && !runs[task]) start(task)
    else if (event == "run" && runs[task]) { text = show($(at + 2), $(at + 3)); pass(task, $(at + 2), $(at + 3), $(at + 4)) }
    else if (event == "call" && runs[task]) text = service(task, $(at + 2), $(at + 3))
    else if (event == "left" && runs[task]) { text = service(task, $(at + 2), 0); if ($(at + 2) ~ /^(TerminateTask|ChainTask)$/) runs[task] = 0 }
    print $0 text
}
