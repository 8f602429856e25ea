# What the lines of an answer mean, in the form that editors read: a refusal, what stands behind it, and the other faults of its stage. Names of files
# are in the environment. In docs/refusals.txt a meaning behind words in parentheses is that of statements with these words, or of one of the causes that
# `cause` names.

# A message of a line, or of the whole file.
function say(at, kind, text) { print file (at ? ":" at : "") ": " kind ": " text }

# Cuts a statement into its word and operands.
function cut(text,    i) {
    sub(/\r$/, "", text); sub(/#.*/, "", text); gsub(/^[ \t]+|[ \t]+$/, "", text)
    empty = text == ""; odd = text ~ /[^\t -~]/; shaped = text ~ /^[A-Za-z][A-Za-z0-9_]*([ \t].*)?$/
    word = text; sub(/[^A-Za-z0-9_].*/, "", word); text = substr(text, length(word) + 1)
    count = split(text, operand, ",")
    for (i = 1; i <= count; i++) { gsub(/^[ \t]+|[ \t]+$/, "", operand[i]); if (operand[i] == "") shaped = 0 }
    outer = word ~ /^(data|task|func)$/
    return shaped
}

# The line of the body that is open in front of a line, or 0.
function body_before(at,    i, body) {
    for (i = 1; i < at; i++)
        if (source[i] ~ /^[ \t]*(task|func|end)/ && cut(source[i])) body = word ~ /^(task|func)$/ ? i : word == "end" ? 0 : body
    return body + 0
}

# What is at fault of several things that a code may mean.
function cause(code, at, name, is_first,    i, others, body) {
    if (code == "A1" && is_first) body = body_before(at)
    cut(source[at])
    for (i = 2; i <= count; i++) if (operand[i] == name) others = 1
    if (code == "A1") {
        if (odd) return "byte"
        if (!empty && !shaped) return "shape"
        if (!is_first) return ""
        open = body
        if (!empty && outer != (body == 0)) return body ? "inside" : "outside"
        if (at >= lines && word != "end") { if (word == "task" || word == "func") open = at; if (open) return "end" }
        open = 0
        return ""
    }
    if (code == "A4" && word == "data" && operand[2] ~ /^[0-9]+$/) return operand[2] < 1 || operand[2] > 65535 ? "size" : "bytes"
    if (code == "A6" && is_long()) return "name"
    if (code == "A6" && word ~ /^(task|func)$/ && operand[2] ~ /^[0-9]+$/ && operand[2] > 32) return "frame"
    if (code == "A5" && word == "data") return name == "frame" ? "frame" : "data"
    if (code == "A5" && word == "label" && name != "") return name == operand[1] ? (others ? "label" : "twice") : "GetResource"
    if (code == "A5" && word == "SetEvent" && name != "") return name == operand[1] ? (others ? word : "GetEvent") : "WaitEvent"
    if (code == "A7" && name != "") return word == "task" && name == operand[1] ? "task" : "none"
    if (code == "V2" && name != "") return name == "frame" ? "frame" : "symbol"
    return word
}

# A name among the operands is too long.
function is_long(    i) {
    for (i = 1; i <= count; i++) if (length(operand[i]) > 64 && operand[i] ~ /^[A-Za-z_][A-Za-z0-9_]*$/) return 1
    return 0
}

# What stands there in place of the operands that are wanted.
function found(text,    i, registers, more) {
    registers = text ~ /three registers/ ? 3 : text ~ /two registers/ ? 2 : text ~ /a register/ ? 1 : 0
    for (i = 1; i <= registers && i <= count; i++)
        if (operand[i] !~ /^(x0|x[5-9]|x[12][0-9]|zero|fp|t[0-4]|s[0-9]|s1[01]|a[0-7])$/) more = more ", " operand[i] " is no register of task code"
    if (count > 0 && text ~ / a number$/ && operand[count] !~ /^-?([0-9]+|0x[0-9A-Fa-f]+)$/) more = more ", " operand[count] " is no number"
    return "; here stand" (count == 1 ? "s 1 operand" : " " count " operands") more
}

# Statements that a source may have.
function statements() {
    return "add sub sll slt sltu xor srl sra or and addi slti sltiu xori ori andi slli srli srai lui li mv nop lw lb lh lbu lhu " \
        "sw sb sh beq bne blt bge bltu bgeu j call ret ActivateTask ChainTask GetTaskState GetEvent TerminateTask Schedule " \
        "GetTaskID GetResource ReleaseResource SetEvent SetRelAlarm SetAbsAlarm CancelAlarm GetAlarm " \
        "ClearEvent WaitEvent label end data task func"
}

# What stands at fault in the source, and what would be right there.
function said_of_source(code, at, name, key,    i, kinds, known) {
    cut(source[at])
    if (code == "A1" && key == "byte")
        for (i = 1; i <= length(source[at]); i++) if (substr(source[at], i, 1) ~ /[^\t -~\r]/) return ", here column " i
    if (code == "A1" && key == "shape" && source[at] ~ /\/[\/*]/) return "; a comment begins with #"
    if (code == "A1" && key == "shape") return "; here stands `" trimmed(source[at]) "`"
    if (code == "A1" && key == "inside") return "; here stands " word ", so `end` lacks before it, or it belongs to another place"
    if (code == "A1" && key == "outside") return "; here stands " word
    if (code == "A2" && (code, word) in row) return ": " row[code, word]
    if (code == "A2") {
        known = nearest(word, statements())
        return known == "" ? "; docs/REFERENCE.md, Items, has all of them" : "; is " known " meant?"
    }
    if (code ~ /^A[13]$/ && source[at] ~ /\/[\/*]/) return "; a comment begins with #"
    if (code == "A6" && key == "frame") return "; here stands " operand[2]
    if (code == "A4" && count > 0) return "; here stands " operand[(key == "size" || key == "bytes") && count > 1 ? 2 : count]
    if (code == "A5" && name != "" && name != "frame" && key !~ /^(data|task|func|twice|GetResource)$/ && word != "end") {
        kinds = word == "call" ? "func" : word ~ /^(lw|lb|lh|lbu|lhu|sw|sb|sh)$/ ? "data" : word ~ /^(j|beq|bne|blt|bge|bltu|bgeu)$/ ? "label" : ""
        known = kinds != "" ? names_in_source(kinds, at) : names_of(object_of(name))
        cut(source[at])
        return "; there " list_text(known)
    }
    if (code == "A5" && key == "GetResource") return "; there " list_text(names_of("RESOURCE"))
    if (code == "A7" && key == "none") return "; write `task " name "`, items and `end`"
    if (code == "A7" && key == "task") return "; there " list_text(names_of("TASK"))
    return ""
}

# The kind of object that a service names in an operand.
function object_of(name) {
    if (word ~ /^(ActivateTask|ChainTask|GetTaskState|GetEvent)$/ || word == "SetEvent" && operand[1] == name) return "TASK"
    return word ~ /Alarm$/ ? "ALARM" : word ~ /Resource$/ || word == "label" ? "RESOURCE" : "EVENT"
}
function trimmed(text) { sub(/\r$/, "", text); sub(/#.*/, "", text); gsub(/^[ \t]+|[ \t]+$/, "", text); return text }

# What a label lists, what is held where a way comes to it, and what would be right.
function label_text(name,    text) {
    gsub(/ /, ", ", held); gsub(/ /, ", ", listed)
    text = "the label " name " lists " listed ", and held here " (held == "nothing" ? "is nothing; take" : "is " held "; release")
    return text " what it " (held == "nothing" ? "lists" : "does not list") ", or write `label " name (held == "nothing" ? "" : ", " held) "`"
}

# One fault: its code, the thing, and what would be right; the code's own words where this script finds no more.
function fault(code, at, name, is_first,    key, text, said) {
    key = part == "src" ? cause(code, at, name, is_first) : ""
    hint_key = ""
    if (part == "oil") said = code ~ /^O[1-6]$/ ? said_of_token(code, at) : said_of_meaning(code, at, name)
    if (part == "arr") said = said_of_arrival(code, at)
    if (part == "load") said = said_of_load(code, at)
    text = (code, key) in row ? row[code, key] : row[code]
    if (code == "A2") { name = word; text = row[code] }
    if (code == "A3" && (code, key) in row) text = text found(text)
    if (part == "src") said = said_of_source(code, at, name, key)
    if (said != "" && part != "src") text = said
    else text = text (name != "" && name != "frame" && code != "A2" ? " (" name ")" : code == "A2" ? " (" name ")" : "") said
    if ((code, hint_key) in row && hint_key != "") text = text ". " row[code, hint_key]
    if (code == "V7" && is_first && listed != "") text = label_text(name)
    say(at, "error", (code ~ /^[A-Z]/ ? code " " : "") text)
}

# Lines, with rows of neighbours and long lists made short.
function shortened(    i, j, n, text) {
    for (i = 2; i <= NF; i = j + 1) { for (j = i; j < NF && $(j + 1) == $j + 1; j++); part_of[++n] = $i (j > i ? "-" $j : "") }
    for (i = 1; i <= n; i++) { if (n > 24 && i == 13) { text = text " .."; i = n - 11 } text = text " " part_of[i] }
    return text
}

function keep(at, text) { notes++; note_line[notes] = at; note[notes] = text }
function list() { return $2 == "-" ? "nothing" : substr($0, length($1) + 2) }

BEGIN {
    while ((getline text < ENVIRON["MEANINGS"]) > 0) {
        head = text; sub(/ .*/, "", head); code_of_row = head; sub(/\(.*/, "", code_of_row)
        meaning = substr(text, length(head) + 2)
        if (head == code_of_row) { row[head] = meaning; continue }
        n = split(substr(head, length(code_of_row) + 2, length(head) - length(code_of_row) - 2), keys, ",")
        for (i = 1; i <= n; i++) row[code_of_row, keys[i]] = meaning
    }
}
NR == 1 && $1 == "refused" { part = $2; line = $3; code = $4; file = ENVIRON[toupper(part)] }
NR == 1 && part != "" && ENVIRON["OIL"] != "" {
    read_attributes(ENVIRON["ATTRIBUTES"])
    read_tokens(ENVIRON["OIL"])
    parse_oil()
}
NR == 1 && part == "src" { while ((getline text < file) > 0) source[++lines] = text }
NR == 1 && /^not an / { file = ENVIRON["IMAGE"]; code = $4 }
NR == 1 && /^no (time|holds)/ { file = ENVIRON[$2 == "time" ? "TRACE" : "SRC"]; code = $2; exit }
NR == 1 && /^no [0-9]/ { file = ENVIRON["TRACE"]; line = $2; code = $3; exit }
$1 == "name" { name = $2 }
$1 == "first" { keep($2, "the earlier one") }
$1 == "from" { from = " from the label " $3 " of line " $2 }
$1 == "way" && $2 != "-" && (NF > 2 || $2 != line) { keep($NF, "the way here" from ": line" (NF > 2 ? "s" : "") shortened()) }
$1 == "behind" { keep($2, "the item in front never goes on") }
$1 == "holds" { held = list(); if (code != "V7") keep(line, "held here: " held) }
$1 == "lists" { listed = list() }
$1 == "wants" { keep(line, $2 " was taken last, so it has to be released first") }
$1 == "task" { task = $2 }
$1 == "bytes" || $1 == "words" { keep(line, "the " ($1 == "bytes" ? "symbol" : "frame") " has " $2 " " ($2 == 1 ? substr($1, 1, 4) : $1)) }
$1 == "calls" { calls = substr($0, 7); gsub(/ [0-9]+/, " (line&)", calls); keep($NF, "the calls: " calls) }
$1 == "among" && $2 != "more" && !($2 == line && $3 == code && $4 == name) {
    others++
    other_line[others] = $2; other_code[others] = $3; other_name[others] = $4
}
END {
    if (code == "") exit
    if (task != "" && name == "") name = task
    else if (task != "") keep(line, "the task " task " does not list it")
    fault(code, line, name, 1)
    if (code == "O6") for (i = depth; i > 0; i--) say(open_line[i], "note", "the block of " open_name[i] " is open")
    if (open) say(open, "note", "this body has no `end` yet")
    for (i = 1; i <= notes; i++) say(note_line[i], "note", note[i])
    most = ENVIRON["MOST"] != "" ? ENVIRON["MOST"] : 20
    for (i = 1; i <= others && i <= most; i++) fault(other_code[i], other_line[i], other_name[i], 0)
    if (others > most) print "sloth: and more: ./sloth why " ENVIRON["OIL"] " " ENVIRON["SRC"]
}
