# Parts of a report, as HTML. What is printed stands in PART; each part reads lines of an answer of the program, or of a text. No figure is made here.
# It follows oil.awk. WORDS is report.words, which says what words of answers mean, and TEXTS is report.texts, the paragraphs between tables.

function safe(text) { gsub(/&/, "\\&amp;", text); gsub(/</, "\\&lt;", text); gsub(/>/, "\\&gt;", text); return text }
function cell(text, class) { return "<td" (class != "" ? " class=\"" class "\"" : "") ">" safe(text) "</td>" }
# The head of a table; names of columns of numbers begin with #.
function head(names,    parts, n, i, text) {
    n = split(names, parts, "|")
    for (i = 1; i <= n; i++) text = text (sub(/^#/, "", parts[i]) ? "<th class=\"number\">" : "<th>") parts[i] "</th>"
    print "<table>\n<thead><tr>" text "</tr></thead>\n<tbody>"
    open_table = 1
}
function close_table() { if (open_table) print "</tbody></table>"; open_table = 0 }
function row(text) { print "<tr>" text "</tr>" }
function rest(from,    i, text) { for (i = from; i <= NF; i++) text = text (i > from ? " " : "") $i; return text }
# A cell of a column of numbers, where a word may stand in the place of one.
function number(text) { return cell(text, "number") }
function joined(text, more) { return text (text == "" ? "" : ", ") more }

# What a word of an answer means, of those of a kind.
function read_words(    text, n, words) {
    while ((getline text < ENVIRON["WORDS"]) > 0) {
        n = split(text, words, " ")
        if (n > 2) meaning[words[1], words[2]] = substr(text, length(words[1] words[2]) + 3)
    }
}
# Notes that a word was printed, whose meaning stands below the table then.
function use_word(word) { if (!(word in is_used) && ("said", word) in meaning) { is_used[word] = 1; used_word[++used_words] = word } }
function tell_words(    i, word) {
    if (used_words) print "<dl>"
    for (i = 1; i <= used_words; i++) { word = used_word[i]; gsub(/-/, " ", word); print "<dt>" word "</dt><dd>" meaning["said", used_word[i]] ".</dd>" }
    if (used_words) print "</dl>"
}
# The comments by which the source says that symbols are meant to be open: their lines, and what they say (warnings.awk asks for them too).
function read_waivers(    i, at, text, said, words) {
    read_source()
    for (i = 1; i <= lines; i++) {
        text = source[i]
        if (match(text, /#[ \t]*open([ \t:,.]|$)/)) { at = i; said = substr(text, RSTART) }
        else if (text ~ /^[ \t]*#/ || text !~ /^[ \t]*data/) at = 0
        sub(/^[ \t]+/, "", text)
        if (at && split(text, words, /[ \t,]+/) > 1 && words[1] == "data") waiver[words[2]] = "line " at " of the source: " said
    }
}
function read_source(    text) { while ((getline text < ENVIRON["SRC"]) > 0) { sub(/\r$/, "", text); source[++lines] = text } }

# Prints a paragraph by its key, and before it its heading, if it has one. @NAME@ becomes SAY_NAME of the environment, and words between ` are code.
function tell_paragraph(key,    text, on, name, body) {
    while ((getline text < ENVIRON["TEXTS"]) > 0) {
        if (text ~ /^= /) {
            on = text == "= " key || index(text, "= " key " ") == 1
            if (on && length(text) > length(key) + 3) print "<h2>" safe(substr(text, length(key) + 4)) "</h2>"
        } else if (on) body = body (body == "" ? "" : "\n") text
    }
    body = safe(body)
    while (match(body, /@[A-Z]+@/)) {
        name = substr(body, RSTART + 1, RLENGTH - 2)
        body = substr(body, 1, RSTART - 1) safe(ENVIRON["SAY_" name]) substr(body, RSTART + RLENGTH)
    }
    while (sub(/`/, "<code>", body)) sub(/`/, "</code>", body)
    print "<p>" body "</p>"
}

# The attributes of an object, or of an attribute's block, as the configuration has them.
function value(owner, place, name,    i, text) {
    for (i = 1; i <= attributes; i++)
        if (attribute_owner[i] == owner && attribute_place[i] == place && attribute_name[i] == name) text = joined(text, attribute_value[i])
    return text
}
function block(owner, place,    i, text) {
    for (i = 1; i <= attributes; i++)
        if (attribute_owner[i] == owner && attribute_place[i] == place) text = joined(text, attribute_name[i] " " attribute_value[i])
    return text
}
# What makes a task Ready, as far as the configuration tells.
function alarms_of(task,    i, text) {
    for (i = 1; i <= objects; i++)
        if (object_kind[i] == "ALARM" && value(i, "ALARM/ACTION=" value(i, "ALARM", "ACTION"), "TASK") == task) text = joined(text, object_name[i])
    return text == "" ? "none" : text
}
function users_of(kind, name,    i, text) {
    for (i = 1; i <= objects; i++)
        if (object_kind[i] == "TASK" && index(", " value(i, "TASK", kind) ", ", ", " name ", ")) text = joined(text, object_name[i])
    return text == "" ? "none" : text
}
function or_none(text) { return text == "" ? "none" : text }
function tell_task(i,    events) {
    events = value(i, "TASK", "EVENT")
    row(cell(object_name[i]) number(value(i, "TASK", "PRIORITY")) cell(value(i, "TASK", "SCHEDULE")) \
        cell(events == "" ? "basic" : "extended") cell(value(i, "TASK", "AUTOSTART")) cell(alarms_of(object_name[i])) \
        cell(or_none(value(i, "TASK", "RESOURCE"))) cell(or_none(events)))
}
function object_text(i,    kind, text) {
    kind = object_kind[i]
    if (kind == "COUNTER") return block(i, kind)
    if (kind != "ALARM") return "of tasks " users_of(kind, object_name[i])
    text = "of counter " value(i, kind, "COUNTER") ", " value(i, kind, "ACTION") ": " block(i, "ALARM/ACTION=" value(i, kind, "ACTION"))
    return text (value(i, kind, "AUTOSTART") == "TRUE" ? ", starts with the system: " block(i, "ALARM/AUTOSTART=TRUE") : "")
}
function tell_objects(    i) {
    head("Task|#Priority|Schedule|Kind|Autostart|Alarms that activate it or set its events|Resources|Events")
    for (i = 1; i <= objects; i++) if (object_kind[i] == "TASK") tell_task(i)
    close_table()
    for (i = 1; i <= objects; i++) if (object_kind[i] ~ /^(RESOURCE|EVENT|COUNTER|ALARM)$/) {
        if (!open_table) head("Object|Name|What the configuration says")
        row(cell(tolower(object_kind[i])) cell(object_name[i]) cell(object_text(i)))
    }
}

BEGIN {
    part = ENVIRON["PART"]
    read_words()
    if (part == "paragraph") { tell_paragraph(ENVIRON["MARK"]); exit }
    if (part == "objects") { read_tokens(ENVIRON["OIL"]); parse_oil(); tell_objects() }
    if (part ~ /^(shares|waived)$/) read_waivers()
    if (part == "shares") head("Symbol|Verdict|Means")
    if (part == "unused") head("Kind|Name|What is so")
    if (part == "losses") head("Task or counter|#Activations or ticks|#Taken|#Lost|#First lost at")
    if (part == "map") head("Address|#Bytes|Part|What stands there")
    if (part == "need") head("Task|#Stack in bytes, at most")
    if (part == "sums") head("What|#Bytes")
    if (part == "files") head("File|#Bytes|SHA-256")
    if (part == "load") head("Line|Means")
    if (part == "said") head("Place|Kind|What is wrong, and what would be right")
    if (part == "filled") { head("#Line|In the source|As the rules want it"); read_source() }
    if (part == "text") print "<pre class=\"source\">"
    if (part == "lines") print "<pre>"
}
# (a line's end stands inside its block, so that the text is whole where it is copied)
part == "text" { printf "<span%s><i>%4d</i>  %s\n</span>", index(" " ENVIRON["MARK"] " ", " " NR " ") ? " class=\"bad\"" : "", NR, safe($0) }
part == "lines" { print safe($0) }
part == "shares" {
    means = $2 == "open" ? $3 " may be preempted at line " $4 " by " $5 ", which does line " $6 "; one of the two stores" : meaning["share", $2] " " rest(3)
    if ($2 == "open") opens = 1
    row(cell($1) ($2 != "open" ? cell($2) : index(ENVIRON["MARK"], " " $1 " ") ? cell("open, waived by " waiver[$1]) : cell($2, "bad")) cell(means))
}
# The symbols that are open and meant to be, for the first lines.
part == "waived" && $2 == "open" && index(ENVIRON["MARK"], " " $1 " ") { waived = joined(waived, $1 " (" waiver[$1] ")") }
part == "unused" { row(cell($1) cell($2) cell(meaning["use", $1] ($1 == "function" ? " " $3 : ""))) }
part == "losses" {
    if (!($4 > 0)) $5 = "-"
    row(cell($1) number($2) number($3) ($4 > 0 ? "<td class=\"number bad\">" safe($4) "</td>" : number($4)) number($5))
}
part == "map" && $1 ~ /^8[0-9a-f]+$/ { row("<td><code>" safe($1) "</code></td>" number($2) cell(rest(3)) cell(meaning["map", $3])) }
part == "need" && $1 == "need" { row(cell($2) number($3)) }
part == "sums" && $1 ~ /^(code|data|stacks|between|sum)$/ && NF < 4 {
    what = $1 == "code" ? "code, read-only" : $1 == "data" ? "data: service words, symbols and the word after them" : $1 == "sum" ? "all" : $1
    row(cell(what ($1 == "between" ? ": unused, before stacks" : "")) number($2))
}
part == "files" { row(cell(rest(3)) number($2) "<td><code>" safe($1) "</code></td>") }
part == "load" && $1 ~ /^(every|work|deadline)$/ {
    means = "the response of " $2 " is wanted within " $3 " instructions"
    if ($1 == "every") means = "two arrivals of " $2 " are at least " $3 " instructions apart"
    if ($1 == "work") means = "a round of " $2 " takes at most " $3 " instructions of its own"
    row("<td><code>" safe($0) "</code></td>" cell(means))
}
# A message in the form that editors read: the file without its folder, the line, the kind and the words.
part == "said" && match($0, /:( (error|note):|[0-9]+(:[0-9]+)?: (error|note):)/) {
    place = substr($0, 1, RSTART - 1); text = substr($0, RSTART + 1); sub(/.*\//, "", place)
    if (match(text, /^[0-9]+/)) place = place ", line " substr(text, 1, RLENGTH)
    sub(/^[0-9:]*/, "", text)
    kind = text ~ /^ *error/ ? "fault" : "note"; sub(/^ *(error|note): /, "", text)
    row(cell(place, "place") cell(kind, kind == "fault" ? "bad" : "") cell(text))
}
# The lines of labels whose lists differ from those that `infer` fills in.
function statement_text(text) { sub(/#.*/, "", text); gsub(/[ \t]+/, " ", text); gsub(/^ | $/, "", text); gsub(/ ?, ?/, ", ", text); return text }
part == "filled" && statement_text($0) != statement_text(source[NR]) { row(number(NR) cell(statement_text(source[NR])) cell(statement_text($0))) }
END {
    if (part == "text" || part == "lines") print "</pre>"
    if (part == "waived") print waived
    if (!is_of_times) close_table()
    if (opens) print "<p>Of an open symbol the first pair is told, by line and task. There may be more.</p>"
}
