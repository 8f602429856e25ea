# An OIL text as its readers see it: tokens, the grammar, and the objects with their attributes. It serves what is said of a refusal
# and nothing else: which text is refused, and with which code, the program alone says.

# Reads the tokens: token, token_line and token_kind, 1 to tokens. An odd one is of kind `byte`, `comment` (not closed) or `string` without its end.
function read_tokens(file,    text, at_line, inside, i) {
    tokens = 0
    while ((getline text < file) > 0) {
        at_line++
        while (text != "") {
            if (inside) {
                i = index(text, "*/")
                text = i ? substr(text, i + 2) : ""
                inside = i ? 0 : inside
            } else if (match(text, /^[ \t\r]+/) || match(text, /^\/\/.*/)) text = substr(text, RLENGTH + 1)
            else if (substr(text, 1, 2) == "/*") { inside = at_line; text = substr(text, 3) }
            else if (match(text, /^[A-Za-z_][A-Za-z0-9_]*/)) text = keep_token(text, at_line, "word")
            else if (match(text, /^0[xX][0-9A-Fa-f]+/) || match(text, /^[0-9]+/)) text = keep_token(text, at_line, "number")
            else if (match(text, /^"[^"]*"/)) text = keep_token(text, at_line, "string")
            else if (match(text, /^".*/)) text = keep_token(text, at_line, "open")
            else if (match(text, /^[{}=;:,.()<>+*\/\[\]-]/)) text = keep_token(text, at_line, "sign")
            else { match(text, /^./); text = keep_token(text, at_line, "byte") }
        }
    }
    close(file)
    comment_line = inside + 0
}

function keep_token(text, at_line, kind) {
    tokens++
    token[tokens] = substr(text, 1, RLENGTH); token_line[tokens] = at_line; token_kind[tokens] = kind
    return substr(text, RLENGTH + 1)
}

# Parses the tokens; where the grammar does not take one, odd_token is its number and odd_wants what is wanted there.
function parse_oil() {
    spot = 1; odd_token = 0; depth = 0; objects = 0; attributes = 0
    if (want("OIL_VERSION", "") && want("=", "") && want_kind("string", "a string, \"2.5\"") && close_statement() && parse_implementation() &&
        want("CPU", "") && want_kind("word", "a name") && want("{", "") && parse_objects() && want("}", "an object (TASK, RESOURCE, ..) or `}`"))
        if (close_statement() && spot <= tokens) refuse_token("nothing more")
}
function refuse_token(text) { if (!odd_token) { odd_token = spot; odd_wants = text } return 0 }
function want(text, instead) {
    if (token[spot] != text || spot > tokens || token_kind[spot] == "string") return refuse_token(instead != "" ? instead : "`" text "`")
    if (text == "{") { depth++; open_line[depth] = token_line[spot]; open_name[depth] = token[spot - 1] }
    if (text == "}") depth--
    spot++
    return 1
}
function want_kind(kind, text) {
    if (spot > tokens || token_kind[spot] != kind) return refuse_token(text)
    spot++
    return 1
}
function is_next(text) { return spot <= tokens && token[spot] == text && token_kind[spot] != "string" }
function close_statement(    more) {
    if (is_next(":")) { spot++; if (!want_kind("string", "a string, the description")) return 0 } else more = 1
    return want(";", more && token[spot - 1] == "}" ? "`;` (each closing `}` has one after it)" : "`;`")
}
function parse_implementation(    open) {
    if (!is_next("IMPLEMENTATION")) return 1
    spot++
    if (!want_kind("word", "a name") || !want("{", "")) return 0
    for (open = 1; open && spot <= tokens; spot++) open += token[spot] == "{" ? 1 : token[spot] == "}" ? -1 : 0
    if (open) return refuse_token("`}`")
    depth--
    return close_statement()
}
function parse_objects() {
    while (!is_next("}")) {
        if (!want_kind("word", "an object (TASK, RESOURCE, EVENT, COUNTER, ALARM, OS, APPMODE) or `}`")) return 0
        objects++
        object_kind[objects] = token[spot - 1]; object_line[objects] = token_line[spot - 1]; object_name[objects] = token[spot]
        if (!want_kind("word", "the name of the object")) return 0
        if (is_next("{")) { want("{", ""); if (!parse_attributes(objects, object_kind[objects]) || !want("}", "an attribute or `}`")) return 0 }
        else if (!is_next(";") && !is_next(":")) return refuse_token("`{` or `;`")
        if (!close_statement()) return 0
    }
    return 1
}
function parse_attributes(owner, place,    mine) {
    while (!is_next("}")) {
        if (!want_kind("word", "an attribute or `}`") || !want("=", "")) return 0
        mine = ++attributes
        attribute_name[mine] = token[spot - 2]; attribute_line[mine] = token_line[spot - 2]
        attribute_place[mine] = place; attribute_owner[mine] = owner
        if (spot > tokens || token_kind[spot] !~ /^(word|number|string)$/) return refuse_token("a value: a word, a number or a string")
        attribute_value[mine] = token[spot++]
        if (is_next("{")) {
            want("{", "")
            if (!parse_attributes(owner, block_place(mine)) || !want("}", "an attribute or `}`")) return 0
        }
        if (!close_statement()) return 0
    }
    return 1
}

# The place of the attributes in the block of an attribute.
function block_place(i) { return attribute_place[i] "/" attribute_name[i] "=" attribute_value[i] }

# The names of the objects of kinds, as a list for a reader.
function names_of(kinds,    i, text, n) {
    for (i = 1; i <= objects; i++)
        if (index(" " kinds " ", " " object_kind[i] " ") && ++n <= 12) text = text (text == "" ? "" : ", ") object_name[i]
    return n > 12 ? text ", .." : text == "" ? "none" : text
}

# What is said of a token or of the end of the text: what stands there and what would be right.
function said_of_token(code, at,    i) {
    if (code == "O1") {
        for (i = 1; i <= tokens; i++)
            if (token_line[i] == at && token_kind[i] == "byte") return byte_text(token[i]) " begins no token; a comment begins with //"
    }
    if (code == "O4") {
        for (i = 1; i <= tokens; i++) if (token_line[i] == at && is_great(token[i])) return token[i] " is above 4294967295"
    }
    if (code == "O3") return "a `\"` is wanted in this line; the string is " (string_at(at))
    if (code == "O5" && odd_token && odd_token <= tokens && token_line[odd_token] == at)
        return "here stands `" token[odd_token] "`; wanted is " odd_wants last_token(odd_token, at)
    if (code == "O6" && odd_token > tokens) return "wanted is " odd_wants " at the end" last_token(odd_token, at)
    return ""
}
function byte_text(it) { return it ~ /[!-~]/ ? "`" it "`" : "a byte that is not ASCII" }
function is_great(it) {
    if (it ~ /^[0-9]+$/) return it + 0 > 4294967295
    return it ~ /^0[xX]/ && sub(/^0[xX]0*/, "", it) && length(it) > 8
}
function string_at(at,    i) {
    for (i = 1; i <= tokens; i++) if (token_line[i] == at && token_kind[i] == "open") return token[i]
    return "not closed"
}
function last_token(i, at,    from) {
    if (i < 2) return ""
    from = token_line[i - 1] != at ? " of line " token_line[i - 1] : ""
    return ", after " (i > 3 && token[i - 2] == "=" ? "`" token[i - 3] " = " token[i - 1] "`" : "`" token[i - 1] "`") from
}

# The rows of docs/attributes.txt: what each place may hold. A place is a kind of object, or with the attribute and value whose block it is.
function read_attributes(file,    text, words) {
    while ((getline text < file) > 0) {
        if (split(text, words, " ") < 3) continue
        allowed[words[1], words[2]] = words[3]
        meaning_of[words[1], words[2]] = substr(text, length(words[1] words[2] words[3]) + 4)
        attributes_of[words[1]] = attributes_of[words[1]] (attributes_of[words[1]] == "" ? "" : ", ") words[2]
        if (words[3] ~ /!$/) required[words[1]] = required[words[1]] " " words[2]
    }
}

# Whether a value is one that the row of its attribute has.
function is_allowed(i,    row_text, limits, value) {
    row_text = allowed[attribute_place[i], attribute_name[i]]; sub(/!$/, "", row_text); value = attribute_value[i]
    if (row_text == "any") return 1
    if (row_text ~ /^[0-9]+-[0-9]+$/) {
        split(row_text, limits, "-")
        return value ~ /^0[xX]/ || value ~ /^[0-9]+$/ && value + 0 >= limits[1] + 0 && value + 0 <= limits[2] + 0
    }
    return index("," row_text ",", "," value ",") > 0
}

# What is said of an object or attribute that is refused: the thing, and what would be right. Sets hint_key to its word.
function said_of_meaning(code, at, name,    i, j, parts, n, known) {
    for (i = 1; i <= objects; i++) {
        if (object_line[i] != at) continue
        if (code == "O7" && !(object_kind[i] in attributes_of) && (name == "" || name == object_kind[i])) {
            hint_key = object_kind[i]
            return object_kind[i] " is no kind of object here; the kinds are OS, APPMODE, TASK, RESOURCE, EVENT, COUNTER, ALARM"
        }
        if (code == "O11") {
            n = split(required[object_kind[i]], parts, " ")
            for (j = 1; j <= n; j++)
                if (!has_attribute(i, parts[j])) return missing(object_kind[i], parts[j], object_kind[i] " " object_name[i])
        }
        if (code == "O12" && object_kind[i] == "APPMODE" && object_name[i] != "OSDEFAULTAPPMODE") {
            hint_key = "APPMODE"
            return "APPMODE " object_name[i] ": the name OSDEFAULTAPPMODE alone is allowed"
        }
    }
    for (i = 1; i <= attributes; i++) {
        if (code == "O11" && object_line[attribute_owner[i]] == at) {
            n = split(required[block_place(i)], parts, " ")
            for (j = 1; j <= n; j++)
                if (!block_has(i, parts[j])) return missing(block_place(i), parts[j], attribute_name[i] " = " attribute_value[i])
        }
        if (attribute_line[i] != at) continue
        if (code == "O8" && !((attribute_place[i], attribute_name[i]) in allowed) && (name == "" || name == attribute_name[i])) {
            hint_key = attribute_name[i]
            known = attributes_of[attribute_place[i]]
            return attribute_name[i] " is no attribute of " place_name(i) (known == "" ? "; none is" : "; these are: " known)
        }
        if (code == "O12" && (attribute_place[i], attribute_name[i]) in allowed && !is_allowed(i)) {
            hint_key = attribute_name[i]
            return attribute_name[i] " = " attribute_value[i] ": wanted is " meaning_of[attribute_place[i], attribute_name[i]]
        }
        if (code == "O10" && reference_kind(i) != "" && !is_named(reference_kind(i), attribute_value[i]))
            return attribute_name[i] " = " attribute_value[i] ": there is no " reference_kind(i) " of this name; there " \
                list_text(names_of(reference_kind(i)))
        if (code == "O13" && attribute_name[i] == "PRIORITY" && attribute_place[i] == "TASK")
            for (j = 1; j < i; j++)
                if (attribute_name[j] == "PRIORITY" && attribute_value[j] == attribute_value[i])
                    return "TASK " object_name[attribute_owner[j]] " has the priority " attribute_value[i] " already; give " \
                        object_name[attribute_owner[i]] " one of its own"
    }
    if (code == "O9") return said_of_second(at)
    if (code == "O11" && names_of("OS") == "none") return "there is no OS object; wanted is OS NAME { STATUS = EXTENDED; };"
    for (i = 1; code == "O12" && i <= attributes; i++)
        if (attribute_line[i] == at && attribute_name[i] ~ /^(ALARMTIME|CYCLETIME|MASK)$/)
            return attribute_name[i] " = " attribute_value[i] ": wanted is " meaning_of[attribute_place[i], attribute_name[i]]
    return ""
}
# A second object or attribute of a name.
function said_of_second(at,    i, j) {
    for (i = 1; i <= objects; i++) {
        if (object_line[i] != at) continue
        if (object_kind[i] == "RESOURCE" && object_name[i] == "RES_SCHEDULER")
            return "RES_SCHEDULER is there without an object; leave it out, or set USERESSCHEDULER = FALSE"
        for (j = 1; j < i; j++) {
            if (object_kind[i] == "OS" && object_kind[j] == "OS") return "a second OS object; the first stands on line " object_line[j]
            if (object_name[j] != object_name[i]) continue
            if (object_kind[j] == object_kind[i])
                return "a second " object_kind[i] " " object_name[i] "; the first stands on line " object_line[j] \
                    ", so give one of them another name"
            if (object_kind[j] object_kind[i] ~ /^(TASKCOUNTER|COUNTERTASK)$/)
                return object_kind[i] " " object_name[i] " has the name of the " object_kind[j] " of line " object_line[j] \
                    "; arrivals tell them by name, so give it another one"
        }
    }
    for (i = 1; i <= attributes; i++)
        for (j = 1; attribute_line[i] == at && j < i; j++)
            if (attribute_owner[j] == attribute_owner[i] && attribute_place[j] == attribute_place[i] &&
                attribute_name[j] == attribute_name[i] && attribute_name[i] !~ /^(RESOURCE|EVENT|APPMODE)$/)
                return "a second " attribute_name[i] "; the first stands on line " attribute_line[j] ", so leave one out"
    return ""
}
function list_text(names) { return names == "none" ? "is none" : names ~ /,/ ? "are: " names : "is: " names }
function place_name(i,    text) {
    text = attribute_place[i]
    sub(/.*\//, "", text)
    sub(/=/, " = ", text)
    return text ~ / = / ? "the block of " text : "a" (text ~ /^[AEIO]/ ? "n " : " ") text
}
function missing(place, name, owner) { hint_key = name; return owner " has no " name "; wanted is " name " = " meaning_of[place, name] }
function has_attribute(i, name,    j) {
    for (j = 1; j <= attributes; j++)
        if (attribute_owner[j] == i && attribute_place[j] == object_kind[i] && attribute_name[j] == name) return 1
    return 0
}
function block_has(i, name,    j) {
    for (j = 1; j <= attributes; j++)
        if (attribute_owner[j] == attribute_owner[i] && attribute_place[j] == block_place(i) && attribute_name[j] == name) return 1
    return 0
}
function reference_kind(i) {
    if (attribute_name[i] == "APPMODE") return "APPMODE"
    return attribute_name[i] ~ /^(RESOURCE|EVENT|COUNTER|TASK)$/ ? attribute_name[i] : ""
}
function is_named(kind, name,    i) {
    if (kind == "APPMODE" && name == "OSDEFAULTAPPMODE" || kind == "RESOURCE" && name == "RES_SCHEDULER") return 1
    for (i = 1; i <= objects; i++) if (object_kind[i] == kind && object_name[i] == name) return 1
    return 0
}
