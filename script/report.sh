# `report APP`: one HTML file of the program's own answers, for a reviewer.

# Prints a part of the report, made of the lines on standard input.
part() {
    PART=$1 MARK=${2:-} OIL=$oil SRC=$src LOAD=$load UNUSED=$made/unused COUNTS=$made/counts WORDS=$root/script/report.words \
        TEXTS=$root/script/report.texts SAY_APP=$app SAY_N=$number SAY_ARRIVALS=$arrivals SAY_REACH=$reach SAY_FROM=$from SAY_TO=$to SAY_ARR=${arr##*/} SAY_C=${base##*/}.c \
        SAY_PART=$((to > 1200 ? to - 1200 : 0)) LC_ALL=C \
        awk -f "$root/script/oil.awk" -f "$root/script/report.awk" -f "$root/script/report_times.awk"
}

# Prints a paragraph of report.texts, with its heading where it begins a section.
paragraph() {
    part paragraph "$1" </dev/null
}

# A row of the first lines: a heading, what is said, and `bad` where it is a warning.
verdict() {
    printf '<tr><th>%s</th><td%s>%s</td></tr>\n' "$1" "${3:+ class=\"$3\"}" "$(printf '%s' "$2" | sed 's/&/\&amp;/g; s/</\&lt;/g; s/>/\&gt;/g')"
}

# Keeps an answer of the program in a file, and its status.
keep() {
    kept_in=$made/$1
    shift
    answer "$@" >"$kept_in" 2>/dev/null
    status=$?
}

# The same of an answer without which there is no report.
keep_all() {
    keep "$@"
    [ "$status" = 0 ] || { cat "$kept_in"; exit "$status"; }
}

# Says what stands behind a refusal, all its faults among it; of the source in C, if there is one.
keep_said() {
    MOST=1000 tell 2>"$made/said" <"$made/$1"
    [ -z "$source" ] || { (made=$src && tell_lines) <"$made/said" >"$made/told" && mv "$made/told" "$made/said"; }
}

# What is said where the load or the arrivals are refused, or an answer failed.
tell_failure() {
    paragraph "$1"
    if [ -s "$made/said" ]; then part said <"$made/said"; else part lines <"$2"; fi
}

tell_head() {
    title=$(printf '%s' "${base##*/}" | sed 's/[&<>]/_/g')
    sed "s/@TITLE@/$title/g" "$root/script/report.html"
}

# What the first lines say of shared data.
tell_shares_verdict() {
    if [ -n "$open" ]; then
        names=$(awk -v meant="$meant" '$2 == "open" && !index(meant, " " $1 " ") { text = text (text == "" ? "" : ", ") $1 } END { print text }' "$made/shares")
        verdict 'Shared data' "open: $names. A task may be preempted while it uses this, by another that uses it too" bad
    fi
    case $open$meant in
    *[!\ ]*) ;;
    *) verdict 'Shared data' 'each symbol is kept apart, or used by one task alone' ;;
    esac
    case $meant in
    *[!\ ]*) verdict 'Shared data, waived' "open, and the source says that it is meant to be: $(part waived "$meant" <"$made/shares")" ;;
    esac
}

# What the first lines say of the load, and of the run.
tell_run_verdict() {
    if [ "$lost" != 0 ]; then
        verdict 'The run' 'it could not be made: see the run' bad
        return
    fi
    case $beside in
    0) verdict 'The load' 'the run keeps it' ;;
    12) verdict 'The load' "the run does not keep it: $(part off_load <"$made/beside"). What holds if a run keeps the load is not said of this run" bad ;;
    esac
    if awk '$4 > 0 { found = 1 } END { exit !found }' "$made/losses"; then
        verdict 'The run' "$arrivals: activations or ticks were lost, see the run" bad
    else
        verdict 'The run' "$arrivals: no activation and no tick was lost, which says nothing of other runs"
    fi
}

# The first lines: what a reviewer asks first.
tell_verdict() {
    paragraph machine
    echo '<table class="verdict"><tbody>'
    [ -z "$trying" ] || verdict 'The program' 'nothing of it is proved: this report was made with --try' bad
    if [ -n "$refusal" ]; then
        verdict 'Configuration and task code' "refused: $refusal. There is no image, and nothing else to report" bad
    else
        verdict 'Configuration and task code' 'accepted: they break no rule'
        case $deadlines in
        0 | 12) part verdict <"$made/response" ;;
        none) verdict 'Deadlines, activations and ticks' "not judged: there is no ${load##*/}" ;;
        *) verdict 'Deadlines, activations and ticks' 'not judged: the load is refused, see worst-case response times' bad ;;
        esac
        tell_shares_verdict
        tell_run_verdict
    fi
    echo '</tbody></table>'
}

tell_times() {
    paragraph times
    case $deadlines in
    none) paragraph times.none; return ;;
    0 | 12) ;;
    *) tell_failure times.failed "$made/response"; return ;;
    esac
    part load <"$load"
    part response <"$made/response"
    paragraph times.activations
    part ticks <"$made/response" >"$made/ticks"
    [ ! -s "$made/ticks" ] || { paragraph times.ticks; cat "$made/ticks"; }
    paragraph times.parts
    for it in $(part tasks <"$made/response"); do
        answer response "$oil" "$src" "$load" "$it" >"$made/one" 2>/dev/null
        part window <"$made/one"
    done
}

tell_blocking() {
    paragraph blocking
    part bounds <"$made/bounds"
    paragraph blocking.which
    for it in $(awk '$2 != 0 && $2 != 1 && $2 != "huge" { print $1 }' "$made/bounds"); do
        answer why "$oil" "$src" "$it" >"$made/one" 2>/dev/null && part way <"$made/one"
    done
    paragraph latency
    part latency <"$made/latency"
    paragraph latency.response
}

tell_unused() {
    paragraph unused
    if [ -s "$made/unused" ]; then part unused <"$made/unused"; else paragraph unused.none; fi
}

tell_memory() {
    paragraph memory
    part sums <"$made/map"
    paragraph memory.file
    part need <"$made/map"
    part map <"$made/map"
}

tell_run() {
    paragraph run
    [ "$lost" = 0 ] || { tell_failure run.failed "$made/losses"; return; }
    case $beside in
    0 | 12) paragraph "run.load.$beside" && part beside <"$made/beside" ;;
    esac
    part losses <"$made/losses"
    paragraph run.losses
    [ ! -s "$made/picture" ] || { paragraph run.picture; cat "$made/picture"; }
}

# The lines at fault in one of the texts, of the refusal and of all faults like it.
marks_of() {
    case $refusal in
    "$1 "*) sed -n "1s/^refused [a-z]* \([0-9]*\) .*/\1/p; s/^among \([0-9]*\) .*/\1/p" "$made/why" "$made/more" | tr '\n' ' ' ;;
    esac
}

# The lines of the source in C from which lines at fault come, by the table beside the translation.
marks_in_c() {
    for it in $(marks_of src); do
        sed -n "s/^$it .*${source##*/}:\([0-9]*\):[0-9]*\$/\1/p" "$src.map"
    done | tr '\n' ' '
}

# The line at fault in arrivals or a load that an answer refuses.
mark_in() {
    sed -n "1s/^refused $1 \([0-9]*\) .*/\1/p" "$2" 2>/dev/null
}

tell_texts() {
    printf '<h3>%s</h3>\n' "${oil##*/}"
    part text "$(marks_of oil)" <"$oil"
    [ -z "$source" ] || { printf '<h3>%s</h3>\n' "${source##*/}"; part text "$(marks_in_c)" <"$source"; }
    printf '<h3>%s</h3>\n' "${src##*/}"
    part text "$(marks_of src)" <"$src"
    [ ! -f "$arr" ] || {
        printf '<h3>%s</h3>\n' "${arr##*/}"
        sed '200q' "$arr" | part text "$(mark_in arr "$made/losses")"
        [ "$(wc -l <"$arr")" -le 200 ] || paragraph inputs.more
    }
    [ ! -f "$load" ] || { printf '<h3>%s</h3>\n' "${load##*/}"; part text "$(mark_in load "$made/response")" <"$load"; }
}

tell_inputs() {
    paragraph inputs
    for it in "$oil" ${source:+"$source"} "$src" "$arr" "$load" ${refusal:-"$made/image"}; do
        [ ! -f "$it" ] || {
            shown=$(basename -- "$it")
            [ "$it" != "$made/image" ] || shown='the image file'
            printf '%s %s %s\n' "$(sha256sum <"$it" | cut -d ' ' -f 1)" "$(wc -c <"$it")" "$shown"
        }
    done | part files
    [ -n "$source" ] || [ ! -e "$base.c" ] || paragraph inputs.c
    {
        "$root/sloth" version | sed "${trying:+2d;}s/^proved with/the proofs of this version are for the toolchain/"
        echo "sum of the program's sources: $(sum_sources)"
        [ -z "$trying" ] || echo 'made with --try: by a program of which nothing is proved'
    } | part lines
    tell_texts
}

# The refusal: each fault that the program tells, and for labels the lists that the rules want.
tell_refusal() {
    paragraph refusal
    part said <"$made/said"
    case $refusal:$status_of_filled in
    *\ V7:0) paragraph refusal.filled; part filled <"$made/filled" ;;
    *\ V7:11) paragraph refusal.lists ;;
    *\ O[1-6]:* | *\ V*) paragraph refusal.first ;;
    *) paragraph refusal.stage ;;
    esac
}

# Of a label at fault: the source with all lists filled in, and the lines that differ.
ask_filled() {
    status_of_filled=''
    case $refusal in
    *\ V7) ;;
    *) return 0 ;;
    esac
    keep infer infer "$oil" "$src" "$made/filled"
    status_of_filled=$status
    [ "$status" != 0 ] || part filled <"$made/filled" | sed -n 's/^<tr><td class="number">\([0-9]*\)<.*/among \1 V7/p' >"$made/more"
}

# What is proved: of a refused application a part, and of a program that is tried nothing.
tell_proved() {
    if [ -n "$trying" ]; then
        paragraph proved.trying
    elif [ -n "$refusal" ]; then
        awk '/^<tr>/ { left_out = 1 } /^<(tr class|\/)/ { left_out = 0 } !left_out' "$root/script/report.proved.html"
    else
        cat "$root/script/report.proved.html"
    fi
}

# Asks the program all that the report tells.
ask() {
    keep why why "$oil" "$src"
    : >"$made/more" >"$made/said"
    refusal=''
    [ "$status" = 0 ] || refusal=$(sed -n '1s/^refused //p' "$made/why")
    case $status:$refusal in
    0: | 2:?*) ;;
    *) cat "$made/why"; explain_read; exit "$status" ;;
    esac
    form='OIL SRC'
    [ -z "$refusal" ] || { keep_said why; ask_filled; return; }
    for it in shares unused map bounds; do
        keep_all "$it" "$it" "$oil" "$src"
    done
    # (what is warned of is open and not marked in the source as meant)
    open=$({ echo -; cat "$made/shares"; } | OIL=$oil SRC=$src ARR='' LC_ALL=C awk -f "$root/script/warnings.awk")
    meant=" $(awk '$2 == "open" { printf "%s ", $1 }' "$made/shares")"
    for it in $meant; do
        case $open in
        *"warning: $it: "*) meant=$(printf '%s' "$meant" | sed "s/ $it / /") ;;
        esac
    done
    keep_all counts bounds "$oil" "$src" counts
    keep_all latency bounds "$oil" "$src" latency
    keep_all built build "$oil" "$src" "$made/image"
    if [ -e "$load" ]; then
        keep response response "$oil" "$src" "$load"
        deadlines=$status
        [ "$status" != 2 ] || keep_said response
        case $status in
        0 | 12) keep beside response "$oil" "$src" "$load" "$arr" "$number" && beside=$status ;;
        esac
    fi
    keep losses losses "$oil" "$src" "$arr" "$number"
    lost=$status
    [ "$lost" != 2 ] || keep_said losses
    [ "$lost" = 0 ] || return 0
    keep drawn picture "$made/image" "$arr" "$from" "$to" "$made/picture"
    [ "$status" != 0 ] || add_texts "$made/image" "$made/picture"
    return 0
}

tell_all() {
    tell_head
    tell_verdict
    [ -z "$refusal" ] || tell_refusal
    paragraph application
    part objects </dev/null
    if [ -z "$refusal" ]; then
        tell_times
        tell_blocking
        paragraph shares
        part shares "$meant" <"$made/shares"
        tell_unused
        tell_memory
        tell_run
    fi
    tell_proved
    tell_inputs
    echo '</main></body></html>'
}

# Takes the words of the call: an application and perhaps a number of instructions.
read_report_words() {
    form='' command=report
    case $#:${2:-} in
    2:?* | 3:?*) ;;
    *) refuse_words 'the words are these: ./sloth report APP [N]' ;;
    esac
    find_app "$2" && [ -e "$base.oil" ] || refuse_words "$2 is no application: there is no $base.oil"
    name_file SRC && src=$word
    name_file ARR && arr=$word
    oil=$base.oil load=$base.load image='' input='' trace='' task='' builds='' app=$2
    take_c
    count_instructions
    # (what the last arrival makes ready can end within its deadline)
    after=$({ [ ! -f "$load" ] || cat -- "$load"; } | awk '$1 == "deadline" && $3 + 0 > most { most = $3 + 0 } END { print (most > 1000 ? most : 1000) }')
    number=$((number - 1000 + after))
    [ "$number" -lt 1000000 ] || number=1000000
    to=$((number < 100000 ? number : 100000))
    reach="$after after the start or the last arrival, which is the longest deadline, or 1000 where that is more"
    [ $# = 2 ] || {
        check_number N "$3" 0 1000000 || { echo usage; exit 1; }
        number=$3 to=$(($3 < 100000 ? $3 : 100000)) reach='as many as were asked for'
    }
    arrivals="with the arrivals of ${arr##*/}"
    [ "$arr" != /dev/null ] || arrivals="without arrivals, since there is no $(basename -- "$base").arr"
}

make_report() {
    read_report_words "$@"
    output=${out:-$base.html} form='OIL SRC OUT'
    check_output
    load='' && check_inputs && load=$base.load
    [ -n "$trying" ] || prepare sloth
    [ -z "$trying" ] || make_whole
    made=$(mktemp -d) || exit 70
    trap 'rm -rf "$made"; rm -f "$piece"' EXIT
    lost=0 deadlines=none beside=none
    ask
    tell_all >"$made/report" || exit 70
    if [ "$output" = "$piece" ]; then
        cat "$made/report"
    else
        cp -- "$made/report" "$output" || { echo 'write fault'; exit 4; }
        echo "written $(wc -c <"$output")"
    fi
    [ ! -s "$made/said" ] || cat "$made/said" >&2
    status=0
    [ "$deadlines" = none ] || status=$deadlines
    [ "$lost" = 0 ] || status=$lost
    [ -z "$refusal" ] || status=2
    name_output
    exit "$status"
}
