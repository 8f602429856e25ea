# What is said on standard error of an answer.

# Says what a file has to do with the answer.
note() {
    printf '%s: %s\n' "$1" "$2" >&2
}

# Says what the lines of an answer mean, in the form that editors read.
tell() {
    OIL=$oil SRC=$src ARR=$arr LOAD=$load IMAGE=${image:-$input} TRACE=$trace MEANINGS=$root/docs/refusals.txt ATTRIBUTES=$root/docs/attributes.txt LC_ALL=C \
        awk -f "$root/script/oil.awk" -f "$root/script/lists.awk" -f "$root/script/refusals.awk" >&2
}

# Whether all files can be read once more. What is said goes by further calls of the program, since its output is not to pass through this script.
are_files() {
    for it in "$image" "$input" "$oil" "$src" "$arr" "$load" "$trace"; do
        case $it in
        '' | /dev/null) ;;
        - | /dev/* | /proc/*) return 1 ;;
        *) [ -f "$it" ] || return ;;
        esac
    done
}

# Sets text to the lines that say why. The program judges the files once more for it, and no more than twice.
find_reason() {
    case $status:${image:-$input}:$name in
    *:none) text=$kept ;;
    2::sloth_core) text=$("$program" order "$oil" "$src" "${arr:-/dev/null}" /dev/null 0) ;;
    2::*)
        text=$("$program" why "$oil" "$src")
        case $text:$load in
        accepted:) text=$("$program" order "$oil" "$src" "${arr:-/dev/null}" /dev/null 0) ;;
        accepted:*) text=$(call) ;;
        esac
        ;;
    2:*) text=$("$program" exec "$image" "$arr" 0) ;;
    8:*) text=$("$program" list "$image") ;;
    9:*) text=$("$program" unelf "$input" /dev/null) ;;
    10:*) text=$(call) ;;
    11:*) text='no holds' ;;
    esac
}

# Says what an answer means.
explain_refusal() {
    are_files || return
    find_reason
    printf '%s\n' "$text" | tell
    case $name:$oil in
    *:) return ;;
    none:*) [ "$command" = why ] || say "./sloth --try why $oil $src says more"; return ;;
    sloth_core:*) say "./sloth why $oil $src says more; it proves the tools first, once"; return ;;
    esac
    case $command:$(printf '%s\n' "$text" | sed 1q) in
    *:refused\ src\ *\ V7) ! "$program" infer "$oil" "$src" /dev/null >/dev/null ||
        say "infer $oil $src OUT writes this source with the list of each label filled in" ;;
    check:no*) say "./sloth why $oil $src $arr $trace $number says more" ;;
    infer:no*) say "./sloth why $oil $src labels says more" ;;
    esac
}

# Says of accepted texts what nothing uses, and which data a task may find half changed: what tools tell. With --strict the status is then 13.
warn() {
    [ "$name" = sloth ] && are_files || return
    { "$program" unused "$oil" "$src"; echo -; "$program" shares "$oil" "$src"; } |
        OIL=$oil SRC=$src ARR=$arr LC_ALL=C awk -f "$root/script/warnings.awk" >&2 || [ -z "$strict" ] || status=13
}

# Says what is wrong with a number.
check_number() {
    case $2 in
    '' | *[!0-9]* | 0?* | ???????????*) ;;
    *) [ "$2" -lt "$3" ] || [ "$2" -gt "$4" ] || return 0 ;;
    esac
    say "$1 is \`$2\`: a number from $3 to $4 is wanted, without sign and leading zeros"
    return 1
}

# Whether all numbers of the words are in range; says which is not.
check_numbers() {
    for kind in $form; do
        case $kind in
        SEED) check_number SEED "$seed" 0 4294967295 ;;
        K) check_number K "$at" 0 999999 ;;
        FROM) check_number FROM "$from" 0 1000000 ;;
        TO) check_number TO "$to" "$from" $((from < 900000 ? from + 100000 : 1000000)) ;;
        N) check_number N "$number" 0 1000000 ;;
        esac || return
    done
}

# Says why words are answered by `usage`: one is no text or no number, TASK is no task, or the file that is written is one that is read.
explain_usage() {
    for kind in $form; do
        find_word "$kind"
        printf '%s' "$word" | iconv -f UTF-8 -t UTF-8 >/dev/null 2>&1
        [ $? != 1 ] || { say 'a word is not UTF-8'; return; }
    done
    check_numbers || return
    for it in "$image" "$input" "$oil" "$src" "$arr" "$load" "$trace"; do
        [ ! "$output" -ef "$it" ] || { say "the command reads $it, and would write over it: $output is the same file"; return; }
    done
    case $task in
    '' | labels) ;;
    *) note "$oil" "no task \`$task\`; its tasks are: $(awk '{ gsub(/[{;]/, " ") } $1 == "TASK" { printf "%s%s", n++ ? ", " : "", $2 }' "$oil")" ;;
    esac
}

# Says of a file what hinders, unless the test holds.
need() {
    file=$1 hindrance=$2
    shift 2
    [ "$@" ] || { note "$file" "$hindrance"; return 1; }
}

# Says which file could not be read, or is too long.
explain_read() {
    for it in "$image" "$input" "$oil" "$src" "$arr" "$load" "$trace"; do
        [ -z "$it" ] || {
            need "$it" 'no such file' -e "$it" && need "$it" 'a folder' ! -d "$it" && need "$it" 'may not be read' -r "$it" &&
                { [ ! -f "$it" ] || need "$it" 'more than 4194304 bytes' "$(wc -c <"$it")" -le 4194304; }
        } || return
    done
}

# Says what stands in the way of the file that was to be written.
explain_write() {
    # (a reader that took the first lines alone, as `head` does, is no news)
    [ -n "$output" ] || { [ -p /dev/stdout ] || say 'standard output could not be written'; return; }
    folder=$(dirname -- "$output")
    free=$(df -Pk -- "$folder" 2>/dev/null | sed -n '2s/.* \([0-9][0-9]*\)  *[0-9]*% .*/\1/p')
    need "$folder" 'no such folder' -d "$folder" && need "$output" 'a folder' ! -d "$output" &&
        { [ ! -e "$output" ] || need "$output" 'may not be written' -w "$output"; } &&
        need "$folder" 'no file can be made there, and a file is written under a new name first' -w "$folder" &&
        need "$output.new" 'stands in the way: a file is written under that name first, so move it away' ! -e "$output.new" &&
        need "$output" 'no space' "${free:-0}" -gt 4 &&
        { [ -p /dev/stdout ] || say "$output or standard output could not be written; $free KiB are free on the disk of the file"; }
}

# Says that words stand in places of other kinds: a source for a configuration, say.
explain_places() {
    for kind in $form; do
        case $kind in
        OIL | SRC | ARR | LOAD) find_word "$kind" ;;
        *) continue ;;
        esac
        case $kind:$word in
        *.oil) wanted=OIL ;;
        *.src) wanted=SRC ;;
        *.arr) wanted=ARR ;;
        *.load) wanted=LOAD ;;
        *) wanted=$kind ;;
        esac
        [ "$wanted" = "$kind" ] || note "$word" "stands here as $kind, and has the ending of $wanted"
    done
}

# Says on a terminal which file was written, where an application's name stood for it.
name_output() {
    case $status:$command in
    0:run | 0:order | 0:sample) return ;;
    0:* | 12:report | 2:report) ;;
    *) return ;;
    esac
    [ -z "$base" ] || [ -z "$output" ] || [ "$output" = "$piece" ] || [ ! -t 2 ] || say "the file is $output"
}

# Says what is to be said of a status.
explain() {
    case $status:$command in
    0:build | 0:order | 0:run) warn ;;
    1:*) explain_usage ;;
    2:* | 8:* | 9:* | 10:* | 11:*) explain_refusal && explain_places ;;
    3:* | 6:*) explain_read ;;
    4:*) explain_write ;;
    12:*) say 'a deadline is not met: see the lines with `open`' ;;
    esac
}
