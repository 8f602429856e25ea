# The words of a call: the command, its files and numbers, and where the answer goes.

# Ends as the program ends for words that it does not have.
refuse_words() {
    echo usage
    say "$1"
    exit 1
}

# Prints the forms of a command, one on a line: the kinds of its words in order, as docs/commands.txt has them.
forms() {
    awk -v command="$1" '$1 == "./sloth" && $2 == command {
        form = ""
        for (i = 3; i <= NF && $i ~ /^([A-Z]+|all|counts|labels|latency)$/; i++) form = form " " $i
        if (form ~ /OIL|IMG/) print substr(form, 2)
    }' "$root/docs/commands.txt"
}

# Prints what a command is for, or all commands.
show_help() {
    case $1 in
    '' | -*) exec cat "$root/docs/commands.txt" ;;
    esac
    awk -v command="$1" '/^= / { on = $2 == command; found += on; next } on { print } END { exit !found }' "$root/docs/help.txt" ||
        refuse_words "\`$1\` is no command; ./sloth --help shows them"
}

# Whether a word of this kind names the file that the command writes.
is_output() {
    case $1:$command in
    OUT:* | IMG:run | IMG:order | IMG:build | IMG:sample | IMG:unelf) ;;
    *) return 1 ;;
    esac
}

# Keeps the word of a kind.
keep_word() {
    case $1 in
    OIL) oil=$2 ;;
    SRC) src=$2 ;;
    ARR) arr=$2 ;;
    LOAD) load=$2 ;;
    TRACE) trace=$2 ;;
    IN) input=$2 ;;
    IMG | OUT) if is_output "$1"; then output=$2; else image=$2; fi ;;
    TASK) task=$2 ;;
    SEED) seed=$2 ;;
    K) at=$2 ;;
    FROM) from=$2 ;;
    TO) to=$2 ;;
    N) number=$2 ;;
    esac
}

# Sets word to that of a kind.
find_word() {
    case $1 in
    OIL) word=$oil ;;
    SRC) word=$src ;;
    ARR) word=$arr ;;
    LOAD) word=$load ;;
    TRACE) word=$trace ;;
    IN) word=$input ;;
    IMG | OUT) if is_output "$1"; then word=$output; else word=$image; fi ;;
    TASK) word=$task ;;
    SEED) word=$seed ;;
    K) word=$at ;;
    FROM) word=$from ;;
    TO) word=$to ;;
    N) word=$number ;;
    *) word=$1 ;;
    esac
}

# Whether words are those of a form, one for each kind; with -o the output has none.
fits() {
    wanted=$1
    shift
    for kind in $wanted; do
        if ! is_output "$kind" || [ -z "$has_out" ]; then
            [ $# -gt 0 ] || return 1
            case $kind in
            *[a-z]*) [ "$1" = "$kind" ] || return 1 ;;
            esac
            shift
        fi
    done
    [ $# = 0 ]
}

# Whether words are those of a form after an application's name, which stands for all files. Numbers N, FROM and TO may lack where the first word says so.
fits_app() {
    may_lack=$1 wanted=$2
    shift 2
    for kind in $wanted; do
        case $kind in
        OIL | SRC | ARR | LOAD | TRACE | IMG | IN | OUT) continue ;;
        N | FROM | TO) [ $# -gt 0 ] || [ -z "$may_lack" ] || continue ;;
        esac
        [ $# -gt 0 ] || return 1
        case $kind:$1 in
        TASK:[A-Za-z_]*) ;;
        TASK:* | [A-Z]*:*[!0-9]* | *:) return 1 ;;
        [A-Z]*) ;;
        *) [ "$1" = "$kind" ] || return 1 ;;
        esac
        shift
    done
    [ $# = 0 ]
}

# Sets base to the path of an application's files without their endings, if the word stands for one: `door` for door.oil, door.src, .., a folder `door`
# for door/door.oil, ..; and door.oil itself where no form has as few words.
find_app() {
    base=${1%/}
    if [ -d "$1" ]; then
        base=$base/$(basename -- "$(CDPATH='' cd -- "$1" && pwd)")
    elif [ -e "$1" ]; then
        case $form:$1 in
        :*.oil | :*.src | :*.c | :*.arr | :*.load | :*.img) base=${1%.*} ;;
        *) return 1 ;;
        esac
    fi
    case $base in
    -*) base=./$base ;;
    esac
    [ -e "$base.oil" ] || [ -e "$base.img" ]
}

# Names the file of a kind as those of an application are named.
name_file() {
    case $1:$command in
    SRC:*)
        word=$base.src
        [ -e "$word" ] || [ ! -e "$base.c" ] || word=$base.c
        ;;
    ARR:*)
        word=$base.arr
        [ -e "$word" ] || word=/dev/null
        ;;
    IN:* | OUT:elf) word=$base.img.elf ;;
    OIL:*) word=$base.oil ;;
    LOAD:*) word=$base.load ;;
    TRACE:*) word=$base.trace ;;
    IMG:*) word=$base.img ;;
    OUT:infer) word=$base.filled ;;
    OUT:symbols) word=$base.elf ;;
    OUT:orti) word=$base.orti ;;
    OUT:wave) word=$base.vcd ;;
    OUT:picture) word=$base.svg ;;
    *) return 1 ;;
    esac
}

# The numbers where none is given: up to 1,000 instructions after the last arrival.
count_instructions() {
    number=$(awk '$1 ~ /^[0-9]+$/ { last = $1 } END { last += 1000; print last < 1000000 ? last : 1000000 }' "$arr")
    from=0 to=$((number < 100000 ? number : 100000))
}

# Sets form and the words of it that are given with an application's name.
read_app() {
    shift
    form=''
    for may_lack in '' 1; do
        while read -r it; do
            [ -n "$form" ] || ! fits_app "$may_lack" "$it" "$@" || form=$it
        done <<FORMS
$all_forms
FORMS
    done
    case $command:$# in
    picture:1) set -- 0 "$1" ;;
    esac
    [ -n "$form" ] || return
    for kind in $form; do
        ! name_file "$kind" || keep_word "$kind" "$word"
    done
    case $form in
    *ARR*) count_instructions ;;
    esac
    # (an image that the command reads is built first where there are texts; it is kept beside them)
    case $form in
    *OIL*) ;;
    *) [ -z "$image" ] || [ ! -e "$base.oil" ] || builds=1 ;;
    esac
    for kind in $form; do
        case $kind in
        TASK | SEED | K | N | FROM | TO)
            [ $# = 0 ] || keep_word "$kind" "$1"
            [ $# = 0 ] || shift
            ;;
        esac
    done
}

# Reads the words into form and into a variable for each of its kinds.
read_words() {
    oil='' src='' arr='' load='' trace='' image='' input='' output='' task='' seed='' at='' from='' to='' number='' base='' builds='' form='' is_app=''
    command=$1
    shift
    case $command in
    *[!a-z]* | '') all_forms='' ;;
    *) all_forms=$(forms "$command") ;;
    esac
    [ -n "$all_forms" ] || refuse_words "\`$command\` is no command; ./sloth --help shows them"
    while read -r it; do
        [ -n "$form" ] || ! fits "$it" "$@" || form=$it
    done <<FORMS
$all_forms
FORMS
    case $command in
    sample) [ $# != 1 ] || [ -n "$has_out" ] || out=sample.img has_out=1 form='SEED IMG' ;;
    esac
    full=$form
    if [ $# -gt 0 ] && find_app "$1"; then
        read_app "$@"
        [ -z "$form" ] || { [ -z "$has_out" ] || output=$out; return; }
        form=''
        [ ! -f "$1" ] || form=$full
        [ -n "$form" ] || is_app=1
        base=''
    fi
    if [ -z "$form" ]; then
        say "the words of \`$command\` are these (./sloth help $command says more):"
        app_form=$(grep "^./sloth $command APP" "$root/docs/help.txt")
        {
            [ -z "$app_form" ] || printf '%s\n' "$app_form"
            grep "^./sloth $command [A-Z]" "$root/docs/commands.txt" | grep -v "^./sloth $command APP"
        } >&2
        if [ -z "$app_form" ]; then
            :
        elif [ -n "$is_app" ]; then
            say "here $1 is APP: what follows it is missing or does not fit"
        elif [ $# -gt 0 ] && [ $# -lt 3 ] && [ ! -e "$1" ]; then
            say "$1 is no application: there is no $1.oil"
        fi
        echo usage
        exit 1
    fi
    for kind in $form; do
        if is_output "$kind" && [ -n "$has_out" ]; then
            output=$out
        else
            keep_word "$kind" "$1"
            shift
        fi
    done
}

# Refuses an output that is an input's file by its ending, and takes a file of its own for one that is to go to standard output.
check_output() {
    piece=''
    case $form in
    *OUT* | *IMG*) [ -n "$output" ] || [ -z "$has_out" ] || refuse_words "\`$command\` writes no file: what it prints goes to standard output" ;;
    *) [ -z "$has_out" ] || refuse_words "\`$command\` writes no file: what it prints goes to standard output" ;;
    esac
    case $output in
    *.oil | *.src | *.arr | *.load | *.c)
        [ ! -e "$output" ] || refuse_words "$output is there, and has the name of an input (.${output##*.}); \`$command\` would write over it: name another file"
        ;;
    -)
        case $command in
        infer | wave | picture | report) ;;
        *) refuse_words "\`$command\` writes bytes that are no text, so \`-\` is none: name a file" ;;
        esac
        piece=$(mktemp) || exit 70
        output=$piece
        trap 'rm -f "$piece"' EXIT
        ;;
    esac
}
