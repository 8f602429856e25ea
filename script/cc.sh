# Task code in C: the command `cc`, and a file that ends with .c in the place of SRC.

# Calls the translator, which asks the program itself for numbers of tasks and masks of events, if the source has them: a program that is
# ready, else this script, which makes it ready.
call_translator() {
    command -v python3 >/dev/null || fail 'task code in C wants `python3`, which is not here: Debian has it in the package python3'
    if is_ready sloth; then asked=$program words=''; else asked=$root/sloth words=${trying:+--try}; fi
    SLOTH=$asked SLOTH_WORDS=$words python3 "$root/cc/cc.py" "$@"
}

# Sets made to the text that stands for a source in C: in the user's cache, in a folder of its own for each path, so that debuggers find it later.
name_translation() {
    folder=$(CDPATH='' cd -- "$(dirname -- "$1")" 2>/dev/null && pwd)
    file=$(basename -- "$1")
    cache=${XDG_CACHE_HOME:-${HOME:-/tmp}/.cache}/sloth/$(printf '%s' "$folder/$file" | cksum | tr ' ' -)
    mkdir -p "$cache" 2>/dev/null || { say "no folder can be made for what C is translated into: $cache"; exit 4; }
    made=$cache/${file%.c}.src
}

# Translates a source in C for a configuration into made. A refusal ends the call.
translate() {
    name_translation "$2"
    call_translator --oil "$1" "$2" "$made" >/dev/null || exit
}

# Runs a command with its words, and tells what it prints of the lines of the source in C of which `made` was made. Its status.
tell_of_c() {
    exec 7>&1 8>&2
    status=$({ { { ("$@") 5>&- 7>&- 8>&- || echo "$?" >&5; } 2>&6 | tell_lines >&7; } 6>&1 | tell_lines >&8; } 5>&1)
    exec 7>&- 8>&-
    return "${status:-0}"
}

tell_lines() {
    TEXT=$made SOURCE=$source LC_ALL=C awk -f "$root/script/told.awk"
}

# Sets texts to the task code that is built, and source to what is written in C, if it is: then the text is made of it, and stands in its place.
take_c() {
    source='' texts=$src
    [ -z "$builds" ] || { name_file SRC && texts=$word; }
    case $texts in
    *.c) ;;
    *) return ;;
    esac
    source=$texts
    translate "${oil:-$base.oil}" "$source"
    texts=$made
    [ -z "$src" ] || src=$texts
}
