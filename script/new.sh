# `new NAME`: a small application to begin with.

make_application() {
    case $#:${2:-} in
    2:*[!A-Za-z0-9_/.-]* | 2:-* | 2:) refuse_words 'new wants the name of a folder that it makes: letters, digits and _' ;;
    2:*) ;;
    *) refuse_words 'the words are these: ./sloth new NAME' ;;
    esac
    folder=${2%/}
    made=$(basename -- "$folder")
    case $made in
    [A-Za-z_]*) ;;
    *) refuse_words "a name begins with a letter: $made does not" ;;
    esac
    case $made in
    *[!A-Za-z0-9_]*) refuse_words "a name has letters, digits and _ alone: $made has others" ;;
    esac
    [ ! -e "$folder" ] || refuse_words "$folder is there already, and nothing is written over it: take another name"
    mkdir -- "$folder" || exit 4
    for ending in oil src arr load; do
        sed "s/@NAME@/$made/g" "$root/script/new.$ending" >"$folder/$made.$ending" || { echo 'write fault'; exit 4; }
    done
    say "$folder/$made.oil, .src, .arr and .load are written; go on with"
    for it in "order $folder" "response $folder" "picture $folder" "report $folder"; do
        printf '  ./sloth %s\n' "$it" >&2
    done
}
