# Adds to a picture of an application's run, from an image, what its texts tell: names, held resources and deadlines. With --try names alone.
add_texts() {
    drawn=$(mktemp) || exit 70
    {
        [ -n "$trying" ] || answer exec "$1" "$arr" "$to" | grep -v ' idle$' | OIL=$base.oil SRC=$texts LC_ALL=C awk -f "$root/script/lines.awk"
    } | OIL=$base.oil LOAD=$base.load FROM=$from TO=$to PICTURE=$2 TITLE=$(basename -- "$base" | sed 's/[\\&<>]/_/g') \
        LC_ALL=C awk -f "$root/script/oil.awk" -f "$root/script/picture.awk" >"$drawn" && cat "$drawn" >"$2"
    rm -f "$drawn"
}
