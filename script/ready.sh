# Whether the program is ready, and what makes it so.

# Sets kit to the folder of the toolchain.
find_toolchain() {
    command -v rt >/dev/null || fail 'the command rt of the toolchain is not on the path'
    kit=$(rt doc) && kit=${kit%/*} && [ -x "$kit/bin/rt" ] || fail 'the command rt on the path does not answer as that of the toolchain does'
}

# Prints the files that programs are made of, each with what a third word of `find` tells of it.
list_sources() {
    (cd "$root" && LC_ALL=C find crates.txt HANDLES crates/*/src crates/*/specs crates/*/proofs -type f "$@" 2>/dev/null | LC_ALL=C sort)
}

# Prints the sum of the contents of these files, as prove.py does.
sum_sources() {
    list_sources | (cd "$root" && xargs sha256sum) | sha256sum | cut -d ' ' -f 1
}

# Sets name and program to those of a program, which is built, and made of what its sources hold now. Their sum stands beside it; it need not be taken
# again where no file was written or put in its place since it last was, which the system's own times of that tell.
is_ready() {
    name=$1 out_folder=$root/crates/$1/out/rlib/stated program=$root/crates/$1/out/rlib/stated/$1
    [ -x "$program" ] && [ -f "$out_folder/ready" ] || return
    times=$(list_sources -printf '%p %s %C@\n' | cksum)
    [ "$times" != "$(cat "$out_folder/times" 2>/dev/null)" ] || return 0
    [ "$(sum_sources)" = "$(cat "$out_folder/ready")" ] || return
    case $times in
    *' 0') ;;
    *) { printf '%s\n' "$times" >"$out_folder/times"; } 2>/dev/null || : ;;
    esac
}

# Proves and builds a program, if it is not ready. What is proved is kept, so that a call goes on where the one before was interrupted.
prepare() {
    ! is_ready "$1" || return 0
    find_toolchain
    case $name in
    sloth) say 'the whole program is proved and built first, once; ./sloth --try gives a look without' ;;
    *) say 'the commands that build and run are proved and built first, the others where one is asked for; ./sloth --try gives a look without' ;;
    esac
    # (a wait ends at a signal, which the shell would leave pending behind a command in front)
    python3 "$root/prove.py" "$kit" "$root" "$name" "$$" </dev/null &
    prover=$!
    trap 'kill "$prover" 2>/dev/null; wait "$prover"; exit "$?"' INT TERM HUP
    wait "$prover"
    status=$?
    trap - INT TERM HUP
    [ "$status" != 137 ] || say 'the proof was killed, most likely for memory'
    [ "$status" = 0 ] || exit "$status"
    say "the program is ready: $program"
}

# Whether this is a tool: a command that is none of those that build and run.
is_tool() {
    case $1 in
    build | run | order | exec | list | sample) return 1 ;;
    esac
}

# Before a proof begins: a number out of range, or an input that is not there, ends the call as it would end the program's.
check_inputs() {
    check_numbers || { echo usage; exit 1; }
    for it in "$oil" "$src" "$arr" "$load" "$trace" "$input" ${builds:+"$oil"}; do
        [ -z "$it" ] || [ -e "$it" ] || { echo 'read fault'; note "$it" 'no such file'; exit 3; }
    done
    [ -n "$builds" ] || [ -z "$image" ] || [ -e "$image" ] || { echo 'read fault'; note "$image" 'no such file'; exit 3; }
}

# Makes the names of files whole paths, since `rt try` works in a folder of its own.
make_whole() {
    for it in oil src arr load trace image input output base; do
        eval "word=\$$it"
        case $word in
        '' | /*) ;;
        *) eval "$it=\$PWD/\$word" ;;
        esac
    done
}
