#!/bin/sh
# Writes what stands first in `stdin` and `stdout`, the words of `instructions.s` and the answers to `instructions` and `words`, from that file and
# `words.s` with the GNU assembler for RISC-V (in Debian, binutils-riscv64-unknown-elf). The gate needs neither this script nor the assembler.
cd "$(dirname "$0")" || exit 1

# Two sections of one name would be one in the object.
[ -z "$(sed -n 's/^ *\.section \(\.[a-z0-9]*\),.*/\1/p' words.s | sort | uniq -d)" ] || exit 1

made=$(mktemp -d) || exit 1

assemble() {
    riscv64-unknown-elf-as -march=rv32i_zicsr -mabi=ilp32 -o "$made/object" "$1" || exit 1
}

# The words of a section, each on a line.
words_of() {
    riscv64-unknown-elf-objcopy -O binary -j "$1" "$made/object" /dev/stdout | od -An -v -tx4 -w4 | tr -d ' '
}

assemble instructions.s
words_of .text >"$made/stdin"
sed -n 's/^.*#= //p' instructions.s | sed 's/^none .*/none/' | paste -d ' ' "$made/stdin" - |
    sed 's/^\([0-9a-f]*\) \([A-Z].*\)/\1 \1 \2/' >"$made/stdout"

assemble words.s
sed -n -e 's/^#: /text /p' -e 's/^ *\.section \(\.[a-z0-9]*\),.*/words \1/p' words.s |
    while read -r what rest; do
        case $what in
            text) echo "$rest" ;;
            words) words_of "$rest" ;;
        esac
    done >>"$made/stdout"

sed -n '/^=== instructions$/,$p' stdin >>"$made/stdin"
sed -n '/^===$/,$p' stdout >>"$made/stdout"
cp "$made/stdin" "$made/stdout" .
rm -rf "$made"
