#!/bin/sh
# bench/readelf.sh [FILE.c]: builds a C file, examples/hi.c by default, and shows that binutils read the ELF file that
# is written: `readelf -a` and `objdump -d` give no warning, and the machine, the entry, the segments and the sections
# are right. It needs Debian's binutils-riscv64-linux-gnu, and what ./cheric needs. It proves nothing and is no part of
# the gate.
set -eu

root=$(CDPATH='' cd -- "$(dirname -- "$0")/.." && pwd)
source=$(realpath -- "${1:-$root/examples/hi.c}")
work=$(mktemp -d)
trap 'rm -rf -- "$work"' EXIT

fail() {
    echo "readelf.sh: $1" >&2
    exit 1
}

# Builds the ELF file of the C file.
write_elf() {
    "$root/cheric" build "$source" --out "$work/elf" 2>"$work/log" ||
        { cat "$work/log" >&2; fail 'no ELF file was written'; }
}

# Runs a program of binutils on the ELF file, which must warn of nothing.
read_by() {
    program=$1
    shift
    LC_ALL=C "riscv64-linux-gnu-$program" "$@" "$work/elf" >"$work/$program" 2>"$work/warnings" ||
        { cat "$work/warnings" >&2; fail "$program failed"; }
    if [ -s "$work/warnings" ] || grep -qi 'warning\|error\|corrupt' "$work/$program"; then
        cat "$work/warnings" "$work/$program" >&2
        fail "$program warns"
    fi
}

# Compares the lines on standard input with those of a name.
is_same() {
    cat >"$work/expected"
    diff "$work/expected" "$work/found" >&2 || fail "$1: what binutils read (>) is not what stands in the format (<)"
}

write_elf
read_by readelf -aW
read_by objdump -d

sed -n 's/^  \(Class\|Data\|Type\|Machine\|Entry point address\): */\1: /p' "$work/readelf" >"$work/found"
is_same header <<'END'
Class: ELF64
Data: 2's complement, little endian
Type: EXEC (Executable file)
Machine: RISC-V
Entry point address: 0x40000000
END

# Type, virtual and physical address, flags and alignment.
awk '$1 == "LOAD" { flags = $7; for (i = 8; i < NF; i++) flags = flags $i; print $1, $3, $4, flags, $NF }' \
    "$work/readelf" >"$work/found"
is_same segments <<'END'
LOAD 0x0000000040000000 0x0000000040000000 RE 0x10
LOAD 0x0000000100000000 0x0000000100000000 RW 0x10
LOAD 0x0000000001000000 0x0000000001000000 RW 0x10
LOAD 0x0000000002000000 0x0000000002000000 RW 0x10
END

# Name, type, address and flags.
sed -n 's/^  \[ *[1-9]\] //p' "$work/readelf" | awk '{ print $1, $2, $3, NF == 10 ? $7 : "-" }' >"$work/found"
is_same sections <<'END'
.text PROGBITS 0000000040000000 AX
.data PROGBITS 0000000100000000 WA
.ck_relocs PROGBITS 0000000000000000 -
.ck_lines PROGBITS 0000000000000000 -
.ck_image PROGBITS 0000000000000000 -
.shstrtab STRTAB 0000000000000000 -
END

# The disassembly has each word of the text, from its base on.
size=$(sed -n 's/^  \[ *1\] \.text *PROGBITS *[0-9a-f]* *[0-9a-f]* *\([0-9a-f]*\) .*/\1/p' "$work/readelf")
words=$(grep -c '^ *[0-9a-f]*:	[0-9a-f]\{8\} ' "$work/objdump")
grep -q 'file format elf64-littleriscv' "$work/objdump" || fail 'objdump reads another format'
grep -q '^ *40000000:	' "$work/objdump" || fail 'objdump shows no word at the base of the text'
[ "$words" -eq $((0x$size / 4)) ] || fail "objdump shows $words words, and the text has $((0x$size / 4))"
echo "readelf and objdump read the ELF file of $source: $words words of text, no warning"
