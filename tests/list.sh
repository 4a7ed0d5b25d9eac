#!/usr/bin/env bash
# Runs the listing program, as `rt run` in crates/list has built it, on inputs at its limits and holds what it writes to
# the byte.
set -euo pipefail
cd "$(dirname "$0")/.."
program=crates/list/out/list
sample=crates/list/stdin
room=$(mktemp -d)
trap 'rm -rf "$room"' EXIT

passed=0
same() { # NAME INPUT WANTED: what the program writes for the file INPUT is the file WANTED
    "$program" <"$2" >"$room/got"
    if ! cmp -s "$room/got" "$3"; then
        echo "list: $1: not as it should be"
        diff "$3" "$room/got" | head -n 5
        exit 1
    fi
    passed=$((passed + 1))
}

printf 'records 2\n0 64 7\n64 104 8\n' >"$room/wanted"
same 'two records' "$sample" "$room/wanted"

head -c 167 "$sample" >"$room/input"
printf 'refused 3 at 64 field 0\n' >"$room/wanted"
same 'cut to 167 bytes' "$room/input" "$room/wanted"

: >"$room/input"
printf 'records 0\n' >"$room/wanted"
same 'no input' "$room/input" "$room/wanted"

# 1,024 records of 64 bytes are 65,536 bytes
head -c 64 "$sample" >"$room/one"
for _ in $(seq 1024); do cat "$room/one"; done >"$room/input"
{
    echo 'records 1024'
    for k in $(seq 0 1023); do echo "$((k * 64)) 64 7"; done
} >"$room/wanted"
same '65,536 bytes' "$room/input" "$room/wanted"

printf '\0' >>"$room/input"
printf 'refused 16 at 0 field 0\n' >"$room/wanted"
same '65,537 bytes' "$room/input" "$room/wanted"

# one record of 65,536 bytes, the longest that the program lists: its source name has 65,472 of them
long() { # LENGTH: this record with another Length, as bytes of octal numbers
    printf '%b' "$1"
    head -c 56 "$sample" | tail -c 52
    head -c 65472 /dev/zero | tr '\0' a
    head -c 4 /dev/zero
    printf '\0\0\1\0'
}
long '\0000\0000\0001\0000' >"$room/input"
printf 'records 1\n0 65536 7\n' >"$room/wanted"
same 'one record of 65,536 bytes' "$room/input" "$room/wanted"

# Length 262,140 is more than the bytes left, Length 262,144 is no Length
long '\0374\0377\0003\0000' >"$room/input"
printf 'refused 3 at 0 field 0\n' >"$room/wanted"
same 'Length 262,140' "$room/input" "$room/wanted"
long '\0000\0000\0004\0000' >"$room/input"
printf 'refused 2 at 0 field 0\n' >"$room/wanted"
same 'Length 262,144' "$room/input" "$room/wanted"

# a folder cannot be read: that is said on standard error, and no listing is written
"$program" <"$room" >"$room/got" 2>"$room/said" || true
if [ -s "$room/got" ] || ! grep -q '^standard input' "$room/said"; then
    echo "list: input that cannot be read: not as it should be"
    cat "$room/got" "$room/said"
    exit 1
fi
passed=$((passed + 1))

# a full device takes no listing: that is said on standard error
if [ -w /dev/full ]; then
    "$program" <"$sample" >/dev/full 2>"$room/said" || true
    if ! grep -q '^standard output' "$room/said"; then
        echo "list: output that cannot be written: not as it should be"
        cat "$room/said"
        exit 1
    fi
    passed=$((passed + 1))
fi

echo "list: $passed outputs as they should be"
