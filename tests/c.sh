#!/usr/bin/env bash
# Builds the static library and uses it from C, with all warnings as errors: the header in each language, every
# call, the stack that calls take, and an example against the installed library.
set -euo pipefail
cd "$(dirname "$0")/.."
room=$(mktemp -d)
trap 'rm -rf "$room"' EXIT
bash library.sh
library=$PWD/target/staticlib/libeventlog.a
warnings=(-Wall -Wextra -Wpedantic -Wconversion -Wshadow -Wcast-qual -Wundef -Werror)

# The compilers that are installed; cc has to be.
compiled=0
for compiler in cc gcc clang; do
    [ "$compiler" = cc ] || command -v "$compiler" >/dev/null || continue
    for standard in c99 c11; do
        "$compiler" -std=$standard "${warnings[@]}" -Wstrict-prototypes -Iinclude tests/header.c "$library" \
            -o "$room/header"
        "$room/header"
        compiled=$((compiled + 1))
    done
done
for compiler in g++ clang++; do
    command -v "$compiler" >/dev/null || continue
    for standard in c++98 c++11 c++17; do
        "$compiler" -x c++ -std=$standard "${warnings[@]}" -Iinclude tests/header.c -x none "$library" -o "$room/header"
        "$room/header"
        compiled=$((compiled + 1))
    done
done
echo "header.c: passed, compiled $compiled times"

for program in eventlog card windows_1252 stack; do
    cc -std=c11 "${warnings[@]}" -Iinclude "tests/$program.c" "$library" -o "$room/$program"
    "$room/$program"
done

# The example sees nothing but what is installed.
bash install.sh "$room/prefix"
flags=(-I"$room/prefix/include" -L"$room/prefix/lib" -leventlog)
if command -v pkg-config >/dev/null; then
    export PKG_CONFIG_PATH=$room/prefix/lib/pkgconfig
    read -r -a flags <<<"$(pkg-config --cflags --libs eventlog)"
    version=$(pkg-config --modversion eventlog)
    grep -q "^#define EVENTLOG_VERSION \"$version\"$" include/eventlog.h
fi
cc -std=c11 "${warnings[@]}" examples/records.c "${flags[@]}" -o "$room/records"
"$room/records" examples/scale.log >"$room/got"
diff examples/records.expected "$room/got"
if head -c 339 examples/scale.log | "$room/records" /dev/stdin >"$room/got" 2>"$room/said"; then
    echo "records.c: a log that is cut short is not refused"
    exit 1
fi
diff - "$room/said" <<<"step: Length is more than the bytes left"
echo "records.c: passed"
