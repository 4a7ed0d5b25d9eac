#!/usr/bin/env bash
# Proves the calls for C and joins their objects to one static library, target/staticlib/libeventlog.a:
#     bash library.sh
# The calls are the static libraries of crates.txt, the crates eventlog_.._c, one object each: every one is a thin crate over the
# library of its name, and exports that library's functions. A call that steps, walks, lists, writes or appends is alone in its
# crate: in one object two calls would share the judge, which would then be a call and not be compiled into the caller
# (docs/DECISIONS.md). It says nothing unless one is not proved, and then there is no library.
set -euo pipefail
cd "$(dirname "$0")"
mapfile -t crates < <(sed -n 's/^\(eventlog_[a-z0-9_]*_c\) staticlib:.*/\1/p' crates.txt | LC_ALL=C sort)
top=$PWD
folder=$top/target/staticlib
library=$folder/libeventlog.a
mkdir -p "$folder"
rm -f "$library"
room=$(mktemp -d)
trap 'rm -rf "$room"' EXIT
for crate in "${crates[@]}"; do
    # It proves the libraries below too, where they have changed: so one after another.
    if ! (cd "crates/$crate" && rt lib) >"$room/rt" 2>&1; then
        cat "$room/rt" >&2
        exit 1
    fi
    (cd "$room" && ar x "$top/crates/$crate/out/lib$crate.a" "$crate.o")
done
(cd "$room" && ar rcsD "$library" "${crates[@]/%/.o}")
