#!/usr/bin/env bash
# The benchmark with the code of all libraries moved by 0, 16, 32 and 48 bytes, since a time can depend on where
# the linker puts a loop. It prints, in Markdown, each row's highest proved / plain at each place, and the worst of
# them: docs/placement.md. Words choose the rows, as in the benchmark. It takes four times as long.
set -euo pipefail
cd "$(dirname "$0")/.."
folder=target/placement
for shift in 0 16 32 48; do
    SHIFT=$shift cargo run --release --offline --quiet -p bench -- --write "$folder/$shift" "$@" >/dev/null
done
printf '# Placement\n\nThe highest of the runs at each place, and the worst of all places.\n\n'
echo "| proved / plain, moved by | 0 | 16 | 32 | 48 | worst |"
echo "|---|---|---|---|---|---|"
# A cell is a number or a range; the last word is the highest.
awk -F ' [|] ' '
    /^\| \| / { for (i = 1; i <= NF; i++) if ($i == "proved / plain") column = i; next }
    /^\| / {
        highest = $column
        sub(/.* /, "", highest)
        if (!($1 in cells)) names[++rows] = $1
        cells[$1] = cells[$1] " | " highest
        if (highest + 0 > worst[$1] + 0) worst[$1] = highest
    }
    END { for (i = 1; i <= rows; i++) print names[i] cells[names[i]] " | " worst[names[i]] " |" }
' "$folder"/{0,16,32,48}/benchmark.md
