#!/usr/bin/env bash
# Builds the program of a bench with the crates that it uses, in a folder of its own, runs it, and prints for each
# thing that it timed the best speed and the ratio to that of serde_json, which reads a JSON text in the same run.
# Needs `rt`. beside_json.sh FOLDER ORDER LINE..: the folder with the program, the order of the rows, and for each crate
# that is needed a line of crates.txt; the last line is that of the program, bench_FOLDER.
set -euo pipefail
here="$(cd "$(dirname "$0")" && pwd)"
folder="$1"
order="$2"
shift 2
work="$(mktemp -d)"
trap 'rm -rf "$work"' EXIT
crate="$work/repo/crates/bench_$folder"
mkdir -p "$crate/src"
for line in "$@"; do
    name="${line%%:*}"
    [ "$name" = "bench_$folder" ] || cp -r "$here/../crates/$name" "$work/repo/crates/"
    echo "$line" >> "$work/repo/crates.txt"
done
cp "$here/$folder/main.rt.txt" "$crate/src/main.rt"
program="$crate/out/bench_$folder"
(cd "$crate" && rt run) > "$work/log" 2>&1 || [ -x "$program" ] || { tail -20 "$work/log"; exit 1; }
"$program" > "$work/times"
awk -v order="$order" '
    !($1 in best) || $3 < best[$1] { best[$1] = $3; size[$1] = $2 }
    END {
        printf "%-6s %9s %9s %8s %7s\n", "what", "bytes", "us", "MB/s", "ratio"
        json = size["json"] / best["json"]
        n = split(order, rows, " ")
        for (i = 1; i <= n; i++) {
            w = rows[i]
            printf "%-6s %9d %9d %8.1f %7.2f\n", w, size[w], best[w], size[w] / best[w], size[w] / best[w] / json
        }
    }
' "$work/times"
