#!/usr/bin/env bash
# Times tf_graph and a plain C++ program that makes the same calls, on graphs of five shapes, and prints both times
# and their ratio. Needs `rt` and `g++`; works in a folder of its own.
set -euo pipefail
here="$(cd "$(dirname "$0")" && pwd)"
work="$(mktemp -d)"
trap 'rm -rf "$work"' EXIT
mkdir -p "$work/repo/crates/bench_graph/src"
cp -r "$here/../crates/tf_graph" "$work/repo/crates/"
cp "$here/graph/main.rt.txt" "$work/repo/crates/bench_graph/src/main.rt"
printf 'tf_graph:\nbench_graph: tf_graph anyhow\n' > "$work/repo/crates.txt"
g++ -O2 -std=c++17 -o "$work/yardstick" "$here/graph/yardstick.cpp"
(cd "$work/repo/crates/tf_graph" && rt lib) > "$work/log" 2>&1 || { tail -20 "$work/log"; exit 1; }
program="$work/repo/crates/bench_graph/out/bench_graph"
(cd "$work/repo/crates/bench_graph" && rt run) > "$work/log" 2>&1 || [ -x "$program" ] || { tail -20 "$work/log"; exit 1; }
printf '%-8s %-11s %12s %12s %7s\n' shape call 'Rattle (us)' 'C++ (us)' ratio
for shape in chain ring star layered dense; do
    "$work/yardstick" make "$shape" > "$work/graph"
    for turn in 1 2 3; do
        "$program" < "$work/graph" > "$work/a.$turn"
        "$work/yardstick" run < "$work/graph" > "$work/b.$turn"
    done
    for call in new neighbours strip closure; do
        awk -v shape="$shape" -v call="$call" '
            $1 == call { which = FILENAME ~ /\/a\.[0-9]$/ ? "a" : "b"
                if (!(which in best) || $2 < best[which]) best[which] = $2
                if (answer == "") answer = $3
                if (answer != $3) { print shape, call, "the answers differ:", answer, $3; exit 1 } }
            END { printf "%-8s %-11s %12d %12d %7.2f\n", shape, call, best["a"], best["b"], (best["a"] + 1) / (best["b"] + 1) }
        ' "$work"/a.? "$work"/b.?
    done
done
