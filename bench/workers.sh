#!/usr/bin/env bash
# Times the walk of plans by 1, 2 and 4 workers, and a plain loop of threads in C++ that steal work from one another over the
# same graph, with calls that answer at once and calls that take 50 microseconds. Prints the nanoseconds of both for each
# action, their ratio, and for both how long a walk takes compared with one worker. Needs `rt`, `g++` and `python3`; works in a
# copy of the repository, with its proved and built crates, and first proves and builds the rest.
set -euo pipefail
here="$(cd "$(dirname "$0")" && pwd)"
work="$(mktemp -d)"
trap 'rm -rf "$work"' EXIT
cp -r "$here/.." "$work/repo"
mkdir -p "$work/repo/crates/bench_workers/src"
cp "$here/workers/main.rt.txt" "$work/repo/crates/bench_workers/src/main.rt"
echo 'bench_workers: tf_cli_inputs tf_plan_planner tf_provider tf_walk_report tf_walk tf_provider_sim tf_walk_action anyhow' >> "$work/repo/crates.txt"
"$work/repo/tools/prove" bench_workers > "$work/log" 2>&1 || { tail -20 "$work/log"; exit 1; }
g++ -O2 -std=c++17 -pthread -o "$work/yardstick" "$here/workers/yardstick.cpp"
program="$work/repo/crates/bench_workers/out/bench_workers"
python3 "$here/runs/make.py" independent 1 > "$work/config"
(cd "$work/repo/crates/bench_workers" && { echo 0 1; cat "$work/config"; } | rt run) > "$work/log" 2>&1 || { tail -20 "$work/log"; exit 1; }

least() { sort -n "$1" | head -1 | cut -d' ' -f1; }

# How often each looks at a word in a microsecond, at best: found out once, so that each walk has the same calls.
most() { sort -n | tail -1; }
ours_each="$(for _ in 1 2 3 4 5; do echo 0 0 | "$program"; done | most)"
theirs_each="$(for _ in 1 2 3 4 5; do "$work/yardstick"; done | most)"
printf '%-12s %6s %5s %7s %12s %10s %7s %8s %8s\n' shape blocks us workers 'Rattle (ns)' 'C++ (ns)' ratio 'of one' 'C++ of one'
for shape in independent chains layers; do
    blocks=1000
    python3 "$here/runs/make.py" "$shape" "$blocks" > "$work/config"
    { echo 0 0; cat "$work/config"; } | "$program" > "$work/graph"
    for micros in 0 50; do
        for workers in 1 2 4; do
            : > "$work/a"
            : > "$work/b"
            # In turns, as the machine isn't equally quick all the time.
            for _ in 1 2 3; do
                { echo "$((micros * ours_each)) $workers"; cat "$work/config"; } | "$program" >> "$work/a"
                "$work/yardstick" "$workers" "$((micros * theirs_each))" < "$work/graph" >> "$work/b"
            done
            ours="$(least "$work/a")" theirs="$(least "$work/b")"
            [ "$workers" = 1 ] && one="$ours" their_one="$theirs"
            awk -v s="$shape" -v n="$blocks" -v u="$micros" -v w="$workers" -v a="$ours" -v b="$theirs" -v one="$one" -v their="$their_one" \
                'BEGIN { printf "%-12s %6d %5d %7d %12.0f %10.0f %7.2f %8.2f %8.2f\n", s, n, u, w, a / n, b / n, a / b, a / one, b / their }'
        done
    done
done
