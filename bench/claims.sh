#!/usr/bin/env bash
# Times tf_claim's shared claims and a plain C++ program with std::atomic that does the same, on 1, 2 and 4 threads
# with graphs of three shapes, and prints the nanoseconds of both for each action and their ratio. Then it times the
# three layouts of the C++ program's words. Needs `rt` and `g++`; works in a folder of its own.
set -euo pipefail
here="$(cd "$(dirname "$0")" && pwd)"
work="$(mktemp -d)"
trap 'rm -rf "$work"' EXIT
mkdir -p "$work/repo/crates/bench_claims/src"
cp -r "$here/../crates/tf_graph" "$here/../crates/tf_claim" "$work/repo/crates/"
cp "$here/claims/main.rt.txt" "$work/repo/crates/bench_claims/src/main.rt"
printf 'tf_graph:\ntf_claim: tf_graph atomic_table\nbench_claims: tf_graph tf_claim anyhow\n' > "$work/repo/crates.txt"
printf 'Handles allowed: Threads, Wait.\n' > "$work/repo/HANDLES"
g++ -O2 -std=c++17 -pthread -o "$work/yardstick" "$here/claims/yardstick.cpp"
for library in tf_graph tf_claim; do
    (cd "$work/repo/crates/$library" && rt lib) > "$work/log" 2>&1 || { tail -20 "$work/log"; exit 1; }
done
program="$work/repo/crates/bench_claims/out/bench_claims"
(cd "$work/repo/crates/bench_claims" && rt run) > "$work/log" 2>&1 || [ -x "$program" ] || { tail -20 "$work/log"; exit 1; }

# The least of some times for each action, and the steps, which have to be the same each time.
best() {
    awk -v nodes="$2" '
        NR == 1 || $1 < least { least = $1 }
        NR == 1 { steps = $2 }
        $2 != steps { print "the steps differ:", $2, steps > "/dev/stderr"; exit 1 }
        END { printf "%.1f %d", least / nodes, steps }' "$1"
}

printf '%-12s %8s %8s %12s %12s %7s\n' shape threads steps 'Rattle (ns)' 'C++ (ns)' ratio
for shape in independent contended layered dense; do
    manner=0 word=each
    if [ "$shape" = contended ]; then manner=1 word=all; fi
    "$work/yardstick" make "$shape" > "$work/graph"
    nodes="$(head -1 "$work/graph")"
    for threads in 1 2 4; do
        : > "$work/a"; : > "$work/b"
        for turn in 1 2 3; do
            { echo "$threads $manner"; cat "$work/graph"; } | "$program" >> "$work/a"
            "$work/yardstick" run "$threads" "$word" < "$work/graph" >> "$work/b"
        done
        read -r ours steps <<< "$(best "$work/a" "$nodes")"
        read -r theirs same <<< "$(best "$work/b" "$nodes")"
        [ "$steps" = "$same" ] || { echo "$shape: the steps differ: $steps $same"; exit 1; }
        awk -v s="$shape" -v t="$threads" -v n="$steps" -v a="$ours" -v b="$theirs" \
            'BEGIN { printf "%-12s %8d %8d %12.1f %12.1f %7.2f\n", s, t, n, a, b, a / b }'
    done
done

printf '\n%-12s %8s %12s %12s %12s\n' 'C++ (ns)' threads spaced paired apart
for shape in independent layered dense; do
    "$work/yardstick" make "$shape" > "$work/graph"
    nodes="$(head -1 "$work/graph")"
    for threads in 1 2 4; do
        printf '%-12s %8d' "$shape" "$threads"
        for layout in spaced paired apart; do
            : > "$work/b"
            for turn in 1 2 3; do "$work/yardstick" run "$threads" each "$layout" < "$work/graph" >> "$work/b"; done
            read -r theirs _ <<< "$(best "$work/b" "$nodes")"
            printf ' %12.1f' "$theirs"
        done
        printf '\n'
    done
done
