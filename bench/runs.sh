#!/usr/bin/env bash
# Times whole plans and applies by the provider sim, from text to text, for configurations of several sizes and for changes
# of them; and in the same run serde_json's parse of the same configuration and prior state and print of the same state.
# Prints the best of three times each and the ratio. Needs `rt` and `python3`; works in a copy of the repository, with its
# proved and built crates, and first proves and builds the rest.
set -euo pipefail
here="$(cd "$(dirname "$0")" && pwd)"
work="$(mktemp -d)"
trap 'rm -rf "$work"' EXIT
cp -r "$here/.." "$work/repo"
mkdir -p "$work/repo/crates/bench_runs/src"
cp "$here/runs/main.rt.txt" "$work/repo/crates/bench_runs/src/main.rt"
echo 'bench_runs: tf_cli tf_provider tf_provider_sim serde_json anyhow' >> "$work/repo/crates.txt"
"$work/repo/tools/prove" bench_runs > "$work/log" 2>&1 || { tail -20 "$work/log"; exit 1; }
program="$work/repo/crates/bench_runs/out/bench_runs"
python3 "$here/runs/make.py" independent 1 > "$work/config"
(cd "$work/repo/crates/bench_runs" && rt run < "$work/config") > "$work/log" 2>&1 || { tail -20 "$work/log"; exit 1; }
printf '%-18s %6s %8s %8s %10s %10s %10s %7s\n' shape blocks bytes state 'json (us)' 'plan (us)' 'apply (us)' ratio
# Times one configuration with the given number of blocks, or a change of it.
row() {
    local shape="$1" blocks="$2" change="${3:-}"
    python3 "$here/runs/make.py" "$shape" "$blocks" $change > "$work/config"
    "$program" < "$work/config" > "$work/times"
    awk -v shape="$shape $change" -v blocks="$blocks" '
        !($1 in best) || $2 < best[$1] { best[$1] = $2 }
        END {
            printf "%-18s %6d %8d %8d %10d %10d %10d %7.2f\n", shape, blocks, best["bytes"], best["state"], best["json"], best["plan"], best["apply"], best["apply"] / best["json"]
        }' "$work/times"
}

for shape in independent counted chains layers locals part pairs indexed; do
    # With 447 after 447 there are 199,809 pairs of which one is before the other, of 200,000 that there may be.
    case "$shape" in pairs | indexed) sizes="224 447 894" ;; part) sizes="50 100 200" ;; *) sizes="500 1000 2000" ;; esac
    for blocks in $sizes; do
        row "$shape" "$blocks"
    done
done
for shape in counted chains layers; do
    for change in nothing updated replaced swapped destroyed; do
        # There are two actions for each host that is replaced, and 2,000 at most; and 200,000 pairs of which one is before
        # the other, of which 1,000 hosts in layers that are replaced late have more.
        case "$shape $change" in
            "layers swapped") sizes="125 250 500" ;;
            *replaced | *swapped) sizes="250 500 1000" ;;
            *) sizes="500 1000 2000" ;;
        esac
        for blocks in $sizes; do
            row "$shape" "$blocks" "$change"
        done
    done
done
