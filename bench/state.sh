#!/usr/bin/env bash
# Times tf_state's read and write, and serde_json's parse and print of the same text, for states of several shapes.
# Prints the best of three times each and the ratio, and the most memory in bytes that a run of either alone used,
# including the text. Needs `rt` and `python3`; works in a folder of its own.
# The argument is the least size of the texts in MB; without one, it is 40.
set -euo pipefail
here="$(cd "$(dirname "$0")" && pwd)"
megabytes="${1:-40}"
work="$(mktemp -d)"
trap 'rm -rf "$work"' EXIT
mkdir -p "$work/repo/crates/bench_state/src"
for crate in tf_config_address tf_value_data tf_value_json tf_state_data tf_state; do cp -r "$here/../crates/$crate" "$work/repo/crates/"; done
cp "$here/state/main.rt.txt" "$work/repo/crates/bench_state/src/main.rt"
{ grep -E '^(tf_config_address|tf_value_data|tf_value_json|tf_state_data|tf_state):' "$here/../crates.txt"; echo 'bench_state: tf_state serde_json anyhow'; } > "$work/repo/crates.txt"
program="$work/repo/crates/bench_state/out/bench_state"
(cd "$work/repo/crates/bench_state" && rt run < /dev/null) > "$work/log" 2>&1 || [ -x "$program" ] || { tail -20 "$work/log"; exit 1; }
peak() { python3 -c 'import resource, subprocess, sys; subprocess.check_call(sys.argv[1:], stdout=subprocess.DEVNULL); print(1024 * resource.getrusage(resource.RUSAGE_CHILDREN).ru_maxrss)' "$program" "$1" < "$work/text"; }
printf '%-10s %10s %-8s %12s %-8s %12s %7s\n' shape bytes json us state us ratio
for shape in counted named dependent values; do
    python3 "$here/state/make.py" "$shape" "$megabytes" | "$program" text > "$work/text"
    "$program" < "$work/text" > "$work/times"
    awk -v shape="$shape" -v json="$(peak json)" -v state="$(peak state)" '
        $1 == "bytes" { bytes = $2 }
        $1 == "same" && $2 != "true" { print shape, "was not written as it was read"; exit 1 }
        $1 ~ /^(parse|print|read|write)$/ { if (!($1 in best) || $2 < best[$1]) best[$1] = $2 }
        END {
            printf "%-10s %10d %-8s %12d %-8s %12d %7.2f\n", shape, bytes, "parse", best["parse"], "read", best["read"], best["read"] / best["parse"]
            printf "%-10s %10d %-8s %12d %-8s %12d %7.2f\n", shape, bytes, "print", best["print"], "write", best["write"], best["write"] / best["print"]
            printf "%-10s %10d %-8s %12d %-8s %12d %7.2f\n", shape, bytes, "memory", json, "memory", state, state / json }
    ' "$work/times"
done
