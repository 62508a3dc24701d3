#!/usr/bin/env bash
# Times applies by the provider sim of 500 and 2,000 blocks in layers, without a log and with one, in the same run. The log is in
# memory (/dev/shm), so that the figures show its cost without a disk. Prints the best of seven times each and the ratio. Needs `rt`
# and `python3`; works in a copy of the repository, with its proved and built crates, and first proves and builds the rest.
set -euo pipefail
here="$(cd "$(dirname "$0")" && pwd)"
work="$(mktemp -d)"
shm="$(mktemp -d /dev/shm/log-XXXXXX)"
trap 'rm -rf "$work" "$shm"' EXIT
cp -r "$here/.." "$work/repo"
mkdir -p "$work/repo/crates/bench_log/src"
cp "$here/log/main.rt.txt" "$work/repo/crates/bench_log/src/main.rt"
echo 'bench_log: tf_cli tf_provider_log tf_cli_files tf_provider tf_provider_sim anyhow' >> "$work/repo/crates.txt"
"$work/repo/tools/prove" bench_log > "$work/log" 2>&1 || { tail -20 "$work/log"; exit 1; }
program="$work/repo/crates/bench_log/out/bench_log"
python3 "$here/runs/make.py" layers 1 > "$work/config"
(cd "$work/repo/crates/bench_log" && rt run < "$work/config") > "$work/log" 2>&1 || { tail -20 "$work/log"; exit 1; }
printf '%6s %7s %11s %11s %6s\n' blocks workers 'plain (us)' 'logged (us)' ratio
for blocks in 500 2000; do
    python3 "$here/runs/make.py" layers "$blocks" > "$work/config"
    (cd "$shm" && "$program" < "$work/config") | awk -v blocks="$blocks" '
        !(($1, $2) in best) || $3 < best[$1, $2] { best[$1, $2] = $3 }
        END { for (n = 1; n <= 10; n += 9) printf "%6d %7d %11d %11d %6.2f\n", blocks, n, best["plain", n], best["logged", n], best["logged", n] / best["plain", n] }'
done
