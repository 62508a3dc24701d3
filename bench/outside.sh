#!/usr/bin/env bash
# Times applies with the provider `sim` compiled in, with the same provider as another program (tools/sim.py), and that provider alone on
# the same requests, in one run: by 1, 10 and 64 workers, or requests in flight. Prints the least time of each and the ratios. The state
# and its log are in memory (/dev/shm), so that no sync waits for a disk. Wants `python3`.
# outside.sh [APPLY [BLOCKS [TIMES]]]: the program, by default the proved one below crates/; the number of blocks, 2000; the runs, 3.
set -euo pipefail
here="$(cd "$(dirname "$0")" && pwd)"
exec python3 "$here/outside/time.py" "${1:-$here/../crates/apply/out/apply}" "${2:-2000}" "${3:-3}"
