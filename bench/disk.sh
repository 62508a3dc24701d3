#!/usr/bin/env bash
# Times applies of 2,000 blocks by one and by ten workers, with the state and its log on a disk and in memory, in one run: what the
# syncs of the log cost. Prints the best of five times each, and how often the log was synced if `strace` is there. Several versions
# of the program `apply` run in turn, to compare them; without arguments, the proved program below crates/. Wants `python3`.
# disk.sh [APPLY ..]; the folder on the disk is made in $TMPDIR.
set -euo pipefail
here="$(cd "$(dirname "$0")" && pwd)"
[ $# -gt 0 ] || set -- "$here/../crates/apply/out/apply"
exec python3 "$here/disk/time.py" "$@"
