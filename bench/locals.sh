#!/usr/bin/env bash
# Plans and applies two configurations under a limit of memory, and prints how each run ended, its time, and the most memory that
# it held:
#   unnamed   a large text in a local and 1,999 locals that name it, which nobody names; 200 MB
#   chain     200 locals, each of which names the one before it, the first a large text, and 200 outputs that name the last one;
#             250 MB
# Wants `python3`, and `rt` where `plan` and `apply` aren't built yet. With an argument, the bytes of the text; 999,999 without.
# With two more, the programs in place of those of this source.
set -euo pipefail
here="$(cd "$(dirname "$0")" && pwd)"
size="${1:-999999}"
plan="${2:-$here/../crates/plan/out/plan}"
apply="${3:-$here/../crates/apply/out/apply}"
work="$(mktemp -d)"
trap 'rm -rf "$work"' EXIT
if [ $# -lt 3 ]; then for program in plan apply; do "$here/../bixundor" "$program" --help > "$work/log"; done; fi
python3 - "$size" "$work" << 'END'
import json, sys
text, work = "x" * int(sys.argv[1]), sys.argv[2]
unnamed = {f"l{number:04}": "${local.text}" for number in range(1999)}
chain = {f"l{number:03}": f"${{local.l{number - 1:03}}}" for number in range(1, 200)}
outputs = {f"o{number:03}": {"value": '${local.l199 == ""}'} for number in range(200)}
shapes = {"unnamed": {"locals": {"text": text, **unnamed}}, "chain": {"locals": {"l000": text, **chain}, "output": outputs}}
for shape, configuration in shapes.items():
    with open(f"{work}/{shape}.tf.json", "w") as it:
        json.dump(configuration, it)
END
printf '%-8s %-8s %6s %8s %6s\n' shape program status ms MB
for run in "unnamed 200" "chain 250"; do for program in plan apply; do
    # shellcheck disable=SC2086
    python3 - $run "$program" "${!program}" "$work" << 'END'
import resource, subprocess, sys, time
shape, most, name, program, work = sys.argv[1:]
words = [program, "--config", f"{work}/{shape}.tf.json", "--state", f"{work}/{shape}.tfstate"]
bytes = int(most) * 2**20
start = time.monotonic()
ran = subprocess.run(words, stdout=subprocess.DEVNULL, preexec_fn=lambda: resource.setrlimit(resource.RLIMIT_AS, (bytes, bytes)))
held = resource.getrusage(resource.RUSAGE_CHILDREN).ru_maxrss / 1024
print(f"{shape:8} {name:8} {ran.returncode:6} {1000 * (time.monotonic() - start):8,.0f} {held:6,.0f}")
END
done; done
