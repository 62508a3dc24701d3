#!/bin/sh
# Runs `apply` on the first example once for each of its allocations, with that one refused, and says how the runs ended;
# by 1 and by 2 workers. So it meets what the program does round the engine, of which tools/refusing refuses each growth.
# The order of two workers' allocations isn't fixed, so the same number may refuse another one in another run. A run that
# ends in a way that loses something, or in none of the stated ways, is printed, and then the status is 1. Needs gcc; build
# the program first: ./bixundor apply --help.
here=$(cd "$(dirname "$0")" && pwd) || exit 1
root=$here/../..
work=$(mktemp -d) || exit 1
trap 'rm -rf "$work"' EXIT
gcc -shared -fPIC -O1 -o "$work/refuse.so" "$here/refuse.c" -ldl || exit 1
apply=${APPLY:-$root/crates/apply/out/apply}

# Runs a program, in a folder of its own, with the allocation of this number refused.
once() {
  number=$1
  shift
  rm -rf "$work/run" && mkdir "$work/run" && cd "$work/run" || exit 1
  timeout 20 env REFUSE="$number" COUNT="$work/count" LD_PRELOAD="$work/refuse.so" "$@" > out 2> err
  status=$?
}

# How a run of apply ended, or nothing where it ended in none of the ways that it may.
end_of_apply() {
  told=$(tr '\n' ' ' < err)
  case "$status,$told" in
    0,) [ -s terraform.tfstate ] && echo "0: done, and the state is written" ;;
    1,"error 15 at memory: OutOfMemory "|1,"error: out of memory "|1,"error: cannot read "*) [ -s out ] || echo "1: $told(nothing called)" ;;
    2,"error 26 at sim_net.office create: no memory ") [ ! -e terraform.tfstate ] && echo "2: $told(nothing created)" ;;
    3,"error: state not written ") [ ! -e terraform.tfstate ] && echo "3: $told(created)" ;;
  esac
}

# Refuses each allocation of a program in turn.
each() {
  once 0 "$@"
  [ "$status" = 0 ] || { echo "$1 doesn't run: status $status" >&2; exit 1; }
  all=$(cat "$work/count") && [ "$all" -gt 0 ] || { echo "$1: its allocations weren't counted" >&2; exit 1; }
  echo "$*: $all allocations"
  : > "$work/ends"
  refused=1
  while [ "$refused" -le "$all" ]; do
    once "$refused" "$@"
    ended=$(end_of_apply)
    if [ -z "$ended" ]; then
      echo "allocation $refused: status $status, $(tr '\n' ' ' < err)"
      bad=1
    else
      echo "$ended" >> "$work/ends"
    fi
    refused=$((refused + 1))
  done
  sort "$work/ends" | uniq -c
}

bad=0
for workers in 1 2; do
  each "$apply" --config "$root/examples/first/main.tf.json" --parallelism "$workers"
done
exit "$bad"
