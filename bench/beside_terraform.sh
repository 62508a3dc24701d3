#!/usr/bin/env bash
# Times plans and applies of growing configurations by the programs `plan` and `apply` and by Terraform with its built-in
# `terraform_data`, in turn, in one run: a plan from nothing, an apply, and a plan after it. Prints the best wall-clock time of each,
# the processor time and the largest memory of that run. Wants `terraform` and `python3` on the path, and the proved programs below
# crates/ (`./bixundor apply --help` builds them); or takes the two programs as its arguments.
# beside_terraform.sh [PLAN APPLY]; SHAPES, SIZES and SECONDS_EACH (the limit of a run) are read from the environment.
set -euo pipefail
here="$(cd "$(dirname "$0")" && pwd)"
command -v terraform > /dev/null || { echo "beside_terraform.sh: there is no terraform on the path" >&2; exit 1; }
exec python3 "$here/beside_terraform/time.py" \
    "${1:-$here/../crates/plan/out/plan}" "${2:-$here/../crates/apply/out/apply}"
