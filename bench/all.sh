#!/usr/bin/env bash
# Runs every benchmark on proved programs, one after another, and prints one table: what was measured, its bound, and whether it was held.
# First `.ci/program --all` proves what is not proved yet, in a copy of the repository; on an idle machine the rest takes some minutes. Status 1 where a bound was passed or a benchmark failed.
set -uo pipefail
cd "$(dirname "$0")/.."
BOUNDS=$(mktemp)
export BOUNDS
trap 'rm -f "$BOUNDS"' EXIT
.ci/program --all || exit 1
failed=()
for benchmark in ripemd160.sh costs.sh instances.py commitments.py least.py channels.py penalties.py books.py growth.py worlds.py scenarios.py looks.py calls.py; do
  echo "== bench/$benchmark"
  "bench/$benchmark" || failed+=("bench/$benchmark")
done
echo
echo "$(date -u +%Y-%m-%d), $(sed -n 's/^model name[^:]*: //p' /proc/cpuinfo | head -n 1), commit $(git rev-parse --short HEAD), load $(cut -d' ' -f1 /proc/loadavg)"
echo
echo '| What | Measured | Bound | Held |'
echo '|---|---|---|---|'
while IFS=$'\t' read -r what measured bound held; do
  echo "| $what | $measured | $bound | $([[ $held == held ]] && echo yes || echo '**no**') |"
done <"$BOUNDS"
bounds=$(wc -l <"$BOUNDS") held=$(grep -c 'held$' "$BOUNDS")
echo
echo "bench: $bounds bounds, $held held, ${#failed[@]} benchmarks failed${failed[*]:+: ${failed[*]}}"
((held == bounds && ${#failed[@]} == 0))
