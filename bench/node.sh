#!/usr/bin/env bash
# Plays each scenario of examples/ many times in threads, with 1 to 16 workers a side in turn, and compares what is printed. Scenarios are left out in which a
# reorganisation forgets transactions: their height may depend on what was released by then. Prints a line for each scenario, and the clock of a long one.
#
#   bench/node.sh [RUNS [PROGRAM [EVENTS]]]   1,000 runs of each by default, of `./enforce`, and 10,000 events
#
# Status 1 where two runs differ, one fails or one takes longer than 60 seconds.
set -uo pipefail
cd "$(dirname "$0")/.." || exit 1
runs=${1:-1000}
program=${2:-./enforce}
events=${3:-10000}
failed=0
declare -A answers
room=$(mktemp -d)
trap 'rm -rf "$room"' EXIT

for file in examples/*.json; do
  if grep -Eq '\["reorg", *[0-9]+, *[1-9]' "$file"; then continue; fi
  ended=0
  answers=()
  for ((run = 0; run < runs; run++)); do
    if timeout 60 "$program" node $((run % 16 + 1)) <"$file" >"$room/answer" 2>/dev/null; then ended=$((ended + 1)); fi
    # no other program: a run takes a few milliseconds
    mapfile -d '' -t answer <"$room/answer"
    answers["answer ${answer[0]-}"]=1
  done
  echo "$file: $ended of $runs runs ended, ${#answers[@]} answers"
  if ((ended != runs || ${#answers[@]} != 1)); then failed=1; fi
done

bench/worlds.py --scenario "$events" >"$room/long.json"
for words in run 'node 1' 'node 2' 'node 4' 'node 8'; do
  started=$EPOCHREALTIME
  # the words are two where a number follows
  "$program" $words <"$room/long.json" >/dev/null 2>&1 || failed=1
  ended=$EPOCHREALTIME
  echo "$events events, enforce $words: $(((${ended/./} - ${started/./}) / 1000)) ms by the clock"
done
exit $failed
