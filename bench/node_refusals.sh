#!/usr/bin/env bash
# Plays the cheater of examples/ by `enforce node 2` with each of its allocations refused in turn, and a scenario of two channels with each of its threads. Each run has to end
# within 10 seconds and print the whole answer, or that memory ran out. Prints how many runs did which. Wants a C compiler.
#
#   bench/node_refusals.sh PROGRAM [STEP]   the program itself, not the command ./enforce; every STEP-th allocation alone
set -uo pipefail
cd "$(dirname "$0")/.." || exit 1
program=$1
step=${2:-1}
room=$(mktemp -d)
trap 'rm -rf "$room"' EXIT
cc -shared -fPIC -O2 -o "$room/heap.so" .ci/refuse.c -ldl
cc -shared -fPIC -O2 -o "$room/threads.so" bench/threads.c -ldl

# how_many LIBRARY VARIABLE: of how many it tells in a run that is refused nothing; the number differs from run to run, as the threads do
how_many() {
  env LD_PRELOAD="$room/$1" "$2=0" "$program" node 2 <"$scenario" 2>&1 >/dev/null | tail -n 1
}

# try LIBRARY VARIABLE NUMBER: one run with that refusal
try() {
  env LD_PRELOAD="$room/$1" "$2=$3" timeout 10 "$program" node 2 <"$scenario" >"$room/answer" 2>/dev/null
  local status=$?
  if ((status == 0)) && cmp -s "$room/answer" "$room/whole"; then whole=$((whole + 1))
  elif ((status == 1)) && [[ $(cat "$room/answer") == 'refused NoMemory' ]]; then refused=$((refused + 1))
  else
    failed=$((failed + 1))
    echo "$1, refusal $3: status $status, $(head -n 1 "$room/answer")"
  fi
}

# try_all LIBRARY VARIABLE STEP SCENARIO
try_all() {
  local most number scenario=examples/$4.json
  "$program" node 2 <"$scenario" >"$room/whole" || exit 1
  most=$(how_many "$1" "$2")
  if [[ ! $most =~ ^[0-9]+$ ]]; then
    echo "$1: left out, since the program tells of none"
    return
  fi
  whole=0 refused=0 failed=0
  for ((number = 1; number <= most + 5; number += $3)); do try "$1" "$2" "$number"; done
  echo "$1: of $most, $whole runs printed the whole answer, $refused that memory ran out, $failed neither"
  all=$((all + failed))
}

all=0
try_all heap.so REFUSE "$step" cheater
try_all threads.so REFUSE_THREAD 1 one_preimage_two_channels
((all == 0))
