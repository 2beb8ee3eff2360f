#!/bin/sh
# Times a transaction of a block, an input of a transaction and a claim of a filling, each among few and among many, in one
# run. Prints the nanoseconds of each and the ratio. Wants the toolchain's `rt`: `.ci/program` proves and builds bench/programs/timing in a copy of the repository.
set -eu
bench=$(dirname "$0")
program=$("$bench/../.ci/program" timing)
"$program" times | "$bench/bounds.py" \
  'a transaction of a block on 100,000 outputs to one on 100' 'a transaction of a block' ratio most 1.5 \
  'an input of 483 to one of 10' 'an input of a transaction' ratio most 2 \
  'a claim of a filling of 966 to one of 10' 'a claim of a filling' ratio most 3
