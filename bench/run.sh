#!/usr/bin/env bash
# run.sh RUNS ONLY FOLDER PROGRAM..: runs the programs RUNS times with the word ONLY, keeps what each run printed in FOLDER, and ends with a line
# on the rows above 1.05.
set -euo pipefail
runs=$1
only=$2
folder=$3
shift 3
rm -f "$folder"/run-*.txt
for ((run = 1; run <= runs; run++)); do
    [ "$runs" -eq 1 ] || printf '\nrun %d of %d\n' "$run" "$runs"
    for program in "$@"; do "$program" $only; done | tee "$folder/run-$run.txt"
done
awk -f "$(dirname "$0")/summary.awk" "$folder"/run-*.txt
