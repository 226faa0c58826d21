#!/usr/bin/env bash
# Answers the position files of this folder with one worker, by the best move and by the values of all moves, and prints for each
# its lines, the seconds it took, and the lines in a second. On a terminal a bar follows: ten marks longer where ten times
# as many lines are answered in a second. Then it prints how many instructions `solve` takes, and how many mispredicted branches, if
# valgrind is installed; they don't change with the machine. The program is the first argument, further ones are handed to `solve` and
# `values`.
set -eu
here=$(cd "$(dirname "$0")" && pwd)
program=$(realpath "$1")
shift
cd "$here"
on_terminal=0
if [ -t 1 ]; then on_terminal=1; fi
for subcommand in solve values; do
  for set in endings middles openings; do
    begun=$(date +%s%N)
    "$program" "$subcommand" --workers 1 "$@" "$set.txt" > /dev/null || [ $? = 1 ]
    ended=$(date +%s%N)
    awk -v name="$subcommand $set" -v lines="$(wc -l < "$set.txt")" -v ns="$((ended - begun))" -v on_terminal="$on_terminal" \
      'BEGIN {
        rate = lines / (ns / 1e9)
        for (marks = on_terminal * 10 * log(rate) / log(10); marks >= 1; marks--) bar = bar "="
        printf "%-16s %5d lines %8.3f s %9.1f lines/s%s\n", name, lines, ns / 1e9, rate, bar ? "  " bar : ""
      }'
  done
done
command -v valgrind > /dev/null || exit 0
for set in endings middles openings; do
  valgrind --tool=cachegrind --branch-sim=yes --cachegrind-out-file=/dev/null "$program" solve --workers 1 "$@" "$set.txt" \
    2>&1 > /dev/null | tr -d , | awk -v name="solve $set" '
      /I *refs:/ { instructions = $NF }
      /Mispredicts:/ { mispredicts = $3 }
      END { printf "%-16s %8.1f million instructions %8.3f million mispredicts\n", name, instructions / 1e6, mispredicts / 1e6 }'
done
