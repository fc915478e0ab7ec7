#!/usr/bin/env bash
# Makes a new folder with 300 registers of 20 to 24 records, to try the guide's commands on. One in ten is broken: its
# fields are separated by semicolons (010.csv, 040.csv ..), a title stands above its header (020.csv, 050.csv ..), or
# the quote of its third record is never closed (030.csv, 060.csv ..).
# Usage: bash examples/many.sh FOLDER
set -eu
mkdir "$1"

# Prints register K, not broken.
whole() {
  local n
  echo id,calendar,date
  for ((n = 1; n <= 20 + $1 % 5; n++)); do
    printf '%03d-%d,julian,%d-2-%d\n' "$1" "$n" $((1500 + $1)) $((9 + n))
  done
}

for ((k = 1; k <= 300; k++)); do
  case $((k % 10 ? 0 : (k / 10 - 1) % 3 + 1)) in
    0) whole "$k" ;;
    1) whole "$k" | tr , ';' ;;
    2) echo "Register of $((1500 + k))" && whole "$k" ;;
    3) whole "$k" | sed '4s/^/"/' ;;
  esac > "$1/$(printf %03d "$k").csv"
done
