#!/usr/bin/env bash
# Instructions of one call by plain C, by tuned C and by the library, counted by callgrind inside the call alone: they do not depend
# on what else the machine does. The program must have been built (run.sh does).
#   bench/once.sh PROGRAM CALL WORD WORD      the call as the program makes it: columns store_columns or read_columns WIDTH RECORDS,
#                                             ranges select K SLOTS, epochs at_epoch K SLOTS
# Prints a Markdown line: the call, the words, the library's over those of the C program with fewer, and the three numbers.
set -u
[ $# -eq 4 ] || exit 2
cd "$(dirname "$0")/.." || exit 2
work=$(mktemp -d) || exit 2
trap 'rm -rf "$work"' EXIT

# instructions SUBJECT PREFIX PROGRAM CALL WORD WORD
instructions() {
  valgrind -q --tool=callgrind --toggle-collect="$2_$4" --callgrind-out-file="$work/out" "target/bench/$3" once "$1" "$5" "$6" \
    >"$work/said" || { cat "$work/said" >&2; return 1; }
  sed -n 's/^\(totals\|summary\): \([0-9]*\).*/\2/p' "$work/out" | head -n 1
}

plain=$(instructions plain plain "$@") && tuned=$(instructions tuned tuned "$@") && library=$(instructions library bhtf "$@") || exit 1
awk -v call="$2" -v one="$3" -v two="$4" -v plain="$plain" -v tuned="$tuned" -v library="$library" 'BEGIN {
  fewer = plain < tuned ? plain : tuned
  if (fewer == 0) exit 1
  printf "| %s | %s | %s | %.2f | %d | %d | %d |\n", call, one, two, library / fewer, plain, tuned, library
}'
