#!/usr/bin/env bash
# Fails where a file of specs/ or proofs/ has a hole outside its comments: a '?', alone or before a name, or a probe '{! .. !}'. A name
# may end with a '?', as `yes?` does.
#   tests/no-holes.sh FILE..   these files alone
set -u
cd "$(dirname "$0")/.." || exit 2
files=$(if [ $# -gt 0 ]; then printf '%s\n' "$@"; else find crates -name out -prune -o -name '*.antt' -print | sort; fi)
[ -n "$files" ] || { echo "no file of specs/ or proofs/ was found"; exit 1; }
found=$(echo "$files" | xargs awk '{ line = $0; sub(/--.*/, "", line)
  if (line ~ /(^|[^A-Za-z0-9_-])\?/ || line ~ /\{!/) print FILENAME ":" FNR ": " $0 }') ||
  { echo "not every file could be read"; exit 1; }
if [ -n "$found" ]; then
  echo "$found"
  exit 1
fi
echo "$(echo "$files" | wc -l) files without a hole"
