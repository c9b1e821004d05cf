#!/usr/bin/env bash
# The library's hash against FNV-1: the published vectors, and PHP's own FNV-1 on names of 1 to 32 bytes.
#   tests/fnv.sh [PROGRAM]   build/library-fnv unless given
#     SEED=n COUNT=n         of the names, and how many of each size (at least 3)
# The last line is 'N passed, M failed'.
set -u
usage() {
  sed -n '3,4s/^# *//p' "$0" >&2
  exit 2
}
program=${1:-build/library-fnv}
seed=${SEED:-$((RANDOM * 32768 + RANDOM))}
count=${COUNT:-50}
case $seed$count in *[!0-9]*) usage ;; esac
[ "$count" -ge 3 ] || usage
cd "$(dirname "$0")" || exit 2
[ -x "$program" ] || { echo "$program is missing: run make" >&2; exit 2; }
. ./tally.sh
work=$(mktemp -d)
trap 'rm -rf "$work"' EXIT

echo "seed $seed, $count names of each size"
php fnv.php names "$seed" "$count" >"$work/names" && cat fnv-published.txt "$work/names" >"$work/lines" || exit 2
test_that "PHP's FNV-1 is the published one" cmp -s fnv-published.txt <(php fnv.php again <fnv-published.txt)
test_that "the published names have 1 to 17, 20 and 32 bytes" \
  [ "$(awk '{ print length($1) / 2 }' fnv-published.txt | sort -nu | tr '\n' ' ')" = "$(echo {1..17} 20 32) " ]
test_that "there are $count names of each size" [ "$(wc -l <"$work/names")" -eq $((32 * count)) ]

# One hash made wrong in its last digit: that line must be found, and no other.
awk 'NR == 40 { $2 = substr($2, 1, 7) ($2 ~ /0$/ ? "1" : "0") } 1' "$work/lines" >"$work/wrong"
test_that "a wrong hash is found" [ "$("$program" <"$work/wrong" | tail -n 1)" = "$(($(wc -l <"$work/lines") - 1)) passed, 1 failed" ]

"$program" <"$work/lines" >"$work/out"
status=$?
head -n -1 "$work/out" | head -n 10
last=$(tail -n 1 "$work/out")
passed=$((passed + ${last%% *}))
last=${last##*, }
failed=$((failed + ${last%% *}))
[ "$status" -eq 0 ] || [ "$failed" -gt 0 ] || failed=1
echo "of these $((32 * count)) random"
echo "of these 4 faults"
tally
