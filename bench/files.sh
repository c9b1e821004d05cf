#!/usr/bin/env bash
# The file layer beside tdb and LMDB, with syncing on, in a directory on a disk.
#
#   bench/files.sh [DIRECTORY]   target/bench unless given; writes bench/files.md
#                                and that section of docs/PERFORMANCE.md
#     --quick                    a small run as a test; writes nothing
#     LIB=path                   of the proved library
set -u
quick=0
[ "${1:-}" = --quick ] && { quick=1; shift; }
LIB=${LIB:-crates/station/out/libstation.a}
cd "$(dirname "$0")/.." || exit 2
LIB=$(realpath "$LIB") || exit 2
directory=${1:-target/bench}
mkdir -p "$directory" || exit 2
place=$(mktemp -d "$directory/files.XXXXXX")
trap 'rm -rf "$place"' EXIT

make -s -C host OUT="$PWD/target/bench/host" LIB="$LIB" >/dev/null || exit 1
gcc -std=c99 -O2 -D_POSIX_C_SOURCE=200809L -Wall -Wextra -Werror -pedantic bench/files.c target/bench/host/libbhtf.a -ltdb -llmdb \
  -o target/bench/files || exit 1
if [ "$quick" = 1 ]; then
  target/bench/files "$place" 5 1000
  exit
fi
target/bench/files "$place" 200 10000 >"$place/times" || exit 1

# of WHAT WHO: its time
of() { awk -F '\t' -v what="$1" -v who="$2" '$1 == what && $2 == who { print $3 }' "$place/times"; }
# row WORDS WHAT: the times of the three, and the layer's over the others'
row() {
  local layer tdb lmdb
  layer=$(of "$2" "file layer") tdb=$(of "$2" tdb) lmdb=$(of "$2" LMDB)
  awk -v words="$1" -v a="$layer" -v b="$tdb" -v c="$lmdb" \
    'function say(t) { return sprintf(t < 100 ? "%.1f" : "%.0f", t) }
    BEGIN { printf "| %s | %s | %s | %s | %.2f | %.2f |\n", words, say(a), say(b), say(c), a / b, a / c }'
}
{
  cat bench/files-head.md
  row "single add, on the disk before the next" "single add, synced"
  row "add in a batch of 10,000, one change" "add in a batch of 10000, synced once"
  printf '\n| Lookup | µs | over the bare call |\n|---|---:|---:|\n'
  bare=$(of lookup "bare call")
  for who in "bare call" "file layer, held open" "file layer, refreshed for each"; do
    awk -v who="$who" -v a="$(of lookup "$who")" -v b="$bare" 'BEGIN { printf "| %s | %.3g | %.2f |\n", who, a, a / b }'
  done
} >bench/files.md
awk -v section=bench/files.md '
  /^## On a disk/ { old = 1; next }
  /^## / { old = 0 }
  /^## How cost grows/ { while ((getline line < section) > 0) print line; print "" }
  !old' docs/PERFORMANCE.md >"$place/page.md" && cp "$place/page.md" docs/PERFORMANCE.md
cat bench/files.md
