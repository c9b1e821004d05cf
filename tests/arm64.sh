#!/usr/bin/env bash
# The library for 64-bit ARM: the module that was proved, compiled for it by the kit's compiler (packaging/proved), runs the same test
# programs as on this machine, under qemu's user emulation.
#   tests/arm64.sh          a part of each, in half a minute
#   tests/arm64.sh --all    all of them, with cuts, images of 1 GiB and 1,000,000 random calls: about ten minutes
#   tests/arm64.sh --counts prints how many instructions a call takes there and on x86-64, as a table, and tests nothing
#   PROVED=folder           what packaging/proved made, in place of making it
#   CALLS=n                 random calls; 20,000 and 1,000,000 unless given
# The last line is 'N passed, M failed'.
set -u
all=no counts=no
case ${1:-} in
'') ;;
--all) all=yes ;;
--counts) counts=yes ;;
*) sed -n '4,8s/^# *//p' "$0" >&2; exit 2 ;;
esac
[ -z "${PROVED:-}" ] || PROVED=$(realpath "$PROVED")
cd "$(dirname "$0")/.." || exit 2
.ci/install gcc-aarch64-linux-gnu libc6-dev-arm64-cross qemu-user-static php-cli || exit 2
. tests/tally.sh
work=$(mktemp -d)
trap 'rm -rf "$work"' EXIT
emulator=qemu-aarch64-static
calls=${CALLS:-$([ $all = yes ] && echo 1000000 || echo 20000)}

# programs FOLDER LIB: the test programs over an archive, each with a script of its name in FOLDER that starts it under the emulator
programs() {
  local program
  make -s -C tests all OUT="$1/arm" CC="aarch64-linux-gnu-gcc -static" LIB="$2" INC=../host/include HEADER=bhtf.h || return 1
  for program in "$1"/arm/library-*; do
    printf '#!/bin/sh\nexec %s %s "$@"\n' "$emulator" "$program" >"$1/${program##*/}"
    chmod 755 "$1/${program##*/}"
  done
}

# counted WHAT COMMAND..: a runner whose last line is 'N passed, M failed', which are added here
counted() {
  local what=$1 last
  shift
  echo "-- $what"
  "$@" >"$work/said" 2>&1
  local status=$?
  last=$(tail -n 1 "$work/said")
  case $last in
  *' passed, 0 failed')
    echo "$last"
    passed=$((passed + ${last%% *}))
    grep "^of these" "$work/said"
    [ "$status" -eq 0 ] && return
    ;;
  esac
  failed=$((failed + 1))
  echo "FAILED: $what"
  tail -n 5 "$work/said"
}

proved=${PROVED:-$work/proved}
[ -n "${PROVED:-}" ] || packaging/proved "$proved" || exit 2
archive=$proved/aarch64/libstation.a

# counting MACHINE COMPILER: the program whose calls are counted, and the image on which, as MACHINE prepares it
counting() {
  "$2" -static -std=c99 -O2 -Wall -Wextra -Werror -pedantic -Ihost/include tests/arm64/count.c "$proved/$1/libstation.a" -o "$work/count-$1" &&
    "qemu-$1-static" "$work/count-$1" prepare "$work/image-$1"
}

# steps MACHINE KIND N: instructions of a run, of which the emulator writes a line each
steps() {
  "qemu-$1-static" -singlestep -d exec,nochain -D "$work/log" "$work/count-$1" "$2" "$work/image-$1" "$3" && wc -l <"$work/log"
}

# each MACHINE KIND: instructions of one call, which is the mean of calls 101 to 200; of one check, of the first
each() {
  if [ "$2" = check ]; then
    echo $(($(steps "$1" check 1) - $(steps "$1" none 1)))
  else
    echo $((($(steps "$1" "$2" 200) - $(steps "$1" "$2" 100) - $(steps "$1" none 200) + $(steps "$1" none 100) + 50) / 100))
  fi
}

thousands() { sed -E ':a; s/([0-9])([0-9]{3})($|,)/\1,\2\3/; ta'; }

counting x86_64 gcc && counting aarch64 aarch64-linux-gnu-gcc || exit 2
if [ $counts = yes ]; then
  echo "| Call | x86-64 | 64-bit ARM |"
  echo "|---|---:|---:|"
  while read -r kind words; do
    echo "| $words | $(each x86_64 "$kind" | thousands) | $(each aarch64 "$kind" | thousands) |"
  done <<'END'
hit lookup of a name that is there
miss lookup of one that is not
replace add, in place of a text of the same length
swap delete, and add of another name
check check of the whole image, 2,750 points
END
  exit
fi
test_that "an image that is prepared on ARM has the same bytes" cmp "$work/image-x86_64" "$work/image-aarch64"

machine() { readelf -h "$1" 2>/dev/null | grep -q 'Machine: *AArch64'; }
test_that "the archive is for 64-bit ARM" machine "$archive"
test_that "it says in which logic it was proved" grep -q '^proved by ' <(host/proved-by.sh "$archive")
mkdir "$work/library"
test_that "the test programs build" programs "$work/library" "$archive"
[ "$failed" -eq 0 ] || { tally; exit 1; }
run=$work/library/library

counted "document 01's table and the generator" "$run-table"
counted "each bit of a small image flipped" "$run-bitflip"
counted "files kept from versions 1.0.0 and 1.0.1" "$run-kept" tests/data
counted "the check and compaction on small stacks" "$run-stack"
counted "FNV-1: published vectors, and PHP's" bash tests/fnv.sh "$run-fnv"
random() { "$run-differential" --strict --calls "$calls" --quiet >"$work/said" 2>&1; local s=$?; cat "$work/said"; return $s; }
echo "-- library, plain C and book on random calls"
test_that "library, plain C and book on $calls random calls" random
if [ $all = yes ]; then
  counted "the scramble by formula" bash tests/scramble.sh "$run-scramble"
  counted "cuts at every write of a journaled call, and of recovery" "$run-cut"
  counted "images of 1 GiB, 1,048,576 slots, the longest messages" "$run-large"
fi

# The test's own test: plain C that leaves a deleted point's slot empty, compiled for ARM, is found.
sed 's/^    close_hole(image, &v, slot);$//' tests/reference/plain.c >"$work/faulty.c"
test_that "there is a place for the fault" [ "$(diff tests/reference/plain.c "$work/faulty.c" | grep -c '^<')" -eq 1 ]
names=$(grep -oE -- '-Dplain_[a-z_]+=bhtf_[a-z_]+' tests/as-library.mk)
# shellcheck disable=SC2086
aarch64-linux-gnu-gcc -std=c99 -O2 -Itests/reference $names -c "$work/faulty.c" -o "$work/faulty.o" && ar rcs "$work/faulty.a" "$work/faulty.o"
mkdir "$work/faulty"
test_that "the test programs build over a faulty library" programs "$work/faulty" "$work/faulty.a"
found() {
  local program=$work/faulty/library-$1
  shift
  ! "$program" "$@" >"$work/said" 2>&1
}
of_another() { ! machine "$1"; }
test_that "the table finds the fault" found table
test_that "random calls find the fault" found differential --strict --calls 20000 --quiet
test_that "an archive of another machine's is told" of_another "$proved/x86_64/libstation.a"
echo "of these 3 faults"
tally
