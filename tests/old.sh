#!/usr/bin/env bash
# An image within the old limits keeps every byte: random lists of calls within document 01's limits, on the library and on plain C
# built with those limits; every answer and byte is compared. That the test can fail: beyond the old limits the two differ.
#     old.sh --archive REVISION|FILE    beside the library of that revision of this repository too, built in a temporary folder, or beside
#                                   an archive libstation.a of it, as a release's source has one: on files from create and sound ones of
#                                   versions 1.0.0 and 1.0.1, by the calls that document 02 left as they were; create's version byte alone
#                                   is set aside; of images that no call made, its check is not compared, which has another meaning since
#                                   02's Job 1. A revision from before docs/PORT.md was written for an older kit, which alone builds it
# Ends with 'N passed, M failed'. CALLS may be set.
set -u
[ ! -f "${2:-}" ] || set -- "$1" "$(realpath "$2")"
cd "$(dirname "$0")" || exit 2
. ./tally.sh
calls=${CALLS:-1000000}
old=build/library-old
lib=${LIB:-../crates/station/out/libstation.a}

# differs PROGRAM WORDS..: the program finds a difference
differs() {
  "$@" >/dev/null 2>&1
  [ $? -eq 1 ]
}

# brought REVISION|FILE ROOM: that library, as libstation.a in the room
brought() {
  if [ -f "$1" ]; then
    cp "$1" "$2/libstation.a"
  else
    mkdir "$2/tree" && git -C .. archive "$1" | tar -x -C "$2/tree" && (cd "$2/tree/crates/station" && rt lib) >"$2/log" 2>&1 &&
      cp "$2/tree/crates/station/out/libstation.a" "$2"
  fi
}

# built REVISION|FILE ROOM: before.o, that library under plain C's names, the rest of it hidden
built() {
  brought "$1" "$2" && cd "$2" &&
    for call in create add delete lookup count walk check; do echo "bhtf_$call plain_$call"; done >names &&
    cut -d' ' -f2 names >shown && ar x libstation.a && ld -r -o whole.o ./*.o &&
    objcopy --redefine-syms=names --keep-global-symbols=shown whole.o before.o
}

# archive REVISION|FILE: the differential test with that library in plain C's place; plain C has the calls that it did not have
archive() {
  local room status
  room=$(mktemp -d) || return 1
  (built "$1" "$room") && objcopy --weaken build/plain.o "$room/plain.o" &&
    gcc build/differential.o build/differential/*.o build/subject.o build/book.o "$room/before.o" "$room/plain.o" "$lib" \
      -o "$room/program" &&
    "$room/program" --old-limits --old-calls --old-check --calls "$calls" --quiet
  status=$?
  rm -rf "$room"
  return $status
}

test_that "library and plain C with the old limits, within them" $old --old-limits --calls "$calls" --quiet
test_that "beyond them they differ" differs $old --calls "$calls" --quiet
[ "${1:-}" != --archive ] || test_that "library and the library of $2, within the old limits" archive "$2"
tally
