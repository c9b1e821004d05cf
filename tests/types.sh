#!/usr/bin/env bash
# An absolute offset and a slot number are two types: code that hands over one for the other must not compile.
# Each case edits a copy of the crates; the compiler must refuse it with a type error before any proof is looked at: rt reads the sources of the
# crates below first, where these are not proved yet. The last line is 'N passed, M failed'.
set -u
cd "$(dirname "$0")/.." || exit 2
work=$(mktemp -d)
trap 'rm -rf "$work"' EXIT
. tests/tally.sh
. tests/edited.sh

# refused CRATE FILE OLD NEW: the edit does not compile
refused() {
  local crate=$1 file=crates/$1/src/$2 old=$3 new=$4 out
  rm -rf "$work/repo"
  mkdir "$work/repo"
  tar -c --exclude=out --exclude=must-fail crates.txt crates | tar -x -C "$work/repo"
  if ! edited "$old" "$new" "$file" >"$work/repo/$file"; then
    failed=$((failed + 1))
    echo "FAILED: '$old' does not stand once in $file"
    return
  fi
  out=$(cd "$work/repo/crates/$crate" && timeout 900 rt check 2>&1)
  if [ $? -ne 0 ] && grep -qE 'error\[(type-mismatch|mismatched-types|types?-[a-z-]*|[a-z-]*mismatch[a-z-]*)\]' <<<"$out"; then
    passed=$((passed + 1))
    echo "ok: $crate/$2 with '$new' does not compile"
  else
    failed=$((failed + 1))
    echo "FAILED: $crate/$2 with '$new'"
    grep -E 'error|rt:' <<<"$out" | head -n 5
  fi
}

refused table_search lib.rt 'Slot::new((h as usize) % slots)' 'Offset::new((h as usize) % slots)'
refused call_lookup lib.rt 'message_sound(image, shape, o)' 'message_sound(image, shape, slot)'
refused call_delete lib.rt 'close(image, shape, i)' 'close(image, shape, o)'

tally
