#!/usr/bin/env bash
# The order of the journal's writes. Each function that does write number k has a contract of its own; that they are called in turn,
# once each, and that nothing else is written, no contract says: a function's contract speaks of its end. So the bodies below are held
# by their text, and three programs that meet every contract, and are unsafe at a cut, are tried and must be seen.
# The last line is 'N passed, M failed'.
set -u
cd "$(dirname "$0")/.." || exit 2
. tests/edited.sh
passed=0
failed=0

# body FILE NAME: what stands between the braces of that function
body() {
  awk -v name="$2" '
    $0 ~ "fn " name "[<(]" { seen = 1 }
    seen && $0 == "}" { exit }
    inside { print }
    seen && $0 == "{" { inside = 1 }' "$1"
}

recover=crates/journal_recover/src/lib.rt
commit=crates/journal_commit/src/lib.rt
calls=crates/journal_calls/src/lib.rt
packed=crates/journal_calls/src/packed.rt

# wanted NAME: that body
wanted() {
  case $1 in
    settle) cat <<'END' ;;
    let mut from = PAIRS_START + PAIR_SIZE * pairs;
    for k in 0..n {
        from = write_one(image, journal, pairs, k, from);
    }
END
    carry_out) cat <<'END' ;;
    let mut from = PAIRS_START + PAIR_SIZE * pairs;
    for k in 0..n {
        from = write_number(image, new, journal, pairs, k, from);
    }
END
    journaled) cat <<'END' ;;
    let size = image.len();
    if work.len() < size {
        return SHORT_SLICE;
    }
    put_part(work, 0, image, 0, size);
    let number = call(&mut work[0..size]);
    if number != 0 {
        return number;
    }
    update(image, &work[0..size], journal)
END
    *) echo "    journaled(image, work, journal, $2)" ;;
  esac
}

# same FILE NAME [CALL]: whether the body is the one wanted
same() { [ "$(body "$1" "$2")" = "$(wanted "$2" "${3:-}")" ]; }

held() {
  if same "$@"; then
    passed=$((passed + 1))
  else
    failed=$((failed + 1))
    echo "FAILED: $2 of $1 is another: read it, and the order of its writes, then say so here"
  fi
}

# unsafe WHAT FILE NAME CALL OLD NEW: a program that must not be taken for the one wanted
unsafe() {
  local copy
  copy=$(mktemp)
  if ! edited "$5" "$6" "$2" >"$copy"; then
    failed=$((failed + 1))
    echo "FAILED: $1: the edit does not apply exactly once"
  elif same "$copy" "$3" "$4"; then
    failed=$((failed + 1))
    echo "FAILED: $1: not seen"
  else
    passed=$((passed + 1))
  fi
  rm -f "$copy"
}

held $recover settle
held $commit carry_out
held $calls journaled
held $calls add_journaled '|copy| add(copy, key, bytes, mode)'
held $calls delete_journaled '|copy| delete(copy, key)'
held $packed compact_journaled compact
unsafe "the mark cleared first, and again" $recover settle '' \
  'from = write_one(image, journal, pairs, k, from);' \
  'write_one(image, journal, pairs, pairs, from); from = write_one(image, journal, pairs, k, from);'
unsafe "the mark set before the content, and again" $commit carry_out '' \
  'from = write_number(image, new, journal, pairs, k, from);' \
  'set_mark(journal); from = write_number(image, new, journal, pairs, k, from);'
unsafe "the call made on the image itself, whose bytes are put back" $calls journaled '' \
  'let number = call(&mut work[0..size]);' \
  'let number = call(image); put_part(image, 0, work, 0, size);'
echo "$passed passed, $failed failed"
[ "$failed" -eq 0 ]
