#!/usr/bin/env bash
# The lister on images that tests/lister.c makes: each text is compared with a plain reading of the same bytes, and some with a
# text written out here. Then input in pieces, and input and output that are closed or fail.
# It runs crates/lister/out/lister, which `rt ci` builds, and `rt run` in crates/lister, or the program that LISTER names.
set -u
cd "$(dirname "$0")/.." || exit 2
lister=${LISTER:-crates/lister/out/lister}
[ -x "$lister" ] || { echo "$lister is missing: run rt ci, or rt run in crates/lister"; exit 1; }
room=$(mktemp -d) || exit 2
trap 'rm -rf "$room"' EXIT
maker=$room/maker
${CC:-gcc} -std=c99 -O2 -Wall -Wextra -Werror -pedantic tests/lister.c tests/reference/plain.c -o "$maker" || exit 1
passed=0
failed=0

# compares the files wanted and wrote
same() {
  if cmp -s "$room/wanted" "$room/wrote"; then
    passed=$((passed + 1))
  else
    failed=$((failed + 1))
    echo "$1: wanted $(head -c 300 "$room/wanted" | tr '\n' '|'), wrote $(head -c 300 "$room/wrote" | tr '\n' '|')"
  fi
}

# the lister on a case's image, against the plain reading
for name in example fresh full notes inactive version-1.0.0 version-1.0.3 bad-low bad-letter bad-end bad-header made-empty twice \
  zero-bytes long-keys full-of-points one-byte-keys long-message refused-1 empty refused-5 refused-6 longest too-long far-too-long; do
  "$maker" image "$name" >"$room/image" && "$maker" text "$name" >"$room/wanted" || { echo "$name was not made"; exit 1; }
  timeout 10 "$lister" <"$room/image" >"$room/wrote"
  same "$name"
done

# the same against a text that is written out: CASE, then its lines
said() {
  "$maker" image "$1" >"$room/image"
  printf '%s\n' "${@:2}" >"$room/wanted"
  timeout 10 "$lister" <"$room/image" >"$room/wrote"
  same "$1, written out"
}
said example 'slot key length' '0 02 2' '1 03 0' '3 01 1'
said fresh 'slot key length'
said full 'slot key length' '0 02 2' '1 03 0' '2 20 4' '3 01 1'
said notes 'slot key length' '0 02 0' '1 03 0' '3 01 0'
said inactive 'slot key length' '0 02 0' '1 03 0' '3 01 1'
said version-1.0.0 'slot key length' '0 02 2' '1 03 0' '3 01 1'
said version-1.0.3 'refused 5'
said bad-header 'slot key length' '0 02 2' '1 03 0' '3 01 bad'
said made-empty 'slot key length' '0 02 2' '1 03 0' '3 01 0'
said bad-low 'slot key length' '0 02 2' '1 03 bad' '3 01 1'
said bad-end 'slot key length' '0 02 bad' '1 03 0' '3 01 1'
said twice 'slot key length' '0 02 2' '1 02 1' '3 01 1'
said long-message 'slot key length' '3 01 61436'
said refused-1 'refused 1'
said empty 'refused 1'
said refused-5 'refused 5'
said refused-6 'refused 6'
said too-long 'too long'

# input in pieces, through a pipe
"$maker" image example >"$room/image"
"$maker" text example >"$room/wanted"
(head -c 1; sleep 0.1; head -c 4000; sleep 0.1; cat) <"$room/image" | timeout 10 "$lister" >"$room/wrote"
same "input in pieces"
"$maker" image longest >"$room/image"
"$maker" text longest >"$room/wanted"
(dd bs=4096 count=15 iflag=fullblock status=none; sleep 0.1; head -c 4095; sleep 0.1; cat) <"$room/image" | timeout 10 "$lister" >"$room/wrote"
same "65,536 bytes in pieces"
"$maker" image too-long >"$room/image"
"$maker" text too-long >"$room/wanted"
(head -c 65536; sleep 0.1; cat) <"$room/image" | timeout 10 "$lister" >"$room/wrote"
same "one byte more, in a piece of its own"
echo 'too long' >"$room/wanted"
head -c 10000000 /dev/zero | timeout 10 "$lister" >"$room/wrote"
same "ten million bytes"

# input that cannot be read is no input; output that cannot be written is told on standard error, and the program ends
echo 'refused 1' >"$room/wanted"
timeout 10 "$lister" <&- >"$room/wrote"
same "closed input"
"$maker" image full-of-points >"$room/image"
timeout 10 "$lister" <"$room/image" >&- 2>"$room/said"
echo "$? $(cut -d: -f1 "$room/said")" >"$room/wrote"
echo '0 write' >"$room/wanted"
same "closed output"
timeout 10 "$lister" <"$room/image" >/dev/full 2>"$room/said"
echo "$? $(cut -d: -f1 "$room/said")" >"$room/wrote"
same "full output"
timeout 10 "$lister" <"$room/image" | head -c 10 >"$room/wrote"
printf 'slot key l' >"$room/wanted"
same "output that is closed early"
echo "$passed passed, $failed failed"
[ "$failed" -eq 0 ]
