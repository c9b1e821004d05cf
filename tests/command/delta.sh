# shellcheck shell=bash disable=SC2154,SC2059,SC2015,SC2034
# Sourced by tests/command.sh: deltas for the stations' copies. Beside this, delta.py makes and reads them by the document alone, and
# stations.py sends them by a bad radio.

delta_py() { /usr/bin/python3 -B "$root/tests/command/delta.py" "$@"; }

mkdir stations
cd stations || exit 2

# ---- the check sum ----

holds "SHA-256 builds" gcc -std=c99 -O2 -Wall -Wextra -Werror -pedantic -I"$root/host/include" \
  "$root/tests/sha256.c" "$root/host/file/sha256.c" "$root/host/file/layer_bytes.c" "$root/host/file/layer_sum.c" \
  -D_POSIX_C_SOURCE=200809L -o "$work/sha256"
# The examples that NIST published for FIPS 180-4, and the empty message.
while read -r sum text; do
  same "SHA-256 of '${text:0:20}'" "$sum" "$(printf '%s' "$text" | "$work/sha256")"
done <<'LIST'
e3b0c44298fc1c149afbf4c8996fb92427ae41e4649b934ca495991b7852b855
ba7816bf8f01cfea414140de5dae2223b00361a396177a9cb410ff61f20015ad abc
248d6a61d20638b8e5c026930c3e6039a33ce45964ff2167f6ecedd419db06c1 abcdbcdecdefdefgefghfghighijhijkijkljklmklmnlmnomnopnopq
cf5b16a778af8380036ce59e7b0492370b249b11e8f07a51afac45037afee9d1 abcdefghbcdefghicdefghijdefghijkefghijklfghijklmghijklmnhijklmnoijklmnopjklmnopqklmnopqrlmnopqrsmnopqrstnopqrstu
LIST
same "SHA-256 of a million times a" cdc76e5c9914fb9281a1c7e284d73e67f1809a48a497200e046d39ccc7112cd0 \
  "$(head -c 1000000 /dev/zero | tr '\0' a | "$work/sha256")"
head -c 200 /dev/urandom >chance
sums() { for n in $(seq 0 200); do head -c "$n" chance | sha256sum | cut -c 1-64; done; }
same "SHA-256 of 0 to 200 bytes, beside sha256sum" "$(sums)" "$("$work/sha256" 200 <chance)"

# ---- a record ----

bhtf create monday --key-size 8 --slots 64 --size 16384
bhtf add monday CP-1 'first text'
bhtf add monday CP-2 'second text'
cp monday tuesday
bhtf add tuesday CP-1 another --replace
bhtf delete tuesday CP-2
bhtf add tuesday CP-3 ''
gives "delta" 0 '' sh -c 'bhtf delta monday tuesday >step'
delta_py make monday tuesday >made
holds "is what the document says, byte by byte" cmp made step
hex() { od -An -v -tx1 -j "$2" -N "$3" "$1" | tr -d ' \n'; } # FILE PLACE BYTES
sum_of() { sha256sum "$1" | cut -c 1-64; }
same "its check sums are those of sha256sum" "$(sum_of monday)$(sum_of tuesday)" "$(hex step 16 64)"
delta_py apply monday step >became
holds "and another program makes the new file of the old one" cmp became tuesday
cp monday copy
gives "a dry run of apply" 0 '^1 record would be applied, 0 passed over$' bhtf apply copy step --dry-run
holds "changes nothing" cmp monday copy
gives "apply" 0 '^1 record applied, 0 passed over$' bhtf apply copy <step
holds "makes an equal file" cmp tuesday copy
gives "once more" 0 '^0 records applied, 1 passed over$' bhtf apply copy <step
gives "from a file that is named" 0 '^0 records applied' bhtf apply copy step
gives "and from -" 0 '^0 records applied' sh -c 'bhtf apply copy - <step'
holds "it is still equal" cmp tuesday copy
none "--quiet" "$(bhtf apply copy step --quiet 2>&1)"
gives "equal files: a record that changes nothing" 0 'monday and monday are equal' sh -c 'bhtf delta monday monday >still'
same "of the least length" 116 "$(stat -c %s still)"
gives "which a copy that is up to date passes over" 0 '^0 records applied, 1 passed over$' bhtf apply monday still
gives "and another one refuses" 1 'does not go on from here' bhtf apply copy still
bhtf create example --key-size 8 --slots 64 --size 16384
cp example example2
bhtf add example2 a first
bhtf delta example example2 >step1
same "the example of the document" "179 6 0000001700000001000000370000000500000974000000010000097e0000000100001000000000010000100300000006 010900000000611061056669727374 31a82d4e" \
  "$(delta_py walk step1 | cut -d ' ' -f 1-2) $(hex step1 84 48) $(hex step1 132 15) $(hex step1 175 4)"
# Every second byte of the texts: the pairs would be longer than the image.
bhtf create stripes --key-size 4 --slots 4 --size 8192
cp stripes stripes2
head -c 4000 /dev/zero | tr '\0' a | bhtf add stripes a
head -c 4000 /dev/zero | sed 's/\x00\x00/ab/g' | bhtf add stripes2 a
bhtf delta stripes stripes2 >striped
same "where pairs would be longer, all of the image" "8316 1 8192" "$(delta_py walk striped)"
delta_py make stripes stripes2 >made
holds "as the document says" cmp made striped
cp stripes copy2
bhtf apply copy2 striped --quiet
holds "which is applied as any" cmp stripes2 copy2

# ---- what is refused ----

cp monday kept
refused() { # NAME STATUS PATTERN COMMAND..: and the copy, made of monday, is as it was
  cp kept copy
  gives "$@"
  cmp -s kept copy || fail "$1: the copy changed"
}
gives "one argument for delta" 2 'too few' bhtf delta monday
gives "three" 2 'too many' bhtf delta monday tuesday copy
gives "no argument for apply" 2 'too few' bhtf apply
gives "three of them" 2 'too many' bhtf apply copy step step
gives "no such file" 2 'No such file' bhtf delta monday nowhere
gives "what is no such file" 1 'zeros: refused \(5\)' bhtf delta monday ../zeros
gives "another length" 1 'monday has 16384 bytes and stripes 8192; .*send the whole file' bhtf delta monday stripes
gives "a delta on a terminal" 2 'not for a terminal' script -qec 'bhtf delta monday tuesday' /dev/null
gives "a delta to a full device" 2 'cannot write' sh -c 'bhtf delta monday tuesday >/dev/full'
gives "a copy that is not there" 2 'No such file' bhtf apply nowhere step
gives "a copy that is none" 1 'zeros: refused \(5\)' bhtf apply ../zeros step
refused "no such delta" 2 'cannot be read: No such file' bhtf apply copy nowhere
refused "closed input" 2 'cannot be read' sh -c 'bhtf apply copy <&-'
refused "something else" 2 'record 1: this is no delta\. copy is as it was' bhtf apply copy monday
refused "another file's delta" 1 'is for a file of 8192 bytes, and this has 16384' bhtf apply copy striped
bhtf delta tuesday monday >back
cp tuesday wednesday
bhtf add wednesday CP-4 more
bhtf delta tuesday wednesday >step2
refused "one that was lost in front" 1 'record 1 of step2 does not go on from here: one in front of it is missing' bhtf apply copy step2
gives "and is told in a dry run" 1 'Send the missing ones first' bhtf apply copy step2 -n
refused "out of order" 1 'record 2 of standard input does not go on' sh -c 'cat step2 step | bhtf apply copy'
refused "one missing between" 1 'record 2 of standard input' sh -c 'bhtf delta wednesday monday | cat step - | bhtf apply copy'
cp wednesday thursday
bhtf add thursday CP-5 'still more'
bhtf delta wednesday thursday >step3
refused "a later one in front of one that the copy has" 1 'record 2 of' sh -c 'cat step3 still | bhtf apply copy'
refused "something behind the record" 2 'record 2: this is no delta' sh -c '(cat step; echo) | bhtf apply copy'
refused "a good one in front of a damaged one" 2 'record 2: .*damaged' sh -c '(cat step; head -c 150 step2) | bhtf apply copy'
refused "good ones in front of one that is missing" 1 'record 2 of' sh -c 'cat step still | bhtf apply copy'
cp step later
at later 5 '\002'
refused "a later version" 2 'version that this command does not know' bhtf apply copy later
bhtf add kept OTHER changed
refused "a copy that others changed" 1 'or the copy was changed by others' bhtf apply copy step
cp monday kept
in_one() { cp monday copy && "$@" | bhtf apply copy && cmp "${last:-wednesday}" copy; }
gives "records behind each other" 0 '^2 records applied, 0 passed over$' in_one cat step step2
gives "each of them doubled" 0 '^2 records applied, 2 passed over$' in_one cat step step step2 step2
gives "all of them doubled" 0 '^2 records applied, 2 passed over$' in_one cat step step2 step step2
last=monday gives "there and back" 0 '^2 records applied, 0 passed over$' in_one cat step back
cp tuesday copy
gives "older records, the copy's, and a later one" 0 '^1 record applied, 1 passed over$' sh -c 'cat step step2 | bhtf apply copy'
gives "older records alone" 0 '^0 records applied, 2 passed over$' sh -c 'cat step step2 | bhtf apply copy'
holds "the copy is the last of them" cmp wednesday copy

# In all of these the copy is as it was; the first and the third under the sanitizers.
stations_py() { /usr/bin/python3 -B "$root/tests/command/stations.py" "$@"; }
cp monday copy
holds "a bit flipped in each byte of a delta" stations_py flips "$work/sanitize/bhtf" copy step
holds "a delta cut at each length" stations_py cuts bhtf copy step
holds "deltas made wrongly, with right check sums" stations_py forged "$work/sanitize/bhtf" monday tuesday
delta_py forge short monday tuesday >wrong
gives "pairs that do not fit" 2 'record 1: the delta was made wrongly' bhtf apply copy wrong
delta_py forge byte monday tuesday >wrong
gives "new bytes that do not lead there" 2 'wrong: made wrongly: .*copy is as it was' bhtf apply copy wrong

# ---- --delta FILE ----

cp monday office
for i in 1 2 3; do cp office "copy$i"; done
gives "add --delta" 0 '' bhtf add office CP-4 x --delta changes
gives "replace" 0 '' bhtf add office CP-1 'a longer text than the first' --replace --delta=changes
gives "append" 0 '' bhtf add office CP-4 y --append --delta changes
gives "delete" 0 '' bhtf delete office CP-2 --delta changes
gives "withdraw" 0 '' bhtf withdraw office CP-4 --delta changes
gives "import" 0 '^12 points stored' bhtf import office "$root/host/site.csv" --delta changes
gives "compact" 0 'more than before' bhtf compact office --delta changes
same "a record for each of them" 7 "$(delta_py walk changes | wc -l)"
delta_py apply monday changes >became
holds "which lead to the file" cmp became office
gives "a copy follows" 0 '^7 records applied' bhtf apply copy1 changes
holds "and is equal" cmp office copy1
cp changes changes7
gives "a refused point" 1 'refused \(9\)' bhtf add office CP-1 x --delta changes
gives "a change of nothing" 0 '' bhtf add office CP-1 '' --append --delta changes
gives "a compaction of nothing" 0 '0 more' bhtf compact office --delta changes
gives "a dry run" 0 'would be' bhtf compact office --delta changes -n
gives "a dry run of an import" 0 'would be stored' bhtf import office "$root/host/site.csv" --replace --delta changes -n
holds "leave no record" cmp changes7 changes
gives "a refused point" 1 'refused \(14\)' bhtf delete office nobody --delta none
holds "leaves no new file" test ! -e none
printf 'P,E,N,Z,D\nI-1,1,2,3,\nCP-1,4,2,3,\nI-3,7,2,3,\n' >stops.csv
gives "an import that stops" 1 'stopped: nothing was stored' bhtf import office stops.csv --delta changes
holds "has no record" cmp changes7 changes
gives "one that keeps going" 1 '^2 points stored' bhtf import office stops.csv --keep-going --allow-far --delta changes
gives "has a record of what it stored" 0 '^1 record applied, 7 passed over$' bhtf apply copy1 changes
holds "which is all" cmp office copy1
# What cannot be followed is not done.
undone() { # NAME STATUS PATTERN COMMAND..: the office's file and the records are as they were
  cp office office2 && cp changes changes2
  gives "$@"
  cmp -s office office2 || fail "$1: the file changed"
  cmp -s changes changes2 || fail "$1: the records changed"
}
undone "the file itself" 2 'is the file itself' bhtf add office CP-5 x --delta office
ln -s office alias
undone "by another name" 2 'is the file itself' bhtf add office CP-5 x --delta alias
undone "a directory" 2 'cannot open: Is a directory' bhtf add office CP-5 x --delta .
undone "a device" 2 'not a regular file' bhtf add office CP-5 x --delta /dev/null
undone "no such directory" 2 'cannot open: No such file' bhtf add office CP-5 x --delta no/changes
undone "what is no delta" 2 'monday: not a file of whole records.*nothing is changed' bhtf add office CP-5 x --delta monday
head -c -1 changes >torn
undone "a record that was cut" 2 'torn: not a file of whole records' bhtf delete office CP-1 --delta torn
cp changes spoilt
at spoilt $(($(stat -c %s spoilt) - 1)) x
undone "a damaged one at the end" 2 'spoilt: its last record is damaged' bhtf compact office --delta spoilt
undone "another file's" 2 'step: its last record leads to another file' bhtf import office stops.csv --replace --delta step
bhtf add office CP-5 'without a record'
undone "after a change without --delta" 2 'or there was a change without --delta since' bhtf delete office CP-5 --delta changes
bhtf delete office CP-5
bhtf delta copy1 office >>changes
gives "what is missing can be put there" 0 '' bhtf add office CP-5 x --delta changes
gives "a copy follows" 0 '^2 records applied' bhtf apply copy1 changes
holds "and is equal" cmp office copy1
cp changes changes9
cp office office9
bhtf add office CP-9 x --delta changes
cp office9 office
gives "a record of a change that was cut short is taken away" 0 'its last record was of a change that was cut short' \
  bhtf add office CP-9 y --delta changes
gives "and a copy follows" 0 '^1 record applied' bhtf apply copy1 changes
holds "and is equal, again" cmp office copy1
head -c 50 changes >part
cat part >>changes
gives "so is the beginning of one" 0 'its last record was of a change that was cut short' bhtf delete office CP-9 --delta changes
gives "and a copy follows that" 0 '^1 record applied' bhtf apply copy1 changes
holds "and is equal then, too" cmp office copy1
long=$(head -c 3000 /dev/zero | tr '\0' t)
limited() { sh -c 'limit=$1; shift; ulimit -f "$limit"; exec "$@"' - $(($(stat -c %s changes) / 512 + 1)) "$@"; }
undone "a disk that is full" 2 'changes: cannot be written to: File too large' limited bhtf add office CP-6 "$long" --delta changes
gives "it is said that nothing changed" 2 'office: is as it was' limited bhtf add office CP-6 "$long" --delta changes
sed "s/,3,\$/,3,$long/" stops.csv >long.csv
undone "a disk that is full at an import" 2 'import stopped: nothing was stored' limited bhtf import office long.csv --replace --drop text --allow-far --delta changes
bhtf add office Z "$long" --delta changes
bhtf delete office Z --delta changes
undone "and at a compaction" 2 'office: is as it was' limited bhtf compact office --delta changes

# ---- end to end: an office and three copies, a thousand changes ----

seed=${SEED:-$(date +%s)}
holds "an office and three copies, a thousand changes, seed $seed" stations_py changes bhtf 1000 "$seed"
sed 's/^/  /' "$work/out"
gives "the copies are sound" 0 '^sound' bhtf check far3

cd "$work" || exit 2
