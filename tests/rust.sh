#!/usr/bin/env bash
# The static library linked into Rust, on random lists of calls beside a book in Rust (station.rs).
#   LIB=path    the library, from the repository's root; crates/station/out/libstation.a unless given
#   ARGS=".."   for the program, e.g. "--seed 1 --lists 100000"
# Then the test's own test: plain C in the library's place, right, and with the fault of the firm's second version, which must be
# found; faults that only reopened images meet, and books read wrongly off them. The last line is 'N passed, M failed'.
set -u
cd "$(dirname "$0")/.." || exit 2
lib=$(realpath "${LIB:-crates/station/out/libstation.a}") || exit 2
command -v rustc >/dev/null || .ci/install rustc || exit 2
work=$(mktemp -d)
trap 'rm -rf "$work"' EXIT

# links NAME ARCHIVE CODE LEVEL: the program NAME over the archive, from CODE, optimised to LEVEL
links() {
  mkdir "$work/$1.lib" && cp "$2" "$work/$1.lib/libstation.a" &&
    rustc --edition 2021 -C opt-level="$4" -o "$work/$1" "$3" -L native="$work/$1.lib" -l static=station
}

# plain NAME CODE: CODE, which is plain C, as an archive under the library's names
plain() {
  local names
  names=$(grep -oE -- '-Dplain_[a-z_]+=bhtf_[a-z_]+' tests/as-library.mk)
  # shellcheck disable=SC2086
  gcc -std=c99 -O2 -Itests/reference $names -c "$2" -o "$work/$1.o" && ar rcs "$work/$1.a" "$work/$1.o" &&
    links "$1" "$work/$1.a" tests/station.rs 0
}

# edited FILE EDIT INTO: a copy of the file that sed changed
edited() {
  sed "$2" "$1" >"$3"
  ! cmp -s "$1" "$3" || { echo "no place in $1 for $2"; exit 2; }
}

. tests/tally.sh

finds() { ! "$work/$1" --seed 1 --lists 100 >"$work/said" && grep -q '^FAILED: list' "$work/said"; }

# only images tell: the lists from create agree
only_images() { finds "$1" && grep -q '^from create: .* 0 that do not$' "$work/said"; }

# wrong NAME EDIT: plain C with a fault that no list from create meets
wrong() {
  edited tests/reference/plain.c "$2" "$work/$1.c"
  plain "$1" "$work/$1.c" || exit 2
  test_that "plain C, $1: found, from images only" only_images "$1"
}

# misread NAME EDIT: the library beside a book that is read wrongly
misread() {
  edited tests/station.rs "$2" "$work/$1.rs"
  links "$1" "$lib" "$work/$1.rs" 0 || exit 2
  test_that "the book, $1: found, from images only" only_images "$1"
}

links library "$lib" tests/station.rs 3 || exit 2
# shellcheck disable=SC2086
test_that "file and book agree" "$work/library" ${ARGS:-}
plain right tests/reference/plain.c || exit 2
test_that "plain C passes" "$work/right" --seed 1 --lists 100 >/dev/null
# version two: the slot is emptied, and no entry behind it moves
edited tests/reference/plain.c 's/^    close_hole(image, &v, slot);$//' "$work/two.c"
plain two "$work/two.c" || exit 2
test_that "the fault of version two is found" finds two
edited tests/reference/plain.c 's/^    if (m.active) {$/    if (m.active \&\& m.length > 0) {/' "$work/none.c"
plain none "$work/none.c" || exit 2
test_that "plain C that looks an empty note up as none: found" finds none
edited tests/reference/plain.c 's/^        put32(image + AT_NEXT, end);$/        ;/' "$work/kept.c"
plain kept "$work/kept.c" || exit 2
test_that "plain C whose compaction leaves X: found" finds kept
edited tests/reference/plain.c 's/^        if (old.active)$/        if (old.length > 0)/' "$work/back.c"
plain back "$work/back.c" || exit 2
test_that "plain C whose compaction brings back what was withdrawn, and drops notes: found" finds back
edited tests/reference/plain.c 's/^    return verdict == 0 ? ACCEPTED : 15;$/    if (verdict != 0) memset((uint8_t *)image + 2048, 0, 4); &/' \
  "$work/wrote.c"
plain wrote "$work/wrote.c" || exit 2
test_that "plain C whose refused compaction writes: found" finds wrote
edited tests/reference/plain.c 's/^        write_offset(target, v, s\[i\].slot, at);$/        write_offset(target, v, s[i].slot, at + header_size);/' \
  "$work/carried.c"
plain carried "$work/carried.c" || exit 2
test_that "plain C whose conversion leads to the text: found" finds carried
edited tests/reference/plain.c 's/^    if (is_version_2(image)) .. never changes ..$/    if (0)/' "$work/noted.c"
plain noted "$work/noted.c" || exit 2
test_that "plain C whose empty note makes 2.0.0 another version: found" finds noted
edited tests/reference/plain.c 's/^            f.ending = MET;$/& f.read--;/' "$work/met.c"
plain met "$work/met.c" || exit 2
test_that "plain C that does not count the slot where the key is met: found" finds met
edited tests/reference/plain.c 's/^        return 7;$/        return *slots_read = 1, 7;/' "$work/refused.c"
plain refused "$work/refused.c" || exit 2
test_that "plain C that counts a slot on 7: found" finds refused
edited tests/reference/plain.c 's/^        to = write_pair(to, at, end - at);$/        to = write_pair(to, at, end - at - (end - at > 4));/' "$work/cut.c"
plain cut "$work/cut.c" || exit 2
test_that "plain C that cuts a listed run short: found" finds cut
edited tests/reference/plain.c 's/^    while (at < length && old\[at\] != new\[at\])$/    for (size_t most = at + 3000; at < length \&\& at < most \&\& old[at] != new[at];)/' "$work/split.c"
plain split "$work/split.c" || exit 2
test_that "plain C that makes two pairs of a run of more than 3,000 bytes: found" finds split
edited tests/reference/plain.c 's/^        write_pair(list, 0, length);$/        write_pair(list + (list_len \/ PAIR - 1) * PAIR, 0, 0); &/' "$work/over.c"
plain over "$work/over.c" || exit 2
test_that "plain C that writes pairs before it finds that they do not fit: found" finds over
edited tests/reference/plain.c 's/^    for (uint32_t i = 0; i < count; i++, pair += PAIR) {$/    for (uint32_t i = 0; i + 1 < count; i++, pair += PAIR) {/' "$work/last.c"
plain last "$work/last.c" || exit 2
test_that "plain C that does not write the last stretch: found" finds last
edited tests/reference/plain.c 's/^    if (journal\[mark\] == MARK)$/    if (0)/' "$work/lost.c"
plain lost "$work/lost.c" || exit 2
test_that "plain C whose recovery writes nothing: found" finds lost
edited tests/reference/plain.c 's/^            records\[i \* width + c\] = .*$/            records[i * width + c] = stored[1 + i * width + c];/' "$work/rows.c"
plain rows "$work/rows.c" || exit 2
test_that "plain C that reads rows for columns: found" finds rows
edited tests/reference/plain.c 's/^        if (key\[i\] < lowest\[i\] || /        if (key[i] <= lowest[i] || /' "$work/above.c"
plain above "$work/above.c" || exit 2
test_that "plain C that leaves out the lowest byte of a range: found" finds above
edited tests/reference/plain.c 's/^           epoch_in(v, slot) <= epoch;$/           epoch_in(v, slot) < epoch;/' "$work/before.c"
plain before "$work/before.c" || exit 2
test_that "plain C that takes the epoch t for too late: found" finds before
edited tests/reference/plain.c 's/^    close_hole(old, &p->old, t->slot);$//' "$work/left.c"
plain left "$work/left.c" || exit 2
test_that "plain C whose moves only empty the slot in the old image: found" finds left
edited tests/reference/plain.c 's/^    for (uint32_t i = 0; i < MOVES; i++) {$/    for (uint32_t i = 0; i < 7; i++) {/' "$work/seven.c"
plain seven "$work/seven.c" || exit 2
test_that "plain C that moves seven points: found" finds seven
edited tests/reference/plain.c 's/^    return used_by_both(p, n) + needed > room ? 13 : ACCEPTED;$/    return p->new.next - p->new.data + needed > room ? 13 : ACCEPTED;/' "$work/alone.c"
plain alone "$work/alone.c" || exit 2
test_that "plain C whose 13 in growth looks at the new image alone: found" finds alone
wrong one-round 's/^    while (is_taken(v, slot)) {$/    for (uint32_t i = 1; i < v->slots \&\& is_taken(v, slot); i++) {/'
wrong no-version-1.0.0 's/ image\[AT_LAST_VERSION\] <= NOTES_VERSION;/ image[AT_LAST_VERSION] - 1u <= 1;/'
misread used-from-0 's/used: next - data/used: next/'
misread inactive-shown 's/let shown = .*/let shown = true;/'
misread held-0 '/^impl Point/,/^}/s/to_vec()), held, /to_vec()), held: 0, /'
misread no-offset 's/held, placed: true }$/held, placed: false }/'
misread note-is-none 's/let shown = .*/let shown = held > 0 \&\& image[offset] == b'"'a'"';/'
misread slot-0-left-out 's/\.take(slots);/&\n        let table = table.skip(1);/'

echo "of these 1 random"
tally
