#!/usr/bin/env bash
# What comes out of a file: differences, plans, figures, copies and sums, deltas in words, choices of points, and the files of other
# programs. The real command, built with the sanitizers. The last line is 'N passed, M failed', and the status 0 only if M is 0.
#   LIB=path     the library, from the repository's root; crates/station/out/libstation.a unless given
#   STANDIN=yes  the plain C of tests/reference in its place
#   BIN=path     a folder with a command that is tried as it is
#   SEED=number  of the random patterns and figures
set -u
cd "$(dirname "$0")/.." || exit 2
root=$PWD
. tests/tally.sh
. tests/sanitized.sh

work=$(mktemp -d)
trap 'rm -rf "$work"' EXIT
sanitized "$work/reports"
seed=${SEED:-20261117}
echo "seed $seed"

settings=(SANITIZE=yes OUT="$work/bin")
[ -n "${LIB:-}" ] && settings+=(LIB="$(realpath "$LIB")")
[ -n "${STANDIN:-}" ] && settings+=(STANDIN="$STANDIN")
quietly() { "$@" >"$work/said" 2>&1 || { tail -n 5 "$work/said"; return 1; }; }
[ -n "${BIN:-}" ] || test_that "the command builds" quietly make -s -C host "${settings[@]}"
PATH=${BIN:-$work/bin}:$PATH
cd "$work" || exit 2

# ---- words for the tests below ----

printed() { if [ -z "$1" ]; then [ ! -s said ]; else grep -aqE -- "$1" said; fi; }

# gives STATUS PATTERN COMMAND..: status, and the pattern in what is said; '' if nothing may be
gives() {
  local status=$1 pattern=$2 got
  shift 2
  "$@" >said 2>&1
  got=$?
  [ "$got" -eq "$status" ] && printed "$pattern" && return 0
  echo "  status $got: $(head -c 600 said | tr -d '\0')"
  return 1
}

equal() { [ "$1" = "$2" ] && return 0; echo "  expected '$1', got '$2'"; return 1; }

# What import and add would refuse as a slip, if they know such a thing.
allowed=()
bhtf help import 2>&1 | grep -q -- --allow-near && allowed=(--allow-far --allow-near --allow-swapped)

# site NAME [OPTION..]: a file of the points that are given as name,easting,northing,height,note
site() {
  local name=$1
  shift
  rm -f "$name"
  bhtf create "$name" -k 20 -s 1000 "$@" && bhtf import "$name" - --columns PENZD --quiet "${allowed[@]}"
}

# put FILE NAME TEXT: the point's text, whatever it was
put() { bhtf add "$1" "$2" "$3" --replace --quiet "${allowed[@]}"; }

renders() { xmllint --noout "$1" && rsvg-convert -d 96 -p 96 "$1" -o picture.png; }

# ---- a height alone is a point ----

site l1 </dev/null
put l1 BM-1 ',,489.272,'
put l1 BM-2 ',,490.1,bolt'
cp l1 l2
put l2 BM-1 ',,489.267,'
test_that "a settlement of 5 mm" gives 1 '^moved  BM-1 +5\.0 mm: H -5\.0$' bhtf diff l1 l2
test_that "is moved" gives 1 '^1 same, 0 new, 0 gone, 1 moved, 0 with another text$' bhtf diff l1 l2
test_that "its height is a column" gives 0 '^BM-1	[0-9]+			489\.272	$' bhtf list l1 --tsv
test_that "and a number of JSON" gives 0 '"height":489\.272\}$' bhtf list l1 BM-1 --json
test_that "GSI has it" gives 0 '^\*110001\+000000000000BM-1 83\.\.10\+0000000000489272 ' bhtf export l1 --gsi
bhtf export l1 --gsi >l1.gsi
site l3 </dev/null
bhtf import l3 l1.gsi --gsi --quiet
test_that "and brings it back" gives 1 '^1 same, 0 new, 0 gone, 0 moved, 1 with another text$' bhtf diff l1 l3
cp l1 l4
put l4 P1 '100,200,10,'
put l4 P2 '120,230,10,'
cp l4 l5
put l5 BM-1 ',,489.267,'
test_that "a plan names it" gives 0 '1 point has a height alone|2 points have a height alone' bhtf plot l4
bhtf plot l5 --against l4 >l5.svg 2>said
test_that "and what became of it" grep -q '>no place: BM-1 h -5\.0 mm<' l5.svg
test_that "with diff's count" grep -q '3 same, 0 new, 0 gone, 1 moved, 0 with another text; 2 with a height alone' l5.svg
test_that "LandXML has no place for it, and a status" gives 3 '2 points left out: a height alone' bhtf export l4 --landxml
test_that "nor has DXF" gives 3 '2 points left out: a height alone' bhtf export l4 --dxf --quiet

# ---- all that changed of a point ----

printf '%s\n' 'A,100,200,10,bolt' 'B,100,200,,bolt' 'C,100,200,10,bolt' 'D,100,200,10,' 'E,1.00000,2,,' 'F,1,2,3,' 'Süd,1,2,3,' | site o
printf '%s\n' 'A,100.002,200,,bolt' 'B,100.002,200,99,"DESTROYED, do not use"' 'C,100,200,,DESTROYED' 'D,99.99996,200,10,' \
  'E,1.00003,2,,' 'F,3,2,3,' 'Süd,1,2,3,x' 'G,4482113.40251,2.0005,,' | site n
test_that "a lost height behind a move" gives 1 '^moved  A +2\.0 mm: E \+2\.0, N \+0\.0; the height 10 is gone$' bhtf diff o n
test_that "a new height and a new note" gives 1 '^moved  B +2\.0 mm: E \+2\.0, N \+0\.0; the height 99 is new; another note$' bhtf diff o n
test_that "both without a move" gives 1 '^text   C +the height 10 is gone; another note$' bhtf diff o n
test_that "no minus in front of zero" gives 1 '^moved  D +0\.040 mm: E -0\.040, N \+0\.000, H \+0\.000$' bhtf diff o n
test_that "the digits of the text" gives 1 '^new    G +4482113\.40251 2\.0005$' bhtf diff o n
test_that "also between tabs" gives 1 '^moved	E	0\.030	1\.00000	2		1\.00003	2		0\.030		same$' bhtf diff o n --tsv
test_that "a column tells of the note" gives 1 '^moved	B	2\.000	.*	changed$' bhtf diff o n --tsv
test_that "far moves in metres" gives 1 '^moved  F +2\.000 m: E \+2\.000, N \+0\.000, H \+0\.000$' bhtf diff o n
bhtf diff o n >said
test_that "columns stand under each other, umlaut or not" equal "$(grep '^text   C' said | sed 's/the height.*//' | wc -m)" \
  "$(grep '^text   Süd' said | sed 's/another.*//' | wc -m)"
test_that "the plan says the same of them" sh -c 'bhtf plot n --against o >n.svg 2>/dev/null; grep -q ">A 2\.0 mm h gone<" n.svg &&
  grep -q ">B 2\.0 mm h new note<" n.svg && grep -q ">C h gone note<" n.svg'
test_that "and the same counts" grep -qF "$(bhtf diff o n | tail -n 1)" n.svg
printf '%s\n' 'S,100,200,10,' 'T,100,200,10,' 'W,100,200,10,' 'V,100,200,10,' | site p1
cp p1 p2
put p2 S '100.008,199.993,9.991,'
put p2 T '100.003,200,10,'
bhtf withdraw p2 W
put p2 V '100.0031,200,10,'
test_that "in space, and over the ground" gives 1 '^moved  S +13\.9 mm: E \+8\.0, N -7\.0, H -9\.0, plan 10\.6$' bhtf diff p1 p2
bhtf plot p2 --against p1 >p2.svg 2>said
test_that "the plan has the same figures" grep -q '>S 10\.6 mm h -9\.0 mm<' p2.svg
test_that "a withdrawn text is no point that is gone" grep -q '0 same, 0 new, 0 gone, 3 moved, 1 with another text' p2.svg
test_that "its old place is on the plan" grep -q '>W no coordinates<' p2.svg
test_that "a tolerance" gives 1 '^0 same, 0 new, 0 gone, 2 moved, 1 with another text, 1 moved by no more than 3 mm$' \
  bhtf diff p1 p2 --tolerance 3mm
test_that "of just as much" gives 0 '1 moved by no more than 3 mm$' bhtf diff p1 p2 T --tolerance 3
test_that "with the plan's words" sh -c 'bhtf plot p2 --against p1 --tolerance 3 2>/dev/null | grep -q "1 moved by no more than 3 mm"'
test_that "a tolerance that is none" gives 2 'needs millimetres' bhtf diff p1 p2 --tolerance 3m
test_that "points of a pattern alone" gives 1 '^0 same, 0 new, 0 gone, 2 moved, 0 with' bhtf diff p1 p2 '[ST]'
test_that "status 0: equal" gives 0 '^4 same' bhtf diff p1 p1
test_that "status 2: a file that is no such file" gives 2 'refused \(1\).*This is no control point file' bhtf diff p1 /etc/passwd
test_that "status 2: no name like that" gives 2 'no name matches X\*' bhtf diff p1 p2 'X*'

# Damage: the length of A's text is overwritten.
damage() {
  local at
  at=$(grep -abo "$2" "$1" | head -n 1 | cut -d : -f 1)
  printf 'x' | dd of="$1" bs=1 seek=$((at - 4)) conv=notrunc status=none
  printf 'x' | dd of="$1" bs=1 seek=$((at - 1)) conv=notrunc status=none
}
printf '%s\n' 'A,100,200,10,' 'B,300,400,10,' | site x0
printf '%s\n' 'A,900,200,10,' 'B,300,400,10,' | site x2
cp x0 x1
damage x1 '100,200'
damage x2 '900,200'
test_that "damaged in both files is not the same" gives 1 '^damaged A +in both files$' bhtf diff x1 x2
test_that "and is counted" gives 1 '^1 same, 0 new, 0 gone, 0 moved, 0 with another text, 1 damaged$' bhtf diff x1 x2
test_that "damaged in one" gives 1 '^damaged A +in the old file$' bhtf diff x1 x0
test_that "a plan against it says so" gives 1 'x1: 1 point left out: damaged' bhtf plot x0 --against x1
test_that "and does not call it new" sh -c 'bhtf plot x0 --against x1 2>/dev/null | grep -q "1 same, 0 new, 0 gone, 0 moved, 0 with another text, 1 damaged"'

# A text typed with blanks is coordinates everywhere, or nowhere.
printf '%s\n' 'P,1,2,3,' | site blanks
put blanks B '4482113.402, 5351874.118, 489.271, bolt'
put blanks C '100,200, ,bolt'
test_that "blanks around coordinates, CSV" gives 0 '^B,4482113\.402,5351874\.118,489\.271,' bhtf export blanks
test_that "and the text with its bytes" gives 0 '"4482113\.402, 5351874\.118, 489\.271, bolt"$' bhtf export blanks
test_that "a height of blanks is none" gives 0 '^C	[0-9]+	100	200	 	bolt$' bhtf list blanks --tsv
test_that "in JSON, too" gives 0 '"easting":100,"northing":200,"note":"bolt"' bhtf list blanks C --json
test_that "three points on the plan" sh -c 'bhtf plot blanks | grep -q ">3 points, "'
bhtf export blanks >blanks.csv
site blanks2 </dev/null
bhtf import blanks2 blanks.csv --quiet
test_that "they come back" gives 0 '^3 same' bhtf diff blanks blanks2

# ---- figures ----

bhtf create s -k 12 -s 100
bhtf import s "$root/host/site.csv" --quiet
# Three points and the station on an arc of 184 m, which is flat enough to be called a line, too.
awk 'BEGIN { d = atan2(0, -1) / 180; for (i = 0; i < 3; i++) printf "K%d,%.3f,%.3f,,\n", i, 184 * sin((15 * i - 20) * d), 184 * cos((15 * i - 20) * d)
  printf "%.3f,%.3f", 185 * sin(22 * d), 185 * cos(22 * d) >"arc-station" }' | site arc
test_that "the danger circle beside the line" gives 1 '^not determined: near the danger circle; station and points nearly in line' \
  bhtf figure arc --station "$(cat arc-station)" K0 K1 K2
printf '%s\n' 'A,1000,1050,,' 'B,1000,1100,,' 'T1,5000,4000,,' 'T2,-3000,4000,,' 'C,1000,1040,,' 'T3,9000,-4000,,' 'T4,-7000,-4000,,' | site v
test_that "68 by 1 mm is not good" gives 1 '^weak: .*little holds the station towards 199 gon' bhtf figure v --station 1000.5,1000 A B T1 T2
test_that "its axes are told" gives 1 '^axes     the longer one is 71\.[0-9] times the shorter; good to 10$' bhtf figure v --station 1000.5,1000 A B T1 T2
test_that "nor are far towers all round" gives 1 '^weak' bhtf figure v --station 1000.5,1000 A B C T1 T2 T3 T4
printf '%s\n' 'CP-101,4482113.402,5351874.118,,' 'CP-113,4482113.402,5351874.118,,' 'CP-105,4482296.038,5351702.891,,' \
  'CP-107,4482148.663,5351685.727,,' 'CP-999,4482300,5351874,,' | site twins
test_that "two names on one place check each other alone" gives 0 '^check    none for two of the three places; CP-101 and CP-113 are one place$' \
  bhtf figure twins --station 4482210,5351760 CP-101 CP-113 CP-105 CP-107
test_that "places are counted" gives 0 '^check    1 more than the three that are needed; CP-101 and CP-113 are one place$' \
  bhtf figure twins --station 4482210,5351760 'CP-*'
test_that "two points have no check" gives 1 '^check    none: there are fewer than three places$' bhtf figure twins --station 4482210,5351760 CP-101 CP-105
printf '%s\n' 'A,1000,1100,,' 'B,1086.603,1050,,' 'C,1086.603,950,,' 'D,913.397,950,,' 'E,913.397,1050,,' 'F,989.443,899.553,,' | site c1
test_that "the nearest of the circles" gives 1 '^circle   the nearest danger circle has radius 100\.0[0-9]* m; F is farthest from it, by (0\.9|1\.0)' \
  bhtf figure c1 --station 1000,900 A B C D E F
# told NUMBER: no circle is told whose farthest point is much farther than that of one that is known
told() {
  local off
  python3 "$root/tests/office/circles.py" "$seed" "$1" >circle
  grep -v '^station' circle | site circles
  read -r _ at bound < <(grep '^station' circle)
  bhtf figure circles --station "$at" P0 P1 P2 P3 P4 P5 >said 2>&1
  off=$(sed -n 's/^circle .* by \([0-9.]*\) m .*/\1/p' said)
  awk -v o="${off:-999}" -v b="$bound" 'BEGIN { exit !(o <= 1.5 * b + 0.001) }' && return 0
  echo "  figure $1: $off, and $bound is known"
  return 1
}
for i in $(seq 12); do test_that "the nearest circle, figure $i" told "$i"; done
printf '%s\n' 'N,999.9999,1100,,' 'S,1100,900,,' 'W,900,900,,' 'X,1000,1200,,' 'Y,1000,1250,,' 'Z,1001,1300,,' | site north
test_that "a hair west of north is 0 gon, and first" sh -c \
  'bhtf figure north --station 1000,1000 N S W | sed -n 3p | grep -q "N *0\.000 gon"'
test_that "an axis towards north is not 200 gon" sh -c \
  '! bhtf figure north --station 1000,1000 X Y Z N | grep -q "200\.0 gon"'
test_that "easting and northing of the station changed places" gives 1 'warning: the nearest point is 1230 km .* changed places it would be 0\.' \
  bhtf figure s --station 5351760,4482210 CP-101 CP-105 CP-107
test_that "status 0: good" gives 0 '^good' bhtf figure s --station 4482210,5351760 CP-101 CP-105 CP-107
test_that "status 1: weak" gives 1 '^weak' bhtf figure s --station 4482080,5351778 CP-101 CP-104 CP-106
test_that "status 2: a name that is not there" gives 2 'CP-1O1: there is no point' bhtf figure s --station 4482210,5351760 CP-1O1 CP-105 CP-107
test_that "status 2: no such file" gives 2 'no control point file' bhtf figure /etc/passwd --station 4482210,5351760 CP-101 CP-105
test_that "points by a pattern" gives 0 '^directions from 4482210\.000, 5351760\.000 to 3 points:$' bhtf figure s --station 4482210,5351760 'CP-10[157]'
test_that "a pattern that names none" gives 2 'no name matches' bhtf figure s --station 4482210,5351760 'X*'
bhtf figure s --station 4482210,5351760 'CP-10[157]' --svg >s.svg
test_that "its sheet names the file" grep -qE '>s, sum [0-9a-f-]{9}, [0-9-]{10}: resection at' s.svg

# ---- copies and sums ----

test_that "a copy" gives 0 '^new is s: 12 points, sum [0-9a-f]{4}-[0-9a-f]{4}$' bhtf copy s new
test_that "byte for byte" cmp s new
test_that "is never put over another file" gives 2 'there already is a file' bhtf copy s new
test_that "nor made of another" gives 1 'refused \(1\)' bhtf copy "$root/host/site.csv" other
test_that "of which nothing is left" test ! -e other
test_that "quiet" gives 0 '' bhtf copy s new2 --quiet
whole=$(sha256sum s | cut -d ' ' -f 1)
test_that "the sum is the first of the SHA-256" equal "${whole:0:4}-${whole:4:4}  s" "$(bhtf sum s)"
test_that "or all of it" equal "$whole  s" "$(bhtf sum s --long)"
test_that "of several files" equal "$(bhtf sum s; bhtf sum new)" "$(bhtf sum s new)"
test_that "check prints it" gives 0 "^sum ${whole:0:4}-${whole:4:4}; sound does not mean right: a digit changed in a text is not seen" bhtf check s
cp s flip
LC_ALL=C sed -i 's/4482113\.402/4482113\.902/' flip
test_that "a changed digit is sound" gives 0 '^sound: 12 points$' bhtf check flip
test_that "and has another sum" test "$(bhtf sum s | cut -d ' ' -f 1)" != "$(bhtf sum flip | cut -d ' ' -f 1)"
# A copy that is taken while others write is one of the states that the file had, whole.
for i in $(seq 150); do printf 'P%03d,%d,%d,,note of the first list\n' "$i" "$i" "$i"; done >listA
sed 's/first/second/' listA >listB
site busy <listA
cp busy busyA
bhtf import busy listB --columns PENZD --replace --quiet
{ for i in $(seq 12); do
    bhtf import busy listA --columns PENZD --replace --quiet --no-sync
    bhtf import busy listB --columns PENZD --replace --quiet --no-sync
  done; } &
writer=$!
mixed=0
copies=0
while kill -0 "$writer" 2>/dev/null && [ "$copies" -lt 40 ]; do
  rm -f taken
  bhtf copy busy taken --quiet --no-sync || break
  copies=$((copies + 1))
  found=$(bhtf list taken --tsv | cut -f 6 | tail -n +2 | sort -u | wc -l)
  [ "$found" -eq 1 ] || mixed=$((mixed + 1))
done
wait "$writer"
test_that "copies were taken" test "$copies" -gt 0
test_that "each of them is whole" equal 0 "$mixed"

# ---- deltas in words ----

cp s office
cp s station
bhtf add office CP-104 '4482301.777,5351779.466,490.553,nail in asphalt' --replace --delta changes --quiet
bhtf delete office BM-1 --delta changes --quiet
bhtf add office NEW-1 '4482200,5351700,490,' --delta changes --quiet
before=$(bhtf sum s | cut -d ' ' -f 1)
after=$(bhtf sum office | cut -d ' ' -f 1)
test_that "show: the records and their sums" gives 0 "^record 1: $before -> [0-9a-f-]{9}, [0-9]+ bytes, for a file of $(stat -c %s s)$" bhtf show changes
test_that "the last one leads to the office's" gives 0 "^record 3: [0-9a-f-]{9} -> $after, " bhtf show changes
test_that "show with a copy names the points" gives 0 '^moved  CP-104 +5\.0 mm: E \+3\.0, N \+4\.0, H \+0\.0$' bhtf show changes station
test_that "those that are gone" gives 0 '^gone   BM-1 ' bhtf show changes station
test_that "those that are new" gives 0 '^new    NEW-1 ' bhtf show changes station
test_that "changes nothing" cmp s station
test_that "a dry run says what would change" gives 0 '^moved  CP-104 +5\.0 mm' bhtf apply station changes --dry-run
test_that "and the sum" gives 0 "^station would be $after$" bhtf apply station changes --dry-run
test_that "changes nothing" cmp s station
test_that "a quiet one nothing" gives 0 '' bhtf apply station changes --dry-run --quiet
test_that "apply says what changed" gives 0 '^gone   BM-1 ' bhtf apply station changes
test_that "and is the office's file" cmp office station
test_that "the sum to compare by voice" sh -c "bhtf apply station changes | grep -q '^station is $after\$'"
test_that "a copy that has them: which points were written" equal "$(printf 'written CP-104\nwritten NEW-1')" \
  "$(bhtf show changes station | grep '^written' | LC_ALL=C sort)"
cp flip strange
test_that "a copy that they do not fit" gives 1 'bhtf apply would refuse changes: 3 of its records do not go on' bhtf show changes strange
test_that "records that are doubled" gives 0 '^record 2: .*: the copy has it$' sh -c 'cat changes changes | bhtf show - station'
test_that "and where they would be applied" gives 0 '^10 same, 1 new, 1 gone, 1 moved' sh -c 'cat changes changes | bhtf show - s'
test_that "one that is missing" gives 1 'would refuse standard input: 1 of its records does not go on' \
  sh -c "(head -c $(bhtf show changes | sed -n 's/^record 1: .*, \([0-9]*\) bytes, .*/\1/p') changes; tail -c $(bhtf show changes |
    sed -n 's/^record 3: .*, \([0-9]*\) bytes, .*/\1/p') changes) | bhtf show - s"
test_that "show of what is no delta" gives 2 'no delta' bhtf show s
head -c 100 changes >cut
test_that "show of one that was cut" gives 2 'cut short' bhtf show cut

# ---- choices of points ----

opinion=$root/tests/office/patterns.py
python3 "$opinion" "$seed" . 100
bhtf create patterns -k 16 -s 500
bhtf import patterns names.csv --quiet
test_that "the names are there" equal "$(cat names)" "$(bhtf list patterns --by name)"
matches() {
  local pattern
  pattern=$(cat "pattern.$1"; echo .)
  bhtf list patterns --by name -- "${pattern%.}" 2>/dev/null | cmp -s - "wanted.$1" && return 0
  echo "  pattern $1: '${pattern%.}'"
  return 1
}
for i in $(seq 100); do test_that "a pattern, number $i" matches "$i"; done
printf '%s\n' 'X ' | sed 's/X /X\\x20,1,2,,/' | site ends
bhtf add ends 'a*b' 3,2,,
bhtf add ends 'axb' 5,2,,
test_that "a blank at the end is a character" equal 'X\x20' "$(bhtf list ends 'X?')"
test_that "a word that is a name is that point" equal 'a*b' "$(bhtf list ends 'a*b')"
test_that "a pattern quoted" equal 'a*b' "$(bhtf list ends 'a\*[b]')"
printf '%s\n' 'Süd,1,2,,' 'Nord,1,2,,' | site umlaut
test_that "? is a character, not a byte" equal 'Süd' "$(bhtf list umlaut 'S?d')"
test_that "and so are those in brackets" equal 'Süd' "$(bhtf list umlaut 'S[äü]d')"
test_that "each pattern that names none is told" gives 1 'no name matches X\*' bhtf list s CP-101 'X*'
test_that "CSV of some, by name" equal "$(printf 'name\nBM-1\nBM-2\nCP-101')" "$(bhtf export s 'BM-?' CP-101 --by name | cut -d , -f 1)"
test_that "CSV by slot is the usual order" equal "$(bhtf export s)" "$(bhtf export s --by slot)"
test_that "GSI of some" equal 2 "$(bhtf export s 'BM-?' --gsi --quiet | wc -l)"
test_that "GSI by slot" equal "$(bhtf list s 'CP-10[13]')" \
  "$(bhtf export s 'CP-10[13]' --gsi --by slot --quiet | sed 's/.*+0*\(CP[^ ]*\) .*/\1/')"
test_that "LandXML of some" equal 2 "$(bhtf export s 'BM-?' --landxml | grep -c '<CgPoint ')"
test_that "DXF of some" equal 2 "$(bhtf export s 'BM-?' --dxf | tr -d '\r' | grep -cx POINT)"
test_that "a plan of some" sh -c 'bhtf plot s "CP*" | grep -q ">8 points, "'
cp s less
test_that "what delete would take out" gives 0 '^2 points would be taken out$' bhtf delete less 'BM-?' --dry-run
test_that "by name" gives 0 '^BM-1$' bhtf delete less 'BM-?' --dry-run
test_that "changes nothing" cmp s less
test_that "delete by a pattern" gives 0 '^2 points taken out$' bhtf delete less 'BM-?' --delta fewer
test_that "they are gone" equal "$(bhtf list s --by name | grep -v '^BM')" "$(bhtf list less --by name)"
test_that "the file is sound" gives 0 '^sound: 10 points$' bhtf check less
cp s less2
test_that "as one record" gives 0 '^1 record applied' bhtf apply less2 fewer
test_that "the copies are equal" cmp less less2
test_that "delete all or none" gives 1 'no name matches nobody' bhtf delete less CP-101 nobody
test_that "none" cmp less less2
test_that "a word that is a name deletes that point alone" sh -c 'bhtf delete ends "a*b" --quiet && bhtf list ends axb'

# ---- what other programs read ----

printf '%s\n' 'PRISMA-Süd,1,2,3,Höhenbolzen' '0012,2,2,3,' '12,4,5,6,' 'Sued,3,2,3,' 'Süd,7,8,9,' 'tie,0.647245,1,-0.000001,' '0,5,2,,' '00,6,2,,' \
  'a name that is longer,7,2,3,' 'äж,8,2,3,' | site gsi -k 32
bhtf export gsi --gsi >gsi.gsi 2>said
got=$?
test_that "GSI: points left out have a status" equal 3 "$got"
test_that "umlauts are spelt" grep -q '+00000PRISMA-Sued ' gsi.gsi
test_that "in notes, too" grep -q '71\.\.\.\.+0000Hoehenbolzen ' gsi.gsi
test_that "no two lines of one number" equal '' "$(cut -c 9-24 gsi.gsi | sort | uniq -d)"
test_that "those are left out, and told" grep -q '3 points left out: in GSI another point would have the same number' said
test_that "names that GSI cannot hold" grep -q '2 points left out: GSI-16 has names' said
test_that "a tie is rounded away from zero" grep -q '81\.\.18+0000000000064725 ' gsi.gsi
test_that "no minus zero" grep -q '83\.\.18+0000000000000000 ' gsi.gsi
bhtf export gsi --gsi --quiet >/dev/null 2>said
test_that "--quiet does not silence what is left out" grep -q '3 points left out' said
site gsi2 </dev/null
test_that "import takes what export wrote, with the number 0" gives 0 '^5 points stored' bhtf import gsi2 gsi.gsi --gsi
test_that "the number 0" gives 0 '^0$' bhtf list gsi2 0
printf '%s\n' '01,1,2,,' '02,1,3,,' | site zeros
test_that "two names with zeros" gives 3 '2 names with zeros in front' bhtf export zeros --gsi
site odd </dev/null
bhtf add odd 'a\x5Cx41b' 1,2,3, --quiet
bhtf add odd 'caf\xE9' 2,2,3, --quiet
bhtf add odd 'T^2' 6,2,3, --quiet
bhtf add odd 'Süd' 7,2,3, --quiet
bhtf add odd '50%' 8,2,3, --quiet
bhtf export odd --landxml >odd.xml 2>said
got=$?
test_that "LandXML: a name that XML cannot hold is left out" grep -q '1 point left out: the name has characters that XML cannot hold' said
test_that "with a status" equal 3 "$got"
test_that "other names are their own" grep -qF 'name="a\x41b"' odd.xml
site odd2 </dev/null
bhtf import odd2 odd.xml --landxml --quiet 2>/dev/null
test_that "and come back" gives 1 '^4 same, 0 new, 1 gone, 0 moved, 0 with' bhtf diff odd odd2
echo '<LandXML><CgPoints><CgPoint name="A">17558600.5 14704899.9 1605.2</CgPoint></CgPoints></LandXML>' >units.xml
site units </dev/null
test_that "--quiet does not silence a warning" gives 0 'warning: the file does not say its units' bhtf import units units.xml --landxml --quiet
bhtf export odd --dxf >odd.dxf 2>said
test_that "DXF: a name that it cannot hold is told" grep -q '1 name with characters that DXF cannot hold' said
cat >read.py <<'PYTHON'
import sys
import ezdxf
from ezdxf.lldxf.encoding import decode_dxf_unicode
from ezdxf.tools.text import plain_text
drawing = ezdxf.readfile(sys.argv[1])
assert not drawing.audit().errors
for text in sorted(plain_text(decode_dxf_unicode(t.dxf.text)) for t in drawing.modelspace().query('TEXT')):
    print(text)
print('%g %g' % (drawing.header['$EXTMIN'][2], drawing.header['$EXTMAX'][2]))
PYTHON
test_that "ezdxf reads the names" equal "$(printf '%s\n' '50%' 'Süd' 'T^2' 'a\x41b' 'caf?' '3 3')" "$(/usr/bin/python3 read.py odd.dxf)"
printf '%s\n' '12%%c,1,2,3,' | site percent
test_that "percent signs that would begin a code" sh -c 'bhtf export percent --dxf | grep -q "^12%%%%%%c"'

# ---- plans ----

printf '%s\n' 'A,100,200,,' 'B,101.5,200,,' 'C,101.5,200.7,,' | site small
test_that "the scale that is drawn is printed" sh -c 'bhtf plot small --paper A4 | grep -q ">3 points, 1 : 12\.5 on A4"'
printf '%s\n' 'A,0,0,,' 'B,1000000000,0,,' | site large
test_that "numbers of the bar are written out" sh -c '! bhtf plot large | grep -qE ">[0-9.]+e\+"'
printf '%s\n' 'A,0,0,,' 'B,10,0,,' 'C,0,10,,' 'D,10,10,,' 'WRONG,40000000,0,,' | site outlier
test_that "a point that makes the plan small is named" gives 0 'warning: WRONG is 39999\.[0-9]* km|warning: WRONG is 40000\.[0-9]* km' \
  sh -c 'bhtf plot outlier >/dev/null'
# Four rings of 72 points, as prisms in a bowl.
awk 'BEGIN { pi = atan2(0, -1); for (r = 1; r <= 4; r++) for (i = 1; i <= 72; i++)
  printf "R%d-%03d,%.3f,%.3f,,\n", r, i, 4482200 + (78 + r * 12) * sin(2 * pi * i / 72), 5351800 + (78 + r * 12) * cos(2 * pi * i / 72) }' | site rings
for paper in A4 A3 A0; do
  bhtf plot rings --paper "$paper" --html >rings.html 2>/dev/null
  test_that "names stand at their own points, $paper" python3 -B "$root/tests/sheets/measure.py" rings.html
done
mapfile -t names < <(bhtf list rings --by name)
for paper in A4 A0; do
  bhtf plot rings --paper "$paper" >rings.svg 2>/dev/null
  test_that "and on the first sheet, $paper" python3 -B "$root/tests/office/plan.py" rings.svg "${names[@]}"
done
bhtf plot rings >rings.svg
test_that "no paper above A3 unless asked" grep -q ' on A3' rings.svg
test_that "names without room are told on the sheet" sh -c 'bhtf plot rings --paper A4 2>/dev/null | grep -q "without room for the name" ||
  ! bhtf plot rings --paper A4 2>&1 >/dev/null | grep -q "no place"'
printf '%s\n' 'A,0,0,,' 'B,100,0,,' 'C,0,100,,' | site m1
printf '%s\n' 'A,0.010,0,,' 'B,100,0.005,,' 'C,0,100,,' | site m2
bhtf plot m2 --against m1 --paper A4 >m2.svg
lengths=$(sed -n '/id="moves"/,/^<\/g>/s/.*d="M\([-0-9.]*\) \([-0-9.]*\) L\([-0-9.]*\) \([-0-9.]*\) .*/\1 \2 \3 \4/p' m2.svg |
  awk '{ printf "%s%.2f", (NR > 1) ? " " : "", sqrt(($3 - $1) ^ 2 + ($4 - $2) ^ 2) }')
told=$(sed -n 's/.*vectors: 1 mm of paper is \([0-9.]*\) mm of movement.*/\1/p' m2.svg)
test_that "twice the move, twice the vector, to the scale that is told" equal "10.0 5.0" \
  "$(awk -v t="${told:-0}" '{ printf "%.1f %.1f", $1 * t, $2 * t }' <<<"$lengths")"
test_that "a plan renders" renders m2.svg

# ---- small ones ----

site stat </dev/null
bhtf add stat A --no-text --quiet
bhtf add stat B '' --quiet 2>/dev/null
test_that "one point has none" gives 0 '^texts: 1, of which 1 is empty; 1 point has none$' bhtf stat stat
for command in sum copy show; do
  test_that "help of $command" gives 0 "^bhtf $command " bhtf help "$command"
  test_that "$command is listed" gives 0 "^  bhtf $command " bhtf --help
  test_that "$command is in the manual page" grep -q "^\.B $command\$" "$root/host/man/bhtf.1"
done

test_that "no report of a sanitizer" unreported "$work/reports"
tally
