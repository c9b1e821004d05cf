#!/usr/bin/env bash
# The report of what moved, epochs in the columns of an import, the room that is left, and the pages of the calls: the real command under
# the sanitizers, beside the same reckoned again in Python (tests/report). The last line is 'N passed, M failed', and the status 0 only if
# M is 0 and no fewer ran than stand here.
#   LIB=path     the library, from the repository's root; crates/station/out/libstation.a unless given
#   STANDIN=yes  the plain C of tests/reference in its place
#   SEED=number  of the random prisms
set -u
cd "$(dirname "$0")/.." || exit 2
. tests/tally.sh

root=$PWD
work=$(mktemp -d)
trap 'rm -rf "$work"' EXIT
seed=${SEED:-20261117}
echo "seed $seed"

settings=(OUT="$work/bin")
[ -n "${LIB:-}" ] && settings+=(LIB="$(realpath "$LIB")")
[ -n "${STANDIN:-}" ] && settings+=(STANDIN="$STANDIN")
quietly() { "$@" >"$work/said" 2>&1 || { tail -n 5 "$work/said"; return 1; }; }
test_that "the command builds with sanitizers" quietly make -s -C host "${settings[@]}" SANITIZE=yes "$work/bin/bhtf"
PATH=$work/bin:$PATH
cd "$work" || exit 2

# gives STATUS PATTERN COMMAND..: status, and the pattern in what is said; '' if nothing may be
gives() {
  local status=$1 pattern=$2 got
  shift 2
  "$@" >said 2>&1
  got=$?
  if [ "$got" -eq "$status" ] && if [ -z "$pattern" ]; then [ ! -s said ]; else grep -aqE -- "$pattern" said; fi; then return 0; fi
  echo "  status $got: $(head -c 500 said | tr -d '\0')"
  return 1
}
equal() { [ "$1" = "$2" ] && return 0; echo "  expected '$1', got '$2'"; return 1; }
reckon() { python3 -B "$root/tests/report/reckon.py" "$@"; }

# ---- a worked example: the movements of an old textbook form, and chi-square's published quantiles ----

# A moved by 8, -7 and -9 mm, 13.928 in space; B by 3 and 4, 5 in plan, and has no height; C settled by 5; D stands still; X is not there
# at 45; Y has been read at 40 as a note alone.
cat >worked.csv <<'W'
epoch,name,easting,northing,height,note
40,A,1000.000,2000.000,100.000,
45,A,1000.008,1999.993,99.991,
40,B,1100.000,2000.000,,
45,B,1100.003,2000.004,,
40,C,,,100.005,
45,C,,,100.000,
40,D,1100.000,2100.000,100.000,
45,D,1100.0000,2100.000,100.000,
40,X,1050.000,2050.000,100.000,
43,X,1050.001,2050.000,100.000,
40,Y,,,,hidden by a crane
45,Y,1020.000,2020.000,100.000,
W
test_that "a file of epochs" bhtf create w -k 10 -s 50
test_that "an epoch for each line" gives 0 '^12 points stored$' bhtf import w worked.csv
test_that "all that was said" equal "beyond A +8.0 -7.0 -9.0 13.9 97.00 0.000000 significant
beyond B +3.0 +4.0 - 5.0 12.50 0.001930 significant
beyond C - - -5.0 5.0 12.50 0.000407 significant
unread Y no coordinates that both readings have
missing X no reading at 45, the last before it at 43
within D +0.0 +0.0 +0.0 0.0 0.00 1.000000
6 prisms: 3 beyond 3 mm, 1 within, 1 missing, 1 without coordinates" \
  "$(bhtf report w --from 40 --to 45 --tolerance 3mm --sigma 1mm | tail -n +4 | tr -s ' ')"
test_that "the quantiles of 5 per cent" gives 1 'at 5 % above 7\.815 \(3 coordinates\), 5\.991 \(2\), 3\.841 \(1\)$' \
  bhtf report w --from 40 --to 45 --tolerance 3 --sigma 1
test_that "of 1 per cent" gives 1 'at 1 % above 11\.345 \(3 coordinates\), 9\.210 \(2\), 6\.635 \(1\)$' \
  bhtf report w --from 40 --to 45 --tolerance 3 --sigma 1 --alpha 1%
test_that "of one in a thousand" gives 1 'at 0\.1 % above 16\.266 \(3 coordinates\), 13\.816 \(2\), 10\.828 \(1\)$' \
  bhtf report w --from 40 --to 45 --tolerance 3 --sigma 1 --alpha 0.1
# T of B is 25 / (2 s^2), which is 5.991 for s = 1.44444
test_that "just significant" gives 0 '^moved    B .* 5\.99 0\.04[0-9]* significant$' bhtf report w B --from 40 --to 45 --sigma 1.4442
test_that "just not" gives 0 '^moved    B .* 5\.99 0\.0500[0-9]*$' bhtf report w B --from 40 --to 45 --sigma 1.4446
test_that "plan and height have their own" gives 0 '^moved    C .* 3\.12 0\.0771' bhtf report w C --from 40 --to 45 --sigma 0.1,2
test_that "just the tolerance is within" gives 0 '^within   B ' bhtf report w B --from 40 --to 45 --tolerance 5
test_that "a hair less is beyond" gives 1 '^beyond   B ' bhtf report w B --from 40 --to 45 --tolerance 4.999mm
test_that "without a tolerance" gives 0 '6 prisms: 3 moved, 1 still, 1 missing, 1 without' bhtf report w --from 40 --to 45
test_that "missing ones are no status" gives 0 '^missing  X' bhtf report w X D --from 40 --to 45 --tolerance 3
test_that "and the other way round" gives 0 'missing  A +no reading at 43, the last before it at 40' bhtf report w A --from 40 --to 43
test_that "quiet has rows alone" equal "beyond B" "$(bhtf report w B --from 40 --to 45 --tolerance 3 -q | cut -c1-10 | tr -s ' ')"
test_that "an epoch that nobody has" gives 2 'no reading has epoch 46; there are 3 epochs, from 40 to 45' bhtf report w --from 40 --to 46
test_that "epochs in the wrong order" gives 2 '45 is not before --to 40' bhtf report w --from 45 --to 40
test_that "no epochs" gives 2 'report: --from and --to' bhtf report w --from 40
test_that "a tolerance that is none" gives 2 'tolerance needs millimetres' bhtf report w --from 40 --to 45 --tolerance 3cm
test_that "a sigma of nothing" gives 2 'sigma needs millimetres above 0' bhtf report w --from 40 --to 45 --sigma 0
test_that "a level that is none" gives 2 'alpha needs per cent' bhtf report w --from 40 --to 45 --sigma 1 --alpha 70
test_that "a level without a sigma" gives 2 'alpha goes with --sigma' bhtf report w --from 40 --to 45 --alpha 1
test_that "two forms" gives 2 'one of --csv, --json and --svg' bhtf report w --from 40 --to 45 --csv --svg
test_that "a name that nobody has" gives 2 'no name matches Q' bhtf report w Q --from 40 --to 45
test_that "a file without epochs" gives 2 'refused \(23\)' bash -c 'bhtf create short -k 4 -s 4 && bhtf report short --from 1 --to 2'
test_that "by dates" gives 0 'from epoch 1970-02-10 \(40\) to 1970-02-15 \(45\)' bhtf report w D --from 1970-02-10 --to 1970-02-15
damaged() {
  cp w broken
  python3 -B - <<'P'
b = bytearray(open("broken", "rb").read())
at = b.index(b"1000.008,1999.993")
b[at - 3:at] = b"\xff\xff\xff"
open("broken", "wb").write(b)
P
  gives 2 'damaged  A +a reading is damaged; see bhtf check' bhtf report broken --from 40 --to 45 --tolerance 3 &&
    gives 2 '1 prism cannot be judged' bhtf report broken --from 40 --to 45 --tolerance 3
}
test_that "damage is trouble, and the others are told" damaged

# ---- random prisms, reckoned again ----

reckon make "$seed" lines.csv
test_that "a file" bhtf create e -k 12 -s 200
test_that "their readings" gives 0 'stored' bhtf import e lines.csv --allow-far
test_that "tables as text, CSV and JSON" reckon table lines.csv e
test_that "diff, the plan and the report say the same" reckon same lines.csv 4
rm -f at-40 at-45
test_that "and with another tolerance" reckon same lines.csv 1.5
test_that "a sheet" gives 1 '' bash -c 'bhtf report e --from 40 --to 45 --tolerance 3 --sigma 1 --svg >sheet.svg'
bhtf report e --from 40 --to 45 --tolerance 3 --sigma 1 --csv >sheet.csv
test_that "to its scales" reckon sheet sheet.svg sheet.csv
test_that "one of few prisms" gives 1 '' bash -c "bhtf report e 'P-0?' --from 40 --to 45 --tolerance 3 --svg >sheet.svg"
bhtf report e 'P-0?' --from 40 --to 45 --tolerance 3 --csv >sheet.csv
test_that "to its scales" reckon sheet sheet.svg sheet.csv
test_that "heights alone have no plan" gives 0 'no plan, since none has easting and northing' bhtf report w C --from 40 --to 45 --svg
picture() {
  bhtf create prisms -k 12 -s 400 && bhtf import prisms "$root/tests/report/prisms.csv" --epoch-unit week -q
  SOURCE_DATE_EPOCH=1794873600 bhtf report prisms --from 2958 --to 2967 --tolerance 3mm --sigma 0.5,0.7 --svg >prisms.svg
  cmp prisms.svg "$root/docs/report.svg"
}
test_that "the picture in docs is what it draws" picture
crowd() {
  awk 'BEGIN { print "name,epoch,easting,northing,height"; for (i = 0; i < 100; i++) for (t = 1; t < 4; t++)
    printf "Q%03d & <%d>,%d,%.4f,%.4f,%.4f\n", i, i, t, 1000 + 13 * i, 2000 + (i * 7919) % 500, 100 + t / 1000 }' >crowd.csv
  bhtf create crowd -k 20 -s 400 && bhtf import crowd crowd.csv -q && bhtf report crowd --from 1 --to 3 --svg >crowd.svg &&
    python3 -B -c 'import xml.etree.ElementTree as t
r = t.parse("crowd.svg").getroot()
assert r.get("width") == "841mm", r.get("width")
assert sum(g.get("class") == "track" for g in r.iter("{http://www.w3.org/2000/svg}g")) == 100'
}
test_that "a hundred prisms take a larger paper" crowd
test_that "or what is asked for, with words on the rest" gives 0 '79 more prisms stand in the table' \
  bhtf report crowd --from 1 --to 3 --svg --paper A3
test_that "a paper that is none" gives 2 'paper is A3' bhtf report crowd --from 1 --to 3 --svg --paper A5

# ---- epochs in a column ----

test_that "dates and weeks, by Python's calendar" reckon dates
test_that "a week of ISO 8601" gives 0 '^2967	1,2,,$' bash -c 'bhtf create iso -k 12 -s 20 && printf "name,week,easting,northing\nA,2026-W47,1,2\n" |
  bhtf import iso - --epoch-unit week -q && bhtf at iso A 2026-11-22 --epoch-unit week'
test_that "one that the year has not" gives 2 'line 2: an epoch is a number' \
  bash -c 'printf "name,week,easting,northing\nA,2027-W53,1,2\n" | bhtf import iso - --epoch-unit week'
test_that "a day that is none" gives 2 'line 2: an epoch is a number' bash -c 'printf "name,epoch,height\nA,2026-02-30,1\n" | bhtf import iso -'
test_that "no epoch in a line" gives 2 'line 3: an epoch is' bash -c 'printf "name,epoch,height\nA,1,1\nB,,1\n" | bhtf import iso -'
test_that "nothing was stored" equal "A	1	2967" "$(bhtf epochs iso)"
test_that "a column date by itself is asked about" gives 2 'date: --epoch-unit day or week takes such a column' \
  bash -c 'printf "name,date,height\nA,2026-11-16,1\n" | bhtf import iso -'
test_that "said twice" gives 2 'a column for the epoch, not both' bash -c 'printf "name,epoch,height\nA,1,1\n" | bhtf import iso - --epoch 7'
test_that "by --columns" gives 0 '^A	2	5 2967$' bash -c 'printf "5;A;1.5\n" | bhtf import iso - --columns epoch,name,height -q && bhtf epochs iso'
test_that "one name at two epochs is two points" gives 0 '2 points stored' bash -c 'printf "name,epoch,height\nB,1,1\nB,2,1\n" | bhtf import iso -'
test_that "twice at one is refused" gives 1 'C: stands on line 2' bash -c 'printf "name,epoch,height\nC,1,1\nC,1,2\n" | bhtf import iso -'
test_that "a dry run says which" gives 0 '^new    D at 9$' bash -c 'printf "name,epoch,height\nD,9,1\n" | bhtf import iso - --dry-run'
test_that "and with --epoch" gives 0 '^new    D at 9$' bash -c 'printf "name,height\nD,1\n" | bhtf import iso - --epoch 9 --dry-run'
test_that "what an update moves" gives 0 '^moved  B at 2: height \+2\.0 mm$' \
  bash -c 'printf "name,epoch,height\nB,2,1.002\n" | bhtf import iso - --update --dry-run'
test_that "a place far off has its name and epoch" gives 1 'line 6: A1 at 2961: its place lies 898\.980 km away' bash -c 'bhtf create far -k 12 -s 20 &&
  printf "name,week,easting,northing\nA1,2026-W40,1000,2000\nA2,2026-W40,1010,2010\nA3,2026-W40,1020,2000\nA4,2026-W40,1030,2005\nA1,2026-W41,900000,2000\n" |
  bhtf import far - --epoch-unit week'
test_that "a line without a name" gives 1 'line 2: there is no name' bash -c 'printf "name,epoch,height\n,1,1\n" | bhtf import iso -'
test_that "and with --epoch" gives 1 'line 2: there is no name' bash -c 'printf "name,height\n,1\n" | bhtf import iso - --epoch 1'
test_that "a name that is too long" gives 1 'refused \(7\): A name in this file has 1 to 8 bytes' \
  bash -c 'printf "name,epoch,height\nABCDEFGHI,1,1\n" | bhtf import iso -'
test_that "keys without room for epochs" gives 1 'refused \(23\)' bash -c 'printf "name,epoch,height\nA,1,1\n" | bhtf import short -'
test_that "a pattern of names" equal "B	2	1 2" "$(bhtf epochs iso 'B*')"

# ---- the room that is left ----

test_that "of random prisms" reckon left e
weekly() {
  bhtf create weekly -k 12 -s 130 && for t in 1 8 15 22 29; do
    awk -v t=$t 'BEGIN { print "name,height"; for (i = 0; i < 12; i++) printf "M%d,%d.%d\n", i, 100 + i, t }' | bhtf import weekly - --epoch $t -q
  done
  # 70 slots are left, 12 a week: 5 weeks, of seven days
  gives 0 '^epochs left at that rate: 5, to about epoch 64 \(3 to a load of 80 %, 5 until the table is full' bhtf stat weekly
}
test_that "a weekly file, by hand" weekly
test_that "as reckoned again" reckon left weekly
plain() { bhtf create plain -k 8 -s 50 && bhtf import plain "$root/host/site.csv" -q && bhtf stat plain >said && ! grep -q epochs said; }
test_that "a file of names has no epochs" plain
short_names() {
  printf 'name,height\nAB1,1\nAB2,2\nABCDEFGH,3\n' | bhtf import plain - -q --allow-far && bhtf stat plain >said && ! grep -q epochs said
}
test_that "whatever their length" short_names

# ---- the pages of the calls ----

test_that "it installs" quietly make -s -C "$root/host" "${settings[@]}" OUT="$work/to-install" install PREFIX="$work/usr"
test_that "each call has a page of what its header says" python3 -B "$root/tests/report/pages.py" "$root/host/include" "$work/usr/share/man/man3"
reads() {
  local page count=0
  for page in usr/share/man/man3/bhtf_*.3; do
    { mandoc -Tlint "$page" && LC_ALL=C.UTF-8 man -l --warnings "$page" >/dev/null; } >said 2>&1 && [ ! -s said ] ||
      { echo "  $page: $(head -n 2 said)"; return 1; }
    count=$((count + 1))
  done
  [ "$count" -gt 40 ]
}
test_that "man and mandoc have nothing against them" reads
silent() {
  sed '/^\/\* \*count is the number/d' "$root/host/include/bhtf.h" | sed '/^#define BHTF_SOUND/,/^uint32_t bhtf_lookup_slots/d' >silent.h
  mkdir -p pages && ! awk -v header=bhtf.h -v to=pages -f "$root/host/man/calls.awk" silent.h 2>said &&
    grep -q 'bhtf.h: nothing is said of bhtf_count' said
}
test_that "a call without words has none, and the build ends" silent
uninstalls() {
  [ -e usr/share/man/man3/bhtf_add.3 ] && make -s -C "$root/host" "${settings[@]}" OUT="$work/to-install" uninstall PREFIX="$work/usr" &&
    [ -z "$(find usr -type f -o -type l)" ]
}
test_that "and goes again" uninstalls

# ---- headings, parts and statuses ----

test_that "a heading of unknown words is asked about" gives 2 'line 1: this may be a heading or a point: --skip 1 passes over it, --skip 0 takes' \
  bash -c 'bhtf create h -k 20 -s 50 && printf "Matricule;Observation\nCP1;bolt\n" | bhtf import h - --columns name,note'
test_that "nothing was stored" equal 0 "$(bhtf count h)"
test_that "passed over" gives 0 '^1 point stored$' bash -c 'printf "Matricule;Observation\nCP1;bolt\n" | bhtf import h - --columns name,note --skip 1'
test_that "or a point" gives 0 '^1 point stored$' bash -c 'printf "NORTHGATE;tower\n" | bhtf import h - --columns name,note --skip 0'
test_that "with --any-text too" gives 2 'line 1: this may be a heading or a point' \
  bash -c 'printf "Matricule;Est;Nord\nCP2;1;2\n" | bhtf import h - --columns name,easting,northing --any-text'
test_that "a name with a digit is a point" gives 0 '^1 point stored$' bash -c 'printf "CP3;bolt\n" | bhtf import h - --columns name,note'
test_that "and a name without a note" gives 0 '^1 point stored$' bash -c 'printf "SOUTHGATE;\n" | bhtf import h - --columns name,note'
parts() {
  { echo '<LandXML><Units><Metric linearUnit="meter"/></Units>'; for i in $(seq 40); do echo "<Part$i/>"; done
    echo '<CgPoints><CgPoint name="L1">2 1 3</CgPoint></CgPoints></LandXML>'; } >parts.xml
  bhtf import h parts.xml --landxml --allow-far >said 2>&1 && [ "$(grep -c 'Part[0-9]* not carried over' said)" -eq 32 ] &&
    grep -q '8 other parts not carried over' said
}
test_that "parts of LandXML are named, and those behind as many names counted" parts
for form in gsi landxml dxf; do
  test_that "--$form: a point without a text is left out, with a status" gives 3 '1 point left out: no text' \
    bash -c "rm -f left && bhtf create left -k 8 -s 9 && bhtf add left A -E 1 -N 2 && bhtf add left B --no-text && bhtf export left --$form"
  test_that "--$form: one that is not coordinates as well" gives 3 '1 point left out: the text is not coordinates' \
    bash -c "bhtf delete left B -q && bhtf add left B words && bhtf export left --$form"
  test_that "--$form: without them" gives 0 'A' bash -c "bhtf delete left B -q && bhtf export left --$form"
done
# what import says of a point, and what diff says of it afterwards
moves() {
  rm -f before after && bhtf create before -k 8 -s 20 &&
    printf 'A,1000,2000,10,\nB,1000.5,2000,,\nC,,,10,\nD,1001,2000,10,x\n' | bhtf import before - --columns PENZD -q && cp before after &&
    printf 'A,1000.003,2000.004,10,\nB,1000.5000004,2000,,\nC,,,9.995,\nD,1001,2000,10,y\n' >moved.csv &&
    bhtf import after moved.csv --columns PENZD --replace --dry-run >would && bhtf import after moved.csv --columns PENZD --replace -q &&
    bhtf diff before after >became
  equal "A: plan 5.0 mm C: height -5.0 mm" "$(sed -n 's/^moved  //p' would | sort | paste -sd' ')" &&
    equal "A 5.0 mm: E +3.0, N +4.0, H +0.0 C 5.0 mm: H -5.0" "$(sed -n 's/^moved  //p' became | tr -s ' ' | paste -sd' ')" &&
    equal "B D" "$(sed -n 's/^text   \([A-Z]\).*/\1/p' would | sort | paste -sd' ')" &&
    equal "B D" "$(sed -n 's/^text   \([A-Z]\).*/\1/p' became | sort | paste -sd' ')"
}
test_that "import and diff have one reckoning" moves

ran=$((passed + failed))
[ "$ran" -ge 88 ] || { failed=$((failed + 1)); echo "FAILED: only $ran tests ran"; }
tally
