#!/usr/bin/env bash
# Looking at a site: list, get, diff, plot and figure, and the files that survey offices exchange. The real command, built with the
# sanitizers. The last line is 'N passed, M failed', and the status 0 only if M is 0.
#   LIB=path     the library, from the repository's root; crates/station/out/libstation.a unless given
#   STANDIN=yes  the plain C of tests/reference in its place
#   SEED=number  of the random sites and figures
set -u
cd "$(dirname "$0")/.." || exit 2
root=$PWD
. tests/tally.sh
. tests/sanitized.sh

work=$(mktemp -d)
trap 'rm -rf "$work"' EXIT
sanitized "$work/reports"
seed=${SEED:-20260719}
echo "seed $seed"

settings=(SANITIZE=yes OUT="$work/bin")
[ -n "${LIB:-}" ] && settings+=(LIB="$(realpath "$LIB")")
[ -n "${STANDIN:-}" ] && settings+=(STANDIN="$STANDIN")
strict=(gcc -std=c99 -D_POSIX_C_SOURCE=200809L -O2 -Wall -Wextra -Werror -pedantic)
quietly() { "$@" >"$work/said" 2>&1 || { tail -n 5 "$work/said"; return 1; }; }
test_that "the command builds" quietly make -s -C host "${settings[@]}"
test_that "the second opinion builds" quietly "${strict[@]}" tests/looking/second.c -lm -o "$work/second"
PATH=$work/bin:$PATH
cd "$work" || exit 2

# ---- words for the tests below ----

printed() { if [ -z "$1" ]; then [ ! -s said ]; else grep -aqE -- "$1" said; fi; }

# gives STATUS PATTERN COMMAND..: status, and the pattern in what is said; '' if nothing may be
gives() {
  local status=$1 pattern=$2 got
  shift 2
  "$@" >said 2>&1
  got=$?
  [ "$got" -eq "$status" ] && printed "$pattern" && return 0
  echo "  status $got: $(head -c 600 said | tr -d '\0')"
  return 1
}

equal() { [ "$1" = "$2" ] && return 0; echo "  expected '$1', got '$2'"; return 1; }

# near A B TOLERANCE
near() {
  awk -v a="$1" -v b="$2" -v t="$3" 'BEGIN { d = a - b; exit !(d <= t && -d <= t) }' && return 0
  echo "  $1 is not $2"
  return 1
}

# site NAME [OPTION..]: a file of the points that are given as name,easting,northing,height,note
site() {
  local name=$1
  shift
  rm -f "$name"
  bhtf create "$name" "$@" && bhtf import "$name" - --columns PENZD --quiet --allow-far --allow-near --allow-swapped
}

# renders FILE: well-formed, no reference outside, and librsvg makes a picture of it
renders() {
  xmllint --noout "$1" || return 1
  if grep -E 'href|@import|@font-face|url\([^#]' "$1"; then echo "  refers to something outside"; return 1; fi
  rsvg-convert -d 96 -p 96 "$1" -o picture.png && [ "$(head -c 4 picture.png | tail -c 3)" = PNG ]
}

# ---- list ----

bhtf create a -k 12 -s 100
bhtf import a "$root/host/site.csv" --quiet
test_that "list by slot is the usual order" equal "$(bhtf list a)" "$(bhtf list a --by slot)"
test_that "list by name" equal "$(bhtf list a | LC_ALL=C sort)" "$(bhtf list a --by name)"
test_that "list by another order" gives 2 'by name or --by slot' bhtf list a --by size
test_that "list by a pattern" equal "$(printf 'BM-1\nBM-2')" "$(bhtf list a 'BM-?' --by name)"
test_that "list by two patterns" equal "$(printf 'BM-2\nCP-101\nCP-102')" "$(bhtf list a 'BM-2' 'CP-10[12]' --by name)"
test_that "a pattern that nothing matches" gives 1 'no name matches' bhtf list a 'X*'
test_that "list --long of some" gives 0 '^ +[0-9]+ +[0-9]+ BM-1$' bhtf list a 'BM-1' --long
test_that "two forms at once" gives 2 'one of them' bhtf list a --json --tsv
slot=$(bhtf list a CP-107 --long | awk '{ print $1 }')
expected="name	slot	easting	northing	height	note
CP-107	$slot	4482148.663	5351685.727	490.382	steel rod, cover marked \"SURVEY\""
test_that "tab-separated" equal "$expected" "$(bhtf list a CP-107 --tsv)"
bhtf create odd -k 16 -s 100
bhtf add odd tabs '1.5,2,3,"a	b\c
d"'
bhtf add odd 'q"\x5C<&>' '+007.50,-.5,5.,"say ""yes"""'
bhtf add odd other 'free text'
bhtf add odd bare --no-text
bhtf add odd visited ''
printf '1,2,3,caf\351' | bhtf add odd bytes
bhtf add odd 'caf\xC3\xA9' '1,2,,' --allow-near
test_that "tabs and ends of lines are escaped" gives 0 '	1\.5	2	3	a\\tb\\\\c\\nd$' bhtf list odd tabs --tsv
test_that "another text is a note" gives 0 '^other	[0-9]+				free text$' bhtf list odd other --tsv
test_that "JSON numbers" gives 0 '"easting":7\.50,"northing":-0\.5,"height":5,"note":"say \\"yes\\""\}' bhtf list odd 'q*' --json
test_that "another text in JSON" gives 0 '"text":"free text"\}$' bhtf list odd other --json
test_that "no text in JSON" gives 0 '^\{"name":"bare","slot":[0-9]+\}$' bhtf list odd bare --json
test_that "an empty one" gives 0 '^\{"name":"visited","slot":[0-9]+,"text":""\}$' bhtf list odd visited --json
test_that "no text, tab-separated" gives 0 '^bare	[0-9]+				\\N$' bhtf list odd bare --tsv
test_that "an empty one" gives 0 '^visited	[0-9]+				$' bhtf list odd visited --tsv
test_that "no text in a long list" gives 0 '^ +[0-9]+ +- bare$' bhtf list odd bare --long
test_that "an empty one" gives 0 '^ +[0-9]+ +0 visited$' bhtf list odd visited --long
test_that "bytes that are not UTF-8 in JSON" gives 0 'caf\\ufffd","hex":"312c322c332c636166e9"\}$' bhtf list odd bytes --json
bhtf list odd --json >odd.json
# shellcheck disable=SC2016
test_that "PHP reads each line of JSON" equal 7 "$(php -r '
  $n = 0;
  foreach (file($argv[1]) as $line) { $n += is_array(json_decode($line, true, 512, JSON_THROW_ON_ERROR)); }
  echo $n;' odd.json)"
bhtf create half -k 8 -s 9
printf '1,2,3,a\355\240\200b' | bhtf add half P --allow-near --allow-far -q
test_that "half a surrogate in a note is no text: JSON" gives 0 '"note":"a\\ufffd\\ufffd\\ufffdb","hex":' bhtf list half --json
reads_xml() { "$@" 2>/dev/null | python3 -c 'import sys, xml.dom.minidom; xml.dom.minidom.parse(sys.stdin.buffer)'; }
test_that "and LandXML" reads_xml bhtf export half --landxml
cp a damaged
# The first bytes of a point's message, found by its text, are its mark and length.
at=$(grep -abo '4482148.663' damaged | head -n 1 | cut -d : -f 1)
printf 'x' | dd of=damaged bs=1 seek=$((at - 4)) conv=notrunc status=none
printf 'x' | dd of=damaged bs=1 seek=$((at - 1)) conv=notrunc status=none
test_that "a damaged point in a long list" gives 1 '^ +[0-9]+ +bad CP-107$' bhtf list damaged --long
test_that "a damaged point in JSON" gives 1 '"name":"CP-107","slot":[0-9]+,"damaged":true\}' bhtf list damaged --json
test_that "names of a damaged file" gives 0 '^CP-107$' bhtf list damaged
test_that "no list of what is no such file" gives 1 'refused \(1\)' bhtf list "$root/host/site.csv" --json
bhtf create empty
test_that "an empty list" equal '' "$(bhtf list empty --json)"

# ---- get ----

expected="BM-1	$(bhtf get a BM-1)
CP-102	$(bhtf get a CP-102)"
test_that "several points" equal "$expected" "$(bhtf get a BM-1 CP-102)"
test_that "one of several is not there" gives 1 '^BM-1	' bhtf get a nobody BM-1
test_that "and that is said" gives 1 'nobody: refused \(14\)' bhtf get a nobody BM-1
test_that "one point as JSON" gives 0 '^\{"name":"BM-1",' bhtf get a BM-1 --json
test_that "a name too long among several" gives 1 'refused \(7\)' bhtf get a BM-1 a-name-that-is-too-long
test_that "one point alone is its text" equal "$(bhtf get a BM-1 --tsv | tail -n 1 | cut -f 6)" "$(bhtf get a BM-1 | cut -d , -f 4)"

# ---- diff ----

cp a b
bhtf delete b CP-103
bhtf delete b RP-WEST
bhtf add b CP-109 '4482260.870,5351839.412,490.101,nail in kerb'
bhtf add b CP-104 '4482301.777,5351779.466,490.553,nail in asphalt' --replace
bhtf add b BM-2 '4482333.497,5351690.115,492.115,height bolt in pump house' --replace
bhtf add b CP-108 '4482096.845,5351741.559,489.830,steel tube' --replace
bhtf add b CP-105 '4482296.0380,5351702.891,491.207,"pillar, forced centring"' --replace
bhtf add b CP-106 '4482229.581,5351668.240,,"pillar, forced centring"' --replace --drop height
bhtf add b BM-1 'gone to the museum' --replace --drop easting,northing,height,note
test_that "nothing changed" gives 0 '^12 same, 0 new, 0 gone, 0 moved, 0 with another text$' bhtf diff a a
test_that "quiet and nothing changed" gives 0 '' bhtf diff a a --quiet
test_that "gone" gives 1 '^gone +CP-103 +4482254\.116 5351832\.905 490\.018$' bhtf diff a b
test_that "new" gives 1 '^new +CP-109 ' bhtf diff a b
test_that "3 and 4 mm are 5 mm" gives 1 '^moved +CP-104 +5\.0 mm: E \+3\.0, N \+4\.0, H \+0\.0$' bhtf diff a b
test_that "moved in height" gives 1 '^moved +BM-2 +3\.0 mm: E \+0\.0, N \+0\.0, H -3\.0$' bhtf diff a b
test_that "another note" gives 1 '^text +CP-108 +another note$' bhtf diff a b
test_that "the same place" gives 1 '^text +CP-105 +the same, written differently$' bhtf diff a b
test_that "a height gone" gives 1 '^text +CP-106 +the height 491\.015 is gone$' bhtf diff a b
test_that "no more coordinates" gives 1 '^text +BM-1 +.* -> the text is not coordinates$' bhtf diff a b
test_that "their sum" gives 1 '^4 same, 1 new, 2 gone, 2 moved, 4 with another text$' bhtf diff a b
test_that "the other way round" gives 1 '^4 same, 2 new, 1 gone, 2 moved, 4 with another text$' bhtf diff b a
test_that "tab-separated differences" gives 1 \
  '^moved	CP-104	5\.000	4482301\.774	5351779\.462	490\.553	4482301\.777	5351779\.466	490\.553	5\.000	0\.000	same$' \
  bhtf diff a b --tsv
bhtf create wide -k 32 -s 200 --seed 5
bhtf export a | bhtf import wide - --quiet
test_that "another key size, table and seed make no difference" gives 0 '^12 same' bhtf diff a wide
test_that "no second file" gives 2 'No such file' bhtf diff a nowhere
test_that "differences to a full device" gives 2 'cannot write' sh -c 'bhtf diff a b >/dev/full'

# ---- plot ----

bhtf plot a >a.svg
test_that "a plan" renders a.svg
bhtf plot b --against a >b.svg 2>said
test_that "what is left out is said" grep -q 'b: 1 point left out: the text is not coordinates' said
test_that "a plan against an older file" renders b.svg
test_that "says what changed" \
  grep -q '10 points.*against a: 4 same, 1 new, 2 gone, 2 moved, 4 with another text; 1 without coordinates' b.svg
test_that "a move in millimetres" grep -q '>CP-104 5.0 mm<' b.svg
test_that "a move in height" grep -q '>BM-2 h -3.0 mm<' b.svg

# places FILE: x and y of the points, in the order of the names
places() { sed -n '/id="points"/,/^<\/g>/s/.*translate(\([-0-9.]*\) \([-0-9.]*\)).*/\1 \2/p' "$1"; }
# The distance of two points on the paper times the scale is that on the ground: BM-1 is the first by name, BM-2 the second.
scale=$(sed -n 's/.* 1 : \([0-9]*\) on .*/\1/p' a.svg)
paper='NR == 1 { x = $1; y = $2 } NR == 2 { print sqrt(($1 - x) ^ 2 + ($2 - y) ^ 2) * s / 1000 }'
test_that "to scale" near "$(places a.svg | awk -v s="$scale" "$paper")" \
  "$(awk 'BEGIN { print sqrt((4482333.497 - 4482087.210) ^ 2 + (5351690.115 - 5351893.004) ^ 2) }')" 0.05
test_that "north is up and east is right" awk 'NR == 1 { x = $1; y = $2 } NR == 2 { exit !($1 > x && $2 > y) }' <(places a.svg)
bar() { sed -n '/id="bar"/,/^<\/g>/p' "$1"; }
test_that "the bar is to scale" near "$(bar a.svg | sed -n 's/.*>\([0-9.]*\) m<.*/\1/p')" \
  "$(bar a.svg | sed -n 's/.*<rect.* width="\([0-9.]*\)".*/\1/p' | awk -v s="$scale" '{ w += $1 } END { print w * s / 1000 }')" 0.01

# clear_names SITE COUNT: that many names on its sheets, which tests/sheets/measure.py finds right
clear_names() {
  bhtf plot "$1" --html >page.html 2>/dev/null && python3 -B "$root/tests/sheets/measure.py" page.html >measured &&
    grep -q "^$2 named" measured && return 0
  cat measured
  return 1
}
test_that "names of twelve points are clear of each other" clear_names a 12
# clear_sheet FILE COUNT: on one sheet that many names, none of which covers another or a point. Letters are taken as 0.6 of their size wide.
clear_sheet() {
  places "$1" >marks
  sed -n '/id="names"/,/^<\/g>/s/^<text x="\([-0-9.]*\)" y="\([-0-9.]*\)"[^>]*>\(.*\)<\/text>/\1 \2 \3/p' "$1" >names
  awk -v count="$2" '
    function across(a, wide, b, other) { return a < b + other && b < a + wide }
    NR == FNR { mx[NR] = $1; my[NR] = $2; marks = NR; next }
    {
      n++
      x[n] = $1
      top[n] = $2 - 2.72
      name[n] = $0
      sub(/^[^ ]* [^ ]* /, "", name[n])
      w[n] = length(name[n]) * 3.4 * 0.6
    }
    END {
      for (i = 1; i <= n; i++) {
        for (j = 1; j < i; j++)
          if (across(x[i], w[i], x[j], w[j]) && across(top[i], 3.4, top[j], 3.4)) bad = 1
        for (j = 1; j <= marks; j++)
          if (across(x[i], w[i], mx[j] - 1.3, 2.6) && across(top[i], 3.4, my[j] - 1.3, 2.6)) bad = 1
      }
      if (bad || n != count) print "  " n " names, " (bad ? "one of them on another or on a point" : "not " count)
      exit bad || n != count
    }' marks names
}
test_that "and on the one sheet that plot prints" clear_sheet a.svg 12
# random COUNT WIDTH HEIGHT NAME: points all over a site
random() {
  awk -v s="$seed" -v n="$1" -v w="$2" -v h="$3" -v p="$4" 'BEGIN {
    srand(s)
    for (i = 1; i <= n; i++) printf "%s-%03d,%.3f,%.3f,,\n", p, i, 4482000 + rand() * w, 5351600 + rand() * h
  }'
}
random 200 400 260 CP | site r200
bhtf plot r200 >r200.svg
test_that "a site of 200 points" renders r200.svg
test_that "its names are clear of each other" clear_names r200 200
{ random 100 400 260 CP; random 100 30 20 STADIUM | sed 's/STADIUM/ST/'; } | site dense
bhtf plot dense >dense.svg
test_that "200 points, half of them in a corner" renders dense.svg
test_that "their names are clear of each other" clear_names dense 200
bhtf plot dense --paper A4 >a4.svg
test_that "on the paper that was asked for" grep -q 'width="297mm" height="210mm"' a4.svg
test_that "no such paper" gives 2 'A4, A3, A2, A1 or A0' bhtf plot a --paper letter
random 100 20 900 CP | site tall
bhtf plot tall >tall.svg
test_that "a tall site on upright paper" grep -qE 'width="(210|297|420|594|841)mm" height="(297|420|594|841|1189)mm"' tall.svg

test_that "no plan without points" gives 1 'there is no point with coordinates' bhtf plot empty
echo 'P,1,2,,' | site one
bhtf plot one >one.svg
test_that "one point" renders one.svg
test_that "its name is there" clear_names one 1
test_that "and on the one sheet that plot prints" clear_sheet one.svg 1
printf '%s\n' 'A,100,200,,' 'B,101.2,200.4,,' | site small
bhtf plot small >small.svg
test_that "a site of a metre" renders small.svg
test_that "at 1 : 10, with decimals in its grid" grep -q '>100\.5<' small.svg
seq 30 | sed 's/.*/L&,&0,&0,,/' | site line
bhtf plot line >line.svg
test_that "all on a line" renders line.svg
seq 30 | sed 's/.*/S&,5,5,,/' | site same
bhtf plot same >same.svg
test_that "all on one place" renders same.svg
test_that "those with room are clear of each other, and the others have a star" clear_names same '[0-9]*'
printf '%s\n' 'A,-1000000000,-1000000000,,' 'B,1000000000,1000000000,,' 'C,0,0,,' | site huge
bhtf plot huge >huge.svg
test_that "huge coordinates" renders huge.svg
test_that "their scale" grep -q '3 points, 1 : ' huge.svg
printf '%s\n' 'A,1000000001,0,,' 'B,0,99999999999999999999999999999999999999999999999999999999999999999999,,' | site beyond
test_that "coordinates beyond a million kilometres" gives 1 '2 points left out: the text is not coordinates' bhtf plot beyond
printf '%s\n' 'A,1,2,x,' | { rm -f bad; bhtf create bad; bhtf import bad - --columns PENZD --any-text --quiet; }
test_that "a height that is no number" gives 1 '1 point left out' bhtf plot bad
bhtf plot odd >odd.svg 2>said
test_that "names with odd bytes" renders odd.svg
test_that "are escaped" grep -q '>q&quot;\\x5C&lt;&amp;&gt;<' odd.svg
bhtf add one 'a\x01\xFF]]>' '3,4,,'
bhtf plot one >one.svg
test_that "names that do not print" renders one.svg
cp one '<&">.bhtf'
bhtf plot '<&">.bhtf' --against one >name.svg
test_that "a file with an odd name" renders name.svg
test_that "a damaged point is left out" gives 1 '1 point left out: damaged' bhtf plot damaged
test_that "no older file" gives 2 'No such file' bhtf plot a --against nowhere
test_that "a plan to a full device" gives 2 'cannot write' sh -c 'bhtf plot a >/dev/full'
random 3000 400 260 CP | site many
bhtf plot many >many.svg 2>said
test_that "3,000 points" renders many.svg

# ---- figure ----

# Worked by hand. E1, E2, E3 and the others stand on circles about 0, 0.
awk 'BEGIN {
  pi = atan2(0, -1)
  for (i = 0; i < 3; i++) printf "E%d,%.9f,%.9f,,\n", i, 100 * sin(2 * pi * i / 3), 100 * cos(2 * pi * i / 3)
  for (i = 0; i < 5; i++) printf "F%d,%.9f,%.9f,,\n", i, 80 * sin(2 * pi * i / 5), 80 * cos(2 * pi * i / 5)
  for (i = -1; i <= 1; i++) { printf "G%d,%.9f,%.9f,,\n", i, 100 * sin(pi / 3 * i), 100 * cos(pi / 3 * i)
    printf "H%d,%.9f,%.9f,,\n", i, 100 * sin(pi / 9 * i), 100 * cos(pi / 9 * i)
    printf "I%d,%.9f,%.9f,,\n", i, 100 * sin(pi / 12 * i), 100 * cos(pi / 12 * i) }
  print "L1,0,0,,\nL2,80,3,,\nL3,170,0,,\nL4,250,1,,"
  for (i = 0; i < 6; i++) printf "K%d,%.9f,%.9f,,\n", i, 50 + 200 * sin(i), 70 + 200 * cos(i)
}' | site f
number() { sed -n "s/^$1 *\\([0-9.]*\\).*/\\1/p" said; }
figure() { bhtf figure f "$@" >said 2>&1; }

# n directions all round over equal distances s: the ellipse is a circle of s sqrt(2/n), the factor 1.
test_that "three all round are good" gives 0 '^good: ' bhtf figure f --station 0,0 E0 E1 E2
test_that "their factor" near 1 "$(number factor)" 0.0006
test_that "their ellipse: 100 m, 1 mgon, sqrt(2/3)" near 1.2825 "$(number ellipse)" 0.006
test_that "their spread" grep -qx 'spread   all directions lie within 266\.7 gon; the widest gap is 133\.3 gon' said
test_that "their circle" grep -q '^circle .*radius 100\.000 m; the station is 100\.000 m inside it' said
test_that "three have no check" grep -q '^check    none: residuals' said
figure --station 0,0 F0 F1 F2 F3 F4 --sigma 0.3
test_that "five all round: 80 m, 0.3 mgon, sqrt(2/5)" near 0.2384 "$(number ellipse)" 0.006
test_that "two more than needed" grep -q '^check    2 more' said
# Three in a sector of 2 phi over equal distances: the factor is 1.5 / (1 - cos phi).
figure --station 0,0 G-1 G0 G1
test_that "a sector of 133 gon is the limit of good" near 3 "$(number factor)" 0.0006
figure --station 0,0 H-1 H0 H1
test_that "a sector of 44 gon" near 24.873 "$(number factor)" 0.001
test_that "is weak" gives 1 '^weak: directions in a narrow sector$' bhtf figure f --station 0,0 H-1 H0 H1
test_that "a sector of 33 gon is not determined" gives 1 '^not determined: directions in a narrow sector$' \
  bhtf figure f --station 0,0 I-1 I0 I1
# On the danger circle, and near it. Opposite E0, at d radii from the circle, the factor is about 2 / d.
test_that "on the danger circle" gives 1 '^not determined: near the danger circle' bhtf figure f --station 0,-100 E0 E1 E2
test_that "0.000 m from it" grep -qE '^circle .*the station is 0\.000 m (in|out)side it \(0\.0 %\)$' said
test_that "the ellipse is unbounded, along the circle" grep -qx 'ellipse  unbounded, long axis towards 100\.0 gon' said
test_that "elsewhere on the circle" gives 1 '^not determined: near the danger circle' bhtf figure f --station 60,80 E0 E1 E2
test_that "1 % inside" gives 1 '^not determined: near the danger circle' bhtf figure f --station 0,-99 E0 E1 E2
test_that "15 % inside is weak" gives 1 '^weak: near the danger circle$' bhtf figure f --station 0,-85 E0 E1 E2
test_that "six and the station on one circle" gives 1 '^not determined: near the danger circle' \
  bhtf figure f --station 133.896309,-111.564050 K0 K1 K2 K3 K4 K5
test_that "a point off the circle helps" gives 1 '^weak: little holds the station towards 73 gon$' \
  bhtf figure f --station 133.896309,-111.564050 K0 K1 K2 K3 K4 K5 L1
# In line, and nearly.
test_that "nearly in line" gives 1 '^not determined: station and points nearly in line' bhtf figure f --station -60,4 L1 L2 L3
test_that "four of them too" gives 1 'station and points nearly in line' bhtf figure f --station -60,4 L1 L2 L3 L4
test_that "in line, seen from the side, is good" gives 0 '^good' bhtf figure f --station 90,110 L1 L2 L4
# The line closest to L1, L2, L3 falls by 10 / 14467 and passes 83.333, 1: L2 is 1.998 m off it.
test_that "how far off the line" gives 1 '^in line +the points stretch over 170\.000 m and lie within 1\.998 m of a line' \
  bhtf figure f --station 90,110 L1 L2 L3

# Against the second opinion: Tienstra's formula for three points, whole normal equations for more.
# opinion COUNT NUMBER: a random figure of so many points
opinion() {
  local line station names want got
  line=$(awk -v s="$((seed + $2))" -v n="$1" 'BEGIN {
    srand(s)
    for (i = 0; i <= n; i++) printf "%.3f %.3f ", 4482000 + rand() * 300, 5351600 + rand() * 300
  }')
  read -r -a numbers <<<"$line"
  station=${numbers[0]},${numbers[1]}
  names=()
  for i in $(seq "$1"); do
    names+=("P$i")
    echo "P$i,${numbers[$((2 * i))]},${numbers[$((2 * i + 1))]},,"
  done | site opinion
  for i in $(seq "$1"); do names[i - 1]=P$i; done
  bhtf figure opinion --station "$station" "${names[@]}" >said
  want=$(./second axes "${numbers[@]}")
  got=$(sed -n 's/^ellipse *\([0-9.]*\) mm by \([0-9.]*\) mm, long axis towards \([0-9.]*\) gon.*/\1 \2 \3/p' said)
  echo "$want $got" | awk '{ e = $1 * 1e-3 + 0.006; d = $3 - $6; d = d < 0 ? -d : d; d = d > 100 ? 200 - d : d
    exit !(NF == 6 && ($1 - $4) ^ 2 < e ^ 2 && ($2 - $5) ^ 2 < e ^ 2 && (d < 0.11 || $1 - $2 < 0.02 * $1)) }' && return 0
  echo "  $want, not $got: ${numbers[*]}"
  return 1
}
for i in $(seq 20); do test_that "three points, figure $i" opinion 3 "$i"; done
for i in $(seq 10); do test_that "four to thirteen points, figure $i" opinion $((i + 3)) $((100 + i)); done
# The circle's radius from the sides and the area, and the inscribed angle on it.
read -r radius angle < <(./second circle 60 80 0 100 86.602540378 -50 -86.602540378 -50)
test_that "the second opinion's radius" near 100 "$radius" 0.001
test_that "and its inscribed angle" near 0 "$angle" 0.001

test_that "two points" gives 1 '^not determined: a resection needs three different points' bhtf figure f --station 0,0 E0 E1
test_that "one point" gives 1 '^not determined: a resection needs three' bhtf figure f --station 0,0 E0
test_that "three names on one place" gives 1 '^not determined: a resection needs three' bhtf figure same --station 0,0 S1 S2 S3
test_that "a station on a point" gives 1 '^not determined: the station stands on one' bhtf figure f --station 0,0 L1 E0 E1 E2
test_that "a point named twice" gives 2 'E0: the point is named twice' bhtf figure f --station 0,0 E0 E1 E0
test_that "no such point" gives 2 'X: there is no point' bhtf figure f --station 0,0 E0 E1 X
test_that "an empty name" gives 2 ': there is no point' bhtf figure f --station 0,0 E0 E1 ''
test_that "a name with its padding" gives 0 '^good' bhtf figure f --station 0,0 E0 E1 'E2\x00'
test_that "a point without a place" gives 2 'bare: the point.s text is not coordinates' bhtf figure odd --station 0,0 bare tabs
test_that "no names" gives 2 'too few' bhtf figure f --station 0,0
test_that "no station" gives 2 '--station needs' bhtf figure f E0 E1 E2
test_that "a station that is none" gives 2 '--station needs' bhtf figure f --station 5 E0 E1 E2
test_that "a station with letters" gives 2 '--station needs' bhtf figure f --station 5,x E0 E1 E2
test_that "a sigma that is none" gives 2 '--sigma needs' bhtf figure f --station 0,0 --sigma 0 E0 E1 E2
test_that "a sigma that is too large" gives 2 '--sigma needs' bhtf figure f --station 0,0 --sigma 1001 E0 E1 E2
test_that "a station far away" gives 1 '^not determined' bhtf figure f --station -999999999,999999999 E0 E1 E2
test_that "it says that it judges geometry alone" gives 0 'geometry alone' bhtf figure f --station 0,0 E0 E1 E2
picture() { bhtf figure "$@" --svg >figure.svg; renders figure.svg; }
test_that "a picture of a good figure" picture f --station 0,0 E0 E1 E2
test_that "with the circle, the ellipse and the station" equal 3 "$(grep -cE 'id="(circle|ellipse|station)"' figure.svg)"
test_that "a picture of a weak one" picture f --station 0,-85 E0 E1 E2
test_that "says so" grep -q '>weak: near the danger circle<' figure.svg
test_that "a picture of one on the circle" picture f --station 0,-100 E0 E1 E2
test_that "draws no ellipse" equal 0 "$(grep -c 'id="ellipse"' figure.svg)"
test_that "a picture of points in line" picture line --station 5,-700 L1 L2 L3
test_that "a picture of one point" picture f --station 0,0 E0
test_that "a picture of odd names" picture odd --station 100,100 'q"\x5C<&>' tabs 'caf\xC3\xA9'
test_that "the status of a picture" gives 1 'svg' bhtf figure f --station 0,-85 E0 E1 E2 --svg

mkdir pictures
bash "$root/tests/looking/pictures.sh" pictures
for picture in plan figure-good figure-weak; do
  test_that "docs/$picture.svg renders" renders "$root/docs/$picture.svg"
  test_that "and is what the command prints" cmp "$root/docs/$picture.svg" "pictures/$picture.svg"
done

# ---- GSI-16 ----

data=$root/tests/looking
bhtf create g
test_that "GSI from its description" gives 0 '^3 points stored$' bhtf import g "$data/sample.gsi" --gsi
expected='name	easting	northing	height	note
CP-102	4482187.950	5351861.337	489.644	
CP-104	0.00001	1234.56789		
PNC-0058	2.0413	-6.0751	-8.1240	BRASS, BOLT 7'
test_that "its units, signs and remark" equal "$expected" "$(bhtf list g --tsv --by name | cut -f 1,3-)"
bhtf create g2
test_that "what GSI holds besides is said" gives 0 'words not carried over: 21 22 31 41 42 84 85 86 87 88' \
  bhtf import g2 "$data/sample.gsi" --gsi
test_that "lines without coordinates are counted" grep -q '3 lines without coordinates' said
test_that "--quiet: lines that are left out, and no more" equal "bhtf: $data/sample.gsi: 3 lines without coordinates left out" \
  "$(bhtf import g2 "$data/sample.gsi" --gsi --replace --quiet 2>&1)"
bhtf export g --gsi >g.gsi
bhtf create g3
bhtf import g3 g.gsi --gsi --quiet
test_that "GSI out and in again" gives 0 '^3 same, 0 new, 0 gone, 0 moved, 0 with' bhtf diff g g3
test_that "words of 24 characters" awk '{ sub(/\r$/, ""); if (substr($0, 1, 1) != "*" || (length($0) - 1) % 24 != 0) exit 1 }' g.gsi
block='*110001+0000000000CP-102 81..10+0000004482187950 82..10+0000005351861337 83..10+0000000000489644 '
test_that "a block as it is described" equal "$block" "$(head -n 1 g.gsi | tr -d '\r')"
test_that "a unit for five decimals" grep -q '81\.\.18+0000000000000001 82\.\.18+0000000123456789 ' g.gsi
test_that "long notes are cut, and that is said" gives 3 'notes cut to 16 ASCII' bhtf export a --gsi
printf '%s\n' '0012,1,2,3,' 'a name of more than 16,1,2,,' 'six,1.000001,2,3,' 'äж,1,2,,' | site loss -k 32
test_that "zeros in front are said" gives 3 '1 name with zeros in front' bhtf export loss --gsi
test_that "names without a place are said" gives 3 '2 points left out: GSI-16 has names' bhtf export loss --gsi
test_that "rounding is said" gives 3 '1 point rounded to 0.01 mm' bhtf export loss --gsi
bhtf create slash
bhtf add slash 'a\x5Cx41b' 1,2,3,
bhtf add slash '\x20b\xFE' 1,2,4,
bhtf export slash --gsi >slash.gsi 2>said
test_that "names with odd bytes have no place in GSI" grep -q '1 point left out: GSI-16 has names' said
bhtf create slash2
bhtf import slash2 slash.gsi --gsi --quiet
test_that "a backslash has one" gives 1 '^0 same, 0 new, 1 gone, 0 moved, 1 with' bhtf diff slash slash2
bad_gsi() { printf '%s\n' "$2" >bad.gsi; gives 2 "$1" bhtf import g bad.gsi --gsi; }
test_that "GSI-8" bad_gsi 'this is GSI-8, which is not read' '110001+00000101 81..00+00002041 82..00+00006075'
test_that "a word cut short" bad_gsi 'line 1: here is no word' '*110001+0000000000CP-102 81..00+00000044821879'
test_that "no sign" bad_gsi 'line 1: here is no word' '*110001 0000000000CP-102 '
test_that "a sign that is none" bad_gsi 'line 1: here is no word' '*110001+0000000000000101 81..00*0000000000002041 82..00+0000000000006075 '
test_that "feet" bad_gsi 'not 16 digits in metres' '*110001+0000000000000101 81..01+0000000000002041 82..01+0000000000006075 '
test_that "letters in a coordinate" bad_gsi 'not 16' '*110001+0000000000000101 81..00+00000000000020x1 82..00+0000000000006075 '
test_that "an easting alone" bad_gsi 'one of easting' '*110001+0000000000000101 81..00+0000000000002041 '
test_that "no point number" bad_gsi 'without a point number' '*81..00+0000000000002041 82..00+0000000000006075 '
test_that "nothing of it was stored" gives 0 '^3$' bhtf count g
test_that "a name that is there already" gives 1 'line 4: CP-102: refused \(9\)' bhtf import g "$data/sample.gsi" --gsi
test_that "GSI with options for CSV" gives 2 'without options for CSV' bhtf import g "$data/sample.gsi" --gsi --columns PNEZD
test_that "a dry run of GSI" gives 0 '3 points would be stored' bhtf import empty "$data/sample.gsi" --gsi --dry-run
test_that "two forms of export" gives 2 'one of them' bhtf export a --gsi --dxf
head -c 3000 /dev/urandom >noise
test_that "noise as GSI" gives 2 'line 1' bhtf import g noise --gsi
test_that "an empty GSI" gives 0 '^0 points stored$' bhtf import g /dev/null --gsi

# ---- LandXML ----

bhtf create x
test_that "LandXML from its schema" gives 0 '^3 points stored$' bhtf import x "$data/sample.xml" --landxml
expected='name	easting	northing	height	note
CP-101	4482113.402	5351874.118	489.271	bolt & washer, <north> gate
CP-102	4482187.950	5351861.337		KERB
Münz-3	+2.25	-1.5	0	'
test_that "northing first, references, groups" equal "$expected" "$(bhtf list x --tsv --by name | cut -f 1,3-)"
bhtf import x "$data/sample.xml" --landxml --replace >said 2>&1
test_that "what is not carried over is said" grep -q 'Surfaces not carried over' said
test_that "references are counted" grep -q '1 CgPoint that refers' said
bhtf export x --landxml >x.xml
test_that "LandXML out is XML" xmllint --noout x.xml
bhtf create x2
bhtf import x2 x.xml --landxml --quiet
test_that "LandXML out and in again" gives 0 '^3 same, 0 new, 0 gone, 0 moved, 0 with' bhtf diff x x2
test_that "equal files, equal LandXML" cmp x.xml <(bhtf export x --landxml)
bhtf export odd --landxml >odd.xml 2>said
test_that "odd names and notes in LandXML" xmllint --noout odd.xml
test_that "what XML cannot hold is said" grep -q '1 note with characters that XML cannot hold' said
bhtf create x3
test_that "they come back" gives 0 '^4 points stored$' bhtf import x3 odd.xml --landxml --allow-near
test_that "with their ends of lines" equal "$(bhtf get odd tabs)" "$(bhtf get x3 tabs)"
bad_xml() { printf '%s\n' "$2" >bad.xml; gives 2 "$1" bhtf import x bad.xml --landxml; }
in_xml() { echo "<LandXML><CgPoints>$1</CgPoints></LandXML>"; }
test_that "no XML" bad_xml 'line 1: this is not XML' 'P,N,E,Z,D'
test_that "XML cut short" bad_xml 'line [0-9]: this is not XML' '<LandXML><CgPoints><CgPoint name="A">1 2 3</CgPoint>'
test_that "other XML" bad_xml 'this is no LandXML' '<svg/>'
test_that "feet" bad_xml 'not in metres' '<LandXML><Units><Imperial linearUnit="foot"/></Units></LandXML>'
test_that "millimetres" bad_xml 'not in metres' '<LandXML><Units><Metric linearUnit="millimeter"/></Units></LandXML>'
test_that "a point without a name" bad_xml 'line 1: the CgPoint has no name' "$(in_xml '<CgPoint>1 2 3</CgPoint>')"
for place in '1' '1 2 3 4' '1 x' '' '1e3 2'; do
  test_that "a place of '$place'" bad_xml 'a CgPoint is northing' "$(in_xml "<CgPoint name='A'>$place</CgPoint>")"
done
test_that "no units" gives 0 'does not say its units' \
  bhtf import x - --landxml --replace <<<"$(in_xml '<CgPoint name="A">1 2</CgPoint>')"
{ echo '<!DOCTYPE LandXML [<!ENTITY a "aaaaaaaaaa">'; for i in b c d e f g h i j; do
    p=$(printf '%s' "$i" | tr b-j a-i); echo "<!ENTITY $i \"&$p;&$p;&$p;&$p;&$p;&$p;&$p;&$p;&$p;&$p;\">"; done
  echo ']><LandXML><CgPoints><CgPoint name="&j;">1 2</CgPoint></CgPoints></LandXML>'; } >laughs.xml
test_that "entities that swell" gives 2 'this is not XML' bhtf import x laughs.xml --landxml
test_that "noise as LandXML" gives 2 'this is not XML' bhtf import x noise --landxml

# Samples with bytes changed, taken away and doubled: refused or read, never a fault.
# shellcheck disable=SC2016
mutate='mt_srand((int)$argv[1]); $text = file_get_contents($argv[2]); $bytes = "*+-.0 <>&\"\0\n\xff19";
  for ($i = mt_rand(1, 6); $i > 0; $i--) {
    $at = mt_rand(0, strlen($text) - 1);
    switch (mt_rand(0, 2)) {
      case 0: $text[$at] = $bytes[mt_rand(0, strlen($bytes) - 1)]; break;
      case 1: $text = substr($text, 0, $at) . substr($text, $at + mt_rand(1, 30)); break;
      case 2: $text = substr($text, 0, $at) . substr($text, $at, mt_rand(1, 60)) . substr($text, $at); break;
    }
  }
  echo $text;'
survives() { # OPTION SAMPLE NUMBER
  php -r "$mutate" "$((seed + $3))" "$2" >mutated
  bhtf import mutants mutated "$1" --replace --drop easting,northing,height,note --allow-far --allow-near --allow-swapped >said 2>&1
  [ $? -le 2 ] && ! grep -qE 'Sanitizer|runtime error' said && return 0
  return 1
}
all_survive() {
  local i
  rm -f mutants
  bhtf create mutants -k 32
  for i in $(seq 150); do survives "$1" "$2" "$i" || { echo "  seed $((seed + i))"; head -n 5 said; return 1; }; done
  bhtf check mutants --quiet
}
test_that "150 GSI files with faults" all_survive --gsi "$data/sample.gsi"
test_that "150 LandXML files with faults" all_survive --landxml "$data/sample.xml"

# ---- DXF ----

bhtf export b --dxf >b.dxf 2>said
test_that "a point without a height is said" grep -q '1 point without a height put at height 0' said
cat >read.py <<'PYTHON'
import sys
import ezdxf
from ezdxf.lldxf.encoding import decode_dxf_unicode
drawing = ezdxf.readfile(sys.argv[1])
problems = drawing.audit()
assert not problems.errors and not problems.fixes
names = [decode_dxf_unicode(t.dxf.text) for t in drawing.modelspace().query('TEXT[layer=="NAMES"]')]
points = [p.dxf.location for p in drawing.modelspace().query('POINT[layer=="POINTS"]')]
assert len(names) == len(points)
for name, at in sorted(zip(names, points)):
    print('%s %.3f %.3f %.3f' % (name, at.x, at.y, at.z))
PYTHON
as_listed() { bhtf list "$1" --tsv --by name | awk -F '\t' 'NR > 1 && $3 != "" { printf "%s %.3f %.3f %.3f\n", $1, $3, $4, $5 }'; }
test_that "ezdxf reads it without a fault" equal "$(as_listed b)" "$(/usr/bin/python3 read.py b.dxf)"
bhtf export x --dxf >x.dxf
test_that "a name that is not ASCII" equal 'Münz-3 2.250 -1.500 0.000' "$(/usr/bin/python3 read.py x.dxf | tail -n 1)"
bhtf export empty --dxf >empty.dxf
test_that "a DXF without points" equal '' "$(/usr/bin/python3 read.py empty.dxf)"
test_that "a damaged point is left out" gives 1 '1 point left out: damaged' bhtf export damaged --dxf

test_that "no report of a sanitizer" unreported "$work/reports"
tally
