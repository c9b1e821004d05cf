#!/usr/bin/env bash
# Plans on paper: names that cannot be misread, sheets with frame, title block, list and details, PDF, PNG and a page for browsers; figures and
# reports in the same forms. The real command, built with the sanitizers; a real browser. The last line is 'N passed, M failed', and the status
# 0 only if M is 0.
#   LIB=path     the library, from the repository's root; crates/station/out/libstation.a unless given
#   SEED=number  of the random sites and figures
#   CHROMIUM=command  the browser, chromium unless given
set -u
cd "$(dirname "$0")/.." || exit 2
root=$PWD
. tests/tally.sh
. tests/sanitized.sh

work=$(mktemp -d)
trap 'rm -rf "$work"' EXIT
sanitized "$work/reports"
# Types that are found once stay with the libraries behind librsvg until a program ends.
printf 'leak:%s\n' libfontconfig libpango libglib libgobject librsvg libcairo >"$work/kept"
export LSAN_OPTIONS=suppressions=$work/kept:print_suppressions=0
seed=${SEED:-20261117}
echo "seed $seed"

settings=()
[ -n "${LIB:-}" ] && settings+=(LIB="$(realpath "$LIB")")
quietly() { "$@" >"$work/said" 2>&1 || { tail -n 5 "$work/said"; return 1; }; }
test_that "the command builds with the sanitizers" quietly make -s -C host "${settings[@]}" SANITIZE=yes OUT="$work/checked" "$work/checked/bhtf"
test_that "and without" quietly make -s -C host "${settings[@]}" OUT="$work/bin" "$work/bin/bhtf"
checked=$work/checked/bhtf
PATH=$work/bin:$PATH
cd "$work" || exit 2

# ---- words for the tests below ----

# gives STATUS PATTERN COMMAND..: status, and the pattern in what is said; '' if nothing may be
gives() {
  local status=$1 pattern=$2 got
  shift 2
  "$@" >said 2>&1
  got=$?
  if [ "$got" -eq "$status" ] && { if [ -z "$pattern" ]; then [ ! -s said ]; else grep -aqE -- "$pattern" said; fi; }; then return 0; fi
  echo "  status $got: $(head -c 400 said | tr -d '\0')"
  return 1
}

equal() { [ "$1" = "$2" ] && return 0; echo "  expected '$1', got '$2'"; return 1; }
python() { python3 -B "$root/tests/sheets/$1.py" "${@:2}"; }

# site NAME: a file of the points that are given as name,easting,northing,height,note
site() {
  rm -f "$1"
  bhtf create "$1" -k 16 -s 4000 && bhtf import "$1" - --columns PENZD --quiet --allow-far --allow-near --allow-swapped
}

# named SITE [OPTION..]: a page of the plan, measured
named() {
  bhtf plot "$@" --html >"$1.html" 2>/dev/null && python measure "$1.html" >measured && return 0
  cat measured
  return 1
}

# ---- names ----

for kind in rings grid clusters random; do
  for count in 10 40 120 400 1000 2000; do
    python sites "$kind" "$count" "$seed" | site "$kind-$count"
    test_that "$count names of $kind can be read one way only" named "$kind-$count"
    [ "$count" -lt 400 ] || echo "$kind: $(tail -n 1 measured)"
  done
  for paper in A4 A1; do
    test_that "400 of $kind on $paper" named "$kind-400" --paper "$paper"
    test_that "and on one with letters of two sizes, 120" named "$kind-120" --paper "$paper"
  done
done
bhtf plot rings-400 --html >page.html 2>/dev/null
for spoil in swap cross cover lose; do
  test_that "the measure finds a name that is wrong: $spoil" gives 1 'named' python measure page.html "$spoil"
done
echo "of these 4 faults" >faults
stadium() { tail -n 1 measured | awk '{ exit !($1 == 400 && $3 <= 43 && $6 == 0 && $10 <= 2) }' || { cat measured; return 1; }; }
named rings-400
test_that "a stadium of 400 points is one sheet and its list, with few lines" stadium
seq 30 | sed 's/.*/S&,5,5,,/' | site same
test_that "thirty points on one place" named same
for turn in 1 2 3; do
  python sites clusters 90 "$((seed + turn))" | site some
  test_that "clusters, seed $((seed + turn))" named some
done

# ---- sheets ----

"$checked" plot clusters-120 >clusters.svg 2>said
test_that "details are on the sheet" grep -q 'id="detail-A"' clusters.svg
test_that "A3 unless asked" grep -q 'width="420mm" height="297mm"' clusters.svg
for paper in 'A4 297 210' 'A3 420 297' 'A2 594 420' 'A1 841 594'; do
  read -r name wide high <<<"$paper"
  test_that "$name" gives 0 "width=\"${wide}mm\" height=\"${high}mm\"" bhtf plot grid-40 --paper "$name"
done
awk 'BEGIN { for (i = 0; i < 20; i++) printf "T%d,%d,%d,,\n", i, 1000 + i % 3, 2000 + i * 40 }' | site tall
test_that "a tall site is upright" gives 0 'width="297mm" height="420mm"' bhtf plot tall
sum=$(bhtf sum grid-40 | cut -d ' ' -f 1)
SOURCE_DATE_EPOCH=1794873600 "$checked" plot grid-40 --project 'Stadium <Süd> & "North"' --datum 'ETRS89 / UTM 32, DHHN2016' >block.svg
for words in 'Stadium &lt;Süd&gt; &amp; &quot;North&quot;' 'ETRS89 / UTM 32, DHHN2016' "$sum" 2026-11-17 '1 : [0-9]*' metres 'grid-40' '1 of 1' A3; do
  test_that "the title block says $words" grep -q "<g id=\"block\">" <(grep -zo '<g id="block">.*</g>' block.svg | tr '\0' '\n' | grep -q ">$words<" && cat block.svg)
done
block_without() { bhtf plot grid-40 | grep -c '>not given<'; }
test_that "what is not given is not made up" equal 2 "$(block_without)"
for part in grid north bar points names beside; do
  test_that "there is a $part" grep -q "id=\"$part\"" block.svg
done
row=$(bhtf get grid-40 G-0007)
test_that "the list has coordinates with heights as the file has them" grep -qE "^<text[^>]*>G-0007 +$(tr ',' ' ' <<<"$row" | sed 's/ *$//; s/ / +/g')</text>" block.svg
python sites grid 12 1 | { cat; echo 'BM-1,,,489.272,'; } | site levels
test_that "and those with a height alone" gives 0 '>BM-1 +- +489\.272<' bhtf plot levels
test_that "the second sheet is the list" gives 0 'List of coordinates' bhtf plot rings-400 --sheet 2
test_that "with its number" gives 0 '>2 of 2<' bhtf plot rings-400 --sheet 2
test_that "there is no third" gives 2 'sheet 3: there are 2' bhtf plot rings-400 --sheet 3
listed() { bhtf plot rings-400 --html | grep -oE '>R[0-9]-[0-9]{3} +[0-9]{7}\.' | sort -u | wc -l; }
test_that "the list has all points" equal 400 "$(listed)"
test_that "more sheets than one are told" gives 0 'this is sheet 1 of 2' bhtf plot rings-400

{ python sites random 40 "$seed"; echo 'WRONG,44822000.5,5351800,,'; } | site outlier
"$checked" plot outlier >outlier.svg 2>said
test_that "an outlier is told" grep -qE 'warning: WRONG is 40339\.[0-9]+ km' said
test_that "and named at the margin" grep -qE '>WRONG 40339\.[0-9]+ km off<' outlier.svg
scale_of() { sed -n 's/.* 1 : \([0-9.]*\) on .*/\1/p' "$1"; }
bhtf plot random-40 >inner.svg
test_that "but not followed" test "$(scale_of outlier.svg)" -le 1500
test_that "its name is measured too" named outlier

# ---- movements ----

printf '%s\n' 'A,0,0,10,' 'B,100,0,10,' 'C,0,100,10,' 'D,100,100,10,' 'E,50,50,10,' | site m1
printf '%s\n' 'A,0.010,0,10,' 'B,100,0.005,9.9965,' 'C,0,100,10,' 'D,100.0006,100,10,' 'E,53,54,10,' | site m2
"$checked" plot m2 --against m1 --tolerance 2 >m.svg
vector() { sed -n '/id="moves"/,/^<\/g>/s/.*d="M\([-0-9.]*\) \([-0-9.]*\) L\([-0-9.]*\) \([-0-9.]*\) .*/\1 \2 \3 \4/p' m.svg | sed -n "$1p"; }
each=$(sed -n 's/.*vectors: 1 mm of paper is \([0-9.]*\) mm of movement.*/\1/p' m.svg)
long() { vector "$1" | awk -v e="$each" '{ printf "%.1f %s", sqrt(($3 - $1) ^ 2 + ($4 - $2) ^ 2) * e, ($3 > $1 + 0.1) ? "east" : ($4 < $2 - 0.1) ? "north" : "?" }'; }
test_that "10 mm to the east" equal "10.0 east" "$(long 1)"
test_that "5 mm to the north, half as long" equal "5.0 north" "$(long 2)"
scale=$(scale_of m.svg)
metres() { vector 3 | awk -v s="$scale" '{ printf "%.1f", (sqrt(($3 - $1) ^ 2 + ($4 - $2) ^ 2) + 1.5) * s / 1000 }'; }
test_that "a move of metres is to the plan's scale, up to the mark" equal 5.0 "$(metres)"
test_that "heights are signed numbers" grep -q '>B 5.0 mm h -3.5 mm<' m.svg
test_that "the vectors have a bar" grep -q 'id="vector-bar"' m.svg
circle=$(sed -n '/id="tolerances"/,/^<\/g>/s/.*r="\([0-9.]*\)".*/\1/p' m.svg | sort -u)
test_that "circles of the tolerance, to the vectors' scale" equal 2.00 "$(awk -v r="$circle" -v e="$each" 'BEGIN { printf "%.2f", r * e }')"
test_that "the list has the changes" grep -qE '>A +0\.010 +0 +10 \+10\.0 \+0\.0 \+0\.0<' m.svg

# ---- PDF and PNG ----

"$checked" plot rings-400 --pdf >rings.pdf
test_that "PDF of both sheets" equal 2 "$(pdfinfo rings.pdf | sed -n 's/^Pages: *//p')"
test_that "of A3" gives 0 '1190\.55 x 841\.89 pts \(A3\)' pdfinfo rings.pdf
embedded() { pdffonts "$1" | awk 'NR > 2 { n++; bad += $(NF - 4) != "yes" } END { exit !(n > 1 && bad == 0) }' || { pdffonts "$1"; return 1; }; }
test_that "with its types" embedded rings.pdf
test_that "the scale bar, measured" python paper bar rings.pdf
bhtf plot rings-400 --html >rings.html
test_that "names are as wide as reckoned" python paper names rings.html rings.pdf
"$checked" plot m2 --against m1 --tolerance 2 --pdf --paper A4 >m.pdf
test_that "the vectors' bar, measured" python paper bar m.pdf
python sites clusters 60 "$seed" | site inset
bhtf plot inset --pdf >inset.pdf 2>/dev/null
test_that "the bar beside those of details" python paper bar inset.pdf
sed 's/1 : 1000/1 : 1250/; s/1 : 750/1 : 1000/' <(bhtf plot rings-400 --svg 2>/dev/null) | rsvg-convert -f pdf >wrong.pdf
test_that "a bar that is wrong is seen" gives 1 'bar of' python paper bar wrong.pdf
test_that "words can be searched for" gives 0 'R3-017' pdftotext rings.pdf -
"$checked" plot grid-40 --png >grid.png
dots() { python3 -c 'import struct, sys; b = open(sys.argv[1], "rb").read(); w, h = struct.unpack(">II", b[16:24]); at = b.index(b"pHYs"); x, y, unit = struct.unpack(">IIB", b[at + 4:at + 13]); print("%.3f %.3f %d" % (w / x, h / y, unit))' "$1"; }
test_that "PNG knows how large it is" equal "0.420 0.297 1" "$(dots grid.png)"
mkdir none && : >none/librsvg-2.so.2
test_that "without librsvg it is said what to install" gives 2 'install librsvg2-2' env LD_LIBRARY_PATH=none bhtf plot grid-40 --pdf
test_that "and SVG needs none of it" gives 0 '<svg' env LD_LIBRARY_PATH=none bhtf plot grid-40
test_that "two forms" gives 2 '--pdf or --png, not both' bhtf plot grid-40 --pdf --png
test_that "a form has no value" gives 2 'takes no value' bhtf plot grid-40 --pdf=yes
test_that "to a full device" gives 2 'cannot write' sh -c 'bhtf plot grid-40 --pdf >/dev/full'
same_twice() { SOURCE_DATE_EPOCH=1794873600 bhtf plot grid-40 --pdf >one.pdf && SOURCE_DATE_EPOCH=1794873600 bhtf plot grid-40 --pdf >two.pdf && cmp one.pdf two.pdf; }
test_that "the same file makes the same PDF" same_twice

# ---- the page for browsers ----

bhtf set rings-400 R3-017 -H 500.125 --log -q
bhtf add rings-400 'BM <1>' -H 489.272 --log -q
bhtf add rings-400 WORDS '</script><b>&' -q --any-text 2>/dev/null || bhtf add rings-400 WORDS '</script><b>&' -q
"$checked" plot rings-400 --html >page.html 2>said
test_that "one file, nothing outside" equal 0 "$(grep -cE 'src=|href|@import|url\(|https?://' <(grep -v 'www.w3.org/2000/svg' page.html))"
if python browser page.html R3-017 R5-001 printed.pdf >browsed; then ok=$(grep -c '^ok' browsed); else ok=0; grep '^not ok' browsed; fi
while read -r what; do
  test_that "browser: $what" grep -qxF "ok $what" browsed
done <<'LIST'
the page is ready
a point is found by its name
and stands in the middle of the window
a click on a point tells of it
the sheet is moved by the mouse
and enlarged by the wheel
about the place under the mouse
it prints
nothing was asked of a network
no fault in the script
LIST
test_that "all went well there" test "$ok" -ge 10
test_that "a point's text" grep -q 'easting: 4482296.905.*height: 500.125' browsed
test_that "and its history" grep -q 'history.*-> 4482296.905,[0-9.]*,500.125,' browsed
test_that "printed, it is both sheets" equal 2 "$(pdfinfo printed.pdf | sed -n 's/^Pages: *//p')"
test_that "of A3" gives 0 '119[01]\.[0-9]* x 84[12]\.[0-9]* pts' pdfinfo printed.pdf
test_that "its scale bar, measured" python paper bar printed.pdf
test_that "with its types" embedded printed.pdf

# ---- figures and reports ----

awk -v s="$seed" 'BEGIN { srand(s); for (i = 1; i <= 60; i++) printf "P%02d,%.3f,%.3f,,\n", i, 1000 + 300 * rand(), 2000 + 200 * rand() }' | site free
off_circle() { # of some figures: the danger circle does not pass through a name
  python figures free "$seed" 60
}
test_that "the danger circle runs through no name" off_circle
test_that "a figure that is wrong is seen" gives 1 'through' python figures free "$seed" 60 spoil
sum=$(bhtf sum free | cut -d ' ' -f 1)
SOURCE_DATE_EPOCH=1794873600 "$checked" figure free --station 1100,2100 P01 P02 P03 --svg >figure.svg
test_that "a figure has file, sum and date" grep -q ">free, sum $sum, 2026-11-17: resection at" figure.svg
"$checked" figure free --station 1100,2100 P01 P02 P03 --pdf >figure.pdf
test_that "a figure as PDF" gives 0 '841\.89 x 595\.27[0-9]* pts \(A4\)' pdfinfo figure.pdf
bhtf create prisms -k 12 -s 400 && bhtf import prisms "$root/tests/report/prisms.csv" --epoch-unit week -q
SOURCE_DATE_EPOCH=1794873600 "$checked" report prisms --from 2958 --to 2967 --tolerance 3mm --sigma 0.5,0.7 --svg >report.svg
test_that "a report has circles of the tolerance" equal 11 "$(grep -c 'class="tolerance"' report.svg)"
each=$(sed -n 's/.*vectors: 1 mm of paper is \([0-9.]*\) mm of movement.*/\1/p' report.svg)
circle=$(sed -n 's/.*class="tolerance".* r="\([0-9.]*\)".*/\1/p' report.svg | sort -u)
test_that "to the vectors' scale" equal 3.00 "$(awk -v r="$circle" -v e="$each" 'BEGIN { printf "%.2f", r * e }')"
test_that "and file, sum and date" grep -q ">prisms, sum $(bhtf sum prisms | cut -d ' ' -f 1), 2026-11-17<" report.svg
"$checked" report prisms --from 2958 --to 2967 --tolerance 3mm --pdf >report.pdf
test_that "a report as PDF" gives 0 'A3' pdfinfo report.pdf
test_that "with its types" embedded report.pdf

# ---- pictures that are kept ----

bash "$root/tests/sheets/pictures.sh" "$work/pictures"
for picture in stadium monitoring; do
  test_that "docs/sheet-$picture.svg is what the command prints" cmp "$root/docs/sheet-$picture.svg" "pictures/sheet-$picture.svg"
done

test_that "no report of a sanitizer" unreported "$work/reports"
cat faults
tally
