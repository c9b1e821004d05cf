#!/usr/bin/env bash
# What goes into a file, as an office does it in a working week: corrections, lists, tables of spreadsheets, files of instruments, several
# changes as one, and the log. Nothing may be lost or changed that was not named. Runs the command under the sanitizers; the last line is
# 'N passed, M failed'.
#
# LIB=path      the proved library; else crates/station/out/libstation.a
# LDLIBS=".."   if it needs more
set -u
cd "$(dirname "$0")/.." || exit 2
root=$PWD
work=$(mktemp -d)
trap 'rm -rf "$work"' EXIT
. tests/sanitized.sh
sanitized "$work/reports"
passed=0
failed=0

pass() { passed=$((passed + 1)); echo "ok: $1"; }
fail() { failed=$((failed + 1)); echo "FAILED: $1"; [ -z "${2:-}" ] || echo "  $2"; }

# gives NAME STATUS PATTERN COMMAND..: status, and the pattern in what is printed; '' if nothing may be
gives() {
  local name=$1 status=$2 pattern=$3 got
  shift 3
  "$@" >"$work/out" 2>&1
  got=$?
  if [ "$got" -eq "$status" ] && { if [ -z "$pattern" ]; then [ ! -s "$work/out" ]; else grep -aqE -- "$pattern" "$work/out"; fi; }; then
    pass "$name"
  else
    fail "$name" "status $got: $(head -c 400 "$work/out" | tr -d '\0')"
  fi
}
# same NAME EXPECTED ACTUAL
same() { if [ "$2" = "$3" ]; then pass "$1"; else fail "$1" "expected '$2', got '$3'"; fi; }
# holds NAME COMMAND..: passes if the command does
holds() { local name=$1; shift; if "$@" >"$work/out" 2>&1; then pass "$name"; else fail "$name" "$(tail -n 3 "$work/out")"; fi; }

settings=()
[ -n "${LIB:-}" ] && settings+=(LIB="$(realpath "$LIB")")
[ -n "${LDLIBS:-}" ] && settings+=(LDLIBS="$LDLIBS")
make -s -C host OUT="$work/bin" SANITIZE=yes "$work/bin/bhtf" "${settings[@]}" >"$work/out" 2>&1 ||
  { cat "$work/out"; echo "FAILED: builds"; echo "0 passed, 1 failed"; exit 1; }
PATH=$work/bin:$PATH
cd "$work" || exit 2

site() { rm -f "$1" "$1.log"; bhtf create "$1" -k 20 -s 1000 && bhtf import "$1" "$root/host/site.csv" --quiet; }
text() { bhtf get "$1" "$2"; }
# unchanged NAME FILE STATUS PATTERN COMMAND..: refused so, and the file is as it was
unchanged() {
  local name=$1 file=$2
  shift 2
  cp "$file" before
  gives "$name" "$@"
  cmp -s "$file" before || fail "$name: the file changed"
}

# ---- nothing is taken away that was not named ----

site s
unchanged "a height by add --replace" s 1 \
  'CP-101: refused: --replace would take away easting 4482113.402, northing 5351874.118, note "brass bolt in kerb, north gate" \(bhtf set .*--drop easting,northing,note' \
  bhtf add s CP-101 -H 489.3 --replace
gives "a height by set" 0 '^CP-101: height \+29\.0 mm$' bhtf set s CP-101 -H 489.300
same "leaves the rest" '4482113.402,5351874.118,489.300,"brass bolt in kerb, north gate"' "$(text s CP-101)"
gives "a note by set" 0 '^CP-103: note "nail in asphalt" -> "gone"$' bhtf set s CP-103 -t gone
gives "a place by set" 0 '^CP-103: plan 5\.0 mm$' bhtf set s CP-103 -E 4482254.119 -N 5351832.909
gives "an empty value takes a note away" 0 '^CP-103: note "gone" -> none$' bhtf set s CP-103 -t ''
same "and nothing else" '4482254.119,5351832.909,490.018,' "$(text s CP-103)"
gives "the same again" 0 '^CP-103: unchanged$' bhtf set s CP-103 -H 490.018
gives "an easting alone, which has a northing in the file" 0 '^CP-103: plan 1\.0 mm$' bhtf set s CP-103 -E 4482254.120
unchanged "half a place taken away" s 2 'set: there is no easting beside the northing' bhtf set s CP-103 -E ''
unchanged "a point that is not there" s 1 'nobody: refused \(14\)' bhtf set s nobody -H 1
unchanged "nothing given" s 2 'set needs --easting' bhtf set s CP-103
bhtf add s free 'a text of its own'
unchanged "set on another text" s 1 'free: refused: its text is not easting,northing,height,note' bhtf set s free -H 1
unchanged "fields in its place" s 1 'would take away text "a text of its own"' bhtf add s free -H 1 -r
gives "another text in its place" 0 '' bhtf add s free 'another' -r
unchanged "a text in place of coordinates" s 1 'would take away easting 4482187.950, northing .*, height 489.644, note "brass bolt in kerb"' \
  bhtf add s CP-102 destroyed -r
gives "what --drop names goes" 0 '' bhtf add s CP-102 -E 4482187.950 -N 5351861.337 -H 489.644 -r --drop note
same "and is gone" '4482187.950,5351861.337,489.644,' "$(text s CP-102)"
unchanged "--drop of something else does not help" s 1 'would take away height 489.644 \(' bhtf add s CP-102 -E 1 -N 2 -r --drop note
unchanged "--drop of a word" s 2 '--drop takes words' bhtf add s CP-102 -E 1 -N 2 -r --drop notes
unchanged "--drop without --replace" s 2 '--drop goes with --replace' bhtf add s CP-102 -E 1 -N 2 --drop note
gives "--no-text names it" 0 '' bhtf add s free --no-text --replace

site s
printf 'Punkt;H\303\266he\nCP-102;489.645\nCP-103;490.020\n' >levels.csv
unchanged "a levelling list by --replace" s 1 'line 2: CP-102: refused: --replace would take away easting .*note "brass bolt in kerb"' \
  bhtf import s levels.csv --replace
gives "what helps is said once" 0 'levels\.csv: --update changes only what the lines give; --drop easting,northing,note lets' \
  sh -c 'bhtf import s levels.csv --replace --keep-going 2>&1 | grep -- --update | uniq -c | grep " 1 "'
gives "by --update" 0 '^2 points stored: 0 new, 2 changed, 0 equal$' bhtf import s levels.csv --update
same "the rest stays" '4482187.950,5351861.337,489.645,brass bolt in kerb' "$(text s CP-102)"
gives "again: nothing changed" 0 '^2 points stored: 0 new, 0 changed, 2 equal$' bhtf import s levels.csv --update
cut -d, -f1-4 "$root/host/site.csv" >week.csv
unchanged "a list without notes by --replace" s 1 'would take away note' bhtf import s week.csv --replace
printf 'name,easting,northing,height,note\nCP-104,,,490.554,\nNEW-1,4482200,5351800,490,new\n' >part.csv
gives "an empty field gives nothing, a new name is new" 0 '^2 points stored: 1 new, 1 changed, 0 equal$' bhtf import s part.csv --update
same "nothing was lost" '4482301.774,5351779.462,490.554,nail in asphalt' "$(text s CP-104)"
bhtf add s free 'a text of its own'
unchanged "--update of another text" s 1 'line 1: free: refused: its text in the file is not' bhtf import s - --update -c PENZD <<<'free,1,2,3,'
gives "--update and --replace" 2 'not both' bhtf import s part.csv --update --replace

# ---- what goes in is what was meant ----

site s
for unit in ft mm feet us-ft sigma ellipsoidal; do
  unchanged "the unit $unit" s 2 "the heading: easting \($unit\) is not in metres" \
    bhtf import s - <<<"name,easting ($unit),northing ($unit)"$'\n'"F1,14704899.9,17558600.5"
done
unchanged "a unit in square brackets" s 2 'height \[ft\] is not in metres' bhtf import s - <<<$'name,easting [m],northing [m],height [ft]\nF1,4482200,5351800,1605'
unchanged "also with --columns" s 2 'easting \[mm\] is not in metres' \
  bhtf import s - -c PENZ <<<$'name,easting [mm],northing [mm],z\nF1,4482200,5351800,490'
gives "metres in all forms" 0 '^1 point stored$' bhtf import s - <<<$'name (new),Easting [m],Northing (metres),Height (Meter)\nF1,4482200,5351800,490'
gives "a column to pass over may have any" 0 '^1 point stored$' bhtf import s - -c name,e,n,- <<<$'name,e,n,z [ft]\nF2,4482201,5351800,1'

printf 'Name;Rechtswert;Hochwert;H\366he;Bemerkung\r\nS\374d;4482210,5;5351810,5;490,1;Trib\374ne \226 Nord\r\n;;;;\r\n' >excel.csv
unchanged "Windows-1252 is recognised" s 2 'line 1: the byte F6 is not UTF-8; this looks like Windows-1252.*--encoding windows-1252 takes it' \
  bhtf import s excel.csv --decimal ,
gives "and taken if named, with the empty row of a spreadsheet" 0 '^1 point stored$' bhtf import s excel.csv --decimal , --encoding windows-1252
same "as UTF-8" '4482210.5,5351810.5,490.1,Tribüne – Nord' "$(text s Süd)"
printf 'name,easting,northing,note\nG1,4482100,5351800,Trib\374ne\n' >note.csv
unchanged "a note alone is refused, too" s 2 'line 2: the byte FC is not UTF-8' bhtf import s note.csv
unchanged "bytes that are no Windows-1252" s 2 'line 2: the byte 81 is not UTF-8; --encoding says' \
  bhtf import s - < <(printf 'name,e,n\nA\201B,4482100,5351800\n')
unchanged "an encoding that nobody knows" s 2 '--encoding klingon is not known' bhtf import s note.csv --encoding klingon
unchanged "one that it is not" s 2 'line 2: what stands there is not utf-16|is not ASCII|is not us-ascii' bhtf import s note.csv --encoding us-ascii
gives "UTF-8 that is taken for it is warned of" 0 'warning: line 2: its letters are UTF-8' \
  bhtf import s - --encoding windows-1252 --dry-run <<<$'name,e,n,note\nU8,4482125,5351820,Tribüne'
iconv -f UTF-8 -t UTF-16 <<<$'name,e,n\nwide,4482120,5351820' >wide.csv
gives "UTF-16, if named" 0 '^1 point stored$' bhtf import s wide.csv --encoding utf-16
unchanged "a typed name that is not UTF-8" s 2 'the name S\\xFCd is not UTF-8' bhtf add s $'S\374d' x
unchanged "a typed note" s 2 'the note S\\xFCd is not UTF-8' bhtf set s CP-101 -t $'S\374d'

awk -F, 'NR > 1 { n = $3; $3 = $2; $2 = n } { OFS = ","; print $1, $2, $3, $4 }' "$root/host/site.csv" >swapped.csv
unchanged "easting and northing swapped in all lines" s 1 \
  '12 of 12 points would lie near those of s if easting and northing changed places; line 2 is the first' \
  bhtf import s swapped.csv --replace --drop note
gives "with what to do" 1 '--columns says which column is which; --allow-swapped' bhtf import s swapped.csv --replace --drop note
unchanged "by add" s 1 '1 of 1 point would lie near' bhtf add s T4 -E 5351874 -N 4482113
cp s allowed
gives "unless allowed" 0 '^12 points stored' bhtf import allowed swapped.csv --replace --drop note --allow-swapped --allow-far
unchanged "a height of another unit" s 1 'line 1: F9: its height lies 48\.437 km away from the others' \
  bhtf import s - -c PENZD <<<'F9,4482200.5,5351800.5,48927,'
unchanged "a mistyped easting" s 1 'line 2: F9: its place lies 39999\.[0-9]+ km' bhtf import s - -c PENZD <<<$'F8,4482199,5351800,490,\nF9,44482200.5,5351800.5,490,'
unchanged "by add, too" s 1 's: F9: its place lies .* --allow-far|F9: its place lies' bhtf add s F9 -E 4492200 -N 5351800
gives "a tower at 900 m" 0 '' bhtf add s TOWER -E 4483100 -N 5351800
unchanged "two names for one place" s 1 's: CP-113: lies 0\.0 mm from CP-101' bhtf add s CP-113 -E 4482113.402 -N 5351874.118
unchanged "9 mm apart" s 1 'CP-113: lies 9\.0 mm from CP-101' bhtf add s CP-113 -E 4482113.411 -N 5351874.118
gives "16 mm apart" 0 '' bhtf add s CP-113 -E 4482113.418 -N 5351874.118
gives "one above the other" 0 '' bhtf add s CP-101U -E 4482113.402 -N 5351874.118 -H 485
unchanged "within one input" s 1 'line 2: (a|b): lies 1\.0 mm from (a|b)|line 3' bhtf import s - <<<$'P,E,N\na,4482150,5351800\nb,4482150.001,5351800'
gives "an equal file passes, with the pair in it" 0 '^1 point stored: 0 new, 0 changed, 1 equal$' \
  sh -c 'bhtf add s PAIR -E 4482113.402 -N 5351874.118 --allow-near; bhtf export s | grep -E "^(name|PAIR)" | bhtf import s - --replace'
gives "and a pair that moves stays one" 0 '^PAIR: plan 1\.0 mm$' bhtf set s PAIR -E 4482113.403
unchanged "a name that stands twice" s 1 'line 4: A: stands on line 2 of this input already, with another text' \
  bhtf import s - --replace <<<$'P,E,N\nA,4482151,5351801\nB,4482155,5351806\nA,4482159,5351801'
gives "twice the same is one" 0 '^2 points stored: 2 new, 0 changed, 0 equal$' \
  bhtf import s - --replace <<<$'P,E,N\nA,4482151,5351801\nB,4482155,5351806\nA,4482151,5351801'
gives "a longer name that begins so is another matter" 1 '^1 point stored: 1 new' \
  bhtf import s - --replace --keep-going <<<$'P,E,N\n12345678901234567890X,4482152,5351801\n12345678901234567890,4482153,5351802'
unchanged "y and x" s 2 'x and y are each easting to some and northing to others; --columns' bhtf import s - <<<$'Pt,Y,X,Z\n1,5351874.118,4482113.402,489.2'
gives "rows of a spreadsheet without anything" 0 '^1 point stored$' bhtf import s - <<<$';;\nname;easting;northing\nH1;4482160;5351860\n;;\n;;;;;\n'
unchanged "a row without a name" s 1 'line 3: there is no name' bhtf import s - <<<$'name;easting;northing\nH2;4482161;5351860\n;4482162;5351860'
gives "blanks between fields" 0 '^2 points stored$' bhtf import s - -d blank -c PENZ <<<$'  K1   4482170.5  5351861 490.1\nK2\t4482171.5 5351862 490.2  '
same "in any number" '4482170.5,5351861,490.1,' "$(text s K1)"
gives "another sign" 0 '^1 point stored$' bhtf import s - -d '|' <<<$'P|E|N\nK3|4482173|5351863'
gives "a blank behind a name is no other name" 1 'refused \(9\)' bhtf add s 'CP-104 ' t
same "for get neither" "$(text s CP-104)" "$(text s ' CP-104  ')"
gives "for import neither, also a no-break space" 1 'refused \(9\)' bhtf import s - <<<$'P,E,N\nCP-104\302\240,4482180,5351870'
gives "written as \\x20 it is another" 0 '' bhtf add s 'CP-104\x20' t

# ---- file kinds ----

site k
bhtf export k --gsi >k.gsi
bhtf export k --landxml >k.xml
bhtf create g -k 20 -s 100
gives "GSI is told by its content" 0 'k\.gsi: read as GSI-16' bhtf import g k.gsi
gives "LandXML too" 0 'k\.xml: read as LandXML' bhtf import g k.xml --replace --drop note
gives "with options for CSV" 2 'without options for CSV' bhtf import g k.gsi --columns PNEZD
gives "GSI-8" 2 'this is GSI-8' bhtf import g - <<<'110001+00000A11 81..00+00004123 '
gives "a control point file" 2 'this is a control point file' bhtf import g k
bhtf dump k >k.dump
gives "a dump" 2 'this is a dump; bhtf load' bhtf import g k.dump
bhtf delta s s >d 2>/dev/null || bhtf delta k k >d 2>/dev/null
gives "a record of changes" 2 'this is a record of changes; bhtf apply' bhtf import g d
gives "a spreadsheet's own" 2 'own file; save it as CSV' bhtf import g - < <(printf 'PK\003\004xxxx')

# ---- GSI out: what is lost has a status ----

bhtf create u -k 20 -s 100
bhtf add u Sжd -E 4482100 -N 5351800
bhtf add u 0012 -E 4482110 -N 5351800
gives "a name that GSI has not" 3 '1 point left out: GSI-16 has names of 1 to 16 ASCII characters' bhtf export u --gsi
gives "also with --quiet" 3 '1 point left out' bhtf export u --gsi --quiet
gives "zeros in front" 3 '1 name with zeros in front' bhtf export u --gsi
bhtf add u 12 -E 4482120 -N 5351800
gives "where they are another point" 3 '1 point left out: in GSI another point would have the same number' bhtf export u --gsi
bhtf create v -k 20 -s 100
bhtf add v 1 -E 4482120 -N 5351800 -t 'Höhenbolzen ☃'
gives "a note in ASCII" 3 '71\.\.\.\.\+00Hoehenbolzen \? ' bhtf export v --gsi
bhtf add v 0 -E 4482130 -N 5351800
bhtf export v --gsi >v.gsi 2>/dev/null
gives "the point number 0 comes back" 0 '^2 points stored$' sh -c 'bhtf create v2 -k 20 -s 9 && bhtf import v2 v.gsi -q; bhtf import v2 v.gsi -r --drop note | sed "s/:.*//"'
gives "it is there" 0 '^4482130' bhtf get v2 0
bhtf export k --gsi >/dev/null 2>said
same "nothing lost, nothing but notes said" 3 $?

# ---- a dry run says what would change ----

site s
bhtf export s | sed -e 's/490\.018/490.028/' -e 's/4482229\.581/4482229.601/' -e 's/reflector on silo/prism on silo/' >next.csv
echo 'NEW-1,4482200,5351800,490,new' >>next.csv
bhtf import s next.csv --replace --dry-run >dry.out
same "the worst first" $'moved  CP-106: plan 20.0 mm\nmoved  CP-103: height +10.0 mm\ntext   RP-EAST: note "reflector on silo" -> "prism on silo"\nnew    NEW-1\n13 points would be stored in s: 1 new, 3 changed, 9 equal' \
  "$(tail -n +2 dry.out)"
gives "what would be lost stands first" 0 '^loses  CP-101: note "brass bolt' sh -c 'bhtf import s week.csv -r --drop note -n | sed -n 2p'
gives "the import says the same" 0 '^13 points stored: 1 new, 3 changed, 9 equal$' bhtf import s next.csv --replace
cp s equal
gives "an equal file changes nothing" 0 '^13 points stored: 0 new, 0 changed, 13 equal$' bhtf import s next.csv --replace
holds "not a byte" cmp s equal
bhtf import s - -n -c PENZD < <(seq 40 | sed 's/.*/D&;4482113,4;5351874,1;;/') >dry.out 2>&1
same "advice is given once" 1 "$(grep -c -- '--decimal , takes' dry.out)"

# ---- several changes as one ----

site s
cat >changes.txt <<'TXT'
# Monday
set CP-101 -H 489.300
rename CP-104 'CP-104 old'
delete CP-105
add "NEW 1" -E 4482200 -N 5351800 -t "bolt, 'new'"
withdraw CP-106
TXT
unchanged "a dry run" s 0 '^5 changes would be made$' bhtf batch s changes.txt --dry-run
cp s copy
gives "five changes" 0 '^5 changes made, as one$' bhtf batch s changes.txt --delta records
same "the name has its text" '4482301.774,5351779.462,490.553,nail in asphalt' "$(text s 'CP-104 old')"
same "quotes" "4482200,5351800,,\"bolt, 'new'\"" "$(text s 'NEW 1')"
gives "are one record" 0 '^1 record applied' bhtf apply copy records
holds "that a copy follows" cmp s copy
while IFS='|' read -r what pattern status lines; do
  printf "delete CP-107\n$lines\n" >wrong.txt
  unchanged "a batch with $what" s "$status" "$pattern" bhtf batch s wrong.txt
  gives "says that nothing changed" "$status" 'wrong\.txt: nothing was changed in s' bhtf batch s wrong.txt
done <<'LIST'
a refused line|line 2: nobody: refused \(14\)|1|delete nobody
an unknown change|line 2: a line begins with add, set|2|import x
an open quote|line 2: a quote is not closed|2|add 'A x
a file's option|unknown option --delta|2|delete CP-101 --delta x
too few words|too few arguments|2|rename CP-101
a place that is taken|line 2: Z: lies 0\.0 mm from CP-101|1|add Z -E 4482113.402 -N 5351874.118
a loss|line 2: CP-101: refused: --replace would take away|1|add CP-101 -H 1 -r
no text|line 2: add needs a text|2|add CP-999
LIST
gives "from standard input" 0 '^1 change made, as one$' bhtf batch s <<<'delete CP-107'
gives "nothing at all" 0 '^0 changes made' bhtf batch s </dev/null
unchanged "rename onto another" s 1 'CP-102: refused \(9\)' bhtf rename s CP-101 CP-102
unchanged "rename of nobody" s 1 'nobody: refused \(14\)' bhtf rename s nobody x
gives "rename" 0 '' bhtf rename s CP-101 CP-101A
gives "the old name is free" 1 'refused \(14\)' bhtf get s CP-101
bhtf create tiny -k 8 -s 2
bhtf add tiny a x
bhtf add tiny b --no-text
gives "in a full table, without a text" 0 '' bhtf rename tiny b c
gives "it has none" 1 'has no text' bhtf get tiny c

# ---- the log ----

site s
gives "no log unless asked for" 1 's\.log: there is no log; --log' bhtf log s
gives "begun by --log" 0 '' bhtf set s CP-101 -H 489.300 --log -q
bhtf set s CP-101 -t 'new, note' -q
bhtf delete s CP-102
bhtf batch s -q <<<$'rename CP-103 CP-103A\nadd NEW -E 4482200 -N 5351800'
bhtf compact s -q
same "every change since is in it, with who, when and what" \
  $'1 set s CP-101 -H 489.300 --log -q\n2 set s CP-101 -t new, note -q\n3 delete s CP-102\n4 batch s -q\n5 compact s -q' \
  "$(bhtf log s | sed -nE "s/^([0-9]+)  20[0-9]{2}-[0-9]{2}-[0-9]{2}T[0-9:]{8}Z  $(id -un)@$(uname -n)  /\1 /p")"
gives "a point's history" 0 '"4482113.402,5351874.118,489.300,.*" -> "4482113.402,5351874.118,489.300,\\"new, note\\""$' bhtf log s CP-101
same "has its two changes alone" 2 "$(bhtf log s CP-101 | grep -c '^  CP-101: ')"
gives "one that was taken out" 0 '^  CP-102: ".*" -> not there$' bhtf log s CP-102
gives "one that is new" 0 '^  NEW: not there -> "4482200,5351800,,"$' bhtf log s NEW
gives "whole" 0 '' bhtf log s --quiet
unchanged "a refused change is not in it" s 1 'refused' bhtf delete s CP-102
gives "it is still whole" 0 '' bhtf log s -q
gives "nor one of nothing" 0 unchanged bhtf set s CP-101 -H 489.300
same "five entries" 5 "$(grep -c '^change ' s.log)"
cp s.log whole.log
cp s whole
back() { cp whole.log s.log; cp whole s; }
sed -i 's/489\.300,brass/489.301,brass/;s/489\.271/489.272/' s.log
gives "a digit that was changed is seen" 1 's\.log: entry 1 was changed' bhtf log s -q
back
sed -i '/^change 3 /,/^sum /d' s.log
gives "an entry that was taken away is seen" 1 'entry 4 was changed, or one in front of it' bhtf log s -q
back
sed -i '/^change 5 /,/^sum /d' s.log
gives "the last one, too" 1 'entry 4 does not lead to the file as it is' bhtf log s -q
back
head -c -20 whole.log >s.log
gives "a cut one" 1 'an entry is cut short' bhtf log s -q
unchanged "which is not gone on with" s 2 's\.log: an entry is cut short, or is none; nothing is changed' bhtf delete s NEW
back
env -i "$work/bin/bhtf" delete s NEW
gives "an entry without a wish for one" 0 '' bhtf log s -q
bhtf dump s | sed 's/490.553/490.554/' | bhtf load other -q
cp other s
gives "a change without the log" 1 'does not lead to the file as it is' bhtf log s -q
bhtf delete s CP-104
gives "stays seen" 1 'entry 7 does not go on where the last one ended: the file was changed without the log' bhtf log s -q
back
bhtf delete s NEW && cp whole s
gives "an entry whose command was cut short" 0 'entry 6 was not made' bhtf log s -q
bhtf delete s CP-108
gives "also when others follow" 0 'entry 6 was not made' bhtf log s -q
back
cp whole copy
cp whole new && bhtf delete new NEW --delta d1 && rm -f copy.log
gives "a station's copy has its own" 0 '^1 record applied' bhtf apply copy d1 --log
gives "with the points that changed" 0 '^  NEW: "4482200,5351800,," -> not there$' bhtf log copy
chmod 444 s.log
[ "$(id -u)" -eq 0 ] || unchanged "a log that cannot be written" s 2 's: is as it was' bhtf delete s NEW
chmod 644 s.log
rm s.log && mkdir s.log
unchanged "one that is a directory" s 2 's: is as it was' bhtf delete s NEW
rmdir s.log
gives "by the environment" 0 '' env BHTF_LOG=yes bhtf delete s NEW
gives "there it is" 0 '^1  .*delete s NEW$' bhtf log s
gives "create --log" 0 '' sh -c 'bhtf create c --log && bhtf log c'
bhtf add c a 'x'
gives "goes on" 0 '^  a: not there -> "x"$' bhtf log c

# ---- load keeps the room ----

bhtf create d2
bhtf dump d2 >d.dump
room() { bhtf stat "$1" | sed -n 's/^data: \([0-9]*\) bytes.*/\1/p'; }
gives "more slots" 0 'loaded' bhtf load d3 d.dump --slots 70000
holds "more room" test "$(room d3)" -ge $(($(room d2) * 70000 / 5507))
gives "still more slots, which were refused (4)" 0 'loaded' bhtf load d4 d.dump --slots 100000
gives "fewer slots" 0 'loaded' bhtf load d5 d.dump --slots 100
same "the same room" "$(room d2)" "$(room d5)"
gives "--size says otherwise" 0 'loaded' bhtf load d6 d.dump --slots 100 --size 64K
same "and is as long" 65536 "$(stat -c %s d6)"
gives "as many slots as a file can have" 0 'loaded' bhtf load d7 d.dump --slots 1048576

holds "no report of a sanitizer" unreported "$work/reports"
echo "$passed passed, $failed failed"
[ "$failed" -eq 0 ] && [ "$passed" -gt 0 ]
