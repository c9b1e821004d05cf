# shellcheck shell=bash disable=SC2154,SC2059,SC2015,SC2016
# Sourced by tests/command.sh: import, and what it must not believe.

bhtf create office
lines() { printf '%s\n' "$@"; }
# stores NAME TEXT LINES ARGUMENTS..: the lines are taken, and NAME has the text
stores() {
  local name=$1 text=$2 from=$3
  shift 3
  printf '%s' "$from" | bhtf import office - --replace --drop easting,northing,height,note,text "${anywhere[@]}" --quiet "$@" ||
    return 1
  [ "$(bhtf get office "$name")" = "$text" ] || { bhtf get office "$name"; return 1; }
}
# The office's points lie anywhere, and on top of each other.
anywhere=(--allow-far --allow-near --allow-swapped)
place='4482113.402,5351874.118,489.271,CP'

# ---- columns ----

lines '1,5351874.118,4482113.402,489.271,CP' >plain.csv
gives "lines without a heading are refused" 2 'line 1: the first line is no heading' bhtf import office plain.csv
gives "and nothing was stored" 0 '^0$' bhtf count office
gives "PNEZD" 0 '^1 point stored$' bhtf import office plain.csv --columns PNEZD
same "northing and easting in their places" "$place" "$(bhtf get office 1)"
gives "PENZD, in small letters" 0 '^1 point' bhtf import office - --allow-near -c penzd <<<"2,4482113.402,5351874.118,489.271,CP"
same "the other order, the same text" "$place" "$(bhtf get office 2)"
holds "letters for fewer columns" stores a '1,2,,' $'a,2,1\n' -c PNE
holds "words in --columns, one passed over" stores b "$place" $'x;CP;489.271;b;5351874.118;4482113.402\n' \
  -c '-,note,height,name,northing,easting'
for heading in 'P,N,E,Z,D' 'p,n,e,z,d' 'Point,Northing,Easting,Elevation,Description' \
  'PUNKT,Hochwert,Rechtswert,Höhe,Bemerkung' 'Nr.,HW,RW,HÖHE,Code' 'Point ID, North [m], East [m], Elev. (m) ,Remarks' \
  '"name","northing","easting","height","note"'; do
  bhtf delete office h 2>/dev/null
  holds "the heading $heading" stores h "$place" "$heading"$'\nh,5351874.118,4482113.402,489.271,CP\n'
done
gives "y in front of x is not guessed" 2 'the heading: x and y are each easting to some and northing to others' \
  bhtf import office - <<<$'point,y,x,h,note\ng,4482113.402,5351874.118,489.271,CP'
holds "--columns says what y is" stores g "$place" $'point,y,x,h,note\ng,4482113.402,5351874.118,489.271,CP\n' -c PENZD
holds "a heading in another order" stores i "$place" $'D;Z;N;E;P\nCP;489.271;5351874.118;4482113.402;i\n'
holds "a heading without notes and heights" stores j '1,2,,' $'northing,name,easting\n2,j,1\n'
gives "x in front of y is not guessed" 2 'line 1: the heading: x and y are each easting' \
  bhtf import office - <<<$'point,x,y,z\nk,1,2,3'
holds "--columns says what x is" stores k '1,2,3,' $'point,x,y,z\nk,1,2,3\n' -c name,easting,northing,height
gives "a heading that contradicts --columns" 2 'contradicts --columns' bhtf import office - -c PENZD <<<$'P,N,E,Z,D\nl,1,2,3,'
gives "a heading of another length than --columns" 2 'another number of columns' \
  bhtf import office - -c PENZ <<<$'P,E,N,Z,D\nl,1,2,3,'
gives "a word that is not known" 2 'line 1: the heading: sigma is not known; --columns' bhtf import office - <<<$'name,easting,northing,sigma\nl,1,2,3'
holds "is passed over if --columns says so" stores l '1,2,,' $'name,easting,northing,sigma\nl,1,2,3\n' -c name,e,n,-
gives "a column twice, and which" 2 'a column stands there twice: easting, as number 2 and number 5' bhtf import office - <<<$'name,easting,northing,height,east'
gives "no name" 2 'no column for the name' bhtf import office - <<<$'easting,northing'
gives "half of a place" 2 'easting and northing go together' bhtf import office - <<<$'name,easting'
for wrong in PNEZX PP name,nothing '' name,x,y PEE name,e; do
  gives "--columns $wrong" 2 "--columns $wrong: .*it takes PNEZD" bhtf import office plain.csv --columns "$wrong"
done
before=$(bhtf count office)
gives "a heading alone stores nothing" 0 '^0 points stored$' bhtf import office - <<<'P,N,E,Z,D'
gives "nor does the same heading again" 0 '^2 points stored$' \
  bhtf import office - "${anywhere[@]}" --any-text <<<$'P,N,E,Z,D\nagain1,1,2,3,\nP,N,E,Z,D\nagain2,1,2,3,'
same "there is no point P" "$((before + 2))" "$(bhtf count office)"
gives "lines to skip" 0 '^1 point' bhtf import office - "${anywhere[@]}" --skip 2 <<<$'Site 12\nas of Monday\n\nname,e,n\nskipped,1,2'
gives "a line number behind skipped lines" 2 'line 5: the easting one' \
  bhtf import office - --skip 2 <<<$'Site 12\nas of Monday\n\nname,e,n\nskipped,one,2'
gives "all lines skipped" 0 '^0 points' bhtf import office - --skip 9 <<<'x'

# ---- numbers ----

refused_number() { printf 'name,easting,northing,height,note\nok1,1,2,3,\nbad,%s\n' "$1" | bhtf import office - --replace; }
while IFS='|' read -r what fields pattern; do
  gives "refused: $what" 2 "standard input: line 3: .*$pattern" refused_number "$fields"
done <<'LIST'
a word|abc,2,3,|the easting abc is not a number
a word in the height|1,2,high,|the height high is not a number
two points|1.2.3,2,3,|the easting 1\.2\.3 is not a number
a sign alone|-,2,3,|the easting - is not a number
a point alone|.,2,3,|the easting \. is not a number
a sign behind|1-,2,3,|not a number
hexadecimal|0x10,2,3,|not a number
not a number|nan,2,3,|not a number
a unit|1m,2,3,|not a number
a blank inside|1 000,2,3,|not a number
an exponent|4.48E+06,2,3,|exponent
a decimal comma|"4482113,402",2,3,|the easting 4482113,402 has a decimal comma
an easting alone|1,,3,|no northing beside the easting
a northing alone|,2,3,|no easting beside the northing
LIST
gives "the lines in front are not stored" 1 'refused \(14\)' bhtf get office ok1
for number in 0 -12.5 +7 .5 5. 000123.4560 123456789012345678901234567890.123; do
  holds "the number $number is kept as written" stores number "$number,2,,x" "P,E,N,Z,D"$'\n'"number,$number,2,,x"$'\n'
done
holds "a height alone" stores height ',,488.962,bolt' $'P,E,N,Z,D\nheight,,,488.962,bolt\n'
holds "a note alone" stores note ',,,"a, b"' $'P;E;N;Z;D\nnote;;;;a, b\n'
holds "--any-text" stores any 'a,b,c,' $'P,E,N,Z,D\nany,a,b,c,\n' --any-text

# ---- delimiters and decimal commas ----

german=$'Punkt;Rechtswert;Hochwert;Höhe;Bemerkung\r\nCP1;4482113,402;5351874,118;489,271;CP\r\n'
gives "a decimal comma is not guessed" 2 '--decimal , takes such numbers' \
  sh -c 'printf %s "$1" | bhtf import office -' - "$german"
holds "a German table" stores CP1 "$place" "$german" --decimal ,
holds "without a heading" stores CP2 "$place" $'CP2;4482113,402;5351874,118;489,271;CP\n' --decimal , -c PENZD
holds "tabs" stores CP3 "$place" $'P\tE\tN\tZ\tD\nCP3\t4482113.402\t5351874.118\t489.271\tCP\n'
holds "tabs, decimal comma, no heading" stores CP4 "$place" $'CP4\t4482113,402\t5351874,118\t489,271\tCP\n' --decimal comma -c PENZD
holds "commas, with a semicolon in the note" stores CP5 '1,2,3,a;b;c;d;e;f' $'CP5,1,2,3,a;b;c;d;e;f\n' -c PENZD
holds "commas, with quoted decimal commas" stores CP6 "$place" $'CP6,"4482113,402","5351874,118","489,271",CP\n' --decimal , -c PENZD
holds "a given delimiter" stores CP7 '1,2,3,' $'CP7;1;2;3;\n' --delimiter ';' -c PENZD
holds "a delimiter by its name" stores CP8 '1,2,3,' $'CP8\t1\t2\t3\t\n' -d tab -c PENZD
gives "a delimiter that is not there" 2 'the line has 1 field, and not the 5' \
  bhtf import office - -d semicolon -c PENZD <<<'CP9,1,2,3,'
gives "a delimiter that is none" 2 '--delimiter is comma, semicolon, tab or blank, and not x' bhtf import office plain.csv -d x
gives "a decimal sign that is none" 2 '--decimal is , or \. and not x' bhtf import office plain.csv --decimal x
gives "a decimal point where a comma was promised" 2 'the easting 1\.5 has a decimal point and not a comma' bhtf import office - --decimal , -c PENZD <<<'CP9;1.5;2,5;;'
holds "a note with a comma between semicolons" stores CP10 '1.5,2.5,,"a, b"' $'CP10;1,5;2,5;;a, b\n' --decimal , -c PENZD

holds "a first line sep=;" stores CP11 '1.5,2.5,,"a, b"' $'sep=;\r\nP;E;N;Z;D\r\nCP11;1.5;2.5;;a, b\r\n'
gives "lines are counted with it" 2 'line 3: the easting x' bhtf import office - <<<$'sep=;\nP;E;N\nCP12;x;1'
gives "another delimiter is taken from it" 0 '^1 point' bhtf import office - "${anywhere[@]}" <<<$'sep=|\nP|E|N\nCP12|1|2'
gives "it alone" 0 '^0 points' bhtf import office - <<<'sep=;'
gives "a heading of words that nobody knows" 2 'if that is a heading, --skip 1 passes over it' \
  bhtf import office - -c PENZD <<<$'Wo,Da,Dort,Hoch hinaus,Was\nCP13,1,2,3,'
holds "is passed over so" stores CP13 '1,2,3,' $'Wo,Da,Dort,Hoch hinaus,Was\nCP13,1,2,3,\n' -c PENZD --skip 1

# ---- bytes ----

printf '\357\273\277P,E,N,Z,D\nbom,1,2,3,\n' >bom2.csv
gives "a byte order mark in front of a heading" 0 '^1 point' bhtf import office bom2.csv "${anywhere[@]}"
printf '\357\273\277bom2,1,2,3,\n' >bom3.csv
gives "a byte order mark in front of a point" 0 '^1 point' bhtf import office bom3.csv "${anywhere[@]}" -c PENZD
same "its name" '1,2,3,' "$(bhtf get office bom2)"
for order in LE BE; do
  iconv -f UTF-8 -t "UTF-16$order" <<<$'P,E,N,Z,D\nwide,1,2,3,' >wide.csv
  gives "UTF-16$order without a mark" 2 'wide\.csv: this is UTF-16 or no text; save it as UTF-8' bhtf import office wide.csv
done
iconv -f UTF-8 -t UTF-16 <<<$'P,E,N,Z,D\nwide,1,2,3,' >wide.csv
gives "UTF-16 with its mark" 2 'this is UTF-16' bhtf import office wide.csv
printf '\377\376' >wide.csv
gives "a mark alone" 2 'this is UTF-16' bhtf import office wide.csv
holds "blanks around a name are trimmed" stores 'trim me' '1,2,3, a ' $'P,E,N,Z,D\n \ttrim me\t , 1 ,2 , 3, a \n'
printf 'P,E,N,Z,D\nS\374d,1,2,3,\nN\374rd,1,2,3,\n' >latin.csv
gives "a name that is not UTF-8 is refused" 2 'line 2: the byte FC is not UTF-8; this looks like Windows-1252.*--encoding windows-1252' \
  bhtf import office latin.csv
gives "unless its bytes are meant" 0 '^2 points' bhtf import office latin.csv "${anywhere[@]}" --encoding bytes
same "and kept" '1,2,3,' "$(bhtf get office 'S\xFCd')"
gives "a name with a line feed is escaped in an error" 1 'two\\x0Alines' bhtf get office $'two\nlines'
gives "and in import's" 1 'line 2: a\\x0A\\x1B\[1mb.*: refused \(7\)' \
  bhtf import office - <<<$'P,E,N,Z,D\n"a\n\033[1mb that is too long",1,2,3,'
gives "and a file's name" 2 'no\\x1Bwhere: cannot open' bhtf count $'no\033where'

# ---- swapped ----

bhtf create swap
bhtf import swap "$root/host/site.csv" --quiet
cp swap swap.before
both=$'P,E,N,Z,D\ns1,4482100,5351800,489,\ns2,5351800,4482100,489,'
gives "swapped coordinates of a few are warned of" 0 \
  'warning: 1 of 2 points would lie near those of swap if easting and northing changed places; line 3 is the first' \
  bhtf import swap - --allow-far <<<"$both"
gives "a warning does not hinder" 0 '^14$' bhtf count swap
same "points in their place are not" '1 point stored' "$(bhtf import swap - 2>&1 <<<$'P,E,N,Z,D\ns3,4483000,5350000,489,')"
bhtf create local
bhtf import local - --quiet <<<$'P,E,N\na,1000,1000\nb,1100,1050'
same "nor are those of a site where both are alike" '1 point stored' \
  "$(bhtf import local - 2>&1 <<<$'P,E,N\nc,1050,1100')"
bhtf create fresh1
same "nor is the first of a file" '1 point stored' "$(bhtf import fresh1 - 2>&1 <<<$'P,E,N\na,5351800,4482100')"

# ---- dry run ----

cp swap.before swap
lines 'P;N;E;Z;D' 'd1;5351800;4482101;489;' 'd2;x;4482100;489;' 'CP-101;5351800;4482102;489;' 'd3;5351800;4482103;489;' \
  'd4;1;2' 'd5;5351800;4482105;489;' >dry.csv
bhtf import swap dry.csv --dry-run >dry.out 2>dry.err
same "a dry run has import's status" 2 $?
bhtf import swap dry.csv >/dev/null 2>import.err
same "import's status" 2 $?
cp swap swap.after
cp swap.before swap
gives "a dry run says the columns" 0 '^columns name,northing,easting,height,note from the heading, delimiter semicolon, decimal point$' cat dry.out
gives "how many points" 0 '^3 points would be stored in swap: 3 new, 0 changed, 0 equal, if the others were not refused$' cat dry.out
gives "each refused line" 0 'line 3: the northing x' cat dry.err
gives "also those of the library" 0 'line 4: CP-101: refused \(9\)' cat dry.err
gives "and behind" 0 'line 6: the line has 3 fields' cat dry.err
gives "where an import stops" 0 'dry\.csv: 3 lines would be refused; an import would stop at line 3, with nothing stored, unless --keep-going is given' cat dry.err
gives "which it does" 0 'import stopped: nothing was stored in swap' cat import.err
holds "and nothing was" cmp swap.before swap.after
bhtf import swap dry.csv --keep-going >keep.out 2>keep.err
same "--keep-going has the first refused line's status" 2 $?
gives "stores the others" 0 '^3 points stored$' cat keep.out
gives "says which lines" 0 'line 6: the line has 3 fields' cat keep.err
gives "and how many" 0 'dry\.csv: 3 lines refused, the first is line 3; the others are stored' cat keep.err
gives "they are there" 0 '^4482105,5351800,489,$' bhtf get swap d5
cp swap.before swap
gives "a dry run of that" 2 '3 lines would be refused, the first is line 3$' bhtf import swap dry.csv --keep-going -n
bhtf import swap dry.csv -n >/dev/null 2>&1
holds "a dry run changes nothing" cmp swap.before swap
bhtf import swap - -n -c PENZD >dry.out 2>&1 < <(seq 40 | sed 's/$/,x,1,1,/')
same "it tells 20 refused lines" 20 "$(grep -c 'is not a number' dry.out)"
gives "and counts all" 0 '40 lines would be refused; an import would stop at line 1, with nothing stored' cat dry.out
gives "a dry run of a file that is refused" 1 'refused \(5\)' bhtf import zeros dry.csv -n
gives "with --replace" 0 '2 points would be stored in swap: 1 new, 1 changed, 0 equal$' \
  bhtf import swap - -nr --drop height,note <<<$'P,E,N\nCP-101,4482101,5351800\nnew,4482100,5351800'
gives "a dry run leaves the lock free and needs no permission to write" 0 'would be stored' \
  sh -c 'chmod 444 swap; bhtf import swap - -nr' <<<$'P,E,N\nnew,4482100,5351800'
chmod 644 swap

# ---- odd input ----

printf 'P,E,N\rq,1,2\r' >mac.csv
gives "lines with carriage returns alone" 2 'no heading' bhtf import office mac.csv
: >none.csv
gives "an empty file with --columns" 0 '^0 points' bhtf import office none.csv -c PENZD
printf '\n\r\n\n' >none.csv
gives "empty lines alone" 0 '^0 points' bhtf import office none.csv
head -c 300000 /dev/urandom >noise.csv
gives "noise" 2 'noise\.csv' bhtf import office noise.csv -c PENZD
too_long() { printf '%s' "$1"; head -c 33562624 /dev/zero | tr '\0' x; }
# a record may say a text of 1 GiB twice, which is too long to be tried here; this one is too long for a file of version 1
gives "a text that is longer than the file's version has" 1 'line 1: long: refused \(12\)' bhtf import office <(too_long 'long,1,2,3,') -c PENZD
gives "in quotes that are not closed" 2 'line 2: a quoted field has no closing quote' bhtf import office <(too_long $'P,E,N,D\nlong,1,2,"')
gives "a directory" 2 'Is a directory' bhtf import office .
gives "a quoted heading left open" 2 'line 1: .*no closing quote' bhtf import office - <<<'"name,e'
gives "after all this the office's file is sound" 0 '^sound' bhtf check office
