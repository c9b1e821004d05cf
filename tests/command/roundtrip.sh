# shellcheck shell=bash disable=SC2154,SC2059,SC2015,SC1003,SC2094
# Sourced by tests/command.sh: nothing is lost by export and import, nor by
# dump and load.

# Texts of every kind, each under a name of its own.
bhtf create round --key-size 20 --slots 300
add_text() { printf "$2" | bhtf add round "$1"; }
add_text four '4482113.402,5351874.118,489.271,bolt'
add_text quoted '1,2,3,"a, ""b"""'
add_text needless '"1",2,4,bolt'
add_text feed '1,2,3,bolt\n'
add_text feeds '\n\n'
add_text crlf '1,2,3,bolt\r\n'
add_text empties ',,,'
add_text words 'free, text'
add_text letters 'a,b,c,d'
add_text fields ',,,,,'
add_text blanks ' 1,2,6,'
add_text exponent '1e3,2,3,'
add_text comma ','
add_text quote '"'
add_text open '"1,2,3,'
add_text half '1,,,'
add_text zero 'a\000b'
add_text return '\r'
add_text note ',,,a note'
add_text 'ümlaut Süd' '1,2,5,Kirchturm Süd ✓'
add_text '\xFF\x00\x01' '\377\376'
add_text '\x20blank\x20' 'b'
add_text 'a,"b' 'c'
add_text 'name' 'easting'
add_text '#comment' 'x'
add_text '-' 'minus'
head -c 5000 /dev/urandom >bytes
bhtf add round bytes <bytes
bhtf add round none --no-text
bhtf add round withdrawn x && bhtf withdraw round withdrawn
bhtf add round visited ''
bhtf add round emptied x && bhtf add round emptied '' --replace
points=$(bhtf count round)

same_points() { # FILE: has the same points and texts as round, and none where there is none
  local name
  [ "$(bhtf stat "$1" | grep '^texts: ')" = "$(bhtf stat round | grep '^texts: ')" ] || { bhtf stat "$1"; return 1; }
  cmp <(bhtf list round | LC_ALL=C sort) <(bhtf list "$1" | LC_ALL=C sort) || return 1
  while IFS= read -r name; do
    cmp <(bhtf get round -q -- "$name"; echo $?) <(bhtf get "$1" -q -- "$name"; echo $?) || { echo "differs: $name"; return 1; }
  done < <(bhtf list round)
}

# ---- export and import ----

bhtf export round >round.csv
bhtf create round2 --key-size 20 --slots 300
gives "all of an export is imported" 0 "^$points points stored$" bhtf import round2 round.csv --encoding bytes --allow-near --allow-far
holds "with equal texts" same_points round2
bhtf export round --crlf >round-crlf.csv
bhtf create round3 --key-size 20 --slots 300
bhtf import round3 round-crlf.csv --encoding bytes --allow-near --allow-far --quiet
holds "with line ends of the other kind too" same_points round3
gives "a text of fields stands in its columns" 0 '^four,4482113\.402,5351874\.118,489\.271,bolt,,$' cat round.csv
gives "one with needless quotes in both" 0 '^needless,1,2,4,bolt,"""1"",2,4,bolt",$' cat round.csv
gives "one that is no coordinates in its own alone" 0 '^letters,,,,,"a,b,c,d",$' cat round.csv
gives "UTF-8 is exported as it is" 0 '^ümlaut Süd,1,2,5,Kirchturm Süd ✓,,$' cat round.csv
gives "and listed" 0 '^ümlaut Süd$' bhtf list round
gives "other bytes escaped" 0 '^\\xFF\\x00\\x01$' bhtf list round
gives "blanks at the ends of a name too" 0 '^\\x20blank\\x20$' bhtf list round
gives "text and columns that differ are refused" 2 'line 2: the column text says something else' \
  bhtf import round2 - -r <<<$'name,easting,northing,height,note,text\na,1,2,3,x,"1,2,3,y"'
bhtf create coordinates
bhtf import coordinates "$root/host/site.csv" --quiet
gives "a file of coordinates alone has no such column" 0 '^name,easting,northing,height,note$' bhtf export coordinates

# ---- what prints ----

bhtf create shown --key-size 32
while read -r code bytes; do
  bhtf add shown "a${bytes}b" x
  same "$code is escaped" "a${bytes}b" "$(bhtf list shown)"
  bhtf delete shown "a${bytes}b"
done <<'LIST'
U+0085 \xC2\x85
U+00A0 \xC2\xA0
U+00AD \xC2\xAD
U+200B \xE2\x80\x8B
U+202E \xE2\x80\xAE
U+2028 \xE2\x80\xA8
U+FEFF \xEF\xBB\xBF
U+E000 \xEE\x80\x80
U+D800 \xED\xA0\x80
overlong \xC0\xAF
overlong-3 \xE0\x80\xAF
too-high \xF4\x90\x80\x80
cut-short \xE2\x82
alone \x80
escape \x1B
delete \x7F
LIST
for shown in 'Süd' '点' 'Łódź' '𝔸' '½ m²' 'Ελ'; do
  bhtf add shown "$shown" x
  same "$shown is shown" "$shown" "$(bhtf list shown)"
  bhtf delete shown "$shown"
done

# ---- dump and load ----

bhtf dump round >round.dump
same "the first line of a dump" 'bhtf-dump 1' "$(head -n 1 round.dump)"
same "its header" $'version 1.0.2\nkey-size 20\nslots 300\nsize '"$(stat -c %s round)"$'\nseed 0' "$(sed -n 2,6p round.dump)"
same "its last line" end "$(tail -n 1 round.dump)"
same "a line for each point" $((points + 7)) "$(wc -l <round.dump)"
same "in the order of names" $'"!" "1"\n"A" "2"\n"a" "3"\n"aa" "4"\n"ü" "5"' "$(
  bhtf create order
  bhtf add order ü 5 && bhtf add order aa 4 && bhtf add order a 3 && bhtf add order A 2 && bhtf add order ! 1
  bhtf dump order | sed '1,6d;$d')"
gives "no text is a minus" 0 '^"none" -$' cat round.dump
gives "a withdrawn one too" 0 '^"withdrawn" -$' cat round.dump
gives "an empty text is not" 0 '^"visited" ""$' cat round.dump
gives "nor is one that was put in a text's place" 0 '^"emptied" ""$' cat round.dump
gives "a text with line feeds stays on its line" 0 '^"feeds" "\\n\\n"$' cat round.dump
gives "UTF-8 stands as it is" 0 '^"ümlaut Süd" "1,2,5,Kirchturm Süd ✓"$' cat round.dump
holds "nothing but text" sh -c "! LC_ALL=C grep -qP '[\x00-\x09\x0B-\x1F\x7F]' round.dump"
gives "load" 0 "^$points points loaded$" bhtf load loaded round.dump
holds "equal points and texts" same_points loaded
holds "the dump of what was loaded is the same" alike round.dump <(bhtf dump loaded)
gives "it is sound" 0 "^sound: $points points$" bhtf check loaded
same "it is as long" "$(stat -c %s round)" "$(stat -c %s loaded)"
gives "load leaves an existing file alone" 2 'already is a file' bhtf load loaded round.dump
gives "load from standard input" 0 '^$' sh -c 'bhtf dump round | bhtf load loaded2 --quiet; echo'
holds "equal dumps make equal files" cmp loaded loaded2
gives "load from -" 0 'loaded' sh -c 'bhtf load loaded3 - <round.dump'
gives "load into a larger table" 0 'loaded' bhtf load larger round.dump --slots 1000 --size 1M --seed 7 -k 32
same "the dump is that of the larger" $'version 1.0.2\nkey-size 32\nslots 1000\nsize 1048576\nseed 7' "$(bhtf dump larger | sed -n 2,6p)"
holds "with the same points" same_points larger
gives "one too small is refused" 1 'line [0-9]+: .*refused \(10\)' bhtf load smaller round.dump --slots 4
holds "and leaves no file" test ! -e smaller
gives "names too long for another key size" 1 'line [0-9]+: .*: refused \(7\)' bhtf load smaller round.dump --key-size 3
gives "a table that does not fit" 1 'refused \(4\)' bhtf load smaller round.dump --size 4K
gives "a length that is none" 1 'refused \(1\)' bhtf load smaller round.dump --size 5000
holds "and no file is left" test ! -e smaller

# A file made by adding in the order of names, and nothing else: equal bytes.
bhtf create ordered --key-size 9 --slots 77 --seed 123456789 --size 40960
for i in $(seq -w 60); do bhtf add ordered "P$i" "$i,$i,$i,"; done
bhtf dump ordered | bhtf load ordered2 --quiet
holds "every byte of a file of ordered points" cmp ordered ordered2
for seed in 0 1 4294967295 2147483648 1013904223; do
  rm -f seeded
  bhtf create seeded --seed $seed --slots 3
  gives "seed $seed is found again" 0 "^seed $seed\$" bhtf dump seeded
done
# Values in the header that create cannot make.
cp ordered foreign
patch_bytes() { printf "$3" | dd of="$1" bs=1 seek="$2" conv=notrunc status=none; }
for i in $(seq -w 60); do bhtf delete foreign "P$i"; done
patch_bytes foreign 7 '\000'
patch_bytes foreign 8 '\001\002\003\004'
patch_bytes foreign 24 '\000\000\000\041\000\000\025\005\000\000\000\060\000\000\000\071'
for i in $(seq -w 60); do bhtf add foreign "P$i" "$i,$i,$i,"; done
gives "a foreign file is sound" 0 'sound: 60' bhtf check foreign
bhtf dump foreign >foreign.dump
same "its header" $'version 1.0.0
key-size 9
slots 77
size 40960
serial 16909060
multiplier 0x00000021
start 0x00001505
first 48
last 57' "$(sed -n 2,10p foreign.dump)"
same "its scramble" 10 "$(grep scramble foreign.dump | grep -o 0x | wc -l)"
bhtf load foreign2 foreign.dump --quiet
holds "its dump again" alike foreign.dump <(bhtf dump foreign2)
holds "the same header" cmp -n 44 foreign foreign2
holds "the same scramble" cmp -i 512 -n 40 foreign foreign2
gives "and it is sound" 0 'sound: 60' bhtf check foreign2

# A load that is interrupted.
mkfifo pipe.dump
bhtf load interrupted pipe.dump 2>load.err &
loader=$!
helpers+=("$loader")
exec 9>pipe.dump
head -n 8 round.dump >&9
sleep 0.3
kill -TERM "$loader"
wait "$loader"
same "an interrupted load has status 2" 2 $?
exec 9>&-
gives "it says so" 0 'pipe.dump: load interrupted' cat load.err
holds "and leaves no file" test ! -e interrupted

# Dumps that are wrong: a message with the line, status 2, and no file.
wrong_dump() { # NAME PATTERN LINES..
  local name=$1 pattern=$2
  shift 2
  printf '%s\n' "$@" >wrong.dump
  gives "$name" 2 "$pattern" bhtf load wrong wrong.dump
  [ ! -e wrong ] || fail "$name left a file"
  rm -f wrong
}
head_lines=('bhtf-dump 1' 'key-size 4' 'slots 5' 'seed 0')
wrong_dump "no dump" 'line 1: this is no dump' 'name,easting'
wrong_dump "a later version" 'line 1: this version of the dump is not known' 'bhtf-dump 2'
wrong_dump "a dump cut short" 'cut short: it has no line end' "${head_lines[@]}" '"a" "b"'
wrong_dump "cut in a line" 'line 5: a quote is missing' "${head_lines[@]}" '"a" "b'
wrong_dump "no key size" 'no line key-size' 'bhtf-dump 1' 'slots 5' 'seed 0' end
wrong_dump "no slots" 'no line slots' 'bhtf-dump 1' 'key-size 5' 'seed 0' end
wrong_dump "no seed" 'no line seed' 'bhtf-dump 1' 'key-size 5' 'slots 5' end
wrong_dump "an unknown line" 'line 5: the line is not known' "${head_lines[@]}" 'colour red' end
wrong_dump "a number that is none" 'line 2: the number' 'bhtf-dump 1' 'key-size x' end
wrong_dump "a version that is none" 'line 2: a version is three' 'bhtf-dump 1' 'version 1.0' end
wrong_dump "text without quotes" 'line 5: a quote is missing' "${head_lines[@]}" '"a" b' end
wrong_dump "no text" 'line 5: there is no blank' "${head_lines[@]}" '"a"' end
wrong_dump "something behind the text" 'line 5: there is something behind' "${head_lines[@]}" '"a" "b" c' end
wrong_dump "an escape that is none" 'line 5: what is behind a backslash' "${head_lines[@]}" '"a" "\q"' end
wrong_dump "half an escape" 'line 5: what is behind a backslash' "${head_lines[@]}" '"a" "\x1"' end
wrong_dump "a byte that does not print" 'line 5: a byte that does not print' "${head_lines[@]}" $'"a" "\tb"' end
wrong_dump "a header behind a point" 'line 6: behind the first point' "${head_lines[@]}" '"a" "b"' 'slots 7' end
wrong_dump "something behind the end" 'line 6: there is something behind the line end' "${head_lines[@]}" end '"a" "b"'
wrong_dump "a scramble that is too short" 'scramble does not have' 'bhtf-dump 1' 'key-size 4' 'slots 5' 'first 32' 'last 34' \
  'scramble 1 2' end
wrong_dump "a number of the scramble that is too long" 'line 5: scramble takes numbers' 'bhtf-dump 1' 'key-size 4' 'slots 5' \
  'first 32' 'scramble 1 0x00000000000000000002' 'last 34' end
wrong_dump "a line twice" 'line 5: the line stands there twice' "${head_lines[@]}" 'slots 6' end
wrong_dump "seed twice" 'line 5: the line stands there twice' "${head_lines[@]}" 'seed 6' end
wrong_dump "version twice" 'line 3: the line stands there twice' 'bhtf-dump 1' 'version 1.0.1' 'version 1.0.1' end
wrong_dump "what a merge leaves" 'line 5: the line is not known' "${head_lines[@]}" '<<<<<<< HEAD' '"a" "b"' end
wrong_dump "seed and scramble" 'seed and of scramble' "${head_lines[@]}" 'scramble 1 2' end
printf '%s\n' "${head_lines[@]}" '"a" "b"' '"a" "c"' end >twice.dump
gives "a name twice" 1 'line 6: a: refused \(9\)' bhtf load wrong twice.dump
holds "leaves no file" test ! -e wrong
: >empty.dump
gives "an empty dump" 2 'cut short' bhtf load wrong empty.dump
gives "a closed input" 2 'cannot be read' sh -c 'bhtf load wrong <&-'
gives "no such dump" 2 'cannot open' bhtf load wrong nowhere.dump
gives "a dump to a full device" 2 'cannot write' sh -c 'bhtf dump round >/dev/full'
gives "a dump with closed output" 2 'cannot write' sh -c 'bhtf dump round >&-'
printf '%s\r\n' "${head_lines[@]}" '# a comment' '' '"\x41b" "\x00\"\\\n"' end >dos.dump
gives "comments, empty lines, carriage returns" 0 '^1 point loaded$' bhtf load dos dos.dump
holds "its text" alike <(printf '\000"\\\n') <(bhtf get dos Ab)
gives "a dump of nothing but a header" 0 '^0 points loaded$' sh -c 'printf "%s\n" "$@" | bhtf load bare' - "${head_lines[@]}" end
gives "is a sound file" 0 '^sound: 0 points$' bhtf check bare

# A damaged point, and one that stands there twice.
bhtf create torn --key-size 1 --slots 9 --size 8192
for name in a b c; do bhtf add torn $name $name; done
cp torn torn2
slot=$(bhtf list torn --long | awk '$3 == "b" { print $1 }')
patch_bytes torn $((2048 + slot * 5 + 1)) '\000\000\000\001'
gives "dump leaves a damaged point out, with status 1" 1 'torn: b: left out: .*damaged' bhtf dump torn
same "and has the others" $'"a" "a"\n"c" "c"\nend' "$(bhtf dump torn 2>/dev/null | tail -n 3)"
slot=$(bhtf list torn2 --long | awk '$3 == "c" { print $1 }')
patch_bytes torn2 $((2048 + slot * 5)) 'b'
gives "a name that stands there twice" 1 'torn2: b: left out' bhtf dump torn2
same "is there once" 1 "$(bhtf dump torn2 2>/dev/null | grep -c '^"b"')"

# Random texts out of what CSV and dumps treat in a way of their own.
random_dump() { # SEED
  awk -v seed="$1" 'BEGIN {
    srand(seed)
    n = split(", , , \\\" \\n \\r \\r\\n 1 2.5 -3 a ; \\t \\x00 \\x20 \\xFF ü \\\\ \\\\x41 \\xEF\\xBB\\xBF", token, " ")
    print "bhtf-dump 1\nversion 1.0.2\nkey-size 24\nslots 1000\nsize 262144\nseed " seed
    for (i = 1000; i < 1900; i++) {
      text = ""
      for (k = int(rand() * 9); k > 0; k--) text = text token[int(rand() * n) + 1]
      # Four fields more often than chance makes them.
      if (rand() < .3) text = "1.5,2," (rand() < .5 ? "3" : "") "," text
      name = "P" i token[int(rand() * n) + 1] token[int(rand() * n) + 1] "x"
      print "\"" name "\" " (text == "" && rand() < .5 ? "-" : "\"" text "\"")
    }
    print "end" }'
}
random_round() { # SEED
  local program="$work/sanitize/bhtf"
  rm -f random1 random2 random3
  random_dump "$1" >random.dump
  "$program" load random1 random.dump -q && "$program" dump random1 >random1.dump || return 1
  [ "$(wc -l <random1.dump)" -eq 907 ] || { wc -l random1.dump; return 1; }
  "$program" load random2 random1.dump -q && cmp random1.dump <("$program" dump random2) || return 1
  rm random2
  "$program" create random2 -k 24 -s 1000 -S 256K --seed "$1" && "$program" export random1 >random.csv &&
    "$program" import random2 random.csv -q --encoding bytes --allow-near --allow-far && cmp random1.dump <("$program" dump random2) || return 1
  "$program" create random3 -k 24 -s 1000 -S 256K --seed "$1" && "$program" export random1 --crlf >random.csv &&
    "$program" import random3 random.csv -q --encoding bytes --allow-near --allow-far && cmp random1.dump <("$program" dump random3)
}
for seed in 1 2 $((RANDOM)); do holds "900 random texts there and back, seed $seed" random_round $seed; done

# Dumps with a few bytes replaced or gone, under the sanitizers.
hurt_dump() {
  local i place some=('"' '\\' 'x' '-' '\n' ' ' '0' '9' 'Z' '\xff' '\x00')
  cp round.dump hurt.dump
  for i in $(seq $((RANDOM % 5 + 1))); do
    place=$((RANDOM % 3 == 0 ? RANDOM % 90 : RANDOM % $(stat -c %s hurt.dump)))
    { head -c $place hurt.dump; printf "${some[RANDOM % 11]}"; tail -c +$((place + RANDOM % 9 + 1)) hurt.dump; } >hurt.next
    mv hurt.next hurt.dump
  done
}
dumps_cleanly() {
  local i status
  clean_status dump round && clean_status dump foreign && clean_status dump torn2 || return 1
  for i in $(seq 60); do
    rm -f hurt
    hurt_dump
    ASAN_OPTIONS=exitcode=99 UBSAN_OPTIONS=exitcode=99 "$work/sanitize/bhtf" load hurt hurt.dump >/dev/null 2>"$work/errors"
    status=$?
    [ $status -le 2 ] && ! grep -qE 'Sanitizer|runtime error' "$work/errors" || { cat "$work/errors"; return 1; }
    [ ! -e hurt ] || [ $status -eq 0 ] || { echo "a refused load left a file"; return 1; }
  done
}
RANDOM=2
holds "damaged dumps under the sanitizers" dumps_cleanly
