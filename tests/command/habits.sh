# shellcheck shell=bash disable=SC2154,SC2059,SC2015,SC2034
# Sourced by tests/command.sh: what people are used to type, and what they are
# told.

# ---- help and version ----

gives "-h" 0 'bhtf create FILE' bhtf -h
gives "-V" 0 '^bhtf [0-9.]+, file format' bhtf -V
gives "help" 0 'bhtf create FILE' bhtf help
gives "help of no command" 2 'no command frob' bhtf help frob
gives "-V behind a command" 0 '^bhtf [0-9.]+, file format' bhtf count -V
while read -r command; do
  gives "help $command" 0 "^bhtf $command [A-Z]" bhtf help "$command"
  gives "$command -h" 0 "^bhtf $command [A-Z]" bhtf "$command" -h
  gives "--help $command" 0 "^bhtf $command [A-Z]" bhtf --help "$command"
  gives "$command in the manual page" 0 . grep -E "^\\.B(R)? \"?(bhtf )?$command\"?( |\$)" "$root/host/man/bhtf.1"
done < <(bhtf --help | sed -n 's/^  bhtf \([a-z]*\) .*/\1/p')
holds "create -h makes no file" test ! -e -h
options_in_page() { # every option that a help names
  local option
  for option in $(for c in $(bhtf --help | sed -n 's/^  bhtf \([a-z]*\) .*/\1/p'); do bhtf help "$c"; done |
    sed -n 's/^  *\(-[A-Za-z], \)\{0,1\}--\([a-z-]*\).*/\2/p' | sort -u); do
    grep -q -- "\\\\-\\\\-${option//-/\\\\-}" "$root/host/man/bhtf.1" || { echo "no --$option"; return 1; }
  done
}
holds "the manual page has every option" options_in_page
# The limits of the header, in the manual page, in the help and in the words of refusals.
limit() { sed -n "s/^#define BHTF_$1 \([0-9]*\)u.*/\1/p" "$root/host/include/bhtf.h"; }
with_commas() { sed ':a;s/\B[0-9]\{3\}\>/,&/;ta' <<<"$1"; }
limits_in_page() {
  local name
  for name in IMAGE_MAX SLOTS_MAX SLOTS_DEFAULT PAGE KEY_MAX; do
    grep -q "$(with_commas "$(limit $name)")" "$root/host/man/bhtf.1" || { echo "no $name"; return 1; }
    bhtf help create | grep -q "$(limit $name)" || { echo "no $name in the help"; return 1; }
  done
}
holds "the manual page and the help have the true limits" limits_in_page
gives "refusal 1 has them" 1 "to $(with_commas "$(limit IMAGE_MAX)")\." bhtf create limits --size 5000
gives "refusal 2" 1 "1 to $(limit KEY_MAX) bytes" bhtf create limits -k 99
gives "refusal 3" 1 "more than $(with_commas "$(limit SLOTS_MAX)") slots" bhtf create limits -s 4000000000
gives "refusal 12" 0 "longer than $(with_commas "$(limit MESSAGE_MAX)") bytes" words_of 12

# ---- options ----

rm -f habit
gives "short options" 0 '' bhtf create habit -k 8 -s100 -S 64K
same "their values" $'key-size 8\nslots 100\nsize 65536' "$(bhtf dump habit | sed -n 3,5p)"
gives "an unknown letter" 2 'unknown option -x' bhtf count habit -x
gives "a letter of another command" 2 'unknown option -k' bhtf count habit -k 4
gives "letters in one word" 0 '' bhtf add habit a x -qr
gives "a value in the same word" 0 '^1$' bhtf count -w0 habit
gives "a value left out" 2 'needs a number from 0 to 86400' bhtf count habit -w
gives "a text left out" 2 'needs a value' bhtf add habit b --note
gives "a value for an option that has none" 2 'takes no value' bhtf list habit --long=yes
gives "a letter behind --" 0 '' bhtf add habit -- -x -y
same "is a name" -y "$(bhtf get habit -- -x)"
gives "a negative number is no option" 0 '' bhtf add habit n -12.5
gives "nor is a minus in front of a point" 0 '' bhtf add habit n2 -.5
gives "options between words" 0 '' bhtf add -r habit --wait=3 n 1
while read -r size bytes; do
  rm -f sized
  gives "--size $size" 0 '' bhtf create sized --size "$size" --slots 3
  same "$size" "$bytes" "$(stat -c %s sized)"
done <<'LIST'
64K 65536
64k 65536
8KiB 8192
8kb 8192
1M 1048576
1MiB 1048576
16MB 16777216
8192B 8192
0x2000 8192
4096 4096
LIST
rm -f sized
for size in 64X K 1.5M '' -1 64KK 99999999999999999999 99999999999G; do
  gives "--size '$size' is none" 2 'needs a size from 4096 to 1073741824' bhtf create sized --size="$size"
done
gives "--size 2G is beyond the limit" 1 'refused \(1\)' bhtf create sized --size 2G
gives "the limits of --key-size" 2 'needs a number from 1 to 32' bhtf create sized --key-size x
gives "the limits of --slots" 2 'needs a number from 0 to 1048576, and not 4294967296' bhtf create sized --slots 4294967296
gives "what a table needs" 1 'refused \(4\).*5507 slots for names of 16 bytes needs a file of 114688 bytes' \
  bhtf create sized --size 8K
holds "and no file is left" test ! -e sized
gives "that much is enough" 0 '' bhtf create sized --size 114688

# ---- add by fields ----

gives "add by fields" 0 '' bhtf add habit f1 --easting 4482113.402 --northing 5351874.118 --height 489.271 --note 'bolt, "N"'
same "the text" '4482113.402,5351874.118,489.271,"bolt, ""N"""' "$(bhtf get habit f1)"
gives "export takes it" 0 '^f1,4482113\.402,5351874\.118,489\.271,"bolt, ""N"""' bhtf export habit
gives "without a height" 0 '' bhtf add habit f2 -E -1.5 -N 2
same "the text" '-1.5,2,,' "$(bhtf get habit f2)"
gives "a note alone" 0 '' bhtf add habit f3 -t visited
same "the text" ',,,visited' "$(bhtf get habit f3)"
gives "replaced" 0 '' bhtf add habit f2 -r -E 1 -N 2 -H 3
same "the text" '1,2,3,' "$(bhtf get habit f2)"
gives "an easting that is no number" 2 'add: the easting 1,5 has a decimal comma' bhtf add habit f4 -E 1,5 -N 2
gives "an easting alone" 2 'add: there is no northing beside the easting' bhtf add habit f4 -E 1
gives "fields and a text" 2 'leave out TEXT' bhtf add habit f4 text -E 1 -N 2
gives "fields and --append" 2 'leave out --append' bhtf add habit f1 -a --note more
gives "nothing of it was stored" 1 'refused \(14\)' bhtf get habit f4

# ---- a terminal ----

typed() { # COMMAND: on a terminal where 'typed' and Ctrl-D are typed
  { sleep 0.5; printf 'typed\n'; sleep 0.2; printf '\004'; sleep 0.3; } | script -qec "$1" /dev/null >typed.out 2>&1
}
typed "bhtf add habit terminal"
gives "add waiting on a terminal says so" 0 'habit: waiting for the point.s text; Ctrl-D' cat typed.out
same "and takes what is typed" typed "$(bhtf get habit terminal)"
typed "bhtf add habit terminal2 -q"
same "but not with --quiet" 0 "$(grep -c waiting typed.out)"
typed "bhtf import habit - -c P --skip 0"
gives "import waiting on a terminal says so" 0 'habit: waiting for lines of CSV' cat typed.out
gives "and takes what is typed" 0 '1 point stored' cat typed.out
typed "bhtf load habit2"
gives "load waiting on a terminal says so" 0 'habit2: waiting for the lines of a dump' cat typed.out
none "nor where the text is piped" "$(printf x | bhtf add habit piped 2>&1)"

# ---- progress ----

on_terminal() { script -qec "$1" /dev/null </dev/null; }
mkfifo slow.dump
bhtf create slow2 --slots 3000
seq 2000 | sed 's/.*/S&,&,&,&,/' | bhtf import slow2 - --quiet -c PENZD
bhtf dump slow2 >whole.dump
for i in $(seq 400); do sed 1,6d whole.dump; done | sed 's/^"\(S[0-9]*\)" "\(.*\)"$/\1,\2higher/; /^end$/d' >long.csv
on_terminal "$work/sanitize/bhtf import slow2 long.csv -r -c PENZD" >progress
gives "a long import shows its share and the time left" 0 'bhtf: [0-9]+ points (read|stored), [0-9]+ %, [0-9]+ s left' cat progress
gives "and what it stored" 0 '2000 points stored: 0 new, 2000 changed, 0 equal' cat progress
(head -n 1500 whole.dump; sleep 0.8; tail -n +1501 whole.dump) >slow.dump &
helpers+=($!)
on_terminal "bhtf load slow3 slow.dump" >progress
gives "a long load says how far it is" 0 'bhtf: [0-9]+ points read' cat progress
gives "and that it is done" 0 '2000 points loaded' cat progress
(head -n 1500 whole.dump; sleep 0.8; tail -n +1501 whole.dump) >slow.dump &
helpers+=($!)
on_terminal "bhtf load slow4 slow.dump --quiet" >progress
same "nothing of it with --quiet" '0 2000' "$(wc -c <progress) $(bhtf count slow4)"
rm -f long.csv
