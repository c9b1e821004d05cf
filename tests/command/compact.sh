# shellcheck shell=bash disable=SC2154,SC2059,SC2015,SC2034
# Sourced by tests/command.sh: the space of dead texts, and what is said where room is short.

# Data of 4096 bytes. Active: a 4 + 5, c 4 + 4, d 4 + 2, e 4; dead: b 4 + 6, c's first 4 + 2, d's first 4 + 1, f 4 + 9.
bhtf create worksite --key-size 1 --slots 8 --size 8192
bhtf add worksite a first
bhtf add worksite b second
bhtf add worksite c cc
bhtf add worksite d d
bhtf add worksite e ''
bhtf add worksite f withdrawn
bhtf add worksite g --no-text
bhtf delete worksite b
bhtf add worksite c cccc --replace
bhtf add worksite d D --append
bhtf withdraw worksite f
cp worksite before2
gives "stat says what compaction would free" 0 '^bhtf compact would free 34 bytes$' bhtf stat worksite
gives "a dry run says it, too" 0 '^would be: 27 bytes of data used, 4069 free, 34 more than before$' bhtf compact worksite --dry-run
gives "with what there is" 0 '^before: 61 bytes of data used, 4035 free$' bhtf compact worksite -n
holds "and changes nothing" cmp before2 worksite
gives "compact" 0 '^after: 27 bytes of data used, 4069 free, 34 more than before$' bhtf compact worksite
gives "no point and no text changed" 0 '^6 same, 0 new, 0 gone, 0 moved, 0 with another text$' bhtf diff before2 worksite
gives "nothing is dead" 0 '^version 1\.0\.2, 27 bytes of data used, 0 of them dead$' bhtf check worksite
same "stat has nothing more to free" 0 "$(bhtf stat worksite | grep -c compact)"
same "the book: what was withdrawn holds nothing" $'"a" 5 "first"\n"c" 4 "cccc"\n"d" 2 "dD"\n"e" 0 ""\n"f" - -\n"g" - -' \
  "$(bhtf book worksite | sed 1,6d | LC_ALL=C sort)"
gives "once more" 0 '^after: 27 bytes of data used, 4069 free, 0 more than before$' bhtf compact worksite
none "--quiet" "$(bhtf compact worksite --quiet 2>&1)"
holds "dump and load make the same of both" alike <(bhtf dump before2) <(bhtf dump worksite)
bhtf create none2 --slots 3
gives "a file without points" 0 '0 more than before' bhtf compact none2
bhtf create early4 --format 1.0.1 --slots 9
bhtf add early4 a text && bhtf add early4 a longer-text --replace && bhtf compact early4 --quiet
gives "the version stays" 0 '^version 1\.0\.1, 15 bytes of data used, 0' bhtf check early4
gives "one argument" 2 'too many' bhtf compact worksite before2

# ---- files that are not sound ----

unsound() { # NAME WORDS FILE: refused with 15 and those words, by both forms, and as it was
  cp "$3" before3
  gives "$1: refused" 1 'refused \(15\): The file is not sound' bhtf compact "$3"
  gives "$1: why" 1 "^unsound: $2\$" bhtf compact "$3"
  gives "$1: why, in a dry run" 1 "^unsound: $2\$" bhtf compact "$3" --dry-run
  same "$1: in check's words" "$(bhtf check "$3")" "$(bhtf compact "$3" 2>&1 | tail -n +2)"
  none "$1: nothing on standard output" "$(bhtf compact "$3" 2>/dev/null)"
  holds "$1: it is as it was" cmp before3 "$3"
}
unsound "two points on one text" "$both bytes 4096 to 4104 of the file" joined
unsound "a name that stands twice" "slot ${high%:*} \\(${low#*:}\\) is not found by its name" twice
cp before2 count2
at count2 23 '\011'
gives "a header that is refused before" 1 'refused \(6\)' bhtf compact count2
at count2 23 '\005'
unsound "a wrong count" "the header's count of 5 points is wrong" count2
cp worksite message2
at message2 $((2048 + $(bhtf list worksite a --long | awk '{ print $1 }') * 5 + 1)) '\000\000\000\001'
unsound "a damaged message" "slot [0-9]+ \\(a\\): its message is damaged" message2
same "stat promises nothing of it" 0 "$(bhtf stat count2 | grep -c 'bhtf compact')"

# ---- where room is short ----

# 4096 bytes of data: 104 live, 3900 dead, 92 free.
bhtf create tight --key-size 1 --slots 8 --size 8192
zeros() { head -c "$1" /dev/zero | tr '\0' x; }
zeros 100 | bhtf add tight a
zeros 3896 | bhtf add tight b
bhtf delete tight b
larger='\(bhtf dump, and bhtf load with --size, make a larger one\)$'

try() { zeros "$1" | bhtf add tight "${@:2}"; }
gives "what fits is not asked" 0 '' try 88 c
bhtf delete tight c
gives "dead bytes that are enough are named" 1 "refused \\(13\\): .*\\(bhtf compact frees 3992 bytes, which is enough\\)\$" try 89 c
gives "to the last byte" 1 'frees 3992 bytes' try 3988 c
gives "and not one more" 1 "refused \\(13\\): .*$larger" try 3989 c
gives "in a text's place" 1 'frees 3992 bytes' try 3988 a --replace
gives "and not one more" 1 "$larger" try 3989 a --replace
gives "behind a text" 1 'frees 3992 bytes' try 3888 a --append
gives "and not one more" 1 "$larger" try 3889 a --append
gives "an empty text" 1 'frees 3992 bytes' bhtf add tight c ''
cp tight tight2
at tight2 23 '\002'
gives "not of a file that is not sound" 1 "$larger" sh -c 'head -c 500 /dev/zero | bhtf add tight2 c'
zeros 500 | sed 's/^/c,1,2,3,/' >tight.csv
cp tight tight3
gives "import says it, too" 1 'line 1: c: refused \(13\): .*frees 3992 bytes, which is enough' bhtf import tight3 tight.csv -c PENZD
gives "and its dry run" 1 'line 1: c: refused \(13\): .*frees 3992 bytes, which is enough' bhtf import tight3 tight.csv -c PENZD -n
bhtf compact tight --quiet
gives "one byte more is refused then" 1 "$larger" try 3989 c
gives "what was said to fit does" 0 '' try 3988 c
gives "to the last byte" 0 '^data: 4096 bytes, 4096 used, 0 free$' bhtf stat tight
gives "the file is sound" 0 '^sound: 2 points$' bhtf check tight
gives "load has nothing to compact" 1 "line [0-9]+: .*refused \\(13\\): .*$larger" \
  sh -c 'printf "%s\n" "bhtf-dump 1" "key-size 4" "slots 5" "size 4096" "seed 0" "\"a\" \"b\"" end | bhtf load full2'
gives "the words of 15" 0 '^The file is not sound\.' words_of 15
