# shellcheck shell=bash disable=SC2154,SC2059,SC2015,SC2034
# Sourced by tests/command.sh: an empty text is a text, and no text is none.

bhtf create site4 --key-size 8 --slots 20 --size 8192
gives "an empty text is stored without a word" 0 '' bhtf add site4 visited ''
gives "also from standard input" 0 '' sh -c 'bhtf add site4 piped </dev/null'
gives "and as an empty note" 0 '' bhtf add site4 noted --note ''
gives "a point without a text" 0 '' bhtf add site4 bare --no-text
bhtf add site4 full 'a text'

# ---- get ----

gives "an empty text is there: status 0" 0 'site4: visited: the point.s text is empty' bhtf get site4 visited
same "nothing of it is printed" '0' "$(bhtf get site4 visited 2>/dev/null | wc -c)"
gives "no text is not: status 1" 1 'site4: bare: the point has no text' bhtf get site4 bare
gives "--quiet says nothing, and has the same status" 1 '' bhtf get site4 bare --quiet
gives "nor of an empty one" 0 '' bhtf get site4 visited --quiet
gives "the others are as they are stored" 0 'text is empty' bhtf get site4 noted
same "several points" $'full\ta text\nvisited\t' "$(bhtf get site4 full bare visited 2>/dev/null)"
gives "of which one has no text" 1 'bare: the point has no text' bhtf get site4 full bare visited
gives "other forms tell it in the row" 0 '^bare	[0-9]+				\\N$' bhtf get site4 bare visited --tsv
same "a text of these two characters is another" '\\N' "$(bhtf create bs; bhtf add bs b '\N'; bhtf get bs b --tsv | tail -n 1 | cut -f 6)"
gives "JSON has a text that is empty" 0 '^\{"name":"visited","slot":[0-9]+,"text":""\}$' bhtf get site4 visited --json
gives "or none" 0 '^\{"name":"bare","slot":[0-9]+\}$' bhtf get site4 bare --json
same "list --long" '- 6 0 0 0' "$(bhtf list site4 --long --by name | awk '{ print $2 }' | tr '\n' ' ' | sed 's/ $//')"

# ---- replace, append, withdraw ----

gives "an empty text in a text's place" 0 '' bhtf add site4 full '' --replace
gives "is a text" 0 'text is empty' bhtf get site4 full
gives "nothing is put behind it" 0 '' bhtf add site4 full '' --append
gives "withdraw" 0 '' bhtf withdraw site4 full
gives "there is no text any more" 1 'has no text' bhtf get site4 full
gives "withdraw once more" 0 '' bhtf withdraw site4 full
gives "and where there was none" 0 '' bhtf withdraw site4 bare
gives "withdraw of a name that is not there" 1 'nobody: refused \(14\)' bhtf withdraw site4 nobody
same "with the slots read" '1 slot read' "$(bhtf withdraw site4 bare --slots 2>&1 | sed 's/.*: //')"
gives "no text for a point that is there" 1 'refused \(9\)' bhtf add site4 visited --no-text
gives "which still has its own" 0 'text is empty' bhtf get site4 visited
gives "in place of its own" 0 '' bhtf add site4 visited --no-text --replace
gives "that withdraws it" 1 'has no text' bhtf get site4 visited
gives "in place of none, of a new point" 0 '' bhtf add site4 fresh --no-text --replace
gives "enters it" 1 'has no text' bhtf get site4 fresh
for words in 'text' '--append' '--note x'; do
  # shellcheck disable=SC2086
  gives "--no-text with $words" 2 'no-text goes with --replace alone' bhtf add site4 wrong --no-text $words
done
gives "nothing of it was stored" 1 'refused \(14\)' bhtf get site4 wrong
gives "nothing appended to a new name is no text" 0 '' bhtf add site4 also '' --append
gives "as the library has it" 1 'has no text' bhtf get site4 also
gives "the file is sound" 0 '^sound: 7 points$' bhtf check site4

# ---- room ----

bhtf create brimful --key-size 1 --slots 4 --size 8192
head -c 4092 /dev/zero | bhtf add brimful a
gives "an empty text takes room, too" 1 'refused \(13\)' bhtf add brimful b ''
gives "no text does not" 0 '' bhtf add brimful b --no-text
gives "nor an empty one in a longer one's place" 0 '' bhtf add brimful a '' --replace
gives "a full table refuses a point without a text" 0 '' sh -c 'bhtf add brimful c --no-text && bhtf add brimful d --no-text'
gives "with 10" 1 'refused \(10\)' bhtf add brimful e --no-text

# ---- stat, book, diff ----

bhtf create kinds --key-size 8 --slots 9 --size 8192
bhtf add kinds text abc
bhtf add kinds empty ''
bhtf add kinds none --no-text
bhtf add kinds gone abcde && bhtf withdraw kinds gone
bhtf add kinds gone0 '' && bhtf withdraw kinds gone0
bhtf add kinds short abcde && bhtf add kinds short '' --replace
gives "stat counts them" 0 '^texts: 3, of which 2 are empty; 3 points have none$' bhtf stat kinds
gives "and what is dead" 0 '^dead: 18 bytes, of which 13 are kept by points without a text$' bhtf stat kinds
same "book tells held, and no place" $'"empty" 0 ""\n"gone" 5 -\n"gone0" 0 -\n"none" - -\n"short" 0 ""\n"text" 3 "abc"' \
  "$(bhtf book kinds | sed 1,6d | LC_ALL=C sort)"
gives "check counts an empty text's header" 0 '^version 1\.0\.2, 33 bytes of data used, 18 of them dead$' bhtf check kinds
cp kinds kinds2
bhtf withdraw kinds2 empty
bhtf add kinds2 none '' --replace
gives "diff: an empty text became none" 1 '^text   empty +an empty text -> no text$' bhtf diff kinds kinds2
gives "diff: none became an empty one" 1 '^text   none +no text -> an empty text$' bhtf diff kinds kinds2
gives "diff: no other" 1 '^4 same, 0 new, 0 gone, 0 moved, 2 with another text$' bhtf diff kinds kinds2
gives "diff: new with an empty text" 1 '^new    empty +an empty text$' bhtf diff tiny2 kinds
bhtf create onto --key-size 8 --slots 9 --size 8192
bhtf add onto a ''
bhtf add onto b x
at onto $((2048 + $(bhtf list onto a --long | awk '{ print $1 }') * 12 + 8)) '\000\000\020\004'
gives "an empty text inside another's bytes" 1 'share byte' bhtf check onto
gives "other survey files leave both out, and count them" 3 '3 points left out: no text' bhtf export kinds --dxf
gives "each by its own words" 3 '2 points left out: the text is empty' bhtf export kinds --gsi

# ---- export and import ----

bhtf export kinds >kinds.csv
same "export: a column says which are empty" $'empty,,,,,,yes\ngone,,,,,,\ngone0,,,,,,\nname,easting,northing,height,note,text,empty\nnone,,,,,,\nshort,,,,,,yes\ntext,,,,,abc,' \
  "$(LC_ALL=C sort kinds.csv)"
bhtf create kinds3 --key-size 8 --slots 9 --size 8192
gives "import takes it" 0 '^6 points stored$' bhtf import kinds3 kinds.csv
gives "nothing changed" 0 '^6 same, 0 new' bhtf diff kinds kinds3
bhtf withdraw kinds3 empty
bhtf add kinds3 none '' --replace
gives "import --replace puts none in a text's place, and an empty text in none's" 0 '^6 points stored: 0 new, 2 changed, 4 equal$' \
  bhtf import kinds3 kinds.csv --replace
gives "so that nothing differs" 0 '^6 same, 0 new' bhtf diff kinds kinds3
gives "four empty fields are none, as ever" 0 '^1 point stored$' bhtf import kinds3 - <<<$'P,E,N,Z,D\nold,,,,'
gives "which has no text" 1 'has no text' bhtf get kinds3 old
gives "the same again is refused" 1 'line 2: old: refused \(9\)' bhtf import kinds3 - <<<$'P,E,N,Z,D\nold,,,,'
gives "a name and the column alone" 0 '^2 points stored$' bhtf import kinds3 - <<<$'name,empty\nyes1, YES\nno1,'
same "one is empty, one is none" '0 1' "$(bhtf get kinds3 yes1 -q; echo -n "$? "; bhtf get kinds3 no1 -q; echo $?)"
gives "by --columns" 0 '^1 point stored: 0 new, 1 changed, 0 equal$' bhtf import kinds3 - -r -c name,empty <<<'no1,yes'
gives "another word" 2 'line 2: the column empty takes yes, or nothing' bhtf import kinds3 - <<<$'name,empty\nx,no'
gives "yes beside coordinates" 2 'line 2: the column empty says yes, and there is a text' \
  bhtf import kinds3 - <<<$'name,e,n,empty\nx,1,2,yes'
gives "yes beside a text" 2 'line 2: the column empty says yes, and there is a text' bhtf import kinds3 - <<<$'name,text,empty\nx,t,yes'
gives "a dry run tells both lines" 2 '2 lines would be refused' bhtf import kinds3 - -n <<<$'name,text,empty\nx,t,yes\ny,,1'
bhtf create plain4 && bhtf add plain4 a 1,2,3,
same "a file without empty texts has no such column" 'name,easting,northing,height,note' "$(bhtf export plain4 | head -n 1)"

# ---- versions ----

same "create writes 1.0.2" 'version 1.0.2' "$(bhtf create newest && bhtf dump newest | sed -n 2p)"
gives "an earlier one if asked for" 0 '' bhtf create early --format 1.0.1 --slots 9
same "and nothing else differs" '8 2 1' "$(bhtf create late --slots 9; cmp -l late early | tr -s ' ' | sed 's/^ //')"
gives "a version that is none" 2 '--format is 1\.0\.0, 1\.0\.1, 1\.0\.2 or 2\.0\.0, and not 1\.0\.3' bhtf create wrong4 --format 1.0.3
holds "and no file is made" test ! -e wrong4
gives "a text leaves the version" 0 '' bhtf add early a text
gives "so does a point without one" 0 '' bhtf add early b --no-text
gives "and a text that is withdrawn" 0 '' bhtf withdraw early a
gives "it is 1.0.1 still" 0 '^version 1\.0\.1,' bhtf check early
cp early early2
gives "the first empty text changes it, which is said" 0 \
  'early: warning: with an empty text the file is of version 1\.0\.2; a station that knows 1\.0\.1 and no later one refuses it \(5\)' \
  bhtf add early c ''
gives "once" 0 '' bhtf add early d ''
gives "it is 1.0.2 now" 0 '^version 1\.0\.2,' bhtf check early
gives "import says it, too" 0 'early2: warning: .*of version 1\.0\.2' bhtf import early2 - <<<$'name,empty\nx,yes\ny,yes'
bhtf create early3 --format 1.0.0
same "and a dry run, which changes nothing" '1 1.0.0' \
  "$(bhtf import early3 - -n <<<$'name,empty\nx,yes\ny,yes' 2>&1 | grep -c 'of version 1.0.2; a station that knows 1.0.0') $(bhtf check early3 | sed -n 's/version \([0-9.]*\),.*/\1/p')"
gives "a file for an older station" 0 '^version 1\.0\.1,' sh -c 'bhtf dump plain4 | bhtf load older4 --format 1.0.1 --quiet && bhtf check older4'
gives "has the same points" 0 '^1 same, 0 new' bhtf diff plain4 older4
gives "which can have no empty text" 2 'line [0-9]+: a file of the version that --format names has no empty text' \
  sh -c 'bhtf dump kinds | bhtf load older5 --format 1.0.1'
holds "and no file is left" test ! -e older5
bhtf dump kinds | sed 's/^version .*/version 1.0.1/' >edited.dump
gives "a dump that says another version than its texts need" 0 'older6: warning: .*of version 1\.0\.2' bhtf load older6 edited.dump
gives "has none of its points changed" 0 '^6 same' bhtf diff kinds older6
