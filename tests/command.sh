#!/usr/bin/env bash
# End to end tests of the command bhtf. A line for each test; the last line is
# 'N passed, M failed', and the status 0 only if M is 0.
#   LIB=path     the library, from the repository's root;
#                crates/station/out/libstation.a unless given
#   LDLIBS=..    if it needs more
#   STANDIN=yes  the plain C of tests/reference in its place
set -u
cd "$(dirname "$0")/.." || exit 2
root=$PWD

passed=0
failed=0
work=$(mktemp -d)
mounted=
helpers=()

clean_up() {
  local pid
  for pid in "${helpers[@]}"; do kill "$pid" 2>/dev/null; done
  [ -n "$mounted" ] && umount "$mounted" 2>/dev/null
  rm -rf "$work"
}
trap clean_up EXIT

pass() { passed=$((passed + 1)); echo "ok: $1"; }
fail() { failed=$((failed + 1)); echo "FAILED: $1"; [ -z "${2:-}" ] || echo "  $2"; }

# holds NAME COMMAND..: passes if the command does
holds() {
  local name=$1
  shift
  if "$@" >"$work/out" 2>&1; then pass "$name"; else fail "$name" "$(tail -n 3 "$work/out")"; fi
}

printed() { if [ -z "$1" ]; then [ ! -s "$work/out" ]; else grep -aqE -- "$1" "$work/out"; fi; }

# gives NAME STATUS PATTERN COMMAND..: status, and the pattern in what is
# printed; '' if nothing may be
gives() {
  local name=$1 status=$2 pattern=$3 got
  shift 3
  "$@" >"$work/out" 2>&1
  got=$?
  if [ "$got" -eq "$status" ] && printed "$pattern"; then
    pass "$name"
  else
    fail "$name" "status $got: $(head -c 300 "$work/out" | tr -d '\0')"
  fi
}

# same NAME EXPECTED ACTUAL: and there is something
same() { if [ -n "$2" ] && [ "$2" = "$3" ]; then pass "$1"; else fail "$1" "expected '$2', got '$3'"; fi; }

# none NAME ACTUAL: nothing is printed. So would a command that does nothing; beside each stands a test that this one fails.
none() { if [ -z "$2" ]; then pass "$1"; else fail "$1" "got '$2'"; fi; }

# alike ONE OTHER: two files, or what two commands print, are the same bytes, and there are some
alike() {
  cat "$1" >"$work/.one"
  cat "$2" >"$work/.other"
  [ -s "$work/.one" ] && cmp "$work/.one" "$work/.other"
}

# words_of NUMBER: what the library says of an answer
words_of() {
  python3 -c 'import ctypes, sys
f = ctypes.CDLL(sys.argv[1]).bhtf_message
f.restype = ctypes.c_char_p
print(f(int(sys.argv[2])).decode())' "$work/gcc/libbhtf.so" "$1"
}

# opened FILE N: so many processes have it open
opened() { [ "$(find /proc/[0-9]*/fd -lname "$PWD/$1" 2>/dev/null | cut -d/ -f3 | sort -u | wc -l)" -ge "$2" ]; }

# until COMMAND..: waits up to 10 s for it to succeed
until_true() {
  local i
  for i in $(seq 1000); do
    "$@" >/dev/null 2>&1 && return 0
    sleep 0.01
  done
  return 1
}

# ---- building ----

settings=()
[ -n "${LIB:-}" ] && settings+=(LIB="$(realpath "$LIB")")
[ -n "${LDLIBS:-}" ] && settings+=(LDLIBS="$LDLIBS")
[ -n "${STANDIN:-}" ] && settings+=(STANDIN="$STANDIN")

holds "builds with gcc" make -C host OUT="$work/gcc" CC=gcc "${settings[@]}"
[ -x "$work/gcc/bhtf" ] || { cat "$work/out"; echo "$passed passed, $failed failed"; exit 1; }
holds "builds with clang" make -C host OUT="$work/clang" CC=clang "${settings[@]}"
holds "builds with sanitizers" \
  make -C host OUT="$work/sanitize" SANITIZE=yes "${settings[@]}"
holds "the lock holder builds" gcc -std=c99 -D_POSIX_C_SOURCE=200809L -Wall -Wextra -Werror \
  -pedantic tests/locker.c -o "$work/locker"
holds "the fsync of the tests builds" gcc -std=c99 -D_POSIX_C_SOURCE=200809L -Wall -Wextra -Werror \
  -pedantic -shared -fPIC tests/fsync.c -o "$work/fsync.so"
PATH=$work/gcc:$PATH

header_compiles() {
  echo '#include "bhtf.h"
int main(void) { return bhtf_message(BHTF_ABSENT) == 0; }' >"$work/uses$1"
  # shellcheck disable=SC2086
  "${@:2}" -Wall -Wextra -Werror -pedantic -Ihost/include "$work/uses$1" "$work/gcc/libbhtf.a" ${LDLIBS:-} -o "$work/uses" &&
    "$work/uses"
}
holds "the header is C99" header_compiles .c gcc -std=c99
holds "the header is C++" header_compiles .cc g++ -std=c++98

installs() {
  make -C host OUT="$work/gcc" "${settings[@]}" install PREFIX="$work/usr" || return 1
  local file
  for file in bin/bhtf include/bhtf.h lib/libbhtf.a lib/pkgconfig/bhtf.pc share/man/man1/bhtf.1 \
    share/bash-completion/completions/bhtf share/zsh/site-functions/_bhtf; do
    [ -s "$work/usr/$file" ] || { echo "no $file"; return 1; }
  done
  "$work/usr/bin/bhtf" --version
}
holds "installs" installs
uninstalls() {
  make -C host OUT="$work/gcc" "${settings[@]}" install PREFIX="$work/usr2" || return 1
  echo keep >"$work/usr2/bin/other"
  make -C host OUT="$work/gcc" "${settings[@]}" uninstall PREFIX="$work/usr2" || return 1
  [ "$(find "$work/usr2" -type f)" = "$work/usr2/bin/other" ] || { find "$work/usr2" -type f; return 1; }
}
holds "uninstalls what it installed" uninstalls
through_pkg_config() {
  # shellcheck disable=SC2046
  gcc -std=c99 "$work/uses.c" -o "$work/uses" \
    $(PKG_CONFIG_PATH="$work/usr/lib/pkgconfig" pkg-config --cflags --libs bhtf) && LD_LIBRARY_PATH="$work/usr/lib" "$work/uses"
}
holds "a program builds with pkg-config" through_pkg_config
holds "the man page passes mandoc" mandoc -Tlint host/man/bhtf.1
man_is_clean() {
  local said
  said=$(man --warnings -l host/man/bhtf.1 2>&1 >"$work/page") && [ -z "$said" ] && [ -s "$work/page" ] && return
  echo "$said"
  return 1
}
holds "the man page has no warnings" man_is_clean

gives "the demonstration runs" 0 '^sound: 11 points$' \
  env LIB="$work/gcc/parts.a" OUT="$work/demo" host/demo.sh
cp "$work/out" "$work/demonstrated"
holds "it says first which packages it needs" test "$(sed -n 2p "$work/demonstrated")" = \
  '# It needs the Debian packages gcc libc6-dev make pkgconf libexpat1-dev; apt-get installs those that are missing.'
holds "it leaves a plan" grep -q "^</svg>" "$work/demo/demo/plan.svg"
holds "and says how to install" grep -q '^make -C .*/host install LIB=.*/gcc/parts.a ' "$work/demonstrated"

# The demonstration from nothing, with a program in rt's place.
mkdir "$work/tree" && cp -r host .ci "$work/tree" && mkdir -p "$work/tree/crates/station"
printf '# a crate\nwords:\ntable: words\nother: words\nstation staticlib: table words\n' >"$work/tree/crates.txt"
stand_in() { # STATUS: what rt says, and the archive
  cat >"$work/rt" <<EOF
#!/bin/sh
for crate in words table station; do
  printf 'rt: chose --jobs 2 for %s\nfn %s::a: proved\nlibrary words: modules loaded=1\nlogic=proved functions=1\n' "\$crate" "\$crate"
done
echo 'words of an error' >&2
mkdir -p out && cp "$work/gcc/parts.a" out/libstation.a
exit $1
EOF
  chmod 755 "$work/rt"
}
gives "the demonstration without rt says what to get" 2 'no command no-such-rt. It comes with the Rattle kit' \
  env -u LIB RT=no-such-rt "$work/tree/host/demo.sh"
stand_in 1
gives "a proof that fails ends it, with all that was said" 1 'words of an error' env -u LIB RT="$work/rt" "$work/tree/host/demo.sh"
rm -r "$work/tree/crates/station/out"
stand_in 0
gives "proving shows a line for each crate" 0 '^2 of 3: table proved' \
  env -u LIB RT="$work/rt" OUT="$work/demo2" "$work/tree/host/demo.sh"
same "and no more" '1 of 3: words proved
2 of 3: table proved
3 of 3: station proved' "$(grep -E 'proved|loaded|error|functions' "$work/out")"

cd "$work" || exit 2

# ---- help and usage ----

gives "--help" 0 'bhtf create FILE' bhtf --help
gives "--version" 0 '^bhtf [0-9.]+, file format 1\.0\.2 and 2\.0\.0$' bhtf --version
gives "and which kit proved it" 0 '^(proved by ([A-Za-z0-9._-]+ )?logic [0-9a-f]{16}|not proved: another library stands .*)$' bhtf --version
gives "no command" 2 'bhtf create FILE' bhtf
gives "unknown command" 2 'no command frob' bhtf frob
for command in create add set rename withdraw delete batch log get count list check compact book stat import export dump load; do
  gives "$command --help" 0 "^bhtf $command FILE" bhtf $command --help
  gives "$command without arguments" 2 'too few arguments' bhtf $command
  gives "$command with an unknown option" 2 'unknown option --frob' bhtf $command x --frob
  [[ $command =~ ^(get|list|delete|export)$ ]] || # these take any number
    gives "$command with too many arguments" 2 'too many' bhtf $command a b c d
done
gives "an option of another command" 2 'unknown option --slots' bhtf count x --slots 4
gives "a number that is none" 2 'needs a number' bhtf create x --slots 4x
gives "a number too large" 2 'needs a number' bhtf create x --seed 4294967296
gives "a number left out" 2 'needs a number' bhtf create x --seed
gives "replace and append" 2 'not both' bhtf add x y z --replace --append
gives "no such file" 2 'No such file' bhtf count nowhere
gives "a directory" 2 'not a regular file' bhtf count .
gives "a device" 2 'not a regular file' bhtf count /dev/null
gives "output to a full device" 2 'cannot write' sh -c 'bhtf --help >/dev/full'
gives "closed output" 2 'cannot write' sh -c 'bhtf --help >&-'

# ---- create ----

gives "create" 0 '' bhtf create a
gives "a new file is sound" 0 '^sound: 0 points$' bhtf check a
gives "a new file has no points" 0 '^0$' bhtf count a
gives "create leaves an existing file alone" 2 'already is a file' bhtf create a
gives "the existing file is as it was" 0 '^sound: 0 points$' bhtf check a
gives "refused 1 at create" 1 'refused \(1\)' bhtf create b --size 4095
gives "refused 1 above the limit" 1 'refused \(1\)' bhtf create b --size 1073745920
gives "refused 2 at create" 1 'refused \(2\)' bhtf create b --key-size 33
gives "refused 2 for key size 0" 1 'refused \(2\)' bhtf create b --key-size=0
gives "refused 3 at create" 1 'refused \(3\)' bhtf create b --slots 1048577
gives "refused 4 at create" 1 'refused \(4\)' bhtf create b --slots 5507 --size 4096
gives "create in no directory" 2 'cannot create' bhtf create no/b
holds "no file is left behind" test ! -e b
gives "create with every option" 0 '' \
  bhtf create b --key-size 4 --slots=256 --seed 0xFFFFFFFF --size 8192
same "its length" 8192 "$(stat -c %s b)"
gives "the old limit of slots" 0 '' bhtf create old --slots 65536 --key-size 32
same "its usual length" 19140608 "$(stat -c %s old)"
gives "the largest table" 0 '' bhtf create big --slots 1048576 --key-size 32 --size 37752832
same "its length" 37752832 "$(stat -c %s big)"
gives "the largest table is sound" 0 'sound: 0' bhtf check big
bhtf create c --key-size 4 --slots 256 --seed 4294967295 --size 8192
holds "equal arguments make equal files" cmp b c
rm -f b c big old

# ---- add, get, delete ----

gives "add" 0 '' bhtf add a CP-1 'first text'
same "get" 'first text' "$(bhtf get a CP-1)"
gives "refused 9" 1 'refused \(9\).*already' bhtf add a CP-1 again
same "the refused add changed nothing" 'first text' "$(bhtf get a CP-1)"
gives "replace by a shorter text" 0 '' bhtf add a CP-1 short --replace
same "the shorter text" short "$(bhtf get a CP-1)"
gives "append" 0 '' bhtf add --append a CP-1 ' and long'
same "the appended text" 'short and long' "$(bhtf get a CP-1)"
gives "an empty text" 0 '' bhtf add a CP-2 ''
gives "withdraw a text" 0 '' bhtf withdraw a CP-1
gives "the text is withdrawn" 1 'has no text' bhtf get a CP-1
head -c 70000 /dev/urandom >bytes
gives "a text from standard input" 0 '' sh -c 'bhtf add a bytes <bytes'
bhtf get a bytes >got
holds "bytes come back as they were" cmp bytes got
gives "a long text to a full device" 2 'cannot write.*: No space left' sh -c 'bhtf get a bytes >/dev/full'
gives "closed input is no empty text" 2 'cannot be read' sh -c 'bhtf add a bytes --replace <&-'
gives "nor is it the file" 2 'standard input: cannot be read' sh -c 'bhtf import a - <&-'
gives "an argument behind --" 0 '' bhtf add a -- --name --text
same "its text" --text "$(bhtf get a -- --name)"
gives "a text with one minus" 0 '' bhtf add a minus -12.5
gives "refused 14 at get" 1 'refused \(14\).*no point' bhtf get a nobody
gives "refused 14 at delete" 1 'refused \(14\)' bhtf delete a nobody
gives "refused 7, name too long" 1 'refused \(7\).*1 to 16 bytes' bhtf add a 12345678901234567 x
gives "refused 7, empty name" 1 'refused \(7\)' bhtf get a ''
gives "refused 7, zero bytes" 1 'refused \(7\)' bhtf delete a '\x00\x00'
gives "a name of the whole key size" 0 '' bhtf add a 1234567890123456 x
gives "delete" 0 '' bhtf delete a CP-2
gives "it is gone" 1 'refused \(14\)' bhtf get a CP-2
gives "count" 0 '^5$' bhtf count a
gives "the file is sound" 0 '^sound: 5 points$' bhtf check a
none "check --quiet" "$(bhtf check a --quiet)"

bhtf create tiny --key-size 1 --slots 2 --size 8192
bhtf add tiny a x
bhtf add tiny b x
gives "refused 10" 1 'refused \(10\).*full' bhtf add tiny c x
bhtf delete tiny b
gives "refused 13" 1 'refused \(13\).*room' sh -c 'head -c 5000 /dev/zero | bhtf add tiny c'
gives "refused 12" 1 'refused \(12\).*longer' sh -c 'head -c 16777216 /dev/zero | bhtf add tiny c'
gives "the refused points are not there" 0 '^1$' bhtf count tiny

# ---- names ----

bhtf create names
bhtf add names 'back\slash' 1
bhtf add names 'a\x01\xFFb' 2
bhtf add names 'plain name' 3
bhtf add names 'z\x00y' 4
expected='a\x01\xFFb
back\x5Cslash
plain name
z\x00y'
same "names are listed with escapes" "$expected" "$(bhtf list names | LC_ALL=C sort)"
same "a listed name is found again" 1 "$(bhtf get names 'back\x5Cslash')"
gives "list --long" 0 '^ *[0-9]+ +1 plain name$' bhtf list names --long
bhtf export names >names.csv
bhtf create names2
gives "names are exported and imported" 0 '4 points stored' bhtf import names2 names.csv
same "they are the same" "$expected" "$(bhtf list names2 | LC_ALL=C sort)"

# ---- stat ----

gives "stat: load" 0 'load: 4 points in 5507 slots, 0\.1 %' bhtf stat names
gives "stat: histogram" 0 '^ +1 +4 #+$' bhtf stat names
bhtf add names big 0123456789
bhtf delete names big
gives "stat: displacements" 0 '^displacements: 0 slots together$' bhtf stat names
bhtf create tiny2 --key-size 1 --slots 2 --size 8192
bhtf create brim --key-size 1 --slots 2 --size 8192
bhtf add brim a x
bhtf add brim b x
gives "stat: a full table" 0 '^the table is full: a delete looks at up to [23] slots$' bhtf stat brim
gives "stat: dead bytes" 0 'dead: 14 bytes' bhtf stat names
gives "stat: an empty table" 0 '^slots read where a name is not there: 1\.00 on average, 1 at most$' bhtf stat tiny2
gives "stat: a miss in a full table" 0 'is not there: 2\.00 on average, 2 at most$' bhtf stat brim

# ---- import and export ----

printf '%s\r\n' 'Name,Easting,Northing,Height,Note' 'P1,1.50,2.25,3,"a, b"' \
  'P2,-1,2,3,"say ""yes"""' '' 'P3,,,,' '"P,4","1",2,3,plain' 'P5,1,2,4,"two' 'lines"' >crlf.csv
bhtf create csv
gives "import with quotes, commas and CRLF" 0 '^5 points stored$' bhtf import csv crlf.csv
same "the text of a point" '1.50,2.25,3,"a, b"' "$(bhtf get csv P1)"
gives "four empty fields are no text" 1 'has no text' bhtf get csv P3
printf '%s\r\n' '"P,4",1,2,3,plain' 'P1,1.50,2.25,3,"a, b"' 'P2,-1,2,3,"say ""yes"""' \
  'P3,,,,' 'P5,1,2,4,"two' 'lines"' 'name,easting,northing,height,note' | LC_ALL=C sort >expected
bhtf export csv --crlf | LC_ALL=C sort >got
holds "export gives back what import read" cmp expected got
bhtf export csv >out1
bhtf create csv2
bhtf import csv2 out1 --quiet
bhtf export csv2 >out2
holds "export, import, export" cmp out1 out2
bhtf add csv note 'free, text'
gives "another text comes out in a column of its own" 0 '^note,,,,,"free, text"$' bhtf export csv
bhtf delete csv note
bhtf create csv3
gives "import from standard input" 0 '5 points' sh -c 'bhtf import csv3 - <out1'
none "import --quiet" "$(bhtf import csv3 out1 --replace --quiet)"
printf '\357\273\277name,easting,northing,height,note\nB1,1,2,5,last line without end' >bom.csv
gives "a byte order mark" 0 '^1 point stored$' bhtf import csv3 bom.csv
same "the last line" '1,2,5,last line without end' "$(bhtf get csv3 B1)"
printf 'A1,1,2,6,\nA2,1,2,7,\nP1,9,9,9,\nA3,1,2,8,\n' >half.csv
gives "an import stops at a refused line" 1 'line 3: P1: refused \(9\)' bhtf import csv half.csv -c PENZD
gives "what is in front of it is not stored" 1 'refused \(14\)' bhtf get csv A2
gives "nor what is behind" 1 'refused \(14\)' bhtf get csv A3
bhtf create half
bhtf add half P1 x
gives "which is said" 1 'stopped: nothing was stored in half' bhtf import half half.csv -c PENZD
gives "unless it keeps going" 1 '^3 points stored$' bhtf import half half.csv -c PENZD --keep-going
gives "with words of the line" 1 'half\.csv: 4 lines refused, the first is line 1' bhtf import half half.csv -c PENZD --keep-going
gives "import --replace keeps notes" 1 'P1: refused: --replace would take away note "a, b"' bhtf import csv half.csv --replace -c PENZD
gives "import --replace" 0 '^4 points stored: 3 new, 1 changed, 0 equal$' bhtf import csv half.csv --replace --drop note -c PENZD
same "the replaced text" '9,9,9,' "$(bhtf get csv P1)"
printf 'A1,1,2,3,"open\n' >bad.csv
gives "a quote left open" 2 'line 1: .*no closing quote' bhtf import csv bad.csv
printf 'X1,1,2,3,\nA1,1,2,3,"a"b\n' >bad.csv
gives "text behind a quote" 2 'line 2: .*behind a closing quote' bhtf import csv bad.csv -c PENZD
gives "the line in front of it is not stored" 1 'refused \(14\)' bhtf get csv X1
printf 'A1,1,2,3\n' >bad.csv
gives "four fields" 2 'line 1: the line has 4 fields, and not the 5 of name,easting' bhtf import csv bad.csv -c PENZD
printf 'A1,1,2,3,4,5\n' >bad.csv
gives "six fields" 2 'line 1: the line has 6 fields, and not the 5' bhtf import csv bad.csv -c PENZD
printf 'a name that is too long,1,2,3,\n' >bad.csv
gives "a name too long" 1 'line 1: a name that is too long: refused \(7\)' bhtf import csv bad.csv -c PENZD
gives "no such CSV" 2 'No such file' bhtf import csv nowhere.csv
gives "a file into itself" 2 'into itself' bhtf import csv csv
: >empty.csv
gives "an empty CSV" 0 '^0 points stored$' bhtf import csv empty.csv
gives "after all this the file is sound" 0 '^sound' bhtf check csv
seq 5507 | sed 's/.*/N&,&.125,-&.5,1000,"n, ""&"""/' >full.csv
bhtf create full --slots 5507
gives "import fills a table" 0 '^5507 points' bhtf import full full.csv -c PENZD
bhtf export full | tail -n +2 | LC_ALL=C sort >got
LC_ALL=C sort full.csv >expected
holds "a full table comes back" cmp expected got
gives "one more is refused" 1 'refused \(10\)' bhtf add full more x
gives "the full table is sound" 0 'sound: 5507' bhtf check full
for i in $(seq 1 40); do bhtf delete full "N$((i * 137))"; done
gives "after 40 deletions it is sound" 0 'sound: 5467' bhtf check full

# ---- files that are refused or damaged ----

: >empty
head -c 4095 a >short
head -c 8192 /dev/zero >zeros
head -c 8192 /dev/urandom >random
head -c 114688 a >clipped
cp a version
printf '\001\000\003' | dd of=version bs=1 seek=5 conv=notrunc status=none
cp a header
printf '\377' | dd of=header bs=1 seek=16 conv=notrunc status=none
while read -r number file; do
  for words in 'count' 'list' 'check' 'compact' 'stat' 'export' 'dump' 'get:n' 'withdraw:n' 'delete:n' 'add:n:t' 'import:out1'; do
    IFS=: read -r command one two <<<"$words"
    cp "$file" before
    gives "$file: $command refused $number" 1 "refused \\($number\\)" \
      bhtf "$command" "$file" ${one:+"$one"} ${two:+"$two"}
    cmp -s before "$file" || fail "$file: $command changed it"
  done
done <<'LIST'
1 empty
1 short
5 zeros
5 random
5 version
6 clipped
6 header
LIST
# A page more than 1 GiB, of which no block is written.
truncate -s 1073745920 long
gives "long: count refused 1" 1 'refused \(1\)' bhtf count long
gives "long: add refused 1" 1 'refused \(1\)' bhtf add long n t
same "no block of it is written" 0 "$(stat -c %b long)"
# A file that is not one of ours is not touched at all.
truncate -s 8192 holes
touch -d '2020-01-01' holes
before=$(stat -c '%b %Y %Z' holes)
for words in 'add:n:t' 'delete:n' 'compact' 'import:out1'; do
  IFS=: read -r command one two <<<"$words"
  gives "holes: $command refused 5" 1 'refused \(5\)' bhtf "$command" holes ${one:+"$one"} ${two:+"$two"}
done
same "neither its blocks nor its times have changed" "$before" "$(stat -c '%b %Y %Z' holes)"
# With standard error closed the file must not be opened in its place, and the
# message written into it.
cp header before
gives "refused with standard error closed" 1 '' sh -c 'bhtf delete header n 2>&-'
holds "it is as it was" cmp before header
cp a one
cp a two
printf 'P,E,N,Z,D\nnew,1,2,3,\nCP-1,1,2,3,\n' >lines.csv
bhtf import one lines.csv 2>/dev/null
gives "a refused line with standard error closed" 1 '' sh -c 'bhtf import two - <lines.csv 2>&-'
holds "nothing of it is stored" cmp a two
cp tiny damaged
# The offset of the first slot that is taken, behind its key of one byte.
slot=$(bhtf list damaged --long | awk '{print $1}')
printf '\000\000\000\001' | dd of=damaged bs=1 seek=$((2048 + slot * 5 + 1)) conv=notrunc status=none
for words in get delete withdraw; do
  gives "refused 11 at $words" 1 'refused \(11\).*damaged' bhtf $words damaged a
done
gives "refused 11 at add" 1 'refused \(11\)' bhtf add damaged a x --replace
gives "check names the slot" 1 "unsound: slot $slot \\(a\\)" bhtf check damaged
gives "list --long says bad, with export's status" 1 'bad a$' bhtf list damaged --long
gives "list looks at names alone" 0 '^a$' bhtf list damaged
gives "export leaves it out" 1 'a: left out' bhtf export damaged
gives "stat says damaged" 1 'damaged' bhtf stat damaged
cp a damaged
printf '\000\000\000\011' | dd of=damaged bs=1 seek=20 conv=notrunc status=none
gives "check names the count" 1 'count of 9 points is wrong' bhtf check damaged

# Two points on one message. Their texts stand from 4096 and 4105 on, each behind a header of 4 bytes.
bhtf create apart --key-size 1 --slots 8 --size 8192 --quiet
bhtf add apart a first
bhtf add apart b second
read -r low high < <(bhtf list apart --long | awk '{ print $1, $3 }' | sort -n | awk '{ printf "%s:%s ", $1, $2 }')
# at FILE PLACE BYTES: written over, as printf takes them
at() { printf "$3" | dd of="$1" bs=1 seek="$2" conv=notrunc status=none; }
both="slot ${high%:*} \\(${high#*:}\\) and slot ${low%:*} \\(${low#*:}\\) share"
gives "texts that touch share nothing" 0 '^sound: 2 points$' bhtf check apart
cp apart joined
for slot in "${low%:*}" "${high%:*}"; do at joined $((2048 + slot * 5 + 1)) '\000\000\020\000'; done
gives "two points on one text: both are named" 1 "^unsound: $both bytes 4096 to 4104 of the file$" bhtf check joined
gives "and what to do" 1 'bhtf dump FILE \| bhtf load NEW' bhtf check joined
same "but not with --quiet" 1 "$(bhtf check joined --quiet | wc -l)"
gives "stat does not guess" 1 'dead: unknown' bhtf stat joined
gives "and says whom to ask" 1 '^unsound: bhtf check' bhtf stat joined
holds "dump and load part them" sh -c 'bhtf dump joined | bhtf load parted --quiet'
gives "the new file is sound" 0 '^sound: 2 points$' bhtf check parted
same "and each point has the text" "first first" "$(bhtf get parted a) $(bhtf get parted b)"

# ---- the book that a file starts from ----

cp apart season
at season 7 '\000'
bhtf withdraw season b
book_of() { printf 'version 1.0.0\nkey-size 1\nslots %s\nroom %s\nused %s\npoints 2\n' "$1" "$2" "$3"; }
same "book: terms of an old season's file" "$(book_of "$(bhtf dump apart | sed -n 's/^slots //p')" \
  "$(($(stat -c %s apart) - 4096))" 19)" "$(bhtf book season | sed 6q)"
same "book: a text, and one that was withdrawn" $'"a" 5 "first"\n"b" 6 -' "$(bhtf book season | sed 1,6d | sort)"
same "book: in the order of slots" "$(bhtf list season --by slot)" "$(bhtf book season | sed '1,6d; s/^"//; s/".*//')"
gives "check tells version and dead bytes" 0 '^version 1\.0\.0, 19 bytes of data used, 10 of them dead$' bhtf check season
gives "the withdrawn text's bytes are used again" 0 '' bhtf add season b 123456 --replace
gives "as the book says" 0 '^used 19$' bhtf book season
gives "a file that is not sound has no book" 1 'joined: not sound.*bhtf check' bhtf book joined
gives "nor has what is no file" 2 'not a regular file' bhtf book /dev/null

cp apart reaching
at reaching 4099 '\006'
gives "one byte shared" 1 "^unsound: $both byte 4105 of the file$" bhtf check reaching
bhtf withdraw reaching b
gives "by a withdrawn text too" 1 "$both byte 4105" bhtf check reaching
cp apart twice
at twice $((2048 + ${high%:*} * 5)) "${low#*:}"
gives "a name that stands twice" 1 "^unsound: slot ${high%:*} \\(${low#*:}\\) is not found by its name$" bhtf check twice

# Random damage, under the sanitizers: status 0 or 1 and no report.
bhtf create site --key-size 8 --slots 31 --size 12288
bhtf import site "$root/host/site.csv" --quiet
clean_status() {
  ASAN_OPTIONS=exitcode=99 UBSAN_OPTIONS=exitcode=99 timeout 60 "$work/sanitize/bhtf" "$@" \
    >/dev/null 2>"$work/errors" </dev/null
  local status=$?
  [ $status -le 1 ] && ! grep -qE 'Sanitizer|runtime error' "$work/errors" && return 0
  echo "status $status: $*"
  cat "$work/errors"
  return 1
}
damage() {
  local i place
  for _ in $(seq 40); do
    cp site hurt
    for i in $(seq $((RANDOM % 6 + 1))); do
      case $((RANDOM % 3)) in
        0) place=$((RANDOM % 64)) ;;
        1) place=$((2048 + RANDOM % 372)) ;;
        *) place=$((4096 + RANDOM % 900)) ;;
      esac
      printf '%b' "\\x$(printf %02x $((RANDOM % 256)))" |
        dd of=hurt bs=1 seek=$place conv=notrunc status=none
    done
    for words in 'count' 'list:--long' 'check' 'compact:--dry-run' 'book' 'stat' 'export' 'dump' 'get:CP-101' 'add:CP-102:more:--append' \
      'add:CP-104:0:--replace' 'add:new:text' 'withdraw:CP-106' 'add:CP-103::--replace' 'delete:CP-105' 'compact' 'delete:BM-1' 'import:'"$root/host/site.csv"':--replace'; do
      IFS=: read -r command one two three <<<"$words"
      clean_status "$command" hurt ${one:+"$one"} ${two:+"$two"} ${three:+"$three"} || return 1
    done
  done
}
RANDOM=1
holds "damaged files under the sanitizers" damage
refused_cleanly() {
  local file
  for file in empty short zeros random clipped version header; do
    clean_status stat $file && clean_status import $file out1 && clean_status list $file || return 1
  done
}
holds "refused files under the sanitizers" refused_cleanly
csv_cleanly() {
  clean_status import csv full.csv --replace -c PENZD && clean_status export csv &&
    clean_status import site bad.csv -c PENZD && clean_status create fresh --size 16384 --slots 9
}
holds "import and export under the sanitizers" csv_cleanly

# ---- parts in files of their own ----

for part in slots notes compact delta import roundtrip habits completion; do
  # shellcheck source=/dev/null
  . "$root/tests/command/$part.sh"
done

# ---- locks ----

mkfifo hold reply
lock() { # FILE KIND [LENGTH]: another program's lock on the whole file, or on its first bytes
  ./locker "$@" <hold >reply 9>&- &
  locker=$!
  helpers+=("$locker")
  exec 8>hold
  read -r _ <reply
}
unlock() {
  exec 8>&-
  wait "$locker"
}
lock a write
gives "a reader waits for another program's lock, and says so" 2 \
  "still locked by process $locker \\(writing\\) after 1 s" bhtf count a --wait 1
gives "so does a writer" 2 'still locked by process' bhtf add a locked x --wait 0
gives "and one that compacts" 2 'still locked by process' bhtf compact a --wait 0
gives "and one that applies a delta" 2 'still locked by process' bhtf apply a stations/step --wait 0
cp a before
gives "with standard error closed too" 2 '' sh -c 'bhtf add a locked x --wait 0 2>&-'
holds "the locked file is as it was" cmp before a
(bhtf count a --wait 20 >waited; echo $? >>waited) 8>&- &
waiter=$!
helpers+=("$waiter")
until_true opened a 2
unlock
wait "$waiter"
same "a waiting reader goes on when the lock is given back" "5
0" "$(cat waited)"
lock a read
gives "readers read side by side" 0 '^5$' bhtf count a --wait 0
gives "a writer waits for readers" 2 '\(reading\)' bhtf add a locked x --wait 0
gives "so does one that compacts" 2 '\(reading\)' bhtf compact a --wait 0
gives "its dry run is a reader" 0 'would be' bhtf compact a --dry-run --wait 0
gives "and one that applies a delta waits" 2 '\(reading\)' bhtf apply a stations/step --wait 0
gives "its dry run is a reader" 1 'is for a file of 16384 bytes' bhtf apply a stations/step --dry-run --wait 0
unlock

# A reader that is stuck, and a writer that waits for it: other readers pass, and each is told the truth.
lock a read 1
(bhtf add a late x --wait 3 >waited 2>&1; echo $? >>waited) 8>&- &
waiter=$!
helpers+=("$waiter")
until_true opened a 2
gives "behind a stuck reader and a waiting writer a reader has its turn" 0 '^5$' bhtf count a --wait 2
wait "$waiter"
gives "the writer names the reader" 0 "still locked by process $locker \\(reading\\) after 3 s" cat waited
same "after the time that was given, for all locks together" 2 "$(tail -n 1 waited)"
unlock

# A file that is replaced while a writer waits for its lock.
cp a replaced
cp a newer
lock replaced write
(bhtf add replaced late x --wait 20 >waited 2>&1; echo $? >>waited) 8>&- &
waiter=$!
helpers+=("$waiter")
holds "a writer waits for the lock" until_true opened replaced 2
mv newer replaced
unlock
wait "$waiter"
gives "a writer finds that its file was replaced" 0 'removed or replaced' cat waited
same "and has status 2" 2 "$(tail -n 1 waited)"

mkfifo feed
start_import() { # FILE [OPTION..]: an import that waits for its input
  bhtf import "$1" feed -c PENZD "${@:2}" >import.out 2>import.err &
  importer=$!
  helpers+=("$importer")
  exec 9>feed
}
feed() { seq "$1" "$2" | sed 's/.*/F&,&,&,&,/' >&9; }
has() { [ "$(bhtf count "$1")" -ge "$2" ]; }
# Does another process write to the file? Asked by a change that is refused.
is_busy() { bhtf withdraw "$1" nobody --wait 0; [ $? -eq 2 ]; }
bhtf create shared
start_import shared
feed 1 600
holds "an import under way has the writer's lock" until_true is_busy shared
gives "readers see nothing of it" 0 '^0$' bhtf count shared --wait 0
gives "there is one writer" 2 "still locked by process $importer \\(writing\\)" bhtf add shared other x --wait 0
gives "the file is sound for readers" 0 sound bhtf check shared --wait 0
exec 9>&-
wait "$importer"
same "the import ends" 0 $?
gives "a later writer gets the lock" 0 '' bhtf add shared other x --wait 0
gives "all points are there" 0 'sound: 601' bhtf check shared

# A reader whose output nobody takes.
mkfifo stuck
bhtf export full >stuck &
reader=$!
helpers+=("$reader")
exec 7<stuck
read -r _ <&7
gives "a reader that cannot print keeps no lock" 0 '' bhtf add full stuck x --wait 1
kill "$reader"
wait "$reader" 2>/dev/null
exec 7<&-

# A writer and several readers at once: no reader may see half a change.
a_text=$(printf 'a%.0s' $(seq 3000))
b_text=$(printf 'b%.0s' $(seq 3000))
bhtf create busy --slots 5507
bhtf add busy both "$a_text"
writer() {
  local i
  for i in $(seq 40); do
    bhtf add busy both "$b_text" --replace || return 1
    bhtf add busy "W$i" "$i" || return 1
    bhtf add busy both "$a_text" --replace || return 1
    [ $((i % 10)) -ne 0 ] || bhtf delete busy "W$((i - 5))" || return 1
    [ $((i % 4)) -ne 0 ] || bhtf compact busy --quiet || return 1
  done
  seq 3000 | sed 's/.*/I&,&,&,&,/' | bhtf import busy - --quiet -c PENZD
}
reader() {
  local text
  while [ ! -e writer.done ]; do
    bhtf check busy --quiet || return 1
    text=$(bhtf get busy both) || return 1
    [ "$text" = "$a_text" ] || [ "$text" = "$b_text" ] || { echo "mixed text"; return 1; }
    bhtf export busy >/dev/null && bhtf list busy >/dev/null || return 1
    echo >>"rounds.$1"
  done
}
side_by_side() {
  local i pids=() status=0
  for i in 1 2 3 4; do
    reader "$i" >"reader.$i" 2>&1 &
    pids+=($!)
  done
  writer || status=1
  touch writer.done
  for i in "${pids[@]}"; do wait "$i" || status=1; done
  cat reader.*
  for i in 1 2 3 4; do [ -s "rounds.$i" ] || { echo "reader $i had no turn"; status=1; }; done
  return $status
}
holds "a writer and four readers at once" side_by_side
gives "what the writer left" 0 'sound: 3037' bhtf check busy

# ---- writers that are killed ----

bhtf create killed
start_import killed
feed 1 2000
until_true is_busy killed
kill -KILL "$importer"
wait "$importer" 2>/dev/null
exec 9>&-
gives "a killed import leaves the file as it was" 0 '^0$' bhtf count killed --wait 0
gives "a later writer gets the lock at once" 0 '' bhtf add killed later x --wait 0
gives "the file is sound" 0 'sound: 1' bhtf check killed
holds "no journal is left" test ! -e killed.journal

hot_kills() {
  local i pid status hits=0
  seq 60000 | sed 's/.*/H&,&.111,&.222,&.333,note &/' >hot.csv
  for i in $(seq 12); do
    rm -f hot
    bhtf create hot --slots 65536 --key-size 8 || return 1
    bhtf import hot hot.csv --quiet -c PENZD 2>/dev/null &
    pid=$!
    sleep "0.$(printf %03d $((RANDOM % 200 + 10)))"
    kill -KILL $pid 2>/dev/null
    wait $pid 2>/dev/null
    [ $? -ne 137 ] || hits=$((hits + 1))
    status=$(bhtf count hot --wait 0) || return 1
    [ "$status" = 0 ] || [ "$status" = 60000 ] || { echo "$status points"; return 1; }
    bhtf check hot --quiet --wait 0 >/dev/null || return 1
    bhtf add hot later x --replace --wait 0 2>/dev/null || return 1
    bhtf check hot --quiet --wait 0 >/dev/null || return 1
    [ "$(bhtf count hot)" = $((status + 1)) ] || return 1
    [ ! -e hot.journal ] || return 1
  done
  [ "$hits" -gt 0 ] || { echo "none was killed before its end"; return 1; }
}
holds "killed at any time: all points or none, sound, and the lock is free" hot_kills

bhtf create stopped
start_import stopped
feed 1 600
until_true is_busy stopped
sleep 0.2
kill -TERM "$importer"
wait "$importer"
same "an interrupted import has status 2" 2 $?
exec 9>&-
gives "it says that nothing was stored" 0 'stopped: nothing was stored in stopped' cat import.err
gives "the file is as it was" 0 'sound: 0' bhtf check stopped

bhtf create waiting
start_import waiting --wait 600
feed 1 300
until_true is_busy waiting
sleep 0.2
lock waiting read 1
exec 9>&-
until_true eval '! opened feed 1'
kill -TERM "$importer"
ended() { ! kill -0 "$importer"; }
holds "an import that waits for a lock can be interrupted" until_true ended
unlock
wait "$importer"
same "it has status 2" 2 $?
gives "and says so" 0 'interrupted while others had it locked' cat import.err
gives "and that nothing was stored" 0 'stopped: nothing was stored' cat import.err

bhtf create shrunk
start_import shrunk
feed 1 600
until_true is_busy shrunk
sleep 0.2
truncate -s 0 shrunk
feed 601 1200
exec 9>&-
wait "$importer"
same "a file cut short while in use: status 2" 2 $?
gives "and a message" 0 'cut short by another program' cat import.err

bhtf create swapped
bhtf create other
start_import swapped
feed 1 600
until_true is_busy swapped
sleep 0.2
mv other swapped
feed 601 1200
exec 9>&-
wait "$importer"
same "a file replaced during an import: status 2" 2 $?
gives "and a message, too" 0 'removed or replaced' cat import.err
gives "and nothing is stored" 0 'stopped: nothing was stored' cat import.err
gives "in neither of them" 0 '^0$' bhtf count swapped

# ---- what is put on the disk ----

put_on_disk() { LD_PRELOAD=$work/fsync.so "$@"; }
gives "a new file's name is put on the disk" 0 'fsync of a directory' put_on_disk bhtf create durable
mkdir deeper
gives "in another directory as well" 0 'fsync of a directory' put_on_disk bhtf create deeper/durable
gives "a change is put on the disk" 0 'fsync of a file' put_on_disk bhtf add durable n x
gives "and its journal's name" 0 'fsync of a directory' put_on_disk bhtf add durable n longer --replace
gives "and a compaction" 0 'fsync of a file' put_on_disk bhtf compact durable
gives "but not with --no-sync" 0 '' put_on_disk bhtf add durable n2 x --no-sync
same "which is stored" x "$(bhtf get durable n2)"
gives "nor at create" 0 '' put_on_disk bhtf create durable2 --no-sync
cp durable durable2
gives "and its record, with its name" 0 'fsync of a directory' put_on_disk bhtf add durable r x --delta durable.delta
same "before the change" 'record its-name journal its-name mark file mark-0' "$(tr '\n' ' ' <"$work/out" |
  sed 's/^fsync of a file fsync of a directory fsync of a file fsync of a directory fsync of a file fsync of a file fsync of a file $/record its-name journal its-name mark file mark-0/')"
gives "and what a copy is made" 0 'fsync of a file' put_on_disk bhtf apply durable2 durable.delta
export FSYNC_FAILS=yes
gives "a disk that fails at add" 2 'nothing was changed.*written: Input/output error' put_on_disk bhtf add durable m x
env -u FSYNC_FAILS bhtf add durable n longer-still --replace --delta durable.delta
gives "a disk that fails at compact" 2 'nothing was changed.*written: Input/output error' put_on_disk bhtf compact durable
cp durable.delta before
gives "a disk that fails at a change with --delta" 2 'durable.delta: cannot be written to the disk: Input/output error' \
  put_on_disk bhtf add durable s x --delta durable.delta
holds "leaves no record" cmp before durable.delta
gives "nor a new file of records" 2 'durable: is as it was' put_on_disk bhtf add durable t x --delta new.delta
holds "which is not there" test ! -e new.delta
none "nor a change" "$(bhtf list durable | grep '^[st]$')"
gives "a disk that fails at create" 2 'written to the disk: Input/output error' put_on_disk bhtf create lost
unset FSYNC_FAILS
holds "leaves no new file" test ! -e lost

# ---- progress ----

bhtf create slow
mkfifo slow.in slow.in2
slowly() { seq 300 | sed 's/.*/S&,&,&,&,/'; sleep 0.8; seq 301 900 | sed 's/.*/S&,&,&,&,/'; }
slowly >slow.in &
helpers+=($!)
script -qec "bhtf import slow slow.in -c PENZD" /dev/null >progress </dev/null
gives "a long import shows its progress on a terminal" 0 $'\rbhtf: [0-9]+ points read' cat progress
slowly >slow.in2 &
helpers+=($!)
script -qec "bhtf import slow slow.in2 --replace --quiet -c PENZD" /dev/null >progress </dev/null
same "but not with --quiet" '0 900' "$? $(bhtf count slow)$(cat progress)"

# ---- a file that may only be read ----

chmod 755 "$work" "$work/gcc"
cp a readonly
chmod 444 readonly
as_other() { if [ "$(id -u)" -eq 0 ]; then setpriv --reuid 65534 --regid 65534 --clear-groups "$@"; else "$@"; fi; }
gives "a read-only file can be read" 0 '^5$' as_other bhtf count readonly
gives "and listed" 0 '^CP-1$' as_other bhtf list readonly
gives "but not written to" 2 'cannot open: Permission denied' as_other bhtf add readonly x y
gives "nor deleted from" 2 'Permission denied' as_other bhtf delete readonly CP-1
gives "nor compacted" 2 'Permission denied' as_other bhtf compact readonly
gives "nor brought up to date" 2 'Permission denied' as_other bhtf apply readonly stations/step
gives "but a dry run can tell" 0 'would be' as_other bhtf compact readonly -n
holds "it is as it was" cmp a readonly

# ---- a full disk ----

full_disk() {
  mkdir -p disk
  if mount -t tmpfs -o size=256k tmpfs disk 2>/dev/null; then
    mounted=$work/disk
    return 0
  fi
  return 1
}
disk_is_full() { # no file and status 2 where 1 MiB has no room
  "$@" >"$work/create.out" 2>&1
  local status=$?
  [ $status -eq 2 ] && grep -qE 'cannot allocate its space: (No space|File too large)' "$work/create.out" &&
    return 0
  echo "status $status: $(cat "$work/create.out")"
  return 1
}
if full_disk; then
  holds "create on a full disk" disk_is_full bhtf create disk/f --size 1048576
  holds "leaves no file" test ! -e disk/f
  gives "a file that fits" 0 '' bhtf create disk/g --slots 100 --size 65536
  gives "import onto it" 0 '12 points' bhtf import disk/g "$root/host/site.csv"
  # A file with holes, where the disk has no room for them any more.
  bhtf create sparse --slots 100 --size 131072
  cp --sparse=always sparse disk/sparse
  cp sparse before
  head -c 1048576 /dev/zero >disk/filler 2>/dev/null
  # In memory a hole takes space when it is read; on a disk, when it is written.
  gives "a file with holes on a full disk" 2 'cannot allocate its space|its disk failed' bhtf add disk/sparse n x
  holds "is as it was" cmp before disk/sparse
  gives "nor is there room for a journal" 2 'nothing was changed: its journal .*has no space: No space left' bhtf add disk/g n x
  rm disk/filler
  gives "with room it is written" 0 '' bhtf add disk/g n x
  gives "and is sound" 0 'sound: 13' bhtf check disk/g
  umount disk && mounted=
else
  echo "no small disk can be mounted here; a limit on the length of files stands in for it"
  holds "create beyond a limit" disk_is_full sh -c 'ulimit -f 64; bhtf create f --size 1048576'
  holds "leaves no file" test ! -e f
fi
holds "a limit on the length of files" disk_is_full \
  sh -c 'ulimit -f 64; exec bhtf create limited --size 1048576'
holds "leaves no file either" test ! -e limited

echo "$passed passed, $failed failed"
[ "$failed" -eq 0 ] && [ "$passed" -gt 0 ]
