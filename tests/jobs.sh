#!/usr/bin/env bash
# The commands for records by column, for names that are half legible, for epochs, and for files of version 2.0.0: the real command and the Python module, built
# with the sanitizers, beside brute force in Python. The last line is 'N passed, M failed', and the status 0 only if M is 0.
#   LIB=path     the library, from the repository's root; crates/station/out/libstation.a unless given
#   STANDIN=yes  the plain C of tests/reference in its place
#   SEED=number  of the random names, patterns and records
set -u
cd "$(dirname "$0")/.." || exit 2
. tests/tally.sh
. tests/sanitized.sh

work=$(mktemp -d)
trap 'rm -rf "$work"' EXIT
sanitized "$work/reports"
seed=${SEED:-20261117}
echo "seed $seed"

settings=(OUT="$work/bin")
[ -n "${LIB:-}" ] && settings+=(LIB="$(realpath "$LIB")")
[ -n "${STANDIN:-}" ] && settings+=(STANDIN="$STANDIN")
quietly() { "$@" >"$work/said" 2>&1 || { tail -n 5 "$work/said"; return 1; }; }
test_that "the command builds" quietly make -s -C host "${settings[@]}"
test_that "and with sanitizers" quietly make -s -C host "${settings[@]}" OUT="$work/careful" SANITIZE=yes "$work/careful/bhtf"
python=$PWD/host/python
PATH=$work/careful:$PATH
cd "$work" || exit 2

# gives STATUS PATTERN COMMAND..: status, and the pattern in what is said; '' if nothing may be
gives() {
  local status=$1 pattern=$2 got
  shift 2
  "$@" >said 2>&1
  got=$?
  if [ "$got" -eq "$status" ] && if [ -z "$pattern" ]; then [ ! -s said ]; else grep -aqE -- "$pattern" said; fi; then return 0; fi
  echo "  status $got: $(head -c 400 said | tr -d '\0')"
  return 1
}

# says PATTERN: so did the last command that gave something
says() { grep -aqE -- "$1" said; }

equal() { [ "$1" = "$2" ] && return 0; echo "  expected '$1', got '$2'"; return 1; }

# ---- records by column ----

test_that "a file" bhtf create r -k 12 -s 100
printf '1,2,-3,1.5\n10,20,-30,2.25\n65535,0,2147483647,-1e10\n' >lines
test_that "lines of numbers" gives 0 '^3 records of 15 bytes stored$' bhtf store-records r R1 --csv --fields u16,u8,i32,f64 lines
test_that "come back" equal "1,2,-3,1.5 10,20,-30,2.25 65535,0,2147483647,-10000000000" \
  "$(bhtf read-records r R1 --csv --fields u16,u8,i32,f64 | paste -sd' ')"
test_that "one column alone" equal "-3 -30 2147483647" "$(bhtf read-records r R1 --fields u16,u8,i32,f64 --column 3 | paste -sd' ')"
test_that "the first column of bytes" equal 0000ff "$(bhtf read-records r R1 --column 1 | od -An -tx1 | tr -d ' \n')"
test_that "the other byte order" equal "256,2,-3,1.5" \
  "$(printf '256,2,-3,1.5\n' | bhtf store-records r L --csv --little --fields u16,u8,i32,f64 -q &&
    bhtf read-records r L --csv --little --fields u16,u8,i32,f64)"
test_that "which is another one" equal 1 "$(bhtf read-records r L --fields u16,u8,i32,f64 --column 1)"
test_that "a number that does not fit" gives 2 'line 1: field 2 is not a number of its kind' \
  bhtf store-records r R1 --csv --fields u16,u8 <(echo 1,256)
test_that "too few fields" gives 2 'line 1: 1 fields where --fields names 2' bhtf store-records r R1 --csv --fields u16,u8 <(echo 1)
head -c 3000 /dev/urandom >raw
for width in 1 3 12 60; do
  test_that "raw records of $width bytes" gives 0 'stored' bhtf store-records r "W$width" --width "$width" raw
  test_that "come back" cmp <(bhtf read-records r "W$width") raw
done
test_that "a width that does not go" gives 1 'refused \(19\): 3000 bytes are no records of 7' bhtf store-records r W1 --width 7 raw
test_that "and the records stay" cmp <(bhtf read-records r W1) raw
test_that "no record" gives 0 '^0 records of 5 bytes stored$' bhtf store-records r none --width 5 /dev/null
test_that "is none" gives 0 '' bhtf read-records r none
test_that "a text is no records" gives 1 'refused \(19\)' bash -c 'bhtf add r text hello -q && bhtf read-records r text'
test_that "no such point" gives 1 'refused \(14\)' bhtf read-records r nobody
test_that "neither width nor fields" gives 2 'store-records: --width' bhtf store-records r W1 raw
test_that "other fields than the records" gives 2 'the records have 60 bytes, and those of --fields 4' \
  bhtf read-records r W60 --csv --fields u32
test_that "dump and load keep every byte" bash -c 'bhtf dump r >dumped && bhtf load again <dumped -q && bhtf read-records again W12 | cmp - raw'
test_that "a delta brings them" bash -c 'bhtf copy r copy -q && bhtf store-records r D --width 1 lines -q --delta step &&
  bhtf apply copy <step -q && bhtf read-records copy D | cmp - lines'

# ---- names that are half legible ----

awk 'BEGIN { for (i = 1; i <= 500; i++) printf "CP-%03d,4%03d.25,7000.5,100,n\n", i, i }' >points
test_that "a site" bash -c 'bhtf create s -k 8 -s 700 && bhtf import s points --columns PENZD -q --allow-near --allow-far --allow-swapped'
test_that "a letter that is not legible" equal "CP-107 CP-117 CP-127" "$(bhtf find s 'CP-1[0-2]7' | cut -f1 | sort | paste -sd' ')"
test_that "an end that is not legible" equal 100 "$(bhtf find s 'CP-3*' | wc -l)"
test_that "letters that look alike" gives 0 '^CP-108' bhtf find s 'CP-IOB' --alike -q
test_that "it says what it tried" gives 0 'tried.* B as one of 8B3' bhtf find s 'CP-IOB' --alike
test_that "none" gives 1 'no name fits' bhtf find s 'CP-9*'
test_that "a pattern that is none" gives 2 'a class without its \]' bhtf find s 'CP-[1'
test_that "a star in the middle" gives 2 'a \* that is not at its end' bhtf find s 'C*1'
test_that "longer than a name" gives 2 'more places than a name' bhtf find s '?????????'
test_that "near a place" gives 0 '^ *0\.000 m  CP-107' bhtf find s 'CP-1*' --near 4107.25,7000.5,0.5
test_that "as JSON" gives 0 '"name":"CP-107".*"easting":4107.25' bhtf find s CP-107 --json
test_that "as CSV" gives 0 '^CP-107,4107.25,7000.5,100,n,$' bhtf find s CP-107 --csv

brute() {
  python3 -B - "$seed" "$work" <<'P'
import random, re, subprocess, sys
random.seed(int(sys.argv[1]))
work = sys.argv[2]
names = subprocess.run(["bhtf", "list", work + "/s"], capture_output=True, text=True).stdout.split()
tried = 0
for _ in range(60):
    name = random.choice(names)
    pattern, want = "", ""
    for k, c in enumerate(name):
        way = random.randrange(5)
        if way == 0:
            pattern += "?"; want += "."
        elif way == 1 and c.isdigit():
            low, high = sorted(random.sample("0123456789", 2))
            pattern += "[%s-%s]" % (low, high); want += "[%s-%s]" % (low, high)
        elif way == 2 and c.isdigit():
            some = "".join(random.sample("0123456789", 3))
            pattern += "[!%s]" % some; want += "[^%s]" % some
        elif way == 3 and k > 3:
            pattern += "*"; want += ".*"
            break
        else:
            pattern += c; want += re.escape(c)
    wanted = sorted(n for n in names if re.fullmatch(want, n))
    got = subprocess.run(["bhtf", "find", work + "/s", pattern], capture_output=True, text=True).stdout
    got = sorted(line.split("\t")[0] for line in got.splitlines())
    if got != wanted:
        print("  pattern", pattern, "wanted", wanted[:5], "got", got[:5])
        sys.exit(1)
    tried += 1
sys.exit(tried != 60)
P
}
test_that "random patterns, beside brute force" brute

# ---- epochs ----

test_that "a file of epochs" bhtf create e -k 12 -s 60
for t in 3 7 11; do
  test_that "epoch $t" gives 0 '' bhtf add e PRISM-01 -E "1000.00$t" -N 2000 -H 50 --epoch "$t" -q
done
test_that "between them" equal "7	1000.007,2000,50," "$(bhtf at e PRISM-01 9)"
test_that "at one of them" equal "7	1000.007,2000,50," "$(bhtf at e PRISM-01 7)"
test_that "after all" equal "11	1000.0011,2000,50," "$(bhtf at e PRISM-01 4294967295)"
test_that "before all" gives 1 'refused \(14\)' bhtf at e PRISM-01 2
test_that "another name" gives 1 'refused \(14\)' bhtf at e PRISM-02 9
test_that "which epochs" equal "PRISM-01	3	3 7 11" "$(bhtf epochs e)"
test_that "a weekly file in one command" gives 0 '2 points stored' bash -c 'printf "PRISM-01,1000.02,2000,50,\nPRISM-02,1500,2500,60,\n" |
  bhtf import e - --columns PENZD --epoch 2026-11-16 --epoch-unit week'
test_that "weeks since a Monday" equal "2967" "$(bhtf epochs e PRISM-02 | cut -f3)"
test_that "by the date" gives 0 '^2967	1500,2500,60,$' bhtf at e PRISM-02 2026-11-22 --epoch-unit week
test_that "a Sunday earlier" gives 1 'refused \(14\)' bhtf at e PRISM-02 2026-11-15 --epoch-unit week
test_that "no such day" gives 2 'a date YYYY-MM-DD' bhtf at e PRISM-02 2026-02-30
test_that "a name that is too long" gives 1 'refused \(7\)' bhtf at e PRISM-0123 9
test_that "keys that are too short" gives 1 'refused \(23\)' bash -c 'bhtf create short -k 4 -s 4 && bhtf at short A 1'
test_that "and for epochs" gives 1 'refused \(23\)' bhtf epochs short

# ---- files of version 2.0.0 ----

# converted SOURCE NEW VERSION: NEW is, byte for byte, what document 02 makes of SOURCE
converted() {
  python3 -B - "$@" <<'P'
import struct, sys
old, new = (open(name, "rb").read() for name in sys.argv[1:3])
version = bytes(map(int, sys.argv[3].split(".")))
size, slots = struct.unpack(">II", old[12:20])
first, last, data, free = (struct.unpack(">I", old[at:at + 4])[0] for at in (32, 36, 48, 52))
narrow, wide = (3, 4) if version[0] == 2 else (4, 3)
image = bytearray(len(new))
image[:60] = old[:60]
image[5:8] = version
image[512:512 + 4 * (last - first + 1)] = old[512:512 + 4 * (last - first + 1)]
found = []
for i in range(slots):
    at = 2048 + i * (size + 4)
    key, offset = old[at:at + size], struct.unpack(">I", old[at + size:at + size + 4])[0]
    if any(key):
        image[at:at + size] = key
        if offset != 0 and old[offset:offset + 1] == b"a":
            found.append((offset, at + size))
end = data
for offset, at in sorted(found):
    length = int.from_bytes(old[offset + 1:offset + 1 + narrow], "big")
    text = old[offset + 1 + narrow:offset + 1 + narrow + length]
    message = b"a" + length.to_bytes(wide, "big") + text
    image[at:at + 4] = struct.pack(">I", end)
    image[end:end + len(message)] = message
    end += len(message)
image[52:56] = struct.pack(">I", end)
image[56:60] = struct.pack(">i", -1 if end == data else (end - data - 1) // 4096)
for at, (a, b) in enumerate(zip(image, new)):
    if a != b:
        sys.exit("  byte %d is %d and not %d" % (at, b, a))
sys.exit(len(image) != len(new))
P
}

bhtf copy s base -q
bhtf delete base 'CP-4*' -q
bhtf withdraw base CP-001
bhtf add base CP-002 -r -E 4002.25 -N 7000.5 -H 100 -t 'a longer note than before' --allow-near
bhtf add base CP-003 '' -r -q --drop easting,northing,height,note
test_that "a file of the other version" gives 0 '^wide is base as version 2\.0\.0: 400 points, sum ' bhtf convert base wide
test_that "what stations do with it is told" says 'knows only version 1'
test_that "byte for byte" converted base wide 2.0.0
test_that "it is sound" gives 0 '^version 2\.0\.0, .* 0 of them dead$' bhtf check wide
test_that "stat tells the version" gives 0 '^file: .*, version 2\.0\.0$' bhtf stat wide
test_that "and back" gives 0 '^narrow is wide as version 1\.0\.2: 400 points' bhtf convert wide narrow
test_that "who can read that is told" says 'knows version 1\.0\.2 can read it'
test_that "byte for byte, too" converted wide narrow 1.0.2
test_that "which is the compacted file" bash -c 'bhtf compact base -q && cmp base narrow'
test_that "the same points and texts" gives 0 '^400 same' bhtf diff base wide
test_that "in the same slots" cmp <(bhtf list base -l) <(bhtf list wide -l)
test_that "in the file's other words" cmp <(bhtf export base) <(bhtf export wide)
test_that "the book has a byte more for each text" equal 399 \
  "$(($(bhtf book wide | sed -n 's/^used //p') - $(bhtf book base | sed -n 's/^used //p')))"
test_that "a file that is there is left alone" bash -c 'cp wide kept && ! bhtf convert base wide 2>said && cmp wide kept'
test_that "and that is told" says 'wide: there already is a file of that name'
test_that "not onto itself" gives 2 'there already is a file' bhtf convert base base
test_that "a length that is too short" gives 1 'small: refused \(13\): the points of base need a file of [0-9]+ bytes' \
  bhtf convert base small --size 4K
least=$(sed -n 's/.*need a file of \([0-9]*\) bytes.*/\1/p' said)
test_that "the one that is told is enough" gives 0 '' bhtf convert base small --size "$least" -q
test_that "and the least" gives 1 'refused \(13\)' bhtf convert base smaller --size $((least - 4096))
test_that "a longer one" gives 0 '^8388608 bytes, ' bhtf convert base longer --size 8M
test_that "byte for byte to its end" converted base longer 2.0.0
test_that "a length that is none" gives 1 'odd: refused \(1\)' bhtf convert base odd --size 5000
test_that "nothing is left" test ! -e odd
printf '\001' | dd of=kept bs=1 seek=23 conv=notrunc 2>/dev/null
test_that "a file that is not sound" gives 1 'refused \(15\)' bhtf convert kept never
test_that "in the words of check" says "^unsound: the header's count of 257 points is wrong"
test_that "makes none" test ! -e never
test_that "what is no such file" gives 1 'refused \(5\): This is not a control point file of version 1\.0\.0, 1\.0\.1, 1\.0\.2 or 2\.0\.0' \
  bash -c 'cp base five && printf "\003" | dd of=five bs=1 seek=5 conv=notrunc 2>/dev/null; bhtf convert five never'
test_that "a disk that has no room leaves nothing" gives 2 'never: cannot allocate its space' bash -c 'ulimit -f 8; bhtf convert base never'
test_that "not even its beginning" equal "" "$(ls | grep never)"
test_that "another version's points go on" gives 0 '^version 2\.0\.0' bash -c 'bhtf add wide NEW "" -q && bhtf delete wide CP-010 -q &&
  bhtf import wide points --columns PENZD -q -r --allow-near --allow-far --allow-swapped && bhtf compact wide -q && bhtf check wide && rm wide'

# Texts that only version 2.0.0 holds. The longest dumped line and CSV record of version 1 are shorter than theirs.
head -c 17500000 /dev/urandom | tr '\000-\377' '\001-\005' >scan
head -c 16900000 /dev/zero | tr '\0' '"' >quotes
test_that "version 1 does not hold a scan" gives 1 'SCAN: refused \(12\): .*16,777,215 bytes.*bhtf convert makes a file of version 2\.0\.0' \
  bash -c 'bhtf create room --size 64M -s 50 && bhtf add room SCAN --text-file scan'
test_that "an empty file of 2.0.0" gives 0 '^version 2\.0\.0, 0 bytes' bash -c 'bhtf create scans --format 2.0.0 --size 96M -s 50 && bhtf check scans'
test_that "is what the converter makes" bash -c 'bhtf create early --size 96M -s 50 && bhtf convert early scans2 -q && cmp scans scans2 && rm scans2 early'
test_that "a scan from a file" gives 0 '' bhtf add scans SCAN --text-file scan
test_that "comes back" bash -c 'bhtf get scans SCAN | cmp - scan'
test_that "into a file" bash -c 'bhtf get scans SCAN --text-file out && cmp out scan'
test_that "which is not overwritten" gives 2 'out: there already is a file' bhtf get scans SCAN --text-file out
test_that "an empty text into one" bash -c 'bhtf add scans NONE "" && bhtf get scans NONE --text-file empty -q && [ -e empty ] && [ ! -s empty ]'
test_that "one point alone" gives 2 'goes with one point' bhtf get scans SCAN NONE --text-file out2
test_that "no such scan" gives 2 'nowhere: cannot be opened: No such file' bhtf add scans X --text-file nowhere
test_that "a scan and a text" gives 2 'leave out TEXT' bhtf add scans X text --text-file scan
test_that "from standard input, in its place" bash -c 'bhtf add scans SCAN -r --text-file - <quotes && bhtf get scans SCAN | cmp - quotes'
test_that "in a batch" bash -c 'echo "add MORE --text-file scan" | bhtf batch scans -q && bhtf get scans MORE | cmp - scan'
test_that "sound, with its length" gives 0 ' 17500000 MORE$' bash -c 'bhtf check scans -q && bhtf list scans -l'
test_that "no version 1 holds it" gives 1 'scans: refused \(20\): A message is longer than 16,777,215 bytes' bhtf convert scans never
test_that "the points are named" equal "2" "$(grep -c 'scans: \(SCAN: its text has 16900000\|MORE: its text has 17500000\) bytes' said)"
test_that "a dump of it" bash -c 'bhtf dump scans >dumped && bhtf load loaded -q <dumped && bhtf diff scans loaded -q && bhtf check loaded -q'
test_that "of its version" gives 0 '^version 2\.0\.0,' bhtf check loaded
test_that "which version 1 does not take" gives 1 'refused \(12\)' bhtf load never dumped --format 1.0.2
test_that "export and import" bash -c 'bhtf export scans >csv 2>/dev/null; bhtf create again2 --format 2.0.0 --size 96M -s 50 &&
  bhtf import again2 csv -q && bhtf get again2 SCAN | cmp - quotes'
test_that "a delta" bash -c 'bhtf copy scans copy2 -q && bhtf delete scans MORE -q --delta step2 && bhtf apply copy2 -q <step2 && cmp scans copy2'
test_that "records above it" bash -c 'bhtf store-records scans R --width 4 scan -q && bhtf read-records scans R | cmp - scan'
test_that "compacted" gives 0 '^version 2\.0\.0, .* 0 of them dead$' bash -c 'bhtf compact scans -q && bhtf check scans'
test_that "without the long ones it goes back" bash -c 'bhtf delete scans SCAN R -q && bhtf convert scans back -q && bhtf get back NONE -q'
test_that "an older version from a dump" gives 0 '^version 1\.0\.1,' bash -c 'bhtf delete scans NONE -q && bhtf add scans P 1,2,3,n -q && bhtf dump scans |
  bhtf load old101 --format 1.0.1 -q && bhtf check old101'
test_that "and 2.0.0 from one" gives 0 '^version 2\.0\.0,' bash -c 'bhtf dump old101 | bhtf load new200 --format 2.0.0 -q && bhtf check new200'
rm -f scan quotes out dumped csv again2 loaded copy2 step2 room scans

# ---- the module for Python ----

module() {
  BHTF_LIBRARY=$work/bin/libbhtf.so PYTHONPATH=$python python3 -B - <<'P'
import bhtf
with bhtf.open("s") as f:
    assert sorted(f.select("CP-1[0-2]7")) == [b"CP-107", b"CP-117", b"CP-127"]
    assert len(list(f.select("CP-3*"))) == 100
    assert list(f.select("X?")) == []
with bhtf.open("e") as f:
    assert f.at("PRISM-01", 9) == (7, b"1000.007,2000,50,")
    assert f.at("PRISM-01", 2) is None
    assert f.epochs("PRISM-01") == [3, 7, 11, 2967]
with bhtf.open("r", write=True) as f:
    f.store_records("PY", bytes(range(24)), 6)
    assert f.read_records("PY") == (6, bytes(range(24)))
    assert f["PY"][:5] == bytes([6, 0, 6, 12, 18])
    try:
        f.store_records("PY", b"1234567", 6)
    except bhtf.Error as e:
        assert e.number == 19
    else:
        raise SystemExit("taken")
P
}
test_that "Python: select, at, epochs, records" module

test_that "no report of a sanitizer" unreported "$work/reports"
tally
