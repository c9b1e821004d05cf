#!/usr/bin/env bash
# What README.md shows is what happens: each sample, typed in an empty folder in the order of the page and on a terminal, prints what stands
# below it. A sample stands in a fence ```console; its lines begin with '$ ', further lines of a command with '> ', and the rest is what is
# printed. Besides: README has the kit's name as `rt version` says it, the numbers of must-fail edits, crates and seeded faults on the pages
# are those of the tree, the entries of docs/DECISIONS.md stand in the order of their numbers, docs/layers.svg and docs/FUNCTIONS.md are what
# docs/layers.awk and docs/functions.awk make, and links to headings lead somewhere. The last line is 'N passed, M failed'.
#   LIB=path    the library, from the repository's root; crates/station/out/libstation.a unless given
#   BHTF=path   a command that is already built, with bhtf-mqtt beside it, in place of building them
#   --samples   prints what the commands print, to be looked at when a sample is written
set -u
export LC_ALL=C.UTF-8
cd "$(dirname "$0")/.." || exit 2
. tests/tally.sh
work=$(mktemp -d)
# The broker of the samples ends with them, also where one failed.
trap '[ ! -s "$work/folder/broker.pid" ] || kill "$(cat "$work/folder/broker.pid")" 2>/dev/null; rm -rf "$work"' EXIT

# samples PAGE: the page's samples into numbered files of $work: N.sh, what is typed, and N.out, what is printed
samples() {
  awk -v to="$work" '
    /^```console$/ { inside = 1; next }
    /^```/ { inside = 0 }
    !inside { next }
    /^\$ / { n++; printf "" > (to "/" n ".out"); print substr($0, 3) > (to "/" n ".sh"); next }
    /^> / { print substr($0, 3) > (to "/" n ".sh"); next }
    { print > (to "/" n ".out") }
    END { print n + 0 }' "$1"
}

# printed N: what sample N prints on a terminal
printed() { (cd "$work/folder" && script -qec "bash $work/$1.sh" /dev/null </dev/null) | tr -d '\r'; }

# as_shown N: sample N prints what the page shows
as_shown() { diff -u --label "shown" "$work/$1.out" --label "printed" <(printed "$1"); }

build() {
  if [ -n "${BHTF:-}" ]; then
    mkdir -p "$work/bin" && ln -s "$(realpath "$BHTF")" "$work/bin/bhtf" && ln -s "$(realpath "$(dirname "$BHTF")/bhtf-mqtt")" "$work/bin"
  else
    make -s -C host OUT="$work/bin" ${LIB:+LIB="$(realpath "$LIB")"} "$work/bin/bhtf" mqtt >"$work/said" 2>&1 || { tail -n 5 "$work/said"; return 1; }
  fi
}

test_that "the command builds" build
[ "$failed" -eq 0 ] || { tally; exit 1; }
PATH=$work/bin:$PATH:/usr/sbin
mkdir "$work/folder"
count=$(samples README.md)
if [ "${1:-}" = --samples ]; then
  for n in $(seq "$count"); do sed '1s/^/$ /; 2,$s/^/> /' "$work/$n.sh"; printed "$n"; done
  exit
fi
test_that "the page has samples" [ "$count" -ge 15 ]
for n in $(seq "$count"); do test_that "sample $n: $(head -n 1 "$work/$n.sh")" as_shown "$n"; done

# A sample that shows something else is seen: the last one again, with another line below it.
echo "another line" >>"$work/$count.out"
differs() { ! as_shown "$count" >"$work/said"; }
test_that "a sample that shows another line fails" differs

edits=(crates/*/must-fail/*.edit)
crates=(crates/*/)
if command -v rt >/dev/null; then
  test_that "README names the kit, $(rt version)" grep -qF "\`$(rt version)\`" README.md
fi
test_that "README says how many must-fail edits there are, ${#edits[@]}" grep -q "tries ${#edits[@]} must-fail edits" README.md
test_that "so does CONTRIBUTING" grep -q " for ${#edits[@]} edits" docs/CONTRIBUTING.md
test_that "ARCHITECTURE says how many crates there are, ${#crates[@]}" grep -q "each of the ${#crates[@]} crates" docs/ARCHITECTURE.md

# seeded SCRIPT: how many faults it seeds
seeded() { grep -cE '^(fault|misbook|at_a_cut) "' "$1"; }
test_that "CONTRIBUTING says how many faults tests/faults.sh seeds" grep -qF "\`tests/faults.sh\`, $(seeded tests/faults.sh) faults" docs/CONTRIBUTING.md
test_that "FILE-LAYER says how many faults are seeded into it" \
  grep -q "^| faults seeded into the layer.* | $(seeded tests/file.sh) |" docs/FILE-LAYER.md

# in_order PAGE: its entries' numbers rise
in_order() {
  awk '/^[0-9]+\. / { at = $1 + 0; n++; if (at <= last) { print FILENAME ": " at " stands after " last; bad = 1 } last = at }
    END { exit bad || !n }' "$1"
}
test_that "decisions stand in the order of their numbers" in_order docs/DECISIONS.md

# anchors PAGE: of its headings, as they are made in a browser
anchors() { sed -nE 's/^#+ //p' "$1" | tr 'A-Z ' 'a-z-' | tr -cd 'a-z0-9_\n-'; }

# leads PAGE: each link of the page to a heading, of its own or of another page, finds it
leads() {
  local link to bad=0
  while read -r link; do
    to=${link%%#*}
    to=${to:+$(dirname "$1")/$to}
    anchors "${to:-$1}" | grep -qxF -- "${link#*#}" || { echo "$1: no heading for $link"; bad=1; }
  done < <(grep -oE '\]\(([^)#: ]+\.md)?#[^)]+\)' "$1" | sed -E 's/^\]\((.*)\)$/\1/' | sort -u)
  return $bad
}
for page in README.md docs/*.md; do test_that "links of $page to headings" leads "$page"; done

# the picture of the layers: current, well-formed, and every crate is on it
current() { diff <(awk -f docs/layers.awk crates.txt) docs/layers.svg >"$work/said" || { head -n 5 "$work/said"; return 1; }; }
says_all() { grep -q ">$(ls -d crates/*/ | wc -l) crates\." docs/layers.svg; }
test_that "docs/layers.svg is what docs/layers.awk makes of crates.txt" current
test_that "it counts every crate" says_all

# the page of functions: current, so that README leads to each function in two steps
functions() { LC_ALL=C awk -f docs/functions.awk crates.txt crates/*/src/*.rt host/file/*.c host/command/*.c; }
found() { diff <(functions) docs/FUNCTIONS.md >"$work/said" || { head -n 5 "$work/said"; return 1; }; }
test_that "docs/FUNCTIONS.md is what docs/functions.awk makes of the sources" found
test_that "it has every function of the crates" \
  [ "$(grep -oE '\]\(\.\./crates/[^)]*\.rt\)' docs/FUNCTIONS.md | wc -l)" -eq "$(grep -hE '(^| )fn [a-z0-9_]+' crates/*/src/*.rt | grep -cv '^ *//')" ]
for picture in docs/layers.svg docs/overview.svg docs/stations.svg; do test_that "$picture is well-formed" xmllint --noout "$picture"; done

tally
