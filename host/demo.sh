#!/usr/bin/env bash
# Builds the library and the command, and runs the main job on the control
# points of a small site. What it makes stays in the folder demo beside the
# command.
#   LIB=path   another archive than crates/station/out/libstation.a, from the
#              repository's root
#   RT=path    the prover's command, if it is not rt
#   OUT=path   where to build, from host/; build unless given
set -euo pipefail
cd "$(dirname "$0")/.."

say() { printf '\n# %s\n' "$*"; }

# typed COMMAND..: prints a command as it would be typed
typed() {
  local word
  printf '$'
  for word; do
    case $word in
      *[!A-Za-z0-9._/-]*) printf " '%s'" "$word" ;;
      *) printf ' %s' "$word" ;;
    esac
  done
}

# show COMMAND..: prints a command, and runs it
show() {
  typed "$@"
  echo
  "$@"
}

# show_into FILE COMMAND..: the same, with what it prints in a file
show_into() {
  local file=$1
  shift
  typed "$@"
  echo " > $file"
  "$@" >"$file"
}

# Is the archive missing, or older than a source of it?
stale() {
  [ ! -e "$1" ] ||
    [ -n "$(find crates crates.txt -path 'crates/*/out' -prune -o -type f -newer "$1" -print -quit)" ]
}

# How many crates the library rests on, itself included.
crates() {
  awk -F: '
    function count(name, below, n, i) {
      if (name in seen) return
      seen[name]
      all++
      n = split(rests[name], below, " ")
      for (i = 1; i <= n; i++) count(below[i])
    }
    !/^#/ && NF { sub(/ .*/, "", $1); rests[$1] = $2 }
    END { count("station"); print all }' crates.txt
}

# Proves the library: a line for each crate that was not proved yet, numbered,
# and all that was said if it fails.
prove() {
  local rt=${RT:-rt} log
  if ! command -v "$rt" >/dev/null; then
    echo "host/demo.sh: there is no command $rt. It comes with the Rattle kit, which proves and compiles the" >&2
    echo "library; put the kit's bin directory on the PATH, or name its rt by RT=path. With an archive that" >&2
    echo "somebody else made, LIB=path/to/libstation.a host/demo.sh does without it." >&2
    exit 2
  fi
  rt=$(realpath -s "$(command -v "$rt")")
  log=$(mktemp)
  if ! (cd crates/station && "$rt" lib) 2>&1 | tee "$log" | awk -v all="$(crates)" '
    /^rt: chose --jobs [0-9]+ for / { name = $NF }
    /^logic=proved / { print ++n " of " all ": " name " proved"; fflush() }'; then
    cat "$log" >&2
    rm -f "$log"
    exit 1
  fi
  rm -f "$log"
}

build() {
  archive=${LIB:-crates/station/out/libstation.a}
  if [ -z "${LIB:-}" ] && stale "$archive"; then
    say "Prove the library and write its archive: $(crates) crates, which takes long the first time."
    prove
  fi
  say "Build the command"
  archive=$(realpath "$archive")
  make -s -C host OUT="$out" LIB="$archive"
}

needs=(gcc libc6-dev make pkgconf libexpat1-dev)
out=$(cd host && realpath -m "${OUT:-build}")
say "It needs the Debian packages ${needs[*]}; apt-get installs those that are missing."
.ci/install "${needs[@]}"
build
repository=$PWD
work=$out/demo
mkdir -p "$work"
PATH=$out:$PATH
cp host/site.csv "$work"
cd "$work"
rm -f {site,before,station}.bhtf{,.journal} changes plan.svg

say "An empty file for up to 100 points with names of up to 12 bytes."
show bhtf create site.bhtf --key-size 12 --slots 100

say "The site's control points, from a CSV file: first what would happen, then so."
show bhtf import site.bhtf site.csv --dry-run
show bhtf import site.bhtf site.csv

say "A copy for a station, and the sum by which both are compared."
show bhtf copy site.bhtf station.bhtf
bhtf copy site.bhtf before.bhtf --quiet

say "Two points were destroyed by an excavator, and one was set anew."
show bhtf delete site.bhtf CP-103 RP-WEST --delta changes
show bhtf add site.bhtf CP-109 --easting 4482260.870 --northing 5351839.412 --height 490.101 --note 'nail in kerb' --delta changes

say "The station gets what changed, $(wc -c <changes) bytes by radio, and says which points."
show bhtf apply station.bhtf changes
show bhtf sum site.bhtf station.bhtf

say "Look one up: easting, northing, height, note."
show bhtf get site.bhtf CP-107
echo

say "One that is gone is refused, with status 1."
show bhtf get site.bhtf CP-103 || echo "status $?"

say "All names, in the order of the table's slots."
show bhtf list site.bhtf

say "What became of the points since."
show bhtf diff before.bhtf site.bhtf || true

say "The same on a plan to scale."
show_into plan.svg bhtf plot site.bhtf --against before.bhtf

say "Would directions to these three determine a station there?"
show bhtf figure site.bhtf --station 4482210,5351760 CP-101 CP-105 CP-107

say "Is every point where its search finds it, and every text whole?"
show bhtf check site.bhtf

say "How full the file is, and how long its searches are."
show bhtf stat site.bhtf

say "All points as CSV again: what import read, without the two deleted."
show bhtf export site.bhtf

say "All of it as text, for version control; bhtf load makes an equal file of it."
show bhtf dump site.bhtf

say "Done. The files, with the plan, are in"
echo "$work"
say "To install the command for all users of this machine, with library and manual pages:"
echo "make -C $repository/host install${LIB:+ LIB=$archive}    # PREFIX=.. for another place than /usr/local"
say "Or as Debian packages, which stations can install too, without a prover (docs/PACKAGES.md):"
echo "$repository/packaging/build --here && sudo apt install $repository/target/packages/bhtf_*.deb"
say "bhtf help lists the other commands, and man bhtf says all of each."
