#!/usr/bin/env bash
# Fails where README.md or a page of docs/ names something that is gone; LANDINGS.md, which tells of the past, is left out, and
# so are functions in an edit's text that a page quotes (`old: ..`).
#     `crates/..`                        a file or folder, also of docs, host, tests, bench and .ci: it exists
#     [words](path)                      so does what a link leads to
#     [words](../crates/..#name)         and that file declares the name
#     `crates/...edit`: `name` fact      the edit says that it falls at that function's fact, or at the case of that name
#     `crate::function`                  that crate's code declares the function; of the kit's own crates nothing is asked
#     `name` of `crate` or of `path`     the crate, or that file or folder, declares the name or has a module of it; a file of C or of a shell has the word
#     `a_name`, `aName`, `Name`          a crate, something that some crate declares, or a word of host, tests, bench or packaging
# First a page on which each of these is wrong is tried: every one must be told. PAGES=".." names other pages than the repository's.
set -u
cd "$(dirname "$0")/.." || exit 2
bad=0
checked=0

# gone WHAT: of the page at hand
gone() {
  echo "$doc $1"
  bad=1
}

# declares NAME PATH..: does a file there, or in a folder there, declare it?
declares() {
  local name
  name=$(printf '%s' "$1" | sed 's/[.[\*^$+?(){|]/\\&/g')
  shift
  grep -rqE --exclude-dir=out "^ *((unfoldable|abbrev|pub|fn|extern \"C\"|record|data|struct|enum|const) )*(fn )?$name( |\(|<|:|;|$)" "$@" 2>/dev/null
}

# has NAME WHERE: WHERE, a crate or a path, has something of that name. Of a name without a place, as `Inspect.antt`, nothing is asked.
has() {
  case $2 in
    crates/*.*) declares "$1" "$2" ;;
    crates/*) [ -e "$2/$1" ] || declares "$1" "$2" || [ -n "$(find "$2" -name out -prune -o -name "$1.antt" -print)" ] ;;
    host/* | tests/* | bench/* | packaging/*) grep -rqwF -e "$1" "$2" ;;
    *) [ ! -d "crates/$2" ] || has "$1" "crates/$2" ;;
  esac
}

# on_one_line PAGE: its words, so that a name and its place are found together where a line ends between them
on_one_line() { tr '\n' ' ' <"$1" | tr -s ' '; }

# A page of ten names that are not there: each must be told.
if [ -z "${PAGES:-}" ]; then
  wrong=$(mktemp)
  cat >"$wrong" <<'END'
`crates/spec_nothing`, [words](nothing.md), [words](../crates/spec_file/specs/Calls.antt#nothing)
`crates/call_lookup/must-fail/count_made_up.edit`: `count` returns-9
`journal_recover::update`, `nothing` of `call_walk`, `stopSlot` and `nothingThere` of
`crates/call_walk/specs/Stops.antt`, `nothing_there` in `host/command/main.c`, `law_nothing`, `NothingHolds`
END
  told=$(PAGES=$wrong bash tests/promises.sh | grep -oE 'crates/spec_nothing|nothing\.md|nothing in|returns-9|::update|nothing of|nothingThere|nothing_there|law_nothing|NothingHolds' | sort -u)
  rm -f "$wrong"
  [ "$(wc -l <<<"$told")" -eq 10 ] || { echo "of ten wrong names these are told:" $told; exit 1; }
fi

words=$(mktemp)
trap 'rm -f "$words"' EXIT
{
  ls crates
  find crates -name out -prune -o -name '*.antt' -print | sed 's|.*/||; s|\.antt$||'
  grep -rhoE '^ *((unfoldable|abbrev|pub|extern "C"|record|data|struct|enum|const) )*(fn )?[A-Za-z][A-Za-z0-9_]*' crates/*/src crates/*/specs crates/*/proofs |
    sed 's/.* //'
  git ls-files -z host tests bench packaging | grep -zvE '\.(bhtf|svg|png)$|^tests/promises\.sh$' | xargs -0 grep -ohIE '\b[A-Za-z][A-Za-z0-9_]*\b'
} | sort -u >"$words"

for doc in ${PAGES:-README.md docs/*.md}; do
  [ "$doc" != docs/LANDINGS.md ] || continue
  while read -r path; do
    checked=$((checked + 1))
    [ -e "$path" ] || gone "names $path, which is not there"
  done < <(
    grep -oE '`(crates|docs|host|tests|bench|\.ci)/[^` ]+[` ]' "$doc" | tr -d '` ' | sort -u
    grep -oE '\]\([^)#:]+' "$doc" | sed "s|^](|$(dirname "$doc")/|" | sort -u
  )
  while IFS='#' read -r path name; do
    checked=$((checked + 1))
    declares "$name" "$path" || gone "names $name in $path, which does not declare it"
  done < <(grep -oE '\((\.\./)?crates/[^ )]+#[^ )]+\)' "$doc" | sed 's/^(\(\.\.\/\)\?//; s/)$//' | sort -u)
  while IFS='`' read -r _ edit _ name fact; do
    checked=$((checked + 1))
    fact=${fact# }
    grep -qE "^# falls at: proofs/(.*/)?($name/(Proof|Answers|Invariants)\.antt $fact|Cases[A-Za-z]*\.antt $name)$" "$edit" 2>/dev/null ||
      gone "says that $edit falls at $name $fact, and the edit does not"
  done < <(grep -oE '`crates/[^`]+\.edit`: (the case )?`[A-Za-z0-9_-]+`( [a-z0-9_-]+)?' "$doc")
  while IFS=' ' read -r crate name; do
    checked=$((checked + 1))
    case $crate in libc | os) continue ;; esac
    grep -qE "\bfn $name\b" crates/"$crate"/src/*.rt 2>/dev/null || gone "names $crate::$name, which is not there"
  done < <(grep -v '`old: ' "$doc" | grep -oE '\b[a-z_0-9]+(::[A-Za-z_0-9]+)+' | sed -E 's/::(.*::)?/ /' | sort -u)
  while read -r names; do
    place=${names##* }
    for name in ${names% *}; do
      checked=$((checked + 1))
      has "$name" "$place" || gone "names $name of $place, which does not have it"
    done
  done < <(on_one_line "$doc" | grep -oE '(`[A-Za-z0-9_-]+`(, | and ))*`[A-Za-z0-9_-]+` (of|in) (the )?`[^` ]+`' | grep -oE '`[^`]+`( (of|in) )?' | awk '
    { gsub(/`/, ""); if (place) { print line, $1; line = ""; place = 0; next } line = line (line ? " " : "") $1; place = NF == 2 }' | sort -u)
  while read -r name; do
    checked=$((checked + 1))
    grep -qxF -- "$name" "$words" || gone "names $name, which nothing is called"
  done < <(grep -oE '`([a-z]+(_[a-z0-9]+)+|[a-z]+[A-Z][a-z][A-Za-z]*|[A-Z][a-z]+[A-Za-z]*)`' "$doc" | tr -d '`' | sort -u)
done
[ "$checked" -gt 0 ] || { echo "nothing is named"; exit 1; }
[ "$bad" -eq 0 ] && echo "$checked names are there"
exit $bad
