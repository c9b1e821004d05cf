#!/usr/bin/env bash
# Contracts that are assumed, not proved: only the lister may rest on any, and docs/PROMISES.md names each as trusted.
# What is linked or run is checked once more, over the libraries that `rt ci` left, with a list of those contracts in its whole graph; so is
# each crate that is not below the exports, for what it declares itself. Such contracts are std's, beyond std::num, which has none: of it no
# source but the lister's may name more.
set -u
cd "$(dirname "$0")/.." || exit 2
said=$(mktemp) || exit 2
trap 'rm -f "$said"' EXIT
bad=0

# assumed CRATE: what the check of a static library or a program rests on, a name a line
assumed() {
  if ! .ci/rattle check "$1" "crates/$1" --list-axioms >"$said" 2>&1 || ! grep -q '^logic=proved ' "$said"; then
    echo "$1 was not proved: $(tail -n 1 "$said")" >&2
    return 1
  fi
  grep -q '^axioms ' "$said" || { echo "the check of $1 has no list of what it assumes" >&2; return 1; }
  sed -nE 's/^ +([^ ]+) +reached$/\1/p' "$said" | sort
  # the last line counts them, where there are any
  [ "$(grep -c ' reached$' "$said")" -eq "$(tail -n 1 "$said" | grep -oE ' axioms=[0-9]+' | grep -oE '[0-9]+' || echo 0)" ] ||
    { echo "the list of $1 is not what its last line counts" >&2; return 1; }
}

exports=$(assumed station) || bad=1
if [ -n "$exports" ]; then
  echo "the exports rest on assumed contracts:" $exports
  bad=1
fi
lister=$(assumed lister) || bad=1
named=$(grep -oE '`(libc|io|os|std)(::[A-Za-z0-9_]+)+`' docs/PROMISES.md | tr -d '`' | sort -u)
if [ -z "$lister" ] || [ "$lister" != "$named" ]; then
  echo "what the lister's check assumes (<) is not what docs/PROMISES.md names (>):"
  diff <(echo "$lister") <(echo "$named") | grep '^[<>]'
  bad=1
fi
# those of crates.txt that the exports do not rest on, but for the lister
apart() {
  awk -F: '
    function walk(name, of, n, i) {
      if (name in seen) return
      seen[name]
      n = split(uses[name], of, " ")
      for (i = 1; i <= n; i++) if (of[i] in uses) walk(of[i])
    }
    { sub(/#.*/, "") }
    NF { split($1, head, " "); uses[head[1]] = $2; names[++count] = head[1] }
    END {
      walk("station")
      seen["lister"]
      for (i = 1; i <= count; i++) if (!(names[i] in seen)) print names[i]
    }' crates.txt
}
apart=$(apart)
for crate in $apart; do
  if ! .ci/rattle check "$crate" "crates/$crate" --list-axioms >"$said" 2>&1 || ! grep -q '^logic=proved ' "$said"; then
    echo "$crate was not proved: $(tail -n 1 "$said")"
    bad=1
  elif grep -E '(^| )(axioms|foreign)[ =]' "$said"; then
    echo "$crate rests on assumed contracts"
    bad=1
  fi
done
of_std='(^|[^A-Za-z0-9_])(std|alloc|core|libc|os)::|HostRuntime'
if grep -rnE "$of_std" crates/*/src | grep -v '^crates/lister/' | sed 's/std::num:://g' | grep -E "$of_std"; then
  echo "no source but the lister's may name that of std"
  bad=1
fi
[ -n "$apart" ] || { echo "crates.txt has no crate beside what is linked or run"; bad=1; }
[ "$bad" -eq 0 ] && echo "assumed by the lister alone:" $lister
exit "$bad"
