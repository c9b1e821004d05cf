# The layers as a picture, from crates.txt:  awk -f docs/layers.awk crates.txt > docs/layers.svg
# A rule '# ---- PREFIX: words' begins a group, which gets a card: its words, its crates without the prefix, and the groups of code that
# they rest on. Definitions and laws stand side by side, the groups of code below them five in a row, then the calls, what the exports do
# beside them, and what is linked.

function text(x, y, size, style, words) {
  gsub(/&/, "\\&amp;", words)
  gsub(/</, "\\&lt;", words)
  printf "<text x=\"%d\" y=\"%d\" font-size=\"%s\"%s>%s</text>\n", x, y, size, style, words
}

# wrapped WORDS: lines of at most `wide` pixels from (x, y) on, at 6 a letter; the y below the last
function wrapped(x, y, wide, style, words,   part, n, i, line) {
  n = split(words, part, " ")
  for (i = 1; i <= n; i++) {
    if (line != "" && (length(line) + 1 + length(part[i])) * 6 > wide) {
      text(x, y, 11, style, line)
      y += 14
      line = part[i]
    } else {
      line = line == "" ? part[i] : line " " part[i]
    }
  }
  if (line != "") {
    text(x, y, 11, style, line)
    y += 14
  }
  return y
}

function box(x, y, wide, high, fill, edge) {
  printf "<rect x=\"%d\" y=\"%d\" width=\"%d\" height=\"%d\" rx=\"5\" fill=\"%s\" stroke=\"%s\"/>\n", x, y, wide, high, fill, edge
}

function card(g, x, y, wide, high, fill, edge) {
  box(x, y, wide, high, fill, edge)
  text(x + 8, y + 18, 13, " font-weight=\"bold\"", g)
  y = wrapped(x + 8, y + 34, wide - 16, " fill=\"#555\"", words[g])
  y = wrapped(x + 8, y + 2, wide - 16, "", names[g])
  if (rests[g] != "") wrapped(x + 8, y + 2, wide - 16, " fill=\"#35637c\"", "on " rests[g])
}

function down(x, from, to, words) {
  printf "<path d=\"M%d,%d V%d\" stroke=\"#35637c\" stroke-width=\"1.6\" marker-end=\"url(#tip)\"/>\n", x, from, to - 1
  if (words != "") text(x + 8, int((from + to) / 2) + 4, 11, " fill=\"#35637c\"", words)
}

function right(from, to, y) {
  printf "<path d=\"M%d,%d H%d\" stroke=\"#35637c\" stroke-width=\"1.6\" marker-end=\"url(#tip)\"/>\n", from, y, to
}

function host(what, says, x) {
  box(x, last, 340, 58, "#f3eef6", "#6b4c85")
  text(x + 8, last + 18, 13, " font-weight=\"bold\"", what)
  text(x + 8, last + 34, 11, " fill=\"#555\"", says)
}

/^# ---- / {
  sub(/^# ---- /, "")
  group = $0
  sub(/:.*/, "", group)
  says = $0
  sub(/^[^:]*: */, "", says)
  words[group] = says
  order[++groups] = group
  next
}

/^[a-z_]+( staticlib)?:/ {
  name = $1
  sub(/[ :].*/, "", name)
  of[name] = group
  crates++
  short = name
  if (index(name, group) == 1) short = substr(name, length(group) + 1)
  names[group] = names[group] (names[group] == "" ? "" : ", ") short
  for (i = $1 ~ /:/ ? 2 : 3; i <= NF; i++) needs[name] = needs[name] " " $i
}

END {
  for (name in needs) {
    n = split(needs[name], part, " ")
    for (i = 1; i <= n; i++) above[of[name], of[part[i]]] = 1
  }
  for (i = 1; i <= groups; i++)
    for (j = 1; j <= groups; j++)
      if (i != j && order[i] ~ /_$/ && order[j] !~ /^(spec_|law_)$/ && ((order[i], order[j]) in above) && order[i] !~ /^(spec_|law_|call_|export_)$/)
        rests[order[i]] = rests[order[i]] (rests[order[i]] == "" ? "" : " ") order[j]
  for (i = 1; i <= groups; i++) if (order[i] ~ /_$/ && order[i] !~ /^(spec_|law_|call_|export_)$/) code[++parts] = order[i]

  rows = int((parts + 4) / 5)
  high = 102
  y0 = 176
  calls = y0 + rows * (high + 8) + 20
  exports = calls + 60 + 28
  last = exports + 58 + 28
  total = last + 66
  printf "<?xml version=\"1.0\" encoding=\"UTF-8\"?>\n"
  printf "<svg xmlns=\"http://www.w3.org/2000/svg\" width=\"1100\" height=\"%d\" viewBox=\"0 0 1100 %d\" font-family=\"sans-serif\" fill=\"#222\">\n", total, total
  printf "<title>The layers: documents, definitions, laws, code, calls, exports, file layer, command</title>\n"
  printf "<defs><marker id=\"tip\" viewBox=\"0 0 10 10\" refX=\"9\" refY=\"5\" markerWidth=\"7\" markerHeight=\"7\" orient=\"auto\"><path d=\"M0,0 L10,5 L0,10 z\" fill=\"#35637c\"/></marker></defs>\n"
  printf "<rect width=\"1100\" height=\"%d\" fill=\"#fff\"/>\n", total

  box(10, 8, 535, 28, "#fff", "#888")
  text(18, 27, 13, " font-weight=\"bold\"", "Documents 01 and 02")
  text(595, 18, 11, " fill=\"#555\"", crates " crates. Sand: stated and proved, no code. Blue: proved code. Violet: C, tested.")
  text(595, 33, 11, " fill=\"#555\"", "A card names its crates without their prefix; \"on\": the groups of code that they rest on.")
  down(270, 36, 62, "sentence by sentence")
  card("spec_", 10, 62, 535, 82, "#f6f1e7", "#8a6d3b")
  card("law_", 595, 62, 495, 82, "#f6f1e7", "#8a6d3b")
  right(545, 594, 103)
  down(270, 144, y0, "contracts cite definitions")
  down(835, 144, y0, "proofs use laws")
  for (i = 1; i <= parts; i++) {
    x = 10 + ((i - 1) % 5) * 218
    card(code[i], x, y0 + int((i - 1) / 5) * (high + 8), 208, high, "#eef3f6", "#35637c")
  }
  down(550, calls - 28, calls, "called by")
  card("call_", 10, calls, 1080, 60, "#eef3f6", "#35637c")
  down(180, calls + 60, exports, "told by")
  card("export_", 10, exports, 1080, 58, "#eef3f6", "#35637c")
  down(180, exports + 58, last, "exported by")
  card("station, lister", 10, last, 340, 58, "#eef3f6", "#35637c")
  right(350, 379, last + 29)
  host("host/file", "files, in C: locks, journal, recovery", 380)
  right(720, 749, last + 29)
  host("host/command, host/python", "the command bhtf, and a module for Python", 750)
  print "</svg>"
}
