# Where each function stands, as a page, from crates.txt and the sources:
#     LC_ALL=C awk -f docs/functions.awk crates.txt crates/*/src/*.rt host/file/*.c host/command/*.c > docs/FUNCTIONS.md
# Of a crate the page has its words in crates.txt and all its functions; of a file of C its first sentence and the functions that others call.

# add PATH NAME: a link to a function
function add(path, name) {
  found[path] = found[path] (found[path] == "" ? "" : ", ") "[" name "](../" path ")"
}

# The first sentence of a comment at the beginning of a file.
function sentence(words) {
  sub(/^\/\* */, "", words)
  sub(/ *\*\/.*/, "", words)
  match(words " ", /[.] /)
  return RSTART > 0 ? substr(words, 1, RSTART - 1) : words
}

FILENAME == "crates.txt" && /^# ---- / { words = ""; next }
FILENAME == "crates.txt" && /^# / { words = substr($0, 3); next }
FILENAME == "crates.txt" && /^[a-z0-9_]+( staticlib)?:/ { name = $0; sub(/[ :].*/, "", name); crate[++crates] = name; holds[name] = words; next }
FILENAME == "crates.txt" { next }

FILENAME ~ /\.rt$/ && !/^ *\/\// && match($0, /(^| )fn [a-z0-9_]+/) {
  name = substr($0, RSTART, RLENGTH)
  sub(/^ ?fn /, "", name)
  split(FILENAME, part, "/")
  add(FILENAME, name)
  if (!(FILENAME in listed)) { listed[FILENAME]; of[part[2]] = of[part[2]] " " FILENAME }
}

FILENAME ~ /\.c$/ && FNR == 1 { file[++files] = FILENAME; begins = $0; saying = $0 !~ /\*\//; says[FILENAME] = sentence($0) }
FILENAME ~ /\.c$/ && FNR > 1 && saying {
  line = $0
  sub(/^ \* ?/, " ", line)
  begins = begins line
  says[FILENAME] = sentence(begins)
  if (/\*\//) saying = 0
}
# A definition begins at the margin, may go on over lines, and has its brace on a line of its own.
FILENAME ~ /\.c$/ && /^[a-z][A-Za-z0-9_ *]*[ *][a-z0-9_]+\(/ && !/^static/ {
  name = $0
  sub(/\(.*/, "", name)
  sub(/.*[ *]/, "", name)
  maybe = name
}
FILENAME ~ /\.c$/ && /;$/ { maybe = "" }
FILENAME ~ /\.c$/ && /^\{/ && maybe != "" { add(FILENAME, maybe); maybe = "" }

END {
  print "# Functions\n"
  print "This page says where each function stands. [functions.awk](functions.awk) makes it from [crates.txt](../crates.txt) and the sources, and"
  print "`tests/readme.sh` fails if it is older than these. [ARCHITECTURE](ARCHITECTURE.md) says how the parts belong together, and"
  print "[PROMISES](PROMISES.md) which definition a call meets.\n"
  print "## The proved library\n"
  print "Each function stands with its contract; its proof is in the folder `proofs/FUNCTION` of the same crate, and where there is none the prover"
  print "finds it. Crates of definitions and laws have no functions, and are in"
  print "[a table of ARCHITECTURE](ARCHITECTURE.md#which-specification-file-is-which-crates).\n"
  print "| Crate | What it holds | Functions |\n|---|---|---|"
  for (i = 1; i <= crates; i++) {
    name = crate[i]
    if (!(name in of)) continue
    n = split(of[name], part, " ")
    line = ""
    for (j = 1; j <= n; j++) line = line (line == "" ? "" : ", ") found[part[j]]
    print "| [" name "](../crates/" name ") | " holds[name] " | " line " |"
  }
  print "\n## The file layer and the command, in C\n"
  print "The functions that only their own file calls are left out.\n"
  print "| File | What it is | Functions |\n|---|---|---|"
  for (i = 1; i <= files; i++) {
    name = file[i]
    sub(/^host\//, "", name)
    print "| [" name "](../" file[i] ") | " says[file[i]] " | " found[file[i]] " |"
  }
}
