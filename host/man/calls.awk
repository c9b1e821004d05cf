# A page of section 3 for each call that a header declares, made of the words that stand above it there.
#   awk -v header=NAME -v version=V -v date=D -v to=DIRECTORY -f calls.awk HEADER
# A comment goes for the calls after it, up to the next one; that of a part of the header ("---- title ----") for those of its calls that
# have none of their own.

# Of a line of a comment what stands after the asterisk.
function inside(line) {
  sub(/^\/\* ?/, "", line)
  sub(/^ \* ?/, "", line)
  sub(/ *\*\/$/, "", line)
  return line
}

function escaped(line) {
  gsub(/\\/, "\\e", line)
  gsub(/-/, "\\-", line)
  if (line ~ /^[.']/) line = "\\&" line
  return line
}

# Words in lines of at most 78 columns.
function print_words(page, words,   all, count, i, line) {
  count = split(words, all, " ")
  for (i = 1; i <= count; i++) {
    if (line != "" && length(line) + length(all[i]) > 77) { print line >page; line = "" }
    line = line (line == "" ? "" : " ") all[i]
  }
  print line >page
}

# What stands before the first of these signs that a blank or the end follows.
function up_to(words, signs) {
  match(words " ", signs " ")
  return RSTART > 0 ? substr(words, 1, RSTART - 1) : words
}

# The first sentence, or a part of it that is long enough to say something.
function summary(words,   part) {
  part = up_to(words, "[.:;]")
  return length(part) < 16 ? up_to(words, "[.;]") : part
}

function end_comment(   i, words) {
  in_comment = 0
  of_part = comment[1] ~ /^---- /
  for (i = 1; i <= lines; i++) {
    text[i] = comment[i]
    words = words (i > 1 ? " " : "") comment[i]
  }
  texts = lines
  about = summary(words)
  if (!of_part) return
  about = comment[1]
  gsub(/^---- | ----$/, "", about)
  text[1] = ""
  if (texts == 1) texts = 0
}

# Lines that are set in are kept as they are.
function print_text(page,   i, list, empty, any) {
  for (i = 1; i <= texts; i++) {
    if (text[i] == "") {
      empty = any
      continue
    }
    any = 1
    if (list && text[i] !~ /^  /) { print ".fi" >page; list = 0; print ".PP" >page; empty = 0 }
    if (empty) { print ".PP" >page; empty = 0 }
    if (!list && text[i] ~ /^  /) { print ".PP" >page; print ".nf" >page; list = 1 }
    print escaped(text[i]) >page
  }
  if (list) print ".fi" >page
}

# The page of a header.
function page_of(name) {
  sub(/\.h$/, "", name)
  return name
}

# The call without its last word: what a call of a part, without words of its own, does besides.
function plain(name) {
  sub(/_[a-z]*$/, "", name)
  return name
}

function print_page(name, declared,   page, lines_of, i, count) {
  page = to "/" name ".3"
  if (texts == 0) {
    print header ": nothing is said of " name >"/dev/stderr"
    failed = 1
    exit 1
  }
  print ".TH " toupper(name) " 3 \"" date "\" \"bhtf " version "\" \"Control point files\"" >page
  print ".SH NAME" >page
  print_words(page, name " \\- " escaped(of_part ? "as " plain(name) ": " about : about))
  print ".SH SYNOPSIS\n.nf\n.B #include <" header ">\n.PP" >page
  count = split(declared, lines_of, "\n")
  for (i = 1; i <= count; i++) print ".B \"" lines_of[i] "\"" >page
  print ".fi\n.SH DESCRIPTION" >page
  print_text(page)
  if (declared ~ /^uint32_t /) {
    print ".SH RETURN VALUE" >page
    print "0, BHTF_ACCEPTED, or the number by which it was refused, which" >page
    print ".BR " page_of(header) " (3)\nand" >page
    print ".I " header "\nsay in words." >page
  }
  print ".SH SEE ALSO" >page
  if (of_part) print ".BR " plain(name) " (3)," >page
  print ".BR bhtf (3),\n.BR bhtf_file (3)" (header == "bhtf_delta.h" ? ",\n.BR bhtf_delta (3)" : "") >page
  close(page)
}

in_comment {
  comment[++lines] = inside($0)
  if (/\*\/$/) end_comment()
  next
}
/^\/\*/ {
  lines = 1
  comment[1] = inside($0)
  in_comment = 1
  if (/\*\/$/) end_comment()
  next
}
/^struct .*\{$/ { in_struct = 1 }
in_struct { if (/^\};/) in_struct = 0; next }
declared == "" && !/^[a-z].*bhtf_[a-z0-9_]*\(/ { next }
/^typedef/ { next }
{
  declared = declared (declared == "" ? "" : "\n") $0
  if (!/;$/) next
  name = declared
  sub(/\(.*/, "", name)
  sub(/.*[ *]/, "", name)
  print_page(name, declared)
  declared = ""
}
