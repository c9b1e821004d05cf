"""The pages of the calls against the headers: pages.py INCLUDE MAN3. Each call that a header declares has a page with its declaration, and
with every word of the comment that goes for it. Ends with 1 and a word where one has not."""
import os, re, sys

include, pages = sys.argv[1:]
calls = 0


def squeeze(words):
    return re.sub(r"\s+", " ", words).strip()


def plain(page):
    """A page without its macros."""
    lines = []
    for line in page.splitlines():
        macro = re.match(r"\.(B|BR|I) (.*)", line)
        if macro:
            lines.append(macro[2].strip('"'))
        elif not line.startswith("."):
            lines.append(line)
    return squeeze(" ".join(lines).replace("\\-", "-").replace("\\e", "\\").replace("\\&", ""))


headers = ("bhtf.h", "bhtf_file.h", "bhtf_delta.h")
for header in headers:
    words = ""
    for piece in re.finditer(r"/\*(.*?)\*/|([^;/]*\bbhtf_\w+\([^;]*\);)", open(os.path.join(include, header)).read().split("#define", 1)[1], re.S):
        if piece[1] is not None:
            line_start = piece.string.rfind("\n", 0, piece.start()) + 1 == piece.start()
            if line_start:
                words = squeeze(re.sub(r"\n \*", "\n", piece[1]))
            continue
        declared = re.search(r"^[a-z][^#{}]*\Z", piece[2], re.M)
        if declared is None or "(*" in piece[2]:
            continue
        declared = squeeze(declared[0])
        name = re.search(r"(bhtf_\w+)\(", declared)[1]
        page = plain(open(os.path.join(pages, name + ".3")).read())
        body = re.sub(r"^---- .*? ----", "", words).strip()
        if declared not in page or not body or body not in page or name + " - " not in page:
            print(" ", name, "lacks words:", declared, "|", body[:200])
            sys.exit(1)
        calls += 1

declared = sum(len(re.findall(r"^[a-z].*\bbhtf_\w+\(", open(os.path.join(include, h)).read(), re.M)) for h in headers)
made = len([p for p in os.listdir(pages) if p not in ("bhtf.3", "bhtf_file.3", "bhtf_delta.3")])
if calls != declared or made != declared or calls < 40:
    print("  %d calls are declared, %d were looked for, %d pages are there" % (declared, calls, made))
    sys.exit(1)
