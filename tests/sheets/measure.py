"""What a reader can take a plan's names for, by measure.

measure.py PAGE [SPOIL]   of a page that `bhtf plot --html` made, in each plan and detail of each sheet:
  - a name without a line is nearer to its own point than to any other
  - a line leads from its point to its name, and crosses no other line, no other name and no other point
  - no name covers another, a point or the edge, nor stands under a detail
  - each point has its name somewhere, or the sheet says so and the list has a star
It says what is wrong; the status is 0 if nothing is. The last line has how many names there are, how many of them at lines, and how many
have no place. SPOIL makes one thing wrong first: swap, cross, cover or lose. A measure that does not find that is worth nothing.
"""
import html
import json
import math
import re
import sys

text = open(sys.argv[1], encoding='utf-8').read()
spoil = sys.argv[2] if len(sys.argv) > 2 else ''
data = json.loads(re.search(r'<script type="application/json" id="ui-data">(.*?)</script>', text, re.S).group(1))
sheets = re.findall(r'<div class="sheet">(<svg.*?</svg>)', text, re.S)
SAME = 0.1  # points nearer than this stand on one place
MARK = 1.3  # a mark to each side, with large names


def group(sheet, name):
    found = re.search(r'<g id="%s"([^>]*)>\n(.*?)^</g>' % name, sheet, re.S | re.M)
    return (found.group(1), found.group(2)) if found else ('', '')


class View:
    """A plan or a detail."""

    def __init__(self, sheet, suffix, frame):
        self.frame, self.suffix = frame, suffix
        head, names = group(sheet, 'names' + suffix)
        size = float(re.search(r'font-size="([0-9.]+)"', head).group(1))
        self.mark = MARK * (1 if size > 3 else 0.75)
        self.marks = {int(p): (float(x), float(y)) for p, x, y in
                      re.findall(r'<g data-p="(\d+)" transform="translate\(([-0-9.]+) ([-0-9.]+)\)', group(sheet, 'points' + suffix)[1])}
        self.names = {}
        for x, y, wide, p, words in re.findall(
                r'<text x="([-0-9.]+)" y="([-0-9.]+)" textLength="([0-9.]+)"[^>]*data-p="(\d+)"[^>]*>([^<]*)</text>', names):
            top = float(y) - size * 0.8
            self.names[int(p)] = (float(x), top, float(x) + float(wide), top + size)
            shown = data[int(p)]['name']
            if not html.unescape(words).startswith(shown):
                fault('%s is called %s' % (shown, words))
        self.leads = [tuple(map(float, line)) for line in re.findall(
            r'x1="([-0-9.]+)" y1="([-0-9.]+)" x2="([-0-9.]+)" y2="([-0-9.]+)"', group(sheet, 'leads' + suffix)[1])]


faults = []


def fault(words):
    faults.append(words)


def away(box, at):
    return math.hypot(max(box[0] - at[0], at[0] - box[2], 0), max(box[1] - at[1], at[1] - box[3], 0))


def overlap(a, b):
    return a[0] < b[2] and b[0] < a[2] and a[1] < b[3] and b[1] < a[3]


def side(a, b, c):
    return (b[0] - a[0]) * (c[1] - a[1]) - (b[1] - a[1]) * (c[0] - a[0])


def cross(a, b):
    p, q, r, s = a[:2], a[2:], b[:2], b[2:]
    return side(p, q, r) * side(p, q, s) < 0 and side(r, s, p) * side(r, s, q) < 0


def off_line(line, at):
    x, y = line[2] - line[0], line[3] - line[1]
    long = x * x + y * y
    t = 0 if long == 0 else max(0, min(1, ((at[0] - line[0]) * x + (at[1] - line[1]) * y) / long))
    return math.hypot(line[0] + t * x - at[0], line[1] + t * y - at[1])


def enters(line, box):
    """Does the line go through the box? Its middle part at steps of a fifth of a millimetre."""
    steps = 1 + int(math.hypot(line[2] - line[0], line[3] - line[1]) * 5)
    return any(box[0] < line[0] + (line[2] - line[0]) * i / steps < box[2] and
               box[1] < line[1] + (line[3] - line[1]) * i / steps < box[3] for i in range(1, steps))


def near(a, b):
    return math.hypot(a[0] - b[0], a[1] - b[1])


def owner(view, lead):
    """The point whose line it is."""
    own = [p for p, at in view.marks.items() if near(at, lead[:2]) < 0.02 and p in view.names and away(view.names[p], lead[2:]) < 0.02]
    return own[0] if own else None


def look(view):
    inner = view.frame
    led = {}
    for lead in view.leads:
        p = owner(view, lead)
        if p is None:
            fault('a line leads from no point to its name')
        else:
            led[p] = lead
    where = 'detail %s: ' % view.suffix[1:] if view.suffix else ''
    call = lambda p: where + data[p]['name']
    cells = {}
    for p, at in view.marks.items():
        cells.setdefault((int(at[0] // 30), int(at[1] // 30)), []).append(p)

    def about(box, more=30):
        for column in range(int((box[0] - more) // 30), int((box[2] + more) // 30) + 1):
            for row in range(int((box[1] - more) // 30), int((box[3] + more) // 30) + 1):
                yield from cells.get((column, row), [])

    boxes = {}
    for p, box in view.names.items():
        boxes.setdefault((int(box[0] // 60), int(box[1] // 60)), []).append(p)
        if box[0] < inner[0] or box[1] < inner[1] or box[2] > inner[2] or box[3] > inner[3]:
            fault('%s is not within its frame' % call(p))
        if p not in view.marks:
            fault('%s has a name and no mark' % call(p))
            continue
        own = view.marks[p]
        for q in about(box):
            at = view.marks[q]
            if q != p and away(box, at) < view.mark * 0.8:
                fault('%s covers the mark of %s' % (call(p), call(q)))
            if q == p or p in led or near(own, at) <= SAME:
                continue
            if away(box, at) <= away(box, own):
                fault('%s stands nearer to %s' % (call(p), call(q)))
    for (column, row), some in boxes.items():
        others = [q for x in (-1, 0, 1) for y in (-1, 0, 1) for q in boxes.get((column + x, row + y), [])]
        for p in some:
            for q in others:
                if p < q and overlap(view.names[p], view.names[q]):
                    fault('%s and %s cover each other' % (call(p), call(q)))
    lines = sorted(led.items())
    for i, (p, line) in enumerate(lines):
        box = (min(line[0], line[2]), min(line[1], line[3]), max(line[0], line[2]), max(line[1], line[3]))
        for q, other in lines[:i]:
            if near(line[:2], other[:2]) > 0.02 and cross(line, other):  # else they begin on one place, to the digits drawn
                fault('the lines of %s and %s cross' % (call(p), call(q)))
        for q, name in view.names.items():
            if q != p and overlap(box, name) and enters(line, name):
                fault('the line of %s runs through %s' % (call(p), call(q)))
        for q in about(box, 3):
            if q != p and near(view.marks[q], view.marks[p]) > 2 * view.mark and off_line(line, view.marks[q]) < view.mark * 0.6:
                fault('the line of %s runs over the mark of %s' % (call(p), call(q)))
    return len(view.names), len(led)


def rectangles(sheet):
    """Frames of the details on a sheet, by their letters."""
    return {letter: (float(x), float(y), float(x) + float(w), float(y) + float(h)) for letter, x, y, w, h in re.findall(
        r'<g id="detail-([A-Z]+)">\n<rect x="([-0-9.]+)" y="([-0-9.]+)" width="([-0-9.]+)" height="([-0-9.]+)"', sheet)}


def spoiled(view):
    names = sorted(view.names)
    if spoil == 'swap':  # two neighbours' names
        p = names[0]
        q = min((q for q in names if q != p), key=lambda q: near(view.marks[p], view.marks[q]))
        view.names[p], view.names[q] = view.names[q], view.names[p]
    elif spoil == 'cover':
        view.names[names[0]] = view.names[names[1]]
    elif spoil == 'lose':
        del view.names[names[0]]
    elif spoil == 'cross':  # a line from the first to where it crosses the second's
        a, b = view.leads[0], view.leads[1]
        box = view.names[owner(view, a)]
        wide, high = box[2] - box[0], box[3] - box[1]
        middle = ((b[0] + b[2]) / 2, (b[1] + b[3]) / 2)
        end = (2 * middle[0] - a[0], 2 * middle[1] - a[1])
        view.names[owner(view, a)] = (end[0], end[1], end[0] + wide, end[1] + high)
        view.leads[0] = (a[0], a[1], end[0], end[1])


named, lines, first = set(), 0, True
for number, sheet in enumerate(sheets):
    frames = rectangles(sheet)
    views = []
    if number == 0:
        grid = re.search(r'</g>\n<rect x="([-0-9.]+)" y="([-0-9.]+)" width="([-0-9.]+)" height="([-0-9.]+)" fill="none"', sheet)
        x, y, w, h = map(float, grid.groups())
        views.append(View(sheet, '', (x, y, x + w, y + h)))
    views += [View(sheet, '-' + letter, frame) for letter, frame in sorted(frames.items())]
    for view in views:
        if spoil and first and len(view.names) > 1 and (spoil != 'cross' or len(view.leads) > 1):
            first = False
            spoiled(view)
        count, led = look(view)
        named |= set(view.names)
        lines += led
        if view.suffix == '':
            for letter, frame in frames.items():
                for p, box in view.names.items():
                    if overlap(box, frame):
                        fault('%s stands under detail %s' % (data[p]['name'], letter))
                for p, at in view.marks.items():
                    if away(frame, at) < 1:
                        fault('%s is under detail %s' % (data[p]['name'], letter))
placed = set(View(sheets[0], '', (0, 0, 1e9, 1e9)).marks)
missing = placed - named
said = re.search(r'; (\d+) without room for the name', sheets[0])
if len(missing) != (int(said.group(1)) if said else 0):
    fault('%d names have no place, and the sheet says %s' % (len(missing), said and said.group(1)))
rows = [r for s in sheets for r in re.findall(r'<text x="[-0-9.]+" y="[-0-9.]+">([^<]*)</text>', s)]
starred = {html.unescape(r).split()[0] for r in rows if re.match(r'\S+ +\* ', r)}
if starred != {data[p]['name'] for p in missing}:
    fault('the stars of the list are not at the names without a place')
for words in faults[:10]:
    print('  ' + words)
print('%d named, %d at lines, %d without a place, %d sheets' % (len(named), lines, len(missing), len(sheets)))
sys.exit(len(faults) > 0)
