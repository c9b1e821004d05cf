"""What bhtf report, import and stat say of epochs, reckoned again from the lines that were imported: by decimal numbers, by integrals of
chi-square's density and by Python's own calendar. Ends with 1 and a word where they differ.

    reckon.py make SEED FILE     a table of prisms, epochs and coordinates
    reckon.py table FILE ..      holds the tables of bhtf report against it; the words behind are the file of epochs, and options
    reckon.py sheet SVG CSV      the sheet against the table, in millimetres of paper
    reckon.py same FILE ..       diff's and the plan's movements against the report's
    reckon.py dates              epochs of random dates and weeks
    reckon.py left FILE          stat's epochs left
"""
import csv, datetime, io, json, math, random, re, subprocess, sys
import xml.etree.ElementTree as tree
from decimal import Decimal


def fail(*words):
    print(" ", *words)
    sys.exit(1)


def bhtf(*words, status=(0, 1), text=None):
    done = subprocess.run(["bhtf", *words], capture_output=True, text=True, input=text)
    if done.returncode not in status:
        fail("bhtf", *words, "ended with", done.returncode, done.stderr[:200])
    return done


# ---- the lines ----

def make(seed, file):
    """Prisms that move, that settle, that have a height alone or none, and that are not there in each epoch."""
    random.seed(seed)
    with open(file, "w") as out:
        out.write("epoch;name;easting;northing;height\n")
        for i in range(20):
            east, north, height = 4482000 + 37 * i, 5351000 + random.randrange(300), 480 + i
            kind = i % 5
            for t in (40, 41, 43, 44, 45):
                if (i, t) in ((7, 45), (11, 40), (13, 40), (13, 45), (4, 43)):
                    continue
                step = [random.randrange(-40, 41) * random.choice((1, 1, 3)) for _ in range(3)]  # ten-thousandths
                fields = ["%.4f" % (Decimal(v) + Decimal(s) / 10000) for v, s in zip((east, north, height), step)]
                if kind == 3:
                    fields[0] = fields[1] = ""
                if kind == 2:
                    fields[2] = ""
                out.write("%d;P-%02d;%s\n" % (t, i, ";".join(fields)))


def read(file):
    """{name: {epoch: (easting, northing, height)}}, None for what is not given."""
    prisms = {}
    for line in csv.DictReader(open(file), delimiter=";"):
        place = tuple(Decimal(line[k]) if line[k] else None for k in ("easting", "northing", "height"))
        prisms.setdefault(line["name"], {})[int(line["epoch"])] = place
    return prisms


# ---- the test ----

def above(degrees, t):
    """The integral of chi-square's density from t on, by Simpson's rule; by u = sqrt(x), so that it has no pole at 0."""
    norm = 2 / (2 ** (degrees / 2) * math.gamma(degrees / 2))
    f = lambda u: norm * u ** (degrees - 1) * math.exp(-u * u / 2)
    a, n = math.sqrt(t), 4000
    b = a + 12
    h = (b - a) / n
    return h / 3 * sum(f(a + k * h) * (1 if k in (0, n) else 4 if k % 2 else 2) for k in range(n + 1))


def expected(prisms, a, b, tolerance, sigma, alpha):
    rows = {}
    for name, readings in prisms.items():
        if a not in readings or b not in readings:
            rows[name] = {"state": "missing"}
            continue
        d = [None if x is None or y is None else (y - x) * 1000 for x, y in zip(readings[a], readings[b])]
        known = [v for v in d if v is not None]
        length = math.sqrt(sum(v * v for v in known))
        t = sum(float(v) ** 2 / (2 * s * s) for v, s in zip(d, (sigma[0], sigma[0], sigma[1])) if v is not None)
        chance = above(len(known), t)
        rows[name] = {"state": "beyond" if length > tolerance else "within", "d": d, "length": length, "test": t,
                      "coordinates": len(known), "chance": chance, "significant": chance < alpha}
    return rows


def near(a, b, by):
    return abs(float(a) - float(b)) <= by


def compare(name, want, got):
    if want["state"] != got["state"]:
        fail(name, "is", got["state"], "and not", want["state"])
    if want["state"] == "missing":
        return
    for axis, v in zip(("dE", "dN", "dH"), want["d"]):
        if (v is None) != (got[axis] in ("", None)) or (v is not None and not near(v, got[axis], 0.0006)):
            fail(name, axis, got[axis], "and not", v)
    if not near(want["length"], got["length"], 0.0006) or not near(want["test"], got["test"], 0.0002 + want["test"] * 1e-6):
        fail(name, "length or test:", got, want)
    if int(got["coordinates"]) != want["coordinates"] or not near(want["chance"], got["chance"], 2e-6):
        fail(name, "chance", got["chance"], "and not", want["chance"])
    if got["significant"] != want["significant"]:
        fail(name, "significance", got["significant"], want["chance"])


def from_csv(words):
    rows = list(csv.DictReader(io.StringIO(words)))
    for r in rows:
        for axis in ("dE", "dN", "dH", "plan", "length"):
            r[axis] = r[axis + " mm"]
        r["test"], r["significant"] = r["T"], r["significant"] == "yes"
    return rows


def from_json(words):
    rows = json.loads(words)["prisms"]
    for r in rows:
        for key in ("dE", "dN", "dH"):
            r.setdefault(key, None)
    return rows


def from_text(words):
    """State, name and the length with its one decimal."""
    rows = []
    for line in words.splitlines():
        m = re.match(r"(beyond|within|missing) +(\S+)(?: +\S+ +\S+ +\S+ +(\S+) )?", line)
        if m:
            rows.append((m[1], m[2], m[3] if m[1] != "missing" else None))
    return rows


def order(rows):
    """Beyond, missing, within, and the longest first; of the same length by name."""
    rank = {"beyond": 0, "missing": 1, "within": 2}
    return [name for _, _, name in sorted((rank[r["state"]], -round(r.get("length", 0), 3), n) for n, r in rows.items())]


def table(lines, file):
    prisms = read(lines)
    tried = 0
    for a, b in ((40, 45), (41, 44), (40, 41)):
        for tolerance, sigma, alpha in ((3, (1, 1.5), 5), (10, (2.5, 2.5), 1), (0.5, (0.7, 4), 10)):
            want = expected(prisms, a, b, tolerance, sigma, alpha / 100)
            words = [file, "--from", str(a), "--to", str(b), "--tolerance", "%gmm" % tolerance, "--sigma", "%g,%gmm" % sigma,
                     "--alpha", "%g%%" % alpha]
            beyond = any(r["state"] == "beyond" for r in want.values())
            for form, take in (("--csv", from_csv), ("--json", from_json)):
                done = bhtf("report", *words, form)
                if done.returncode != beyond:
                    fail(words, "status", done.returncode)
                rows = take(done.stdout)
                if [r["name"] for r in rows] != order(want):
                    fail(words, form, "order", [r["name"] for r in rows], order(want))
                for r in rows:
                    compare(r["name"], want[r["name"]], r)
                    tried += 1
            rows = from_text(bhtf("report", *words).stdout)
            if [r[1] for r in rows] != order(want):
                fail(words, "order of the text")
            for state, name, length in rows:
                if state != want[name]["state"] or (length and not near(length, want[name]["length"], 0.051)):
                    fail(name, state, length, want[name])
                tried += 1
    if tried != 3 * 3 * 3 * len(prisms):
        fail("only", tried, "rows were compared")


# ---- one reckoning ----

def same(lines, tolerance):
    """The epochs 40 and 45 as two files, the report's movements against those of diff and of the plan."""
    prisms = read(lines)
    for t in (40, 45):
        bhtf("create", "at-%d" % t, "-k", "8", "-s", "100", status=(0,))
        points = "".join("%s,%s\n" % (n, ",".join("" if v is None else str(v) for v in r[t])) for n, r in prisms.items() if t in r)
        bhtf("import", "at-%d" % t, "-", "--columns", "PENZ", "--allow-near", "--allow-far", "-q", status=(0,), text=points)
    report = {r["name"]: r for r in from_csv(bhtf("report", "e", "--from", "40", "--to", "45", "--tolerance", tolerance, "--csv").stdout)}
    diff = list(csv.DictReader(io.StringIO(bhtf("diff", "at-40", "at-45", "--tolerance", tolerance, "--tsv").stdout), delimiter="\t"))
    moved = {r["name"]: r["mm"] for r in diff if r["change"] == "moved"}
    beyond = {n: r["length"] for n, r in report.items() if r["state"] == "beyond"}
    if moved != beyond or len(moved) < 3:
        fail("diff", moved, "report", beyond)
    plan = bhtf("plot", "at-45", "--against", "at-40", "--tolerance", tolerance).stdout
    said = re.search(r"(\d+) moved,", plan)
    if int(said[1]) != len(beyond):
        fail("the plan has", said[1], "moved")


# ---- the sheet ----

SVG = "{http://www.w3.org/2000/svg}"


def numbers(path):
    return [float(x) for x in re.findall(r"-?\d+\.?\d*", path)]


def sheet(svg, table_csv):
    root = tree.parse(svg).getroot()
    rows = from_csv(open(table_csv).read())
    words = " ".join(t.text or "" for t in root.iter(SVG + "text"))
    unit = float(re.search(r"1 mm of paper is (\S+) mm of movement", words)[1])
    group = {g.get("id"): g for g in root.iter(SVG + "g")}
    moved = [r for r in rows if r["dE"] and math.hypot(float(r["dE"]), float(r["dN"])) / unit >= 0.4]
    vectors = [numbers(p.get("d")) for p in group["vectors"].iter(SVG + "path")]
    if len(vectors) != len(moved):
        fail(len(vectors), "vectors of", len(moved))
    for r, v in zip(moved, vectors):
        if not (near((v[2] - v[0]) * unit, r["dE"], 0.02 * unit) and near((v[1] - v[3]) * unit, r["dN"], 0.02 * unit)):
            fail(r["name"], "is drawn as", v, "in units of", unit)
    bar = numbers(group["vector-bar"].find(SVG + "path").get("d"))
    said = [t.text for t in group["vector-bar"].iter(SVG + "text") if re.fullmatch(r"\S+ mm", t.text)]
    if not near(bar[2] * unit, said[0].split()[0], 0.01 * unit):
        fail("the bar has", bar[2], "and says", said, unit)
    most = float(re.search(r"bars to ±(\S+) mm", words)[1])
    bars = [b for b in root.iter(SVG + "rect") if b.get("class") == "height"]
    levelled = [r for r in rows if r["dH"]]
    if len(bars) != len(levelled):
        fail(len(bars), "bars of", len(levelled))
    for r, b in zip(levelled, bars):
        if not near(float(b.get("width")) / 17 * most, abs(float(r["dH"])), 0.01 * most):
            fail(r["name"], "has a bar of", b.get("width"))
    up = {round(float(b.get("x")), 3) for r, b in zip(levelled, bars) if float(r["dH"]) > 0}
    down = {round(float(b.get("x")) + float(b.get("width")), 2) for r, b in zip(levelled, bars) if float(r["dH"]) < 0}
    if len(up) != 1 or len(down) != 1 or not near(up.pop(), down.pop(), 0.02):
        fail("bars do not begin at one line: up", up, "down", down)
    tracks = [g for g in root.iter(SVG + "g") if g.get("class") == "track"]
    if len(tracks) != len(rows):
        fail(len(tracks), "lines of", len(rows), "prisms")
    prisms = read("lines.csv")
    epochs = sorted({t for r in prisms.values() for t in r})
    for r, g in zip(rows, tracks):
        ask_track(r["name"], prisms[r["name"]], epochs, g)


def ask_track(name, readings, epochs, g):
    """Each axis has its readings, a gap where an epoch is missing, and the movements from epoch 40, or the first, to the scale at its end."""
    zero = readings.get(40) or readings[min(readings)]
    most = float(g.findall(SVG + "text")[-1].text.lstrip("±"))
    rules = [l for l in g.iter(SVG + "line")]
    half = abs(float(rules[0].get("y1")) - float(rules[0].get("y2"))) / 2
    middle = float(rules[-1].get("y1"))
    for axis, path in enumerate(g.findall(SVG + "path")):
        drawn = re.findall(r"([ML])(\S+) (-?\d+\.\d+)", path.get("d"))
        wanted, pen = [], "M"
        for t in epochs:
            if t in readings and readings[t][axis] is not None and zero[axis] is not None:
                wanted.append((pen, float(readings[t][axis] - zero[axis]) * 1000))
                pen = "L"
            else:
                pen = "M"
        if [d[0] for d in drawn] != [w[0] for w in wanted]:
            fail(name, "axis", axis, "is drawn", drawn, "for", wanted)
        for d, w in zip(drawn, wanted):
            if not near((middle - float(d[2])) / half * most, w[1], 0.02 / half * most):
                fail(name, "axis", axis, "has", d, "for", w, "of", most)


# ---- dates ----

def dates():
    random.seed(14)
    bhtf("create", "dates", "-k", "12", "-s", "4000", status=(0,))
    zero, monday = datetime.date(1970, 1, 1), datetime.date(1970, 1, 5)
    for unit, name in (("day", "D"), ("week", "W")):
        want, lines = set(), ["name,date,height"]
        for i in range(300):
            day = datetime.date(1970 + random.randrange(230), random.randrange(1, 13), random.randrange(1, 29)) + datetime.timedelta(random.randrange(4))
            if day < monday:
                continue
            typed = day.isoformat()
            if i % 3 == 0:
                year, week, _ = day.isocalendar()
                typed, day = "%d-W%02d" % (year, week), datetime.date.fromisocalendar(year, week, 1)
            epoch = (day - zero).days if unit == "day" else (day - monday).days // 7
            if epoch not in want:
                want.add(epoch)
                lines.append("%s,%s,%d" % (name, typed, i))
        bhtf("import", "dates", "-", "--epoch-unit", unit, "--allow-far", "-q", status=(0,), text="\n".join(lines) + "\n")
        got = bhtf("epochs", "dates", name).stdout.split("\t")[2].split()
        if [int(x) for x in got] != sorted(want) or len(want) < 200:
            fail(unit, "epochs", len(got), "and not", len(want))


# ---- the room ----

def left(file):
    words = bhtf("stat", file).stdout
    lines = bhtf("epochs", file).stdout.splitlines()
    epochs = sorted(int(t) for line in lines for t in line.split("\t")[2].split())
    slots = int(re.search(r"in (\d+) slots", words)[1])
    free = int(re.search(r"used, (\d+) free", words)[1])
    used = int(re.search(r"data: \d+ bytes, (\d+) used", words)[1])
    last = sorted(set(epochs))[-4:]
    each = sum(t in last for t in epochs) / len(last)
    full, well = int((slots - len(epochs)) / each), int((0.8 * slots - len(epochs)) / each)
    texts = int(free / (used / len(epochs) * each))
    end = last[-1] + min(full, texts) * (last[-1] - last[0]) / (len(last) - 1)
    want = "epochs left at that rate: %d, to about epoch %.0f (%d to a load of 80 %%, %d until the table is full, %d until" % (
        min(full, texts), end, max(well, 0), full, texts)
    if want not in words:
        fail("wanted", want, "got", words.splitlines()[-1])


if __name__ == "__main__":
    what, words = sys.argv[1], sys.argv[2:]
    {"make": lambda: make(int(words[0]), words[1]), "table": lambda: table(*words), "sheet": lambda: sheet(*words),
     "same": lambda: same(*words), "dates": dates, "left": lambda: left(*words)}[what]()
