"""Figures of resections at random, measured.

figures.py FILE SEED COUNT [spoil]   the danger circle of no figure of FILE's points passes through a name, and every name is there or told
                                     to be missing. With `spoil` each circle is first drawn through a name, which must be seen.
"""
import html
import math
import random
import re
import subprocess
import sys

file, seed, count = sys.argv[1], int(sys.argv[2]), int(sys.argv[3])
spoil = len(sys.argv) > 4
r = random.Random(seed)
names = subprocess.run(['bhtf', 'list', file, '--by', 'name'], capture_output=True, check=True).stdout.decode().split()
circles = wrong = 0
for turn in range(count):
    some = r.sample(names, r.choice([3, 3, 3, 4, 5, 6]))
    station = '%.3f,%.3f' % (1000 + 300 * r.random(), 2000 + 200 * r.random())
    svg = subprocess.run(['bhtf', 'figure', file, '--station', station, *some, '--svg'], capture_output=True).stdout.decode()
    found = re.search(r'<g id="names".*?\n(.*?)^</g>', svg, re.S | re.M).group(1)
    boxes = {html.unescape(n): (float(x), float(y) - 2.72, float(x) + float(w), float(y) + 0.68) for x, y, w, n in re.findall(
        r'<text x="([-0-9.]+)" y="([-0-9.]+)" font-size="3.4" textLength="([0-9.]+)"[^>]*>([^<]*)</text>', found)}
    for name in some:
        if name not in boxes and not re.search(r'no room for the name [^<]*\b%s\b' % re.escape(name), svg):
            wrong += 1
            print('  %s is not named, from %s to %s' % (name, station, ' '.join(some)))
    ring = re.search(r'<circle id="circle" cx="([-0-9.]+)" cy="([-0-9.]+)" r="([-0-9.]+)"', svg)
    if not ring:
        continue
    circles += 1
    x, y, radius = map(float, ring.groups())
    if spoil:
        box = next(iter(boxes.values()))
        radius = math.hypot((box[0] + box[2]) / 2 - x, (box[1] + box[3]) / 2 - y)
    for name, box in boxes.items():
        nearest = math.hypot(max(box[0] - x, x - box[2], 0), max(box[1] - y, y - box[3], 0))
        farthest = math.hypot(max(abs(box[0] - x), abs(box[2] - x)), max(abs(box[1] - y), abs(box[3] - y)))
        if nearest - 0.2 < radius < farthest + 0.2:
            wrong += 1
            print('  the circle runs through %s, from %s to %s' % (name, station, ' '.join(some)))
print('%d figures, %d with a circle' % (count, circles))
sys.exit(wrong > 0 or circles < count // 4)
