"""What a reader takes a plan's names for.

plan.py FILE.svg    exit status 0 if each name without a line to it is nearest to its own point; says which are not
"""
import re
import sys

svg = open(sys.argv[1], encoding='utf-8').read()
section = lambda name: re.search(r'<g id="%s".*?\n(.*?)\n</g>' % name, svg, re.S)
marks = [tuple(map(float, m)) for m in re.findall(r'translate\(([-0-9.]+) ([-0-9.]+)\)', section('points').group(1))]
names = re.findall(r'<text x="([-0-9.]+)" y="([-0-9.]+)"[^>]*>([^<]*)<', section('names').group(1))
leads = re.findall(r'x1="([-0-9.]+)" y1="([-0-9.]+)"', section('leads').group(1)) if section('leads') else []
led = {(float(x), float(y)) for x, y in leads}
order = sys.argv[2:]  # the names of the points, in the order of the marks
place = dict(zip(order, marks))
wrong = 0
for x, y, text in names:
    x, top, name = float(x), float(y) - 2.72, text.split(' ')[0]
    own = place[name]
    if own in led:
        continue
    far = lambda m: max(x - m[0], m[0] - x - len(text) * 3.4 * .6, 0) ** 2 + max(top - m[1], m[1] - top - 3.4, 0) ** 2
    nearest = min(far(m) for m in marks if m != own) if len(marks) > 1 else 1e9
    if nearest <= far(own):
        print('  %s stands nearer to another point' % name)
        wrong += 1
sys.exit(wrong > 0)
