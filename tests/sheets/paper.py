"""A PDF measured as one would measure a print.

paper.py bar FILE.pdf        the scale bar of the first sheet: it is as long as the numbers at it and the scale say, to a tenth of a millimetre;
                             and so is the bar of the vectors, if there is one. Measured are the dots of the page, ten to a millimetre
paper.py names PAGE FILE.pdf the names are as wide in the PDF as the plan of PAGE, made by --html, keeps free for them, to a fiftieth of a millimetre
"""
import html
import re
import subprocess
import sys

DOTS = 254  # an inch: ten to a millimetre
POINT = 25.4 / 72


def words_of(pdf, page=1):
    told = subprocess.run(['pdftotext', '-f', str(page), '-l', str(page), '-bbox', pdf, '-'], capture_output=True, check=True).stdout.decode()
    for x, y, right, bottom, word in re.findall(
            r'<word xMin="([-0-9.]+)" yMin="([-0-9.]+)" xMax="([-0-9.]+)" yMax="([-0-9.]+)">(.*?)</word>', told):
        yield html.unescape(word), float(x) * POINT, float(y) * POINT, float(right) * POINT, float(bottom) * POINT


def picture(pdf):
    grey = subprocess.run(['pdftoppm', '-gray', '-r', str(DOTS), '-f', '1', '-l', '1', pdf], capture_output=True, check=True).stdout
    head = re.match(rb'P5\s+(\d+)\s+(\d+)\s+255\s', grey)
    wide = int(head.group(1))
    return wide, grey[head.end():]


def dark_run(image, y, left, right):
    """The first and the last dark dot of a line of the page, in millimetres."""
    wide, dots = image
    row = dots[round(y * 10) * wide:(round(y * 10) + 1) * wide]
    dark = [i for i in range(round(left * 10), round(right * 10)) if row[i] < 160]
    return dark[0] / 10, (dark[-1] + 1) / 10


def bar(pdf):
    words = list(words_of(pdf))
    said = [w[0] for w in words]
    at = next(i for i in range(len(said) - 2) if said[i:i + 2] == ['1', ':'])
    scale = float(said[at + 2].rstrip(',;'))
    image = picture(pdf)
    wrong = 0
    ends = [(words[i], words[i + 1]) for i in range(len(said) - 1) if said[i + 1] == 'm' and re.match(r'[0-9.]+$', said[i])]
    number, unit = max(ends, key=lambda e: e[0][2])  # the lowest one: details have bars of their own
    zero = next(w for w in words if w[0] == '0' and abs(w[2] - number[2]) < 0.2)
    left, right = dark_run(image, number[2] + 4.6, (zero[1] + zero[3]) / 2 - 3, (number[1] + unit[3]) / 2 + 3)
    metres = (right - left - 0.2) * scale / 1000  # without the half line at both ends
    print('bar of %s m: %.2f mm at 1 : %g are %.2f m' % (number[0], right - left - 0.2, scale, metres))
    wrong += abs(metres - float(number[0])) * 1000 / scale > 0.11
    each = re.search(r'1 mm of paper is ([0-9.]+) mm of movement', ' '.join(said))
    if each:
        zeros = [w for w in words if w[0] == '0']
        number, unit, zero = max(((words[i], words[i + 1], z) for i in range(len(said) - 1) for z in zeros if said[i + 1] == 'mm' and
                                  re.match(r'[0-9.]+$', said[i]) and abs(z[2] - words[i][2]) < 0.2), key=lambda e: e[0][2])
        left, right = dark_run(image, number[4] + 1.4, zero[1] - 1, unit[3] + 1)
        long = right - left - 0.4  # without the half strokes at its ends
        print('bar of %s mm: %.2f mm, 1 mm of paper for %s' % (number[0], long, each.group(1)))
        wrong += abs(long - float(number[0]) / float(each.group(1))) > 0.11
    return wrong


def names(page, pdf):
    text = open(page, encoding='utf-8').read()
    sheet = re.search(r'<div class="sheet">(<svg.*?</svg>)', text, re.S).group(1)
    asked = re.findall(r'<text x="([-0-9.]+)" y="([-0-9.]+)" textLength="([0-9.]+)"[^>]*>([^<]*)</text>', sheet)
    got = {}
    for word, x, y, right, bottom in words_of(pdf):
        got.setdefault(word, []).append((x, right - x))
    wrong = seen = 0
    for x, _, wide, name in asked:
        name = html.unescape(name)
        if ' ' in name:
            continue
        near = [w for at, w in got.get(name, []) if abs(at - float(x)) < 0.1]
        seen += 1
        if not near or abs(near[0] - float(wide)) > 0.02:
            wrong += 1
            print('  %s: %s mm kept free, %s' % (name, wide, near))
    print('%d names as wide as they are taken for' % (seen - wrong))
    return wrong + (seen == 0)


sys.exit({'bar': bar, 'names': names}[sys.argv[1]](*sys.argv[2:]) > 0)
