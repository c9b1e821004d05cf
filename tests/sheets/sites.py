"""Sites for the tests of plans.

sites.py KIND COUNT SEED   rings, grid, clusters or random: points as name,easting,northing,height,note
"""
import math
import random
import sys

kind, count, seed = sys.argv[1], int(sys.argv[2]), int(sys.argv[3])
r = random.Random('%s %d %d' % (kind, count, seed))
EAST, NORTH = 4482200, 5351800


def rings():
    """Prisms on the steps of a bowl."""
    for i in range(count):
        ring, angle = i // 72 + 1, 2 * math.pi * (i % 72) / 72
        yield 'R%d-%03d' % (ring, i % 72 + 1), 1.2 * (52 + 10 * ring) * math.sin(angle), (52 + 10 * ring) * math.cos(angle)


def grid():
    wide = math.ceil(math.sqrt(count * 1.4))
    for i in range(count):
        yield 'G-%04d' % (i + 1), 10 * (i % wide), 10 * (i // wide)


def clusters():
    """A dozen points within a few metres, far from the next dozen."""
    groups = max(1, count // 12)
    places = [(r.random() * 400, r.random() * 260) for _ in range(groups)]
    for i in range(count):
        east, north = places[i % groups]
        yield 'K%02d-%02d' % (i % groups + 1, i // groups + 1), east + r.gauss(0, 1.2), north + r.gauss(0, 1.2)


def anywhere():
    for i in range(count):
        yield 'CP-%04d' % (i + 1), r.random() * 400, r.random() * 260


for name, east, north in {'rings': rings, 'grid': grid, 'clusters': clusters, 'random': anywhere}[kind]():
    print('%s,%.3f,%.3f,%.3f,' % (name, EAST + east, NORTH + north, 490 + r.random() * 20))
