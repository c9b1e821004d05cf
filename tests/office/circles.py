"""Figures whose points lie near one circle through the station, one of them close to the station.

circles.py SEED NUMBER    prints the points as name,easting,northing,, and last 'station E,N BOUND': a circle through the station is
within BOUND metres of all points
"""
import math
import random
import sys

rng = random.Random(int(sys.argv[1]) * 1000 + int(sys.argv[2]))
radius = rng.uniform(60, 150)
centre = (1000 + rng.uniform(-50, 50), 1000 + rng.uniform(-50, 50))
at = rng.uniform(0, 2 * math.pi)
station = (centre[0] + radius * math.cos(at), centre[1] + radius * math.sin(at))
angles = [at + rng.uniform(0.5, 5.7) for _ in range(5)] + [at + rng.choice([-1, 1]) * rng.uniform(0.06, 0.12)]
bound = 0
for number, angle in enumerate(angles):
    off = rng.uniform(-0.02, 0.02) if number < 5 else rng.choice([-1, 1]) * rng.uniform(0.6, 1)
    bound = max(bound, abs(off))
    print('P%d,%.6f,%.6f,,' % (number, centre[0] + (radius + off) * math.cos(angle),
                               centre[1] + (radius + off) * math.sin(angle)))
print('station %.6f,%.6f %.6f' % (station[0], station[1], bound))
