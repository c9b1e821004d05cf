"""stakeout.py FILE NAME EASTING NORTHING: where the prism must go to stand on a
point, from where it is."""
import sys

import bhtf

path, name, easting, northing = sys.argv[1:]
here = bhtf.Point("here", float(easting), float(northing))
try:
    with bhtf.open(path) as f:
        there = f.point(name)
        here.offset(there)  # a height alone is no place
except (bhtf.Error, OSError, ValueError) as error:
    sys.exit("stakeout: %s" % error)
print("%s: %.3f m: east %+.3f, north %+.3f" % (
    (name, here.distance(there)) + here.offset(there)))
