"""follow.py COPY < RECORDS: brings a station's copy up to what the office sent,
and names the points that changed."""
import sys

import bhtf

try:
    with bhtf.open(sys.argv[1], write=True) as copy:
        with copy.batch():
            done = copy.apply(sys.stdin.buffer.read())
            for change in copy.changes():
                print(change.kind, change.name)
except (bhtf.Error, OSError) as error:
    sys.exit("follow: %s" % error)
print(done.applied, "applied,", done.passed, "passed over")
