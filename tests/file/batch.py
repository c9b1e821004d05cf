"""batch.py FILE: stores what was staked out as one batch, and prints it."""
import sys

import bhtf

with bhtf.open(sys.argv[1], write=True) as f:
    with f.batch():
        f["CP-201"] = "4482113.402,5351874.118,489.271,bolt"
        f.add("CP-202", "")

with bhtf.open(sys.argv[1]) as f:
    print(f["CP-201"].decode())
    print(len(f), "points,", "sound" if f.is_sound() else "not sound")
