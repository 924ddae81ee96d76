"""Writes a load to standard output, for a profiler or for another program:

    python3 -B bench/write_load.py "open calls" 50000"""

import sys

from loads.catalogue import COLLIDING_LOADS, LOADS

named = {load.name: load for load in [*LOADS, *COLLIDING_LOADS]}
if len(sys.argv) != 3 or sys.argv[1] not in named or not sys.argv[2].isdigit():
    sys.exit(f"write_load: the words are a size after one of: {', '.join(named)}")
named[sys.argv[1]].write_to(sys.stdout, int(sys.argv[2]), quick=False)
