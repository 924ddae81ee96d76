"""Writes the files of the loads `record` and `trial`, for a profiler or for another program, into
a folder: in-force, candidate, endpoints, requests, calls and faulty-calls.

    python3 -B bench/write_day.py 900000 FOLDER"""

import os
import sys

from loads import day

if len(sys.argv) != 3 or not sys.argv[1].isdigit() or not os.path.isdir(sys.argv[2]):
    sys.exit("write_day: the words are a number of requests and a folder")
day.write(sys.argv[2], int(sys.argv[1]))
