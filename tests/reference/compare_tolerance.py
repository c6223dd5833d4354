"""Compares the built program's least widenings with the reference.

Run as: python3 compare_tolerance.py PROGRAM [--cases N] [--seed S] [--second SHARE] [--third SHARE]

`tolerance` tells the least number by which all skews of a log have to be greater
for a formula to have a value. Each answer is judged by best_answers.py: its
timing, its lines by the second checker on the widened log, and the number, where
timings are few, by going through all of them at that widening and below. There
are the cases written out by hand and N made by chance, of which some are
refused. The first difference is printed with its files, and the end is 1.
"""

import sys
from pathlib import Path

sys.dont_write_bytecode = True  # leaves no compiled files beside the sources

import compare_best

if __name__ == "__main__":
    sys.path.insert(0, str(Path(__file__).resolve().parents[1]))
    import ends

    ends.run(lambda: compare_best.main("tolerance"))
