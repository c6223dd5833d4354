"""Compares the built program's greatest distances with the reference.

Run as: python3 compare_span.py PROGRAM [--cases N] [--seed S] [--second SHARE] [--third SHARE]

`span` tells the greatest time from one row to another over the timings that give
a formula a value. Each answer is judged by best_answers.py: its timing, its lines
by the second checker on the log with the extra bound, and the number, where
timings are few, by going through all of them. There are the cases written out by
hand and N made by chance, of which some are refused. The first difference is
printed with its files, and the end is 1.
"""

import sys
from pathlib import Path

sys.dont_write_bytecode = True  # leaves no compiled files beside the sources

import compare_best

if __name__ == "__main__":
    sys.path.insert(0, str(Path(__file__).resolve().parents[1]))
    import ends

    ends.run(lambda: compare_best.main("span"))
