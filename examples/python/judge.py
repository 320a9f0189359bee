"""Whether a trace without versions is coherent, whether its versions are forced, and whether one order explains it."""

import sys

from lichenknit import judge

trace = sys.stdin.read()
found = judge(trace, order=True)
print(found.coherent, found.versions, found.sequential)
