"""Runs a command, and prints its status, its seconds, and the most memory that it had, in megabytes: whole.py COMMAND WORDS..

The memory is at least that of this program, some 13 megabytes, which the command begins in.
"""

import resource
import subprocess
import sys
import time

start = time.monotonic()
ended = subprocess.run(sys.argv[1:], stdout=subprocess.DEVNULL, check=False)
seconds = time.monotonic() - start
most = resource.getrusage(resource.RUSAGE_CHILDREN).ru_maxrss / 1024
print(f"{ended.returncode} {seconds:.4f} {most:.1f}")
