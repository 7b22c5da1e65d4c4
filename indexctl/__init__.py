"""indexctl: asks a Python package index over HTTP for what its owners and its office need."""
import os
import sys

# in a clone, what it shares with the programs of the server stands there; in the one file, beside this package
SHARED = os.path.join(os.path.dirname(os.path.dirname(os.path.abspath(__file__))), "server", "lib")
if os.path.isdir(SHARED) and SHARED not in sys.path:
    sys.path.insert(0, SHARED)
