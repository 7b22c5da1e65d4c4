"""`python3 -m indexctl`, and `python3 FOLDER` from anywhere."""
import os
import sys

if not __package__:
    # this folder was run by its path: the package is found from the folder above
    sys.path[0] = os.path.dirname(os.path.abspath(sys.path[0]))

from indexctl.main import main

if __name__ == "__main__":
    sys.exit(main())
