"""Ends a script where Python is too old for what it imports next."""
import sys

if sys.version_info < (3, 9):
    sys.stderr.write(sys.argv[0] + " needs Python 3.9 or later, and this is " + sys.version.split()[0] + "\n")
    sys.exit(3)
