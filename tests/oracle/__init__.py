"""What docs/LANGUAGE.md and the crates' definitions say, worked out anew and plainly: cases are computed from it."""
import os
import sys

# How operations are written and the limits are the product's own tables (charts/language.py).
sys.path.append(os.path.join(os.path.dirname(os.path.dirname(os.path.dirname(os.path.abspath(__file__)))), "charts"))
