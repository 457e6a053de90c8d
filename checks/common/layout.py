"""The layout of headers, publications and desks, as the reference has it."""
import sys
from pathlib import Path

sys.path.append(str(Path(__file__).resolve().parents[2] / "reference"))

from gogbetiku_reference.layout import *  # noqa: E402,F401,F403
