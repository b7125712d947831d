"""Circuits in AIGER: the module of lib/cefindrato, by which scripts read them, and the programs do not."""

import os
import sys

sys.dont_write_bytecode = True
sys.path.append(os.path.join(os.path.dirname(os.path.abspath(__file__)), "../../lib"))

from cefindrato import aiger  # noqa: E402

sys.modules[__name__] = aiger
