"""as_binary.py LRAT: writes the lines of an LRAT text as binary ones, ids plain, to standard output."""
import sys
from pathlib import Path

import binary
import rules

lines = [read for _, read in rules.lines_of(Path(sys.argv[1]).read_bytes())]
sys.stdout.buffer.write(binary.written(lines, doubled=False))
