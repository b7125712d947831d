"""What programs say of themselves: the texts of `--help` and of faults in the sources of programs, and the `--help` of the tools."""

import re
import subprocess

from sources import listed, text_of

TEXT = re.compile(r'\b(?:text|does|verified|open): "((?:[^"\\]|\\.)*)"')
FAULT = re.compile(r'#\[error\("((?:[^"\\]|\\.)*)"\)\]')
TOOLS = re.compile(r"^TOOLS = \((.*)\)$", re.MULTILINE)


def source_texts():
    """Each file with a text in it, the lines of which are joined."""
    for path in listed("crates/*.rt"):
        for text in TEXT.findall(text_of(path)) + FAULT.findall(text_of(path)):
            yield path, re.sub(r"\\\n\s*", "", text)


def tool_texts():
    """Each tool with a line of its `--help`."""
    for tool in re.findall(r"\w+", TOOLS.search(text_of("tests/documents/examples.py"))[1]):
        ran = subprocess.run([f"tools/{tool}", "--help"], capture_output=True, text=True, check=True)
        for line in ran.stdout.splitlines():
            yield f"tools/{tool} --help", line
