#!/usr/bin/env python3
"""A wheel with the programs, the library and the package `cefindrato`; the same bytes each time.

wheel.py OUT VERSION TOP STATIC LIBRARY

STATIC is the folder of the static programs with their documents. Nothing of setuptools is needed.
"""

import base64
import hashlib
import os
import sys
import time
import zipfile

TAGS = ("manylinux_2_17_x86_64", "musllinux_1_1_x86_64")
METADATA = """Metadata-Version: 2.1
Name: cefindrato
Version: {version}
Summary: Proved checkers of SAT solvers' proofs and answers
Maintainer: Cefindrato maintainers
License: MIT OR Apache-2.0
Requires-Python: >=3.8
Description-Content-Type: text/plain

{about}

tools/release.sh of the source repository made this wheel. The file PROVED in its .dist-info names the commit and the toolchain.
"""
WHEEL = "Wheel-Version: 1.0\nGenerator: cefindrato\nRoot-Is-Purelib: false\n" + "".join(f"Tag: py3-none-{tag}\n" for tag in TAGS)
# (the first moment that a zip file can name)
EARLIEST = 315532800


def read(name):
    with open(name, "rb") as file:
        return file.read()


def packed(version, top, static, library):
    """The files of the wheel, with their modes."""
    info, scripts = f"cefindrato-{version}.dist-info", f"cefindrato-{version}.data/scripts"
    # (what scripts share is beside the folder that they are installed into)
    shared = f"cefindrato-{version}.data/data/lib/cefindrato"
    documents = f"{static}/share/doc/cefindrato"
    package = f"{top}/bindings/python/cefindrato"
    about = read(f"{package}/__init__.py").decode().split('"""')[1].strip()
    files = {f"cefindrato/{name}": (read(f"{package}/{name}"), 0o644) for name in sorted(os.listdir(package)) if name != "__pycache__"}
    files["cefindrato/libcefindrato.so"] = (read(library), 0o755)
    for name in sorted(os.listdir(f"{static}/bin")):
        files[f"{scripts}/{name}"] = (read(f"{static}/bin/{name}"), 0o755)
    for name in sorted(os.listdir(f"{static}/lib/cefindrato")):
        files[f"{shared}/{name}"] = (read(f"{static}/lib/cefindrato/{name}"), 0o644)
    files[f"{info}/METADATA"] = (METADATA.format(version=version, about=about).encode(), 0o644)
    files[f"{info}/WHEEL"] = (WHEEL.encode(), 0o644)
    for name in ("LICENSE", "LICENSE.musl", "PROVED"):
        files[f"{info}/{name}"] = (read(f"{documents}/{name}"), 0o644)
    rows = [f"{name},sha256={digest(text)},{len(text)}\n" for name, (text, _) in files.items()]
    files[f"{info}/RECORD"] = ("".join([*rows, f"{info}/RECORD,,\n"]).encode(), 0o644)
    return files


def digest(text):
    return base64.urlsafe_b64encode(hashlib.sha256(text).digest()).rstrip(b"=").decode()


def main(out, version, top, static, library):
    at = time.gmtime(max(int(os.environ["SOURCE_DATE_EPOCH"]), EARLIEST))[:6]
    with zipfile.ZipFile(f"{out}/cefindrato-{version}-py3-none-{'.'.join(TAGS)}.whl", "w") as wheel:
        for name, (text, mode) in packed(version, top, static, library).items():
            entry = zipfile.ZipInfo(name, at)
            entry.external_attr, entry.compress_type = (0o100000 | mode) << 16, zipfile.ZIP_DEFLATED
            wheel.writestr(entry, text, compresslevel=9)


main(*sys.argv[1:])
