"""Makes the wheel that `pip install bindings/python` installs. It needs neither a network nor setuptools.

The shared library goes into the wheel: the file that CEFINDRATO_LIBRARY names, or else the one that pkg-config knows. Without one the
package looks for it where it runs.
"""

import base64
import hashlib
import os
import re
import subprocess
import sysconfig
import zipfile

HERE = os.path.dirname(os.path.abspath(__file__))
LIBRARY = "libcefindrato.so"
METADATA = """Metadata-Version: 2.1
Name: cefindrato
Version: {version}
Summary: Proved checkers of SAT solvers' proofs and answers
Maintainer: Cefindrato maintainers
License: MIT OR Apache-2.0
Requires-Python: >=3.8
"""
WHEEL = "Wheel-Version: 1.0\nGenerator: cefindrato\nRoot-Is-Purelib: {is_pure}\nTag: {tag}\n"


def read(*parts):
    with open(os.path.join(HERE, *parts), "rb") as file:
        return file.read()


def library():
    """The name of the shared library's file, or None."""
    name = os.environ.get("CEFINDRATO_LIBRARY")
    if not name:
        try:
            found = subprocess.run(["pkg-config", "--variable=libdir", "cefindrato"], capture_output=True, text=True)
        except OSError:
            return None
        name = os.path.join(found.stdout.strip(), LIBRARY) if found.stdout.strip() else ""
    return os.path.abspath(name) if name and os.path.isfile(name) else None


def digest(text):
    return base64.urlsafe_b64encode(hashlib.sha256(text).digest()).rstrip(b"=").decode()


def build_wheel(wheel_directory, config_settings=None, metadata_directory=None):
    """Writes the wheel, and says its name."""
    version = re.search(r'^version = "(.*)"$', read("pyproject.toml").decode(), re.M)[1]
    shared = library()
    tag = "py3-none-" + (re.sub(r"[-.]", "_", sysconfig.get_platform()) if shared else "any")
    files = {f"cefindrato/{name}": read("cefindrato", name) for name in sorted(os.listdir(os.path.join(HERE, "cefindrato"))) if name.endswith((".py", ".typed"))}
    if shared:
        files[f"cefindrato/{LIBRARY}"] = read(shared)
    info = f"cefindrato-{version}.dist-info"
    files[f"{info}/METADATA"] = METADATA.format(version=version).encode()
    files[f"{info}/WHEEL"] = WHEEL.format(is_pure="false" if shared else "true", tag=tag).encode()
    rows = [f"{name},sha256={digest(text)},{len(text)}\n" for name, text in files.items()]
    files[f"{info}/RECORD"] = "".join([*rows, f"{info}/RECORD,,\n"]).encode()
    name = f"cefindrato-{version}-{tag}.whl"
    with zipfile.ZipFile(os.path.join(wheel_directory, name), "w", zipfile.ZIP_DEFLATED) as wheel:
        for path, text in files.items():
            wheel.writestr(path, text)
    return name
