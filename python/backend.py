#!/usr/bin/env python3
"""Makes the wheel of the Python package, with the shared library in it. It needs nothing but Python.

Usage: backend.py LIBRARY FOLDER

LIBRARY is the folder of libnonograde.so, FOLDER that of the wheel. `pip` calls `build_wheel`, with the library in the
folder that NONOGRADE_LIBRARY names, else in out/library. The same files make the same bytes.
"""

import base64
import hashlib
import os
import re
import sys
import tomllib
import zipfile
from pathlib import Path

TAG = "py3-none-linux_x86_64"
HERE = Path(__file__).resolve().parent
DATE = (1980, 1, 1, 0, 0, 0)


def version_of_header():
    """The version in `nonograde.h`."""
    return re.search(r'#define NONOGRADE_VERSION "(.+)"', (HERE.parent / "include/nonograde.h").read_text())[1]


def metadata(version):
    """What METADATA says of the package."""
    project = tomllib.loads((HERE / "pyproject.toml").read_text())["project"]
    return (
        f"Metadata-Version: 2.1\nName: {project['name']}\nVersion: {version}\nSummary: {project['description']}\n"
        f"Requires-Python: {project['requires-python']}\n"
    )


def record_line(name, body):
    """A file's line of RECORD."""
    digest = base64.urlsafe_b64encode(hashlib.sha256(body).digest()).rstrip(b"=").decode()
    return f"{name},sha256={digest},{len(body)}\n"


def wheel_files(library, version):
    """The files of the wheel by name."""
    about = f"nonograde-{version}.dist-info"
    files = {f"nonograde/{name}": (HERE / "nonograde" / name).read_bytes() for name in ("__init__.py", "py.typed")}
    files["nonograde/libnonograde.so"] = (Path(library) / "libnonograde.so").read_bytes()
    files[f"{about}/METADATA"] = metadata(version).encode()
    files[f"{about}/WHEEL"] = f"Wheel-Version: 1.0\nGenerator: nonograde\nRoot-Is-Purelib: false\nTag: {TAG}\n".encode()
    record = f"{about}/RECORD"
    files[record] = ("".join(record_line(*file) for file in files.items()) + f"{record},,\n").encode()
    return files


def make_wheel(library, folder):
    """Makes the wheel in a folder, and returns its name."""
    version = version_of_header()
    files = wheel_files(library, version)
    name = f"nonograde-{version}-{TAG}.whl"
    Path(folder).mkdir(parents=True, exist_ok=True)
    with zipfile.ZipFile(Path(folder) / name, "w") as wheel:
        for place, body in files.items():
            entry = zipfile.ZipInfo(place, DATE)
            entry.external_attr = 0o100644 << 16
            wheel.writestr(entry, body, zipfile.ZIP_DEFLATED)
    return name


def build_wheel(wheel_directory, config_settings=None, metadata_directory=None):
    """Makes the wheel for `pip`."""
    return make_wheel(os.environ.get("NONOGRADE_LIBRARY") or HERE.parent / "out/library", wheel_directory)


def main(words):
    if len(words) != 2:
        print("backend.py: a LIBRARY and a FOLDER are wanted", file=sys.stderr)
        return 2
    try:
        print(Path(words[1]) / make_wheel(*words))
    except OSError as error:
        print(f"backend.py: {error}", file=sys.stderr)
        return 1
    return 0


if __name__ == "__main__":
    sys.exit(main(sys.argv[1:]))
