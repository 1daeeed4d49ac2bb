#!/usr/bin/env python3
"""Makes the wheel of the package `sideways`, with the shared library in it; nothing is fetched. The same files give the same bytes.

    wheel.py LIBRARY FOLDER        writes FOLDER/sideways-VERSION-py3-none-PLATFORM.whl, and tells its path

LIBRARY is libsideways.so.
"""

import base64
import hashlib
import os
import re
import sys
import sysconfig
import zipfile

HERE = os.path.dirname(os.path.abspath(__file__))
METADATA = """Metadata-Version: 2.1
Name: sideways
Version: {version}
Summary: Exact answers to range queries over a table in memory, by database cracking
Requires-Python: >=3.8
Requires-Dist: numpy
Provides-Extra: pandas
Requires-Dist: pandas; extra == "pandas"
"""
WHEEL = """Wheel-Version: 1.0
Generator: sideways
Root-Is-Purelib: false
Tag: {tag}
"""


def package_files(library):
    """The files of the package by their names in the wheel."""
    folder = os.path.join(HERE, "sideways")
    files = {}
    for name in sorted(os.listdir(folder)):
        if name.endswith(".py") or name == "py.typed":
            with open(os.path.join(folder, name), "rb") as file:
                files["sideways/" + name] = file.read()
    with open(library, "rb") as file:
        files["sideways/libsideways.so"] = file.read()
    return files


def record_line(name, data):
    digest = base64.urlsafe_b64encode(hashlib.sha256(data).digest()).rstrip(b"=").decode("ascii")
    return f"{name},sha256={digest},{len(data)}\n"


def put(wheel, name, data):
    entry = zipfile.ZipInfo(name, (1980, 1, 1, 0, 0, 0))
    entry.external_attr = (0o755 if name.endswith(".so") else 0o644) << 16
    entry.compress_type = zipfile.ZIP_DEFLATED
    wheel.writestr(entry, data)


def main():
    if len(sys.argv) != 3:
        print("use: wheel.py LIBRARY FOLDER", file=sys.stderr)
        return 2
    library, folder = sys.argv[1:]
    files = package_files(library)
    version = re.search(rb'__version__ = "([^"]+)"', files["sideways/__init__.py"]).group(1).decode("ascii")
    tag = "py3-none-" + re.sub("[-.]", "_", sysconfig.get_platform())
    told = f"sideways-{version}.dist-info"
    files[told + "/METADATA"] = METADATA.format(version=version).encode("ascii")
    files[told + "/WHEEL"] = WHEEL.format(tag=tag).encode("ascii")
    record = "".join(record_line(name, data) for name, data in files.items()) + f"{told}/RECORD,,\n"
    path = os.path.join(folder, f"sideways-{version}-{tag}.whl")
    with zipfile.ZipFile(path, "w") as wheel:
        for name, data in files.items():
            put(wheel, name, data)
        put(wheel, told + "/RECORD", record.encode("ascii"))
    print(path)
    return 0


if __name__ == "__main__":
    sys.exit(main())
