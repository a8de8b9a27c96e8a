"""Packs the package and the shared library as a wheel, which pip installs without a network and without a compiler.

usage: wheel.py LIBRARY DIR    LIBRARY is the file libwalnut.so.1; the wheel is made in DIR

Prints the wheel's name. Equal inputs give equal bytes. An equal wheel in DIR is not written again.
Exit status: 0 made; 1 not made; 2 wrong usage.
"""

import base64
import hashlib
import os
import re
import sys
import zipfile

HERE = os.path.dirname(os.path.abspath(__file__))
TAG = "py3-none-linux_x86_64"


def content(path):
    with open(path, "rb") as file:
        return file.read()


def read(*names):
    return content(os.path.join(HERE, *names))


def stated(name, pattern):
    """What a text file of this folder states once, at the start of a line."""
    return re.search(rf'^{pattern} = "(.*)"$', read(*name).decode(), re.MULTILINE)[1]


def files(library):
    """The wheel's name, its folder .dist-info, and its files in order without RECORD: (name, bytes)."""
    name, version = stated(["pyproject.toml"], "name"), stated(["walnut", "__init__.py"], "__version__")
    about = f"{name}-{version}.dist-info"
    metadata = [
        "Metadata-Version: 2.1",
        f"Name: {name}",
        f"Version: {version}",
        f"Summary: {stated(['pyproject.toml'], 'description')}",
        f"Requires-Python: {stated(['pyproject.toml'], 'requires-python')}",
        "Description-Content-Type: text/markdown",
        "",
    ]
    wheel = ["Wheel-Version: 1.0", "Generator: walnut", "Root-Is-Purelib: false", f"Tag: {TAG}"]
    packed = [(f"{name}/{one}", read("walnut", one)) for one in ("__init__.py", "py.typed")]
    packed += [(f"{name}/libwalnut.so.1", content(library))]
    packed += [(f"{about}/METADATA", "\n".join(metadata).encode() + b"\n" + read("README.md"))]
    packed += [(f"{about}/WHEEL", "\n".join(wheel).encode() + b"\n")]
    return f"{name}-{version}-{TAG}.whl", about, packed


def record(about, packed):
    """The list of the files, with their sums and sizes."""
    rows = []
    for name, data in packed:
        digest = base64.urlsafe_b64encode(hashlib.sha256(data).digest()).decode().rstrip("=")
        rows.append(f"{name},sha256={digest},{len(data)}\n")
    return f"{about}/RECORD", "".join([*rows, f"{about}/RECORD,,\n"]).encode()


def main(library, folder):
    name, about, packed = files(library)
    os.makedirs(folder, exist_ok=True)
    path = os.path.join(folder, name)
    beside = f"{path}.{os.getpid()}"
    try:
        with zipfile.ZipFile(beside, "w", zipfile.ZIP_DEFLATED) as wheel:
            for one, data in [*packed, record(about, packed)]:
                # with the present time the wheel would have other bytes each time
                entry = zipfile.ZipInfo(one, (1980, 1, 1, 0, 0, 0))
                entry.external_attr = (0o100755 if one.endswith(".so.1") else 0o100644) << 16
                entry.compress_type = zipfile.ZIP_DEFLATED
                wheel.writestr(entry, data)
        if not (os.path.exists(path) and content(path) == content(beside)):
            os.replace(beside, path)
    finally:
        if os.path.exists(beside):
            os.remove(beside)
    print(name)


if __name__ == "__main__":
    if len(sys.argv) != 3:
        print(__doc__.strip(), file=sys.stderr)
        sys.exit(2)
    try:
        main(*sys.argv[1:])
    except OSError as error:
        sys.exit(f"wheel: {error.filename}: {error.strerror}")
