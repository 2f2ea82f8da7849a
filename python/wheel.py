#!/usr/bin/env python3
"""Makes the package's wheel, which `pip install` takes without a network: of the same files the same bytes.

    wheel.py FOLDER [SECONDS]     writes it to FOLDER, with files of that time since 1970, and prints its name
"""

import base64
import hashlib
import os
import re
import sys
import time
import zipfile

HERE = os.path.dirname(os.path.realpath(__file__))
WHEEL = """Wheel-Version: 1.0
Generator: wheel.py
Root-Is-Purelib: true
Tag: py3-none-any
"""
METADATA = """Metadata-Version: 2.1
Name: {name}
Version: {version}
Summary: {description}
Requires-Python: {requires-python}
"""


def read(path):
    with open(f"{HERE}/{path}", "rb") as file:
        return file.read()


def contents():
    """Returns the name of the wheel without its ending, and its files."""
    said = read("pyproject.toml").decode()
    words = dict(re.findall(r'(?m)^([\w-]+) = "(.*)"$', said))
    at = "{name}-{version}.dist-info".format(**words)
    points = re.search(r'(?m)^\[project\.entry-points\.(\w+)\]\n((?:"[^"]*" = "[^"]*".*\n)+)', said)
    plugins = re.findall(r'(?m)^"([^"]*)" = "([^"]*)"', points[2])
    names = sorted(it for it in os.listdir(f"{HERE}/marm") if it.endswith((".py", ".typed")))
    files = {f"marm/{it}": read(f"marm/{it}") for it in names}
    files[f"{at}/METADATA"] = METADATA.format(**words).encode()
    files[f"{at}/WHEEL"] = WHEEL.encode()
    files[f"{at}/entry_points.txt"] = "".join([f"[{points[1]}]\n", *(f"{a} = {b}\n" for a, b in plugins)]).encode()
    rows = [f"{path},sha256={sum_of(text)},{len(text)}\n" for path, text in files.items()]
    files[f"{at}/RECORD"] = "".join([*rows, f"{at}/RECORD,,\n"]).encode()
    return "{name}-{version}".format(**words), files


def sum_of(text):
    return base64.urlsafe_b64encode(hashlib.sha256(text).digest()).rstrip(b"=").decode()


def main(folder, seconds="315532800"):
    name, files = contents()
    with zipfile.ZipFile(f"{folder}/{name}-py3-none-any.whl", "w", zipfile.ZIP_DEFLATED) as wheel:
        for path, text in files.items():
            entry = zipfile.ZipInfo(path, time.gmtime(max(int(seconds), 315532800))[:6])
            entry.external_attr, entry.create_system = 0o100644 << 16, 3
            wheel.writestr(entry, text, zipfile.ZIP_DEFLATED)
    print(f"{name}-py3-none-any.whl")


if __name__ == "__main__":
    main(*sys.argv[1:])
