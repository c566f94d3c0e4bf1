"""Builds the wheel: the package conductor with the shared library in it, made of the proved archive by cc. pip calls it by pyproject.toml; by hand: python3 wheel_of_archive.py FOLDER.

The archive is the one that CONDUCTOR_ARCHIVE names, or the repository's own, crates/board/out/libboard.a, which `rt lib` makes in crates/board. The same archive, compiler and sources give the same wheel.
"""
from __future__ import annotations

import base64
import hashlib
import os
import platform
import re
import subprocess
import sys
import tempfile
import zipfile
from pathlib import Path

HERE = Path(__file__).resolve().parent


def field(name: str) -> str:
    """A line of pyproject.toml's [project]; tomllib is not in every Python that this builds for."""
    found = re.search(r'^%s = "(.*)"$' % name, (HERE / "pyproject.toml").read_text(), re.M)
    if not found:
        sys.exit("pyproject.toml has no %s" % name)
    return found.group(1)


def shared_library() -> bytes:
    archive = Path(os.environ.get("CONDUCTOR_ARCHIVE") or HERE.parent.parent / "crates/board/out/libboard.a")
    if not archive.exists():
        sys.exit("there is no %s: run `rt lib` in crates/board, or set CONDUCTOR_ARCHIVE to a libboard.a" % archive)
    with tempfile.TemporaryDirectory() as folder:
        out = Path(folder) / "libconductor.so"
        cc = os.environ.get("CC", "cc")
        subprocess.run([cc, "-shared", "-s", "-Wl,--build-id=none", "-o", str(out), "-Wl,--whole-archive", str(archive), "-Wl,--no-whole-archive"], check=True)
        return out.read_bytes()


def build_wheel(wheel_directory: str, config_settings: object = None, metadata_directory: str | None = None) -> str:
    """PEP 517's hook; the name of the wheel that it wrote."""
    if platform.machine() != "x86_64" or not sys.platform.startswith("linux"):
        sys.exit("the toolchain makes the archive for x86-64 Linux alone")
    name, version, tag = field("name"), field("version"), "py3-none-manylinux_2_17_x86_64"
    info = "%s-%s.dist-info" % (name, version)
    metadata = "Metadata-Version: 2.1\nName: %s\nVersion: %s\nSummary: %s\nRequires-Python: %s\n" % (name, version, field("description"), field("requires-python"))
    files = {"conductor/%s" % path.name: path.read_bytes() for path in sorted((HERE / "conductor").iterdir()) if path.suffix == ".py" or path.name == "py.typed"}
    files["conductor/libconductor.so"] = shared_library()
    files[info + "/METADATA"] = metadata.encode()
    files[info + "/WHEEL"] = ("Wheel-Version: 1.0\nGenerator: wheel_of_archive\nRoot-Is-Purelib: false\nTag: %s\n" % tag).encode()
    record = "".join("%s,sha256=%s,%d\n" % (path, base64.urlsafe_b64encode(hashlib.sha256(held).digest()).rstrip(b"=").decode(), len(held)) for path, held in files.items())
    files[info + "/RECORD"] = (record + info + "/RECORD,,\n").encode()
    wheel = "%s-%s-%s.whl" % (name, version, tag)
    with zipfile.ZipFile(Path(wheel_directory) / wheel, "w", zipfile.ZIP_DEFLATED) as out:
        for path, held in files.items():
            about = zipfile.ZipInfo(path, (2020, 1, 1, 0, 0, 0))
            about.external_attr, about.compress_type = 0o100644 << 16, zipfile.ZIP_DEFLATED
            out.writestr(about, held)
    return wheel


if __name__ == "__main__":
    print(build_wheel(sys.argv[1] if len(sys.argv) > 1 else "."))
