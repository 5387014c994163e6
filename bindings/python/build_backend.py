"""Builds the package's wheel with the standard library alone, so that `pip install ./bindings/python` needs no network.

The wheel holds the modules of `fidrovelj` and the shared library: target/lib/libfidrovelj.so of the repository, which
`./build library` writes, or the one that the environment variable FIDROVELJ_SHARED names. Two builds of the same files
are the same bytes.
"""

import base64
import hashlib
import os
import tarfile
import zipfile
from pathlib import Path

HERE = Path(__file__).resolve().parent
NAME = "fidrovelj"
TAG = "py3-none-linux_x86_64"
# The earliest time that a zip file can tell.
WHEN = (1980, 1, 1, 0, 0, 0)


def _version():
    for line in (HERE / "pyproject.toml").read_text(encoding="utf-8").splitlines():
        if line.startswith("version = "):
            return line.split('"')[1]
    raise SystemExit("pyproject.toml names no version")


def _metadata():
    lines = [
        "Metadata-Version: 2.1",
        f"Name: {NAME}",
        f"Version: {_version()}",
        "Summary: Masks netlists of one-bit gates and decides whether a netlist leaks on one wire",
        "Requires-Python: >=3.9",
    ]
    return "\n".join(lines) + "\n"


def _library():
    named = os.environ.get("FIDROVELJ_SHARED")
    path = Path(named) if named else HERE.parent.parent / "target" / "lib" / "libfidrovelj.so"
    if not path.is_file():
        raise SystemExit(
            f"the shared library {path} is missing: run ./build library at the top of the repository first, "
            "or name one in FIDROVELJ_SHARED"
        )
    return path


def _write(wheel, files):
    """Writes the files to a wheel, and its record as the last one."""
    record = f"{NAME}-{_version()}.dist-info/RECORD"
    lines = []
    with zipfile.ZipFile(wheel, "w", zipfile.ZIP_DEFLATED) as archive:

        def add(name, data):
            info = zipfile.ZipInfo(name, WHEN)
            info.external_attr = 0o100644 << 16
            info.compress_type = zipfile.ZIP_DEFLATED
            archive.writestr(info, data)

        for name, data in files:
            digest = base64.urlsafe_b64encode(hashlib.sha256(data).digest()).rstrip(b"=").decode()
            lines.append(f"{name},sha256={digest},{len(data)}\n")
            add(name, data)
        add(record, ("".join(lines) + f"{record},,\n").encode())


def _dist_info():
    folder = f"{NAME}-{_version()}.dist-info"
    said = f"Wheel-Version: 1.0\nGenerator: {NAME}\nRoot-Is-Purelib: false\nTag: {TAG}\n"
    return [(f"{folder}/METADATA", _metadata().encode()), (f"{folder}/WHEEL", said.encode())]


def get_requires_for_build_wheel(config_settings=None):
    """Nothing but the standard library is needed."""
    return []


get_requires_for_build_sdist = get_requires_for_build_wheel
get_requires_for_build_editable = get_requires_for_build_wheel


def build_wheel(wheel_directory, config_settings=None, metadata_directory=None):
    """Writes the wheel, and returns its name."""
    modules = sorted(it for it in (HERE / NAME).iterdir() if it.suffix in (".py", ".typed"))
    files = [(f"{NAME}/{it.name}", it.read_bytes()) for it in modules]
    files.append((f"{NAME}/libfidrovelj.so", _library().read_bytes()))
    name = f"{NAME}-{_version()}-{TAG}.whl"
    _write(Path(wheel_directory) / name, files + _dist_info())
    return name


def build_editable(wheel_directory, config_settings=None, metadata_directory=None):
    """Writes a wheel that leads to this folder, and returns its name."""
    name = f"{NAME}-{_version()}-py3-none-any.whl"
    _write(Path(wheel_directory) / name, [(f"{NAME}.pth", f"{HERE}\n".encode())] + _dist_info())
    return name


def build_sdist(sdist_directory, config_settings=None):
    """Writes the sources, without the shared library, and returns the archive's name."""
    top = f"{NAME}-{_version()}"
    with tarfile.open(Path(sdist_directory) / f"{top}.tar.gz", "w:gz") as archive:
        for it in [HERE / "pyproject.toml", HERE / "build_backend.py", *sorted((HERE / NAME).glob("*.py"))]:
            archive.add(it, f"{top}/{it.relative_to(HERE)}")
    return f"{top}.tar.gz"
