"""Builds the wheel, and the file of the sources: what `pip install .` and `python -m build` call (PEP 517). It needs Python alone, so that no
network is needed.

The shared library goes into the wheel where it is beside the module, as in the folder that `make dist` makes, or built in the repository; else the
system's is used.
"""

import base64
import hashlib
import io
import re
import tarfile
import zipfile
from pathlib import Path

HERE = Path(__file__).resolve().parent
LIBRARIES = [HERE / "tickdrizzle/libtickdrizzle.so.1", HERE / "../../target/lib/libtickdrizzle.so.1"]
MODULE = ["tickdrizzle/__init__.py", "tickdrizzle/py.typed"]


def _project(key):
    """A string of pyproject.toml."""
    return re.search(rf'^{key} = "(.*)"$', (HERE / "pyproject.toml").read_text(), re.M)[1]


def _files(info, tag):
    """The files of the wheel, each with its content."""
    for path in [*(HERE / name for name in MODULE), *_library()]:
        yield f"tickdrizzle/{path.name}", path.read_bytes()
    pure = "true" if tag.endswith("-any") else "false"
    yield f"{info}/WHEEL", f"Wheel-Version: 1.0\nGenerator: tickdrizzle\nRoot-Is-Purelib: {pure}\nTag: {tag}\n".encode()
    yield f"{info}/METADATA", _metadata()


def _metadata():
    """What the package says of itself."""
    lines = [
        "Metadata-Version: 2.1",
        f"Name: {_project('name')}",
        f"Version: {_project('version')}",
        f"Summary: {_project('description')}",
        f"Requires-Python: {_project('requires-python')}",
        "License: MIT",
        "Description-Content-Type: text/markdown",
    ]
    return ("\n".join(lines) + "\n\n").encode() + (HERE / "README.md").read_bytes()


def _library():
    """The shared library, if it is there."""
    return [path for path in LIBRARIES if path.exists()][:1]


def build_wheel(wheel_directory, config_settings=None, metadata_directory=None):
    tag = "py3-none-linux_x86_64" if _library() else "py3-none-any"
    name = f"tickdrizzle-{_project('version')}"
    info = f"{name}.dist-info"
    record = []
    with zipfile.ZipFile(Path(wheel_directory) / f"{name}-{tag}.whl", "w", zipfile.ZIP_DEFLATED) as wheel:
        for path, content in _files(info, tag):
            wheel.writestr(path, content)
            digest = base64.urlsafe_b64encode(hashlib.sha256(content).digest()).rstrip(b"=").decode()
            record.append(f"{path},sha256={digest},{len(content)}\n")
        wheel.writestr(f"{info}/RECORD", "".join(record) + f"{info}/RECORD,,\n")
    return f"{name}-{tag}.whl"


def build_sdist(sdist_directory, config_settings=None):
    name = f"tickdrizzle-{_project('version')}"
    with tarfile.open(Path(sdist_directory) / f"{name}.tar.gz", "w:gz") as sources:
        for file in ["pyproject.toml", "build_wheel.py", "README.md", *MODULE, "examples/three_points.py", "tests/test_tickdrizzle.py"]:
            sources.add(HERE / file, f"{name}/{file}")
        information = tarfile.TarInfo(f"{name}/PKG-INFO")
        information.size = len(_metadata())
        sources.addfile(information, io.BytesIO(_metadata()))
    return f"{name}.tar.gz"
