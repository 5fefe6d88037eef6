"""Builds the package for pip with the standard library alone, so that an installation needs no network and no other package.

These are the hooks of a build backend: a wheel is a zip with the package, its metadata, and a list of both.
"""
from __future__ import annotations

import base64
import hashlib
import io
import os
import re
import tarfile
import zipfile
from typing import Any, Dict, List, Mapping, Optional

HERE = os.path.dirname(os.path.abspath(__file__))
PACKAGE = os.path.join("src", "corwaphi")
EPOCH = (1980, 1, 1, 0, 0, 0)
SCRIPTS = "[console_scripts]\ncorwaphi = corwaphi.__main__:run\ncorwaphi-server = corwaphi.server:run\n"
Settings = Optional[Mapping[str, Any]]


def _read(path: str) -> bytes:
    with open(os.path.join(HERE, path), "rb") as file:
        return file.read()


def _version() -> str:
    found = re.search(rb'^__version__ = "([^"]+)"$', _read(os.path.join(PACKAGE, "__init__.py")), re.MULTILINE)
    assert found is not None
    return found.group(1).decode()


def _metadata() -> bytes:
    project = _read("pyproject.toml").decode()
    said = {name: re.search(rf'^{name} = "([^"]+)"$', project, re.MULTILINE) for name in ("description", "requires-python")}
    lines = ["Metadata-Version: 2.1", "Name: corwaphi", f"Version: {_version()}"]
    for field, found in (("Summary", said["description"]), ("Requires-Python", said["requires-python"])):
        assert found is not None
        lines.append(f"{field}: {found.group(1)}")
    classifiers = re.findall(r'^    "([^"]+ :: [^"]+)",$', project, re.MULTILINE)
    lines += [f"Classifier: {classifier}" for classifier in classifiers]
    lines += ["Description-Content-Type: text/markdown", "", _read("README.md").decode()]
    return "\n".join(lines).encode()


def _sources() -> List[str]:
    return sorted(name for name in os.listdir(os.path.join(HERE, PACKAGE)) if name.endswith(".py") or name == "py.typed")


def _folder() -> str:
    return f"corwaphi-{_version()}.dist-info"


def _about() -> Dict[str, bytes]:
    folder = _folder()
    wheel = b"Wheel-Version: 1.0\nGenerator: corwaphi\nRoot-Is-Purelib: true\nTag: py3-none-any\n"
    return {f"{folder}/METADATA": _metadata(), f"{folder}/WHEEL": wheel, f"{folder}/entry_points.txt": SCRIPTS.encode()}


def _wheel(folder: str, files: Dict[str, bytes]) -> str:
    files = {**files, **_about()}
    record = []
    for name, data in files.items():
        digest = base64.urlsafe_b64encode(hashlib.sha256(data).digest()).rstrip(b"=").decode()
        record.append(f"{name},sha256={digest},{len(data)}\n")
    record.append(f"{_folder()}/RECORD,,\n")
    files[f"{_folder()}/RECORD"] = "".join(record).encode()
    name = f"corwaphi-{_version()}-py3-none-any.whl"
    with zipfile.ZipFile(os.path.join(folder, name), "w", zipfile.ZIP_DEFLATED) as wheel:
        for path, data in files.items():
            entry = zipfile.ZipInfo(path, EPOCH)
            entry.external_attr, entry.compress_type = 0o644 << 16, zipfile.ZIP_DEFLATED
            wheel.writestr(entry, data)
    return name


def build_wheel(wheel_directory: str, config_settings: Settings = None, metadata_directory: Optional[str] = None) -> str:
    """A wheel of the package."""
    return _wheel(wheel_directory, {f"corwaphi/{name}": _read(os.path.join(PACKAGE, name)) for name in _sources()})


def build_editable(wheel_directory: str, config_settings: Settings = None, metadata_directory: Optional[str] = None) -> str:
    """A wheel that points to the sources."""
    return _wheel(wheel_directory, {"corwaphi.pth": (os.path.join(HERE, "src") + "\n").encode()})


def build_sdist(sdist_directory: str, config_settings: Settings = None) -> str:
    """An archive of the sources, from which a wheel can be built."""
    top = f"corwaphi-{_version()}"
    paths = ["pyproject.toml", "backend.py", "README.md", *(os.path.join(PACKAGE, name) for name in _sources())]
    with tarfile.open(os.path.join(sdist_directory, f"{top}.tar.gz"), "w:gz") as archive:
        for path, data in [*((path, _read(path)) for path in paths), ("PKG-INFO", _metadata())]:
            entry = tarfile.TarInfo(f"{top}/{path}")
            entry.size, entry.mode = len(data), 0o644
            archive.addfile(entry, io.BytesIO(data))
    return f"{top}.tar.gz"
