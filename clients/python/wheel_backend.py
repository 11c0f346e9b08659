"""Builds the package for pip, by the standard library alone, so that nothing has to be downloaded for it.

The three functions without an underscore are those that pip calls (the interface of build backends).
"""
from __future__ import annotations

import base64
import hashlib
import re
import tarfile
import zipfile
from pathlib import Path
from typing import Any, Dict, Optional

HERE = Path(__file__).resolve().parent
PACKAGE = "mq_client"
WHEEL = "Wheel-Version: 1.0\nGenerator: wheel_backend\nRoot-Is-Purelib: true\nTag: py3-none-any\n"
SCRIPTS = f"[console_scripts]\n{PACKAGE} = {PACKAGE}.__main__:main\n"


def build_wheel(wheel_directory: str, config_settings: Optional[Dict[str, Any]] = None,
                metadata_directory: Optional[str] = None) -> str:
    """Writes the package as a wheel; its file's name."""
    modules = sorted((HERE / PACKAGE).glob("*.py")) + [HERE / PACKAGE / "py.typed"]
    return _write_wheel(wheel_directory, {f"{PACKAGE}/{path.name}": path.read_bytes() for path in modules})


def build_editable(wheel_directory: str, config_settings: Optional[Dict[str, Any]] = None,
                   metadata_directory: Optional[str] = None) -> str:
    """Writes a wheel that has Python look for the package in this folder; its file's name."""
    return _write_wheel(wheel_directory, {f"{PACKAGE}.pth": f"{HERE}\n".encode()})


def build_sdist(sdist_directory: str, config_settings: Optional[Dict[str, Any]] = None) -> str:
    """Writes the sources as an archive; its file's name."""
    name = f"{PACKAGE}-{_version()}"
    with tarfile.open(Path(sdist_directory) / f"{name}.tar.gz", "w:gz") as archive:
        for pattern in ("*.py", "*.toml", "*.md", f"{PACKAGE}/*.py", f"{PACKAGE}/py.typed", "tests/*.py"):
            for path in sorted(HERE.glob(pattern)):
                archive.add(path, f"{name}/{path.relative_to(HERE)}")
    return f"{name}.tar.gz"


def _version() -> str:
    found = re.search(r'^__version__ = "(.+)"$', (HERE / PACKAGE / "__init__.py").read_text(), re.MULTILINE)
    assert found is not None
    return found.group(1)


def _metadata() -> str:
    return (f"Metadata-Version: 2.1\nName: {PACKAGE}\nVersion: {_version()}\n"
            "Summary: A client of the message broker mq_broker\nLicense: Apache-2.0\nRequires-Python: >=3.9\n"
            "Description-Content-Type: text/markdown\n\n" + (HERE / "README.md").read_text())


def _write_wheel(folder: str, files: Dict[str, bytes]) -> str:
    name = f"{PACKAGE}-{_version()}"
    info = f"{name}.dist-info"
    files = {**files, f"{info}/METADATA": _metadata().encode(), f"{info}/WHEEL": WHEEL.encode(),
             f"{info}/entry_points.txt": SCRIPTS.encode()}
    rows = [f"{path},sha256={_digest(data)},{len(data)}" for path, data in files.items()] + [f"{info}/RECORD,,"]
    wheel = f"{name}-py3-none-any.whl"
    with zipfile.ZipFile(Path(folder) / wheel, "w", zipfile.ZIP_DEFLATED) as archive:
        for path, data in files.items():
            archive.writestr(path, data)
        archive.writestr(f"{info}/RECORD", "\n".join(rows) + "\n")
    return wheel


def _digest(data: bytes) -> str:
    return base64.urlsafe_b64encode(hashlib.sha256(data).digest()).rstrip(b"=").decode()
