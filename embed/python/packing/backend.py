"""Packs this package for pip (PEP 517): a wheel of its files, made by the standard library alone, so that to install it
takes no other package and no network."""
import base64
import hashlib
import io
import re
import tarfile
import zipfile
from pathlib import Path

TOP = Path(__file__).resolve().parent.parent
PROJECT = (TOP / "pyproject.toml").read_text(encoding="utf-8")


def _said(key):
    """What a line of the project says."""
    return re.search(rf'^{key} = "(.*)"$', PROJECT, re.M)[1]


NAME, VERSION = _said("name"), _said("version")
METADATA = f"""Metadata-Version: 2.1
Name: {NAME}
Version: {VERSION}
Summary: {_said("description")}
Requires-Python: {_said("requires-python")}
"""
WHEEL = """Wheel-Version: 1.0
Generator: yimarotu
Root-Is-Purelib: true
Tag: py3-none-any
"""


def _modules():
    return [path for path in sorted((TOP / NAME).iterdir()) if path.suffix == ".py" or path.name == "py.typed"]


def _write_wheel(path, files):
    """Writes the files with their record (PEP 376): the name of each, the hash and the length."""
    folder, record = f"{NAME}-{VERSION}.dist-info", []
    files = {**files, f"{folder}/METADATA": METADATA.encode(), f"{folder}/WHEEL": WHEEL.encode()}
    for name, octets in files.items():
        digest = base64.urlsafe_b64encode(hashlib.sha256(octets).digest()).rstrip(b"=").decode()
        record.append(f"{name},sha256={digest},{len(octets)}\n")
    files[f"{folder}/RECORD"] = "".join([*record, f"{folder}/RECORD,,\n"]).encode()
    with zipfile.ZipFile(path, "w", zipfile.ZIP_DEFLATED) as wheel:
        for name, octets in files.items():
            # (the time is the same, so that what is made twice is the same)
            wheel.writestr(zipfile.ZipInfo(name, (2026, 1, 1, 0, 0, 0)), octets)


def build_wheel(wheel_directory, config_settings=None, metadata_directory=None):
    name = f"{NAME}-{VERSION}-py3-none-any.whl"
    _write_wheel(Path(wheel_directory, name), {f"{NAME}/{path.name}": path.read_bytes() for path in _modules()})
    return name


def build_editable(wheel_directory, config_settings=None, metadata_directory=None):
    """One whose files stay where they are (PEP 660)."""
    name = f"{NAME}-{VERSION}-py3-none-any.whl"
    _write_wheel(Path(wheel_directory, name), {f"{NAME}.pth": f"{TOP}\n".encode()})
    return name


def build_sdist(sdist_directory, config_settings=None):
    name = f"{NAME}-{VERSION}"
    with tarfile.open(Path(sdist_directory, f"{name}.tar.gz"), "w:gz", format=tarfile.PAX_FORMAT) as archive:
        for path in (TOP / "pyproject.toml", Path(__file__).resolve(), *_modules()):
            archive.add(path, f"{name}/{path.relative_to(TOP)}")
        about = tarfile.TarInfo(f"{name}/PKG-INFO")
        about.size = len(METADATA.encode())
        archive.addfile(about, io.BytesIO(METADATA.encode()))
    return f"{name}.tar.gz"
