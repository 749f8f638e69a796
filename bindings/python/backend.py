"""Builds the package for pip and for other front ends (PEP 517), by the standard library alone.

A wheel holds the shared library if it is built, and is then for this platform: that of the folder SIMPLEX_AUDIT_LIB, or else of
bindings/out. Without one it is for all platforms.
"""
import base64
import hashlib
import io
import os
import pathlib
import sysconfig
import tarfile
import zipfile

try:
    import tomllib
except ModuleNotFoundError:  # before Python 3.11
    import tomli as tomllib

import simplex_audit

HERE = pathlib.Path(__file__).resolve().parent
PROJECT = tomllib.loads((HERE / "pyproject.toml").read_text())["project"]
NAME = f"{PROJECT['name'].replace('-', '_')}-{PROJECT['version']}"
SOURCES = ("LICENSE", "README.md", "backend.py", "pyproject.toml", "tests.py", "shard_tests.py", "monitor_tests.py")


def _metadata():
    fields = [("Metadata-Version", "2.1"), ("Name", PROJECT["name"]), ("Version", PROJECT["version"])]
    fields += [("Summary", PROJECT["description"]), ("Keywords", ",".join(PROJECT["keywords"]))]
    fields += [("License", PROJECT["license"]), ("License-File", "LICENSE")]
    fields += [("Classifier", it) for it in PROJECT["classifiers"]]
    fields += [("Requires-Python", PROJECT["requires-python"]), ("Description-Content-Type", "text/markdown")]
    head = "".join(f"{name}: {value}\n" for name, value in fields)
    return f"{head}\n{(HERE / PROJECT['readme']).read_text()}".encode()


def _modules():
    """The files of what is imported, by their names."""
    found = sorted([*HERE.glob("simplex_*/*.py"), *HERE.glob("simplex_*/py.typed")])
    return {str(it.relative_to(HERE)): it.read_bytes() for it in found}


def _library():
    """The shared library, by the name that it has in a wheel; nothing if it is not built."""
    built = pathlib.Path(os.environ.get("SIMPLEX_AUDIT_LIB") or HERE.parent / "out", "simplex_audit.so")
    return {f"simplex_audit/{simplex_audit._INSTALLED}": built.read_bytes()} if built.exists() else {}


def build_wheel(wheel_directory, config_settings=None, metadata_directory=None):
    library, info = _library(), f"{NAME}.dist-info"
    tag = f"py3-none-{sysconfig.get_platform().replace('-', '_').replace('.', '_') if library else 'any'}"
    said = f"Wheel-Version: 1.0\nGenerator: backend\nRoot-Is-Purelib: {str(not library).lower()}\nTag: {tag}\n"
    files = _modules() | library | {f"{info}/LICENSE": (HERE / "LICENSE").read_bytes()}
    files |= {f"{info}/METADATA": _metadata(), f"{info}/WHEEL": said.encode()}
    record = ""
    for name, data in files.items():
        digest = base64.urlsafe_b64encode(hashlib.sha256(data).digest()).decode().rstrip("=")
        record += f"{name},sha256={digest},{len(data)}\n"
    files[f"{info}/RECORD"] = f"{record}{info}/RECORD,,\n".encode()
    wheel = f"{NAME}-{tag}.whl"
    with zipfile.ZipFile(pathlib.Path(wheel_directory, wheel), "w", zipfile.ZIP_DEFLATED) as to:
        for name, data in files.items():
            item = zipfile.ZipInfo(name)
            item.external_attr, item.compress_type = 0o100644 << 16, zipfile.ZIP_DEFLATED
            to.writestr(item, data)
    return wheel


def build_sdist(sdist_directory, config_settings=None):
    files = _modules() | {it: (HERE / it).read_bytes() for it in SOURCES} | {"PKG-INFO": _metadata()}
    with tarfile.open(pathlib.Path(sdist_directory, f"{NAME}.tar.gz"), "w:gz") as to:
        for name, data in files.items():
            item = tarfile.TarInfo(f"{NAME}/{name}")
            item.size = len(data)
            to.addfile(item, io.BytesIO(data))
    return f"{NAME}.tar.gz"
