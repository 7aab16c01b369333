"""Makes a wheel of the package, with nothing but the standard library: what `pip install ./clients/python` calls; and an archive of
its sources.

Both hold the package's files and what is said about them. The same sources make the same bytes."""
import base64
import gzip
import hashlib
import io
import pathlib
import re
import tarfile
import time
import zipfile
from typing import Any, Dict, List, Optional

HERE = pathlib.Path(__file__).resolve().parent
PACKAGE = "lexmin"
TIME = 1577836800  # of all files: the beginning of 2020


def _said(name: str) -> str:
    """What pyproject.toml says of the project under a name."""
    found = re.search(rf'^{name} = "(.*)"$', (HERE / "pyproject.toml").read_text(), re.MULTILINE)
    assert found, name
    return found.group(1)


def _classifiers() -> List[str]:
    found = re.search(r"^classifiers = \[\n(.*?)^\]", (HERE / "pyproject.toml").read_text(), re.MULTILINE | re.DOTALL)
    assert found
    return re.findall('"(.*)"', found.group(1))


def _version() -> str:
    found = re.search(r'^__version__ = "(.*)"$', (HERE / PACKAGE / "__init__.py").read_text(), re.MULTILINE)
    assert found
    return found.group(1)


def _metadata() -> str:
    return "\n".join([
        "Metadata-Version: 2.1", f"Name: {PACKAGE}", f"Version: {_version()}", f"Summary: {_said('description')}",
        f"Requires-Python: {_said('requires-python')}", *(f"Classifier: {it}" for it in _classifiers()),
        "Description-Content-Type: text/markdown", "",
        (HERE / "README.md").read_text()])


def _about() -> Dict[str, str]:
    return {
        "METADATA": _metadata(),
        "WHEEL": "Wheel-Version: 1.0\nGenerator: build_backend\nRoot-Is-Purelib: true\nTag: py3-none-any\n",
        "entry_points.txt": f"[console_scripts]\n{PACKAGE} = {_said(PACKAGE)}\n",
    }


def _wheel(folder: str, files: Dict[str, bytes]) -> str:
    name = f"{PACKAGE}-{_version()}"
    about = f"{name}.dist-info"
    files = {**files, **{f"{about}/{file}": text.encode() for file, text in _about().items()}}
    record = ""
    for file, data in files.items():
        digest = base64.urlsafe_b64encode(hashlib.sha256(data).digest()).rstrip(b"=").decode()
        record += f"{file},sha256={digest},{len(data)}\n"
    files[f"{about}/RECORD"] = (record + f"{about}/RECORD,,\n").encode()
    made = f"{name}-py3-none-any.whl"
    with zipfile.ZipFile(pathlib.Path(folder) / made, "w", zipfile.ZIP_DEFLATED) as archive:
        for file, data in files.items():
            entry = zipfile.ZipInfo(file, time.gmtime(TIME)[:6])
            entry.external_attr = 0o644 << 16
            entry.compress_type = zipfile.ZIP_DEFLATED
            archive.writestr(entry, data)
    return made


def _sources() -> Dict[str, bytes]:
    found = sorted(it for it in (HERE / PACKAGE).iterdir() if it.suffix == ".py" or it.name == "py.typed")
    return {f"{PACKAGE}/{it.name}": it.read_bytes() for it in found}


def build_wheel(wheel_directory: str, config_settings: Optional[Dict[str, Any]] = None,
                metadata_directory: Optional[str] = None) -> str:
    return _wheel(wheel_directory, _sources())


def build_editable(wheel_directory: str, config_settings: Optional[Dict[str, Any]] = None,
                   metadata_directory: Optional[str] = None) -> str:
    return _wheel(wheel_directory, {f"{PACKAGE}.pth": f"{HERE}\n".encode()})


def build_sdist(sdist_directory: str, config_settings: Optional[Dict[str, Any]] = None) -> str:
    name = f"{PACKAGE}-{_version()}"
    files = {file: (HERE / file).read_bytes() for file in ("pyproject.toml", "README.md", "build_backend.py")}
    made = io.BytesIO()
    with tarfile.open(fileobj=made, mode="w", format=tarfile.PAX_FORMAT) as archive:
        for file, data in {**files, **_sources(), "PKG-INFO": _metadata().encode()}.items():
            entry = tarfile.TarInfo(f"{name}/{file}")
            entry.size, entry.mtime = len(data), TIME
            archive.addfile(entry, io.BytesIO(data))
    (pathlib.Path(sdist_directory) / f"{name}.tar.gz").write_bytes(gzip.compress(made.getvalue(), mtime=TIME))
    return f"{name}.tar.gz"
