"""Makes a wheel of this folder and the shared library, for `pip install`, also one that points here (`-e`), and an
sdist of the sources. It needs nothing but the standard library.

The library is what JEIHPAL_LIBRARY names, or what ./build --library has left in the checkout. An sdist has none: what
is built of it needs JEIHPAL_LIBRARY.
"""

from __future__ import annotations

import base64
import hashlib
import io
import os
import sysconfig
import tarfile
import zipfile

HERE = os.path.dirname(os.path.abspath(__file__))
NAME, VERSION = "jeihpal", "0.1.0"
PACKAGES = ("jeihpal", "jeihpal/testing", "jeihpal_share", "jeihpal_play")
INFO = f"{NAME}-{VERSION}.dist-info"
METADATA = f"""Metadata-Version: 2.1
Name: {NAME}
Version: {VERSION}
Summary: Terminal screens that arrive whole, proved in Rattle
License: MIT
License-File: LICENSE
Requires-Python: >=3.9
"""
SCRIPTS = """[console_scripts]
share = jeihpal_share.program:main
screenplay = jeihpal_play.program:main
jeihpal-test = jeihpal.testing._script:main

[pytest11]
jeihpal = jeihpal.testing.pytest_plugin
"""


def _tag() -> str:
    platform = sysconfig.get_platform().replace("-", "_").replace(".", "_")
    return f"py3-none-{platform}"


def _library() -> bytes:
    path = os.environ.get("JEIHPAL_LIBRARY") or os.path.join(HERE, "..", "out", "libjeihpal.so")
    if not os.path.isfile(path):
        raise FileNotFoundError(
            f"there is no {path}: ./build --library makes it (--unproved in a few minutes), or JEIHPAL_LIBRARY names it"
        )
    with open(path, "rb") as file:
        return file.read()


def _licenses() -> dict[str, bytes]:
    """The license here, and those of the toolchain's libraries that the shared library holds, where they are known."""
    found = {}
    for folder in (HERE, os.path.join(HERE, "..", ".."), os.path.join(HERE, "..", "out", "licenses")):
        if os.path.isdir(folder):
            for name in sorted(os.listdir(folder)):
                if name.startswith("LICENSE"):
                    with open(os.path.join(folder, name), "rb") as file:
                        found[name] = file.read()
    return found


def _packaged() -> dict[str, bytes]:
    """The packages' files, by their names in the wheel."""
    found = {}
    for package in PACKAGES:
        for name in sorted(os.listdir(os.path.join(HERE, package))):
            path = os.path.join(HERE, package, name)
            if name.endswith((".py", ".html", ".typed")):
                with open(path, "rb") as file:
                    found[f"{package}/{name}"] = file.read()
    return found


def _information() -> dict[str, bytes]:
    wheel = f"Wheel-Version: 1.0\nGenerator: {NAME}\nRoot-Is-Purelib: false\nTag: {_tag()}\n"
    texts = {"METADATA": METADATA, "WHEEL": wheel, "entry_points.txt": SCRIPTS}
    files = {f"{INFO}/{name}": text.encode() for name, text in texts.items()}
    return {**files, **{f"{INFO}/licenses/{name}": data for name, data in _licenses().items()}}


def _record(files: dict[str, bytes]) -> bytes:
    """The list of the files, with their checksums and sizes."""
    lines = []
    for name, data in files.items():
        digest = base64.urlsafe_b64encode(hashlib.sha256(data).digest()).rstrip(b"=").decode()
        lines.append(f"{name},sha256={digest},{len(data)}")
    return "\n".join([*lines, f"{INFO}/RECORD,,", ""]).encode()


def _written(files: dict[str, bytes], folder: str) -> str:
    """Writes a wheel of these files, and returns its name."""
    files = {**files, **_information()}
    files[f"{INFO}/RECORD"] = _record(files)
    made = f"{NAME}-{VERSION}-{_tag()}.whl"
    with zipfile.ZipFile(os.path.join(folder, made), "w", zipfile.ZIP_DEFLATED) as wheel:
        for name, data in files.items():
            wheel.writestr(zipfile.ZipInfo(name), data)
    return made


def build_wheel(wheel_directory: str, config_settings: object = None, metadata_directory: object = None) -> str:
    """Makes the wheel in a folder, and returns its name."""
    return _written({**_packaged(), "jeihpal/libjeihpal.so": _library()}, wheel_directory)


def build_editable(wheel_directory: str, config_settings: object = None, metadata_directory: object = None) -> str:
    """Makes a wheel that has the module found here, so that an edit is seen at once."""
    _library()
    return _written({f"{NAME}.pth": f"{HERE}\n".encode()}, wheel_directory)


def build_sdist(sdist_directory: str, config_settings: object = None) -> str:
    """Makes an archive of the sources in a folder, and returns its name."""
    top = f"{NAME}-{VERSION}"
    files = {**_packaged(), **_licenses(), "PKG-INFO": METADATA.encode()}
    for name in ("pyproject.toml", os.path.basename(__file__)):
        with open(os.path.join(HERE, name), "rb") as file:
            files[name] = file.read()
    with tarfile.open(os.path.join(sdist_directory, f"{top}.tar.gz"), "w:gz", format=tarfile.PAX_FORMAT) as sdist:
        for name, data in files.items():
            entry = tarfile.TarInfo(f"{top}/{name}")
            entry.size = len(data)
            sdist.addfile(entry, io.BytesIO(data))
    return f"{top}.tar.gz"
