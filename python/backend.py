"""Builds the wheel and the source archive of `cherisim` from the standard library alone, so that `pip install ./python` needs no network.

The wheel has libcherisim.so in it where `make -C c` left one; without it the library is found as cherisim/_library.py says.
"""
import base64
import hashlib
import io
import os
import re
import sysconfig
import tarfile
import zipfile

HERE = os.path.dirname(os.path.abspath(__file__))
LIBRARY = os.path.join(HERE, "..", "c", "build", "libcherisim.so")
FILES = [*sorted(f"cherisim/{name}" for name in os.listdir(os.path.join(HERE, "cherisim")) if name.endswith(".py")), "cherisim/py.typed"]
SOURCES = [*FILES, "backend.py", "pyproject.toml"]


def read(*path):
    with open(os.path.join(HERE, *path), "rb") as file:
        return file.read()


def of_project(name):
    """A line of pyproject.toml, which alone says what the project is."""
    return re.search(rf'^{name} = "(.*)"$', read("pyproject.toml").decode(), re.MULTILINE).group(1)


NAME, VERSION = of_project("name"), of_project("version")
INFO = f"{NAME}-{VERSION}.dist-info"
METADATA = f"""Metadata-Version: 2.1
Name: {NAME}
Version: {VERSION}
Summary: {of_project("description")}
Requires-Python: {of_project("requires-python")}
""".encode()


def tag():
    """What the wheel runs on: any system, or that of the library which is in it."""
    platform = re.sub(r"[-.]", "_", sysconfig.get_platform()) if os.path.exists(LIBRARY) else "any"
    return f"py3-none-{platform}"


def record(files):
    """The list of a wheel's files: each with its digest and its length."""
    digest = lambda data: base64.urlsafe_b64encode(hashlib.sha256(data).digest()).rstrip(b"=").decode()
    lines = [f"{name},sha256={digest(data)},{len(data)}" for name, data in files.items()]
    return "\n".join([*lines, f"{INFO}/RECORD,,", ""]).encode()


def build_wheel(wheel_directory, config_settings=None, metadata_directory=None):
    """Writes the wheel into a folder, and answers its name."""
    files = {name: read(name) for name in FILES}
    if os.path.exists(LIBRARY):
        files["cherisim/libcherisim.so"] = read(LIBRARY)
    pure = "true" if tag().endswith("any") else "false"
    files[f"{INFO}/METADATA"] = METADATA
    files[f"{INFO}/WHEEL"] = f"Wheel-Version: 1.0\nGenerator: backend.py\nRoot-Is-Purelib: {pure}\nTag: {tag()}\n".encode()
    files[f"{INFO}/RECORD"] = record(files)
    name = f"{NAME}-{VERSION}-{tag()}.whl"
    with zipfile.ZipFile(os.path.join(wheel_directory, name), "w", zipfile.ZIP_DEFLATED) as wheel:
        for path, data in files.items():
            wheel.writestr(path, data)
    return name


def build_sdist(sdist_directory, config_settings=None):
    """Writes the source archive into a folder, and answers its name."""
    root = f"{NAME}-{VERSION}"
    files = {**{name: read(name) for name in SOURCES}, "PKG-INFO": METADATA}
    with tarfile.open(os.path.join(sdist_directory, f"{root}.tar.gz"), "w:gz", format=tarfile.PAX_FORMAT) as archive:
        for path, data in files.items():
            entry = tarfile.TarInfo(f"{root}/{path}")
            entry.size = len(data)
            archive.addfile(entry, io.BytesIO(data))
    return f"{root}.tar.gz"
