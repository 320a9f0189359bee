"""Builds the wheel of the package as PEP 517 asks, by the standard library alone, so that pip needs no network. A liblichenknit.so in the
folder of the package goes into the wheel."""

import base64
import hashlib
import os
import tarfile
import tomllib
import zipfile

HERE = os.path.dirname(os.path.abspath(__file__))
LIBRARY = "liblichenknit.so"


def project():
    with open(f"{HERE}/pyproject.toml", "rb") as file:
        return tomllib.load(file)["project"]


def package():
    """The files of the package, as paths from here."""
    names = sorted(os.listdir(f"{HERE}/lichenknit"))
    return [f"lichenknit/{it}" for it in names if it.endswith((".py", ".typed")) or it == LIBRARY]


def metadata():
    it = project()
    return (f"Metadata-Version: 2.1\nName: {it['name']}\nVersion: {it['version']}\nSummary: {it['description']}\n"
            f"License: {it['license']['text']}\nRequires-Python: {it['requires-python']}\n")


def written(folder, files):
    """Writes a wheel with these files, by their names, and gives its name."""
    tag = "py3-none-linux_x86_64" if f"lichenknit/{LIBRARY}" in files else "py3-none-any"
    stem = f"{project()['name']}-{project()['version']}"
    info = f"{stem}.dist-info"
    kind = f"Wheel-Version: 1.0\nGenerator: build_wheel\nRoot-Is-Purelib: {str(tag.endswith('any')).lower()}\nTag: {tag}\n"
    files = {**files, f"{info}/METADATA": metadata().encode(), f"{info}/WHEEL": kind.encode()}
    record = ""
    with zipfile.ZipFile(f"{folder}/{stem}-{tag}.whl", "w", zipfile.ZIP_DEFLATED) as wheel:
        for name, data in files.items():
            wheel.writestr(name, data)
            digest = base64.urlsafe_b64encode(hashlib.sha256(data).digest()).rstrip(b"=").decode()
            record += f"{name},sha256={digest},{len(data)}\n"
        wheel.writestr(f"{info}/RECORD", f"{record}{info}/RECORD,,\n")
    return f"{stem}-{tag}.whl"


def read(path):
    with open(f"{HERE}/{path}", "rb") as file:
        return file.read()


def build_wheel(wheel_directory, config_settings=None, metadata_directory=None):
    return written(wheel_directory, {it: read(it) for it in package()})


def build_editable(wheel_directory, config_settings=None, metadata_directory=None):
    return written(wheel_directory, {"lichenknit.pth": f"{HERE}\n".encode()})


def build_sdist(sdist_directory, config_settings=None):
    stem = f"{project()['name']}-{project()['version']}"
    with tarfile.open(f"{sdist_directory}/{stem}.tar.gz", "w:gz") as archive:
        for name in ["pyproject.toml", "build_wheel.py", *package()]:
            archive.add(f"{HERE}/{name}", f"{stem}/{name}")
    return f"{stem}.tar.gz"
