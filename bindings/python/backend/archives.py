"""The wheel and the source archive of this package, the same bytes each time for the same files and moment."""

import base64
import gzip
import hashlib
import io
import re
import tarfile
import time
import zipfile

from extension import FILE, PYTHON

EARLIEST = 315532800  # a zip knows no earlier date than 1980
# What a source archive holds beside the library and the papers.
SOURCES = ("pyproject.toml", "README.md", "backend/*.py", "source/*.[ch]", "timefd/*.py", "timefd/*.pyi", "timefd/py.typed", "tests/*.py")


def version():
    """The version, as the package itself has it."""
    text = (PYTHON / "timefd/__init__.py").read_text(encoding="utf-8")
    return re.search(r'^__version__ = "(.*)"$', text, re.M)[1]


def metadata(papers):
    """What a package says of itself: the file that a source archive has, or else one made of `pyproject.toml`."""
    made = PYTHON / "PKG-INFO"
    if made.exists():
        return made.read_bytes()
    import tomllib  # of Python 3.11

    about = tomllib.loads((PYTHON / "pyproject.toml").read_text(encoding="utf-8"))["project"]
    lines = [
        "Metadata-Version: 2.4",
        f"Name: {about['name']}",
        f"Version: {version()}",
        f"Summary: {about['description']}",
        f"License-Expression: {about['license']}",
        *(f"License-File: {it.name}" for it in papers),
        f"Requires-Python: {about['requires-python']}",
        f"Keywords: {','.join(about['keywords'])}",
        *(f"Classifier: {it}" for it in about["classifiers"]),
        "Description-Content-Type: text/markdown",
    ]
    return "\n".join([*lines, "", ""]).encode() + (PYTHON / about["readme"]).read_bytes()


def digest(data):
    return base64.urlsafe_b64encode(hashlib.sha256(data).digest()).rstrip(b"=").decode()


def write_wheel(extension, platform, folder, moment, papers, more):
    """Writes a wheel with this extension into a folder, and returns its name. `more` are further files: bytes by name."""
    tag = f"cp39-abi3-{platform}"
    info = f"timefd-{version()}.dist-info"
    found = {f"timefd/{it.name}": it.read_bytes() for it in sorted((PYTHON / "timefd").glob("*")) if it.suffix in (".py", ".pyi", ".typed")}
    found |= {f"timefd/{FILE}": extension.read_bytes(), **more}
    found |= {f"{info}/licenses/{it.name}": it.read_bytes() for it in papers}
    found[f"{info}/METADATA"] = metadata(papers)
    found[f"{info}/WHEEL"] = f"Wheel-Version: 1.0\nGenerator: timefd\nRoot-Is-Purelib: false\nTag: {tag}\n".encode()
    rows = [f"{name},sha256={digest(data)},{len(data)}\n" for name, data in found.items()]
    found[f"{info}/RECORD"] = ("".join(rows) + f"{info}/RECORD,,\n").encode()
    name = f"timefd-{version()}-{tag}.whl"
    with zipfile.ZipFile(folder / name, "w") as wheel:
        for path, data in found.items():
            entry = zipfile.ZipInfo(path, time.gmtime(max(moment, EARLIEST))[:6])
            entry.external_attr = 0o644 << 16
            entry.create_system = 3
            wheel.writestr(entry, data, zipfile.ZIP_DEFLATED, 9)
    return name


def write_sdist(libraries, header, folder, moment, papers):
    """Writes the source archive into a folder, and returns its name. It holds the library for each target of `libraries`, for that
    can't be built without its toolchain."""
    root = f"timefd-{version()}"
    files = {str(it.relative_to(PYTHON)): it for pattern in SOURCES for it in sorted(PYTHON.glob(pattern))}
    files |= {it.name: it for it in papers} | {"source/timefd.h": header}
    files |= {f"native/{target}/libtimefd.a": it for target, it in libraries.items()}
    found = {name: path.read_bytes() for name, path in files.items()} | {"PKG-INFO": metadata(papers)}
    name = f"{root}.tar.gz"
    with open(folder / name, "wb") as to, gzip.GzipFile("", "wb", 9, to, moment) as packed:
        with tarfile.open(fileobj=packed, mode="w", format=tarfile.PAX_FORMAT) as archive:
            for path, data in sorted(found.items()):
                add(archive, f"{root}/{path}", data, moment)
    return name


def add(archive, path, data, moment):
    """Adds a file to a tar archive."""
    entry = tarfile.TarInfo(path)
    entry.size, entry.mtime, entry.mode = len(data), moment, 0o644
    archive.addfile(entry, io.BytesIO(data))
