"""Writes the wheel: the module as a package with its types, and the shared library beside it. Needs nothing but Python 3.11; the
same files give the same bytes.

    python3 wheel_backend.py --library FILE --platform x86_64|aarch64 --license FILE --to FOLDER

It is also the build backend that pyproject.toml names, so that `pip install` of this folder works without a network: the
library is then the one that WINNATHEY_LIBRARY names, or the one that `make` built for this machine."""
import argparse
import base64
import hashlib
import os
import platform
import sys
import tomllib
import zipfile

HERE = os.path.dirname(os.path.abspath(__file__))
ROOT = os.path.dirname(os.path.dirname(HERE))
DEBIANS_LICENSE = "/usr/share/common-licenses/Apache-2.0"
# The library asks for symbols of glibc 2.17 at most, on either machine.
PLATFORM = "manylinux_2_17"


def read(*path):
    with open(os.path.join(*path), "rb") as file:
        return file.read()


def metadata(project):
    """The core metadata of pyproject.toml's table."""
    yield from (
        "Metadata-Version: 2.4",
        f"Name: {project['name']}",
        f"Version: {project['version']}",
        f"Summary: {project['description']}",
        f"Author: {', '.join(author['name'] for author in project['authors'])}",
        f"License-Expression: {project['license']}",
    )
    yield from (f"License-File: {name}" for name in project["license-files"])
    yield f"Keywords: {','.join(project['keywords'])}"
    yield from (f"Classifier: {name}" for name in project["classifiers"])
    yield f"Requires-Python: {project['requires-python']}"
    yield "Description-Content-Type: text/markdown"
    yield ""
    yield read(HERE, project["readme"]).decode()


def written(folder, library, machine, license_text):
    """Writes the wheel to a folder, and returns its name."""
    project = tomllib.loads(read(HERE, "pyproject.toml").decode())["project"]
    name, version = project["name"], project["version"]
    information = f"{name}-{version}.dist-info"
    tag = f"py3-none-{PLATFORM}_{machine}"
    files = {
        f"{name}/__init__.py": read(HERE, "winnathey.py"),
        f"{name}/py.typed": b"",
        f"{name}/libwinnathey.so.1": read(library),
        f"{information}/METADATA": "\n".join(metadata(project)).encode(),
        f"{information}/WHEEL": f"Wheel-Version: 1.0\nGenerator: winnathey\nRoot-Is-Purelib: false\nTag: {tag}\n".encode(),
        f"{information}/licenses/LICENSE": read(ROOT, "LICENSE"),
        f"{information}/licenses/Apache-2.0": read(license_text),
    }
    record = f"{information}/RECORD"
    hashes = {file: base64.urlsafe_b64encode(hashlib.sha256(data).digest()).rstrip(b"=").decode() for file, data in files.items()}
    files[record] = "".join(f"{file},sha256={hashes[file]},{len(data)}\n" for file, data in files.items()).encode() + f"{record},,\n".encode()
    wheel = f"{name}-{version}-{tag}.whl"
    with zipfile.ZipFile(os.path.join(folder, wheel), "w", zipfile.ZIP_DEFLATED) as archive:
        for file, data in files.items():
            entry = zipfile.ZipInfo(file)  # its time is fixed, 1980
            entry.external_attr = 0o100644 << 16
            entry.compress_type = zipfile.ZIP_DEFLATED
            archive.writestr(entry, data, compresslevel=9)
    return wheel


def build_wheel(wheel_directory, config_settings=None, metadata_directory=None):
    """What pip calls."""
    machine = platform.machine()
    library = os.environ.get("WINNATHEY_LIBRARY") or os.path.join(ROOT, "target", "targets", f"{machine}-linux", "libwinnathey.so.1")
    if not os.path.exists(library):
        sys.exit(f"{library} is not there: run make, or set WINNATHEY_LIBRARY to libwinnathey.so.1")
    return written(wheel_directory, library, machine, os.environ.get("WINNATHEY_LICENSE_TEXT", DEBIANS_LICENSE))


def main():
    parser = argparse.ArgumentParser(description=__doc__, formatter_class=argparse.RawDescriptionHelpFormatter)
    parser.add_argument("--library", required=True)
    parser.add_argument("--platform", required=True, choices=["x86_64", "aarch64"])
    parser.add_argument("--license", required=True)
    parser.add_argument("--to", required=True)
    given = parser.parse_args()
    print(written(given.to, given.library, given.platform, given.license))


if __name__ == "__main__":
    main()
