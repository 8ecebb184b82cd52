"""Builds the package with Python's standard library alone (PEP 517), so that `pip install ./python` needs no network
and no other package.

A wheel of pure Python is a zip file of the package with three files about it. `pip` names this module in
pyproject.toml.
"""
import base64
import hashlib
import importlib
import os
import re
import sys
import tarfile
import tomllib
import zipfile
from collections.abc import Iterable, Iterator
from typing import Any

HERE = os.path.dirname(os.path.abspath(__file__))
TAG = "py3-none-any"
# what the package reads of the repository
COPIED = {os.path.join("..", "docs", "SCENARIO.md"): "colregs/model/SCENARIO.md"}
SHARED = {"man1": "share/man/man1", "bash": "share/bash-completion/completions", "zsh": "share/zsh/site-functions",
          # where a wheel installs the pages and completions of the commands
          "fish": "share/fish/vendor_completions.d"}
# the earliest time that a zip file can hold: the same sources give the same bytes
EARLIEST = (1980, 1, 1, 0, 0, 0)


def project() -> dict[str, Any]:
    """Returns the table `project` of pyproject.toml, with the version that the package states."""
    with open(os.path.join(HERE, "pyproject.toml"), "rb") as source:
        table: dict[str, Any] = tomllib.load(source)["project"]
    with open(os.path.join(HERE, "colregs", "__init__.py"), encoding="utf-8") as source:
        version = re.search(r'^VERSION = "([^"]+)"$', source.read(), re.M)
    return table | {"version": version[1] if version else "0"}


def package_files() -> Iterator[str]:
    """Yields the path of each file of the package, from this folder on, in the order of their names."""
    for folder, folders, names in os.walk(os.path.join(HERE, "colregs")):
        folders[:] = sorted(name for name in folders if name != "__pycache__")
        for name in sorted(names):
            yield os.path.relpath(os.path.join(folder, name), HERE)


def base_name(table: dict[str, Any]) -> str:
    """Returns the name of the distribution and its version, as file names have them."""
    return f"{table['name'].replace('-', '_')}-{table['version']}"


def about_files(table: dict[str, Any]) -> dict[str, str]:
    """Returns the files about the package: metadata, the kind of wheel, and the commands."""
    metadata = [
        f"Metadata-Version: 2.1\nName: {table['name']}\nVersion: {table['version']}\nSummary: {table['description']}\n"
        f"License: {table['license']['text']}\nRequires-Python: {table['requires-python']}\n"
    ]
    commands = "".join(f"colregs-{name} = colregs.cli.{name}:command\n" for name in pages().names())
    return {
        "METADATA": metadata[0],
        "WHEEL": f"Wheel-Version: 1.0\nGenerator: build_offline\nRoot-Is-Purelib: true\nTag: {TAG}\n",
        "entry_points.txt": f"[console_scripts]\n{commands}"
    }


class Wheel:
    """A wheel that is being written: its zip file, and the record of what is in it."""

    def __init__(self, path: str) -> None:
        self.zip = zipfile.ZipFile(path, "w", zipfile.ZIP_DEFLATED)
        self.record: list[str] = []

    def add(self, name: str, content: bytes) -> None:
        """Adds a file with its sum to the wheel."""
        total = base64.urlsafe_b64encode(hashlib.sha256(content).digest()).rstrip(b"=").decode()
        self.record.append(f"{name},sha256={total},{len(content)}\n")
        self.put(name, content)

    def put(self, name: str, content: bytes | str) -> None:
        """Adds a file."""
        entry = zipfile.ZipInfo(name, EARLIEST)
        entry.external_attr = 0o644 << 16
        self.zip.writestr(entry, content, zipfile.ZIP_DEFLATED)

    def close(self, folder: str) -> None:
        """Adds the record, and ends the wheel."""
        self.put(f"{folder}/RECORD", "".join(self.record) + f"{folder}/RECORD,,\n")
        self.zip.close()


def pages() -> Any:
    """Returns the module that lists the commands and writes their pages."""
    if HERE not in sys.path:
        sys.path.insert(0, HERE)
    return importlib.import_module("colregs.cli.pages")


def shared_files(table: dict[str, Any]) -> Iterator[tuple[str, bytes]]:
    """Yields the manual pages and completions, by where a wheel has them."""
    for path, text in sorted(pages().pages().items()):
        kind, _, name = path.partition("/")
        yield f"{base_name(table)}.data/data/{SHARED[kind]}/{name}", text.encode()


def write_wheel(directory: str, files: Iterable[tuple[str, bytes]]) -> str:
    """Writes a wheel with these files of (name, bytes), and the pages of the commands; returns its name."""
    table = project()
    name, folder = f"{base_name(table)}-{TAG}.whl", f"{base_name(table)}.dist-info"
    wheel = Wheel(os.path.join(directory, name))
    for path, content in [*files, *shared_files(table)]:
        wheel.add(path, content)
    for path, text in about_files(table).items():
        wheel.add(f"{folder}/{path}", text.encode())
    wheel.close(folder)
    return name


def build_wheel(wheel_directory: str, config_settings: object = None, metadata_directory: object = None) -> str:
    """Writes the wheel into a folder; returns its name (PEP 517)."""
    def content(path: str) -> bytes:
        with open(os.path.join(HERE, path), "rb") as source:
            return source.read()
    names = {path: path.replace(os.sep, "/") for path in package_files()}
    # a sdist has them in their places
    names |= {path: name for path, name in COPIED.items() if os.path.exists(os.path.join(HERE, path))}
    return write_wheel(wheel_directory, ((name, content(path)) for path, name in names.items()))


def build_editable(wheel_directory: str, config_settings: object = None, metadata_directory: object = None) -> str:
    """Writes a wheel that points to this folder; returns its name (PEP 660)."""
    return write_wheel(wheel_directory, [("colregs_tools.pth", (HERE + "\n").encode())])


def build_sdist(sdist_directory: str, config_settings: object = None) -> str:
    """Writes the sources as a tarball into a folder; returns its name (PEP 517)."""
    base = base_name(project())
    with tarfile.open(os.path.join(sdist_directory, base + ".tar.gz"), "w:gz") as out:
        for path in ["pyproject.toml", os.path.basename(__file__), *package_files()]:
            out.add(os.path.join(HERE, path), f"{base}/{path}")
        for path, name in COPIED.items():
            out.add(os.path.join(HERE, path), f"{base}/{name}")
    return base + ".tar.gz"
