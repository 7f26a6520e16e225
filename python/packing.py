"""What pip calls to install this folder: it packs the package, and the shared library that it finds. It needs no other package and no network."""
import base64
import hashlib
import pathlib
import re
import sysconfig
import zipfile
from typing import Any, Dict, Iterator, Optional, Tuple

import mulkavesh

HERE = pathlib.Path(__file__).resolve().parent


def _files() -> Iterator[Tuple[str, bytes]]:
    """What is installed, into one folder. A library that the system has stays where it is."""
    for path in (*sorted((HERE / "mulkavesh").glob("*.py")), HERE / "mulkavesh" / "py.typed", pathlib.Path(mulkavesh._library._name)):
        if path.is_file():
            yield f"mulkavesh/{path.name}", path.read_bytes()


def _told(words: Dict[str, str], tag: str) -> Iterator[Tuple[str, bytes]]:
    """What is told of it."""
    fields = {"Name": "name", "Version": "version", "Summary": "description", "License": "license", "Requires-Python": "requires-python"}
    yield "METADATA", ("Metadata-Version: 2.1\n" + "".join(f"{field}: {words[word]}\n" for field, word in fields.items())).encode()
    yield "WHEEL", f"Wheel-Version: 1.0\nGenerator: packing\nRoot-Is-Purelib: false\nTag: {tag}\n".encode()


def _line(name: str, content: bytes) -> str:
    digest = base64.urlsafe_b64encode(hashlib.sha256(content).digest()).rstrip(b"=").decode()
    return f"{name},sha256={digest},{len(content)}\n"


def build_wheel(wheel_directory: str, config_settings: Optional[Dict[str, Any]] = None, metadata_directory: Optional[str] = None) -> str:
    """Writes the package into this folder, and answers its name."""
    words = dict(re.findall(r'^([a-z-]+) = (?:\{ text = )?"([^"]*)"', (HERE / "pyproject.toml").read_text(encoding="utf-8"), re.M))
    tag = "py3-none-" + re.sub(r"[-.]", "_", sysconfig.get_platform())
    name, folder = f"mulkavesh-{words['version']}-{tag}.whl", f"mulkavesh-{words['version']}.dist-info"
    files = [*_files(), *((f"{folder}/{it}", content) for it, content in _told(words, tag))]
    record = "".join(_line(*file) for file in files) + f"{folder}/RECORD,,\n"
    with zipfile.ZipFile(pathlib.Path(wheel_directory, name), "w", zipfile.ZIP_DEFLATED) as packed:
        for it, content in (*files, (f"{folder}/RECORD", record.encode())):
            packed.writestr(it, content)
    return name
