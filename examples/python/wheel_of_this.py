"""Packs the module for `pip install`, with what Python itself has, so that no network is needed. `pip` calls it, by pyproject.toml."""
import base64
import hashlib
import pathlib
import re
import zipfile

_HERE = pathlib.Path(__file__).resolve().parent
_FILES = ("othsolve/__init__.py", "othsolve/py.typed")
# The time that each packed file bears, so that two packings are byte for byte the same.
_TIME = (1980, 1, 1, 0, 0, 0)


def _project() -> dict[str, str]:
    """The texts of pyproject.toml by their names, read as far as this project's file goes."""
    text = (_HERE / "pyproject.toml").read_text(encoding="utf-8")
    return dict(re.findall(r'^([\w-]+) = "(.*)"$', text, re.MULTILINE))


def _contents() -> dict[str, bytes]:
    """The files of the wheel by their paths, without the list of them all."""
    project = _project()
    about = f"{project['name']}-{project['version']}.dist-info"
    metadata = [
        "Metadata-Version: 2.1",
        f"Name: {project['name']}",
        f"Version: {project['version']}",
        f"Summary: {project['description']}",
        f"Requires-Python: {project['requires-python']}",
    ]
    wheel = ["Wheel-Version: 1.0", "Generator: wheel_of_this", "Root-Is-Purelib: true", "Tag: py3-none-any"]
    contents = {path: (_HERE / path).read_bytes() for path in _FILES}
    contents[f"{about}/METADATA"] = "".join(f"{line}\n" for line in metadata).encode()
    contents[f"{about}/WHEEL"] = "".join(f"{line}\n" for line in wheel).encode()
    return contents


def _row(path: str, content: bytes) -> str:
    """The row of a file in the list of a wheel's files: its path, its checksum and its length."""
    checksum = base64.urlsafe_b64encode(hashlib.sha256(content).digest()).rstrip(b"=").decode()
    return f"{path},sha256={checksum},{len(content)}\n"


def build_wheel(wheel_directory: str, config_settings: object = None, metadata_directory: str | None = None) -> str:
    """Writes the wheel into the folder, and returns its name."""
    project, contents = _project(), _contents()
    release = f"{project['name']}-{project['version']}"
    listed = f"{release}.dist-info/RECORD"
    contents[listed] = ("".join(_row(path, content) for path, content in contents.items()) + f"{listed},,\n").encode()
    name = f"{release}-py3-none-any.whl"
    with zipfile.ZipFile(pathlib.Path(wheel_directory) / name, "w", zipfile.ZIP_DEFLATED) as wheel:
        for path, content in contents.items():
            entry = zipfile.ZipInfo(path, _TIME)
            entry.external_attr = 0o644 << 16
            entry.compress_type = zipfile.ZIP_DEFLATED
            wheel.writestr(entry, content)
    return name
