"""Makes the wheel, with the shared object inside: what pip asks of a build (PEP 517), on the standard library of Python 3.11 or newer alone."""

import base64
import hashlib
import os
import pathlib
import re
import sysconfig
import tomllib
import zipfile

_here = pathlib.Path(__file__).resolve().parent


class UnsupportedOperation(Exception):
    """What pip is told where there is no such build."""


def build_sdist(sdist_directory, config_settings=None):
    raise UnsupportedOperation("the package has the proved library inside, which its sources alone do not make")


def build_wheel(wheel_directory, config_settings=None, metadata_directory=None):
    project = tomllib.loads((_here / "pyproject.toml").read_text())["project"]
    version = re.search(r'^__version__ = "(.+)"$', (_here / "yirvagul/__init__.py").read_text(), re.M)[1]
    platform = re.sub(r"[-.]", "_", sysconfig.get_platform())
    tag = f"py3-none-{platform}"  # the shared object is called by ctypes, so any Python 3 will do
    stem = f"{project['name']}-{version}"
    files = {f"yirvagul/{path.name}": path.read_bytes() for path in sorted((_here / "yirvagul").glob("*.py"))}
    files["yirvagul/py.typed"] = b""
    files["yirvagul/libyirvagul.so"] = _shared_object()
    files[f"{stem}.dist-info/METADATA"] = _metadata(project, version).encode()
    files[f"{stem}.dist-info/WHEEL"] = f"Wheel-Version: 1.0\nGenerator: yirvagul\nRoot-Is-Purelib: false\nTag: {tag}\n".encode()
    record = f"{stem}.dist-info/RECORD"
    files[record] = "".join([*(_recorded(name, data) for name, data in files.items()), f"{record},,\n"]).encode()
    name = f"{stem}-{tag}.whl"
    with zipfile.ZipFile(os.path.join(wheel_directory, name), "w", zipfile.ZIP_DEFLATED) as wheel:
        for path, data in files.items():
            entry = zipfile.ZipInfo(path)  # with the year 1980: the same files give the same wheel
            entry.compress_type = zipfile.ZIP_DEFLATED
            entry.external_attr = 0o100644 << 16
            wheel.writestr(entry, data)
    return name


def _shared_object():
    path = pathlib.Path(os.environ.get("YIRVAGUL_SO") or _here.parents[1] / "target/python/libyirvagul.so")
    if not path.exists():
        raise FileNotFoundError(f"no shared object {path}: run `bindings/archive` and then `bindings/python/build`")
    return path.read_bytes()


def _metadata(project, version):
    lines = [
        "Metadata-Version: 2.1",
        f"Name: {project['name']}",
        f"Version: {version}",
        f"Summary: {project['description']}",
        f"Requires-Python: {project['requires-python']}",
    ]
    for extra, needs in project["optional-dependencies"].items():
        lines += [f"Provides-Extra: {extra}", *(f'Requires-Dist: {need}; extra == "{extra}"' for need in needs)]
    lines += ["Description-Content-Type: text/markdown", "", (_here / project["readme"]).read_text()]
    return "\n".join(lines)


def _recorded(name, data):
    digest = base64.urlsafe_b64encode(hashlib.sha256(data).digest()).rstrip(b"=").decode()
    return f"{name},sha256={digest},{len(data)}\n"
