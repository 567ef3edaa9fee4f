"""Builds the wheel for pip (PEP 517): the package with the proved library in it.

The library is the one that GATEWREN_SO names, else the one that `./gatewren shared` made."""

import base64
import hashlib
import os
import pathlib
import sysconfig
import tomllib
import zipfile

HERE = pathlib.Path(__file__).resolve().parent


def _library():
    path = pathlib.Path(os.environ.get("GATEWREN_SO", HERE.parents[1] / "target" / "shared" / "libgatewren.so"))
    if not path.is_file():
        raise SystemExit(f"there is no {path}: build it by './gatewren shared' first, or name another place in GATEWREN_SO")
    return path.read_bytes()


def _files(project, tag):
    """What the wheel holds, by name, but for its record."""
    package = {f"gatewren/{path.name}": path.read_bytes() for path in (HERE / "gatewren").iterdir() if path.is_file()}
    info = f"gatewren-{project['version']}.dist-info"
    metadata = ["Metadata-Version: 2.4", f"Name: {project['name']}", f"Version: {project['version']}"]
    metadata += [f"Summary: {project['description']}", f"License-Expression: {project['license']}"]
    metadata += ["License-File: LICENSE", f"Keywords: {','.join(project['keywords'])}"]
    metadata += [f"Requires-Python: {project['requires-python']}"]
    wheel = ["Wheel-Version: 1.0", "Generator: gatewren", "Root-Is-Purelib: false", f"Tag: {tag}"]
    return {
        **package,
        "gatewren/libgatewren.so": _library(),
        f"{info}/METADATA": "\n".join(metadata + [""]).encode(),
        f"{info}/WHEEL": "\n".join(wheel + [""]).encode(),
        f"{info}/licenses/LICENSE": (HERE.parents[1] / "LICENSE").read_bytes(),
    }, info


def build_wheel(wheel_directory, config_settings=None, metadata_directory=None):
    project = tomllib.loads((HERE / "pyproject.toml").read_text())["project"]
    platform = sysconfig.get_platform().replace("-", "_").replace(".", "_")
    tag = f"py3-none-{platform}"
    files, info = _files(project, tag)
    rows = []
    name = f"gatewren-{project['version']}-{tag}.whl"
    with zipfile.ZipFile(pathlib.Path(wheel_directory) / name, "w", zipfile.ZIP_DEFLATED) as wheel:
        for path, content in files.items():
            digest = base64.urlsafe_b64encode(hashlib.sha256(content).digest()).rstrip(b"=").decode()
            rows.append(f"{path},sha256={digest},{len(content)}\n")
            wheel.writestr(path, content)
        wheel.writestr(f"{info}/RECORD", "".join(rows) + f"{info}/RECORD,,\n")
    return name


def build_sdist(sdist_directory, config_settings=None):
    raise SystemExit("there is no source archive: the library is proved and built in the repository")
