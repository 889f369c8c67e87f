"""The build backend of the package (PEP 517 and 660): a wheel with the shared library in it, made with nothing but Python and a C compiler."""
import base64
import hashlib
import io
import re
import struct
import sysconfig
import tarfile
import tempfile
import zipfile
from pathlib import Path

import _build  # of the package, by backend-path

TOP = Path(__file__).resolve().parent.parent
PACKAGE = TOP / "addercoil"
DATE = (1980, 1, 1, 0, 0, 0)  # of each file, so that the same sources make the same wheel


def version():
    """The version of the library, as 0.10.0."""
    number = int(re.search(r"^VERSION: Final = (\d+)$", (PACKAGE / "_names.py").read_text(encoding="ascii"), flags=re.M)[1])
    return f"{number // 10_000}.{number // 100 % 100}.{number % 100}"


def metadata():
    """The text METADATA of a wheel, and PKG-INFO of a source package."""
    lines = ["Metadata-Version: 2.1", "Name: addercoil", f"Version: {version()}", "Summary: A verified decoder of ADS-B messages, for scripts"]
    lines += ["License: MIT", "Requires-Python: >=3.10", "Description-Content-Type: text/markdown", ""]
    return "\n".join(lines) + "\n" + (TOP / "README.md").read_text(encoding="utf-8")


def platform_tag():
    """The platform, as pip names it; a system of 32 bits on a processor of 64 has the name of 32."""
    name = sysconfig.get_platform().replace("-", "_").replace(".", "_")
    return "linux_armv7l" if name == "linux_aarch64" and struct.calcsize("P") == 4 else name


def write_wheel(folder, tag, files):
    """Writes a wheel of these files, by their names in it; its name."""
    info = f"addercoil-{version()}.dist-info"
    wheel = f"Wheel-Version: 1.0\nGenerator: addercoil\nRoot-Is-Purelib: false\nTag: {tag}\n"
    files = {**files, f"{info}/METADATA": metadata().encode("utf-8"), f"{info}/WHEEL": wheel.encode("ascii")}
    files[f"{info}/LICENSE"] = (_build.sources(TOP) / "LICENSE").read_bytes()
    records = [f"{name},sha256={checksum(content)},{len(content)}" for name, content in files.items()]
    files[f"{info}/RECORD"] = "\n".join([*records, f"{info}/RECORD,,", ""]).encode("utf-8")
    name = f"addercoil-{version()}-{tag}.whl"
    with zipfile.ZipFile(Path(folder) / name, "w", zipfile.ZIP_DEFLATED) as made:
        for path, content in files.items():
            one = zipfile.ZipInfo(path, DATE)
            one.external_attr = (0o755 if path.endswith(".so") else 0o644) << 16
            one.compress_type = zipfile.ZIP_DEFLATED
            made.writestr(one, content)
    return name


def checksum(content):
    """As RECORD has it."""
    return base64.urlsafe_b64encode(hashlib.sha256(content).digest()).rstrip(b"=").decode("ascii")


def package_files():
    """The files of the package in the tree, by their names in a wheel."""
    paths = sorted(path for path in PACKAGE.iterdir() if path.suffix == ".py" or path.name == "py.typed")
    return {f"addercoil/{path.name}": path.read_bytes() for path in paths}


def build_wheel(wheel_directory, config_settings=None, metadata_directory=None):
    """The wheel that pip installs."""
    with tempfile.TemporaryDirectory() as folder:
        made = Path(folder) / _build.NAME
        _build.build(_build.sources(TOP), made)
        files = package_files() | {f"addercoil/{_build.NAME}": made.read_bytes()}
    return write_wheel(wheel_directory, f"py3-none-{platform_tag()}", files)


def build_editable(wheel_directory, config_settings=None, metadata_directory=None):
    """For pip install --editable: a line that names the tree, in which the library is built at the first import."""
    _build.sources(TOP)
    return write_wheel(wheel_directory, f"py3-none-{platform_tag()}", {"addercoil.pth": f"{TOP}\n".encode("utf-8")})


def build_sdist(sdist_directory, config_settings=None):
    """A source package: this folder, and dist/ in it."""
    dist, root = _build.sources(TOP), f"addercoil-{version()}"
    paths = {"pyproject.toml": TOP / "pyproject.toml", "README.md": TOP / "README.md", "backend/addercoil_backend.py": Path(__file__)}
    paths |= {name: TOP / name for name in package_files()}
    paths |= {f"dist/{path.relative_to(dist)}": path for path in sorted(dist.rglob("*")) if path.is_file()}
    contents = {name: path.read_bytes() for name, path in paths.items()} | {"PKG-INFO": metadata().encode("utf-8")}
    with tarfile.open(Path(sdist_directory) / f"{root}.tar.gz", "w:gz", format=tarfile.PAX_FORMAT) as made:
        for name, content in contents.items():
            one = tarfile.TarInfo(f"{root}/{name}")
            one.size, one.mode = len(content), 0o644
            made.addfile(one, io.BytesIO(content))
    return f"{root}.tar.gz"
