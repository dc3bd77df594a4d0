"""Builds the wheel and the source archive of the package (PEP 517), by the standard library alone.

The C library goes into the wheel where the environment variable HAYRO_CMAP_LIBRARY names it, or where it lies in the
package's folder as libhayro_cmap.so; and with it the licences and the bill of materials that are installed beside it, in
share/doc/hayro_cmap of its prefix. A source archive has the crate of plain Rust, too: where there is no library and
there is cargo, cargo builds it, for the system of this Python. A wheel with a library is for that system; one without it
is for any, and finds the library when it is imported. The version is that of the file VERSION, here in a source archive
and else at the top of the project.
"""

import base64
import gzip
import hashlib
import io
import os
import platform
import shutil
import subprocess
import sys
import sysconfig
import tarfile
import tempfile
import time
import zipfile
from pathlib import Path

HERE = Path(__file__).resolve().parent
TOP = HERE if (HERE / "VERSION").exists() else HERE.parent.parent
VERSION = (TOP / "VERSION").read_text().strip()
LICENCES = ["LICENSE-APACHE", "LICENSE-MIT", "LICENSE-UNICODE"]
BILL = "hayro_cmap.spdx.json"
PACKAGE = "hayro_cmap"
# the name of the library, as cargo gives it and as the package looks for it
LIBRARY = {"win32": "hayro_cmap.dll", "darwin": "libhayro_cmap.dylib"}.get(sys.platform, "libhayro_cmap.so")
CRATE = "c-library"

METADATA = f"""\
Metadata-Version: 2.1
Name: hayro-cmap
Version: {VERSION}
Summary: CMap files: which CID a character code stands for, and which Unicode text
License: MIT OR Apache-2.0
Requires-Python: >=3.8
Provides-Extra: pdf
Requires-Dist: pikepdf >= 6; extra == "pdf"
Requires-Dist: fonttools; extra == "pdf"
Provides-Extra: pdfminer
Requires-Dist: pdfminer.six >= 20221105; extra == "pdfminer"
Requires-Dist: fonttools; extra == "pdfminer"
Provides-Extra: pypdf
Requires-Dist: pypdf >= 3.4; extra == "pypdf"
Requires-Dist: fonttools; extra == "pypdf"
Classifier: Operating System :: OS Independent
Classifier: Programming Language :: Python :: 3
Classifier: Typing :: Typed
Description-Content-Type: text/markdown

"""


def metadata():
    return (METADATA + (HERE / "README.md").read_text()).encode()


def sources():
    """The files of the package, but the library."""
    folder = HERE / PACKAGE
    return [*sorted(folder.rglob("*.py")), folder / "py.typed"]


def library():
    """The path of the C library that goes into the wheel, or None."""
    asked = os.environ.get("HAYRO_CMAP_LIBRARY")
    beside = HERE / PACKAGE / LIBRARY
    return Path(asked) if asked else beside if beside.exists() else None


def built_library(work):
    """The path of the library that cargo builds in a folder, of the crate in a source archive, or None."""
    if not (HERE / CRATE).exists():
        return None
    if not shutil.which("cargo"):
        print("hayro_cmap: no cargo, so the wheel has no library: it is looked for in the system", file=sys.stderr)
        return None
    shutil.copytree(HERE / CRATE, work / CRATE)
    subprocess.run(["cargo", "build", "--release", "--offline", "--target-dir", work], cwd=work / CRATE, check=True)
    # CARGO_BUILD_TARGET has a folder of its own
    return next(path for path in [work / "release" / LIBRARY, *work.glob(f"*/release/{LIBRARY}")] if path.exists())


def materials_of(shared):
    """The names and the paths of the licences and of the bill of materials that are installed with a library."""
    folders = [folder / "share" / "doc" / PACKAGE for folder in shared.resolve().parents]
    folder = next((folder for folder in folders if (folder / BILL).exists()), None)
    if not folder:
        return {}
    licences = [path for kind in ["kit", "crates"] for path in sorted((folder / kind).rglob("*")) if path.is_file()]
    found = {f"licenses/{path.relative_to(folder).as_posix()}": path for path in licences}
    return {**found, f"sboms/{BILL}": folder / BILL}


def system_tag():
    """The tag of a wheel for the system of this Python."""
    system = os.environ.get("_PYTHON_HOST_PLATFORM") or sysconfig.get_platform()
    # a library of cargo is for one kind of processor
    system = system.replace("universal2", platform.machine())
    return "py3-none-" + system.replace("-", "_").replace(".", "_")


def crate_files():
    """The names and the bytes of the crate of plain Rust, for a source archive."""
    with tempfile.TemporaryDirectory() as name:
        folder = HERE / CRATE
        if not folder.exists():
            folder = Path(name, CRATE)
            sys.path.insert(0, str(TOP / "scripts"))
            from plain_rust.workspace import C_LIBRARY, write_alone

            write_alone(folder, C_LIBRARY)
        paths = sorted(path for path in folder.rglob("*") if path.is_file())
        return {f"{CRATE}/{path.relative_to(folder).as_posix()}": path.read_bytes() for path in paths}


def wheel_files(tag, shared):
    """The names and the bytes of what a wheel has, but for the list of them."""
    about = f"{PACKAGE}-{VERSION}.dist-info"
    files = {str(path.relative_to(HERE)): path.read_bytes() for path in sources()}
    if shared:
        files[f"{PACKAGE}/{LIBRARY}"] = shared.read_bytes()
    files[f"{about}/METADATA"] = metadata()
    is_pure = str(shared is None).lower()
    wheel = f"Wheel-Version: 1.0\nGenerator: build_backend\nRoot-Is-Purelib: {is_pure}\nTag: {tag}\n"
    files[f"{about}/WHEEL"] = wheel.encode()
    for name in LICENCES:
        files[f"{about}/licenses/{name}"] = (TOP / name).read_bytes()
    for name, path in (materials_of(shared) if shared else {}).items():
        files[f"{about}/{name}"] = path.read_bytes()
    return files, f"{about}/RECORD"


def record_of(files, record):
    """The list of the files, with their sums and lengths."""
    lines = []
    for name, data in files.items():
        sum = base64.urlsafe_b64encode(hashlib.sha256(data).digest()).rstrip(b"=").decode()
        lines.append(f"{name},sha256={sum},{len(data)}\n")
    return "".join([*lines, f"{record},,\n"]).encode()


def written_at():
    """When the files of an archive say that they were written: the time that SOURCE_DATE_EPOCH gives, or 1980."""
    return max(int(os.environ.get("SOURCE_DATE_EPOCH", "0")), 315532800)


def write_wheel(folder, files, tag):
    name = f"{PACKAGE}-{VERSION}-{tag}.whl"
    with zipfile.ZipFile(Path(folder, name), "w", zipfile.ZIP_DEFLATED) as archive:
        for path, data in files.items():
            entry = zipfile.ZipInfo(path, time.gmtime(written_at())[:6])
            entry.compress_type = zipfile.ZIP_DEFLATED
            entry.external_attr = (0o100755 if path.endswith(LIBRARY) else 0o100644) << 16
            archive.writestr(entry, data)
    return name


def build_wheel(wheel_directory, config_settings=None, metadata_directory=None):
    """Writes the wheel, and gives its name."""
    with tempfile.TemporaryDirectory() as name:
        shared = library() or built_library(Path(name))
        tag = system_tag() if shared else "py3-none-any"
        files, record = wheel_files(tag, shared)
    files[record] = record_of(files, record)
    return write_wheel(wheel_directory, files, tag)


def build_sdist(sdist_directory, config_settings=None):
    """Writes the source archive, and gives its name."""
    root = f"{PACKAGE}-{VERSION}"
    here = ["pyproject.toml", "build_backend.py", "README.md"]
    files = {name: (HERE / name).read_bytes() for name in here}
    folders = [HERE / name for name in ["tests", "pdf_tests", "adapter_tests"]]
    tests = [path for folder in folders for path in sorted(folder.glob("*.py"))]
    files.update({str(path.relative_to(HERE)): path.read_bytes() for path in [*sources(), *tests]})
    files.update({name: (TOP / name).read_bytes() for name in ["VERSION", *LICENCES]})
    files["PKG-INFO"] = metadata()
    files.update(crate_files())
    packed = io.BytesIO()
    with tarfile.open(fileobj=packed, mode="w") as archive:
        for path, data in files.items():
            entry = tarfile.TarInfo(f"{root}/{path}")
            entry.size, entry.mtime = len(data), written_at()
            archive.addfile(entry, io.BytesIO(data))
    Path(sdist_directory, f"{root}.tar.gz").write_bytes(gzip.compress(packed.getvalue(), mtime=written_at()))
    return f"{root}.tar.gz"
