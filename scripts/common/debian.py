"""Makes Debian packages with dpkg-deb from the files that scripts/install puts under /usr."""

import gzip
import hashlib
import os
import re
import shutil
import subprocess
import sys
import textwrap
import zipfile
from pathlib import Path
from string import Template

from . import materials
from .released import CHANGELOG, released

TOP = Path(__file__).resolve().parents[2]
HERE = CHANGELOG.parent
UPSTREAM = (TOP / "VERSION").read_text().strip()
SONAME = f"libhayro_cmap.so.{UPSTREAM.split('.')[0]}"
TRIPLET = "x86_64-linux-gnu"
PYTHON = "usr/lib/python3/dist-packages"
BIN, LIBRARY, DEV, PYTHON3 = "hayro-cmap", "libhayro-cmap1", "libhayro-cmap-dev", "python3-hayro-cmap"
# the package and the place for each path that scripts/install writes; the first matching pattern counts
DOCS = "usr/share/doc/hayro_cmap"
PLACES = [
    (r"usr/bin/.*", BIN, r"\g<0>"),
    (r"usr/share/zsh/site-functions/(.*)", BIN, r"usr/share/zsh/vendor-completions/\1"),
    (r"usr/share/(man|bash-completion|fish)/.*", BIN, r"\g<0>"),
    (rf"usr/lib/{TRIPLET}/libhayro_cmap\.so\..*", LIBRARY, r"\g<0>"),
    (rf"usr/(include|lib/{TRIPLET})/.*", DEV, r"\g<0>"),
    (rf"{DOCS}/(\w+\.md|examples/.*)", DEV, rf"usr/share/doc/{DEV}/\1"),
]


class Tree:
    """The files of a package."""

    def __init__(self, name, root):
        self.name, self.root = name, root
        self.about = root / "DEBIAN"
        self.about.mkdir(parents=True)

    def put(self, source, path):
        """Adds a file, or a link."""
        target = self.target(path)
        shutil.copy2(source, target, follow_symlinks=False)
        return target

    def write(self, path, data, mode=0o644):
        """Adds a file of these bytes."""
        target = self.target(path)
        target.write_bytes(data)
        target.chmod(mode)

    def target(self, path):
        """The place to which the file of a path is written."""
        target = self.root / path
        target.parent.mkdir(parents=True, exist_ok=True)
        return target

    def files(self):
        """The files and the links, without the files about the package."""
        return [path for path in sorted(self.root.rglob("*")) if not path.is_dir() and self.about not in path.parents]


def version():
    """The version of the packages, as the changelog has it."""
    return re.match(r"\S+ \((.*?)\)", CHANGELOG.read_text())[1]


def maintainer():
    """Who signed the last entry of the changelog."""
    return re.search(r"^ -- (.*>)  ", CHANGELOG.read_text(), re.M)[1]


def stanzas():
    """The descriptions of the packages, by their names."""
    paragraphs = (HERE / "control").read_text().rstrip().split("\n\n")
    return {re.match(r"Package: (\S+)", it)[1]: it for it in paragraphs}


def libc_of(paths):
    """The dependency on the system's C library, with the newest version of a symbol that the files need."""
    read = subprocess.run(["readelf", "-V", *paths], check=True, capture_output=True, text=True).stdout
    newest = max(tuple(map(int, it.split("."))) for it in re.findall(r"GLIBC_([\d.]+)", read))
    return f"libc6 (>= {'.'.join(map(str, newest))})"


def spread(installed, trees):
    """Distributes the installed files over the packages."""
    for path in sorted(installed.rglob("*")):
        if path.is_dir() and not path.is_symlink():
            continue
        name = str(path.relative_to(installed))
        for pattern, package, place in PLACES:
            if found := re.fullmatch(pattern, name):
                trees[package].put(path, found.expand(place))
                break


def spread_python(wheel, tree):
    """Puts the files of a wheel into the package of Python, without the files for pip alone."""
    with zipfile.ZipFile(wheel) as archive:
        for name in archive.namelist():
            if not re.search(r"dist-info/(RECORD$|licenses/|sboms/)", name):
                tree.write(f"{PYTHON}/{name}", archive.read(name))
    for script, call in [("postinst", "py3compile"), ("prerm", "py3clean")]:
        text = f'#!/bin/sh\nset -e\nif [ -z "$DPKG_ROOT" ] && command -v {call} >/dev/null; then\n    {call} -p {PYTHON3}\nfi\n'
        tree.write(f"DEBIAN/{script}", text.encode(), 0o755)


def finish_library(tree):
    """Adds the data about the shared library that other packages and the loader need."""
    shared = tree.root / "usr" / "lib" / TRIPLET / f"libhayro_cmap.so.{UPSTREAM}"
    shared.chmod(0o644)
    soname, _, number = SONAME.rpartition(".so.")
    tree.write("DEBIAN/shlibs", f"{soname} {number} {LIBRARY} (>= {UPSTREAM})\n".encode())
    names = subprocess.run(["nm", "-D", "--defined-only", "-j", shared], check=True, capture_output=True, text=True)
    symbols = "".join(f" {name}@Base {UPSTREAM}\n" for name in sorted(names.stdout.split()))
    tree.write("DEBIAN/symbols", f"{SONAME} {LIBRARY} #MINVER#\n* Build-Depends-Package: {DEV}\n{symbols}".encode())
    tree.write("DEBIAN/triggers", b"activate-noawait ldconfig\n")


def add_documents(tree, installed):
    """Adds the licences, the bill of materials and the changelog; `installed` has the bill of the contained crates."""
    folder = f"usr/share/doc/{tree.name}"
    bill, contained = materials.bill([], f"{released():%Y-%m-%dT%H:%M:%SZ}"), []
    if installed:
        bill = (installed / DOCS / "hayro_cmap.spdx.json").read_text()
        contained = materials.names_of(bill)
        tree.write(f"{folder}/kit.txt.gz", gzip.compress(kit_licences(installed / DOCS / "kit"), mtime=0))
    tree.write(f"{folder}/hayro_cmap.spdx.json", bill.encode())
    tree.write(f"{folder}/copyright", copyright_of(contained).encode())
    tree.write(f"{folder}/changelog.Debian.gz", gzip.compress(CHANGELOG.read_bytes(), mtime=0))
    overrides = re.findall(rf"^(?:#|{tree.name}:).*\n", (HERE / "lintian-overrides").read_text(), re.M)
    tree.write(f"usr/share/lintian/overrides/{tree.name}", "".join(overrides).encode())


def copyright_of(contained):
    """The licences of a package that contains these crates of the kit."""
    comment = "hayro_cmap.spdx.json beside this file is the bill of materials."
    if contained:
        comment += (" These crates of the kit of Rattle are compiled in, whose licences, where the kit states them, are"
                    f" in kit.txt.gz beside this file: {', '.join(contained)}.")
    lines = textwrap.wrap(comment, 70, subsequent_indent=" ", break_on_hyphens=False)
    return Template((HERE / "copyright").read_text()).substitute(contained="\n".join(lines))


def kit_licences(folder):
    """The licences of the contained crates of the kit, in one text."""
    text = (folder / "README").read_text().replace("in its folder here", "below")
    for path in sorted(folder.glob("*/*")):
        text += f"\n{path.parent.name}: {path.name}\n\n{path.read_text()}"
    return text.encode()


def strip(tree):
    """Strips programs and libraries, and compresses the pages of the manual."""
    for path in tree.files():
        if path.is_symlink():
            continue
        if path.suffix == ".a":
            subprocess.run(["strip", "--strip-debug", "--remove-section=.comment", "--enable-deterministic-archives", path], check=True)
        elif path.read_bytes()[:4] == b"\x7fELF":
            subprocess.run(["strip", "--strip-unneeded", "--remove-section=.comment", path], check=True)
        elif path.parts[-2].startswith("man"):
            path.with_name(path.name + ".gz").write_bytes(gzip.compress(path.read_bytes(), mtime=0))
            path.unlink()


def write_control(tree, stanza):
    """Writes the description of a package, and the sums of its files."""
    files = [path for path in tree.files() if not path.is_symlink()]
    programs = [path for path in files if path.read_bytes()[:4] == b"\x7fELF"]
    values = {"libc": libc_of(programs) if programs else "", "version": version(), "upstream": UPSTREAM}
    size = sum(-(-path.stat().st_size // 1024) for path in files)
    head = f"Source: hayro-cmap\nVersion: {version()}\nMaintainer: {maintainer()}\nInstalled-Size: {size}\nPriority: optional\n"
    name, _, rest = Template(stanza).substitute(values).partition("\n")
    tree.write("DEBIAN/control", f"{name}\n{head}{rest}\n".encode())
    sums = (f"{hashlib.md5(path.read_bytes()).hexdigest()}  {path.relative_to(tree.root)}\n" for path in files)
    tree.write("DEBIAN/md5sums", "".join(sums).encode())


def build(tree, folder, architecture):
    """Makes the package of a tree; gives its path."""
    time = int(released().timestamp())
    for path in [*tree.root.rglob("*"), tree.root]:
        if path.is_dir() and not path.is_symlink():
            path.chmod(0o755)
        os.utime(path, (time, time), follow_symlinks=False)
    package = folder / f"{tree.name}_{version()}_{architecture}.deb"
    words = ["dpkg-deb", "--root-owner-group", "-Zxz", "--build", tree.root, package]
    subprocess.run(words, check=True, stdout=subprocess.DEVNULL, env=os.environ | {"SOURCE_DATE_EPOCH": str(time)})
    return package


def write_wheel(folder):
    """Writes a wheel without the library; gives its path."""
    call = "import build_backend, sys; print(build_backend.build_wheel(sys.argv[1]))"
    environment = {name: value for name, value in os.environ.items() if name != "HAYRO_CMAP_LIBRARY"}
    ran = subprocess.run([sys.executable, "-c", call, folder], cwd=TOP / "bindings" / "python", env=environment,
                         check=True, stdout=subprocess.PIPE, text=True)
    return folder / ran.stdout.strip()


def write_packages(folder, installed, library, work):
    """Makes the packages from what scripts/install put below `installed`, and from the library alone below `library`;
    gives their paths."""
    trees = {name: Tree(name, work / name) for name in stanzas()}
    spread(installed, trees)
    spread_python(write_wheel(work), trees[PYTHON3])
    finish_library(trees[LIBRARY])
    packages, contained = [], {BIN: installed, LIBRARY: library, DEV: library, PYTHON3: None}
    for name, stanza in stanzas().items():
        add_documents(trees[name], contained[name])
        strip(trees[name])
        write_control(trees[name], stanza)
        packages.append(build(trees[name], folder, re.search(r"^Architecture: (.*)", stanza, re.M)[1]))
    return packages
