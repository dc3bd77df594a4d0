"""Builds the C library and the command of plain Rust with cargo, and lists the crates that are compiled into them."""

import json
import re
import shutil
import subprocess
from pathlib import Path

from common.materials import package
from common.programs import TOP

from .workspace import C_LIBRARY, write_workspace

ARCHIVE, SHARED = "libhayro_cmap.a", "libhayro_cmap.so"
# the crates of Rust's standard library that are compiled in
RUST = ["alloc", "compiler_builtins", "core", "std"]
LICENCES = ("COPYING", "COPYRIGHT", "LICENSE", "UNLICENSE")


class Workspace:
    """The workspace with these members in a folder. cargo builds it for a target, by default for this system."""

    def __init__(self, work, members, target=None):
        self.work, self.folder, self.members, self.target = work, work / "workspace", members, target
        write_workspace(self.folder, members)

    def build(self):
        """Builds the members; gives the folder of the built files. The library alone needs no network."""
        words = ["--release", "--target-dir", self.work / "made"]
        words += [word for name in self.members for word in ("--package", name)]
        words += ["--target", self.target] if self.target else []
        words += ["--offline"] if self.members == [C_LIBRARY] else []
        # cargo takes its configuration from the folder where it runs
        self.run("cargo", "build", *words, folder=self.folder)
        return self.work / "made" / (self.target or "") / "release"

    def run(self, *words, folder=None):
        """Runs a program in a folder, by default in the folder above the workspace."""
        subprocess.run(words, cwd=folder or self.work, check=True)

    def tool(self, name):
        """A program of binutils, in the target's own version if there is one."""
        prefix = re.sub("-unknown|-pc", "", self.target) + "-" if self.target else ""
        return prefix + name if shutil.which(prefix + name) else name

    def link_libraries(self, made):
        """Makes the libraries from the built files, without unneeded symbols; the archive exports the calls alone."""
        header = (TOP / "include" / "hayro_cmap.h").read_text()
        wanted = [f"--undefined={name}" for name in re.findall(r"^\w+ (hayro_cmap_\w+)\(", header, re.M)]
        self.run(self.tool("ld"), "-r", "-o", "all.o", *wanted, made / ARCHIVE)
        shown = ["--wildcard", "--keep-global-symbol=hayro_cmap_*", "--strip-debug"]
        self.run(self.tool("objcopy"), *shown, "all.o", "hayro_cmap.o")
        self.run(self.tool("ar"), "rcsD", ARCHIVE, "hayro_cmap.o")
        self.run(self.tool("strip"), "--strip-unneeded", "-o", SHARED, made / SHARED)

    def crates(self):
        """The crates of others on which the members depend, as `cargo metadata` lists them."""
        words = ["cargo", "metadata", "--format-version=1", "--offline", "--manifest-path", self.folder / "Cargo.toml"]
        ran = subprocess.run(words, check=True, capture_output=True, text=True)
        return [found for found in json.loads(ran.stdout)["packages"] if found["source"]]


def licences_of(crates):
    """The files of the licences of these crates, by their names."""
    folders = {found["name"]: Path(found["manifest_path"]).parent for found in crates}
    return {name: sorted(path for path in folder.iterdir() if path.name.startswith(LICENCES))
            for name, folder in sorted(folders.items())}


def packages_of(crates):
    """The entries of the bill of materials for these crates and for the crates of Rust."""
    rust = subprocess.run(["rustc", "--version"], check=True, capture_output=True, text=True).stdout.split()[1]
    return [*(package(name, rust, "MIT OR Apache-2.0") for name in RUST),
            *(package(found["name"], found["version"], found["license"].replace("/", " OR ")) for found in crates)]
