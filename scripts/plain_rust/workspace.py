"""The workspace of plain Rust: the crate of the reader, and below it the crates of the C library and of the command."""

import filecmp
import shutil
import tempfile
from pathlib import Path

from .c_library import write_c_library
from .command import BY_HAND as COMMAND_BY_HAND
from .command import write_command
from .crate import write_library
from .source import Unknown

# the members below the root, each in a folder of its name
C_LIBRARY, COMMAND = "hayro-cmap-c", "cmap"
MEMBERS = {C_LIBRARY: write_c_library, COMMAND: write_command}
# the versions of other crates with which the command was tested
LOCK = COMMAND_BY_HAND / "Cargo.lock"
# the library is built for speed, the command by all processors; code without `std` can't unwind, and without LTO it
# refers to the code that unwinds
PROFILES = f"""
[profile.dev]
panic = "abort"

[profile.release]
lto = "thin"
panic = "abort"

[profile.release.package.{C_LIBRARY}]
codegen-units = 1
"""
# `usize` has 64 bits in proofs; if it has 32, a sum that overflows ends the program
CONFIGURATION = """\
[target.'cfg(target_pointer_width = "32")']
rustflags = ["-Coverflow-checks=on"]
"""


def write_workspace(out, members=tuple(MEMBERS)):
    """Makes the workspace in a new folder, with these members below its root."""
    writers = {"": write_library, **{name: MEMBERS[name] for name in members}}
    listed = ", ".join(f'"{name}"' for name in members)
    write_all(out, writers, f"members = [{listed}]\n")
    if COMMAND in members:
        shutil.copy(LOCK, out / LOCK.name)


def renew_workspace(out, members):
    """Makes the workspace anew in a folder; unchanged files stay, so that cargo builds only the others."""
    with tempfile.TemporaryDirectory() as work:
        made = Path(work) / "made"
        write_workspace(made, members)
        files = {path.relative_to(made) for path in made.rglob("*") if path.is_file()}
        for old in [path for path in out.rglob("*") if path.is_file() and path.relative_to(out) not in files]:
            if old.name != LOCK.name:
                old.unlink()
        for name in files:
            if not (out / name).exists() or not filecmp.cmp(made / name, out / name, shallow=False):
                (out / name).parent.mkdir(parents=True, exist_ok=True)
                shutil.copyfile(made / name, out / name)


def write_alone(out, name):
    """Makes the workspace of one member, at its root."""
    write_all(out, {"": MEMBERS[name]}, "")


def write_all(out, writers, members):
    """Writes crates into a new folder and folders of these names below it; removes all if a construct is unknown."""
    try:
        for name, write in writers.items():
            write(out / name)
    except Unknown:
        shutil.rmtree(out)
        raise
    with (out / "Cargo.toml").open("a") as manifest:
        manifest.write(f"\n[workspace]\n{members}{PROFILES}")
    (out / ".cargo").mkdir()
    (out / ".cargo" / "config.toml").write_text(CONFIGURATION)
