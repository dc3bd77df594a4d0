"""The strings that `cmap encode` gives for texts, with the CMap resources of a folder."""

import os
import subprocess
from pathlib import Path
from typing import Dict, List, Optional


class Program:
    """The program `cmap`, which looks up names in a folder."""

    def __init__(self, path: Path, folder: Path) -> None:
        self.path, self.folder = path, folder

    def strings(self, name: str, collection: Optional[str], texts: List[str], exact: bool = False) -> Dict[str, Optional[bytes]]:
        """The string of each text, which has no line end; None where the text is refused."""
        words = [*(["--exact"] if exact else []), *(["--collection", f"Adobe-{collection}"] if collection else []), name, "-"]
        ran = subprocess.run([self.path, "encode", *words], input="".join(f"{text}\n" for text in texts).encode(), check=False,
                             capture_output=True, env={**os.environ, "CMAP_PATH": str(self.folder)})
        lines = ran.stdout.decode().splitlines()
        if ran.returncode not in (0, 1) or len(lines) != len(texts):
            raise RuntimeError(f"{name}: status {ran.returncode}, {ran.stderr[:200].decode(errors='replace')}")
        return {text: None if line == "-" else bytes.fromhex(line) for text, line in zip(texts, lines)}
