"""The ToUnicode streams and the embedded CMaps of PDF files, by Debian's package python3-pikepdf."""

import subprocess


def install():
    """Installs the package, unless it is there."""
    if subprocess.run(["dpkg", "-s", "python3-pikepdf"], capture_output=True, check=False).returncode != 0:
        subprocess.run(["apt-get", "update"], check=True)
        subprocess.run(["apt-get", "install", "--yes", "python3-pikepdf"], check=True)


def pdf_files(folders):
    """The paths of the PDF files in these folders and their subfolders, in order."""
    found = {path for folder in folders for path in folder.rglob("*") if path.suffix.lower() == ".pdf"}
    return sorted(path for path in found if path.is_file() and not path.is_symlink())


class Unreadable(Exception):
    """A PDF file or a stream of it can't be read; the text says why."""


def cmaps_of(path, keys=("/ToUnicode", "/Encoding")):
    """The bytes of the streams under these keys of each font of a PDF file."""
    import pikepdf

    try:
        with pikepdf.open(path) as file:
            fonts = [it for it in file.objects if isinstance(it, pikepdf.Dictionary)]
            values = [font.get(key) for font in fonts for key in keys]
            return [value.read_bytes() for value in values if isinstance(value, pikepdf.Stream)]
    except pikepdf.PdfError as fault:
        raise Unreadable(str(fault)) from fault
