#!/usr/bin/env python3
"""Prints the CIDs of a string by several CMap files of a folder, which are read at the same time.

    awaited.py FOLDER HEX FILE..

A line is a file and its CIDs, such as `UniJIS-UTF16-V 843 7899`. Each file is awaited when it is needed, as it would be
from a network; here other threads read the files.
"""

import asyncio
import sys

import hayro_cmap


async def line_of(name, string, files):
    """The line of a file."""
    data = await files(name.encode())
    if data is None:
        raise FileNotFoundError(f"{name}: no such file")
    with await hayro_cmap.CMap.load(data, files) as cmap:
        cids = ("none" if code.cid is None else str(code.cid) for code in cmap.decode(string))
        return " ".join([name, *cids])


async def main(folder, digits, *names):
    file_of = hayro_cmap.folder(folder)

    async def files(name):
        return await asyncio.get_running_loop().run_in_executor(None, file_of, name)

    string = bytes.fromhex(digits)
    for line in await asyncio.gather(*(line_of(name, string, files) for name in names)):
        print(line)


if __name__ == "__main__":
    if len(sys.argv) < 4:
        sys.exit("usage: awaited.py FOLDER HEX FILE..")
    try:
        asyncio.run(main(*sys.argv[1:]))
    except (FileNotFoundError, hayro_cmap.Refused) as fault:
        sys.exit(str(fault))
