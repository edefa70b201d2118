"""The modules that a built library holds, as the check of its crate proved them.

They lie in the library's `toolchain/checked.a`, an archive as `ar` writes it, under the names that they have in a folder for
`--incremental`. Put into such a folder they serve a check that has the crate as its source: the prover takes each that is as it
was, with all that it imports, and proves the others. So nothing hangs on a library that is older than its text.

That is so of a library of `rt lib` or `rt check`. One of `rt ci` holds statements alone, as members `part/..`, of which none serves.
"""
import os
from collections.abc import Iterator
from typing import BinaryIO

HEAD = b"!<arch>\n"


def members(archive: BinaryIO) -> Iterator[tuple[str, bytes]]:
    """The files of an archive, by name. A name of more than 15 bytes stands in its member `//`, ended by `/` and LF."""
    if archive.read(len(HEAD)) != HEAD:
        raise ValueError("it is no archive")
    long = b""
    while head := archive.read(60):
        name, size = head[:16].decode().rstrip(), int(head[48:58])
        content = archive.read(size)
        archive.read(size % 2)
        if name == "//":
            long = content
        elif name.startswith("/"):
            at = int(name[1:])
            yield long[at : long.index(b"/\n", at)].decode(), content
        else:
            yield name.removesuffix("/"), content


def unpack(library: str, kept: str) -> int:
    """Puts the modules of a library into a folder of what is kept, where the toolchain that built it looks for them. What is there
    already stays. How many modules the library has."""
    with open(f"{library}/format", encoding="utf-8") as it:
        build = next(row.split(" ", 1)[1].strip() for row in it if row.startswith("rattle-build "))
    home = f"{kept}/{build.replace('/', '_')}"
    os.makedirs(home, exist_ok=True)
    found = 0
    with open(f"{library}/toolchain/checked.a", "rb") as archive:
        for name, content in members(archive):
            if not name.endswith(".oantt") or "/" in name:
                continue
            found += 1
            if not os.path.exists(f"{home}/{name}"):
                with open(f"{home}/{name}", "wb") as to:
                    to.write(content)
    return found
