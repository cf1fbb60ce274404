"""Archives of proved crates: their statements and sources, with checksums, the commit and the kit's identity."""

import hashlib
import io
import json
import lzma
import os
import re
import tarfile
import tempfile

from lib.commands import Refused
from lib.proofs.toolchain import FORMAT

LIST = "list.json"
# What the list of an archive says; the rest of a toolchain's record is of its own machine.
KEPT = ["format", "kit", "kit_names_itself", "commit", "release", "proved", "crates", "files"]
LONGEST_LIST = 64 << 20
# Nothing else lies in an archive. No name in it begins with a dot, as `..` does.
PATH = re.compile(r"(rlibs/(?P<rlib>\w+)\.rlib|rattle/(?P<crate>\w+))(/[^./\0][^/\0]*)+")
DAMAGE = (lzma.LZMAError, tarfile.TarError, EOFError, UnicodeError, ValueError, KeyError, TypeError, AttributeError,
          RecursionError, MemoryError)


def add(archive, name, content):
    """Adds a file, with nothing of this machine beside it."""
    member = tarfile.TarInfo(name)
    member.size, member.mode = len(content), 0o644
    archive.addfile(member, io.BytesIO(content))


def by_ending(path):
    """Files of one name lie side by side, since they resemble each other."""
    return path.split("/")[::-1]


def check_paths(record, file):
    """Refuses a list with a path that doesn't lie where a crate's files belong."""
    for path in record["files"]:
        found = PATH.fullmatch(path)
        if not found or (found["rlib"] or found["crate"]) not in record["crates"]:
            raise Refused(f"'{file}' has the path {path!r}, which leads out of where its crates belong")


def write(record, folder, file):
    """Writes an archive of a toolchain's crates: whole or not at all."""
    check_paths(record, file)
    above = os.path.dirname(file)
    with tempfile.NamedTemporaryFile(prefix=f".{os.path.basename(file)}-", dir=above, delete=False) as room:
        try:
            with tarfile.open(fileobj=room, mode="w:xz", preset=3) as archive:
                add(archive, LIST, json.dumps({key: record[key] for key in KEPT}, indent=1).encode())
                for path in sorted(record["files"], key=by_ending):
                    with open(f"{folder}/{path}", "rb") as content:
                        add(archive, path, content.read())
            room.flush()
            os.fsync(room.fileno())
            os.chmod(room.name, 0o644)
            os.rename(room.name, file)
        except BaseException:
            os.remove(room.name)
            raise


def members(archive, file):
    """The files of an archive, each with its content."""
    for member in archive:
        if not member.isreg():
            raise Refused(f"'{file}' has {member.name!r}, which is no plain file")
        yield member.name, archive.extractfile(member).read()


def checked_list(content, file):
    """The list that an archive begins with, if each path in it lies where a crate's files belong."""
    record = json.loads(content.decode())
    if record["format"] != FORMAT:
        raise Refused(f"'{file}' is of format {record['format']}: take the tools/install of its release")
    check_paths(record, file)
    return {key: record[key] for key in KEPT}


def read(file, to, check):
    """Unpacks an archive into a new folder, after a check of its list, and returns the list.

    Nothing of it is believed but what its checksums hold; whoever made it is.
    """
    try:
        with tarfile.open(file, "r:xz") as archive:
            found = members(archive, file)
            name, content = next(found, ("", b""))
            if name != LIST or len(content) > LONGEST_LIST:
                raise Refused(f"'{file}' is no archive that tools/install made")
            record = checked_list(content, file)
            check(record)
            for name, crate in record["crates"].items():
                if f"rlibs/{name}.rlib/format" not in record["files"] or not isinstance(crate["sum"], str):
                    raise Refused(f"'{file}' lacks the statements of {name!r}")
            left = dict(record["files"])
            for path, content in found:
                if not left.get(path):
                    raise Refused(f"'{file}' has {path!r}, which its list lacks, or has it twice")
                if hashlib.sha256(content).hexdigest() != left.pop(path):
                    raise Refused(f"'{file}' is damaged: {path!r} isn't what its list says")
                os.makedirs(os.path.dirname(f"{to}/{path}"), exist_ok=True)
                with open(f"{to}/{path}", "xb") as out:
                    out.write(content)
            while archive.fileobj.read(1 << 20):  # to its end, where the checksum of the whole is
                pass
    except DAMAGE as error:
        raise Refused(f"'{file}' is damaged, cut off, or no archive that tools/install made ({error})") from None
    if left:
        raise Refused(f"'{file}' is cut off: it lacks {min(left)!r}")
    return record
