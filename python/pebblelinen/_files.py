# SPDX-FileCopyrightText: 2026 The PPVM Authors
# SPDX-License-Identifier: Apache-2.0
"""Files that are written whole or not at all."""
import contextlib
import os
import secrets

from .errors import InputError


def write_whole(path: str | os.PathLike[str], data: bytes) -> None:
    """Writes a file under another name beside it, which then takes its place: what was there stays until all of the
    new one is on the disk. What is no file, such as a device, cannot be written so."""
    name = os.fspath(path)
    # Of a link, what it leads to is written.
    place = os.path.realpath(name)
    try:
        if os.path.exists(place) and not os.path.isfile(place):
            raise InputError("this is no file, and cannot be written as one", where=name)
        _replace(place, data)
    except OSError as error:
        raise InputError(error.strerror or str(error), where=name) from None


def _replace(place: str, data: bytes) -> None:
    folder, base = os.path.split(place)
    temporary = os.path.join(folder, f".{base}.{secrets.token_hex(4)}")
    with open(temporary, "xb") as file:
        try:
            file.write(data)
            file.flush()
            os.fsync(file.fileno())
            if os.path.exists(place):
                os.chmod(temporary, os.stat(place).st_mode & 0o7777)
            os.replace(temporary, place)
        except BaseException:
            with contextlib.suppress(OSError):
                os.unlink(temporary)
            raise
