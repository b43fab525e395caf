"""What the tools write: files whole or not at all, and standard output with a message where it cannot be written."""
import os
import sys
import tempfile


def put(*files):
    """Writes files, each a path and its bytes, each whole, and none unless all could be made beside their places."""
    parts = []
    try:
        for path, data in files:
            parts.append(staged(path, data))
        for part, path in parts:
            os.replace(part, path)
    except BaseException:
        for part, _ in parts:
            if os.path.exists(part):
                os.unlink(part)
        raise


def staged(path, data):
    """The bytes in a file beside their place, and that place. An error names the path."""
    given, path = path, os.path.realpath(path)
    there = os.path.exists(path)
    if there and not os.path.isfile(path):
        raise OSError(0, "not a plain file", given)
    umask = os.umask(0)
    os.umask(umask)
    mode = os.stat(path).st_mode & 0o777 if there else 0o666 & ~umask
    part = None
    try:
        handle, part = tempfile.mkstemp(dir=os.path.dirname(path))
        with os.fdopen(handle, "wb") as file:
            file.write(data)
        os.chmod(part, mode)
    except BaseException as error:
        if part:
            os.unlink(part)
        if isinstance(error, OSError):
            raise OSError(error.errno, error.strerror, given) from error
        raise
    return part, path


def say(text):
    try:
        with open(1, "w", closefd=False) as out:
            out.write(text)
    except OSError as error:
        sys.exit(f"standard output: {error.strerror}")
