"""Reads the inputs, and writes the page whole or not at all."""
import os
import tempfile

from .programs import Stop

MOST_BYTES = 67108864


def read_bytes(path):
    """The text of an input, a character for a byte. `hz` has read it before, and its answer decides."""
    try:
        with open(path, "rb") as file:
            text = file.read(MOST_BYTES + 1)
    except (OSError, ValueError) as error:
        raise Stop(f"{path}: {getattr(error, 'strerror', None) or error}", 6) from error
    return text.decode("latin-1")


def shown(path):
    """A path as text for the page, whatever bytes it has."""
    return os.fsencode(path).decode("utf-8", "replace")


def check_inputs(paths):
    """Stops if the programs would take a name for an option, or would read something twice that is gone after the first time."""
    for path in paths:
        if path.startswith("-"):
            raise Stop(f"{path}: a name that begins with - is given as ./{path}")
        if shown(path) != path:
            raise Stop(f"{path}: the name is no UTF-8, and hz takes no other")
        if os.path.exists(path) and not os.path.isfile(path):
            raise Stop(f"{path}: is no regular file")


def check_output(out, inputs):
    """Stops if the page can't be written where it is wanted, before any work is done."""
    for path in inputs:
        if os.path.exists(path) and os.path.exists(out) and os.path.samefile(path, out):
            raise Stop(f"{out}: an input is not written over")
    if not out or os.path.isdir(out):
        raise Stop(f"{out}: Is a directory" if out else "-o: the name of the page is empty")
    if os.path.exists(out) and not os.path.isfile(out):
        return
    folder = os.path.dirname(os.path.realpath(out))
    if not os.path.isdir(folder):
        raise Stop(f"{out}: No such file or directory")
    if not os.access(folder, os.W_OK | os.X_OK):
        raise Stop(f"{out}: Permission denied")


def write_page(out, page):
    """Writes the page beside its place, and then puts it there. What is no regular file is written to at once."""
    target, text = os.path.realpath(out), page.encode("utf-8", "replace")
    try:
        if os.path.exists(out) and not os.path.isfile(out):
            with open(out, "wb") as file:
                file.write(text)
            return
        handle, made = tempfile.mkstemp(prefix=".sheet-", dir=os.path.dirname(target))
        try:
            with os.fdopen(handle, "wb") as file:
                file.write(text)
            mask = os.umask(0)
            os.umask(mask)
            os.chmod(made, os.stat(target).st_mode & 0o777 if os.path.exists(target) else 0o666 & ~mask)
            os.replace(made, target)
        except BaseException:
            os.unlink(made)
            raise
    except OSError as error:
        raise Stop(f"{out}: {error.strerror}") from error
