"""Runs a tool so that an output that can't be written is no traceback."""
import os
import sys

BROKEN_PIPE = 141


def run(main, *given):
    """Ends the program with the status of `main`. If its output is no longer read that is 141, as of a program that the signal ends; if it
    can't be written for another reason, 2 after one line."""
    try:
        status = main(*given)
        if sys.stdout is not None:
            sys.stdout.flush()
    except BrokenPipeError:
        status = drop_output(BROKEN_PIPE)
    except OSError as error:
        named = f"{os.fsdecode(error.filename)}: " if isinstance(error.filename, (str, bytes)) else ""
        print(f"{named}{error.strerror or error}", file=sys.stderr)
        status = drop_output(2)
    except SystemExit as ended:
        status = flushed(ended.code)
    sys.exit(status)


def flushed(status):
    """The status of a tool that ends by itself, as after its help: that of its output if it can't be written."""
    try:
        if sys.stdout is not None:
            sys.stdout.flush()
    except BrokenPipeError:
        return drop_output(BROKEN_PIPE)
    except OSError as error:
        print(error.strerror, file=sys.stderr)
        return drop_output(2)
    return status


def drop_output(status):
    """What is left of the output goes nowhere, so that Python writes it no more when it ends."""
    os.dup2(os.open(os.devnull, os.O_WRONLY), 1)
    return status
