#!/usr/bin/env python3
"""Makes a data sheet of a pipeline description: one HTML page with reservation charts, the waits between classes, the automata, and the
timelines of blocks and traces.

What it shows are answers of hz and hz_why, or read off the tables text that hz writes; the page says which. Nothing here is proved.
"""
import argparse
import os
import signal
import sys
import traceback

sys.dont_write_bytecode = True

from extraction.forms import Fault  # noqa: E402
from extraction.running import run
from sheet.making import make_page  # noqa: E402
from sheet.programs import Programs, Stop, find_program  # noqa: E402
from sheet.writing import check_inputs, check_output, write_page  # noqa: E402

EPILOG = """The status is 0 if the page was written. What hz or hz_why answers to a wrong text is said as it is, with its status. Otherwise
the status is 2, or 5 if memory ran out, after one line that says what is wrong. Then nothing is written."""


def words():
    """The words of the command line."""
    parser = argparse.ArgumentParser(prog="hz_sheet", description=__doc__, epilog=EPILOG, allow_abbrev=False)
    parser.add_argument("-o", dest="out", required=True, metavar="SHEET.html", help="the page that is written")
    parser.add_argument("--block", action="append", default=[], metavar="BLOCK", help="a block that is scheduled, also as the body of a loop")
    parser.add_argument("--trace", action="append", default=[], metavar="TRACE", help="a trace that is replayed")
    parser.add_argument("--hz", metavar="HZ", help="the program hz; else it is looked for beside this tool, and then on the path")
    parser.add_argument("--hz-why", dest="hz_why", metavar="HZ_WHY", help="the program hz_why, in the same way")
    parser.add_argument("desc", metavar="DESC", help="the description")
    return parser.parse_args()


def say(text):
    """Says a line on standard error, names of files as their bytes."""
    try:
        sys.stderr.flush()
        sys.stderr.buffer.write(os.fsencode(text) + b"\n")
        sys.stderr.buffer.flush()
    except (AttributeError, OSError, ValueError):
        pass


def describe(error):
    """An error as one line, with the place where it came up."""
    places = traceback.extract_tb(error.__traceback__)
    place = f"{os.path.basename(places[-1].filename)}:{places[-1].lineno}" if places else ""
    return f"{place} {type(error).__name__} {error}".replace("\n", " ")


def ended(number, _):
    """Ends the tool by a signal, so that what it made for itself is removed."""
    sys.exit(128 + number)


def main():
    given, programs = words(), None
    folder = os.path.dirname(os.path.realpath(__file__))
    signal.signal(signal.SIGTERM, ended)
    signal.signal(signal.SIGHUP, ended)
    try:
        check_inputs([given.desc, *given.block, *given.trace])
        check_output(given.out, [given.desc, *given.block, *given.trace])
        programs = Programs(find_program("hz", given.hz, folder), find_program("hz_why", given.hz_why, folder))
        write_page(given.out, make_page(programs, given.desc, given.block, given.trace))
    except Stop as stop:
        say(stop.text)
        return stop.status
    except Fault as fault:
        say(f"{fault}, as this tool reads it; no page is written")
        return 2
    except OSError as error:
        say(f"{os.fsdecode(error.filename or 'hz_sheet')}: {error.strerror}")
        return 2
    except MemoryError:
        say("hz_sheet: memory ran out; no page is written")
        return 5
    except KeyboardInterrupt:
        return 130
    except Exception as error:  # pylint: disable=broad-except
        say(f"hz_sheet: a fault of this tool, or no answer of hz: {describe(error)}; no page is written")
        return 2
    finally:
        if programs:
            programs.close()
    return 0


if __name__ == "__main__":
    run(main)
