"""Runs the two programs whose answers the page shows."""
import concurrent.futures
import dataclasses
import os
import shutil
import subprocess


class Stop(Exception):
    """What ends the tool without a page: the line that is said, and the status."""

    def __init__(self, text, status=2):
        super().__init__(text)
        self.text, self.status = text, status


@dataclasses.dataclass(frozen=True)
class Answer:
    """The status and the text of a run, a character for a byte."""
    status: int
    text: str


def find_program(name, given, folder):
    """The path of a program: as it is given, beside the tool as it is installed or built, or on the path."""
    if given is not None:
        found = shutil.which(given)
    else:
        beside = [os.path.join(folder, *place, name) for place in (("..", "bin"), ("..", "..", "..", "bin"))]
        found = next((path for path in beside if os.access(path, os.X_OK)), None) or shutil.which(name)
    if not found:
        raise Stop(f"{name if given is None else given}: no such program")
    return os.path.abspath(found)


class Programs:
    """`hz` and `hz_why`, asked several at a time. Each run is counted by its command."""

    def __init__(self, hz, hz_why, beside=4):
        self.hz, self.hz_why = hz, hz_why
        self.pool = concurrent.futures.ThreadPoolExecutor(beside)
        self.counts, self.running, self.is_closed = {}, set(), False

    def start(self, command, *words):
        """Begins a run of a command of `hz`, or of `hz_why` if that is the command."""
        self.counts[command] = self.counts.get(command, 0) + 1
        first = [self.hz_why] if command == "hz_why" else [self.hz, command]
        return self.pool.submit(self.run, *first, *words)

    def run(self, program, *words):
        """The answer of a program to words; how it failed, if it gave none."""
        name = os.path.basename(program)
        try:
            with subprocess.Popen([program, *words], stdin=subprocess.DEVNULL, stdout=subprocess.PIPE, stderr=subprocess.DEVNULL) as process:
                self.running.add(process)
                if self.is_closed:
                    process.kill()
                text = process.communicate()[0]
                self.running.discard(process)
        except (OSError, ValueError) as error:
            raise Stop(f"{name}: {getattr(error, 'strerror', None) or error}") from error
        if process.returncode < 0:
            raise Stop(f"{name}: ended by signal {-process.returncode}")
        if process.returncode > 7:
            raise Stop(f"{name}: ended with status {process.returncode}, and hz has no such status")
        return Answer(process.returncode, text.decode("latin-1"))

    def close(self):
        """Ends what still runs."""
        self.is_closed = True
        for process in list(self.running):
            process.kill()
        self.pool.shutdown(wait=True, cancel_futures=True)


def accepted(answer, most=0):
    """The answer, if its status is at most this; otherwise it is said as it is, and there is no page."""
    if answer.status > most:
        said = os.fsdecode(answer.text.rstrip("\n").encode("latin-1"))
        raise Stop(said or f"hz or hz_why ended with status {answer.status} and no answer", answer.status)
    return answer


def accepted_own(answer, most=0):
    """The same of an answer to a text that this tool made."""
    if answer.status > most:
        raise Stop(f"a text that this tool made is answered by '{answer.text.strip()}'; no page is written", 5 if answer.status == 5 else 2)
    return answer
