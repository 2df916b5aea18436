"""What `hz_why` answers to a trace, and who holds what in each of its cycles."""
import dataclasses
import re
import typing

from .agreement import compare_pictures, start_pictures
from .holders import Event, Holders, play
from .programs import Stop
from .reasons import parts_of

MOST_EVENTS = 2000
MOST_PICTURES = 48


@dataclasses.dataclass
class TraceSheet:
    """What the page shows of a trace. `events` are those up to the first that is refused, or that is too far."""
    answer: typing.List[str]
    asks: typing.List[str]
    reasons: typing.List[str]
    picture: typing.List[str]
    events: typing.List[Event]
    holders: typing.Optional[Holders] = None
    pictures: int = 0
    refused: typing.Optional[Event] = None
    cut: typing.Optional[int] = None


def events_in(text, most):
    """The first events of a trace that `hz_why` reads without a fault, and the line of the first that is left out, or None."""
    events = []
    for line, content in enumerate(text.split("\n"), 1):
        words = content.strip(" \t\r").split()
        if not words or words[0].startswith(";") or words[0] == "ask":
            continue
        if len(events) == most:
            return events, line
        events.append(Event(line, words[1]) if words[0] == "issue" else Event(line, None, int(words[1])))
    return events, None


def sheet_of(programs, description, desc, text, answer, folder):
    """What the page shows of a trace, by the answer of `hz_why` to it."""
    asks, decided, reasons, drawn = parts_of(answer.text)
    if not decided:
        raise Stop("hz_why neither accepts nor refuses; no page is written")
    events, cut = events_in(text, MOST_EVENTS)
    sheet = TraceSheet(decided, asks, reasons, drawn, events, cut=cut)
    refused = re.match(r"refused line (\d+) ", decided[0])
    if refused:
        before = [event for event in events if event.line < int(refused[1])]
        sheet.refused = next((event for event in events if event.line == int(refused[1])), None)
        sheet.events = before
    played = play(description, sheet.events)
    if played is not None and played[0] == len(sheet.events):
        runs = start_pictures(programs, description, desc, sheet.events, played[1], folder, MOST_PICTURES)
        sheet.pictures = compare_pictures(runs)
        sheet.holders = Holders(description).play(sheet.events, played[1][played[0]])
    return sheet
