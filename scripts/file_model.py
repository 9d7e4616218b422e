"""A plain model of the four files of a world, by the definitions of docs/FORMATS.md: what an image and a segment hold, what four
files recover to, which bytes a new world, a start and a batch leave, and what is printed of files."""
import itertools
import struct
from collections.abc import Iterator
from typing import NamedTuple

from kill_trial import LIMIT, Batch, Request, changes
from salvage_trial import KINDS
from trial import NAMES

MARK, TICK_MAX = 1 << 61, 10**18
# The most cells of an image and the greatest kind of an action, by format.
MOST_CELLS, MOST_KIND = {1: 65_536, 2: 1_048_576}, {1: 3, 2: 5}
SEGMENT_TICKS, GROUP_TICKS, TICK_ACTIONS = 65_536, 32, 256

Files = tuple[bytes, ...]
Tick = tuple[Request, ...]


# What files hold.


class Bad(Exception):
    """An open file that isn't of its format."""


class Refused(NamedTuple):
    """A code, why it is answered, in a word, and the reason that is printed, where it is known."""

    code: int
    why: str
    reason: str = ""


class Image(NamedTuple):
    """An open image."""

    form: int
    tick: int
    words: list[int]


class Segment(NamedTuple):
    """An open segment."""

    form: int
    base: int
    groups: int
    ticks: list[Tick]


class Found(NamedTuple):
    """A world, the tick and the file of its image, and how many segments have ticks of it."""

    tick: int
    source: int
    slot: int
    words: list[int]
    parts: int


def numbers(data: bytes, at: int, form: str) -> tuple[list[int], int]:
    """Numbers of a file, and the place after them."""
    end = at + struct.calcsize(f"<{form}")
    if end > len(data):
        raise Bad
    return list(struct.unpack_from(f"<{form}", data, at)), end


def unmarked(data: bytes) -> tuple[int, int]:
    """The format of an open file, and the number with its mark."""
    number = numbers(data, 1, "Q")[0][0]
    if number >> 60 not in (0, MARK >> 60):
        raise Bad
    return (2, number - MARK) if number >= MARK else (1, number)


def image_of(data: bytes) -> Image | None:
    """The image in a file, unless it is closed."""
    if len(data) < 17 or data[0] != 1:
        return None
    (form, cells), tick = unmarked(data), numbers(data, 9, "Q")[0][0]
    if not 1 <= cells <= MOST_CELLS[form] or tick > TICK_MAX:
        raise Bad
    words = numbers(data, 17, f"{cells}Q")[0]
    if max(words) > LIMIT:
        raise Bad
    return Image(form, tick, words)


def segment_of(data: bytes) -> Segment | None:
    """The segment in a file, unless it is closed."""
    if len(data) < 10 or data[0] != 1:
        return None
    (form, base), groups, at, ticks = unmarked(data), 0, 9, list[Tick]()
    while at < len(data) and data[at] == 1:
        (count,), at = numbers(data, at + 1, "H")
        if not 1 <= count <= GROUP_TICKS:
            raise Bad
        groups += 1
        for _ in range(count):
            tick, at = tick_of(data, at, form)
            ticks.append(tick)
    if len(ticks) > SEGMENT_TICKS or base + len(ticks) > TICK_MAX:
        raise Bad
    return Segment(form, base, groups, ticks)


def tick_of(data: bytes, at: int, form: int) -> tuple[Tick, int]:
    """The tick at a place of a segment, and the place after it."""
    (count,), at = numbers(data, at, "H")
    if count > TICK_ACTIONS:
        raise Bad
    actions = list[Request]()
    for _ in range(count):
        (kind,), at = numbers(data, at, "B")
        if not 1 <= kind <= MOST_KIND[form]:
            raise Bad
        name, layout = next((name, layout) for name, (number, layout) in KINDS.items() if number == kind)
        rest, at = numbers(data, at, layout)
        actions.append((name, *rest))
    return tuple(actions), at


def recovery_of(files: Files) -> Found | Refused:
    """What four files recover to."""
    try:
        images = [image_of(data) for data in files[:2]]
    except Bad:
        return Refused(14, "image")
    try:
        logs = [segment_of(data) for data in files[2:]]
    except Bad:
        return Refused(15, "log")
    taken = max((image for image in images if image), key=lambda image: image.tick, default=None)
    if not taken:
        return Refused(13, "none")
    first = next((place for place, log in enumerate(logs) if log and log.base == taken.tick), None)
    tail, parts = list[Tick](), 0
    for log in [] if first is None else (logs[first], logs[1 - first]):
        if log and log.base == taken.tick + len(tail):
            tail += log.ticks
            parts += len(log.ticks) > 0
    words = list(taken.words)
    for action in itertools.chain.from_iterable(tail):
        changed = changes(words, action)
        if isinstance(changed, int):
            return Refused(15, "action")
        for cell, word in changed.items():
            words[cell] = word
    return Found(taken.tick + len(tail), taken.tick, images.index(taken), words, parts)


def losses(files: Files, found: Found, refuses: bool) -> list[Refused]:
    """The files of a world that look lost, in order, and how each is refused: no crash of a served world leaves them so. An empty
    log counts beside an image of a tick above 0 or, if losses are refused, once a tick is recovered. Files that are closed as no
    crash leaves them come last."""
    lost = list[Refused]()
    for name, data in zip(NAMES, files):
        is_image = name.startswith("image")
        code, why, what = (14, "lost_image", "an image") if is_image else (15, "lost_log", "a log")
        if not data and (found.source if is_image or not refuses else found.tick) > 0:
            lost.append(Refused(code, why, f"{what} file is damaged: {name} is empty, so it was lost"))
        elif not is_image and (log := segment_of(data)) and log.base > found.tick:
            lost.append(Refused(code, "gap", f"{what} file is damaged: {name} begins after ticks that were lost"))
    return [*lost, *odd_files(files, found)]


def odd_files(files: Files, found: Found) -> Iterator[Refused]:
    """The closed files that no crash leaves so: an image beside one of a tick above 0, and a log once a tick is recovered, whose
    gate isn't 00; and log.a without a header of format 2, if log.b has one. A gate of log.b that isn't 01 either counts in a
    segment with a group and a base from 1 to that tick."""
    for place, (name, data) in enumerate(zip(NAMES, files)):
        code, what, head, reached = (14, "an image", 17, found.source) if place < 2 else (15, "a log", 10, found.tick)
        if not data or (len(data) >= head and data[0] == 1) or not reached:
            continue
        why = ("odd_image", "odd_image", "odd_log_a", "odd_log_b")[place] if data[0] else ""
        if place == 3 and data[0] > 1 and not (0 < header_of(data)[1] <= reached and data[9] == 1):
            why = ""
        if place == 2 and not why and header_of(files[3])[0] == 2 != header_of(data)[0]:
            why = "headless"
        if why:
            yield Refused(code, why, f"{what} file is damaged: {name} is closed as no crash leaves it")


def header_of(data: bytes) -> tuple[int, int]:
    """The format and the base in a log's header, or zeros if it has none."""
    try:
        return unmarked(data) if len(data) >= 10 else (0, 0)
    except Bad:
        return 0, 0


# What is written.


def put(data: bytes, at: int, more: bytes) -> bytes:
    """A file after bytes are written into it at a place."""
    return data[:at] + more + data[at + len(more) :]


def image_at(tick: int, *words: int, form: int = 2) -> bytes:
    """An image."""
    return struct.pack(f"<BQQ{len(words)}Q", 1, len(words) + (form == 2) * MARK, tick, *words)


def segment_at(base: int, *groups: tuple[Tick, ...], form: int = 2) -> bytes:
    """A segment of groups of ticks."""
    made = struct.pack("<BQ", 1, base + (form == 2) * MARK)
    for group in groups:
        made += struct.pack("<BH", 1, len(group))
        for tick in group:
            made += struct.pack("<H", len(tick))
            for kind, *rest in tick:
                number, layout = KINDS[str(kind)]
                made += struct.pack(f"<B{layout}", number, *rest)
    return made + b"\0"


def started(files: Files, found: Found | None, cells: int = 0) -> Files:
    """The files after the start of a world, or after that of a new one of so many zeros."""
    left, tick = list(files), found.tick if found else 0
    if not found:
        left[0] = put(files[0], 0, image_at(0, *[0] * cells))
    elif tick > found.source:
        left[1 - found.slot] = put(files[1 - found.slot], 0, image_at(tick, *found.words))
    left[2] = put(files[2], 0, segment_at(tick))
    # Nothing is written where a gate is known to be closed.
    left[3] = put(files[3], 0, b"\0") if files[3][:1] in (b"", b"\1") else files[3]
    return tuple(left)


def logged(files: Files, at: int, batch: Batch, line: str) -> tuple[Files, int]:
    """The files after a batch with this answer: its tick is a group at this place of log.a. And the place of the next one."""
    tick = tuple(request for request, reply in zip(batch, line.split(" ")[2:]) if reply == "+")
    group = segment_at(0, (tick,))[9:]
    return (*files[:2], put(files[2], at, group), files[3]), at + len(group) - 1


# What is printed.


def counted(count: int, name: str) -> str:
    """A number of things."""
    return f"{count} {name}{'s' * (count != 1)}"


def line_of_file(name: str, data: bytes) -> str:
    """The line of a file in the output of `inspect`."""
    try:
        match image_of(data) if name.startswith("image") else segment_of(data):
            case Image(form, tick, words):
                what = f"open, format {form}, {counted(len(words), 'cell')}, tick {tick}"
            case Segment(form, base, groups, ticks):
                what = f"open, format {form}, base {base}, {counted(groups, 'group')}, {counted(len(ticks), 'tick')}"
            case _:
                what = "closed"
    except Bad:
        what = "damaged"
    return f"{name}: {what}, {counted(len(data), 'byte')}\n"


def printed(command: str, files: Files, found: Found | Refused) -> str:
    """What a command that reads prints on standard output."""
    before = "".join(map(line_of_file, NAMES, files)) if command == "inspect" else ""
    if isinstance(found, Refused):
        return before + "server: none\n" * (command == "status")
    line = f"recovered {found.tick} from {found.source}"
    match command:
        case "inspect":
            return f"{before}{line} in {NAMES[found.slot]}\n{' '.join(map(str, found.words))}\n"
        case "status":
            # Of two segments with one base it is log.b.
            opened = [(log.base, name, len(log.ticks)) for name, data in zip(NAMES[2:], files[2:]) if (log := segment_of(data))]
            has = "{1} has {2} of 65536".format(*max(opened)) if opened else "no segment is open"
            sizes = ", ".join(f"{name} {len(data)}" for name, data in zip(NAMES, files))
            return (
                f"{line} in {NAMES[found.slot]}\nlog: {counted(found.tick - found.source, 'tick')} after the image, {has}\n"
                f"bytes: {sizes}, together {sum(map(len, files))}\nserver: none\n"
            )
        case "backup":
            return f"backed up {found.tick} from {found.source}\n"
        case _:
            return f"{line}\n"
