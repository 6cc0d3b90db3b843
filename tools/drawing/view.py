"""What of a run is drawn, and where it stands."""

from bisect import bisect_left, bisect_right
from collections import defaultdict
from dataclasses import dataclass
from typing import Optional

from .recovery import restart_event
from .svg import box, stroke, written, written_width
from .trace import check

FEW = 3                 # kept messages of a channel that are drawn one by one


@dataclass
class Options:
    """What the command line asks for."""
    around: Optional[int] = None        # so many events before the cut and after it
    events: Optional[tuple] = None      # from and to
    affected: bool = False
    few: int = FEW


@dataclass
class View:
    """The events from first to last of these processes."""
    processes: list
    first: int
    last: int
    whole: bool                         # nothing is left out
    few: int = FEW


def affected_processes(recovery):
    """Those that go back, and the ends of orphans and kept messages."""
    found = {process for process in range(len(recovery.restarts)) if not recovery.stays(process)}
    for sender, receiver, _ in (*recovery.orphans, *recovery.kept):
        found |= {sender, receiver}
    return sorted(found)


def view_of(run, recovery, options):
    count = len(run.events)
    first, last = 1, count
    if options.around is not None:
        first, last = max(1, run.cut - options.around + 1), min(count, run.cut + options.around)
    if options.events is not None:
        first, last = options.events
        check(first <= last, f"events {first} to {last} are none")
        check(1 <= first <= count, f"event {first} is not one of the {count}")
        last = min(last, count)
    processes = affected_processes(recovery) if options.affected else list(range(run.procs))
    whole = (first, last, len(processes)) == (1, count, run.procs)
    return View(processes, first, last, whole, options.few)


def has_cut(run, view):
    return view.first - 1 <= run.cut <= view.last


def bundled(run, recovery, view):
    """By channel, the kept messages of each that has more than a few of them. They are drawn together, behind the cut,
    where they are handed over; without the cut in the view each is drawn where it was."""
    channels = defaultdict(list)
    for message in run.messages if has_cut(run, view) else ():
        if message.name() in recovery.kept:
            channels[message.sender, message.receiver].append(message)
    return {channel: messages for channel, messages in channels.items()
            if len(messages) > view.few and set(channel) <= set(view.processes)}


def lanes_of(channels, row):
    """A lane for each channel, so that no two in a lane meet: from the top, each in the first that is free there."""
    lanes, last = {}, []
    for channel in sorted(channels, key=lambda channel: sorted(row[process] for process in channel)):
        top, bottom = sorted(row[process] for process in channel)
        lane = next((lane for lane, reached in enumerate(last) if reached < top), len(last))
        last[lane:lane + 1] = [bottom]
        lanes[channel] = lane
    return lanes


class Layout:
    """Where things stand. A column for each event that is drawn and one wider gap at the cut; a row for each process.
    Where lines are long, the gap at the cut, and further ones along the lines, have room for the processes' names. The
    gap at the cut also has the lanes of kept messages that are drawn together."""

    NAMES = 68.0            # width of such a gap
    LONG = 1500.0           # a line longer than this has its name again,
    EVERY = 1100.0          # about so far apart

    def __init__(self, run, view, bands):
        self.row = {process: row for row, process in enumerate(view.processes)}
        self.first, self.last = view.first, view.last
        self.events = [place for place, event in enumerate(run.events, 1)
                       if view.first <= place <= view.last and event.at in self.row]
        count, rows = len(self.events), len(self.row)
        # Roomy columns for few events; from 80 events on the width is held, until columns would be too narrow to see.
        self.dx = max(8.0, min(22.0, 1760 / max(count, 1)), min(60.0, 860 / (count + 2)))
        self.dy = max(30.0, min(76.0, 608 / max(rows, 1)))
        self.half = min(15.0, self.dy / 3)                  # of the band around a process line
        self.radius = max(2.2, min(4.2, self.dx / 5))       # of an event's mark
        self.roomy = self.dy >= 44 and self.dx >= 14        # for labels, and for arrows that turn out of the way
        self.long = count * self.dx > self.LONG
        self.cut_event = run.cut
        self.has_cut = has_cut(run, view)
        self.before_cut = bisect_right(self.events, run.cut)
        self.gap = max(26.0, min(40.0, self.dx)) if self.has_cut else 0.0
        self.lanes = lanes_of(bands, self.row)
        self.lane_width = 6 + max((written_width(str(len(messages)), 10) for messages in bands.values()), default=0)
        # behind the cut: half of the gap, names, lanes, the other half
        self.behind = self.gap + self.NAMES * self.long
        self.behind += 8 + self.lane_width * (max(self.lanes.values()) + 1) if bands else 0
        self.names = self.name_columns(count) if self.long else []
        self.start = 188.0
        self.lead = 26.0
        self.end = self.column(count) + 14
        if self.has_cut and self.before_cut == count:
            self.end += self.behind
        self.cut = self.cut_x()
        self.width = max(760.0, self.end + 56)             # a last send's arrow needs some room
        self.top = 120.0 if view.whole else 138.0          # what is left out is told above
        self.bottom = self.top + max(rows - 1, 0) * self.dy
        self.axis = self.bottom + self.half + 26

    def name_columns(self, count):
        """After how many columns names are repeated, counted from the cut on both sides; its own names are not here."""
        every = int(self.EVERY / self.dx)
        spots = range(self.before_cut % every, count, every)
        return [spot for spot in spots if every / 2 < spot < count - every / 2 and
                (spot != self.before_cut or not self.has_cut)]

    def column(self, number):
        """The right edge of the column with this number, from 1; of the margin for 0. The gap at the cut is not in the
        last column before it."""
        x = self.start + self.lead + number * self.dx + bisect_left(self.names, number) * self.NAMES
        return x + (self.behind if self.has_cut and number > self.before_cut else 0)

    def cut_x(self):
        if self.has_cut:
            return self.column(self.before_cut) + self.gap / 2
        return self.start if self.cut_event < self.first else self.end

    def lane_x(self, channel):
        names = self.NAMES if self.long else 0
        return self.cut + self.gap / 2 + names + 4 + (self.lanes[channel] + 0.5) * self.lane_width

    def x(self, event):
        """The middle of an event's column. What is not drawn stands at the end of the lines that it lies beyond."""
        if event < self.first:
            return self.start
        if event > self.last:
            return self.end
        return self.column(bisect_right(self.events, event)) - self.dx / 2

    def y(self, process):
        return self.top + self.row[process] * self.dy

    def inside(self, event):
        return self.first <= event <= self.last

    def restart(self, event, stays):
        """Right after a checkpoint, before any later column; at the cut for a process that stays."""
        if stays:
            return self.cut
        if self.inside(event):
            return self.x(event) + self.dx / 2
        if event > self.last:
            return self.end
        return self.start + (self.lead / 2 if event == 0 and self.first == 1 else 0)

    def has_restart(self, event, stays):
        return self.has_cut if stays else self.inside(event) or (event == 0 and self.first == 1)


def restart_place(run, recovery, process):
    """The event of a restart, and whether the process stays."""
    return restart_event(run, process, recovery.restarts[process].restart), recovery.stays(process)


class Room:
    """What is taken, so that no label covers a mark or another label. Kept by squares, since there may be thousands."""

    SQUARE = 64

    def __init__(self):
        self.marks = defaultdict(list)
        self.labels = defaultdict(list)

    def squares(self, left, top, right, bottom):
        for column in range(int(left // self.SQUARE), int(right // self.SQUARE) + 1):
            for row in range(int(top // self.SQUARE), int(bottom // self.SQUARE) + 1):
                yield column, row

    def take(self, x, y, width, height, into=None):
        edges = x - width / 2, y - height / 2, x + width / 2, y + height / 2
        for square in self.squares(*edges):
            (self.marks if into is None else into)[square].append(edges)

    def free(self, x, y, width, height, among=None):
        left, top, right, bottom = edges = x - width / 2, y - height / 2, x + width / 2, y + height / 2
        return not any(left < r and l < right and top < b and t < bottom
                       for square in self.squares(*edges)
                       for taken in ((self.marks, self.labels) if among is None else (among,))
                       for l, t, r, b in taken.get(square, ()))

    def put(self, words, x, y, cls, size):
        width, height = written_width(words, size) + 2, size + 2
        self.take(x, y, width, height, self.labels)
        return box(x, y, width, height, "behind") + written(words, x, y + 0.36 * size, cls)

    def label(self, words, spots, cls="small", size=10):
        """A label around the first of these points that has room for it, nothing if none has."""
        for x, y in spots:
            if self.free(x, y, written_width(words, size) + 2, size + 2):
                return self.put(words, x, y, cls, size)
        return ""

    def sure_label(self, words, spots, home, cls="small", size=10):
        """The same, but never left out: where no point has room it may cover a mark, and at last a label. Away from the
        first point it has a line to its home."""
        width, height = written_width(words, size) + 2, size + 2
        found = [spot for spot in spots if self.free(*spot, width, height)] or \
                [spot for spot in spots if self.free(*spot, width, height, self.labels)] or spots
        x, y = found[0]
        leader = stroke(*home, x, y, "leader") if found[0] != spots[0] else ""
        return leader + self.put(words, x, y, cls, size)
