"""The space-time diagram of a run, its failure and its recovery."""

from collections import defaultdict
from xml.sax.saxutils import escape

from .recovery import STAYS, spoken
from .svg import (STYLE, arrow, box, cross, decimal, element, flag, heads, pale, stroke, tooltip, written,
                  written_width)
from .view import Layout, Room, bundled, restart_place


class Picture:
    """Live is for the page: marks and messages carry their numbers, and no tooltips, since the page has its own."""

    def __init__(self, run, recovery, view, live=False):
        self.run = run
        self.recovery = recovery
        self.view = view
        self.live = live
        self.bands = bundled(run, recovery, view)
        self.at = Layout(run, view, self.bands)
        self.room = Room()
        self.columns = defaultdict(list)
        for place in self.at.events:
            self.columns[run.events[place - 1].at].append(self.at.x(place))
        self.places = {id(message): place for place, message in enumerate(run.messages)}
        self.messages = [message for message in run.messages if self.visible(message)]

    def group(self, told, *children, **number):
        """An element that a viewer tells something about: by its tooltip, or on the page by its number."""
        return element("g", *children, **number) if self.live else element("g", tooltip(told), *children)

    # Processes

    def status(self, process):
        row = self.recovery.restarts[process]
        if row.restart == STAYS:
            return f"stays, in phase {row.phase}"
        goal = f"back to epoch {row.restart}" if row.restart > 1 else "back to its start"
        return f"failed, {goal}" if process in self.run.failed else f"goes {goal}"

    def restart_x(self, process):
        return self.at.restart(*restart_place(self.run, self.recovery, process))

    def undone(self, process):
        left, right = self.restart_x(process), self.at.cut
        if left >= right:
            return ""
        return box((left + right) / 2, self.at.y(process), right - left, 2 * self.at.half, "undone")

    def process_line(self, process):
        at, y = self.at, self.at.y(process)
        return "".join([
            written(f"process {process}", at.start - 14, y - 1, "name"),
            written(self.status(process), at.start - 14, y + 12, "status"),
            stroke(at.start, y, at.cut, y, "line") if at.cut > at.start else "",
            pale(True, stroke(at.cut, y, at.end, y, "line")) if at.cut < at.end else ""])

    def name_spots(self):
        """Where along long lines names are written again, from their left ends: at the cut, and in the gaps for it."""
        at = self.at
        if not at.long:
            return []
        spots = [at.column(number) + 7 for number in at.names]
        return spots + [at.cut + at.gap / 2] if at.has_cut else spots

    def names_again(self, process):
        y, words = self.at.y(process), f"process {process}"
        return "".join(box(x + 30, y, 62, 14, "behind") + written(words, x, y + 3.6, "again")
                       for x in self.name_spots())

    def writing(self, process):
        """A bar under the process line, from each save to its done."""
        at, y, parts = self.at, self.at.y(process), []
        for save, done in self.run.writings(process):
            left, right = at.x(save), at.end if done is None else at.x(done)
            if left == right:
                continue
            if left < at.cut:
                parts.append(stroke(left, y, min(right, at.cut), y, "writing"))
            if right > at.cut:
                parts.append(pale(True, stroke(max(left, at.cut), y, right, y, "writing")))
        return "".join(parts)

    def restart_mark(self, process):
        at, x, y = self.at, self.restart_x(process), self.at.y(process)
        failed = cross(at.cut, y, min(7.0, at.half / 2)) if process in self.run.failed and at.has_cut else ""
        if not at.has_restart(*restart_place(self.run, self.recovery, process)):
            return failed
        self.room.take(x, y, 8, 2 * at.half)
        return flag(x, y, at.half, min(9.0, at.half * 0.7)) + failed

    # Events

    def mark(self, kind, x, y):
        r = self.at.radius
        if kind in ("save", "unfinished"):
            return box(x, y, 2 * r + 1.2, 2 * r + 1.2, kind)
        if kind == "done":
            return stroke(x, y - r - 2, x, y + r + 2, kind)
        return element("circle", cx=x, cy=y, r=r, cls=kind)

    def checkpoint_label(self, process, x, epoch, phase):
        """Above the checkpoint; higher, below or aside where another label is, but never left out."""
        at, y = self.at, self.at.y(process)
        size, cls = (10, "small") if at.roomy else (8, "tiny")
        near, step, aside = at.half + 7 if at.roomy else at.radius + 7, size + 3, 3.2 * size
        rises = [-near, near] if not at.roomy else [-near, -near - step, near, -near - 2 * step, near + step]
        spots = [(x + shift, y + rise) for shift in (0, aside / 2, -aside / 2, aside, -aside) for rise in rises]
        return self.room.sure_label(f"e{epoch} p{phase}", spots, (x, y), cls, size)

    def start_mark(self, process):
        """A process begins with a checkpoint, always finished: its initial state."""
        if self.at.first > 1:
            return ""
        x, y = self.at.start, self.at.y(process)
        return self.mark("save", x, y) + self.checkpoint_label(process, x, 1, 1)

    def take_event(self, place):
        r = self.at.radius
        self.room.take(self.at.x(place), self.at.y(self.run.events[place - 1].at), 3 * r, 3 * r)

    def event(self, place):
        event = self.run.events[place - 1]
        x, y = self.at.x(place), self.at.y(event.at)
        told = f"event {place}: {event.kind} at process {event.at}, then in epoch {event.epoch}, phase {event.phase}"
        kind, label = event.kind, ""
        if kind == "save":
            told += f", {self.finish(event.at, event.epoch)}"
            kind = "save" if self.run.finished(event.at, event.epoch) else "unfinished"
            label = self.checkpoint_label(event.at, x, event.epoch, event.phase)
        if kind == "done":
            told += f", the checkpoint of epoch {self.run.dones[event.at].index(place) + 1} finished"
        return pale(place > self.run.cut, self.group(told, self.mark(kind, x, y), label, data_e=str(place)))

    def finish(self, process, epoch):
        """When a checkpoint was finished, in words."""
        done, save = self.run.done_of(process, epoch), self.run.saves[process][epoch - 1]
        if done is None:
            return "never finished"
        return f"finished by event {done}{', after the cut' if save <= self.run.cut < done else ''}"

    # Messages

    def visible(self, message):
        """Whether something of its arrow is drawn. Of those that only pass through, orphans and kept ones are."""
        at = self.at
        if message.sender not in at.row or message.receiver not in at.row or self.in_band(message):
            return False
        ends = at.inside(message.sent) or message.received is not None and at.inside(message.received)
        passes = message.sent < at.first and message.received is not None and message.received > at.last
        return ends or passes and self.kind(message) != "plain"

    def in_band(self, message):
        return (message.sender, message.receiver) in self.bands and message.name() in self.recovery.kept

    def kind(self, message):
        if message.name() in self.recovery.orphans:
            return "orphan"
        return "kept" if message.name() in self.recovery.kept else "plain"

    def aside(self, process, x):
        """Where a way may cross a process line near x: beside the mark of an event there, not through it."""
        clear = self.at.radius + 4
        for column in self.columns[process]:
            if abs(column - x) < clear:
                return column + (clear if x >= column else -clear)
        return x

    def way(self, message):
        """The points of a message's arrow, from its send on: one on each process line that it meets."""
        at = self.at
        x1, y1 = at.x(message.sent), at.y(message.sender)
        down = 1 if message.receiver > message.sender else -1
        if message.received is None:
            # In transit to the end of the trace: some way towards the receiver.
            return [(x1, y1), (x1 + max(12.0, min(34.0, 1.2 * at.dx)), y1 + down * at.dy / 2)]
        if not at.inside(message.received):
            return [(x1, y1), (at.x(message.received), at.y(message.receiver))]
        x2, y2 = at.x(message.received), at.y(message.receiver)
        points = [(x1, y1)]
        between = range(message.sender + down, message.receiver, down) if at.roomy else ()
        for process in filter(at.row.__contains__, between):
            y = at.y(process)
            points.append((self.aside(process, x1 + (x2 - x1) * (y - y1) / (y2 - y1)), y))
        # The head ends at the rim of the receive's mark and not under it.
        x, y = points[-1]
        share = (at.radius + 1.5) / ((x2 - x) ** 2 + (y2 - y) ** 2) ** 0.5
        return points + [(x2 - share * (x2 - x), y2 - share * (y2 - y))]

    def message(self, message):
        at, kind, points = self.at, self.kind(message), self.way(message)
        told, number = self.told(message, kind), {"data_m": str(self.places[id(message)])}
        # Wider than the arrow and not to be seen, for the page's pointer to find.
        hit = arrow(points, "hit") if self.live else ""
        if message.received is None:
            return pale(message.sent > self.run.cut, self.group(told, arrow(points, kind, "open"), hit, **number))
        head = "end" if at.inside(message.received) else None
        before, after = split(points, at.cut)
        if not before or not after:
            return pale(after, self.group(told, arrow(points, kind, head), hit, **number))
        return self.group(told, arrow(before, kind), pale(True, arrow(after, kind, head)), hit, **number)

    def stub(self, message):
        """The end of a message whose other end is a process that is not drawn."""
        at = self.at
        here, other, place = ((message.sender, message.receiver, message.sent) if message.sender in at.row else
                              (message.receiver, message.sender, message.received))
        if here not in at.row or other in at.row or place is None or not at.inside(place):
            return ""
        x, y = at.x(place), at.y(here)
        away, on = (12 if other > here else -12), (6 if place == message.sent else -6)
        return pale(True, self.group(self.told(message, "plain"), stroke(x, y, x + on, y + away, "plain"),
                                     data_m=str(self.places[id(message)])))

    # Kept messages of one channel in one band

    def band(self, channel):
        """From the sender's line to the receiver's, with an arrow head there, and how many messages it stands for."""
        at, messages = self.at, self.bands[channel]
        phases = sorted({self.recovery.kept[message.name()] for message in messages})
        told = (f"{len(messages)} kept messages from {channel[0]} to {channel[1]}: "
                f"{messages[0].no} to {messages[-1].no}, of {spans('phase', phases)}")
        return self.group(told, *ribbon(at.lane_x(channel), at.y(channel[0]), at.y(channel[1]), len(messages)),
                          data_b="{}-{}".format(*channel))

    def told(self, message, kind):
        words = [f"{spoken(message.name())}, value {message.value}, of epoch {message.epoch}, phase {message.phase}"]
        words += ["logged"] if message.logged else []
        words += [kind] if kind != "plain" else []
        words += ["never received"] if message.received is None else []
        return ", ".join(words)

    def class_label(self, message):
        """Orphan or kept with its phase, on the arrow between two process lines; its letter where that is too long."""
        kind, points = self.kind(message), self.way(message)
        if kind == "plain" or not self.at.roomy:
            return ""
        spots = [(x1 + share * (x2 - x1), y1 + share * (y2 - y1))
                 for share in (0.5, 0.36, 0.64) for (x1, y1), (x2, y2) in zip(points, points[1:])]
        if message.received is None:
            # A short arrow would vanish behind its label.
            spots.insert(0, (spots[0][0] - 32, spots[0][1]))
        phase = (self.recovery.orphans if kind == "orphan" else self.recovery.kept)[message.name()]
        words, cls = f"{kind} p{phase}", f"small said-{kind}"
        return self.room.label(words, spots, cls) or self.room.label(kind[0].upper(), spots, cls)

    def transit_label(self, message):
        """Whom an arrow with an open end was on its way to."""
        if message.received is not None or not self.at.roomy:
            return ""
        (_, y1), (x, y) = self.way(message)
        beyond = 9 if y > y1 else -9
        label = self.room.label(f"to {message.receiver}", [(x, y + beyond), (x + 20, y), (x - 26, y)])
        return pale(message.sent > self.run.cut, label)

    # Around them

    def heading(self):
        run, recovery = self.run, self.recovery
        when = f"after event {run.cut}" if run.cut else "before the first event"
        total = ", ".join([
            f"{counted(recovery.back(), 'process goes', 'processes go')} back",
            counted(len(recovery.orphans), "orphan", "orphans"),
            counted(len(recovery.kept), "kept message", "kept messages"),
            f"{counted(recovery.steps, 'step', 'steps')} of replay"])
        return f"{failed_words(run.failed)} {when}", total

    def left_out(self):
        """What the view does not show, in a line; nothing where it shows all."""
        if self.view.whole:
            return ""
        shown = {message.name() for message in self.messages}
        shown |= {message.name() for messages in self.bands.values() for message in messages}
        count, missing = len(self.run.events), []
        for names, one, many in ((self.recovery.orphans, "orphan", "orphans"),
                                 (self.recovery.kept, "kept message", "kept messages")):
            hidden = sum(name not in shown for name in names)
            missing += [counted(hidden, one, many)] if hidden else []
        events = f"events {self.at.first} to {self.at.last}" if self.at.first <= self.at.last else "no event"
        words = (f"drawn: {events} of {count}, "
                 f"{counted(len(self.view.processes), 'process', 'processes')} of {self.run.procs}")
        cut = "" if self.at.has_cut else f"; the cut is after event {self.run.cut}"
        return words + cut + (f"; not drawn: {' and '.join(missing)}" if missing else "")

    def cut_line(self):
        at = self.at
        if not at.has_cut:
            return ""
        words = f"cut after event {self.run.cut}" if self.run.cut else "cut before event 1"
        return (stroke(at.cut, at.top - at.half - 26, at.cut, at.axis - 12, "cut") +
                written(words, at.cut, at.top - at.half - 31, "small"))

    def axis(self):
        """Event numbers, as many as have room, below the lines and, where there are many, above them too."""
        at, places, taken = self.at, [], 0.0
        step = next(step for step in (1, 2, 5, 10) if step * at.dx >= 20)
        for place in at.events:
            # Where processes are left out, numbers are not evenly spread.
            if (place % step == 0 or len(at.row) < self.run.procs) and at.x(place) >= taken:
                places.append(place)
                taken = at.x(place) + max(19.9, written_width(str(place), 9) + 3)
        heights = [at.axis] if len(at.row) <= 16 else [at.axis, at.top - at.half - 12]
        return "".join(written("event", at.start - 14, y, "axis") + "".join(
            pale(place > self.run.cut, written(str(place), at.x(place), y, "tick")) for place in places)
            for y in heights)

    def legend_entries(self):
        """Words, and what draws the sign for them, 34 wide, from its left end."""
        def way(kind, head):
            return lambda x, y: arrow([(x, y), (x + 34, y)], kind, head)

        def on_line(draw_sign):
            return lambda x, y: stroke(x + 4, y, x + 30, y, "line") + draw_sign(x + 17, y)

        def mark(kind):
            return on_line(lambda x, y: self.mark(kind, x, y))

        def written_until(kind, draw_end):
            return lambda x, y: (stroke(x + 9, y, x + 27, y, "writing") + stroke(x + 1, y, x + 33, y, "line") +
                                 self.mark(kind, x + 9, y) + draw_end(x + 27, y))

        def band(x, y):
            lines = (stroke(x + 4, y + side, x + 30, y + side, "line") for side in (-9, 21))
            return "".join([*lines, *ribbon(x + 17, y - 9, y + 21, 7)])

        return [
            ("send", mark("send")),
            ("receive", mark("receive")),
            ("checkpoint: epoch 2, phase 3",
             lambda x, y: mark("save")(x, y) + written("e2 p3", x + 17, y - 9, "small")),
            ("being written, until its done", written_until("save", lambda x, y: self.mark("done", x, y))),
            ("unfinished: no restart here", written_until("unfinished", lambda x, y: "")),
            ("failed", on_line(lambda x, y: cross(x, y, 6))),
            ("restart: runs on from here", on_line(lambda x, y: flag(x - 3, y, 9, 8))),
            ("undone", lambda x, y: box(x + 17, y, 30, 16, "undone") + stroke(x + 2, y, x + 32, y, "line")),
            ("after the cut", lambda x, y: pale(True, mark("send")(x, y))),
            ("message", way("plain", "end")),
            ("orphan: to be sent again", way("orphan", "end")),
            ("kept: to be handed over", way("kept", "end")),
            ("never received", way("plain", "open")),
            *([("7 kept messages of one channel", band)] if self.bands else [])]

    def legend(self, width=None, top=None):
        """The legend's elements, in columns, and the height of the picture with it."""
        entries, step = self.legend_entries(), 236
        width, top = width or self.at.width, self.at.axis + 36 if top is None else top
        columns = min(6, int((width - 48) // step))
        drawn = []
        for place, (words, sign) in enumerate(entries):
            x, y = 24 + place % columns * step, top + place // columns * 28
            drawn.append(element("g", sign(x, y), written(words, x + 42, y + 4, "legend")))
        return drawn, y + (40 if self.bands else 26)        # a band's sign is taller than the others

    def take_marks(self):
        """Takes the room of what is no label and stands fast: the cut, names, events and heads of arrows in transit."""
        at = self.at
        if at.has_cut:
            self.room.take(at.cut, at.top, 4, 4 * at.axis)
        for x in self.name_spots():
            for process in self.view.processes:
                self.room.take(x + 30, at.y(process), 62, 14)
        for place in at.events:
            self.take_event(place)
        for message in self.messages:
            if message.received is None:
                self.room.take(*self.way(message)[-1], 10, 10)

    def drawn(self):
        """All that stands between the heading and the legend, in the order of drawing."""
        processes = self.view.processes
        # Marks take their room first, then labels in the order of their use to a reader. Drawing has another order.
        self.take_marks()
        flags = [self.restart_mark(process) for process in processes]
        starts = [self.start_mark(process) for process in processes]
        events = [self.event(place) for place in self.at.events]
        labels = [self.class_label(message) for message in self.messages]
        labels += [self.transit_label(message) for message in self.messages]
        parts = [
            *map(self.undone, processes),
            self.cut_line(),
            *map(self.writing, processes),
            *map(self.process_line, processes),
            *(map(self.stub, self.run.messages) if len(processes) < self.run.procs else ()),
            *map(self.message, self.messages),
            *map(self.band, self.bands),
            *labels, *map(self.names_again, processes), *starts, *events, *flags, self.axis()]
        return [part for part in parts if part]

    def head_size(self):
        return max(6.0, min(10.0, self.at.dx / 2))

    def dense(self):
        return {} if self.at.roomy else {"cls": "dense"}

    def svg(self):
        at = self.at
        title, total = self.heading()
        legend, height = self.legend()
        left_out = self.left_out()
        parts = [
            tooltip(title), element("desc", escape(total)),
            element("style", escape(STYLE)), heads(self.head_size()),
            element("rect", width=at.width, height=height, cls="ground"),
            written(title, 24, 30, "title"), written(total, 24, 50, "total"),
            *([written(left_out, 24, 68, "total")] if left_out else []),
            *self.drawn(), *legend]
        return element("svg", "\n", "\n".join(parts), "\n", xmlns="http://www.w3.org/2000/svg", width=at.width,
                       height=height, viewBox=f"0 0 {decimal(at.width)} {decimal(height)}", **self.dense()) + "\n"


def split(points, cut):
    """A way's points before the cut and after it; the point on the cut, if the way crosses it, is in both."""
    before = [point for point in points if point[0] < cut]
    after = points[len(before):]
    if before and after:
        (x1, y1), (x2, y2) = before[-1], after[0]
        crossing = cut, y1 + (y2 - y1) * (cut - x1) / (x2 - x1)
        return before + [crossing], [crossing] + after
    return before, after


def ribbon(x, y1, y2, count):
    """The band of kept messages at x from one process line to another, and their count in it."""
    down, words, middle = 1 if y2 > y1 else -1, str(count), (y1 + y2) / 2
    head = f"M{decimal(x - 5)},{decimal(y2 - 8 * down)}h10L{decimal(x)},{decimal(y2)}Z"
    return [stroke(x, y1, x, y2 - 7 * down, "band"),
            element("path", d=head, cls="point"),
            element("circle", cx=x, cy=y1, r=2.6, cls="point"),
            box(x, middle, written_width(words, 10) + 3, 12, "behind"),
            written(words, x, middle + 3.6, "count")]


def spans(word, numbers):
    """Numbers in ascending order, as 'phase 3' or 'phases 3 to 7'."""
    return f"{word} {numbers[0]}" if len(numbers) == 1 else f"{word}s {numbers[0]} to {numbers[-1]}"


def counted(count, one, many):
    return f"{count} {one if count == 1 else many}"


def failed_words(failed):
    """Who failed; a long list would not fit the title, and each process is marked anyway."""
    names = [str(process) for process in sorted(failed)]
    if len(names) == 1:
        return f"Process {names[0]} fails"
    if len(names) <= 12:
        return f"Processes {', '.join(names[:-1])} and {names[-1]} fail"
    return f"{len(names)} processes fail"

