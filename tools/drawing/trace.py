"""A trace text and the run that it records, with the epochs and phases that the protocol gives it."""

import io
import re
from collections import Counter, defaultdict, deque
from dataclasses import dataclass
from itertools import zip_longest
from typing import Optional

MOST_PROCESSES = 64
MOST_EVENTS = 2048
MOST_SAVES = 30             # per process
LARGEST = 2**32 - 1         # of every key but val and set
LARGEST_LONG = 2**64 - 1    # of these two


class Refused(Exception):
    """Input that cannot be drawn. The text says why, in one line."""


# ---- Lines and numbers

def form(template):
    """The pattern of a line, LF included, with a number at each #. Twenty digits hold every number of a trace."""
    return re.compile(template.replace("#", "(0|[1-9][0-9]{0,19})").encode() + rb"\n")


PROCS = form("procs=#")
SEND = form("ev=send at=# to=# val=#")
RECEIVE = form("ev=recv at=# from=#")
SAVE = form("ev=save at=#")
DONE = form("ev=done at=#")
FAILURE = form("fail=# set=#")


def numbers(pattern, line):
    """The numbers of a line of this form, None if it has another form."""
    found = pattern.fullmatch(line)
    return found and [int(digits) for digits in found.groups()]


def lines_of(text):
    """The lines with their LFs; a last one may lack it, and then it matches no form."""
    return io.BytesIO(text).readlines()


def quoted(line):
    """A line as an error message shows it: printable, short, and telling when its LF is missing."""
    whole = line.rstrip(b"\n")
    shown = ascii(whole[:64].decode("latin-1")) + (" and so on" if len(whole) > 64 else "")
    return shown + ("" if line.endswith(b"\n") else " without its line feed")


def check(holds, reason):
    if not holds:
        raise Refused(reason)


# ---- The recorded run

@dataclass
class Message:
    """Named by sender, receiver and its number on that channel; epoch and phase are its sender's at the send."""
    sender: int
    receiver: int
    no: int
    value: int
    sent: int                       # event number
    epoch: int
    phase: int
    received: Optional[int] = None  # event number, None while in transit
    logged: bool = False

    def name(self):
        return self.sender, self.receiver, self.no


@dataclass
class Event:
    kind: str                       # send, receive, save or done
    at: int
    message: Optional[Message]      # None for a save or a done
    epoch: int                      # of the process, right after the event
    phase: int


class Run:
    """A recorded run, event by event, with the epochs and phases that the protocol gives it."""

    def __init__(self, procs):
        check(2 <= procs <= MOST_PROCESSES, f"a process count of {procs}; it must be 2 to {MOST_PROCESSES}")
        self.procs = procs
        self.events = []            # event number i stands at place i - 1
        self.messages = []
        self.saves = [[0] for _ in range(procs)]    # event numbers; 0 is the initial state, save 1
        self.dones = [[0] for _ in range(procs)]    # of the saves, in their order, as many as are finished; 0 of save 1
        self.phase = [1] * procs
        self.transit = defaultdict(deque)
        self.sent_on = Counter()
        self.cut = 0
        self.failed = set()

    def send(self, at, to, value):
        self.check_channel(at, to)
        self.sent_on[at, to] += 1
        message = Message(at, to, self.sent_on[at, to], value, len(self.events) + 1, len(self.saves[at]),
                          self.phase[at])
        self.messages.append(message)
        self.transit[at, to].append(message)
        self.record("send", at, message)

    def receive(self, at, source):
        self.check_channel(at, source)
        check(self.transit[source, at], f"a receive with nothing in transit from {source} to {at}")
        message = self.transit[source, at].popleft()
        message.received = len(self.events) + 1
        message.logged = message.epoch < len(self.saves[at])
        self.phase[at] = max(self.phase[at], message.phase + message.logged)
        self.record("receive", at, message)

    def save(self, at):
        self.check_process(at)
        check(len(self.saves[at]) <= MOST_SAVES, f"more than {MOST_SAVES} saves of process {at}")
        self.saves[at].append(len(self.events) + 1)
        self.phase[at] += 1
        self.record("save", at, None)

    def done(self, at):
        self.check_process(at)
        check(len(self.dones[at]) < len(self.saves[at]), f"a done of process {at}, which has no unfinished save")
        self.dones[at].append(len(self.events) + 1)
        self.record("done", at, None)

    def fail(self, cut, failed):
        check(cut <= len(self.events), f"a failure after event {cut}, but the last event is {len(self.events)}")
        check(failed > 0, "a failure of no process")
        check(failed < 2**self.procs, f"a failed process that is not one of the {self.procs}")
        self.cut = cut
        self.failed = {process for process in range(self.procs) if failed >> process & 1}

    def record(self, kind, at, message):
        self.events.append(Event(kind, at, message, len(self.saves[at]), self.phase[at]))

    def check_process(self, process):
        check(process < self.procs, f"process {process} is not one of the {self.procs}")

    def check_channel(self, one, other):
        self.check_process(one)
        self.check_process(other)
        check(one != other, f"process {one} sends to or receives from itself")

    def done_of(self, process, epoch):
        """The event that finishes the save of this epoch, None if none does."""
        dones = self.dones[process]
        return dones[epoch - 1] if epoch <= len(dones) else None

    def finished(self, process, epoch):
        """Whether a save is finished at the cut; whether it ever is, if it comes after the cut."""
        done = self.done_of(process, epoch)
        return done is not None and (done <= self.cut or self.saves[process][epoch - 1] > self.cut)

    def writings(self, process):
        """When saves of the process were being written: the events from and to, None for to the end of the trace."""
        spans = []
        for save, done in zip_longest(self.saves[process][1:], self.dones[process][1:]):
            if spans and (spans[-1][1] is None or save < spans[-1][1]):
                save = spans.pop()[0]
            spans.append((save, done))
        return spans

    def after(self, process, event):
        """Epoch and phase of a process right after an event of any process."""
        for earlier in reversed(self.events[:event]):
            if earlier.at == process:
                return earlier.epoch, earlier.phase
        return 1, 1


def read_event(run, line):
    """Takes one event into the run; False if the line has no form of an event."""
    for pattern, take in (SEND, run.send), (RECEIVE, run.receive), (SAVE, run.save), (DONE, run.done):
        found = numbers(pattern, line)
        # one or two processes, then the value of a send
        if found and max(found[:2]) <= LARGEST and max(found) <= LARGEST_LONG:
            check(len(run.events) < MOST_EVENTS, f"more than {MOST_EVENTS} events")
            take(*found)
            return True
    return False


def read_failure(run, line):
    """Takes the failure into the run; False if the line is no failure line."""
    found = numbers(FAILURE, line)
    if not found or found[0] > LARGEST or found[1] > LARGEST_LONG:
        return False
    run.fail(*found)
    return True


def read_lines(lines, place):
    """The run of a trace text. Place is told, before each line is read, which line that is."""
    place(1)
    check(lines, "no text")
    first = numbers(PROCS, lines[0])
    check(first, f"not a process count: {quoted(lines[0])}")
    run = Run(*first)
    for number, line in enumerate(lines[1:], 2):
        place(number)
        if read_failure(run, line):
            place(number + 1)
            check(number == len(lines), "text after the failure line")
            return run
        check(read_event(run, line), f"not an event or a failure line: {quoted(line)}")
    place(len(lines) + 1)
    raise Refused("the failure line is missing")


def read_trace(text, name):
    reached = []
    try:
        return read_lines(lines_of(text), reached.append)
    except Refused as refused:
        raise Refused(f"{name}, line {reached[-1]}: {refused}") from None
