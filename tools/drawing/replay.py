"""Replay of a recovery, choice by choice, by the rules of the manual (docs/MANUAL.md, section 5).

The machine finds no order of its own but the lowest. Which messages are orphans and kept, where each process restarts
and in which phase is what hallback printed; a replay computes none of it anew.
"""

from collections import Counter, defaultdict, deque
from dataclasses import dataclass
from typing import Optional

from .recovery import restart_events, spoken
from .trace import MOST_PROCESSES, Message, Refused, check

HANDING = MOST_PROCESSES                # from this choice on a kept message is handed over
CHOICES = HANDING + MOST_PROCESSES**2   # this one and those above it are never allowed
LONGEST_ORDER = 2**20                   # bytes of an order's text; the longest replay has some 4,000 steps

# What a choice does to its message: what the page shows of a step.
PUT, DROPPED, RECEIVED, HANDED = "put", "dropped", "received", "handed"


@dataclass
class Step:
    choice: int
    process: int                        # who does it; for a handing over the sender, whose log it is taken from
    event: Optional[int]                # its number, None for a handing over
    did: str                            # put, dropped, received or handed; save or done for an event without a message
    message: Optional[Message]


@dataclass(frozen=True)
class Wait:
    """Why a process does not go on. For `may`, it can."""
    why: str                            # may, end, phase, message or kept
    about: int = 0                      # the phase; the process that a message comes from, or goes to
    event: int = 0                      # the next one, 0 at the end

    def words(self):
        return {"may": f"may do event {self.event}",
                "end": "has done all its events",
                "phase": f"waits until phase {self.about} is ready",
                "message": f"waits for a message from {self.about}",
                "kept": f"waits until the kept messages to {self.about} are handed over"}[self.why]


class Replay:
    def __init__(self, run, recovery):
        self.run, self.recovery = run, recovery
        restarts = restart_events(run, recovery)
        self.left = [deque(place for place, event in enumerate(run.events, 1)
                           if event.at == process and place > restarts[process]) for process in range(run.procs)]
        self.gates = [row.phase if recovery.stays(process) else row.phase - 1
                      for process, row in enumerate(recovery.restarts)]
        self.channels = defaultdict(deque)
        self.had = Counter()            # by channel: how many messages its receiver had received before its restart
        self.kept = defaultdict(deque)  # by channel, those that are not handed over yet
        for message in run.messages:
            channel = message.sender, message.receiver
            if message.received is not None and message.received <= restarts[message.receiver]:
                self.had[channel] += 1
            if message.name() in recovery.kept:
                self.kept[channel].append(message)
        self.orphans = Counter(recovery.orphans.values())   # by phase, those that are not sent again yet
        self.unready = min(self.orphans, default=None)      # the lowest phase that is not ready, None if all are
        self.steps = []

    # What is allowed

    def ready(self, phase):
        return self.unready is None or phase < self.unready

    def wait(self, process):
        """What the process waits for; of several things the one that the rules name first."""
        if not self.left[process]:
            return Wait("end")
        place = self.left[process][0]
        event = self.run.events[place - 1]
        if not self.ready(self.gates[process]):
            return Wait("phase", self.gates[process], place)
        if event.kind == "receive" and not self.channels[event.message.sender, process]:
            return Wait("message", event.message.sender, place)
        if event.kind == "send" and self.kept[process, event.message.receiver]:
            return Wait("kept", event.message.receiver, place)
        return Wait("may", 0, place)

    def hand_wait(self, sender, receiver):
        """Why no kept message of this channel may be handed over, in words; None if one may."""
        if not self.kept.get((sender, receiver)):
            return f"no kept message from {sender} to {receiver} is left"
        message = self.kept[sender, receiver][0]
        phase = self.recovery.kept[message.name()]
        return None if self.ready(phase) else f"{spoken(message.name())} waits until phase {phase} is ready"

    def why_not(self, choice):
        """Why a choice is not allowed here, in words; None if it is."""
        if choice < HANDING:
            if choice >= self.run.procs:
                return f"process {choice} is not one of the {self.run.procs}"
            wait = self.wait(choice)
            return None if wait.why == "may" else f"process {choice} {wait.words()}"
        if choice < CHOICES:
            return self.hand_wait(*divmod(choice - HANDING, MOST_PROCESSES))
        return "there is no such choice"

    def lowest(self):
        """The lowest allowed choice, None if there is none."""
        for process in range(self.run.procs):
            if self.wait(process).why == "may":
                return process
        for sender, receiver in sorted(channel for channel, kept in self.kept.items() if kept):
            if self.hand_wait(sender, receiver) is None:
                return HANDING + MOST_PROCESSES * sender + receiver
        return None

    # What a choice does

    def take(self, choice):
        """Carries out an allowed choice, and gives the step."""
        step = self.hand_over(choice) if choice >= HANDING else self.next_event(choice)
        self.steps.append(step)
        return step

    def hand_over(self, choice):
        channel = divmod(choice - HANDING, MOST_PROCESSES)
        message = self.kept[channel].popleft()
        self.channels[channel].append(message)
        return Step(choice, channel[0], None, HANDED, message)

    def next_event(self, process):
        place = self.left[process].popleft()
        event = self.run.events[place - 1]
        if event.kind == "send":
            return Step(process, process, place, self.send(event.message), event.message)
        if event.kind == "receive":
            message = self.channels[event.message.sender, process].popleft()
            return Step(process, process, place, RECEIVED, message)
        return Step(process, process, place, event.kind, None)

    def send(self, message):
        channel = message.sender, message.receiver
        if message.no > self.had[channel]:
            self.channels[channel].append(message)
            return PUT
        # Exactly the orphans come here; one that the output does not list counts for nothing.
        phase = self.recovery.orphans.get(message.name())
        if phase is not None:
            self.orphans[phase] -= 1
            self.unready = min((phase for phase, count in self.orphans.items() if count), default=None)
        return DROPPED


# ---- A whole order, with what everyone waited for

class Shown:
    """An order carried out: its steps, and for each process when it began to wait for what."""

    def __init__(self, run, recovery):
        self.replay = Replay(run, recovery)
        self.waits = [[(0, self.replay.wait(process))] for process in range(run.procs)]

    def take(self, choice):
        step = self.replay.take(choice)
        concerned = {step.process}
        if step.did in (PUT, HANDED):
            concerned.add(step.message.receiver)
        if step.did == DROPPED:
            concerned = range(len(self.waits))      # a phase may have become ready
        for process in concerned:
            wait = self.replay.wait(process)
            if wait != self.waits[process][-1][1]:
                self.waits[process].append((len(self.replay.steps), wait))

    @property
    def steps(self):
        return self.replay.steps

    def complete(self):
        return self.replay.lowest() is None


def lowest_order(run, recovery):
    shown = Shown(run, recovery)
    while (choice := shown.replay.lowest()) is not None:
        shown.take(choice)
    return shown


def read_order(text, name):
    """The numbers of an order's text, separated by blanks or line ends."""
    check(len(text) <= LONGEST_ORDER, f"{name}: too long for an order")
    order = []
    for place, word in enumerate(text.split(), 1):
        check(word.isdigit() and len(word) <= 5,
              f"{name}, place {place}: not a choice: {ascii(word[:20].decode('latin-1'))}")
        order.append(int(word))
    return order


def given_order(run, recovery, order, name):
    """An order carried out; refused at its first choice that is not allowed where it comes."""
    shown = Shown(run, recovery)
    for place, choice in enumerate(order, 1):
        reason = shown.replay.why_not(choice)
        if reason is not None:
            raise Refused(f"{name}, place {place}: choice {choice} is not allowed there: {reason}")
        shown.take(choice)
    return shown
