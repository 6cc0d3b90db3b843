"""What hallback printed, and whether it tells of the same run as a trace.

Here alone is computed again what the output says, and only to refuse an output of another run; what is drawn of the
recovery is what the output says.
"""

from collections import deque
from dataclasses import dataclass

from .trace import Refused, check, form, lines_of, numbers, quoted

STAYS = 32              # restart= of a process that stays as it was at the cut

PROCESS = form("out=proc at=# epoch=# restart=# phase=#")
ORPHAN = form("out=orphan from=# to=# no=# phase=#")
KEPT = form("out=kept from=# to=# no=# phase=#")
TOTAL = form("out=total back=# orphans=# kept=# steps=#")
REFUSAL = form("refused=# place=#")


# ---- What hallback printed

@dataclass
class Restart:
    epoch: int          # at the cut
    restart: int        # an epoch, or STAYS
    phase: int          # at the restart


@dataclass
class Recovery:
    restarts: list      # one for each process
    orphans: dict       # phase by (sender, receiver, number)
    kept: dict
    steps: int

    def back(self):
        return sum(row.restart != STAYS for row in self.restarts)

    def stays(self, process):
        return self.restarts[process].restart == STAYS


def leading(lines, pattern):
    """Takes the lines of this form from the front, and gives their numbers."""
    found = []
    while lines and (row := numbers(pattern, lines[0])):
        found.append(row)
        lines.popleft()
    return found


def read_output(text, name):
    every_line = lines_of(text)
    refusal = len(every_line) == 1 and numbers(REFUSAL, every_line[0])
    check(not refusal, f"{name} is a refusal of hallback, there is nothing to draw: {quoted(text)}")
    lines = deque(every_line)
    processes, orphans, kept = leading(lines, PROCESS), leading(lines, ORPHAN), leading(lines, KEPT)
    total = processes and lines and numbers(TOTAL, lines[0])
    place = len(every_line) - len(lines) + 1
    found = quoted(lines[0]) if lines else "no more lines"
    check(total, f"{name}, line {place}: not what hallback prints here: {found}")
    check(len(lines) == 1, f"{name}, line {place + 1}: text after the total line")
    check([row[0] for row in processes] == list(range(len(processes))),
          f"{name} is not what hallback prints: its processes are not 0, 1, 2 and so on")
    recovery = Recovery([Restart(*row[1:]) for row in processes],
                        {tuple(row[:3]): row[3] for row in orphans},
                        {tuple(row[:3]): row[3] for row in kept}, total[3])
    check(total[:3] == [recovery.back(), len(recovery.orphans), len(recovery.kept)],
          f"{name}, line {place}: the total does not agree with the lines above it")
    return recovery


# ---- Whether both tell of the same run

def restart_event(run, process, restart):
    """The event right after which the process restarts; 0 is its start."""
    return run.cut if restart == STAYS else run.saves[process][restart - 1]


def restart_events(run, recovery):
    return [restart_event(run, process, row.restart) for process, row in enumerate(recovery.restarts)]


def check_restart(run, process, row):
    here = f"process {process}"
    epoch, _ = run.after(process, run.cut)
    check(row.epoch == epoch, f"{here} is in epoch {epoch} at the cut, not {row.epoch}")
    check(row.restart == STAYS or 1 <= row.restart <= epoch,
          f"restart={row.restart} is not a checkpoint of {here} up to the cut")
    check(row.restart == STAYS or run.finished(process, row.restart),
          f"the checkpoint of epoch {row.restart} of {here} is unfinished at the cut")
    check(row.restart != STAYS or process not in run.failed, f"{here} failed, so it cannot stay")
    _, phase = run.after(process, restart_event(run, process, row.restart))
    check(row.phase == phase, f"{here} has phase {phase} at its restart, not {row.phase}")


def classified(run, restarts):
    """Orphans and kept messages of a line, each with its phase, by the definitions of the requirements."""
    orphans, kept = {}, {}
    for message in run.messages:
        before = message.sent <= restarts[message.sender]
        arrived = message.received is not None and message.received <= run.cut
        undone = arrived and message.received > restarts[message.receiver]
        if before and undone and not message.logged:
            raise Refused(f"{spoken(message.name())} would be lost")
        if before and (undone or not arrived):
            kept[message.name()] = message.phase
        if not before and arrived and not undone:
            orphans[message.name()] = message.phase
    return orphans, kept


def spoken(name):
    return "message {2} from {0} to {1}".format(*name)


def check_messages(run, listed, true, kind):
    """The output's list of one kind against the trace's own."""
    known = {message.name() for message in run.messages}
    for name, phase in listed.items():
        check(name in known, f"{spoken(name)} is not in the trace")
        check(name in true, f"{spoken(name)} is not {kind} there")
        check(phase == true[name], f"{spoken(name)} has phase {true[name]}, not {phase}")
    for name in true:
        check(name in listed, f"{spoken(name)} is {kind} there and not listed")


def check_steps(run, recovery, restarts):
    listed = sum(place > restarts[event.at] for place, event in enumerate(run.events, 1))
    kept = len(recovery.kept)
    check(recovery.steps == listed + kept,
          f"steps={recovery.steps}, but events after the restarts ({listed}) and kept messages ({kept}) are "
          f"{listed + kept}")


def check_belongs(run, recovery, name):
    try:
        check(len(recovery.restarts) == run.procs, f"{len(recovery.restarts)} processes, and the trace has {run.procs}")
        for process, row in enumerate(recovery.restarts):
            check_restart(run, process, row)
        restarts = restart_events(run, recovery)
        orphans, kept = classified(run, restarts)
        check_messages(run, recovery.orphans, orphans, "an orphan")
        check_messages(run, recovery.kept, kept, "kept")
        check_steps(run, recovery, restarts)
    except Refused as refused:
        raise Refused(f"{name} does not belong to this trace: {refused}") from None
