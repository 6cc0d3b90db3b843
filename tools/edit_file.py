"""Edits that a check must refuse: how one is read, and whether a log shows that it was refused for what it says.

An edit is a file crates/NAME/must-fail/LABEL.edit, tried by rt ci, or crates/NAME/edits/LABEL.edit, tried by
tools/try_edits, in rt's form: a line `file: PATH` holds for the pairs of lines `old: TEXT` and `new: TEXT` after it;
`old` stands once in the file, as the pairs before have left it; any other line is a comment.
"""

import re
from pathlib import Path

ROOT = Path(__file__).resolve().parent.parent
FOLDERS = ("must-fail", "edits")


class BadEdit(Exception):
    """An edit that does not fit its crate."""


def paths(folder):
    """The edits of one of the two folders, of all crates."""
    return sorted(ROOT.glob(f"crates/*/{folder}/*.edit"))


def name(path):
    return f"{path.parent.parent.name}/{path.stem}"


def changed(path):
    """The files that the edit changes, by their path in the crate, each with its changed text."""
    crate, texts, file, old = path.parent.parent, {}, "", ""
    for line in path.read_text(encoding="utf-8").split("\n"):
        if line.startswith("file: "):
            file = line[len("file: "):]
        elif line.startswith("old: "):
            old = line[len("old: "):]
        elif line.startswith("new:"):
            new = line[len("new:"):].removeprefix(" ")
            parts = file.split("/")
            if parts[0] not in ("src", "specs", "proofs") or ".." in parts or not (crate / file).is_file():
                raise BadEdit(f"no file `{file}` of the crate's src/, specs/ or proofs/")
            before = texts[file] if file in texts else (crate / file).read_text(encoding="utf-8")
            if not old or before.count(old) != 1:
                raise BadEdit(f"`old: {old}` stands {before.count(old) if old else 0} times in {file}")
            if old == new:
                raise BadEdit(f"`new` is `old`, `{old}`")
            texts[file], old = before.replace(old, new), ""
    if not texts:
        raise BadEdit("no pair of `old:` and `new:`")
    if all(file.startswith("proofs/") for file in texts):
        raise BadEdit("it changes a proof only, and neither code nor a definition")
    return texts


# What rt prints of an edit that it tried: one line, with the first 160 characters of the first error. (It has no log.)
TOLD = re.compile(r"^rt: must-fail (\w+/[\w.-]+)\.edit: (.*)$", re.M)

# An edit that was refused, and why that may show nothing: a proof no longer fits the code, or a limit was met.
REFUSED = re.compile(r"refused, as it must be(?: \((only .*?)\))?(?:: (.*))?$")

# An error as rt prints it: where it is, and what it says. Of a goal without an answer, whose proof is left to the
# prover's search, there is no error but a note that names what is not proved.
ERROR = re.compile(r"(?:note: )?(?:\./)?(\S+?):\d+:\d+: (?:error: )?(.*)")

# Errors that tell nothing: one only follows from another, or a proof finds nothing to rewrite in what it is to prove.
SILENT = re.compile(r"` was not admitted \(|^`[^`]*`: `(?:rw|simp)`: no ")

# How the prover says that something does not hold: two sides that should be the same are not, or no proof is found.
FACT = re.compile(
    r"the two (?:types|sides) |, one side reads `|expected type `|\bdoes not hold\b|`(?:omega|search|grind|simp)`: |"
    r"^`[^`]*`: give a proof of that as the last argument|^it is not proved that ")


def told(log):
    """What rt says of each edit in a log of rt ci or rt must-fail, by the edit's name."""
    return dict(TOLD.findall(log))


def unfit(said):
    """Why the refusal that rt tells of cannot show what the edit is named for, or an empty text where it can.

    That the edited text is wrong, and not only other words for the same, no log can tell: who writes an edit sees to
    that. It can show it where the first error stands in a file of proofs/ (or is of a goal that has no answer there)
    and says that something does not hold. It cannot where the edited text does not check at all (BAD EDIT, or that
    error stands in src/ or specs/), nor where a proof file names what the edit took away, which fails whether the
    edited code is right or wrong, nor where the prover met a limit: of these two rt says so itself.
    """
    found = REFUSED.match(said)
    if not found:
        return said
    only, first = found.groups()
    if only:
        return f"{only.split(', so this says')[0].split(', which gave')[0]}: {first}"
    error = ERROR.match(first or "")
    if not error:
        return f"rt tells of no error: {first or 'nothing'}"
    place, what = error.groups()
    if not place.startswith("proofs/") and not what.startswith("it is not proved that "):
        return f"the edited text does not check: {first}"
    return "" if FACT.search(what) and not SILENT.search(what) else f"the first error tells of no fact: {first}"
