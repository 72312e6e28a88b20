"""Checks of a crate with wrong bodies in place, by the prover `rattle`, and what they say of a function's goals."""
import ctypes
import json
import os
import re
import shutil
import signal
import subprocess
import tempfile
from dataclasses import dataclass
from pathlib import Path

TOP = Path(__file__).resolve().parent.parent.parent
KIT = Path(shutil.which("rt") or "/opt/rattle/bin/rt").resolve().parent.parent
LIBC, PR_SET_PDEATHSIG = ctypes.CDLL(None), 1
# A goal that is left open, where it stands in the code, and one whose written answer no longer fits.
OPEN = re.compile(r"note: (?:\./)?(src/\S+?):(\d+):\d+: it is not proved.*?\(`([^`]+)`\)")
UNFIT = re.compile(r"(?:note: )?(?:\./)?(proofs/\S+/)\w+\.antt:\d+:\d+: error: `([^`]+)`: (.*)")
# What a file of a proof says where it names what an edit took away.
GONE = re.compile(r"is not in scope|has no field|has no `|is no name|was not admitted")
PROOF_TEXT = re.compile(r"(?:note: )?(?:\./)?proofs/\S+: error|was not admitted")


@dataclass(frozen=True)
class Goal:
    """A goal that isn't proved: of which function of the crate, and its name."""

    function: str
    name: str
    is_answer: bool = False


@dataclass
class Said:
    """What a check ended with, and the processor seconds that it took."""

    status: int
    lines: list
    seconds: float

    @property
    def has_verdict(self):
        """Whether the prover came to the functions at all."""
        return any(line.startswith(("fn ", "logic=")) for line in self.lines)

    @property
    def fault(self):
        """The first line that tells why there is no verdict."""
        told = [it for it in self.lines if re.search(r"\berror\b|^rattle: ", it)]
        return (told or self.lines or [f"status {self.status}"])[0][:200]


class Libraries:
    """The crates of crates.txt, and where the proved libraries stand: as `rt ci` leaves them, or all in one folder."""

    def __init__(self, folder=None):
        self.folder, self.uses = folder, {}
        for line in (TOP / "crates.txt").read_text().splitlines():
            head, colon, below = line.partition(":")
            if colon and not line.startswith("#"):
                self.uses[head.split()[0]] = below.split()

    def path(self, name):
        own = (self.folder or TOP / "crates" / name / "out/rlib") / f"{name}.rlib"
        return own if name in self.uses else KIT / f"rlibs/{name}.rlib"

    def below(self, name):
        """The repository's crates below one, in some order."""
        direct = [it for it in self.uses[name] if it in self.uses]
        return sorted(set(direct).union(*(self.below(it) for it in direct)))

    def lacking(self, name):
        return [it for it in self.below(name) if not (self.path(it) / "format").is_file()]

    def known(self, name):
        """The names of a library's functions, as its code has them; of a program none."""
        code = self.path(name) / "toolchain/mir.json"
        return set(re.findall(rf'"({name}::[^"]*)"', code.read_text())) if code.is_file() else set()

    def uses_within(self, name):
        """Of each function of a library, also of those that its text doesn't show, the ones of the library that its code
        names, by their paths below it; of a program none."""
        code = self.path(name) / "toolchain/mir.json"
        texts = {it[0]: json.dumps(it[1]) for it in json.loads(code.read_text())} if code.is_file() else {}
        below = {it: it.split("::", 1)[1] for it in texts}
        named = {it: set(re.findall(rf'"({name}::[^"]*)"', text)) & below.keys() for it, text in texts.items()}
        return {below[it]: {below[other] for other in others} for it, others in named.items()}

    def words(self, name):
        """The words of a check over the libraries, as `rt` gives them."""
        root = "src/main.rt" if (TOP / "crates" / name / "src/main.rt").is_file() else "src/lib.rt"
        words = ["--crate-name", name, root]
        for it in ["std", *self.uses[name]]:
            words += ["--extern", f"{it}={self.path(it)}"]
        for it in dict.fromkeys([KIT / "rlibs", *(self.path(it).parent for it in self.below(name))]):
            words += ["-L", f"dependency={it}"]
        words += ["--antt-project", f"{KIT}/rattle/logic/antt-project.json", "--logic-built", f"{KIT}/logic_built"]
        return [*words, "--jobs", "1", "--links", f"{name}="]


def end_with_parent():
    """In a child: it is killed where the runner ends, however that ends."""
    LIBC.prctl(PR_SET_PDEATHSIG, signal.SIGKILL)


def check(name, texts, words):
    """Checks a crate of these texts with `rattle`."""
    with tempfile.TemporaryDirectory(prefix=f"rt-edit-{os.getpid()}-") as room, tempfile.TemporaryFile() as out:
        for file, text in texts.items():
            path = Path(room, file)
            path.parent.mkdir(parents=True, exist_ok=True)
            path.write_text(text)
        how = {"cwd": room, "stdin": subprocess.DEVNULL, "stdout": out, "stderr": subprocess.STDOUT}
        child = subprocess.Popen([f"{KIT}/bin/rattle", "check", *words], preexec_fn=end_with_parent, **how)
        _, ended, used = os.wait4(child.pid, 0)
        child.returncode = os.waitstatus_to_exitcode(ended)
        out.seek(0)
        lines = out.read().decode(errors="replace").splitlines()
        return Said(child.returncode, lines, used.ru_utime + used.ru_stime)


def goals_of(said, items):
    """The goals of these functions that a check has left open: first those of the code, then those of answers."""
    code, answers = [], []
    for line in said.lines:
        found = OPEN.match(line)
        if found:
            code += [Goal(it.path, found[3]) for it in items if it.span.has(found[1], int(found[2]))]
            continue
        found = UNFIT.match(line)
        if found and not GONE.search(re.sub(r"`[^`]*`", "``", found[3])):
            answers += [Goal(it.path, found[2], True) for it in items if it.proofs == found[1]]
    return list(dict.fromkeys(code + answers))


def is_by_proof_text(said):
    """Whether all that a check refuses is a text of a proof."""
    placed = [it for it in said.lines if re.match(r"(?:note: )?\S+:\d+:\d+: ", it)]
    told = [it for it in placed if "error" in it or "not proved" in it]
    return bool(told) and all(PROOF_TEXT.search(it) for it in told)
