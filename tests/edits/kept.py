"""What earlier runs on this machine have seen of a wrong body, and the goal that the repository expects of each."""
import contextlib
import hashlib
import json
import os
import time
from pathlib import Path

from checks import KIT, TOP, Goal

GOALS = TOP / "tests/edits/goals"
# How long an entry that no run reads stays, in seconds.
KEPT_FOR = 60 * 86_400


def sum_of(*parts):
    """A checksum of some texts and bytes, in their order."""
    total = hashlib.sha256()
    for it in parts:
        data = it if isinstance(it, bytes) else str(it).encode()
        total.update(f"{len(data)} ".encode() + data)
    return total.hexdigest()


def kit_sum():
    """A checksum that tells a kit from another: its texts, and the sizes and times of its prover and its logic."""
    texts = [(KIT / it).read_bytes() for it in ("KIT-ID", "WHAT") if (KIT / it).is_file()]
    files = [KIT / "bin/rattle", *sorted((KIT / "logic_built").rglob("*"))]
    return sum_of(*texts, *(f"{it} {it.stat().st_size} {it.stat().st_mtime_ns}" for it in files if it.is_file()))


def crate_sum(name, texts, libraries, kit):
    """A checksum of all that a check of a crate reads but the edits: kit, this runner, the crate's files, libraries."""
    runner = [it.read_bytes() for it in (TOP / "tests/edits/run", *sorted((TOP / "tests/edits").glob("*.py")))]
    files = [it for file in sorted(texts) for it in (file, texts[file])]
    below = [it for at in libraries.below(name) for it in (at, (libraries.path(at) / "format").read_bytes())]
    kits = [(KIT / f"rlibs/{it}.rlib/format").read_bytes() for it in libraries.uses[name] if it not in libraries.uses]
    return sum_of(kit, *runner, name, *libraries.uses[name], *files, *below, *kits)


def is_own(folder):
    """Whether a folder is one that nobody else can write."""
    found = folder.lstat()
    is_mine = found.st_uid == os.geteuid() and not found.st_mode & 0o022
    return is_mine and not folder.is_symlink() and os.access(folder, os.W_OK)


class Kept:
    """The goals that edits were seen to leave open: a file for each edit, named by the checksum of all that was read.

    A file is written apart and then renamed."""

    def __init__(self, anew=False):
        self.anew, self.folder = anew, None
        for folder in (KIT.parent / "rattle-kept-edits", Path.home() / ".cache/rattle-kept-edits"):
            with contextlib.suppress(OSError):
                folder.mkdir(mode=0o700, parents=True, exist_ok=True)
                if is_own(folder):
                    self.folder = folder
                    break

    def get(self, key):
        """The goals that an edit of this checksum was seen to leave open, or None."""
        if self.anew or not self.folder:
            return None
        with contextlib.suppress(OSError, ValueError, TypeError):
            file = self.folder / key
            goals = [Goal(*it) for it in json.loads(file.read_text())]
            os.utime(file)
            return goals or None
        return None

    def put(self, key, goals):
        if self.folder:
            with contextlib.suppress(OSError):
                new = self.folder / f"new-{os.getpid()}-{key}"
                new.write_text(json.dumps([[it.function, it.name, it.is_answer] for it in goals]))
                os.replace(new, self.folder / key)

    def shrink(self):
        """Removes what no run has read for long."""
        for it in self.folder.iterdir() if self.folder else ():
            with contextlib.suppress(OSError):
                if time.time() - it.stat().st_mtime > KEPT_FOR:
                    it.unlink()


def read_goals():
    """The goal that is expected of each edit: its function and its name."""
    lines = GOALS.read_text().splitlines() if GOALS.is_file() else []
    return {edit: (function, goal) for edit, function, goal in (it.split() for it in lines)}


def write_goals(goals):
    new = GOALS.with_suffix(".new")
    new.write_text("".join(f"{edit} {function} {goal}\n" for edit, (function, goal) in sorted(goals.items())))
    os.replace(new, GOALS)
