"""Stand-ins for the functions that no edit changes: a check takes their contracts at their word.

Callers know a function by its contract alone. So where the goals of some functions are to be seen, each other function
of the crate can have the body `loop {}`, and a hole in the place of its proof: a check that lets holes stand then
spends no time on it. What such a check says is no proof; of the goals that an edit leaves open it tells the same.
"""
import re
from dataclasses import dataclass, field

from source import body_of, items_of, name_of

# A faulty place that a check names: a line of the code, or the file of a function's proof.
FAULTY = re.compile(r"(?:note: )?(?:\./)?((?:src|proofs)/[^:]+):(?:(\d+):\d+:)? error")
# What is never left out: a closure, which is checked with its function, and the end of what has none.
OWN = re.compile(r"(^|::)fn::|^Destruct\+\+none::")
OWN_FILES = ("Answers.antt", "Invariants.antt")
HOLE = """use Rattle.{module}.Statement.{{statement}}

pub {function}_spec : {{M : Type 1}} → statement M
{function}_spec = ?
"""


@dataclass
class StandIns:
    """The functions of a crate that a check may take at their word, by their paths, each with its place in the code,
    and of each function those of the crate that its code names."""

    crate: str
    uses: dict
    places: dict = field(default_factory=dict)

    def beside(self, kept):
        """The functions that get a stand-in beside those kept. One without a text is compiled only where the code of a
        function that is kept leads to it."""
        reached = self.reached(kept)
        return {path: span for path, span in self.places.items() if path not in kept and (span or path in reached)}

    def reached(self, kept):
        """The functions without a text that the code of these leads to, by others without a text or at once."""
        found, ahead = set(), list(kept)
        while ahead:
            new = {it for it in self.uses.get(ahead.pop(), ()) if it not in found and not self.places.get(it)}
            found |= new
            ahead += new
        return found

    def put(self, texts, kept):
        """The texts with these stand-ins. No line of code moves."""
        texts = dict(texts)
        for path, span in self.beside(kept).items():
            if span:
                texts[span.file] = without_body(texts[span.file], span)
            folder = folder_of(path)
            for file in OWN_FILES:
                texts.pop(folder + file, None)
            module, function = f"{self.crate}.proofs.{path.replace('::', '.')}", path.split("::")[-1]
            texts[f"{folder}Proof.antt"] = HOLE.format(module=module, function=function)
        return texts

    def drop_refused(self, lines, kept):
        """Takes out the functions whose stand-ins a check has refused, and says whether there were any."""
        faulty = [it for it in map(FAULTY.match, lines) if it]
        places = self.beside(kept).items()
        refused = [path for path, span in places if any(is_of(it, path, span) for it in faulty)]
        for path in refused:
            del self.places[path]
        return bool(refused)


def is_of(faulty, path, span):
    """Whether a faulty place is that of a function's stand-in."""
    if faulty[1].startswith("proofs/"):
        return faulty[1] == f"{folder_of(path)}Proof.antt"
    return bool(span and faulty[2]) and span.has(faulty[1], int(faulty[2]))


def folder_of(path):
    return f"proofs/{path.replace('::', '/')}/"


def stand_ins(crate, texts, known, uses):
    """The stand-ins of a crate: of what its code says, and of what was compiled without a text, as a value's end. Of
    each compiled function is given what its code names.

    A function of a cycle of calls has its proof with the others of the cycle, and the value of a constant function may
    be wanted: both stay as they are, as does what has a proof written out."""
    found = StandIns(crate, uses)
    said = {}
    for file in sorted(it for it in texts if it.startswith("src/")):
        lines = texts[file].split("\n")
        for (holder, function), span in items_of(file, texts[file]):
            if function:
                path = name_of(crate, file, holder, function, known).split("::", 1)[1]
                said[path] = span if can_stand(lines, span, texts, path) else None
    found.places = {path: span for path, span in said.items() if span}
    others = (it for it in uses if it not in said and not OWN.search(it) and f"{folder_of(it)}Proof.antt" not in texts)
    found.places |= {it: None for it in others if it not in found.reached([it])}
    return found


def can_stand(lines, span, texts, path):
    text = lines[span.first - 1 : span.last]
    is_whole = body_of(lines, span) and not any(re.match(r" *(#\[(cycle|test)|.*\bconst fn)", it) for it in text)
    return is_whole and f"{folder_of(path)}Proof.antt" not in texts


def without_body(text, span):
    lines = text.split("\n")
    first, last = body_of(lines, span)
    margin = re.match(" *", lines[last])[0]
    lines[first:last] = [f"{margin}    loop {{}}", *[""] * (last - first - 1)]
    return "\n".join(lines)
