"""Wrong bodies as texts: what an edit changes, and in which items of the crate's code."""
import re
from dataclasses import dataclass, field
from pathlib import Path

FUNCTION = re.compile(r"( *)(?:pub(?:\([a-z]+\))? )?(?:const )?(?:unsafe )?fn ([a-z_0-9]+)")
KINDS = "struct|enum|trait|const|static|type|use|mod"
ITEM = re.compile(rf"(?:pub(?:\([a-z]+\))? )?(?:unsafe )?(impl\b.*|(?:{KINDS}) .*|[a-z_]+!.*)")
LEADING = re.compile(r" *(#!?\[|//)")


class Unfit(Exception):
    """An edit that can't be applied, with the reason."""


@dataclass(frozen=True)
class Span:
    """Some lines of a file, counted from 1, the last included."""

    file: str
    first: int
    last: int

    def has(self, file, line):
        return file == self.file and self.first <= line <= self.last


@dataclass(frozen=True)
class Item:
    """A function, or an item beside the functions (a law, a type, the head of an impl), named as `rattle` names it."""

    name: str
    is_function: bool
    span: Span

    @property
    def is_constant(self):
        """Whether it is a constant, whose value no contract can name."""
        return not self.is_function and self.name.startswith("const ")

    @property
    def path(self):
        """A function's path below its crate."""
        return self.name.split("::", 1)[1]

    @property
    def proofs(self):
        """The folder of a function's own proof."""
        return f"proofs/{self.path.replace('::', '/')}/"


@dataclass
class Edit:
    """A wrong body: lines of a crate's files, each with the line that takes its place."""

    crate: str
    name: str
    text: str
    parts: list = field(default_factory=list)

    @property
    def key(self):
        return f"{self.crate}/{self.name}"

    @property
    def files(self):
        return {file for file, _, _ in self.parts}


def read_edit(path):
    """The edit that stands in a file: pairs of lines 'old: ' and 'new: ' below a line 'file: '."""
    edit = Edit(path.parent.name, path.stem, path.read_text())
    file = old = None
    for line in edit.text.split("\n"):
        word, _, rest = line.partition(":")
        rest = rest.removeprefix(" ")
        if word == "file":
            file = rest.strip()
        elif word == "old":
            old = rest
        elif word == "new" and file and old:
            edit.parts.append((file, old, rest))
            old = None
        elif line:
            raise Unfit(f"a line that is not read: {line[:60]}")
    if not edit.parts:
        raise Unfit("no line 'old: ' with its 'new: '")
    return edit


def apply(parts, texts):
    """The texts of the files, by their paths, with the parts in place; each old text must stand once in its file."""
    texts = dict(texts)
    for file, old, new in parts:
        found = texts.get(file, "").count(old)
        if found != 1:
            raise Unfit(f"{found} times in {file}, not once: {old.strip()[:60]}")
        texts[file] = texts[file].replace(old, new)
    return texts


def texts_of(crate):
    """The texts of a crate's code, definitions and proofs, by their paths."""
    files = [it for part in ("src", "specs", "proofs") for it in sorted((crate / part).rglob("*")) if it.is_file()]
    return {str(it.relative_to(crate)): it.read_text() for it in files}


def items_of(file, text):
    """The items of a file of code, in their order, with the attributes and comments above each.

    The functions of an impl or trait stand after its head, which is the item of all its lines."""
    lines = text.split("\n")
    found, holder = [], None
    for number, line in enumerate(lines):
        function, item = FUNCTION.match(line), ITEM.match(line)
        if not function and not item:
            continue
        indent = len(function[1]) if function else 0
        if indent == 0:
            holder = None
        if function:
            last = end_of_function(lines, number, indent)
            name = (holder, function[2])
        else:
            last = end_of_item(lines, number)
            holder = item[1] if line.startswith(("impl", "unsafe impl")) or " trait " in f" {line}" else None
            name = (item[1], None)
        found.append((name, Span(file, begin_of(lines, number) + 1, last + 1)))
    return found


def begin_of(lines, number):
    while number > 0 and LEADING.match(lines[number - 1]):
        number -= 1
    return number


def end_of_item(lines, number):
    """The last line of an item whose head stands at the margin: rt fmt writes its last brace there."""
    if lines[number].endswith((";", "}")):
        return number
    is_end = lambda line: not line or line[0] in "})]"
    return next((at for at in range(number + 1, len(lines)) if is_end(lines[at])), len(lines) - 1)


def end_of_function(lines, number, indent):
    """The last line of a function: that of its last brace, or, of one without a body, that of its semicolon."""
    margin = " " * indent
    has_body, depth = lines[number].endswith("{"), 0
    for at in range(number, len(lines)):
        line = lines[at]
        if line in (margin + "}", margin + "{}") or (at == number and line.endswith("}")):
            return at
        has_body = has_body or line == margin + "{" or (line.startswith(margin + ")") and line.endswith("{"))
        depth += sum(line.count(it) for it in "({[") - sum(line.count(it) for it in ")}]")
        if not has_body and depth == 0 and line.endswith(";"):
            return at
    return len(lines) - 1


def body_of(lines, span):
    """Where the lines of a function's body begin, counted from 0, and the line of its last brace, if it has such a body."""
    number = next((at for at in range(span.first - 1, span.last) if FUNCTION.match(lines[at])), None)
    if number is None:
        return None
    margin, last = FUNCTION.match(lines[number])[1], span.last - 1
    is_open = lambda line: line == margin + "{" or (line.startswith(margin + ")") and line.endswith("{"))
    for at in range(number, last):
        if is_open(lines[at]) or (at == number and lines[at].endswith("{")):
            return (at + 1, last) if lines[last] == margin + "}" and at + 1 < last else None
    return None


def module_of(file):
    """A file's module, as the names of its functions have it: src/a/b.rt is a::b."""
    words = Path(file).with_suffix("").parts[1:]
    words = words[:-1] if words[-1] in ("lib", "main", "mod") else words
    return "::".join(words)


def type_and_trait(head):
    """The last names of an impl's type and of its trait, if it has one; of a trait's declaration its name alone."""
    head = re.sub(r"^(impl|(?:pub )?trait) *", "", head.split("{")[0].split(" where ")[0])
    while re.search(r"<[^<>]*>", head.replace("->", "  ")):
        head = re.sub(r"<[^<>]*>", "", head.replace("->", "  "))
    names = [re.split(r"[\s:]+", it.strip().strip("&").split("::")[-1])[0] for it in head.split(" for ")]
    return (names[-1], names[0] if len(names) == 2 else "")


def name_of(crate, file, holder, function, known):
    """A function's whole name, as a check prints it: the known name that fits, or else the one that its place makes.

    A method's has the module of its type, which may be another than its own. A trait's method has the words of the
    impl's head in one."""
    start = "::".join(it for it in (crate, module_of(file)) if it)
    if not holder:
        return f"{start}::{function}"
    kind, trait = type_and_trait(holder)
    shape = re.compile(rf"{kind}\w*{trait}\w*" if trait else rf"{kind}(\+.*)?")
    fits = [it for it in known if it.endswith(f"::{function}") and shape.fullmatch(it.split("::")[-2])]
    words = re.findall(r"\w+", holder)
    likeness = lambda it: (it.startswith(f"{start}::"), sum(word in it for word in words), -len(it))
    return max(fits, key=likeness, default=f"{start}::{kind}{trait}::{function}")


def changed_items(edit, texts, known):
    """The items that an edit changes, the innermost around each of its parts, and the other files that it changes.

    A file of a function's own proof is that function's."""
    found, beside, now = {}, set(), texts
    for part, (file, old, _) in enumerate(edit.parts):
        now = apply(edit.parts[:part], texts)
        if not file.startswith("src/"):
            beside.add(file)
            continue
        line = now[file][: now[file].index(old)].count("\n") + 1
        item = item_at(edit.crate, file, line, texts[file], known)
        found[item.name] = item
    own = tuple(it.proofs for it in found.values() if it.is_function)
    return list(found.values()), {it for it in beside if not it.startswith(own)}


def item_at(crate, file, line, text, known):
    around = [it for it in items_of(file, text) if it[1].has(file, line)]
    if not around:
        return Item(f"{file}:{line}", False, Span(file, line, line))
    (holder, function), span = max(around, key=lambda it: it[1].first)
    return Item(name_of(crate, file, holder, function, known) if function else holder, bool(function), span)


def users_of(crate, item, texts, known):
    """The functions that name an item which is no function, or whose impl does: their goals can show its change."""
    word = re.search(r"(?:struct|enum|trait|const|static|type) (\w+)", item.name)
    if not word:
        return []
    found = []
    for file in sorted(it for it in texts if it.startswith("src/")):
        lines = texts[file].split("\n")
        for (holder, function), span in items_of(file, texts[file]):
            code = "\n".join([holder or "", *lines[span.first - 1 : span.last]])
            if function and re.search(rf"\b{word[1]}\b", code):
                found.append(Item(name_of(crate, file, holder, function, known), True, span))
    return found
