"""Takes the definitions of `crates/*/specs/**/*.antt` apart, for `tools/theorem.py` and `tools/calls.py`.

They are taken apart as `rt fmt` lays them out: a head stands at the margin, or two columns behind the head of its block, its clauses at the same
margin, and fields and constructors two columns behind it.
"""
import dataclasses
import functools
import pathlib
import re

TOP = pathlib.Path(__file__).resolve().parent.parent
CRATES = TOP / "crates"
KEYWORDS = ("abbrev", "unfoldable", "opaque", "ghost", "pub", "data", "record")
TOKEN = re.compile(r'''"(?:[^"\\]|\\.)*"|--[^\n]*|\[\]|[(){}\[\];,]|(?<=[)\]}])(?:\.[\w']+)+|[\w'«»◌]+(?:\.[\w'«»]+)*|[^\s\w(){}\[\];,"«»]+''')
WORD = re.compile(r"[\w«][\w'«».]*")
USE = re.compile(r"(pub )?use Rattle\.([\w.]+?)(?:\.\{(.*)\}| as (\w+))?$")
BLOCK = re.compile(r"(?:module _.* where|(?:abbrev |unfoldable )?mutual)$")


@dataclasses.dataclass(eq=False)
class Definition:
    """A definition as it stands in its file: the heads of the blocks around it, its lines, and the comment above it."""
    file: "File"
    name: str
    number: int
    blocks: tuple
    kind: str
    lines: list
    comment: list

    @property
    def bare(self):
        """Its lines without the margin of its blocks."""
        return [line[2 * len(self.blocks):] for line in self.lines]

    def is_function(self):
        return self.kind not in ("data", "record")

    def parts(self):
        """Its head, and each of its clauses, fields or constructors, as tokens."""
        found, inner = [], "" if self.is_function() else "  "
        for line in self.bare:
            if found and line.startswith((inner + " ", inner + "}")):
                found[-1] += "\n" + line
            elif line.strip() and not line.strip().startswith("--"):
                found.append(line)
        return [tokens(it) for it in found]

    def members(self):
        """The names of its fields or constructors."""
        if not self.is_function():
            for part in self.parts()[1:]:
                yield from named_before_colon(part)


@dataclasses.dataclass(frozen=True)
class Outside:
    """A name that comes from a source in Rust, or from the kit's std: the way to it, and the name."""
    way: tuple
    name: str


class Uses:
    """What lines `use` take from where."""

    def __init__(self, lines):
        self.taken, self.aliases, self.handed = {}, {}, set()
        for line in lines:
            self.add_use(line)

    def add_use(self, line):
        found = USE.match(line)
        if not found:
            return
        handed, way, names, alias = found.groups()
        way = tuple(way.split("."))
        if names is None:
            self.aliases[alias or way[-1]] = way
        for name in names.split(",") if names else []:
            inner, _, renamed = name.strip().partition(" as ")
            self.taken[renamed or inner] = way, inner
            self.handed |= {renamed or inner} if handed else set()

    def find(self, name):
        """What a word that is taken from elsewhere stands for, or None."""
        head, _, rest = name.partition(".")
        if head in self.taken:
            return find(*self.taken[head])
        return find(self.aliases[head], rest.partition(".")[0]) if head in self.aliases and rest else None


class File(Uses):
    """A file of definitions: what it defines, and what it takes from where."""

    def __init__(self, path):
        self.path, self.own = path, {}
        self.lines = path.read_text(encoding="utf-8").split("\n")
        super().__init__(self.lines)
        for it in definitions(self):
            self.own.setdefault(it.name, it)
        self.inner = {name: it for it in self.own.values() for name in it.members()}
        self.mixed = {parts_of(name)[0]: name for name in (*self.taken, *self.own, *self.inner) if "◌" in name}

    def title(self):
        return self.path.relative_to(TOP).as_posix()

    def find(self, name):
        """What a word of this file stands for, or None."""
        head = name.partition(".")[0]
        if head in self.own or head in self.inner:
            return self.own.get(head) or self.inner[head]
        found = super().find(name)
        return self.find(self.mixed[name]) if found is None and name in self.mixed else found

    def is_constructor(self, name):
        """Whether a word of a pattern stands for a constructor, rather than for what it matches."""
        found = self.find(name)
        if isinstance(found, Outside):
            return found.name in ("true", "false", "zero", "suc", "[]") or not found.name[0].islower()
        _, dot, inner = name.rpartition(".")
        if not dot:
            inner = self.taken.get(name, (None, self.mixed.get(name, name)))[1]
        return found is not None and found.kind == "data" and inner in found.members()


def parts_of(name):
    """The words of a name with places for what stands between them: `if`, `then` and `else` of `if◌then◌else◌`."""
    return [it for it in name.split("◌") if it]


def tokens(text):
    return [it for it in TOKEN.findall(text) if not it.startswith("--")]


def named_before_colon(part):
    """The names that a field, a constructor or a head declares."""
    return [it for it in part[:part.index(":")] if it not in KEYWORDS] if ":" in part else []


def binder(part, at):
    """The names in front of the colon of a bracket that begins here, if it is a binder."""
    end = at + 1
    while end < len(part) and WORD.fullmatch(part[end]):
        end += 1
    return part[at + 1:end] if end > at + 1 and end < len(part) and part[end] == ":" else []


def pattern(clause):
    """What stands in front of a clause's `=`, outside brackets."""
    depth = 0
    for at, it in enumerate(clause):
        depth += (it in ("(", "{", "[")) - (it in (")", "}", "]"))
        if it == "=" and depth == 0:
            return clause[:at]
    raise SystemExit(f"tools/specs.py: a clause without `=`: {' '.join(clause)}")


@functools.cache
def file_at(path):
    return File(path)


@functools.cache
def uses_of_source(path):
    """What the lines `ghost use` of a source in Rust take from where."""
    found = re.findall(r"^\s*ghost (use [^;]*);", path.read_text(encoding="utf-8"), re.M)
    return Uses(re.sub(r"\{ ", "{", " ".join(it.split())).replace(", }", "}") for it in found)


def find(way, name):
    """What the name in the module at the end of this way stands for, down all `pub use`: a definition, or what comes from outside."""
    crate, _, inner, *rest = way
    if crate == "std" or inner in ("declared", "contracts"):
        return Outside(way, name)
    path = CRATES / crate / "specs" / "/".join([f"{inner}.antt" if not rest else inner, *(f"{it}.antt" if it == rest[-1] else it for it in rest)])
    if not path.is_file():
        lib = file_at(CRATES / crate / "specs" / "Lib.antt")
        if inner in lib.aliases:
            return find((*lib.aliases[inner], *rest), name)
        between = CRATES / crate / "specs" / f"{inner}.antt"
        if rest and between.is_file() and rest[0] in file_at(between).aliases:
            return find((*file_at(between).aliases[rest[0]], *rest[1:]), name)
        raise SystemExit(f"tools/specs.py: there is no module {'.'.join(way)}")
    file = file_at(path)
    if name in file.own or name in file.inner:
        return file.own.get(name) or file.inner[name]
    if name in file.handed:
        return find(*file.taken[name])
    raise SystemExit(f"tools/specs.py: {file.title()} has no {name}")


def definitions(file):
    """The definitions of a file, in order, each with its comment: the one right above it, or the one above its neighbours without a blank line."""
    blocks, comment, waiting, made = (), [], [], None
    for number, line in enumerate(file.lines, 1):
        bare = line.strip()
        margin = len(line) - len(line.lstrip())
        if bare and margin < 2 * len(blocks):
            blocks = blocks[:margin // 2]
        at_margin = margin == 2 * len(blocks)
        if not bare:
            comment, waiting = [], [*waiting, line]
        elif bare.startswith("--") and at_margin:
            comment = [*comment, bare] if waiting and waiting[-1].strip().startswith("--") else [bare]
            waiting.append(line)
        elif at_margin and BLOCK.match(bare):
            blocks, waiting, made = (*blocks, bare), [], None
        elif at_margin and re.match(r"(use|pub use|pub mod|mod|infix[lr]?) ", bare):
            waiting, made = [], None
        elif at_margin and is_head(bare):
            words = bare.split()
            kind = next((it for it in words if it in ("data", "record")), "")
            name = next(it for it in words if it not in KEYWORDS)
            made, waiting = Definition(file, name, number, blocks, kind, [line], comment), []
            yield made
        elif made:
            made.lines += [*waiting, line]
            waiting = []


def is_head(line):
    """Whether a line declares a name, rather than giving it a clause."""
    return line.split()[0] in KEYWORDS or re.match(r"[^\s(){}]+ : ", line) is not None


def whole(found):
    """Definitions of one file as they stand there, each with its comment, and under the heads of its blocks."""
    lines, before = [], None
    for it in found:
        same = before is not None and it.comment is before.comment and it.comment and it.blocks == before.blocks
        if lines and not same:
            lines.append("")
        shared = 0
        while before is not None and shared < len(it.blocks) and it.blocks[:shared + 1] == before.blocks[:shared + 1]:
            shared += 1
        lines += ["  " * at + it.blocks[at] for at in range(shared, len(it.blocks))]
        lines += [] if same else ["  " * len(it.blocks) + line for line in it.comment]
        lines += it.lines
        before = it
    return lines
