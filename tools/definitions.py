"""Which definitions of specs/ a reader of clauses has to read: those that the clauses and what their functions require cite, those
that these cite, and the views by which contracts see the types that they speak of. `tools/check_believe` and
`tools/read_promise` ask it. Lines are those of definitions, with the comments that stand on them, without imports. What the kit
defines is left out. A declaration of a kind that is not known here ends the program, so that none is left out unseen."""
import re, sys
from dataclasses import dataclass
from functools import cache
from pathlib import Path

ROOT = Path(__file__).resolve().parent.parent
USES = {line.split(":")[0].split()[0]: line.split(":")[1].split()
        for line in (ROOT / "crates.txt").read_text(encoding="utf-8").splitlines() if ":" in line and line[0] != "#"}
IMPORT = re.compile(r"(?:pub )?(?:use|mod) ")
BLOCK = re.compile(r"(?:abbrev|unfoldable|pub|module|mutual|infix[lr]?)\b")
INNER = re.compile(r"  (?:abbrev |unfoldable )?pub ")
WORDS_OF_HEAD = r"(?:abbrev |unfoldable |pub |record |data )"
HEAD = re.compile(WORDS_OF_HEAD + r"+([^\s:(){}]+)")
WORD = re.compile(r"[^\s(){}\[\],;]+")
TYPE = re.compile(r"\b[A-Z]\w*")


class Spec:
    """A file of definitions: its imports, and of each name the lines of its definition."""

    def __init__(self, path):
        self.path = path
        self.lines = path.read_text(encoding="utf-8").splitlines()
        self.imports, self.modules, self.units = {}, {}, {}
        for line in self.lines:
            if found := re.match(r"use (\S+)\.\{(.*)\}$", line):
                self.imports.update(renamed(found[1], found[2]))
            elif found := re.match(r"use (\S+) as (\S+)$", line):
                self.modules[found[2]] = found[1]
        heads = [at for at, line in enumerate(self.lines) if BLOCK.match(line) and not IMPORT.match(line)]
        for at, after in zip(heads, heads[1:] + [len(self.lines)]):
            self.read_block(at, self.above(after) if after < len(self.lines) else after)
        self.refuse_unknown()

    def refuse_unknown(self):
        """Ends the program at a line that begins a declaration of a kind that is not known."""
        for at, line in enumerate(self.lines):
            declared = re.match(r"( *)([a-z]+) (?:[a-z]+ )*pub ", line) or re.match(r"()([a-z]+) [^=:]+? : ", line)
            known = declared and (declared[2] in self.units or BLOCK.match(line.strip()) or IMPORT.match(line))
            if declared and not known:
                sys.exit(f"{self.path.relative_to(ROOT)}:{at + 1}: a declaration of a kind that is not known: {declared[2]}")

    def above(self, at):
        """Where the comments that stand on a line begin."""
        while at > 0 and self.lines[at - 1].lstrip().startswith("--"):
            at -= 1
        return at

    def read_block(self, at, end):
        """Reads the definitions of a block that begins at column 0: one, those of a module, or some that call each other."""
        head = self.lines[at]
        inner = [it for it in range(at + 1, end) if INNER.match(self.lines[it])]
        if head.startswith("module"):
            for it, after in zip(inner, inner[1:] + [end]):
                self.add(HEAD.match(self.lines[it].strip())[1], [at], self.above(it), self.above(after) if after < end else end)
        elif not head.startswith("infix"):
            block = self.lines[at:end]
            names = [HEAD.match(self.lines[it].strip())[1] for it in inner] if "mutual" in head else [HEAD.match(head)[1]]
            if any(" data " in line for line in block):
                names += [found[1] for line in block if (found := re.match(r" +([^\s:]+) :", line))]
            for name in names:
                self.add(name, [], self.above(at), end)

    def add(self, name, more, start, end):
        self.units[name] = tuple(more) + tuple(it for it in range(start, end) if self.lines[it].strip())

    def cited(self, unit):
        """What a definition cites, as pairs of a module and a name; those of this file have its own path."""
        return cited([self.lines[it] for it in unit], self.imports, self.modules, {name: (self.path, name) for name in self.units})


def renamed(module, names):
    """The names of an import, each with its module and its name there."""
    pairs = (re.fullmatch(r"(\S+?)(?: as (\S+))?", it.strip()) for it in names.split(",") if it.strip())
    return {it[2] or it[1]: (module, it[1]) for it in pairs}


def cited(lines, imports, modules, own):
    """The names in lines of definitions or clauses that are imported or stand in the same file."""
    found = set()
    text = re.sub(r"(?m)--.*$", "", "\n".join(lines))
    for match in WORD.finditer(text):
        parts = match[0].split(".")
        if re.match(r" [:=] ", text[match.end():]) and len(parts) == 1:
            continue
        if parts[0] in modules and len(parts) > 1:
            found.add((modules[parts[0]], parts[1]))
        else:
            found.add(own.get(parts[0]) or imports.get(parts[0]))
    for name, where in [*imports.items(), *own.items()]:
        if name.startswith("◌") and (name.strip("◌") in text or name == "◌>>=◌" and "←" in text):
            found.add(where)
    return found - {None}


@cache
def spec(path):
    return Spec(path)


class Source:
    """A file of code: its imports for contracts, and its text."""

    def __init__(self, path):
        self.path, self.crate = path, path.relative_to(ROOT / "crates").parts[0]
        self.text = path.read_text(encoding="utf-8")

    def cited(self, text, block=""):
        imports = {}
        for module, names in re.findall(r"ghost use (Rattle[\w.]*?)\.\{([^}]*)\};", self.text.split("\nimpl ")[0] + block):
            imports.update(renamed(module, names))
        return cited([text], imports, {}, {})


@cache
def sources(crate):
    return [Source(it) for it in sorted((ROOT / "crates" / crate / "src").rglob("*.rt"))]


def functions(crate, name):
    """The public functions of this name, or of one type (`Text::new`): their file, the type that they are of, and all before their
    bodies."""
    *only_of, name = name.split("::")
    head = re.compile(rf"(?m)^( *)pub (?:extern \S+ )?fn {name}\b(.*?)^\1\{{\}}?$", re.S)
    for source in sources(crate):
        for found in head.finditer(source.text):
            of = re.findall(r"(?m)^impl(?:<.*?>)? (?:.* for )?(\w+)", source.text[:found.start()]) if found[1] else []
            if only_of in ([], of[-1:]):
                yield source, of[-1:], found[2]


def clauses_of(contract):
    """The clauses of a contract: how each begins, its name, its text."""
    return re.findall(r"(?ms)^ *(requires|ensures) (\w+) (\{.*?\})$(?=\s*(?:requires|ensures|\Z))", contract.rstrip())


@cache
def type_at(crate, name):
    """The file and the text of a type of a crate, with the block by which contracts see it, or None."""
    for source in sources(crate):
        if found := re.search(rf"(?m)^(?:pub(?:\(crate\))? )?(?:struct|enum) {name}\b.*?(?:^\}}|;$)", source.text, re.S):
            model = re.search(rf"(?ms)^impl(?:<[^>]*>)? Model for {name}\b.*?^\}}", source.text)
            return source, found[0], model[0] if model else ""
    return None


class Reading:
    """What has to be read: of each file of definitions the lines."""

    def __init__(self):
        self.lines, self.types, self.left = {}, set(), []
        # what is added of clauses and of views, which are said in the code
        self.clauses, self.views = [], []

    def add_clause(self, crate, function, clause):
        """Adds a clause of a function and what the function requires, with what they cite, and the types of its signature."""
        for source, of, contract in functions(crate, function):
            clauses = clauses_of(contract)
            if ("ensures", clause) not in ((kind, name) for kind, name, _ in clauses):
                continue
            for kind, name, text in clauses:
                if kind == "requires" or name == clause:
                    self.clauses.append(f"{source.path.relative_to(ROOT)}: {function}: {kind} {name} {text}")
                    self.left += source.cited(text)
            for name in of + TYPE.findall(re.split(r"\b(?:requires|ensures)\b", contract)[0]):
                self.add_type(source.crate, name)
        while self.left:
            self.add(*self.left.pop())

    def add_type(self, crate, name):
        """Adds how contracts see a type of a crate or of a library that it uses, and the types of its parts."""
        home = next((it for it in [crate, *USES[crate]] if it in USES and type_at(it, name)), None)
        if not home or (home, name) in self.types:
            return
        self.types.add((home, name))
        source, text, model = type_at(home, name)
        for part in TYPE.findall(re.sub(r"(?m)//.*$", "", text)):
            self.add_type(home, part)
        for kind, view in re.findall(r"(?s)ghost (Value|view) = (\{.*?\});", model):
            self.left += source.cited(view, model)
            if kind == "view":
                self.views.append(f"{source.path.relative_to(ROOT)}: {name} is seen by {view}")

    def add(self, where, name):
        """Adds the definition of a name of a file or a module. A module of types that are declared in code stands for these."""
        if not isinstance(where, Path):
            parts = where.split(".")
            if parts[0] != "Rattle" or parts[1] not in USES:
                return
            if "declared" in parts:
                kinds = (it for it in parts[4:] + [name] if it[:1].isupper() and not it.startswith("The"))
                return self.add_type(parts[1], next(kinds, ""))
            where = ROOT / "crates" / parts[1] / ("/".join(parts[2:]) + ".antt")
        if where.is_file():
            self.add_unit(spec(where), name)

    def add_unit(self, file, name):
        if name in file.units:
            known, unit = self.lines.setdefault(file.path, set()), file.units[name]
            if not known.issuperset(unit):
                known.update(unit)
                self.left += file.cited(unit)
        elif name in file.imports:
            self.left.append(file.imports[name])


PROMISES = ROOT / "docs/BELIEVE.md"
NAMES = r"(`{0}`(?:, `{0}`)*)"
CLAUSES = NAMES.format(r"[\w:]+") + ": " + NAMES.format(r"\w+")


def entries(section, label, form):
    """The entries of the items of a section `- **LABEL**: CRATE ENTRY; ENTRY; CRATE ENTRY.`: of each the crate, which stands before
    its first entry, and what the groups of the form find in it. An entry of another form ends the program."""
    for item in re.findall(rf"(?ms)^- \*\*{label}\*\*: (.*?)\.?(?=\n- |\n\n|\n*\Z)", section):
        crate = None
        for entry in " ".join(item.split()).split("; "):
            found = re.fullmatch(rf"(?:(\w+) )?{form}", entry)
            crate = found and (found[1] or crate)
            if crate not in USES:
                sys.exit(f"docs/BELIEVE.md: {label}: an entry of another form: {entry}")
            yield crate, *found.groups()[1:]


def quoted(names):
    return re.findall("`(.*?)`", names)


@dataclass
class Promise:
    """A section of docs/BELIEVE.md that names clauses, what it asks to be read beyond those before it on the page, and how many lines of
    definitions it asks for alone."""

    title: str
    section: str
    named: list
    clauses: list
    views: list
    files: dict
    alone: int

    @property
    def number(self):
        return self.title.split(".")[0]


def promises():
    """The promises of docs/BELIEVE.md, in the order of the page."""
    reading, before = Reading(), {}
    for section in re.split(r"(?m)^## ", PROMISES.read_text(encoding="utf-8"))[1:]:
        named = [(crate, function, clause) for crate, those, clauses in entries(section, "Clauses", CLAUSES)
                 for function in quoted(those) for clause in quoted(clauses)]
        reading.clauses, reading.views = [], []
        alone = Reading()
        for it in named:
            reading.add_clause(*it)
            alone.add_clause(*it)
        more = {path: sorted(lines - before.get(path, set())) for path, lines in reading.lines.items()}
        before = {path: set(lines) for path, lines in reading.lines.items()}
        if named:
            files = {path: lines for path, lines in more.items() if lines}
            clauses, lines = list(dict.fromkeys(reading.clauses)), sum(map(len, alone.lines.values()))
            yield Promise(section.split("\n")[0], section, named, clauses, reading.views, files, lines)
