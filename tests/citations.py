"""Finds which definitions of `crates/*/specs` the theorems and the contracts rest on, by searching the text of all crates.

A definition is a pair: its file, as `ppshelf/Files` or `ppshelf/code/ShelfRows`, and its name.  A definition cites those whose
names occur in it, as its file imports them.  A type of the code cites its `ghost Value`, but not its view.  A trait cites its
ghost members and contracts.
"""
import glob
import os
import re
from dataclasses import dataclass, field

TOP = os.path.dirname(os.path.dirname(os.path.abspath(__file__)))
CRATES = os.path.join(TOP, "crates")
# a line that imports: the crate, the module, the names in braces, and the name of the module itself
IMPORT = re.compile(r"^\s*(?:pub )?(?:ghost )?use Rattle\.(\w+)\.specs\.([\w.]+?)(?:\.\{([^}]*)\})?(?: as (\w+))?;?\s*$", re.M)
EXPORTED = re.compile(r"^pub use Rattle\.\w+\.specs\.[\w.]+\.\{([^}]*)\}", re.M)
WORD = re.compile(r"[^\W\d][\w']*(?:\.[^\W\d][\w']*)*")
FORM = r"(?:abbrev|unfoldable|record|data)"
DEFINITION = re.compile(r"^\s*(?:%s pub|pub %s|%s) (?!mutual\b)([\w']+)" % (FORM, FORM, FORM))
TYPED = re.compile(r"^\s+(?:pub )?([\w']+) :")
FUNCTION = re.compile(r'^(\s*)(pub(?:\(\w+\))? )?(?:const |extern "C" )?fn (\w+)(?P<law>(?:<.*>)?\((?:&self)?\)$)?')
EXPORT_TO_C = re.compile(r'^pub extern "C" fn (\w+)', re.M)
TYPE = re.compile(r"^(?:pub(?:\(\w+\))? )?(struct|enum|trait) (\w+)")
OWNER = re.compile(r"^impl\s+(?:.*\bfor\s+)?(?:&\S*\s*)?([A-Z]\w*)")
GHOST = re.compile(r"^\s+ghost (\w+)\b\s*[:=]?(.*)")
# the functions whose contracts are the theorem of the program
PROGRAM = re.compile(r"serve\w*|status|words")
# ghost members that relate a type's fields to its value: only the code needs them
INNER = ("view", "invariant", "inverse", "inverse_ok", "coded")


def text_of(path):
    with open(path) as file:
        return file.read()


def imports(text):
    """Returns the imported names, each with its modules and names there, and the imported modules."""
    names, modules = {}, {}
    for crate, module, listed, alias in IMPORT.findall(text):
        module = crate + "/" + module.replace(".", "/")
        if not listed:
            modules[alias or module.split("/")[-1]] = module
        for entry in filter(None, map(str.strip, listed.split(","))):
            name, _, other = entry.partition(" as ")
            names.setdefault(other.strip() or name.strip(), set()).add((module, name.strip()))
    return names, modules


def outer(nodes):
    """Returns the definitions that aren't the vocabulary of the code.  A type's value that is there is a view, too."""
    return {node for node in nodes if "/code/" not in node[0]}


class Specs:
    """Is a file of specs: its definitions, each with its text, the definition that each name belongs to, and what it exports."""

    def __init__(self, path):
        self.text = text_of(path)
        self.file = os.path.relpath(path, CRATES).replace("/specs/", "/")[:-len(".antt")]
        self.lines = self.text.splitlines()
        self.names, self.modules = imports(self.text)
        self.exported = {name.strip() for listed in EXPORTED.findall(self.text) for name in listed.split(",")}
        self.texts, self.belongs = ({name: name for name in self.exported} for _ in range(2))
        self.read()

    def read(self):
        """Finds the definitions.  In an `abbrev mutual` each name with a type begins one."""
        current, mutual, common, is_data = None, None, "", False
        for line in re.sub(r"--.*", "", self.text).splitlines():
            indent = len(line) - len(line.lstrip())
            if re.match(r"(pub )?use |module ", line):
                common, current = line if line.startswith("module") else common, None
                continue
            if line.strip() and mutual is not None and indent <= mutual:
                mutual = None
            if re.match(r"\s*(abbrev )?mutual\b", line):
                mutual, current = indent, None
                continue
            found = DEFINITION.match(line) or (mutual is not None and indent <= mutual + 2 and TYPED.match(line))
            if found:
                current, is_data = found[1], re.match(r"\s*(pub )?data ", line) is not None
                self.texts[current], self.belongs[current] = common, current
            elif is_data and current and TYPED.match(line):
                self.belongs.setdefault(TYPED.match(line)[1], current)
            if current:
                self.texts[current] += "\n" + line

    @property
    def is_inner(self):
        return "/code/" in self.file


@dataclass
class Function:
    """Is a function of the code: where it is, its docstring, and what its contract cites."""
    crate: str
    path: str
    owner: str
    name: str
    is_public: bool
    is_law: bool
    doc: str
    cites: set


@dataclass
class Type:
    """Is a type or trait: what its value or its members cite, and what else its `impl`s cite for callers and for the code."""
    value: set = field(default_factory=set)
    callers: set = field(default_factory=set)
    inner: set = field(default_factory=set)
    is_public: bool = False


class Code:
    """Is all files of specs, and the functions and types of all crates."""

    def __init__(self):
        found = sorted(glob.glob(os.path.join(CRATES, "*", "specs", "**", "*.antt"), recursive=True))
        read = map(Specs, (path for path in found if os.path.basename(path) not in ("Lib.antt", "code.antt")))
        self.specs = {specs.file: specs for specs in read}
        self.functions, self.types = [], {}
        for path in sorted(glob.glob(os.path.join(CRATES, "*", "src", "**", "*.rt"), recursive=True)):
            Source(self, path).read()

    def target(self, module, name):
        """Returns the definition or type that an imported name is, or None for one of the kit."""
        if module in self.specs:
            return module, self.specs[module].belongs.get(name, name)
        if "/declared/" in module:
            parts = [part for part in module.split("/") if part != "TheVariants"]
            return parts[0] + "/declared", parts[-1]
        return None

    def cited(self, text, names, modules, own=None):
        """Returns what a text cites, by the imports of its file."""
        found = set()
        for word in set(WORD.findall(text)):
            first, *rest = word.split(".")
            if own and first in own.belongs:
                found.add((own.file, own.belongs[first]))
            found.update(self.target(*one) for one in names.get(first, ()))
            if first in modules and rest:
                found.add(self.target(modules[first], rest[0]))
        return found - {None}

    def cites(self, node):
        file, name = node
        if file in self.specs:
            specs = self.specs[file]
            return self.cited(specs.texts.get(name, ""), specs.names, specs.modules, specs)
        found = self.types.get(node)
        return outer(found.value) if found else set()

    def reached(self, roots):
        """Returns all that these rest on."""
        seen, left = set(), set(roots)
        while left:
            seen |= left
            left = set().union(*map(self.cites, left)) - seen
        return seen


class Source:
    """Reads a file of code."""

    def __init__(self, code, path):
        self.code, self.path, text = code, path, text_of(path)
        self.crate = os.path.relpath(path, CRATES).split(os.sep)[0]
        self.lines, (self.names, self.modules) = text.splitlines(), imports(text)
        listed = re.findall(r"^pub use ([^;]*);", text_of(os.path.join(CRATES, self.crate, "src", self.root())), re.M)
        self.exported = set(re.findall(r"\w+", " ".join(listed))) | set(EXPORT_TO_C.findall(text))

    def root(self):
        return "lib.rt" if os.path.exists(os.path.join(CRATES, self.crate, "src", "lib.rt")) else "main.rt"

    def cited(self, text):
        return self.code.cited(re.sub(r"//.*", "", text), self.names, self.modules)

    def type_of(self, name):
        found = self.code.types.setdefault((self.crate + "/declared", name), Type())
        found.is_public |= name in self.exported
        return found

    def read(self):
        owner, doc = "", []
        for at, line in enumerate(self.lines):
            if TYPE.match(line):
                kind, owner = TYPE.match(line).groups()
                found = self.type_of(owner)
                if kind == "trait":
                    found.value |= self.cited(self.block(at))
            elif line.startswith("impl"):
                owner = self.owner(at)
            elif GHOST.match(line) and GHOST.match(line)[1] != "use":
                self.member(at, owner)
            elif FUNCTION.match(line):
                self.function(at, owner, doc)
            if line.lstrip().startswith("///"):
                doc.append(line.strip()[3:].strip())
            elif not line.lstrip().startswith("#["):
                doc = []

    def block(self, at):
        """Returns the lines of a trait, up to the brace that closes it."""
        end = at
        while not self.lines[end].startswith("}"):
            end += 1
        return "\n".join(self.lines[at:end + 1])

    def owner(self, at):
        """Returns the type of an `impl`."""
        head = " ".join(self.lines[at:at + 8]).split("{")[0]
        while re.search(r"<[^<>]*>", head):
            head = re.sub(r"<[^<>]*>", "", head.replace("->", ""))
        found = OWNER.match(head)
        return found[1] if found else ""

    def member(self, at, owner):
        """Reads a ghost member of a trait or of an `impl`."""
        name, text = GHOST.match(self.lines[at]).groups()
        while text.count("{") > text.count("}"):
            at += 1
            text += "\n" + self.lines[at]
        found, cites = self.type_of(owner), self.cited(text)
        if name == "Value":
            found.value = cites
        elif name in INNER:
            found.inner |= cites
        else:
            found.callers |= cites

    def clauses(self, at, indent):
        """Returns the clauses between a function's signature and its body."""
        found = []
        for line in self.lines[at:]:
            if found or re.match(r"\s+(requires|ensures)\b", line):
                if line.startswith(indent + "{"):
                    break
                found.append(line)
            if line.endswith(";") or (line.endswith(("{", "}")) and not found):
                break
        return "\n".join(found)

    def function(self, at, owner, doc):
        found = FUNCTION.match(self.lines[at])
        indent, public, name = found[1], found[2], found[3]
        owner = owner if indent else ""
        is_public = public == "pub " and (owner or name) in self.exported
        self.code.functions.append(Function(
            self.crate, self.path, owner, name, is_public, is_public and found["law"] is not None, " ".join(doc),
            self.cited(self.clauses(at, indent))))


def marks(code):
    """Returns the definitions that the theorem of the program (P), other theorems (T) and public calls (L) rest on."""
    laws = [one.cites for one in code.functions if one.is_law]
    calls = [one.cites for one in code.functions if one.is_public and not one.is_law]
    calls += [found.callers | outer(found.value) for found in code.types.values() if found.is_public]
    program = [one.cites for one in code.functions if one.crate == "ppserve" and PROGRAM.fullmatch(one.name)]
    return {mark: code.reached(set().union(*roots)) for mark, roots in (("P", program), ("T", laws), ("L", calls))}


def only_inside(code):
    """Returns the definitions that only contracts of functions inside their crate cite, and no `ghost` member."""
    members = set().union(*(found.inner | found.value | found.callers for found in code.types.values()))
    seen = code.reached(members).union(*marks(code).values())
    found = set()
    for crate in {one.crate for one in code.functions}:
        inside, elsewhere = (code.reached(set().union(*(one.cites for one in code.functions if (one.crate == crate) is own)))
                             for own in (True, False))
        found |= {node for node in inside - elsewhere - seen if node[0].startswith(crate + "/")}
    return sorted(node for node in outer(found) if node[0] in code.specs and node[1] not in code.specs[node[0]].exported)
