"""What the sources of the crates declare and cite: declarations of antt files, contracts of Rattle functions, and which declaration
cites which. It reads text and trusts the layout of `rt fmt`; it checks no proof."""

import pathlib
import re

ROOT = pathlib.Path(__file__).resolve().parent.parent
CRATES = ROOT / "crates"

# A word of antt: what stands between spaces and brackets. `.name` takes a field.
WORD = re.compile(r"\.?[^\s(){}\[\].,;]+")
DECLARATION = re.compile(r"^ *((?:(?:abbrev|unfoldable|pub) )*)(?:(record|data) )?([^\s:(){}=]+)(.*)$")
USE = re.compile(r"^(?:ghost )?use (\S+?)\.\{(.*)\};?$")
# A module of a crate's specs or of its theorems: `Rattle.rule.specs.Plan`, `Rattle.rule.proofs.laws.Accepted`. The toolchain's own have
# such names too, as `Rattle.std.specs.Prelude`.
OUR_MODULE = re.compile(r"^Rattle\.([a-z_]+)\.(?:specs|proofs)\.(.+)$")
# A clause of a contract, which may have a name, up to its closing brace.
CLAUSE = re.compile(r"^ *(requires|ensures)(?: (\w+))? \{ ?(.*?) ?\}$", re.M | re.S)


def words(text):
    return set(WORD.findall(text))


def crate_order():
    """The crates as crates.txt lists them: none uses a later one."""
    lines = (ROOT / "crates.txt").read_text().splitlines()
    return [line.split(":")[0].split()[0] for line in lines if ":" in line and not line.startswith("#")]


class Declaration:
    """A declaration of an antt file: its name, its text with the heads of the sections that it stands in, and its constructors."""

    def __init__(self, name, kind, lines, sections):
        self.name = name
        self.kind = kind
        self.text = "\n".join(lines)
        self.sections = sections
        indent = len(lines[0]) - len(lines[0].lstrip())
        inner = [re.match(r"^ *(?:pub )?([^\s:(){}]+) *:", line) for line in lines[1:] if len(line) - len(line.lstrip()) == indent + 2]
        self.constructors = [m.group(1) for m in inner if m] if kind == "data" else []

    def statement(self):
        """Of a theorem: what it states, without its proof."""
        head = re.split(r"\n *(?:unfolding\b|" + re.escape(self.name) + r"(?= ))", self.text)[0]
        return "\n".join([head, *self.sections])

    def whole(self):
        return "\n".join([self.text, *self.sections])


class Module:
    """An antt file of a crate's specs or of its theorems (proofs/laws, proofs/figures): what it imports and what it declares."""

    def __init__(self, path):
        self.path = path
        below = path.relative_to(CRATES)
        self.crate = below.parts[0]
        self.name = ".".join(below.with_suffix("").parts[2:])
        self.imports = {}
        self.declarations = {}
        self._read(path.read_text().split("\n"))

    def _read(self, lines):
        sections = []
        current = None
        for number, line in enumerate(lines):
            text = line.strip()
            indent = len(line) - len(line.lstrip())
            if not text or text.startswith("--") or text.startswith("pub mod "):
                continue
            if line.startswith("use "):
                self.imports.update(imports_of(line))
                continue
            if current and indent > current[1]:
                current[2].append(line)
                continue
            while sections and indent <= sections[-1][0]:
                sections.pop()
            if text.startswith("module "):
                self._close(current)
                head = line
                ends = number
                while not re.search(r"\bwhere$", lines[ends]):
                    ends += 1
                    head += "\n" + lines[ends]
                sections.append((indent, head))
                current = ("", indent + 2, [], "", []) if ends > number else None
                continue
            declared = self._declared(text, current)
            if declared:
                self._close(current)
                current = (declared[1], indent, [line], declared[0], [head for _, head in sections])
            elif current:
                current[2].append(line)
        self._close(current)

    def _declared(self, text, current):
        """The kind and name that a line declares, or nothing where it goes on with the declaration before."""
        match = DECLARATION.match(text)
        if not match or text.startswith("unfolding "):
            return None
        modifiers, kind, name, rest = match.groups()
        if current and name == current[0] and not modifiers and not kind:
            return None
        if modifiers or kind or re.match(r"^ *(?::|[({].*:)", rest):
            return kind or "", name
        return None

    def _close(self, current):
        if current and current[0]:
            self.declarations[current[0]] = Declaration(current[0], current[3], current[2], current[4])


def imports_of(line):
    """The names that a `use` line brings in, each with the module and the name that it has there."""
    match = USE.match(line.strip())
    if not match:
        return {}
    names = {}
    for part in match.group(2).split(","):
        there, _, here = part.strip().partition(" as ")
        names[(here or there).strip()] = (match.group(1), there.strip())
    return names


def rust_imports(text):
    """What a Rattle file brings in of code: crate, module and name, also of names in braces."""
    for crate, module, names in re.findall(r"^use (\w+)::(\w+)::(\w+|\{[^}]*\});", text, re.M):
        for name in re.findall(r"\w+", names):
            yield crate, module, name


class Function:
    """A Rattle function: its contract, and the types that it takes and gives."""

    def __init__(self, path, name, signature, contract, imports):
        self.path = path
        self.name = name
        self.signature = signature
        self.contract = contract
        self.imports = imports


FUNCTION = re.compile(r"^ *(pub )?(?:extern \"C\" )?fn (\w+)(?:<(?:->|[^>])*>)?\((.*?)\n? *\{$", re.M | re.S)
# A conversion, whose contract is what `from_gives` says.
CONVERSION = re.compile(r"^(impl From<\w+> for (\w+)) \{\n *ghost from_gives = \{ ?(.*?) ?\};$", re.M | re.S)


def functions_of(path):
    """The functions of a Rattle file by name."""
    text = path.read_text()
    imports = {}
    for line in text.splitlines():
        if line.startswith("ghost use "):
            imports.update(imports_of(line))
    for _, _, name in rust_imports(text):
        imports.setdefault(name, ("rust", name))
    found = {}
    for match in FUNCTION.finditer(text):
        whole = match.group(0)
        cut = re.search(r"\n *(?:requires|ensures)\b", whole)
        signature = whole[: cut.start()] if cut else whole
        contract = " ".join(text for _, _, text in CLAUSE.findall(whole))
        function = Function(path, match.group(2), signature, contract, imports)
        function.public = bool(match.group(1))
        found[match.group(2)] = function
    for signature, given, contract in CONVERSION.findall(text):
        found[f"{given}::from"] = Function(path, f"{given}::from", signature, contract, imports)
    return found


class Sources:
    """All modules of specs and of theorems and all functions, and what each declaration cites."""

    def __init__(self):
        self.order = crate_order()
        self.modules = {}
        files = [path for part in ("specs", "proofs/laws", "proofs/figures") for path in CRATES.glob(f"*/{part}/**/*.antt")]
        for path in sorted(files):
            module = Module(path)
            self.modules[(module.crate, module.name)] = module
        self.types = {}
        for path in sorted(CRATES.glob("*/src/**/*.rt")):
            for name in re.findall(r"^pub (?:struct|enum) (\w+)", path.read_text(), re.M):
                self.types[(path.relative_to(CRATES).parts[0], path.stem, name)] = path

    def owner(self, key, name):
        """The declaration that has a name of a module: its own, or that of the constructor."""
        module = self.modules.get(key)
        if module is None:
            return None
        if name in module.declarations:
            return key, name
        for declaration in module.declarations.values():
            if name in declaration.constructors:
                return key, declaration.name
        return None

    def resolve(self, imported):
        """Where an imported name is declared: a declaration of our specs, a declared type of our code, or nothing of ours."""
        module, name = imported
        match = OUR_MODULE.match(module)
        if not match:
            return None
        crate, inner = match.groups()
        if inner.startswith("declared."):
            item = ("type", crate, *inner.split(".")[1:3])
            return item if item[1:] in self.types else None
        return self.owner((crate, inner), name)

    def cited_in(self, key, text, but=None):
        """What a text of the module `key` cites."""
        module = self.modules[key]
        cited = set()
        for word in words(text):
            own = self.owner(key, word)
            if own:
                if word != but:
                    cited.add(own)
            elif word in module.imports:
                cited.add(self.resolve(module.imports[word]))
        cited.discard(None)
        return cited

    def cites(self, item):
        """What a declaration or a declared type cites."""
        if item[0] == "type":
            return self._type_cites(item)
        key, name = item
        return self.cited_in(key, self.modules[key].declarations[name].whole(), but=name)

    def _type_cites(self, item):
        """The types that a declared type holds."""
        _, crate, file, name = item
        text = self.types[(crate, file, name)].read_text()
        body = re.search(r"^pub (?:struct|enum) %s\b(.*?)(?:^}|;$)" % name, text, re.M | re.S).group(1)
        return self._types_in(crate, file, text, set(re.findall(r"\w+", body)) - {name})

    def _types_in(self, crate, file, text, named):
        found = set()
        for name in named:
            if (crate, file, name) in self.types:
                found.add(("type", crate, file, name))
        for other, module, name in rust_imports(text):
            where = crate if other == "crate" else other
            if name in named and (where, module, name) in self.types:
                found.add(("type", where, module, name))
        return found

    def contract_cites(self, function):
        """What a function's contract and the types of its signature cite."""
        crate = function.path.relative_to(CRATES).parts[0]
        cited = {self.resolve(function.imports[w]) for w in words(function.contract) if w in function.imports}
        cited.discard(None)
        text = function.path.read_text()
        return cited | self._types_in(crate, function.path.stem, text, set(re.findall(r"\w+", function.signature)))

    def closure(self, roots):
        """Everything that the roots cite, and what that cites, and so on."""
        seen = set(roots)
        waiting = list(roots)
        while waiting:
            for item in self.cites(waiting.pop()):
                if item not in seen:
                    seen.add(item)
                    waiting.append(item)
        return seen

    def all_functions(self):
        for path in sorted(CRATES.glob("*/src/**/*.rt")):
            yield from functions_of(path).values()

    def file_of(self, item):
        return self.types[item[1:]] if item[0] == "type" else self.modules[item[0]].path

    def reading_order(self, path):
        """A file's place in the order in which its crate is to be read: that of Lib.antt, then the code."""
        below = path.relative_to(CRATES)
        crate = self.order.index(below.parts[0])
        if path.suffix == ".rt":
            return crate, 1, 0, below.parts
        listed = re.findall(r"^pub mod (\w+)$", (CRATES / below.parts[0] / "specs/Lib.antt").read_text(), re.M)
        top = below.parts[2].removesuffix(".antt")
        return crate, 0, listed.index(top), below.parts
