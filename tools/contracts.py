"""How tools/promises and tools/reading see a Rattle source: its public functions and those of public traits, their parameters, results and clauses."""

import re

OPEN, CLOSE = "([{", ")]}"
# the crates that crates.txt lists: `NAME: LIBRARY ..`, of a static library `NAME staticlib: LIBRARY ..`
CRATE = re.compile(r"^(\w+)(?: +\w[\w=]*)* *:", re.M)
FUNCTION = r'(?P<exported>extern "C" )?fn (?P<name>\w+)'


def bare(text):
    """The text with its comments blanked; lines stay where they are."""
    return re.sub(r"//.*", "", text)


def closing(text, start):
    """Where the bracket that opens at `start` is closed."""
    depth = 0
    for i in range(start, len(text)):
        depth += (text[i] in OPEN) - (text[i] in CLOSE)
        if depth == 0:
            return i
    raise ValueError("a bracket is not closed: " + text[start : start + 60])


def tokens(text):
    """Names, signs and brackets, each by itself; a name with its fields, as `x.now`, is one, and so are `«name»` and the `.field` of a bracket."""
    return re.findall(r"«[^»]*»(?:\.[\w']+)*|[(){}\[\];,]|[^\s(){}\[\];,]+", text)


def fields(part):
    """A name and the fields that are taken of it, as `x.exit.now`: the name, and what follows it."""
    name, _, rest = part.partition(".")
    return name.strip("«»"), rest


def split(parts, signs):
    """The tokens cut at those of `signs` that stand in no bracket."""
    cut, depth = [[]], 0
    for part in parts:
        depth += (part in OPEN) - (part in CLOSE)
        if depth == 0 and part in signs:
            cut.append([])
        else:
            cut[-1].append(part)
    return cut


class Clause:
    """`ensures { .. }` or `requires { .. }`, perhaps with a name before its bracket; `result` is the answer."""

    def __init__(self, kind, text):
        self.kind = kind
        self.tokens = tokens(text)


class Function:
    """A public function: where it stands, what it takes and answers, its clauses, and how many lines all that has."""

    def __init__(self, text, match):
        self.name = match.group("name")
        self.exported = bool(match.group("exported"))
        self.line = text.count("\n", 0, match.start()) + 1
        start = text.index("(", match.end())
        end = closing(text, start)
        self.parameters = [parameter(p) for p in between(text[start + 1 : end]) if p.strip()]
        clauses = promised(text, end + 1)
        self.result = text[end + 1 : clauses].partition("->")[2].strip()
        self.clauses, body = read_clauses(text, clauses)
        self.size = text[match.start() : body].count("\n") + 1

    def written(self):
        """The names of the places that it is lent to write."""
        return [name for name, kind in self.parameters if re.match(r"&\s*('\w+\s+)?mut\b", kind)]


def parameter(text):
    """A parameter's name and type; of `&mut self` the name is `self`."""
    name, colon, kind = text.partition(":")
    if not colon:
        name, kind = text.split()[-1].lstrip("&"), text
    return name.split()[-1], kind.strip()


def between(text):
    """What stands between the commas that are in no bracket."""
    cut, depth = [""], 0
    for sign in text:
        depth += (sign in OPEN) - (sign in CLOSE)
        if depth == 0 and sign == ",":
            cut.append("")
        else:
            cut[-1] += sign
    return cut


def promised(text, start):
    """Where a result that begins at `start` ends: at the first clause, the body, or the `;` of a function that has none."""
    depth = 0
    for found in re.compile(r"[()\[\]{;]|\b(?:requires|ensures)\b").finditer(text, start):
        depth += (found.group() in "([") - (found.group() in ")]")
        if depth == 0 and found.group() not in CLOSE:
            return found.start()
    raise ValueError("neither a clause nor a body: " + text[start : start + 60])


def read_clauses(text, start):
    """The clauses from `start` on, and where they end: at the body, or at the `;` of a function that has none."""
    clauses = []
    while True:
        found = re.compile(r"\s*(?:(requires|ensures)\b\s*[\w-]*\s*\{|[{;])").match(text, start)
        if not found:
            raise ValueError("neither a clause nor a body: " + text[start : start + 60])
        if not found.group(1):
            return clauses, start
        end = closing(text, found.end() - 1)
        clauses.append(Clause(found.group(1), text[found.end() : end]))
        start = end + 1


def functions(path):
    """The public functions of a file, and those that its public traits declare, in order."""
    text = bare(path.read_text(encoding="utf-8"))
    heads = list(re.finditer(rf"^ *pub {FUNCTION}", text, re.M))
    for trait in re.finditer(r"^ *pub trait [^{]*\{", text, re.M):
        heads += re.compile(rf"^ *{FUNCTION}", re.M).finditer(text, trait.end(), closing(text, trait.end() - 1))
    return [Function(text, head) for head in sorted(heads, key=re.Match.start)]


def public_files(source):
    """The files of a library whose public functions others can call: its root, and the modules that are made public on the way."""
    files, todo = [], [(source / "lib.rt", source)]
    while todo:
        path, folder = todo.pop(0)
        files.append(path)
        for name in re.findall(r"^pub mod (\w+);", bare(path.read_text(encoding="utf-8")), re.M):
            todo.append((folder / (name + ".rt"), folder / name))
    return files


def sources(root, *kinds):
    """The files of these kinds in the crates, but for what the kit keeps in `out`."""
    folders = sorted(path for path in root.glob("crates/*/*") if path.name != "out")
    return [path for kind in kinds for folder in folders for path in sorted(folder.glob(f"**/*.{kind}"))]


def libraries(root):
    """The library crates of a repository, as folders."""
    return sorted(path.parent.parent for path in root.glob("crates/*/src/lib.rt"))


def crates(root):
    """The crates that crates.txt lists, in its order."""
    return CRATE.findall((root / "crates.txt").read_text(encoding="utf-8"))


def face(root):
    """The crates whose public functions are the product: those that crates.txt names after `# face:`."""
    names = re.findall(r"^# face:(.*)$", (root / "crates.txt").read_text(encoding="utf-8"), re.M)
    return " ".join(names).split()
