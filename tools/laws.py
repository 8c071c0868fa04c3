"""How tools/promises sees the laws: which of them are open to others, and who names them."""

import re

import contracts

WORD = r"[^\s(){}\[\];,.:«»=]+"
# what is written of the proof of one function, in a folder of its own below proofs/
OF_A_FUNCTION = ("Invariants.antt", "Answers.antt", "Proof.antt")
OPEN = re.compile(r"( *)(abbrev |unfoldable )?pub (?!mod |use )(?:record |data |ruleset )?(\S+)")


def opened(text):
    """The public declarations of a file, and for each what others see of it: its signature, a record's fields, the body of what unfolds."""
    lines, i = text.splitlines(), 0
    while i < len(lines):
        found, first = OPEN.match(lines[i]), i
        i += 1
        if found:
            while i < len(lines) and lines[i].startswith(found[1] + " "):
                i += 1
            while found[2] and i < len(lines) and lines[i].strip():
                i += 1
            yield found[3], set(re.findall(WORD, "\n".join(lines[first:i])))


def files(root):
    """The sources of the crates, each with its crate and its path below it."""
    for path in contracts.sources(root, "rt", "antt"):
        crate, *inner = path.relative_to(root / "crates").parts
        yield path.relative_to(root), crate, "/".join(inner), path.read_text(encoding="utf-8")


def names_file(text, crate, stem):
    """Whether a source imports from a crate's file of laws."""
    return re.search(rf"\bRattle\.{crate}\.proofs\.{stem}(?![\w'])", text)


def faults(root):
    """A file of laws that is open to other crates is used by one of them, or a document names it or one of its laws. And a law is open to other
    files where one of them, a document, or another law that is open names it."""
    documents = " ".join((root / "docs" / name).read_text(encoding="utf-8") for name in ("PROMISES.md", "RULES.md"))
    told = {word for quoted in re.findall(r"`([^`]*)`", documents) for word in re.findall(WORD, quoted)} | set(re.findall(r"\b[A-Z]\w+", documents))
    sources = list(files(root))
    words = {path: set(re.findall(WORD, text)) for path, _, _, text in sources}
    for path, crate, inner, text in sources:
        if not inner.startswith("proofs/") or path.name == "Lib.antt" or inner.count("/") > 1 and path.name in OF_A_FUNCTION:
            continue
        laws = dict(opened(text))
        parent = next(t for _, c, i, t in sources if (c, i) == (crate, "proofs/Lib.antt"))
        if inner.count("/") == 1 and f"pub mod {path.stem}\n" in parent:
            used = any(names_file(other, crate, path.stem) for _, user, _, other in sources if user != crate)
            if not used and not (told & {path.stem, *laws}):
                yield f"{path}: these laws are open to other crates, and none uses them and no document names them"
        for law in laws:
            here = any(law in seen for other, seen in laws.items() if other != law)
            if law not in told and not here and not any(law in other for where, other in words.items() if where != path):
                yield f"{path}: {law} is open to other files, and nothing else names it"
