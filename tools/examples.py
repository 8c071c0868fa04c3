"""Shows what a tool refuses, by small repositories that are made in a temporary folder: one that is right, and wrong changes of it."""

import subprocess
import sys
import tempfile
from pathlib import Path


def run(tool, files, options):
    """The tool's end and words in a folder with these files."""
    with tempfile.TemporaryDirectory() as folder:
        for name, text in files.items():
            path = Path(folder) / name
            path.parent.mkdir(parents=True, exist_ok=True)
            path.write_text(text, encoding="utf-8")
        command = [sys.executable, Path(__file__).resolve().parent / tool, *options, folder]
        done = subprocess.run(command, stdout=subprocess.PIPE, stderr=subprocess.STDOUT, encoding="utf-8")
        return done.returncode, done.stdout


def changed(right, what, changes):
    """The right files with texts replaced, each of which stands there once."""
    files = dict(right)
    for name, old, new in changes:
        if files[name].count(old) != 1:
            sys.exit(f"{what}: the change does not fit its example")
        files[name] = files[name].replace(old, new)
    return files


def judge(tool, right, wrong, options=()):
    """Ends with success if the tool accepts the right files, and refuses each wrong change of them with the words that go with it. A change is
    what is wrong, those words, and the texts that are replaced: file, old, new."""
    code, said = run(tool, right, options)
    faults = [] if code == 0 else [f"the right example is refused:\n{said}"]
    for what, words, *changes in wrong:
        code, said = run(tool, changed(right, what, changes), options)
        if code == 0 or words not in said:
            faults.append(f"{what}: not refused with {words!r}; it ended with {code} and said\n{said}")
    if faults:
        print(*faults, sep="\n")
        sys.exit(f"{tool}-test: FAILED")
    print(f"{tool}-test: the right example passes, and each of {len(wrong)} wrong ones is refused for its reason")
