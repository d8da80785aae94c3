"""Tries the wrong programs: each edit file is applied to a copy of its crate, and the kit's `rt check` says what is refused there.

The copy lies outside the repository, with the crates below it, so that nothing in the repository is touched. What the prover said of an
edit is kept in target/must-fail/CRATE/EDIT.log, behind a line with the sum of all that it was tried on; it is tried anew only where that
is another.
"""

import hashlib
import re
import shutil
import subprocess
import tempfile
from concurrent.futures import ThreadPoolExecutor
from pathlib import Path

PARTS = ("src", "specs", "proofs")
LINE = re.compile(r"^(\w+)[^:#\n]*:([^#\n]*)", re.M)  # of crates.txt: a crate, and the libraries that it uses


def below(root, crate):
    """The crate and those of the repository that it rests on."""
    uses = {name: rest.split() for name, rest in LINE.findall(Path(root, "crates.txt").read_text(encoding="utf-8"))}
    found, left = [], [crate]
    while left:
        name = left.pop()
        if name in uses and name not in found:
            found.append(name)
            left += uses[name]
    return sorted(found)


def files_of(root, crate):
    return sorted(path for part in PARTS for path in Path(root, "crates", crate, part).rglob("*") if path.is_file())


def sum_of(root, crate, edit):
    """The sum of all that an edit is tried on: the kit, the crate and those below it, and the edit."""
    added = hashlib.sha256(subprocess.run(["rt", "version"], capture_output=True, check=True).stdout)
    for path in [*(path for name in below(root, crate) for path in files_of(root, name)), Path(root, "crates", crate, "must-fail", edit + ".edit")]:
        added.update(f"{path.relative_to(root)} {path.stat().st_size}\n".encode() + path.read_bytes())
    return added.hexdigest()


def log_of(root, crate, edit):
    return Path(root, "target", "must-fail", crate, edit + ".log")


def kept(root, crate, edit):
    """What the prover said when the edit was last tried as everything stands, or None."""
    log = log_of(root, crate, edit)
    head, _, said = log.read_text(encoding="utf-8", errors="replace").partition("\n") if log.is_file() else ("", "", "")
    return said if head == sum_of(root, crate, edit) else None


def edited(folder, text):
    """Applies an edit file's lines to the crate in the folder, as the kit does. Gives a sentence where they can't be, or None."""
    path = old = None
    for line in text.split("\n"):
        if line.startswith("file: "):
            path = folder / line[len("file: "):].strip()
        elif line.startswith("old: "):
            old = line[len("old: "):]
        elif line.startswith("new:"):
            there = path.read_text(encoding="utf-8") if path and path.is_file() else ""
            if old is None or there.count(old) != 1:
                return f"it can't be applied: {path and path.relative_to(folder)} has {there.count(old) if old else 0} times '{old}'."
            path.write_text(there.replace(old, line[len("new:"):].removeprefix(" ")), encoding="utf-8")
    return None


def checked(folder):
    return subprocess.run(["rt", "check"], cwd=folder, stdin=subprocess.DEVNULL, stdout=subprocess.PIPE, stderr=subprocess.STDOUT,
                          text=True, errors="replace", check=False)


def try_crate(root, crate, edits):
    """Tries these edits of a crate, one after the other, each on the crate as it stands; gives a sentence of each that can't be judged."""
    with tempfile.TemporaryDirectory() as room:
        for name in below(root, crate):
            for part in PARTS:
                if Path(root, "crates", name, part).is_dir():
                    shutil.copytree(Path(root, "crates", name, part), Path(room, "crates", name, part))
        shutil.copy(Path(root, "crates.txt"), room)
        lines = [line for line in Path(room, "crates.txt").read_text(encoding="utf-8").splitlines() if line.split(":")[0].split(" ")[0] in below(root, crate)]
        Path(room, "crates.txt").write_text("\n".join([*lines, ""]), encoding="utf-8")
        folder, right = Path(room, "crates", crate), Path(room, "right")
        ran = checked(folder)
        if ran.returncode != 0:
            return [f"{crate}: it isn't proved as it stands, so that none of its wrong programs can be tried."]
        shutil.copytree(folder, right)
        return list(filter(None, (try_edit(root, crate, edit, folder, right) for edit in edits)))


def try_edit(root, crate, edit, folder, right):
    """Tries one edit on the right crate; keeps what the prover says."""
    shutil.rmtree(folder)
    shutil.copytree(right, folder)
    fault = edited(folder, Path(root, "crates", crate, "must-fail", edit + ".edit").read_text(encoding="utf-8"))
    if fault:
        return f"{crate}: {edit}: {fault}"
    ran = checked(folder)
    if ran.returncode != 1 or not re.search(r"^logic=not-proved", ran.stdout, re.M):
        return f"{crate}: {edit}: the prover doesn't refuse it: it ended with {ran.returncode}."
    log = log_of(root, crate, edit)
    log.parent.mkdir(parents=True, exist_ok=True)
    log.write_text(sum_of(root, crate, edit) + "\n" + ran.stdout, encoding="utf-8")
    return None


def try_all(root, tries):
    """Tries edits, pairs of a crate and an edit's name, that weren't tried as everything stands: two crates at a time. Gives a sentence of
    each that the prover gave no refusal of."""
    wanted = {}
    for crate, edit in tries:
        if kept(root, crate, edit) is None:
            wanted.setdefault(crate, []).append(edit)
    with ThreadPoolExecutor(2) as pool:
        return [fault for faults in pool.map(lambda crate: try_crate(root, crate, wanted[crate]), wanted) for fault in faults]
