"""What the scripts of this folder read of crates/: the crates in their order, and their public functions with their contracts."""
import pathlib
import re

root = pathlib.Path(__file__).resolve().parent.parent
programs = {"ferry_main", "layout_main", "transcript"}


def crates():
    """The crates of crates.txt, lowest first."""
    return re.findall(r"(?m)^(\w+)(?: staticlib)?:", (root / "crates.txt").read_text())


def public_functions(crate):
    """(file, path as `crate::module::name`, head) of each public function that another crate can name; a program has none.

    The head goes from `pub fn` to the brace of the body, which starts a line.
    """
    src = root / "crates" / crate / "src"
    if crate in programs or not (src / "lib.rt").exists():
        return
    hidden = set(re.findall(r"(?m)^mod (\w+);", (src / "lib.rt").read_text()))
    for path in sorted(src.rglob("*.rt")):
        parts = path.relative_to(src).with_suffix("").parts
        if parts[0] in hidden:
            continue
        module = "::".join((crate,) + tuple(p for p in parts if p != "lib"))
        text = re.sub(r"(?m)//.*$", "", path.read_text())
        for m in re.finditer(r"(?m)^( *)pub (?:extern \"C\" )?fn (\w+)", text):
            end = re.compile(rf"(?m)^{m.group(1)}\{{").search(text, m.end())
            yield path, f"{module}::{m.group(2)}", text[m.start(): end.start()]


def clauses(head):
    """(word, body) of each clause `requires [name] { .. }` and `ensures [name] { .. }` of a head."""
    found = []
    for m in re.finditer(r"\b(requires|ensures)\b[^{]*\{", head):
        depth, i = 1, m.end()
        while depth:
            depth += {"{": 1, "}": -1}.get(head[i], 0)
            i += 1
        found.append((m.group(1), " ".join(head[m.end(): i - 1].split())))
    return found
