"""The edits of a crate, and the function that each one changes."""

import os
import re
import shutil
import tempfile

import functions
from kit import RT

FOLDER = "refused"


class Edit:
    """An edit of refused/: its name, its text as the kit reads one, and the function whose body it changes, or why it can't be tried."""

    def __init__(self, name, text="", why=None):
        self.name, self.text, self.why = name, text, why
        # the function as the file has it, and what the prover calls it
        self.change, self.function = None, None
        # the file that it changes, the function's whole text as it is then, and whether a copy of the function can stand beside it
        self.file, self.item, self.has_copies = None, None, False


def read_edits(folder):
    """Returns the edits that stand in a folder, those of each file in its order."""
    found, names = [], set()
    for at, folders, files in os.walk(folder):
        folders.sort()
        for file in (f"{at}/{it}" for it in sorted(files) if not it.endswith(".md")):
            found += read_file(file, os.path.relpath(file, folder))
    for it in found:
        if it.name in names:
            it.why = "another edit of the crate has its name"
        names.add(it.name)
    return found


def read_file(file, path):
    """Returns the edits of a file, which are those of the source file that its path names."""
    source, end = os.path.splitext(path)
    if end != ".edits":
        return [Edit(path, why="a file of refused/ has the path of a source file in src/, and .edits for .rt")]
    found = []
    with open(file, encoding="utf-8", errors="replace") as it:
        lines = it.read().split("\n")
    for number, line in enumerate(lines, 1):
        named = re.fullmatch(r"edit: (\w+)", line)
        if named:
            found.append(Edit(named[1], f"file: src/{source}.rt\n"))
        elif found and line.startswith(("old: ", "new:")):
            found[-1].text += f"{line}\n"
        elif line and not line.startswith("#"):
            found.append(Edit(f"{path}:{number}", why="a line is 'edit: NAME', 'old: TEXT' or 'new: TEXT' below one, or begins with #"))
    return found


def edits_of(crate):
    """Returns the crate's edits, each with its function or with why it can't be tried, and the types that the crate declares."""
    found = read_edits(f"{crate.folder}/{FOLDER}")
    items = items_of(crate) if found else {}
    with tempfile.TemporaryDirectory(prefix="refused-") as room:
        texts, seen = [], {}
        for at, edit in enumerate(found):
            changes = changes_of(edit, crate, items)
            first = seen.setdefault(tuple(sorted(changes.items())), edit.name) if changes else edit.name
            if first != edit.name:
                edit.why = f"it makes the same change as {first}"
            for path, text in changes.items():
                file = f"{room}/{at}.{len(texts)}.rt"
                with open(file, "w", encoding="utf-8") as it:
                    it.write(text)
                texts.append((edit, path, file))
        changed = {}
        for (edit, path, file), tokens in zip(texts, functions.tokens_of([it for _, _, it in texts])):
            if tokens is None:
                edit.why = f"the edited {path} is no text that the prover reads"
                continue
            now = functions.items_of(path, tokens)
            of_path, why = functions.changed(items[path], now, path)
            edit.why = edit.why or why
            changed.setdefault(edit, []).extend(of_path or [])
            if of_path and now.spans.get(of_path[0]):
                edit.file, edit.item = path, item_of(file, now.spans[of_path[0]])
                # (functions that are proved together have one proof)
                edit.has_copies = of_path[0] not in now.of_traits and b"#[cycle" not in edit.item
    for edit in found:
        of_edit = changed.get(edit, [])
        if not edit.why and len(of_edit) != 1:
            edit.why = f"it changes the bodies of {len(of_edit)} functions, and not of one: it belongs to must-fail/"
        edit.change = None if edit.why else of_edit[0]
    return found, [it for of_file in items.values() for it in of_file.types]


def items_of(crate):
    """Returns what each file of the crate's src/ has, by its path in the crate."""
    files = [it for it in RT.rtlib.files_of(crate.folder) if it.endswith(".rt")]
    paths = [os.path.relpath(it, crate.folder) for it in files]
    return {path: functions.items_of(path, it) for path, it in zip(paths, functions.tokens_of(files)) if it is not None}


def changes_of(edit, crate, items):
    """Returns the texts of the files that the edit changes, none where it can't be tried."""
    if edit.why:
        return {}
    texts, edit.why = RT.edited(edit.text, crate.folder)
    if texts and not all(it in items for it in texts):
        edit.why = "it changes more than code: it belongs to must-fail/"
    return {} if edit.why else texts


def item_of(file, span):
    """Returns a function's text, from its attributes to its last brace."""
    with open(file, "rb") as it:
        return it.read()[slice(*span)]


# A check costs as much before its first edit as it costs to prove so many copies of functions as they stand.
COPIES_A_CHECK = 8


def in_batches(edits, size):
    """Returns the edits in batches, as many as cost the least. Several of one function stand in one where copies of that function can
    stand beside it."""
    by_function = {}
    for it in edits:
        by_function.setdefault(it.change, []).append(it)
    counts = [len(it) for it in by_function.values()]
    least = max([-(-len(edits) // size), *(len(it) for it in by_function.values() if not all(edit.has_copies for edit in it))])

    def cost(number):
        return COPIES_A_CHECK * number + sum(it > number for it in counts)

    batches = [[] for _ in range(min(range(least, max([least, *counts]) + 1), key=cost))]
    for together in sorted(by_function.values(), key=len, reverse=True):
        free = sorted(batches, key=len)
        for at, edit in enumerate(together):
            free[at % len(free)].append(edit)
    return [it for it in batches if it]


def with_numbers(batch):
    """Returns each edit of a batch with its number among those of its function: 0 is made in the function itself, others in copies."""
    seen = {}
    for it in batch:
        number = seen[it.change] = seen.get(it.change, -1) + 1
        yield it, number


def name_of_copy(name, number):
    return f"{name}_edit_{number}"


def put(room, file, changes, types, crate):
    """Puts texts of functions into a file: in the place of a function under its own name, and under another as a copy beside it, with its
    proof. None stands for the text that is there."""
    with open(f"{room}/{file}", "rb") as it:
        text = it.read()
    spans = functions.items_of(file, functions.tokens_of([f"{room}/{file}"])[0]).spans
    for change in sorted({it[0] for it in changes}, key=lambda it: -spans[it][1]):
        start, end = spans[change]
        own, copies = text[start:end], b""
        for _, name, item in (it for it in changes if it[0] == change):
            if name == change.name:
                own = item
                continue
            copies += b"\n\n" + renamed(item or text[start:end], change.name, name)
            for path in functions.names_of(change, types, crate):
                copy_proof(room, path, path[: -len(change.name)] + name)
        text = text[:start] + own + copies + text[end:]
    with open(f"{room}/{file}", "wb") as it:
        it.write(text)


def renamed(item, name, to):
    """Returns a function's text under another name; the function's own comments may name it too, and stay."""
    head = rb"(?m)^((?![ \t]*//).*?\bfn\s+)%s\b" % name.encode()
    return re.sub(head, lambda it: it[1] + to.encode(), item, count=1)


def copy_proof(room, path, copy):
    """Copies the folder of a function's proof for its copy, both given as the prover calls them."""
    crate, *own = path.split("::")
    folder, to = f"{room}/proofs/{'/'.join(own)}", f"{room}/proofs/{'/'.join(copy.split('::')[1:])}"
    if not os.path.isdir(folder):
        return
    shutil.copytree(folder, to)
    was, now = (f"Rattle.{crate}.proofs.{'.'.join(it.split('::')[1:])}." for it in (path, copy))
    for file in os.listdir(to):
        with open(f"{to}/{file}", encoding="utf-8") as it:
            text = it.read()
        with open(f"{to}/{file}", "w", encoding="utf-8") as it:
            it.write(text.replace(was, now))
