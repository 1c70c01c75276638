"""The table of public calls, tools/allocations/calls.md: that it has each, and that the tests which it names are there and show what it says.

A row names calls, as `read_tag` or `Whole::{mem, tag}`; whether they take memory, `yes` or `none`; whether they may wait, `may` or
`no`; and where that is seen: tests, as `sci_line_tests::whole::growths::refused_growths`, or `in` calls that are made of these.

A public call is a `pub fn` or a trait's `fn` that lib.rt hands on by its name or by the name of its type, or that a public module has:
a function of a public module is named with it, as `layout1::read_tag`. An export of a static library is one too, whatever module it
stands in. Each must stand in one row, and each name of a row must be one.
A call that takes memory must be in the growths of a test that its row names, or be `in` calls that are, or in `scisim`, whose growths
program.py refuses. Where an allocator comes in, and
the call takes no memory, a test must say so, in a file that names the call. A call that has an allocator or changes itself, and of which
a test of its crate's rows has growths, takes memory. A call may wait where a bound says `Wait`. What lib.rt hands on it must name one by
one, and under their own names.
"""

import re

ITEM = re.compile(r"(?m)^(?:(impl|pub trait|pub struct|pub enum)\b(.*)$|( *)(?:(pub )?)(?:const )?(?:unsafe )?(extern \"C\" )?fn (\w+))")
USES = re.compile(r"pub use [\w:]+::(?:\{(\s*\w+(?:,\s*\w+)*,?\s*)\}|(\w+));")
# what stands in a lib.rt and isn't read: names handed on in another form, and functions
UNREAD = re.compile(r"(?m)^ *(pub use [^;]*;|(?:pub )?(?:const )?(?:unsafe )?fn \w+)")
ROW = re.compile(r"(?m)^\| (.*`.*) \| (\w+) \| (\w+) \| (.*) \|$")
NAMES = re.compile(r"`(\w+(?:::\w+)*)(?:::\{([^}]*)\})?`")
GROWTHS = re.compile(r"/// Growths: ([^.]+)\.\n#\[test\]\nfn (\w+)\(")
GROWING = re.compile(r"\bof (\w+)")
PROGRAM = "scisim"


def handed_on(crate):
    """The names that a crate's lib.rt hands on, with those of types of the modules that are public themselves; and these modules."""
    text = (crate / "src/lib.rt").read_text(encoding="utf-8")
    names = {name.strip() for many, one in USES.findall(text) for name in (many or one).split(",") if name.strip()}
    modules = re.findall(r"(?m)^pub mod (\w+);", text)
    for module in modules:
        inner = (crate / f"src/{module}.rt").read_text(encoding="utf-8")
        names |= set(re.findall(r"(?m)^pub (?:struct|enum|trait) (\w+)", inner))
    return names, modules


def signature(text, start):
    """A function's text from its generics to its last parameter, and the bounds behind them."""
    depth, place = 0, text.index("(", start)
    for place in range(place, len(text)):
        depth += {"(": 1, ")": -1}.get(text[place], 0)
        if not depth:
            break
    return text[start:place]


def type_of(head):
    """The type of an impl without a trait, or a trait's name; nothing for a trait's impl."""
    plain = re.sub(r"^<(?:[^<>]|<[^<>]*>)*>", "", head.strip()).strip()
    return None if re.search(r"\bfor\b", plain.split("{")[0]) else re.match(r"\w+", plain)[0]


def unread(crate):
    """What a crate's lib.rt hands on in a form that isn't read."""
    text = (crate / "src/lib.rt").read_text(encoding="utf-8")
    return [item for item in UNREAD.findall(text) if not USES.fullmatch(item)]


def calls_of(crate):
    """The public calls of a crate, each with whether an allocator comes in, whether it may wait, and whether it changes itself."""
    (public, modules), found = handed_on(crate), {}
    for file in sorted(crate.glob("src/**/*.rt")):
        text, owner, is_trait = file.read_text(encoding="utf-8"), None, False
        module = file.stem if file.parent.name == "src" and file.stem in modules else None
        for item in ITEM.finditer(text):
            kind, head, indent, is_public, is_export, name = item.groups()
            if kind:
                owner, is_trait = (type_of(head) if kind in ("impl", "pub trait") else None), kind == "pub trait"
                continue
            is_handed_on = (owner if indent else name) in public or (module and not indent) or is_export
            if is_handed_on and (is_public or (is_trait and indent)):
                text_of = signature(text, item.end())
                call = f"{owner if indent else module}::{name}" if indent or module else name
                found[call] = tuple(bool(re.search(it, text_of)) for it in (r"\b(Global|AllocGlobal)\b", r"(?<!<)\bWait\b", r"&mut self\b"))
    return found


def named_in(cell):
    """The names of a cell, those in braces one by one."""
    return [f"{name}::{part.strip()}" if parts else name for name, parts in NAMES.findall(cell) for part in (parts or "-").split(",")]


def tests_of(root):
    """The tests of the crates of tests, each with the calls whose growths its table has."""
    found = {}
    for file in sorted(root.glob("crates/*_tests/src/**/*.rt")):
        text = file.read_text(encoding="utf-8")
        tables = {test: set(GROWING.findall(table)) for table, test in GROWTHS.findall(text)}
        module = [file.relative_to(root / "crates").parts[0], *file.relative_to(root / "crates").with_suffix("").parts[2:]]
        for test in re.findall(r"#\[test\]\n(?:#\[.*\]\n)*fn (\w+)\(", text):
            found["::".join([*module, test])] = tables.get(test, set())
    return found


def rows_of(root):
    """The rows of the table, each with its crate."""
    text = (root / "tools/allocations/calls.md").read_text(encoding="utf-8")
    parts = re.split(r"(?m)^## (\w+)$", text)
    return [(crate, *row) for crate, part in zip(parts[1::2], parts[2::2]) for row in ROW.findall(part)]


def file_of(root, test):
    """The text of a test's file."""
    crate, *modules, _ = test.split("::")
    return root.joinpath("crates", crate, "src", *modules).with_suffix(".rt").read_text(encoding="utf-8")


def shows(root, test, call):
    """Whether a test's file names a call."""
    return bool(re.search(rf"\b{call.split('::')[-1]}\b", file_of(root, test)))


def growing_in(crate, rows, tests):
    """The names of what grows in the tests that a crate's rows name, each with whether no call of its rows is said to grow by that name."""
    own = [it for it in rows if it[0] == crate]
    told = {call.split("::")[-1] for it in own if it[2] == "yes" for call in named_in(it[1])}
    return {name: name not in told for it in own for test in named_in(it[4]) for name in tests.get(test, ())}


def faults_of_none(root, call, takes, shown, growing):
    """What isn't as it must be of a call that is said to take no memory. `growing` is what grows in the tests of its crate's rows. One
    that takes no allocator may have the name of another that grows."""
    has_alloc, _, changes = takes
    if has_alloc and not any(shows(root, it, call) for it in shown):
        yield f"{call}: no test shows that it takes no memory"
    name = call.split("::")[-1]
    if name in growing and (has_alloc or changes and growing[name]):
        yield f"{call}: a test has growths of it, and it is said to take no memory"


def faults_of_row(root, row, calls, tests, grown, growing):
    """What isn't as it must be in a row. `grown` are the calls of all rows that a test's growths have."""
    _, names, memory, waits, seen = row
    shown, within, faults = named_in(seen.split("in ")[0]), named_in(seen.partition("in ")[2]), []
    faults += [f"there is no test {it}" for it in shown if it not in tests]
    faults += [f"the growths of {it} are shown by no test" for it in within if it not in grown]
    for call in named_in(names):
        takes = calls.get(call, (False, waits == "may", False))
        if call not in calls:
            faults.append(f"there is no public call {call}")
        if memory not in ("yes", "none") or waits != ("may" if takes[1] else "no"):
            faults.append(f"{call}: '{memory}' and '{waits}' aren't what it takes and whether it may wait")
        if memory == "yes" and call not in grown and not within:
            faults.append(f"{call}: no test that its row names has growths of it")
        if memory == "none":
            faults += faults_of_none(root, call, takes, [it for it in shown if it in tests], growing)
    return faults


def grown_of(rows, tests):
    """The calls whose growths a test has that their row names."""
    return {PROGRAM} | {call for _, names, memory, _, seen in rows if memory == "yes"
            for call in named_in(names) for test in named_in(seen) if call.split("::")[-1] in tests.get(test, ())}


def faults(root):
    """What isn't as it must be in the table of a repository's public calls."""
    crates = [it.parents[1] for it in sorted(root.glob("crates/*/src/lib.rt")) if not it.parents[1].name.endswith("_tests")]
    calls, rows, tests = {it.name: calls_of(it) for it in crates}, rows_of(root), tests_of(root)
    grown, found = grown_of(rows, tests), [f"{it.name}: its lib.rt has {use!r}, which isn't read" for it in crates for use in unread(it)]
    for row in rows:
        growing = growing_in(row[0], rows, tests)
        found += [f"{row[0]}: {it}" for it in faults_of_row(root, row, calls.get(row[0], {}), tests, grown, growing)]
    for crate, public in calls.items():
        named = [call for it in rows if it[0] == crate for call in named_in(it[1])]
        found += [f"{crate}: {it} stands in no row" for it in sorted(public) if it not in named]
        found += [f"{crate}: {it} stands in {named.count(it)} rows" for it in sorted({*named}) if named.count(it) > 1]
    return found
