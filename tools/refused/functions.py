"""Which function an edit changes, by the prover's own tokens, and what the prover calls it."""

import json
import re
import subprocess
from collections import namedtuple

from kit import RATTLE

TOKEN = re.compile(r"\d+ (\d+) (\d+) (\w+) (.*)")
TYPES = ("struct", "enum", "union", "trait")

# A function of a file: the modules that it is written in, the type and the trait of its impl, if any, and its name.
Function = namedtuple("Function", "modules type trait name")

# What a file has: the tokens of each function's body, all other tokens, those of a closure's contract among them, and the types that it
# declares, with their modules; where each function stands, from its attributes to its last brace, in bytes; and which functions are
# methods of a trait.
Items = namedtuple("Items", "bodies rest types spans of_traits")


def tokens_of(files):
    """Returns the tokens of each of these .rt files, as kind, text, start and end in bytes, or None for one that can't be read."""
    if not files:
        return []
    ran = subprocess.run([RATTLE, "fmt", "--tokens", *files], stdout=subprocess.PIPE, stderr=subprocess.DEVNULL)
    if ran.returncode:
        return [None] if len(files) == 1 else [it for file in files for it in tokens_of([file])]
    parts = re.split(r"(?m)^file \d+\n", ran.stdout.decode(errors="replace"))[1:]
    return [[(kind, json.loads(text), int(start), int(end)) for start, end, kind, text in TOKEN.findall(part)] for part in parts]


def module_of(path):
    """Returns the module that a file of src/ is, as the names of modules from the root."""
    names = re.sub(r"\Asrc/|\.rt\Z", "", path).split("/")
    return names[:-1] if names[-1] in ("lib", "main", "mod") else names


def last_name(words):
    """Returns the last name of a type's path, its arguments left out."""
    name, depth = "", 0
    for word in words:
        depth += (word == "<") - (word == ">")
        if depth == 0 and re.fullmatch(r"[A-Za-z_]\w*", word) and word not in ("mut", "dyn"):
            name = word
    return name


def scope_of(head):
    """Returns what the words before a brace or a semicolon open or declare: its kind, its name and the trait of an impl."""
    words = [it for it in head if it not in ("pub", "unsafe", "const", "async", "default")]
    for at, word in enumerate(words):
        if word in ("mod", "fn", *TYPES) and at + 1 < len(words):
            return word, words[at + 1], ""
        if word == "impl":
            return "impl", *types_of_impl(words[at + 1 :])
        if word in ("use", "static", "type", "macro_rules"):
            break
    return "other", "", ""


def types_of_impl(words):
    """Returns the type of an impl and its trait, with the names of the trait's arguments behind it."""
    depth = 0
    if words[:1] == ["<"]:
        for at, word in enumerate(words):
            # (the > of an arrow -> closes nothing)
            depth += (word == "<") - (word == ">" and words[at - 1] != "-")
            if not depth:
                break
        words = words[at + 1 :]
    words = words[: words.index("where")] if "where" in words else words
    if "for" not in words:
        return last_name(words), ""
    at = words.index("for")
    trait = words[:at]
    start = trait.index("<") if "<" in trait else len(trait)
    arguments = [it for it in trait[start:] if re.fullmatch(r"[A-Za-z_]\w*", it)]
    return last_name(words[at + 1 :]), last_name(trait) + "".join(arguments)


def items_of(path, tokens):
    """Returns what a file has."""
    items, scopes, head = Items({}, [], [], {}, set()), [], []
    inside, depth, is_clause, begun = None, 0, False, None
    for kind, text, start, end in tokens:
        # from the brace that a clause's head ends in to its end, all is the clause's
        is_clause = (is_clause or (kind, text) == ("Head", "{")) and kind != "End"
        code = text if kind == "Code" and not is_clause else ""
        if inside is not None:
            depth += (code == "{") - (code == "}")
            (items.rest if is_clause or kind in ("Head", "End") else inside).append((kind, text))
            if not depth:
                items.spans[function] = (begun, end) if function not in items.spans else None
                if owner[2] or owner[0] == "trait":
                    items.of_traits.add(function)
                inside, begun = None, None
            continue
        items.rest.append((kind, text))
        begun = start if begun is None else begun
        if code in ("{", "}", ";") and not is_nested(head):
            modules = [*module_of(path), *[name for what, name, _ in scopes if what == "mod"]]
            what, name, trait = scope_of(head) if code != "}" else ("", "", "")
            if what in TYPES:
                items.types.append((name, modules))
            if code == "{" and what == "fn":
                owner = next((it for it in reversed(scopes) if it[0] in ("impl", "trait")), ("", "", ""))
                function = Function(tuple(modules), owner[1], owner[2], name)
                inside, depth = items.bodies.setdefault(function, []), 1
            elif code == "{":
                scopes.append((what, name, trait))
            elif code == "}" and scopes:
                scopes.pop()
            head, begun = [], begun if inside is not None else None
        elif code:
            head.append(code)
    return items


def is_nested(head):
    """Returns whether brackets of the words before are still open, as those of an array's type."""
    return sum((it in ("(", "[")) - (it in (")", "]")) for it in head) > 0


def changed(was, now, path):
    """Returns the functions whose bodies differ, or says why the file differs in more than bodies."""
    if was.rest != now.rest:
        return None, f"it changes {path} outside the bodies of its functions: it belongs to must-fail/"
    return [it for it in was.bodies if was.bodies[it] != now.bodies.get(it)], None


def places_of(function, types):
    """Returns the modules that a method may stand in: that of its type, wherever its impl is written; a trait's method also where it is
    written."""
    places = {tuple(modules) for name, modules in types if name == function.type} or {function.modules}
    return {function.modules} & places or (places | {function.modules} if function.trait else places)


def names_of(function, types, crate):
    """Returns what the prover may call this function; of a method of a trait, more names may stand behind the trait's."""
    if not function.type:
        return ["::".join([crate, *function.modules, function.name])]
    owner = function.type + function.trait
    return ["::".join([crate, *modules, owner, function.name]) for modules in sorted(places_of(function, types))]


def modules_of(function, types, crate):
    """Returns the modules that the function may stand in, as the prover is asked for all that is in them."""
    return ["::".join([crate, *modules]) for modules in (places_of(function, types) if function.type else [function.modules])]


def named(function, types, crate, known):
    """Returns what the prover calls this function: the one of the known names that fits it, or None."""
    found = set()
    for name in names_of(function, types, crate):
        start, end = name[: -len(function.name) - 2], f"::{function.name}"
        found |= {name} & known or {it for it in known if function.trait and is_of(it, start, end)}
    return found.pop() if len(found) == 1 else None


def is_of(name, start, end):
    """Returns whether this is a method of the type and trait that `start` names, with names of arguments behind it."""
    return name.startswith(start) and name.endswith(end) and "::" not in name[len(start) : -len(end)]
