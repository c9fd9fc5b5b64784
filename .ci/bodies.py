"""Reads the wrong bodies of `edits/`, which the prover has to refuse, and makes them in sources.

The file `edits/CRATE` has those of a crate, sorted by name, with an empty line after each:

    a_reader_may_lie
    of: Reader::read
    why: one line, only if the name alone doesn't say why the body is wrong
    file: src/reading.rt
    old: a text that is in this file exactly once
    new: the text that takes its place

`of:` names the function that it changes, or the definition, law or constant: `.ci/pages mend`
writes that line. More `old:` and `new:` lines may follow, which are made one after the other, and
more `file:` lines, each for the changes after it.
"""

import dataclasses
import functools
import os
import re

TOP = os.path.dirname(os.path.dirname(os.path.abspath(__file__)))
FUNCTION = re.compile(r"(?m)^([ \t]*)(?:pub(?:\([^)]*\))? )?(?:const )?(?:unsafe )?fn (\w+)")
# An item of a source that is no function, by its first words.
ITEM = re.compile(r"(?m)^(?:pub(?:\([^)]*\))? )?(?:const|static|struct|enum|trait|impl|use)\b")
# The head of an impl or a trait, with the type or the trait whose functions are in it.
OWNER = re.compile(r"(?m)^(?:pub )?(?:impl(?:<.*?>)? (?:.* for )?|trait )&?(?:'\w+ )?([\w:]+)")
# What begins a definition, a law or a lemma.
DEFINED = re.compile(r"(?m)^(?:(?:pub|abbrev|record|data|pattern|law|lemma) )*(\w+)")
IMPORTS = "imports"


@dataclasses.dataclass
class Body:
    """A wrong body: its name, what it changes, why it is wrong, and each (file, old, new) of it."""

    name: str
    of: str = ""
    why: str = ""
    changes: list = dataclasses.field(default_factory=list)


@functools.lru_cache(None)
def read(path):
    with open(path, encoding="utf-8") as file:
        return file.read()


def body_of(block):
    """The wrong body that a block of lines has."""
    name, *lines = block.split("\n")
    body, file, old = Body(name), None, None
    for line in lines:
        word, _, rest = line.partition(":")
        rest = rest.removeprefix(" ")
        if word == "file":
            file = rest.strip()
        elif word == "old":
            old = rest
        elif word == "new":
            body.changes.append((file, old, rest))
        elif word in ("of", "why"):
            setattr(body, word, rest)
        else:
            raise ValueError(f"{name} has a line of no kind: {line}")
    return body


def bodies_in(text):
    """The wrong bodies that a file of `edits/` has."""
    return [body_of(it) for it in text.strip("\n").split("\n\n") if it]


def text_of(bodies):
    """The text of the file of `edits/` that has these."""
    return "\n".join(map(block_of, sorted(bodies, key=lambda it: it.name)))


def block_of(body):
    """The lines of a wrong body."""
    lines = [body.name, f"of: {body.of}", *[f"why: {body.why}"] * bool(body.why)]
    files = [None, *(file for file, _, _ in body.changes)]
    for before, (file, old, new) in zip(files, body.changes):
        lines += [*[f"file: {file}"] * (file != before), f"old: {old}", f"new: {new}".rstrip(" ")]
    return "".join(f"{it}\n" for it in lines)


def crates_with_bodies(top=TOP):
    """The crates that have a file of `edits/`."""
    return sorted(it for it in os.listdir(f"{top}/edits") if os.path.isdir(f"{top}/crates/{it}"))


def steps(folder, changes):
    """Each change with the text of its file when its turn comes, in which `old` should be once."""
    made = {}
    for file, old, new in changes:
        path = f"{folder}/{file}"
        text = made.get(file) or (read(path) if os.path.isfile(path) else "")
        yield file, old, text
        made[file] = text.replace(old, new, 1)


def fault_of(folder, body):
    """Why a wrong body can't be made in the sources of its crate; nothing if it can."""
    if not body.changes:
        return "it changes nothing"
    for file, old, text in steps(folder, body.changes):
        if not text:
            return f"there is no {file}"
        if text.count(old) != 1:
            return f"{file} has this {text.count(old)} times, and not once: {old.strip()[:80]}"
    return ""


def texts_with(folder, changes):
    """The files with these changes, made in turn; None if one can't be made."""
    made = {}
    for (file, old, text), (_, _, new) in zip(steps(folder, changes), changes):
        if text.count(old) != 1:
            return None
        made[file] = text.replace(old, new)
    return made


def part_of(file, text, old):
    """What the only place of `old` in a text belongs to, and whether it is in a function's body."""
    at = text.index(old) + len(old) - len(old.lstrip())
    end = text.find("\n", at)
    if not file.endswith(".rt"):
        return definition_at(text, end), False
    heads = list(FUNCTION.finditer(text, 0, end))
    items = list(ITEM.finditer(text, 0, end))
    if heads and not (items and heads[-1].start() < items[-1].start()):
        head = heads[-1]
        if not re.search(rf"(?m)^{head[1]}\}}", text[head.end() : at]):
            return function_at(text, head), is_in_body(text, head, at)
    return item_named(text[items[-1].start() :] if items else ""), False


def function_at(text, head):
    """The name of a function, after that of the type or trait whose function it is."""
    owner = [it for it in OWNER.finditer(text, 0, head.start())][-1:] if head[1] else []
    return f"{owner[0][1].split('::')[-1]}::{head[2]}" if owner else head[2]


def is_in_body(text, head, at):
    """Whether a place after a function's head is in its body: not in its signature or contract."""
    before = text[head.start() : at]
    has_clauses = re.search(r"\n\s*(?:requires|ensures)\b", before)
    opens = rf"(?m)^{head[1]}\{{$" if has_clauses else rf"(?m)^{head[1]}\{{$| \{{\n"
    return re.search(opens, before) is not None


def item_named(text):
    """The name of the item with which a text begins."""
    if re.match(r"(?:pub(?:\([^)]*\))? )?use\b", text):
        return IMPORTS
    found = re.match(r"(?:pub(?:\([^)]*\))? )?\w+ (\w+)", text)
    return found[1] if found else ""


def definition_at(text, end):
    """The definition, law or lemma at a place; of a record also the part."""
    found = [it for it in DEFINED.finditer(text, 0, end) if it[1] not in ("use", "import", "open")]
    if not found:
        return IMPORTS
    part = re.match(r"\s+pub (\w+) :", text[text.rfind("\n", 0, end) + 1 : end])
    return f"{found[-1][1]}.{part[1]}" if part else found[-1][1]


def parts_of(folder, body):
    """What a wrong body changes: each part once, and whether it is in a function's body."""
    found = [part_of(file, text, old) for file, old, text in steps(folder, body.changes)]
    return list(dict.fromkeys(found))


def named_parts(folder, body):
    """The line `of:` of a wrong body; imports and proofs only if it changes nothing else."""
    found = [(file, part_of(file, text, old)[0]) for file, old, text in steps(folder, body.changes)]
    own = [name for file, name in found if name != IMPORTS and not file.startswith("proofs/")]
    return ", ".join(dict.fromkeys(own or [name for _, name in found]))
