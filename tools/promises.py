#!/usr/bin/env python3
"""Lists the definitions that the contracts of public calls rest on, through all layers.

Usage: tools/promises.py [CALL.. | headline]

Without calls: how many definitions and lines there are for each public call, and in all. With calls (`report`,
`Grid::set`), or `headline` for those of the headline in `docs/proofs.md`: their definitions, each with its file,
line and length. Status 1 if a definition that a public contract rests on stands among the steps
(`specs/steps/`), or if a call is unknown.
"""

import re
import sys
from pathlib import Path

TOP = Path(__file__).resolve().parent.parent
HEADLINE = (
    "settle BatchLane::close open_lane BatchLane::new Lane::send Lane::finish Lane::take LaneBack::step "
    "BatchLane::work answers_in_order drained_lanes_are_answered grade report Answer::outcome collect run_survey "
    "survey_entries"
).split()
DEFINITION = re.compile(r"(?:(?:abbrev|unfoldable|foldable) )*(?:pub )?(?:(?:record|data) )?(?:pub )?([^\s(){}]+) ")
IMPORT = re.compile(r"\buse ([\w.]+)\.\{([^}]*)\}")
NAME = re.compile(r"[^\s(){}\[\],;.λ]+")
CALL = re.compile(r'^( *)(pub (?:extern "C" )?)?fn (\w+)', re.M)
ITEM = re.compile(r"^(?:pub )?(struct|enum|trait|impl)\b(?:<.*?>)? (?:(\w+)(?:<.*?>)? for )?(\w+)", re.M)


class Definition:
    """A definition of a crate's specs: its text, where it stands, and what its file imports."""

    def __init__(self, path, line, lines, imports):
        self.path, self.line, self.text, self.imports = path, line, "\n".join(lines), imports
        self.length = len(lines)

    def __str__(self):
        return f"{self.path.relative_to(TOP)}:{self.line} ({self.length})"


def imports_of(text):
    """The names that a file imports, each with its module."""
    found = {}
    for module, names in IMPORT.findall(text):
        for name in names.split(","):
            source, _, alias = name.strip().partition(" as ")
            found[alias or source] = (module, source)
    return found


def definitions_of(path, module):
    """The definitions of a file of specs by module and name."""
    text = path.read_text()
    imports = imports_of(text)
    found = {}
    lines = text.split("\n")
    start = 0
    while start < len(lines):
        match = DEFINITION.match(lines[start])
        if lines[start][:1] in ("", " ", "-") or lines[start].startswith(("use ", "pub mod ", "infix")) or not match:
            start += 1
            continue
        end = start + 1
        while end < len(lines) and lines[end].strip():
            end += 1
        names = imports | {name: (module, name) for name in own_names(lines)}
        found[module, match[1]] = Definition(path, start + 1, lines[start:end], names)
        start = end
    return found


def own_names(lines):
    """The names that lines of a file of specs define."""
    matches = (DEFINITION.match(line) for line in lines if line[:1] not in ("", " ", "-"))
    return {match[1] for match in matches if match}


def exports_of(crate):
    """The names that a crate hands out, and its modules that are public as a whole. Of the program: its parts
    that `main` calls."""
    if not (crate / "src/lib.rt").exists():
        return set(re.findall(r"\b[a-z]\w*::(\w+)\(", (crate / "src/main.rt").read_text())), set()
    text = (crate / "src/lib.rt").read_text()
    uses = re.findall(r"^pub use \w+::(?:\{([^}]*)\}|(\w+));", text, re.M)
    names = {name.strip() for several, one in uses for name in (several or one).split(",")}
    return names, set(re.findall(r"^pub mod (\w+);", text, re.M))


def contract_at(text, start, indent):
    """The head and the clauses of a call that begins at a place: all up to its body, or to its end in a trait."""
    lines = []
    for line in text[start:].lstrip("\n").split("\n"):
        if line == indent + "{":
            break
        lines.append(line)
        whole = "\n".join(lines)
        has_clauses = re.search(r"^ *(requires|ensures|ghost) ", whole, re.M)
        if line.endswith(";") and whole.count("{") == whole.count("}") or line.endswith(("{", "{}")) and not has_clauses:
            break
    return "\n".join(lines)


def ghosts_of(block):
    """What the ghost lines of an item say: its fields, its model and what it keeps."""
    return "\n".join(re.findall(r"^ +(?:pub )?ghost (?!use).*(?:\n(?! *(?:ghost|$)).*)*", block, re.M))


def items_of(path):
    """The items of a source that have calls or ghost lines: kind, trait, name, text."""
    text = path.read_text()
    for match in ITEM.finditer(text):
        end = re.compile(r".*;$|(?s:.*?)^}", re.M).match(text, match.end())
        yield match[1], match[2], match[3], text[match.start() : end.end()]


def calls_of(path, names, whole):
    """The public calls of a source: each name with its head and clauses."""
    for kind, trait, owner, block in items_of(path):
        if owner not in names or trait or kind in ("struct", "enum"):
            continue
        for match in CALL.finditer(block):
            if match[2] or kind == "trait":
                yield f"{owner}::{match[3]}", f"{owner} {contract_at(block, match.start(), match[1])}"
    text = path.read_text()
    for match in CALL.finditer(text):
        if not match[1] and match[2] and (whole or match[3] in names):
            yield match[3], contract_at(text, match.start(), "")


def rests_on(texts, definitions, types):
    """All definitions that texts rest on, each text with what its file imports, by module and name."""
    found = {}
    seen = set()
    waiting = list(texts)
    while waiting:
        text, imports = waiting.pop()
        code = "\n".join(line for line in text.split("\n") if not line.lstrip().startswith(("--", "//")))
        for name in set(NAME.findall(code)):
            key = imports.get(name) or imports.get(f"◌{name}◌", ("", name))
            if key in definitions and key not in found:
                found[key] = definitions[key]
                waiting.append((definitions[key].text, definitions[key].imports))
            elif key not in definitions and key[1] in types and key[1] not in seen:
                seen.add(key[1])
                waiting.extend(types[key[1]])
    return found


def definitions_of_all():
    """The definitions of all crates, by module and name."""
    found = {}
    for path in sorted(TOP.glob("crates/*/specs/**/*.antt")):
        parts = path.relative_to(TOP / "crates").with_suffix("").parts
        found |= definitions_of(path, ".".join(("Rattle", *parts)))
    return found


def calls_and_types():
    """The public calls of all libraries, and what their public types say of themselves."""
    calls, types = {}, {}
    for crate in sorted(path.parent for path in TOP.glob("crates/*/specs")):
        names, modules = exports_of(crate)
        for path in sorted((crate / "src").glob("*.rt")):
            imports = imports_of(path.read_text())
            for name, contract in calls_of(path, names, path.stem in modules):
                calls.setdefault(name, []).append((contract, imports))
            for kind, trait, owner, block in items_of(path):
                if owner in names and (kind != "impl" or trait):
                    types.setdefault(owner, []).append((ghosts_of(block), imports))
    return calls, types


def count(definitions):
    """How many definitions and lines there are."""
    return f"{len(definitions)} definitions, {sum(d.length for d in definitions.values())} lines"


def main(wanted):
    """Lists what the calls that are wanted rest on, or counts it for all."""
    definitions = definitions_of_all()
    calls, types = calls_and_types()
    if wanted == ["headline"]:
        wanted = HEADLINE
    unknown = [name for name in wanted if name not in calls]
    chosen = [name for name in wanted or calls if name in calls]
    everything = {}
    for name in chosen:
        found = rests_on(calls[name], definitions, types)
        everything |= found
        if not wanted:
            print(f"{name}: {count(found)}")
    if wanted:
        for (_, name), found in sorted(everything.items(), key=lambda item: (item[1].path, item[1].line)):
            print(f"{name} {found}")
    print(count(everything))
    steps = [f"{name}: {found}" for (_, name), found in everything.items() if "steps" in found.path.parts]
    for line in [f"among the steps: {step}" for step in steps] + [f"no public call: {name}" for name in unknown]:
        print(line)
    return 1 if steps or unknown else 0


if __name__ == "__main__":
    sys.exit(main(sys.argv[1:]))
