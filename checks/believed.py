#!/usr/bin/env python3
"""Which definitions a reader of the top contracts has to believe: believed.py [--write]

For each call below, follows the names that its clauses cite through the definitions of crates/*/specs, down to the last.
docs/CLAIMS.md has the answers as tables, each behind a line `<!-- believed: CALL -->`; one that differs fails, and with --write
is written anew."""
import pathlib
import re
import sys

top = pathlib.Path(__file__).resolve().parent.parent

# The calls: where each is defined, and the calls whose table a reader has already read.
CALLS = {
    "run": ("bridge_cli", "run.rt", []),
    "live": ("bridge_cli", "live.rt", ["run"]),
    "headline": ("history_laws", "laws.rt", []),
}

DEFINITION = re.compile(r"\s*(?:abbrev pub|unfoldable pub|pub record|pub data|abbrev|record)\s+([^\s:({]+)")
NAME = re.compile(r"[A-Za-z_][A-Za-z0-9_']*")
USE = re.compile(r"^\s*(?:ghost )?use Rattle\.(\w+)\.specs\.(\w+)\.\{([^}]*)\}", re.M)


def imports_of(text):
    """The names that a file takes from definitions: name -> (crate, module, name there)."""
    found = {}
    for crate, module, names in USE.findall(text):
        for item in names.split(","):
            there, _, here = item.strip().partition(" as ")
            found[here.strip() or there] = (crate, module, there)
    return found


def definitions_of(lines):
    """The definitions of a module, each with its lines: up to the next one that stands no further to the right."""
    found = {}
    for at, line in enumerate(lines):
        if head := DEFINITION.match(line):
            depth = len(line) - len(line.lstrip())
            end = at + 1
            while end < len(lines):
                next_line = lines[end]
                if re.match(r"\s*module _", next_line):
                    break
                if DEFINITION.match(next_line) and len(next_line) - len(next_line.lstrip()) <= depth:
                    break
                end += 1
            found[head.group(1)] = [it for it in lines[at:end] if it.strip() and not it.strip().startswith("--")]
    return found


def modules():
    """The modules of definitions: (crate, module) -> (its imports, its definitions)."""
    found = {}
    for path in sorted(top.glob("crates/*/specs/*.antt")):
        text = path.read_text(encoding="utf-8")
        found[path.parts[-3], path.stem] = (imports_of(text), definitions_of(text.split("\n")))
    return found


def closure(known, roots):
    """The definitions that these cite, with those that they cite, and so on."""
    seen, left = set(), list(roots)
    while left:
        crate, module, name = left.pop()
        imports, definitions = known.get((crate, module), ({}, {}))
        if (crate, module, name) in seen or name not in definitions:
            continue
        seen.add((crate, module, name))
        for word in set(NAME.findall("\n".join(definitions[name]))):
            if word in definitions:
                left.append((crate, module, word))
            elif word in imports:
                left.append(imports[word])
    return seen


def clauses_of(text, call):
    """What stands between the signature of a public function and its body."""
    begin = re.search(rf"^\s*pub fn {call}\b", text, re.M).start()
    end = re.compile(r"^\s*\{", re.M).search(text, begin).start()
    head = text[begin:end]
    return head[head.index("ensures") :] if "ensures" in head else ""


def roots_of(call):
    """The definitions that the clauses of a call cite."""
    crate, file, _ = CALLS[call]
    text = (top / "crates" / crate / "src" / file).read_text(encoding="utf-8")
    imports = imports_of(text)
    return [imports[word] for word in set(NAME.findall(clauses_of(text, call))) if word in imports]


def listed(names):
    return ", ".join(f"`{name}`" for name in names)


def cell(known, crate, module, names, is_begun):
    """How a table names the definitions of a module, of which a table before may have named others."""
    every = list(known[crate, module][1])
    left = [name for name in every if name not in names]
    if not left:
        return f"`{module}`"
    if not is_begun and (len(left) <= 4 or 2 * len(left) < len(every)):
        return f"`{module}` (all but {listed(left)})"
    return f"of `{module}` {listed([name for name in every if name in names])}"


def table(known, call):
    """The table of a call, and how much there is to read."""
    read = set().union(*[closure(known, roots_of(it)) for it in CALLS[call][2]])
    asked = closure(known, roots_of(call))
    begun = {(crate, module) for crate, module, _ in read}
    rows = {}
    for crate, module, name in asked - read:
        rows.setdefault(crate, {}).setdefault(module, set()).add(name)
    files = {(crate, module) for crate, module, _ in asked}
    lines = sum(len(known[crate, module][1][name]) for crate, module, name in asked)
    text = [
        f"{len(asked)} definitions, {lines} lines in {len(files)} files{'; those that are not above' * bool(read)}:",
        "",
        "| Where | Definitions |",
        "|---|---|",
    ]
    for crate in filter(rows.get, order()):
        cells = [cell(known, crate, module, names, (crate, module) in begun) for module, names in sorted(rows[crate].items())]
        text.append(f"| `{crate}/specs` | {'; '.join(cells)} |")
    return text


def order():
    """The crates, from the program down."""
    names = [line.split(":")[0].split()[0] for line in (top / "crates.txt").read_text().splitlines() if ":" in line and line[0] != "#"]
    return names[::-1]


def main(words):
    page = top / "docs" / "CLAIMS.md"
    before = page.read_text(encoding="utf-8").split("\n")
    known = modules()
    after, at, found = [], 0, []
    while at < len(before):
        after.append(before[at])
        mark = re.match(r"<!-- believed: (\w+) -->", before[at])
        at += 1
        if mark:
            found.append(mark.group(1))
            while at < len(before) and before[at] != "<!-- end -->":
                at += 1
            after += table(known, mark.group(1))
    if found != list(CALLS):
        sys.exit(f"believed.py: docs/CLAIMS.md has tables of {found}, and not of {list(CALLS)}")
    if words == ["--write"]:
        page.write_text("\n".join(after), encoding="utf-8")
    elif after != before:
        wrong = next(new for old, new in zip(before + [""], after) if old != new)
        sys.exit(f"believed.py: docs/CLAIMS.md differs, first where it should read: {wrong}")
    print(f"believed.py: {len(found)} tables stand in docs/CLAIMS.md as computed")


if __name__ == "__main__":
    if sys.argv[1:] not in ([], ["--write"]):
        sys.exit(__doc__)
    main(sys.argv[1:])
