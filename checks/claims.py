#!/usr/bin/env python3
"""Whether docs/CLAIMS.md leads where it says: claims.py [--write]

Each link to a file of crates/ has to lead to it; one whose text is a name in backquotes has to lead to the line where that
name is defined, and names in parentheses behind a function have to be clauses of its contract. Each must-fail edit has to
be named, and a definition that is printed has to be the one that stands in its file. With --write the numbers of lines and
the printed definitions are written anew; what is gone fails."""
import pathlib
import re
import sys

top = pathlib.Path(__file__).resolve().parent.parent
page = top / "docs" / "CLAIMS.md"

LINK = re.compile(r"\[`([^`]+)`\]\(\.\./(crates/[^)#]+)(?:#L(\d+))?\)(?: \((`\w+`(?:, `\w+`)*)\))?")
PRINTED = re.compile(r"<!-- printed: (\S+) (\w+) -->\n```\n(.*?)```\n<!-- end -->", re.S)


def defined(name, ending):
    """What begins the line that defines a name, by the kind of its file."""
    if ending == ".rt":
        return re.compile(rf"\s*(?:pub(?:\(crate\))? )?(?:const )?(?:fn|struct|enum|trait) {re.escape(name)}\b")
    return re.compile(rf"\s*(?:abbrev pub|unfoldable pub|pub record|pub data|abbrev|record)\s+{re.escape(name)}(?=[\s:({{])")


def line_of(name, file):
    """The line of a file, from 1 on, that defines a name, or its first line where the file itself has the name."""
    head = defined(name.split("::")[-1], file.suffix)
    lines = file.read_text(encoding="utf-8").split("\n")
    first = 1 if file.stem == name else None
    return next((at for at, line in enumerate(lines, 1) if head.match(line)), first)


def clauses_of(file, at):
    """The names of the clauses of the function that begins at this line."""
    names = []
    for line in file.read_text(encoding="utf-8").split("\n")[at:]:
        if found := re.match(r"\s*ensures (\w+) \{", line):
            names.append(found.group(1))
        elif re.match(r"\s*\{", line) or re.match(r"\s*(pub )?fn ", line):
            break
    return names


def definition(file, name):
    """The lines of a definition with the remarks within it: up to the next line at its own depth."""
    lines = file.read_text(encoding="utf-8").split("\n")
    begin = line_of(name, file) - 1
    end = next((at for at in range(begin + 1, len(lines)) if re.match(r"\S", lines[at])), len(lines))
    return "\n".join(lines[begin:end]).rstrip() + "\n"


def main(words):
    text = page.read_text(encoding="utf-8")
    faults, edits = [], set()

    def link(found):
        name, path, number, clauses = found.groups()
        file = top / path
        if not file.is_file():
            faults.append(f"{path} is no file")
            return found.group(0)
        if file.suffix == ".edit":
            edits.add(path)
            return found.group(0)
        at = line_of(name, file)
        if at is None:
            faults.append(f"{path} does not define {name}")
            return found.group(0)
        for clause in re.findall(r"\w+", clauses or ""):
            if clause not in clauses_of(file, at):
                faults.append(f"{name} of {path} has no clause {clause}")
        if str(at) != number and words != ["--write"]:
            faults.append(f"{name} stands at line {at} of {path}, and not {number}")
        return f"[`{name}`](../{path}#L{at})" + (f" ({clauses})" if clauses else "")

    def printed(found):
        path, name, old = found.groups()
        new = definition(top / "crates" / path, name)
        if new != old and words != ["--write"]:
            faults.append(f"{name} reads otherwise in {path}")
        return f"<!-- printed: {path} {name} -->\n```\n{new}```\n<!-- end -->"

    count = len(LINK.findall(text))
    text = PRINTED.sub(printed, LINK.sub(link, text))
    for edit in sorted(top.glob("crates/*/must-fail/*.edit")):
        if str(edit.relative_to(top)) not in edits:
            faults.append(f"{edit.relative_to(top)} is named nowhere")
    if words == ["--write"]:
        page.write_text(text, encoding="utf-8")
    if faults:
        sys.exit("\n".join(f"claims.py: {fault}" for fault in faults))
    print(f"claims.py: {count} links of docs/CLAIMS.md lead where they say, and name {len(edits)} edits")


if __name__ == "__main__":
    if sys.argv[1:] not in ([], ["--write"]):
        sys.exit(__doc__)
    main(sys.argv[1:])
