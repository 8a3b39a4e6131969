"""checks/manual.py PROGRAM: the manual page and the completion of bash say the same of the commands, their options and the
statuses as the program's --help does."""
import pathlib
import re
import subprocess
import sys

TOP = pathlib.Path(__file__).resolve().parent.parent


def help_of(program):
    """What --help says: the lines of usage, and by command what it does and its options; the statuses with their texts."""
    text = subprocess.run([program, "--help"], capture_output=True, text=True, check=True).stdout
    usage = {" ".join(line.replace("Usage:", "").split()) for line in re.findall(r"^(?:Usage:|      ) .*$", text, re.M)
             if " ballastkiwi " in line and "examples/" not in line}
    commands = {}
    statuses = {}
    for part in text.split("\n\n"):
        head, *lines = part.splitlines()
        if lines and lines[-1].startswith("  example:"):
            name, about = head.split(" ", 1)
            options = dict(re.match(r"  (--\S+)  (.*)", line).groups() for line in lines[:-1])
            commands[name] = (about, options)
        elif head.startswith("Status"):
            statuses = dict(re.match(r" +(\d+) +(.*)", line).groups() for line in lines)
    return usage, commands, statuses


def plain(line):
    """A line of the page without the marks of its fonts."""
    line = re.sub(r"\\f[BIRP]", "", line)
    return line.replace("\\-", "-").replace("\\&", "")


def page_says():
    """The same of the manual page."""
    usage, commands, statuses = set(), {}, {}
    section = command = item = None
    for line in (TOP / "man/ballastkiwi.1").read_text().splitlines():
        word, _, rest = line.partition(" ")
        rest = plain(rest)
        if word == ".SH":
            section, command, item = rest, None, None
        elif word == ".SS":
            command, item = rest, None
            commands[command] = ["", {}]
        elif section == "SYNOPSIS" and word == ".B":
            usage.add(" ".join(rest.split()))
        elif word == ".TP":
            item = ""
        elif item == "" and word in (".B", ".BI"):
            item = rest.replace(" ", "")
        elif word.startswith("."):
            item = None
        elif section == "COMMANDS" and item is None:
            commands[command][0] = (commands[command][0] + " " + plain(line)).strip()
        elif section == "COMMANDS":
            options = commands[command][1]
            options[item] = (options.get(item, "") + " " + plain(line)).strip()
        elif section == "EXIT STATUS" and item is not None:
            statuses[item] = (statuses.get(item, "") + " " + plain(line)).strip()
    return usage, {name: tuple(said) for name, said in commands.items()}, statuses


def completion_says():
    """The commands with their options, as the completion has them."""
    text = (TOP / "completion/ballastkiwi.bash").read_text()
    names = re.search(r'local commands="(.*)"', text).group(1).split()
    options = {name: words.split() for name, words in re.findall(r"\[(\w+)\]=\"(.*)\"", text)}
    return names, options


def main(program):
    faults = []

    def same(what, said, wanted):
        if said != wanted:
            faults.append(f"{what}: {said!r}, and --help: {wanted!r}")

    usage, commands, statuses = help_of(program)
    page_usage, page_commands, page_statuses = page_says()
    same("the synopsis", sorted(page_usage), sorted(usage))
    same("the commands of the page", list(page_commands), list(commands))
    for name, (about, options) in commands.items():
        said_about, said_options = page_commands.get(name, ("", {}))
        same(f"what {name} does", said_about, about)
        same(f"the options of {name}", list(said_options), list(options))
        for option, text in options.items():
            same(f"{option} of {name}", said_options.get(option), text)
    same("the statuses", page_statuses, statuses)
    names, words = completion_says()
    same("the commands of the completion", names, list(commands))
    for name, (_about, options) in commands.items():
        wanted = [re.match(r"--\w+=", option).group() for option in options]
        same(f"the options of {name} in the completion", words.get(name), wanted)
    for fault in faults:
        print(f"manual.py: {fault}")
    if faults:
        sys.exit(1)
    print(f"manual.py: page and completion say what --help says of {len(commands)} commands, "
          f"{sum(len(options) for _, options in commands.values())} options and {len(statuses)} statuses")


if __name__ == "__main__":
    if len(sys.argv) != 2:
        sys.exit(__doc__)
    main(sys.argv[1])
