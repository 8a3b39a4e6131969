"""What the scripts of this folder do with their words."""
import sys


def told(text, words, is_asked):
    """The words, where they ask for something. Else the script ends with its text: with status 0 where it is asked for by
    --help, and with status 2 where nothing else is asked."""
    if words == ["--help"]:
        print(text)
        sys.exit(0)
    if not is_asked:
        print(text, file=sys.stderr)
        sys.exit(2)
    return words


def options(words, kinds):
    """The options --NAME=VALUE before the other words, each with what its kind makes of the value; or None where an option
    is not known, is there twice, or has another value. A kind gives None for a value that it does not take."""
    found, others = {}, list(words)
    while others and others[0].startswith("--"):
        name, _, value = others.pop(0)[2:].partition("=")
        made = kinds[name](value) if name in kinds and name not in found else None
        if made is None:
            return None, others
        found[name] = made
    return found, others


def number(low, high):
    """The kind of a whole number from `low` to `high`."""
    return lambda value: int(value) if value.isascii() and value.isdecimal() and low <= int(value) <= high else None


def seconds(value):
    """The kind of a number of seconds, with a point or without."""
    whole, _, part = value.partition(".")
    is_one = whole.isascii() and whole.isdecimal() and (part.isdecimal() or not part)
    return float(value) if is_one else None


def name(value):
    """The kind of a name."""
    return value or None
