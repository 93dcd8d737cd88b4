"""The functions that are served, by their numbers, as the tables of definitions have them: `function_of` of INT 21h
and of each driver; and their names in reports."""
import re

import specs

# The folders of the definitions: of INT 21h, INT 67h and the extended memory driver.
DOS, EXPANDED, EXTENDED = "dm_services/specs", "dm_drivers/specs/expanded", "dm_drivers/specs/extended"


class Unread(Exception):
    """A file of definitions does not list functions by their numbers."""


def numbers(folder):
    """The numbers, rising, that the table in a folder of definitions gives a function."""
    path = f"crates/{folder}/Functions.antt"
    found = re.search(r"^function_of number =\n((?:    .*\n)+)", specs.text_of(path), re.M)
    if not found:
        raise Unread(f"{path} has no table of numbers")
    those = sorted(int(number, 16) for number in re.findall(r"\bif number == 0x(\w+) then\b", found[1]))
    if len(set(those)) < len(those):
        raise Unread(f"{path} has a number twice")
    return those


def named(folder):
    """The words by which reports name each function that is served, by its number."""
    table = specs.text_of(f"crates/{folder}/Functions.antt")
    names = specs.text_of("crates/dm_reports/specs/Names.antt")
    head = {DOS: "dos_name", EXPANDED: "expanded_name", EXTENDED: "extended_name"}[folder]
    other = {new: old for old, new in re.findall(r"\b(\w+) as (\w+)", names)}
    words = {}
    for name, text in re.findall(rf'^{head} (?:\w+\.)?(\w+) = codes " \((.*)\)"$', names, re.M):
        words[other.get(name, name)] = text
    functions = dict(re.findall(r"\bif number == 0x(\w+) then (\w+)", table))
    if set(functions.values()) != set(words):
        raise Unread(f"crates/dm_reports/specs/Names.antt has no name, or one too many, for a function of {folder}")
    return {int(number, 16): words[name] for number, name in functions.items()}


def spelled(folder):
    """The numbers as the manual has them: `06h to 0Ch, 25h`."""
    runs = []
    for number in numbers(folder):
        if runs and runs[-1][-1] == number - 1:
            runs[-1].append(number)
        else:
            runs.append([number])
    return ", ".join(
        f"{run[0]:02X}h to {run[-1]:02X}h" if len(run) > 2 else ", ".join(f"{it:02X}h" for it in run) for run in runs
    )
