"""Changes of functions in LLVM's text, as the kit's unproved build writes it: each in one place that has a meaning.
`tools/definition_mutants` uses this.

What has no meaning is not changed: checks of the unproved build, flags of what is still to be dropped, sizes and
places in memory, and what nothing uses.
"""
import collections
import random
import re

PREDICATES = {"eq": "ne", "ult": "ule", "ugt": "uge", "slt": "sle", "sgt": "sge"}
PREDICATES.update({other: one for one, other in PREDICATES.items()})
OPERATIONS = {
    "add": "sub",
    "sub": "add",
    "and": "or",
    "or": "and",
    "shl": "lshr",
    "lshr": "shl",
    "udiv": "urem",
    "urem": "udiv",
    "xor": "or",
    "mul": "add",
}
# What only the unproved build has.
CHECKS = re.compile(r'  call void @("rattle-llvm-checks::|llvm\.trap\(\)|llvm\.memset\.p0\.i64\(.*i8 -86,)')
NAME, NUMBER = re.compile(r"%[\w.]+"), r"-?\d+"
VARIABLE, LOAD = re.compile(r"  (%[\w.]+) = alloca i\d+"), re.compile(r"  %[\w.]+ = load")
STORE, VALUE = re.compile(r"  store .*, ptr (%[\w.]+),"), re.compile(r"  (%[\w.]+) = (\w+)")
ONLY_READ_OR_WRITTEN = re.compile(r"  (%[\w.]+ = load [^,]*, ptr|store [^,]*, ptr|%[\w.]+ = alloca)")
COMPARISON = re.compile(rf"  %\S+ = icmp (\w+) i(\d+) (\S+), (\S+)$")
OPERATION = re.compile(r"  %\S+ = (add|sub|and|or|shl|lshr|udiv|urem|xor|mul)( nuw| nsw)* i(\d+) (\S+), (\S+)$")
ARGUMENT = re.compile(rf"\bi(8|16|32)((?: noundef| zeroext| signext)*) ({NUMBER})(?=[,)])")
LAST_NUMBER = re.compile(rf"(.*?\bi(\d+) )(?:(\S+), )?({NUMBER})((?:, ptr.*)?)$")
# A comparison of such a number with 0 is one of flags or of an address.
OF_FLAGS = re.compile(r"icmp (eq|ne) i64 %r\d+, 0$")


def functions(lines):
    """The names and lines of the functions of a module."""
    body = None
    for line in lines:
        if line.startswith("define"):
            body = [line]
        elif body is not None:
            body.append(line)
            if line == "}":
                found = re.search(r'@"([^"]*)"', body[0])
                if found:
                    yield found[1], body
                body = None


def unused(lines):
    """The places of the lines whose values nothing uses, and of branches to a trap."""
    left, values, live, stores = set(), {}, [], collections.defaultdict(list)
    variables = {found[1] for found in map(VARIABLE.match, lines) if found}
    for line in lines:
        if not ONLY_READ_OR_WRITTEN.match(line):
            variables -= set(NAME.findall(line))
        variables -= set(re.findall(r"^  store \S+ (%[\w.]+), ptr", line))
    for place, line in enumerate(lines):
        value, store = VALUE.match(line), STORE.match(line)
        if store and store[1] in variables:
            stores[store[1]].append(place)
        elif "label %trap" in line:
            left.add(place)
        elif value and value[2] not in ("call", "invoke"):
            values[value[1]] = place
        else:
            live.append(place)
    seen = set(live)
    while live:
        line = lines[live.pop()]
        for name in NAME.findall(line):
            for place in ([values[name]] if name in values else []) + (
                stores.get(name, []) if LOAD.match(line) else []
            ):
                if place not in seen:
                    seen.add(place)
                    live.append(place)
    return left | {
        place for place in (*values.values(), *(it for found in stores.values() for it in found)) if place not in seen
    }


def flags(lines):
    """The places of the lines about flags of what is to be dropped, and about the alignment of addresses."""
    left, masked, tested = set(), set(), set()
    for place, line in enumerate(lines):
        if found := re.match(rf"  (%\S+) = (and|or) i64 (%\S+), {NUMBER}$", line):
            masked.add(found[1])
            left.add(place)
        if (found := re.match(r"  (%\S+) = icmp (eq|ne) i64 (%\S+), 0$", line)) and found[3] in masked:
            tested.add(found[1])
            left.add(place)
        if (found := re.match(r"  br i1 (%\S+),", line)) and found[1] in tested:
            left.add(place)
    return left


def sites(lines):
    """Where a function may be changed, and how: the place of the line, the kind of change, and of a match its number
    of cases."""
    left, found = unused(lines) | flags(lines), []
    for place, line in enumerate(lines):
        if place in left or OF_FLAGS.search(line):
            continue
        for kind, form in (("comparison", COMPARISON), ("operation", OPERATION)):
            if match := form.match(line):
                found.append((place, kind, None))
                if re.fullmatch(NUMBER, match[match.lastindex]):
                    found.append((place, "number", None))
        if re.match(rf"  store i(8|16|32) {NUMBER}, ptr", line):
            found.append((place, "number", None))
        if re.match(r"  br i1 %\S+, label %\S+, label %\S+$", line):
            found.append((place, "branch", None))
        if re.match(rf"  ret i(\d+) {NUMBER}$", line):
            found.append((place, "number", None))
        if re.match(r'  (%\S+ = )?call .*@"dm_', line) and re.search(
            rf"\bi(8|16|32)( noundef| zeroext| signext)* {NUMBER}[,)]", line
        ):
            found.append((place, "argument", None))
        if line.startswith("  switch "):
            cases = next(count for count, it in enumerate(lines[place + 1 :]) if it.startswith("  ]"))
            found += [(place, "cases", cases)] * (cases >= 2)
    return found


def near(number, width, draw):
    """Another number beside this one; of a bit or a small byte, as a flag is one, the other one."""
    if width == 1 or width == 8 and number in (0, 1):
        return 1 - number
    return number + draw.choice((1, -1)) if number else 1


def changed(lines, site, draw):
    """The function with this change, or None if it changes nothing."""
    place, kind, cases = site
    line, new = lines[place], list(lines)
    if kind == "comparison":
        new[place] = re.sub(r"icmp (\w+)", lambda found: f"icmp {PREDICATES[found[1]]}", line)
    elif kind == "operation":
        new[place] = re.sub(r"= (\w+)( nuw| nsw)*", lambda found: f"= {OPERATIONS[found[1]]}", line, count=1)
    elif kind == "branch":
        new[place] = re.sub(r"label (%\S+), label (%\S+)$", r"label \2, label \1", line)
    elif kind == "cases":
        one = draw.randrange(cases)
        first, second = place + 1 + one, place + 1 + (one + 1) % cases
        (head, label), (other_head, other) = new[first].rsplit(" ", 1), new[second].rsplit(" ", 1)
        new[first], new[second] = f"{head} {other}", f"{other_head} {label}"
    elif kind == "argument":
        found = draw.choice(list(ARGUMENT.finditer(line)))
        new[place] = line[: found.start(3)] + str(near(int(found[3]), int(found[1]), draw)) + line[found.end(3) :]
    else:
        found = LAST_NUMBER.match(line)
        if found is None:
            return None
        number = near(int(found[4]), int(found[2]), draw)
        new[place] = f"{found[1]}{f'{found[3]}, ' if found[3] else ''}{number}{found[5]}"
    return None if new == lines else new


def sample(crate, bodies, count, seed):
    """At most so many changes of the functions of a crate, at most one of each function: its name, the kind, the
    lines that differ, and all lines."""
    draw, chosen, seen = random.Random(f"{seed} {crate}"), [], set()
    places = [(name, lines, site) for name, lines in bodies for site in sites(lines)]
    draw.shuffle(places)
    for name, lines, site in places:
        if len(chosen) == count:
            break
        new = None if name in seen else changed(lines, site, draw)
        if new is not None:
            seen.add(name)
            differing = [(one.strip(), other.strip()) for one, other in zip(lines, new) if one != other]
            chosen.append({"crate": crate, "function": name, "kind": site[1], "changes": differing, "lines": new})
    return chosen
