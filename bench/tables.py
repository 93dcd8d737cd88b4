"""The figures of bench/figures.json, and what bench/README.md says of them: its tables and sentences."""
import json
import os
import re

ROOT = os.path.dirname(os.path.dirname(os.path.abspath(__file__)))
FIGURES, PAGE = "bench/figures.json", "bench/README.md"
# The steps of each program to its end, worked out apart from the machine, and what it prints.
ENDS = {
    "CHECKSUM.COM": (9_888_801, "C3FF"),
    "CRC.COM": (40_579_704, "BD60"),
    "SIEVE.COM": (39_405_583, "8C18"),
    "SORT.COM": (8_080_221, "sorted"),
    "WORDS.COM": (26665190, "words 560 eb14"),
}
WHAT = {
    "CHECKSUM.COM": "Fletcher's checksum over 8,192 bytes, 200 times: byte reads by LODSB, ADD and ADC of bytes, LOOP",
    "CRC.COM": "CRC-16 over 4,096 bytes, bit by bit, 300 times: shifts and XOR of words, short jumps, LOOP",
    "SIEVE.COM": "sieve of Eratosthenes over 8,191 odd numbers, 250 times: bytes by index, sums of words, short jumps",
    "SORT.COM": "insertion sort of 512 words, 20 times: words by base and index, compares, jumps, calls, the stack",
    "WORDS.COM": "C by `bcc`: counts and sorts words of 15 texts: strings, `malloc`, lists, recursion, `printf`",
}
PROGRAMS = (*ENDS,)
HAND_WRITTEN = PROGRAMS[:4]
# Mnemonics that are no step: a run stops before HLT.
UNMEASURED = ("HLT",)
CORES = {"dm": "`dm`", "normal": "DOSBox, normal core", "dynamic": "DOSBox, dynamic core"}
OTHERS = {
    "first run": ("a step of straight code, which is performed for the first time", "`dm run`", "{:,.0f}"),
    "first check": ("the same", "`dm check`", "{:,.0f}"),
    "changing run": (
        "a step of a loop of five instructions, of which one changes another in each turn",
        "`dm run`",
        "{:,.0f}",
    ),
    "changing check": ("the same", "`dm check`", "{:,.0f}"),
    "reaching run": (
        (
            "a step of a loop of eleven instructions, six of which touch data and stack, in a block of 2 KiB: free"
            " memory is in reach of DS and SS"
        ),
        "`dm run`",
        "{:,.0f}",
    ),
    "reaching check": ("the same", "`dm check`, which compares marks for each of the six", "{:,.0f}"),
    "dividing run": (
        "a step of a loop of six instructions, one of which divides by a word in memory",
        "`dm run`",
        "{:,.0f}",
    ),
    "dividing check": ("the same", "`dm check`, where nothing that interrupt 0 would touch is marked", "{:,.0f}"),
    "repeating run": ("a step of a loop that moves 64 bytes by REP MOVSB, 64 of its 68 steps", "`dm run`", "{:,.0f}"),
    "repeating check": ("the same", "`dm check`, where nothing at DS, SS and ES is marked", "{:,.0f}"),
    "ahead run": ("the same loop in a block of 2 KiB: free memory is in reach of DS and ES", "`dm run`", "{:,.0f}"),
    "ahead check": ("the same", "`dm check`, which compares the marks of the paragraphs ahead", "{:,.0f}"),
    "late run": (
        "a step of a loop of nine instructions in segments that are loaded after the last call of a service",
        "`dm run`",
        "{:,.0f}",
    ),
    "late check": ("the same", "`dm check`, which looks at these segments after some 4,000 steps", "{:,.0f}"),
    "alternating run": (
        "a step of two routines at one offset of two segments, seven instructions each, called in turn",
        "`dm run`, where each segment has a decode cache",
        "{:,.0f}",
    ),
    "alternating check": ("the same", "`dm check`", "{:,.0f}"),
    "writing check": ("function 02h of INT 21h (a byte written), with its INT", "`dm check`", "{:,.0f}"),
    "arranging check": (
        "functions 48h and 49h of INT 21h with ten headers, both with their INTs",
        "`dm check`, which makes its marks anew, in some 240,000 bytes",
        "{:,.0f}",
    ),
    "memory": ("memory at the start", "a machine of 512 pages and 15,360 KiB against one of none", "{:.1f} a byte"),
    "pages": (
        "a page that is allocated and freed",
        "`pages.asm`: 43h and 45h of INT 67h with one page, while 510 others are allocated, zeros included",
        "{:,.0f} for both",
    ),
    "moves": (
        "a move between conventional memory and pages",
        "`moves.asm`: function 57h with 64 KiB from conventional memory to pages, and back",
        "{:.1f} a byte",
    ),
    "blocks": (
        "a move in extended memory",
        "`blocks.asm`: 0Bh with 256 KiB in each turn: between two blocks, within one, and from conventional memory",
        "{:.2f} a byte",
    ),
    "served": (
        "a list of 57,088 blocks, an allocation",
        "`chains.asm`: function 48h of INT 21h takes the last block",
        "{:,.0f} a header",
    ),
    "refused": (
        "the same list under aliased windows, an allocation that fails",
        "`chains.asm`: function 48h returns error 7",
        "{:,.0f} a header",
    ),
    "labels": ("65,000 lines `INC AX`, each with a label", "`dm asm`", "{:,.0f} million; NASM 2,452 million"),
    "words": ("13,000 lines `MOV WORD [BX+5],5`", "`dm asm`", "{:,.0f} million; NASM 1,312 million"),
    "uses": ("30,000 labels, each used by a DW", "`dm asm`", "{:,.0f} million"),
    "bytes": ("65,278 bytes, of which byte k is k modulo 256", "`dm disasm`", "{:,.0f} million"),
}
# What the page says, with the figures that `said` gives.
SENTENCES = (
    (
        "four programs in assembly make {dm_low} to {dm_high} million steps a second of processor time in `dm`,"
        " {normal_low} to {normal_high} in DOSBox 0.74-3 with its normal core, and {dynamic_low} to {dynamic_high} with"
        " its dynamic one; C compiled by `bcc` makes {dm_c}, {normal_c} and {dynamic_c}."
    ),
    (
        "A step of the four costs {run_low} to {run_high} host instructions, of the C {run_c}, of single instructions"
        " {least} ({least_what}) to {most} ({most_what}), and of all five under `dm check` {check_low} to {check_high}."
    ),
    "The seconds were taken on {day}, on a processor that calls itself {processor}.",
)
FIGURE = re.compile(r"\\\{(\w+)\\\}")


def text_of(path):
    with open(f"{ROOT}/{path}", encoding="utf-8") as file:
        return file.read()


def mnemonics():
    """The names of all mnemonics, from the crate that prints them."""
    return re.findall(r'Mnemonic::\w+ => b"([A-Z0-9 ]+)"', text_of("crates/dm_decode/src/names.rt"))


def figures():
    try:
        return json.loads(text_of(FIGURES))
    except FileNotFoundError:
        return {}


def keep(parts):
    """Writes these parts of the figures; the others stay."""
    text = json.dumps({**figures(), **parts}, indent=1) + "\n"
    with open(f"{ROOT}/{FIGURES}", "w", encoding="utf-8") as file:
        file.write(text)


# ---- tables


def whole(figure):
    return f"{figure:,.0f}"


def single(found):
    """The figures of single instructions: mnemonic, operands, figure."""
    return [(*name.split("|"), figure) for name, figure in found["instructions"].items() if "|" in name]


def asked(found, part):
    return {name: figure for name, figure in found[part].items() if name != "date"}


def programs_table(found):
    yield (
        "| Program | What it does | Steps to its end | Output | A step | with sixteen breakpoints | under `dm check`,"
        " with ten headers |"
    )
    yield "|---|---|---|---|---|---|---|"
    known = found["programs"]
    for name in PROGRAMS:
        figures_of = " | ".join(whole(known[f"{name} {what}"]) for what in ("run", "breakpoints", "check"))
        yield f"| `{name}` | {WHAT[name]} | {known[f'{name} steps']:,.0f} | `{ENDS[name][1]}` | {figures_of} |"


def instructions_table(found):
    yield "| Mnemonic | Host instructions a step | Most expensive |"
    yield "|---|---|---|"
    kinds = {}
    for mnemonic, kind, figure in single(found):
        kinds.setdefault(mnemonic, []).append((figure, kind))
    for mnemonic, those in sorted(kinds.items()):
        (least, _), (most, kind) = min(those), max(those)
        spread = whole(most) if whole(least) == whole(most) else f"{whole(least)} to {whole(most)}"
        yield (
            f"| `{mnemonic}` | {spread} |"
            f" {f'`{kind}`' if kind and len(those) > 1 and whole(least) != whole(most) else ''} |"
        )


KINDS = (
    ("a byte register", r"(?:AL|CL|DL)(?:,.*)?"),
    ("a word register", r"(?:AX|CX|DX|SI)(?:,.*)?"),
    ("a segment register", r"(?:CS|DS|ES|SS)(?:,.*)?"),
    ("a byte in memory", r"BYTE \[.*|\[.*\],(?:AL|DL)"),
    ("a word in memory", r"WORD \[.*|(?:ES:)?\[.*\],(?:AX|DX|CS|SS)"),
    ("a jump or call, near", r"(?:NEAR.*|taken|not taken|AX)"),
    ("a string, single", r"(?:up|down)wards"),
    ("a string, repeated", r"(?:up|down)wards, REP\w*"),
)
JUMPS = ("J", "CALL", "LOOP")


def kinds_table(found):
    yield "| Destination | Least | Most | Most expensive |"
    yield "|---|---|---|---|"
    taken = single(found)
    for what, pattern in KINDS:
        is_jump = what.startswith("a jump")
        those = [
            (figure, f"{name} {kind}")
            for name, kind, figure in taken
            if re.fullmatch(pattern, kind) and name.startswith(JUMPS) == is_jump
        ]
        if those:
            yield f"| {what} | {whole(min(those)[0])} | {whole(max(those)[0])} | `{max(those)[1]}` |"


def worst_table(found):
    yield "| Most expensive | Host instructions a step |"
    yield "|---|---|"
    for name, kind, figure in sorted(single(found), key=lambda it: -it[2])[:12]:
        yield f"| `{name}{' ' if kind else ''}{kind}` | {whole(figure)} |"


def elsewhere_table(found):
    yield "| What | Host instructions |"
    yield "|---|---|"
    for name, figure in asked(found, "elsewhere").items():
        yield f"| {name} | {whole(figure)} |"


def others_table(found):
    yield "| What | How it is measured | Host instructions |"
    yield "|---|---|---|"
    for key, (what, how, shown) in OTHERS.items():
        yield f"| {what} | {how} | {shown.format(found['others'][key])} |"


def seconds_table(found):
    yield f"| Program | Steps, millions | {' | '.join(CORES.values())} |"
    yield f"|---|---|{'---|' * len(CORES)}"
    for name in PROGRAMS:
        seconds = found["seconds"][name]
        yield f"| `{name}` | {seconds['steps'] / 1e6:,.0f} | {' | '.join(f'{seconds[core]:.2f}' for core in CORES)} |"


TABLES = {
    "programs": ("programs", programs_table),
    "instructions": ("instructions", instructions_table),
    "kinds": ("instructions", kinds_table),
    "worst": ("instructions", worst_table),
    "elsewhere": ("elsewhere", elsewhere_table),
    "others": ("others", others_table),
    "seconds": ("seconds", seconds_table),
}


# ---- sentences


def said(found):
    """The figures of the sentences."""
    taken = single(found)
    least, most = min(taken, key=lambda it: it[2]), max(taken, key=lambda it: it[2])
    known, seconds = found["programs"], found["seconds"]
    steps = {core: {name: seconds[name]["steps"] / 1e6 / seconds[name][core] for name in PROGRAMS} for core in CORES}
    made = {
        "least": whole(least[2]),
        "most": whole(most[2]),
        "least_what": f"`{' '.join(least[:2]).strip()}`",
        "most_what": f"`{' '.join(most[:2]).strip()}`",
        "run_c": whole(known["WORDS.COM run"]),
        "day": f"`{seconds['date']}`",
        "processor": f"`{seconds['processor']}`",
    }
    for what, names in (("run", HAND_WRITTEN), ("check", PROGRAMS)):
        those = [known[f"{name} {what}"] for name in names]
        made[f"{what}_low"], made[f"{what}_high"] = whole(min(those)), whole(max(those))
    for core in CORES:
        those = [steps[core][name] for name in HAND_WRITTEN]
        made[f"{core}_low"], made[f"{core}_high"], made[f"{core}_c"] = (
            whole(min(those)),
            whole(max(those)),
            whole(steps[core]["WORDS.COM"]),
        )
    return made


def with_tables(text, found):
    """A page with its tables anew, and the faults."""
    faults = []
    for name, (part, table) in TABLES.items():
        begin, end = f"<!-- table: {name} -->\n", "<!-- end of the table -->"
        if text.count(begin) != 1 or end not in text.split(begin)[-1]:
            faults.append(f"{PAGE}: no place for the table {name}")
        elif part in found:
            head, rest = text.split(begin)
            text = head + begin + "".join(f"{line}\n" for line in table(found)) + rest[rest.index(end) :]
    return text, faults


def with_sentences(text, found):
    """The page with its sentences anew. (A sentence may go over lines; then its lines stay as they are, but for the
    figures.)"""
    faults, made = [], said(found)
    for sentence in SENTENCES:
        pattern = re.escape(sentence).replace(r"\ ", r"\s+")
        names = FIGURE.findall(pattern)
        matches = list(re.finditer(FIGURE.sub(r"(`[^`\\n]+`|[\\d.,]+)", pattern), text))
        if len(matches) != 1:
            faults.append(f"{PAGE}: not once: {sentence}")
            continue
        for at, name in reversed([*enumerate(names, 1)]):
            text = text[: matches[0].start(at)] + made[name] + text[matches[0].end(at) :]
    return text, faults


def page(found):
    """The page as it should be, and what is wrong with it."""
    text, faults = with_tables(text_of(PAGE), found)
    if all(part in found for part in ("programs", "instructions", "seconds")):
        text, more = with_sentences(text, found)
        faults += more
    return text, faults
