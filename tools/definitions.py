"""The page of definitions: those that public contracts rest on, from the sources, each with what names it and what
tries it. `tools/book` writes it."""
import believed
import specs

HEAD = """# Definitions

The definitions that the contracts of public functions rest on. A contract means what they mean, so they are what a
reader compares with the public manuals. `tools/book` makes this page from the sources, and beside it `book.html`, which
has the definitions themselves, each name linked.

- **Meaning**: the comment above the definition.
- **Contracts**: the public functions whose contracts name it; after *through*, definitions that name it.
- **Rows**: the rows and tests that test it.

The head of each file names its public source; where it names none, the definition is this machine's own.
`docs/DECISIONS.md` says how what the sources leave open is settled.

## How much there is

Lines are those of definitions, without comments. Not counted: the types of `src/` that definitions speak of (registers,
mnemonics, errors: {types:,} lines in all), the kit's own definitions of lists, numbers and command lines, what the
fields of a type have to do with the value that contracts see of it, and the clauses of the contracts themselves
({clauses:,}, of {functions:,} public functions).
"""


class Page:
    def __init__(self, known):
        self.specs = known
        self.reached = self.specs.reached(self.specs.promised())
        self.naming, self.users, self.rows = self.specs.naming(), self.specs.users(), self.specs.rows()

    def size(self, found, crate=None):
        kept = [it for it in found.values() if it.kind != "type" and crate in (None, it.crate)]
        return f"{len(kept):,} | {sum(it.size() for it in kept):,}"

    def counts(self):
        yield "| Contracts of | Definitions | Lines |"
        yield "|---|---|---|"
        yield f"| all public functions | {self.size(self.reached)} |"
        of_machine = self.specs.reached(self.specs.promised("dm_machine"))
        yield f"| the machine and its laws (`dm_machine`) | {self.size(of_machine)} |"
        of_main = [key for it in self.specs.public("dm_cli") if it.name == "dm_main" for key in it.refs]
        yield f"| `dm_main` | {self.size(self.specs.reached(of_main))} |"
        yield f"| the library | {self.size(self.specs.reached(self.specs.promised('dm_c')))} |"
        yield ""
        yield "Of the definitions that all public functions reach, by crate:"
        yield ""
        yield "| Crate | Definitions | Lines |"
        yield "|---|---|---|"
        for crate in self.specs.groups:
            if any(it.crate == crate and it.kind != "type" for it in self.reached.values()):
                yield f"| `{crate}` | {self.size(self.reached, crate)} |"

    def line_of(self, it):
        named = [f"`{it.name}`" for it in self.naming.get(it.key, [])]
        through = [f"`{it.name}`" for it in self.users.get(it.key, []) if it.kind != "type"]
        contracts = specs.some_of(named, 6) if named else f"through {specs.some_of(through, 3)}" if through else ""
        rows = [f"`{name}`" if "::" in name else name for name in self.rows.get(it.key, [])]
        return (
            f"| `{it.name}` | {' '.join(it.meaning()).replace('|', chr(92) + '|')} | {contracts} |"
            f" {specs.some_of(rows, 8)} |"
        )

    def lines(self):
        public = self.specs.public()
        yield HEAD.format(
            types=believed.type_lines(self.reached.values()),
            clauses=sum(len(it.clauses) for it in public),
            functions=len(public),
        )
        yield from self.counts()
        for crate in self.specs.groups:
            files = {}
            for it in self.reached.values():
                if it.crate == crate and it.kind != "type":
                    files.setdefault(it.path, []).append(it)
            if not files:
                continue
            yield f"\n## {crate}\n\n{' '.join(self.specs.abouts[crate])}"
            for path in sorted(files):
                yield f"\n### `{path}`\n\n{' '.join(self.specs.heads[path])}\n"
                yield "| Definition | Meaning | Contracts | Rows |"
                yield "|---|---|---|---|"
                yield from (self.line_of(it) for it in sorted(files[path], key=lambda it: it.line))

    def text(self):
        return "\n".join(self.lines()) + "\n"

    def faults(self):
        """The definitions that public contracts reach but only proofs may name, and those that rows name but do not
        exist."""
        for it in self.reached.values():
            if it.is_inner:
                yield f"{it.path}:{it.line}: a public contract reaches `{it.name}`, which stands in inner/"
        for key, rows in self.rows.items():
            if key not in self.specs.definitions:
                yield f"{rows[0]}: no definition {key}"
