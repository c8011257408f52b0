#!/usr/bin/env python3
"""Makes docs/CALLS.md, a line for each public call of the libraries: how it ends, how it is refused, what stands after that.

    python3 tools/promises.py            writes docs/CALLS.md
    python3 tools/promises.py --check    compares it with the sources, and ends with 1 where they differ

Signatures and names of clauses are read from the sources. A refusal's clause, and the clause that says what stands after it,
can't be: a clause is a statement, and which refusal it is about only its reader tells. They are kept by hand in
tools/promises.txt, a line for each call that has one:

    CRATE CALL | REFUSAL, REFUSAL: CLAUSE CLAUSE; REFUSAL: CLAUSE | CLAUSE CLAUSE

A REFUSAL is a variant of the call's error, `None`, `error` for an outcome that holds one, or `status` for a number that is one. A CLAUSE is the name of a clause
of the call (`its` for one without a name), a definition in specs/ that a clause is told by, as `SubmitGives`, or a field of such
a record, as `ReadsRange.leaves`. Where `never` stands before it, it says that this refusal never comes. What stands behind the
second bar is said of calls that take something by `&mut`. A `-` says that no clause does. Want of memory needs none.

This script refuses: a public call without its line in the document; a refusal of a call that its line in promises.txt leaves out,
or has too much; a line whose call is gone; a clause that isn't there. It doesn't see whether a clause says what it is cited
for, what a derive or a macro writes, nor what a type's fields allow who may set them.
"""
import glob
import os
import re
import sys

from rattle_source import Source, variants

TOP = os.path.dirname(os.path.dirname(os.path.abspath(__file__)))
DOCUMENT = f"{TOP}/docs/CALLS.md"
WORDS = f"{TOP}/tools/promises.txt"
# Programs of cases, tests, and what only these stand on.
NO_LIBRARY = re.compile(r"_cases$|_tests$|notation$")
# Outcomes that hold an error without being one.
HOLD_AN_ERROR = {"Driven", "Finished", "ChunkOutcome", "Ran", "Outcome", "Joined"}
# Calls whose number says how they ended.
ANSWER_A_STATUS = {("scan_commands", "run")}
# What the compiler calls by itself, or a ghost item stands for.
SILENT = re.compile(r"(Drop|Model|Error|Display)\b")

HEAD = """# Every public call

Made by `python3 tools/promises.py`, which reads the sources; don't edit it. [ANSWERS.md](ANSWERS.md) says in words when the
refusals come of the calls that callers make, [PROMISES.md](PROMISES.md) what else is promised.

- **Ends**: each call returns, on each input that meets its `requires`, but those marked *may wait*: they may wait for another
  thread, and are the only ones that are allowed to (their bound is `Wait`). How long the operating system takes to open a file, to
  read or to write is no part of that.
- **Refused by**: the call's error, or `None`, with the clauses of its contract that say when it comes; `error` is one that an
  outcome holds. *its clause* is a contract's only one; `Name` with a capital letter is the definition in `specs/` that the
  contract cites, `Name.field` a field of it. `Memory` is want of memory: it may come wherever memory is taken, and no clause says
  when.
- **After a refusal**: what is lent by `&` never changes, and what is passed by value is let go. Of what is lent by `&mut`, these
  clauses say how it stands. Empty: nothing is lent by `&mut`, or the call can't be refused.
- *no clause*: no contract says it. Such calls: {missing}, listed at the end.

"""


class Call:
    def __init__(self, crate, function, block, source):
        self.crate, self.function, self.block, self.source = crate, function, block, source

    def name(self):
        if not self.block:
            return self.function.name
        if self.block.trait:
            return f"{self.block.trait}::{self.function.name}"
        return f"{self.block.type}::{self.function.name}"

    def key(self):
        if self.block and self.block.trait:
            return f"<{self.block.type} as {self.block.trait}>::{self.function.name}"
        return self.name()

    def may_wait(self):
        return bool(re.search(r"\bWait\b", self.function.bounds))

    def lends_mutably(self):
        return bool(re.search(r"&('\w+ )?mut\b", self.function.parameters))

    def is_law(self):
        return not self.function.parameters and not self.function.result


class Crate:
    def __init__(self, name):
        self.name = name
        self.sources = []
        for path in sorted(glob.glob(f"{TOP}/crates/{name}/src/**/*.rt", recursive=True)):
            module = os.path.relpath(path, f"{TOP}/crates/{name}/src")[:-3]
            with open(path, encoding="utf-8") as file:
                self.sources.append(Source(module, file.read()))
        root = [source for source in self.sources if source.module in ("lib", "main")][0]
        self.public = set(root.exports)
        for source in self.sources:
            if source is root or source.module in root.modules:
                self.public |= {name for _, name, is_public, _ in source.types if is_public}
                self.public |= {f.name for f, block, is_public in source.functions if is_public and not block}

    def calls(self):
        for source in self.sources:
            for function, block, is_public in source.functions:
                if self.is_call(function, block, is_public):
                    yield Call(self.name, function, block, source)

    def is_call(self, function, block, is_public):
        if not block:
            return is_public and function.name in self.public
        if block.trait and not block.is_trait:
            return not SILENT.match(block.trait) and (block.type in self.public or block.type in NUMBERS)
        if block.type not in self.public:
            return False
        return block.is_trait or is_public


NUMBERS = {"u8", "u16", "u32", "u64", "i8", "i16", "i32", "i64"}


def libraries():
    with open(f"{TOP}/crates.txt", encoding="utf-8") as file:
        names = [line.split(":")[0].strip() for line in file if line.strip() and not line.startswith("#")]
    return [Crate(name) for name in names if not NO_LIBRARY.search(name)]


def enums(crates):
    found = {}
    for crate in crates:
        for source in crate.sources:
            for word, name, _, text in source.types:
                if word == "enum":
                    found[name] = variants(text)
    return found


def refusals(call, errors):
    """The names of the refusals in the result, want of memory last."""
    result, found = call.function.result, []
    wanted = re.match(r"Result<(.*), (\w+)(?:<.*>)?>$", result)
    if re.search(r"\bOption<", result):
        found.append("None")
    if any(re.search(rf"\b{name}\b", result) for name in HOLD_AN_ERROR):
        found.append("error")
    if (call.crate, call.name()) in ANSWER_A_STATUS:
        found.append("status")
    if wanted:
        names = ["Memory"] if wanted[2] == "AllocError" else errors.get(wanted[2], [wanted[2]])
        found += [name for name in names if name != "Memory"] + [name for name in names if name == "Memory"]
    return found


class Words:
    """What is kept by hand of a call."""

    def __init__(self, line):
        parts = [part.strip() for part in line.split("|")]
        self.crate, self.key = parts[0].split(" ", 1)
        self.causes = {}
        for cause in filter(None, map(str.strip, parts[1].split(";"))):
            names, clauses = cause.split(":", 1)
            for name in names.split(","):
                self.causes[name.strip()] = clauses.split()
        self.after = parts[2].split() if len(parts) > 2 else []


def read_words():
    found = {}
    with open(WORDS, encoding="utf-8") as file:
        for line in file:
            if line.strip() and not line.startswith("#"):
                words = Words(line)
                if (words.crate, words.key) in found:
                    sys.exit(f"tools/promises.txt: two lines of {words.crate} {words.key}")
                found[(words.crate, words.key)] = words
    return found


class Definitions:
    """The definitions in specs/: of each name the words that it is told by, and the fields of records."""

    def __init__(self):
        self.words, self.fields = {}, set()
        for path in glob.glob(f"{TOP}/crates/*/specs/*.antt"):
            with open(path, encoding="utf-8") as file:
                self.read(file)

    def read(self, file):
        name = None
        for line in file:
            begins = re.match(r"(?:pub )?(?:abbrev|record|data)(?: pub)? (\w+)", line)
            field = re.match(r"  (?:pub )?(\w+) :", line)
            if begins:
                name = begins[1]
            elif field and name:
                self.fields.add(f"{name}.{field[1]}")
            elif re.match(r"use |--", line):
                name = None
            if name:
                self.words.setdefault(name, set()).update(re.findall(r"\w+", line))

    def told_by(self, words):
        """The definitions by which these words are told, and those by which they are."""
        found, left = set(), [word for word in words if word in self.words]
        while left:
            name = left.pop()
            if name not in found:
                found.add(name)
                left += [word for word in self.words[name] if word in self.words]
        return found


class Table:
    def __init__(self):
        self.crates = libraries()
        self.errors = enums(self.crates)
        self.words = read_words()
        self.definitions = Definitions()
        self.traits = {}
        self.faults = []
        self.missing = []
        self.used = set()
        for crate in self.crates:
            for call in crate.calls():
                if call.block and call.block.is_trait:
                    self.traits[call.name()] = call

    def own_clauses(self, call):
        """The call's clauses; those of the trait where an implementation has none of its own."""
        clauses = call.function.ensures()
        if not clauses and call.block and call.block.trait:
            of_trait = self.traits.get(f"{call.block.trait}::{call.function.name}")
            return of_trait.function.ensures() if of_trait else []
        return clauses

    def of_trait(self, call):
        """The call of the trait for which an implementation has no clauses of its own, if it is one."""
        if call.block and call.block.trait and not call.block.is_trait and not call.function.ensures():
            return self.traits.get(f"{call.block.trait}::{call.function.name}")
        return None

    def is_defined(self, call, clause):
        """Whether it is a definition by which the contract of the call is told, or a field of one."""
        if clause not in self.definitions.words and clause not in self.definitions.fields:
            return False
        words = [word for _, text in self.own_clauses(call) for word in re.findall(r"\w+", text)]
        words = [call.source.aliases.get(word, word) for word in words]
        return clause.split(".")[0] in self.definitions.told_by(words)

    def cited(self, call, clauses):
        """The clauses as they are printed. What isn't there is a fault."""
        names = {name for name, _ in self.own_clauses(call)}
        printed = []
        for clause in clauses:
            if clause == "never":
                continue
            if clause == "its" and "" in names:
                printed.append("its clause")
            elif clause in names or self.is_defined(call, clause):
                printed.append(f"`{clause}`")
            elif clause == "-":
                printed.append("*no clause*")
                if (call.crate, call.key()) not in self.missing and not self.of_trait(call):
                    self.missing.append((call.crate, call.key()))
            else:
                self.faults.append(f"{call.crate} {call.key()}: no clause or definition {clause}")
        return ", ".join(printed)

    def cells(self, call):
        """How the call is refused, and what stands afterwards."""
        names = refusals(call, self.errors)
        kept = self.words.get((call.crate, call.key()))
        trait = self.of_trait(call)
        if not kept and trait:
            kept = self.words.get((trait.crate, trait.key()))
        else:
            self.used.add((call.crate, call.key()))
        causes = dict(kept.causes) if kept else {}
        causes.setdefault("Memory", [])
        after = kept.after if kept else []
        for name in names:
            if name not in causes:
                self.faults.append(f"{call.crate} {call.key()}: tools/promises.txt doesn't say by which clause {name} comes")
        for name in causes:
            if name not in names and (name != "Memory" or causes[name]):
                self.faults.append(f"{call.crate} {call.key()}: {name} is no refusal of this call")
        needs_after = call.lends_mutably() and bool(names)
        if needs_after and not after:
            self.faults.append(f"{call.crate} {call.key()}: tools/promises.txt doesn't say what stands after a refusal")
        told = {}
        for name in names:
            clauses = causes.get(name, [])
            words = self.cited(call, clauses)
            words = f" never: {words}" if "never" in clauses else f": {words}" if words else ""
            told.setdefault(words, []).append(f"`{name}`")
        return "; ".join(", ".join(ones) + words for words, ones in told.items()), self.cited(call, after)

    def lines(self, crate):
        groups, laws = {}, []
        for call in crate.calls():
            if call.is_law():
                laws.append(f"`{call.name()}`")
                continue
            refused, after = self.cells(call)
            row = (call.name(), "may wait" if call.may_wait() else "returns", refused or "nothing", after)
            if call.block and call.block.trait and not call.block.is_trait:
                groups.setdefault(("impl", *row), []).append(call.block.type)
            else:
                groups.setdefault((len(groups), *row), [])
        if groups:
            yield "| call | ends | refused by | after a refusal |"
            yield "|---|---|---|---|"
        for (_, name, ends, refused, after), types in groups.items():
            of = f" of {', '.join(f'`{one}`' for one in types)}" if types else ""
            yield f"| `{name}`{of} | {ends} | {refused} | {after} |"
        if laws:
            yield ""
            yield f"Laws and examples, which take nothing and do nothing: {', '.join(laws)}."

    def document(self):
        bodies = [(crate, list(self.lines(crate))) for crate in self.crates]
        for crate, key in self.words:
            if (crate, key) not in self.used:
                self.faults.append(f"{crate} {key}: tools/promises.txt has a line for it, and it is no public call")
        text = HEAD.replace("{missing}", str(len(self.missing)))
        for crate, lines in bodies:
            if lines:
                text += f"## {crate.name}\n\n" + "\n".join(lines) + "\n\n"
        text += "## What no clause says\n\n"
        for crate, key in self.missing:
            text += f"- `{key}` of `{crate}`\n"
        return text


def main():
    if sys.argv[1:] not in ([], ["--check"]):
        print(__doc__.strip())
        sys.exit(0 if sys.argv[1:] == ["--help"] else 2)
    table = Table()
    text = table.document()
    for fault in table.faults:
        print(fault)
    if not sys.argv[1:]:
        with open(DOCUMENT, "w", encoding="utf-8") as file:
            file.write(text)
    elif not table.faults:
        with open(DOCUMENT, encoding="utf-8") as file:
            if file.read() != text:
                print("docs/CALLS.md isn't what the sources give: run python3 tools/promises.py, and read what changed")
                table.faults.append("")
    if table.faults:
        sys.exit(1)
    print("docs/CALLS.md has a line for each public call")


if __name__ == "__main__":
    main()
