"""index.py: writes INDEX.md from the source: each public call with the names of its clauses, each law, and the counts that the
pages mention. house.py checks that INDEX.md is up to date."""
import glob
import os
import re
import textwrap

import messages

TOP = os.path.join(os.path.dirname(os.path.abspath(__file__)), "..")
PAGE = os.path.join(TOP, "INDEX.md")
HEAD = """# Index

This page lists every public function and every law, with the names of their clauses;
[PROMISES](docs/PROMISES.md) explains these terms. `bench/index.py` makes it from the source.

- The crates are in the order of `crates.txt`. In a crate, functions are grouped by type or module.
- The parentheses after a function contain the names of its clauses and, after `requires`, the names of its conditions.
  With empty parentheses a function promises only that it returns.
- A line `name: sentence` is a law. The sentence is the comment above it in the source.
- A name `worked_..` is an example whose value the checker computes.
- Test crates are not listed; "Counts" has the number of their mutants.
"""
MESSAGES = """
## Messages

This table has each refusal with the sentence that a terminal gets. What is known of the case may be added to the
sentence. For `asm` these are the sentences for a line about which nothing more is known.

"""
SUMS = """
## Counts

%d calls and %d laws, %d clauses, %d calls with conditions, %d mutants, of which the gate tries %d.

%s
"""


def lines(path):
    with open(os.path.join(TOP, path), encoding="utf-8") as file:
        return file.read().split("\n")


def files(pattern):
    return sorted(os.path.relpath(path, TOP) for path in glob.glob(os.path.join(TOP, pattern), recursive=True))


def crates():
    return [line.split(":")[0].split()[0] for line in lines("crates.txt") if re.match(r"[a-z]", line)]


class Call:
    """A function that other crates can call."""

    def __init__(self, owner, name):
        self.owner, self.name = owner, name
        self.clauses, self.conditions, self.is_law, self.prose = [], [], False, ""

    def read(self, source, number, indent):
        """Reads the words above the head of the call, and the clauses from there on."""
        above = []
        for line in reversed(source[:number]):
            if not line.strip().startswith(("///", "#[")):
                break
            above += [line.strip()[3:].strip()] if line.strip().startswith("///") else []
        self.prose = " ".join(reversed(above))
        for line in source[number:]:
            clause = re.match(r"\s+(ensures|requires)\*? (\w+) \{", line)
            if clause:
                (self.clauses if clause.group(1) == "ensures" else self.conditions).append(clause.group(2))
            if line == indent + "{}" or "law" in self.clauses:
                self.is_law = True
            if line in (indent + "{", indent + "}", indent + "{}") or line.endswith(";") or not clause and line.endswith(" {"):
                return

    def said(self):
        """The names of its clauses and conditions; none of a law."""
        requires = "; requires " + ", ".join(self.conditions) if self.conditions else ""
        return None if self.is_law else " (%s%s)" % (", ".join(self.clauses), requires)


def rows(calls):
    """The entries for the calls of one owner: calls with the same clauses together, then each law with its text."""
    made = []
    for said in dict.fromkeys(it.said() for it in calls if not it.is_law):
        made.append(", ".join(it.name for it in calls if it.said() == said) + said)
    for it in calls:
        if it.is_law:
            made.append(it.name if it.name.startswith("worked") else "%s: %s" % (it.name, it.prose))
    return made


def calls_of(crate):
    """The calls of a crate that others can name: of a public module, or handed on by its root."""
    root = "\n".join(lines("crates/%s/src/lib.rt" % crate))
    handed_on = set(re.findall(r"\w+", " ".join(re.findall(r"pub use ([^;]*);", root))))
    found = []
    for path in files("crates/%s/src/**/*.rt" % crate):
        module = os.path.basename(path)[:-3]
        owner, of_trait = None, False
        source = lines(path)
        for number, line in enumerate(source):
            head = re.match(r"impl(?:<.*?>)? (?:[\w:<>, ]+ for )?(?:\w+::)*(\w+)", line)
            trait = re.match(r"pub trait (\w+)", line)
            if trait or head:
                owner, of_trait = (trait or head).group(1), bool(trait)
            elif line == "}":
                owner, of_trait = None, False
            call = re.match(r"( *)(pub )?(?:const )?(?:unsafe )?(?:extern \S+ )?fn (\w+)", line)
            if call and (call.group(2) or of_trait):
                is_public = "pub mod %s;" % module in root or (owner or call.group(3)) in handed_on or module == "lib"
                if is_public:
                    it = Call(owner or module, call.group(3))
                    it.read(source, number, call.group(1))
                    found.append(it)
    return found


def page():
    """The text of the page."""
    made, sums = [HEAD], [0] * 6
    for crate in crates():
        edits = [len(files("crates/%s/%s/*.edit" % (crate, folder))) for folder in ("must-fail", "wrong")]
        calls = [] if not os.path.exists(os.path.join(TOP, "crates/%s/src/lib.rt" % crate)) else calls_of(crate)
        row = [sum(not it.is_law for it in calls), sum(it.is_law for it in calls), sum(len(it.clauses) for it in calls),
               sum(bool(it.conditions) for it in calls), sum(edits), edits[0]]
        sums = [one + more for one, more in zip(sums, row)]
        if calls and not crate.startswith("test_"):
            made.append("\n## %s\n" % crate)
            owners = dict.fromkeys(it.owner for it in calls)
            owners = [(owner, rows([it for it in calls if it.owner == owner])) for owner in owners]
            alone = "".join("- %s: %s\n" % (owner, told[0]) for owner, told in owners if len(told) == 1)
            made.append("\n" + alone if alone else "")
            for owner, told in owners:
                if len(told) > 1:
                    made.append("\n%s:\n" % owner + "".join("- %s\n" % one for one in told))
    replays = []
    for program in ("test_worked", "test_cases"):
        for line in lines("crates/%s/stdout" % program):
            agree = re.match(r"(\w+\.\w+): (\d+) agree$", line)
            if agree:
                replays.append("%s of `%s`" % (agree.group(2), agree.group(1)))
    for line in lines("crates/test_trials/stdout"):
        agree = re.match(r"command lines: (\d+)", line)
        if agree:
            replays.append("%s command lines" % agree.group(1))
    replays = "The gate replays: %s." % ", ".join(replays)
    made.append(MESSAGES + messages.table())
    return "".join(made) + SUMS % (*sums, textwrap.fill(replays, 120))


if __name__ == "__main__":
    with open(PAGE, "w", encoding="utf-8") as file:
        file.write(page())
