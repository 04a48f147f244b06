"""messages.py: makes the list of refusals with their sentences for INDEX.md (index.py) from the source.

As a program, it reports refusals that no page has or that only a page has. It also reports sentences, and messages about
invalid command lines, that no command line of the gate (test_trials) shows. Status 1: something was reported."""
import glob
import os
import re
import sys

TOP = os.path.join(os.path.dirname(os.path.abspath(__file__)), "..")
STRING = r'"((?:[^"\\]|\\.)*)"'


def read(path):
    with open(os.path.join(TOP, path), encoding="utf-8", errors="replace") as file:
        return file.read()


def faults(path):
    """The texts of an enum's faults and their numbers, each under the name of its variant."""
    text = read(path)
    texts = dict((name, said) for said, name in re.findall(r"#\[error\(" + STRING + r"\)\]\s+(\w+)", text))
    return texts, dict((name, int(number)) for name, number in re.findall(r"\w+::(\w+)(?:\(_\))? => (\d+),", text))


def arms(text, function):
    """The texts of a function's match, each under the names that its arm has."""
    body = text[text.index("fn " + function) :]
    body = body[: body.index("\n}\n")]
    found = {}
    for names, said in re.findall(r"((?:\w+::\w+(?:\(_\))?\s*\|?\s*)+)=>\s*\{?\s*" + STRING, body):
        for name in re.findall(r"::(\w+)", names):
            found[name] = said
    return found


def sentences():
    """Each refusal, as its numbers are printed after `refused`, and the sentence. {0} is what the fault names."""
    reason = read("crates/pm_batch/src/reason.rt")
    told = []

    # (some messages have more words between a sentence and its help)
    def add(prefix, source, names, help_of=lambda name: ""):
        texts, numbers = source
        for name in names or sorted(numbers, key=numbers.get):
            if not re.search("memory", texts.get(name, "memory")):
                told.append(("%s %d" % (prefix, numbers[name]), texts[name] + help_of(name)))

    def own(pattern):
        return re.search(pattern + r"[^\"]*?" + STRING, reason).group(1)

    told.append(("hex 1", own(r"Refusal::Hex => ")))
    boot = faults("crates/pm_machine/src/state.rt")
    about = read("crates/pm_messages/src/about.rt") # the program names the image and the file in these two
    for name, number in ("NoFile", 1), ("NotCode", 2):
        boot[0][name] = re.search(r"\(%d, _\) => [^\"]*" % number + STRING, about).group(1)
    boot[0]["Exec"] = own(r"Refusal::Boot\(BootFault::Exec\(error\)\) => ").replace("{error}", "{0}")
    add("boot", boot, ["NoFile", "NotCode", "BadCode", "Exec"])
    volume = faults("crates/pm_volume/src/fault.rt")
    help_for, help_of_command, help_of_text = (arms(reason, name) for name in ("help_for", "help_of_command", "help_of_text"))
    first = ["NotBlocks", "TooShort", "BadHeader", "BadEntry", "TooManyFiles", "PastEnd", "NoRoom", "BadName", "FirstCopyBad"]
    add("volume", volume, first, lambda name: help_for.get(name, ""))
    command = ["BadHeader", "NoRoom", "DirectoryFull", "Duplicate", "BadName", "NoFile", "Occupied"]
    add("filer 1", volume, command, lambda name: help_of_command.get(name, ""))
    add("filer 2", faults("crates/pm_textfile/src/fault.rt"), [], lambda name: "{}" + help_of_text.get(name, ""))
    told.append(("filer 3", own(r"FilerFault::BadDate => ")))
    code = faults("crates/pm_codefile/src/fault.rt")
    whole = own(r"Refusal::Code\(CodeFault::NoDictionary\) => ")
    behind = own(r"Refusal::Code\(fault\) => ").replace("{fault}", "")
    told.append(("code 1", whole))
    add("code", code, [name for name in code[1] if code[1][name] != 1], lambda name: behind)
    add("asm", faults("crates/pm_source/src/fault.rt"), [])
    help_of_system = arms(reason, "help_of_system")
    add("system", faults("crates/pm_filer/src/system_fault.rt"), [], lambda name: help_of_system.get(name, ""))
    job = read("crates/pm_convert/src/job.rt")
    texts, numbers = arms(job, "text"), re.findall(r"ConvertFault::(\w+) => (\d+),", job)
    told.extend(("convert %s" % number, texts[name]) for name, number in numbers)
    saying = read("crates/pm_messages/src/saying.rt")
    for number, message in (("form 1", "the image opens in several formats"), ("undelete 1", "blocks .first. to .last. are not all free")):
        rest = re.search("pmach: .path.: (" + message + '[^"]*)"', saying).group(1)
        told.append((number, re.sub(r"\{(?:forms|first|last)\}", "{0}", rest)))
    return told


def wrong_words():
    """The texts of words and paths that do not go together."""
    texts = re.findall(STRING, read("crates/pm_paths/src/conflicts.rt"))
    for path in sorted(glob.glob(os.path.join(TOP, "crates/pm_plan/src/*.rt"))):
        text = read(path)
        texts += ["error: " + said for said in re.findall(r"WordsError::Wrong\(\s*" + STRING, text)]
        texts += ["error: " + said for said in re.findall(r"const (?:DATE|FORM|SLOT): &str =\s*" + STRING, text)]
    return texts


def page_numbers():
    """The refusals that the page's table has."""
    whole = read("docs/MESSAGES.md")
    table = whole.split("# What the numbers mean")[1]
    found = set(re.findall(r"`refused (\w+ \d+)`\s+(?:is|one)\s", whole.split("# What the numbers mean")[0]))
    for line in table.split("\n"):
        cells = line.split(" | ")
        for said in re.findall(r"`refused ([a-z]+ [0-9](?:[0-9A-UW-Z .]*))`", cells[0]):
            words = [word for word in said.split() if word != ".."]
            found.add(" ".join(words[: 3 if words[0] == "filer" and words[1] in "12" else 2]))
    return found


def is_shown(sentence, rows):
    parts = [re.escape(part) for part in re.split(r"\{\d?\w*\}", sentence.replace('\\"', '"').replace("\\n", ""))]
    return re.search(".*".join(parts), rows) is not None


def table():
    """The section of INDEX.md."""
    lines = ["| `refused ..` | What a terminal is told |\n|---|---|\n"]
    names = {"0": "..", "image": "IMAGE", "name": "NAME"}
    lines += ["| %s | %s |\n" % (number, re.sub(r"\{(\w*)\}", lambda part: names.get(part[1], ""), said)) for number, said in sentences()]
    return "".join(lines)


def main():
    rows = read("crates/test_trials/stdin") + "".join(read(path) for path in sorted(glob.glob(os.path.join(TOP, "crates/test_trials/data/*"))) if os.path.isfile(path))
    said = []
    source, page = set(number for number, _ in sentences()), page_numbers()
    said += ["refused %s is on no page" % number for number in sorted(source - page)]
    said += ["refused %s is on a page only" % number for number in sorted(page - source)]
    said += ["no command line shows: refused %s: %s" % told for told in sentences() if not told[0].startswith("asm") and not is_shown(told[1], rows)]
    said += ["no command line shows: %s" % text for text in wrong_words() if not is_shown(text, rows)]
    print("\n".join(said) or "nothing")
    return 1 if said else 0


if __name__ == "__main__":
    sys.exit(main())
