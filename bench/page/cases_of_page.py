"""The cases for bare code, for limits.js."""
import os
import re

HERE = os.path.dirname(os.path.abspath(__file__))


def bare_cases():
    """The cases of bare.cases: [code in hexadecimal digits, limit, last line, digest of the trace or None]."""
    cases = []
    with open(os.path.join(HERE, "../../crates/test_cases/data/bare.cases"), encoding="latin-1") as file:
        for group in file.read().split("\ncase ")[1:]:
            case = dict(line.partition(" ")[::2] for line in group.split("\n")[1:] if line)
            code = "".join(byte * int(count or 1) for count, byte in re.findall(r"(?:(\d+)\*)?([0-9a-fA-F]+)", case["code"]))
            cases.append([code, int(case.get("limit", "100")), case["end"], case.get("trace")])
    return cases
