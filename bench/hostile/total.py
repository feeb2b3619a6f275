#!/usr/bin/env python3
"""Makes docs/total.md from the contracts: `total.py` prints the page, `total.py --check` compares it with docs/total.md.

For each public call of the specification it tells, by the names of the clauses of its contract as they stand in crates/*/src, which say
when each of its errors comes and which say what stays after one. A clause speaks of an error where it names its variant, or every error at
once; of what stays where it says of an argument that may change that it is as it was. `--missing` prints the calls that lack one.
"""
import glob
import os
import re
import sys

ROOT = os.path.join(os.path.dirname(os.path.abspath(__file__)), "..", "..")
PAGE = os.path.join(ROOT, "docs", "total.md")

# the calls of each crate: a function, or a type and its methods
CALLS = [
    ("The top call", "rv_run", "", "run"),
    ("The outside", "rv_base", "Files", "load"),
    ("The outside", "rv_base", "Sink", "put"),
    ("The outside", "rv_base", "MemoryFiles", "new add fail_calls"),
    ("The outside", "rv_base", "SureFiles", "new add"),
    ("The outside", "rv_base", "MemorySink", "new fail_calls"),
    ("The outside", "rv_base", "SureSink", "new"),
    ("The outside", "rv_machine", "DiskFiles", "new"),
    ("The outside", "rv_machine", "StandardOut", "new"),
    ("Sources", "rv_syntax", "", "parse"),
    ("Sources", "rv_types", "", "settle"),
    ("Sources", "rv_causality", "", "order"),
    ("Sources", "rv_source", "", "read_source"),
    ("Sources", "rv_meaning", "", "memories kind_of"),
    ("Sources", "rv_flatten", "", "flatten"),
    ("Sources", "rv_step", "", "start step"),
    ("Sources", "rv_make", "", "make"),
    ("Diagrams", "rv_diagram", "NodeArena", "new find push get len release_to"),
    ("Diagrams", "rv_diagram", "Store", "new constant variable not and or ite restrict exists compose implies is_false pick value_at freeze thaw mark release"),
    ("Diagrams", "rv_diagram", "Frozen", "ordered"),
    ("Rows and forms", "rv_rows", "Form", "add scale"),
    ("Rows and forms", "rv_rows", "Row", "substitute tighten fits"),
    ("Rows and forms", "rv_rows", "", "proves refutes"),
    ("Rows and forms", "rv_terms", "", "leaf choose sum scale single"),
    ("Rows and forms", "rv_seek", "", "seek_row seek_refutation seek_bound"),
    ("Rows and forms", "rv_poly", "Poly", "meet join after eliminate whole_point"),
    ("Rows and forms", "rv_poly", "", "included"),
    ("Certificates", "rv_proofs", "Certificate", "counts"),
    ("Certificates", "rv_proofs", "Location", "has_loop"),
    ("Certificates", "rv_reading", "Reading", "new cases image preimage initial flat state_bits held limit store"),
    ("Certificates", "rv_certificate", "", "accept"),
    ("The analysis", "rv_box", "", "box_pass"),
    ("The analysis", "rv_state", "Abstract", "post pre includes"),
    ("The analysis", "rv_split", "", "by_modes"),
    ("The analysis", "rv_split", "Partition", "split"),
    ("The analysis", "rv_accel", "", "accelerate"),
    ("The analysis", "rv_fixpoint", "", "analyse"),
    ("Traces", "rv_replay", "", "replay"),
    ("Traces", "rv_falsify", "", "find"),
    ("Traces", "rv_probe", "", "probe"),
    ("Documents", "rv_invariant", "", "write_certificate read_certificate write_left"),
    ("Documents", "rv_invfile", "", "write_trace read_trace"),
]
HEAD_TEXT = """# Each call, its answers and what stays

Made from the contracts by `bench/hostile/total.py`, and compared with them by `bench/hostile/total.py --check`; names are those of the
clauses in `crates/*/src`. Four things are promised of every call here:

- It returns, and no sum or product leaves its type: each function is proved, and nothing is proved of one that could run for ever or
  overflow. The products and sums of the certificate check stay below 2^110 (`sums` of `proves` and `refutes`).
- Each answer other than the wanted one has its cause: the clauses of the second column say when it comes, `None` of an optional answer
  too. Want of memory alone is free, as no clause ties it to a cause; a clause that names it says what else is so.
- After a fault what a call worked on is as before: the clauses of the third column. `-` stands where a call may change nothing.
- `run` gives its text to one `put`: `one_put`, `no_put`, `shown_whole`, `shown_prefix`, `shown_nothing`, `status`.
"""
HEAD = re.compile(r"^( *)(?:pub )?fn (\w+)\b")
HOLDER = re.compile(r"^(?:pub )?(?:unsafe )?(?:impl(?:<[^>]*>)? (?:(?:\w|<|>)+ for )?(\w+)|trait (\w+))")
CLAUSE = re.compile(r"\b(ensures|requires)(?: (\w+))? \{")
VARIANT = re.compile(r"^    (\w+) ?[({,]", re.M)


class Call:
    """A function: its holder, its name, its comment, its head and the clauses of its contract."""

    def __init__(self, holder, name, comment, text):
        self.holder, self.name, self.comment = holder, name, " ".join(comment)
        contract = CLAUSE.search(text)
        self.head = " ".join(text[: contract.start() if contract else len(text)].split())
        self.clauses = [(m.group(1), m.group(2) or "", braced(text, m.end())) for m in CLAUSE.finditer(text)]
        self.ensured = [(name, body) for kind, name, body in self.clauses if kind == "ensures"]


def braced(text, start):
    """What stands up to the brace that closes the one before."""
    depth, at = 1, start
    while depth:
        depth += {"{": 1, "}": -1}.get(text[at], 0)
        at += 1
    return " ".join(text[start : at - 1].split())


def calls_of(crate):
    """All functions of a crate by their holders and names."""
    found = {}
    for path in sorted(glob.glob(os.path.join(ROOT, "crates", crate, "src", "**", "*.rt"), recursive=True)):
        with open(path, encoding="utf-8") as text:
            lines = text.read().split("\n")
        holder, comment = "", []
        for number, line in enumerate(lines):
            of, head = HOLDER.match(line), HEAD.match(line)
            if of:
                holder = of.group(1) or of.group(2)
            elif line == "}":
                holder = ""
            if head:
                call = Call(holder if head.group(1) else "", head.group(2), comment, told(lines, number, len(head.group(1))))
                found.setdefault((call.holder, call.name), call)
            comment = comment + [line.strip()[4:]] if line.strip().startswith("///") else [] if line.strip() else comment
    return found


def told(lines, number, indent):
    """The head and contract of a function: up to the brace of its body, or to its end where it has none."""
    text = []
    for line in lines[number:]:
        if line == " " * indent + "{":
            break
        if not text and line.endswith("{"):
            return line[:-1]
        text.append(line)
        if line.endswith(";") and len(line) - len(line.lstrip()) <= indent + 4:
            break
    return "\n".join(text)


def fault_types():
    """The variants of each enumeration of the crates."""
    found = {}
    for path in glob.glob(os.path.join(ROOT, "crates", "*", "src", "**", "*.rt"), recursive=True):
        with open(path, encoding="utf-8") as text:
            for name, body in re.findall(r"^pub enum (\w+)[^{]*\{\n(.*?)^\}", text.read(), re.M | re.S):
                found.setdefault(name, VARIANT.findall(body))
    return found


def errors_of(call, faults):
    """The errors of a call: the variants of its fault, and None where it may answer that."""
    answer = re.search(r"-> (.*?)(?: requires|$|\{)", call.head)
    answer = answer.group(1).strip() if answer else ""
    result = re.match(r"Result<(.*), ([\w:]+)>", answer)
    errors = []
    if result:
        fault = result.group(2).split("::")[-1]
        errors += faults.get(fault, ["Memory"] if fault in ("Memory", "AllocError") else [fault])
        answer = result.group(1)
    return errors + (["None"] if answer.startswith("Option<") else [])


def speaking(call, error):
    """The clauses that say when an error comes."""
    every = r"\bIsErr\b|\bOnErr\b|\bIfErr\b"
    named = {"None": r"\bNone\b|\bIsNone\b|\bIsSome\b|\bOnNone\b|\bIfSome\b|\bOnSome\b|\bOption\b|λ"}.get(error, r"\b%s\b" % error)
    snake = re.sub(r"(?<=[a-z])(?=[A-Z])", "_", error).lower()
    names = [name or "(its one clause)" for name, body in call.ensured if re.search(named, body) or snake in name]
    return names or [name or "(its one clause)" for name, body in call.ensured if re.search(every, body)]


def changed(call):
    """The arguments that a call may change."""
    inside = call.head[call.head.index("(") + 1 :].strip()
    return (["self"] if re.match(r"&mut self", inside) else []) + re.findall(r"(\w+): &mut", inside)


def staying(call, argument):
    """The clauses that say of an argument that it is as it was, or what it is, after an error."""
    same = re.compile(r"\b%s\.new\b[^()]*≡ %s\.old|\b%s\.new\.?\w* ≡|\bIsErr|\bOnErr|\bIfErr" % ((argument,) * 3))
    return [name or "(its one clause)" for name, body in call.ensured if "%s.new" % argument in body and same.search(body)]


def speaking_of(call, argument):
    """The clauses of a call without errors that say what an argument becomes."""
    return [name or "(its one clause)" for name, body in call.ensured if argument in body or "result" in body]


def lines():
    """Each call: its group, its name with its crate, its errors with their clauses, and its changing arguments with theirs."""
    faults, crates = fault_types(), {}
    for group, crate, holder, names in CALLS:
        crates.setdefault(crate, calls_of(crate))
        for name in names.split():
            call = crates[crate][holder, name]
            errors = {error: speaking(call, error) for error in errors_of(call, faults)}
            if (crate, name) == ("rv_run", "run"):
                errors = {error: speaking(call, error) for error in faults["Report"] + faults["Sent"]}
            stays = {argument: staying(call, argument) if errors else speaking_of(call, argument) for argument in changed(call)}
            yield group, f"{crate}: {holder}{'::' if holder else ''}{name}", errors, stays


def missing():
    """What has no clause: an error other than want of memory, or an argument that may change."""
    for _, call, errors, stays in lines():
        for error, clauses in errors.items():
            if not clauses and error != "Memory":
                yield f"{call}: no clause says when {error} comes"
        for argument, clauses in stays.items():
            if not clauses:
                yield f"{call}: no clause says what stays of {argument}"


def cell(told, free=()):
    """The clauses of some things, in a cell of a table."""
    return "; ".join(f"`{what}`: " + (", ".join(clauses) if clauses else "free" if what in free else "none") for what, clauses in told.items()) or "-"


def page():
    """The whole page."""
    text = [HEAD_TEXT]
    group_before = ""
    for group, call, errors, stays in lines():
        if group != group_before:
            text.append(f"\n## {group}\n\n| call | when each answer comes | what stays |\n|---|---|---|\n")
            group_before = group
        crate, name = call.split(": ")
        if group == CALLS[0][0]:
            text += [f"| `{name}` of `{crate}`: `{error}` | {', '.join(clauses)} | - |\n" for error, clauses in errors.items()]
            errors = {}
        text.append(f"| `{name}` of `{crate}` | {cell(errors, ['Memory'])} | {cell(stays)} |\n")
    return "".join(text)


def main():
    if "--missing" in sys.argv:
        print(*missing(), sep="\n")
        return 0
    if "--check" not in sys.argv:
        sys.stdout.write(page())
        return 0
    with open(PAGE, encoding="utf-8") as text:
        same = text.read() == page()
    print("docs/total.md is as the contracts are" if same else "docs/total.md differs from the contracts: bench/hostile/total.py > docs/total.md")
    return 0 if same else 1


if __name__ == "__main__":
    sys.exit(main())
