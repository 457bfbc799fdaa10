#!/usr/bin/env python3
"""Lists the places in crates/*/src that older forms of the language leave, for docs/DESIGN-PASS.md.

usage: python3 tools/places.py [POINT ..]        at the top of the repository; no point: all eight, with their counts

It goes by text, so it finds what may be a place; a reader judges each. The points are those of docs/DESIGN-PASS.md.
"""

import difflib
import glob
import re
import sys

COMMENT = re.compile(r"^\s*//")
WORD = re.compile(r"[A-Za-z_]\w*|\d[\w.]*|[^\s\w]")
OPTION_SHAPED = [r"\benum \w+", r"^\s*(pub(\(crate\))? )?\w+: bool,", r"(Result|Option)<bool", r"\bplace: &mut", r"const \w+: u\d+ = u\d+::MAX",
                 r"\bErr\(_\w*\) =>|Ok\(\w+\) => Some\(", r"fn \w+\((family|\w*kind): u8|fn \w+\(self\) -> u8"]
BY_HAND = [r"impl.* (PartialEq|Eq|PartialOrd|Ord|Clone|Copy|Debug|Default|Hash)\b.* for ", r"fn (compare|agrees|same_\w+|is_further|differs?)\b",
           r"fn (number|word|named|set_of|from_\w+|to_\w+|into_\w+)\b|fn write_(?!all|in_order|of)\w+"]
BUFFERS = [r"^\s*(pub(\(crate\))? )?(len|count|room|n): (usize|ClaimCount),", r"^\s*(pub(\(crate\))? )?(next|first|spare|index|parent|left|right): u\d+,",
           r"\(high - low\) / 2|\bfn (insert_at|remove_at)\b"]
SWITCHES = [r"fn \w+.*\b(end|which|step|mode): \w+", r"match (end|which|step|mode) ", r"\[fn\(|: fn\("]
KEYWORDS = set("as break const continue else enum false fn for if impl in let loop match mod mut pub ref return self Self struct trait true"
               " type use where while Ok Err Some None usize u8 u16 u32 u64 bool".split())


def sources():
    return sorted(glob.glob("crates/*/src/**/*.rt", recursive=True))


def lines():
    for path in sources():
        for number, line in enumerate(open(path, encoding="utf-8"), 1):
            if not COMMENT.match(line):
                yield path, number, line.rstrip("\n")


def matching(*patterns):
    """The lines that a pattern finds, by pattern."""
    return [f"{path}:{number}: {line.strip()}" for pattern in patterns for path, number, line in lines() if re.search(pattern, line)]


def functions():
    """Each function with a body: path, line, name, signature, clauses, body."""
    for path in sources():
        text = open(path, encoding="utf-8").read()
        for head in re.finditer(r"^( *)(?:pub(?:\(\w+\))? )?(?:const )?fn (\w+)", text, re.M):
            indent = head.group(1)
            end = text.find("\n" + indent + "}", head.start())
            end = end if end >= 0 else len(text)
            whole = text[head.start():end]
            one = re.match(r"[^\n]*;\s*$", whole.split("\n", 1)[0])
            if one:
                whole = whole.split("\n", 1)[0]
            start = re.search(r"\{\s*$|^\s*\{\s*$", whole, re.M)
            clauses = re.findall(r"^\s*(?:requires|ensures)[^{]*\{(.*)\}\s*;?$", whole, re.M)
            signature = re.split(r"\n\s*(?:requires|ensures)|\{\s*\n", whole, maxsplit=1)[0]
            body = "\n".join(line for line in whole.split("\n")
                             if not re.match(r"\s*(requires|ensures|//)", line))
            yield path, text.count("\n", 0, head.start()) + 1, head.group(2), signature, clauses, body if start else ""


def shape(body):
    """The tokens of a body, each own name replaced by the order in which it first comes."""
    names, out = {}, []
    for token in WORD.findall(body):
        if re.match(r"[A-Za-z_]", token) and token not in KEYWORDS:
            token = "n%d" % names.setdefault(token, len(names))
        out.append(token)
    return out


def option_shaped():
    return matching(*OPTION_SHAPED)


def twins():
    found = []
    all_functions = [(p, n, name, shape(body)) for p, n, name, _, _, body in functions() if body]
    long_enough = [f for f in all_functions if len(f[3]) >= 24]
    for i, one in enumerate(long_enough):
        for other in long_enough[i + 1:]:
            if abs(len(one[3]) - len(other[3])) > 0.12 * len(one[3]):
                continue
            ratio = difflib.SequenceMatcher(None, one[3], other[3], autojunk=False).ratio()
            if ratio >= 0.85:
                found.append(f"{one[0]}:{one[1]}: {one[2]} ~ {other[0]}:{other[1]}: {other[2]} ({ratio:.2f})")
    return found


def index_loops():
    found = []
    for path in sources():
        text = open(path, encoding="utf-8").read().split("\n")
        for number, line in enumerate(text, 1):
            head = re.match(r"(\s*)for (\w+) in .*\.\.", line)
            loop = re.match(r"(\s*)while \w+ (<|>|<=|>=|!=) ", line)
            if not head and not loop:
                continue
            indent = (head or loop).group(1)
            body = []
            for later in text[number:]:
                if later.startswith(indent + "}"):
                    break
                body.append(later)
            index = head.group(2) if head else None
            if loop or re.search(r"\[[^\]]*\b%s\b[^\]]*\]" % index, "\n".join(body)):
                found.append(f"{path}:{number}: {line.strip()}")
    return found


def by_hand():
    return matching(*BY_HAND)


def repeated_facts():
    found = []
    by_crate, groups = {}, {}
    for path, number, name, signature, clauses, _ in functions():
        crate = path.split("/")[1]
        for fact in {re.sub(r"\b(self|store|slots)\.(now|old|new)\b", r"\1", c).strip() for c in clauses}:
            by_crate.setdefault((crate, fact), []).append(name)
        taken = signature[signature.find("("):signature.rfind(")")]
        parameters = re.findall(r"\b([a-z]\w*: &?(?:mut )?(?:\[\w+\]|[\w<>']+))", taken)
        for i, one in enumerate(parameters):
            for other in parameters[i + 1:]:
                groups.setdefault((crate, one, other), []).append(name)
    for (crate, fact), names in sorted(by_crate.items()):
        if len(set(names)) >= 3 and len(fact) < 120 and "result" not in fact:
            found.append(f"{crate}: {fact} in {', '.join(sorted(set(names)))}")
    for (crate, one, other), names in sorted(groups.items()):
        if len(set(names)) >= 3:
            found.append(f"{crate}: ({one}, {other}) in {', '.join(sorted(set(names)))}")
    return found


def buffers():
    return matching(*BUFFERS)


def switches():
    return matching(*SWITCHES)


def proofs():
    found = []
    for crate in sorted(glob.glob("crates/*")):
        answers = glob.glob(crate + "/proofs/**/Answers.antt", recursive=True)
        every = glob.glob(crate + "/proofs/**/*.antt", recursive=True)
        count = lambda paths: sum(len(open(p, encoding="utf-8").read().split("\n")) - 1 for p in paths)
        if every:
            found.append(f"{crate}: {len(answers)} answers of {count(answers)} lines, {count(set(every) - set(answers))} lines of lemmas and invariants")
    return found


POINTS = [
    ("own enums, flags, numbers for cases", option_shaped),
    ("twins", twins),
    ("loops that count an index", index_loops),
    ("equality, order, copying, conversion, printing by hand", by_hand),
    ("repeated facts, parameters that travel together", repeated_facts),
    ("buffers, parallel arrays, searches by hand, indices", buffers),
    ("switches on a step", switches),
    ("proofs", proofs),
]


def main():
    wanted = [int(word) for word in sys.argv[1:]] or range(1, 9)
    for point in wanted:
        title, find = POINTS[point - 1]
        places = find()
        print(f"{point}. {title}: {len(places)}")
        for place in places:
            print("   ", place)


main()
