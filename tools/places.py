#!/usr/bin/env python3
"""Lists the places in crates/*/src that docs/DESIGN-PASS.md counts: places.py [POINT] prints each, and with no POINT the
number of each point. What it lists is read by hand: the page says what each is."""
import glob, itertools, os, re, sys

os.chdir(os.path.join(os.path.dirname(os.path.abspath(__file__)), ".."))
FILES = sorted(glob.glob("crates/*/src/**/*.rt", recursive=True))
FILES = [f for f in FILES if not f.endswith("/rows.rt") or "signature" not in f]
TEXT = {f: open(f).read() for f in FILES}
FN = re.compile(r"^[ ]*(?:pub(?:\(crate\))? )?(?:extern \"C\" )?fn (\w+)(?:<[^(]*>)?\((.*?)\)( ->[^\n]*)?"
                r"(( \{|;)$|\n.*?^\s*\{$)", re.M | re.S)


def lines(pattern, flags=0):
    for f, text in TEXT.items():
        for n, line in enumerate(text.split("\n"), 1):
            if re.search(pattern, line, flags) and not line.lstrip().startswith("//"):
                yield f"{f}:{n}: {line.strip()}"


def functions():
    for f, text in TEXT.items():
        for m in FN.finditer(text):
            n = text.count("\n", 0, m.start()) + 1
            yield f, n, m.group(1), m.group(2), m.group(4)


def parameters(text):
    depth, part, parts = 0, "", []
    for c in text:
        depth += c in "<([{"
        depth -= c in ">)]}"
        if c == "," and depth == 0:
            parts.append(part)
            part = ""
        else:
            part += c
    parts.append(part)
    names = [re.sub(r"^mut ", "", p.split(":")[0].strip()) for p in parts if ":" in p]
    return [p for p in names if p.isidentifier() and p not in ("self", "rt", "heap", "f")]


def numbers():
    """functions that answer a number of 8 bits, constants of 8 bits, and a value that stands for none"""
    yield from lines(r"\bfn \w+.*-> \(?(u8|Option<u8>)\b")
    yield from lines(r"\bconst \w+: u8\b")
    for f, text in TEXT.items():
        for n, line in enumerate(text.split("\n"), 1):
            if re.search(r"//.*\b(0 is n|size 0|; 0, if|else 0|, or 0)", line):
                yield f"{f}:{n}: {line.strip()}"
    yield from lines(r"^\s*(Nothing|None|No\w*),$")


def twins():
    """functions and types of one body but for names and numbers, of four lines or more; names that differ in a width"""
    seen = {}
    for f, text in TEXT.items():
        for m in re.finditer(r"^([ ]*)(?:pub(?:\(crate\))? )?(?:fn|struct|enum) (\w+).*?^\1\}", text, re.M | re.S):
            body = m.group(0)
            body = re.sub(r"//.*", "", body)
            body = re.sub(r"(ensures|requires) ?\w* ?\{.*?\}\n", "", body, flags=re.S)
            head, _, rest = body.partition("{")
            shape = re.sub(r"\b[A-Za-z_]\w*\b|\"[^\"]*\"|\d[\w.]*", "x", rest)
            shape = re.sub(r"\s+", "", shape)
            if rest.count("\n") >= 4 and len(shape) > 40:
                seen.setdefault(shape, []).append(f"{f}:{text.count(chr(10), 0, m.start()) + 1}: {m.group(2)}")
    for group in seen.values():
        if len(group) > 1:
            yield from group
    yield from lines(r"\bfn \w+_(u8|u16|u32|u64)\b")


def loops():
    """loops over numbers, and loops with a test"""
    yield from lines(r"^\s*(while|loop)\b|\bfor \w+ in .*(\.\.)")


def conversions():
    """functions that convert, compare or print, named by hand, and hand-made arms that give back what a method gives"""
    yield from lines(r"\bfn (of|octet|octets|value|text|is_same|show|print_\w+|show_octets|\w+_name|\w+_text|saturated_\w+|\w+_of)\b")
    yield from lines(r"\bas u8 ==|\bas u8\)?,|% 256\) as u8|/ 256\) as u8")
    yield from lines(r"^\s*(Ok|Some)\((\w+)\) => (Ok|Some)\(\2\),$")
    yield from lines(r"^\s*impl.*\b(From<|fmt::Display|TryFrom<)")


def facts():
    """clauses that stand in three or more functions, and parameters that go together through three or more"""
    clauses, groups = {}, {}
    for f, n, name, params, tail in functions():
        crate = f.split("/")[1]
        for c in re.findall(r"requires ?\w* ?\{(.*?)\}\n", tail + "\n", re.S):
            for part in c.split(" × "):
                clauses.setdefault((crate, re.sub(r"[()\s]+", " ", part).strip()), []).append(f"{f}:{n}: {name}")
        for pair in itertools.combinations(sorted(parameters(params)), 2):
            groups.setdefault((crate, pair), []).append(f"{f}:{n}: {name}")
    for (crate, c), where in sorted(clauses.items()):
        if len(where) > 2:
            yield f"{crate}: {c}: {len(where)} functions"
    for (crate, pair), where in sorted(groups.items()):
        if len(where) > 2:
            yield f"{crate}: {', '.join(pair)}: {len(where)} functions"


def buffers():
    """fields that are arrays or counts, and places found by hand"""
    yield from lines(r"^\s*(pub(\(crate\))? )?\w+: \[\w+; \w+\],$")
    yield from lines(r"^\s*(pub(\(crate\))? )?(size|count|len|next|first|last|free|slots): (usize|u16|u32),$")
    yield from lines(r"\b0\.\.=\d+ =>|\d+ \* 256|\* 256 \+")


def switches():
    """arms that call a step"""
    yield from lines(r"=> (self\.)?\w+\(.*(carrier|buffer|rt)\b.*\),?$")


def proofs():
    """lines of proofs"""
    for f in sorted(glob.glob("crates/*/proofs/**/*.antt", recursive=True)):
        for n, line in enumerate(open(f), 1):
            yield f"{f}:{n}: {line.rstrip()}"


POINTS = [numbers, twins, loops, conversions, facts, buffers, switches, proofs]
if len(sys.argv) > 1:
    for place in POINTS[int(sys.argv[1]) - 1]():
        print(place)
else:
    for n, point in enumerate(POINTS, 1):
        print(n, sum(1 for _ in point()), point.__doc__)
