#!/usr/bin/env python3
"""places.py [REV] [--list]: counts in crates/*/src what docs/DESIGN-PASS.md speaks of, point by point; in the working tree, or at a commit.

--list prints each place with its file and line, so that the count can be read."""
import difflib, re, subprocess, sys
from pathlib import Path

TOP = Path(__file__).resolve().parent.parent
REASONS = ("FILE_TOO_LONG NO_MAGIC HEADER_TOO_LONG TOO_MANY_LINES BAD_BYTE NO_MARK UNKNOWN_FIELD NOT_IN_VERSION REPEATED_FIELD OUT_OF_ORDER "
           "BAD_DESCRIPTOR BAD_BACKSLASH NO_END MISSING_FIELD EXTENT_TOO_LARGE SKIP_PAST_END PLACE_TOO_LARGE DATA_TOO_SHORT FLOAT_SAMPLES "
           "BAD_SAMPLE DATA_ENDS_EARLY LENT_TOO_SHORT BAD_COORDINATES BAD_KEY BAD_VALUE WRONG_TABLE WRONG_COUNT NO_SWEEP NO_SUCH_FILE "
           "SEVERAL_FILES").split()
KINDS = "RAW TEXT HEX LITTLE BIG NO_ENDIAN DETACHED NO_SPACE ENCODINGS ENDIANS FLOAT COUNT".split()
OWN = ("is_same begins_with is_alike put_bytes write zero move_up move_down copy least most min max before signed signed_of bits_of power_of "
       "bits_of_power fold turn turn2 turn4 turn8 load load2 load4 load8 store2 store4 store8 has_zero same_bytes same_refusal same_place "
       "same_reading show").split()


def files(rev):
    """Path and text of each source file."""
    if rev is None:
        for path in sorted(TOP.glob("crates/*/src/**/*.rt")):
            yield str(path.relative_to(TOP)), path.read_text()
        return
    names = subprocess.run(["git", "-C", TOP, "ls-tree", "-r", "--name-only", rev, "crates"], capture_output=True, text=True, check=True).stdout
    for name in names.split():
        if re.fullmatch(r"crates/\w+/src/.*\.rt", name):
            yield name, subprocess.run(["git", "-C", TOP, "show", f"{rev}:{name}"], capture_output=True, text=True, check=True).stdout


def bare(text):
    """The text with comments and strings as blanks, line for line."""
    return re.sub(r'//[^\n]*|b?"(?:[^"\\\n]|\\.)*"', lambda m: " " * len(m.group()), text)


def functions(text):
    """Name, line, parameters, contract and body of each function."""
    for m in re.finditer(r"\bfn (\w+)", text):
        at = text.find("(", m.end())
        depth, i = 0, at
        while i < len(text):
            depth += {"(": 1, ")": -1}.get(text[i], 0)
            i += 1
            if depth == 0:
                break
        parameters = text[at + 1:i - 1]
        # the contract's clauses stand in braces on lines of their own; the body's brace stands alone, or ends the line of a function without a contract
        body_at = re.compile(r"^\s*\{$|\{$|;$", re.M).search(text, i)
        if not body_at or text[body_at.end() - 1] == ";":
            continue
        contract = text[i:body_at.start()]
        depth, j = 0, body_at.end() - 1
        while j < len(text):
            depth += {"{": 1, "}": -1}.get(text[j], 0)
            j += 1
            if depth == 0:
                break
        yield m.group(1), text.count("\n", 0, m.start()) + 1, parameters, contract, text[body_at.end():j - 1]


def parts(parameters):
    """How many parameters there are."""
    depth, n, some = 0, 0, False
    for c in parameters:
        depth += {"(": 1, "[": 1, "<": 1, ")": -1, "]": -1, ">": -1}.get(c, 0)
        if c == "," and depth == 0:
            n, some = n + 1, False
        elif not c.isspace():
            some = True
    return n + some


def main():
    arguments = [a for a in sys.argv[1:] if a != "--list"]
    found = {}
    bodies, clauses = [], {}

    def place(point, where, what=""):
        found.setdefault(point, []).append((where, what))

    for path, whole in files(arguments[0] if arguments else None):
        text = bare(whole)
        lines = text.split("\n")
        for n, line in enumerate(lines, 1):
            where = f"{path}:{n}"
            inside = not path.startswith("crates/format/")
            for word in re.findall(r"\bformat::([A-Z_]+)\b", line):
                if word in REASONS:
                    place("1 refusals by number: uses of the constants", where, word)
            for word in re.findall(r"\b(?:format|wide|types)::([A-Z_]+)\b", line):
                if word in KINDS:
                    place("1 kinds by number: uses of the constants", where, word)
            if inside and re.search(r"\.number (?:!=|==) 0", line):
                place("1 refusals by number: tests of a refusal for 0", where)
            if re.match(r"\s*(while|loop)\b", line):
                place("3 loops by hand: while and loop", where)
            if re.match(r"\s*for\b.*\bin \d+\.\.", line) or re.match(r"\s*for\b.*\bin \w+\.\.", line):
                place("3 loops over an index: for over a range", where)
        for m in re.finditer(r"enum (\w+)[^{]*\{([^{}]*(?:\{[^}]*\}[^{}]*)*)\}", text):
            variants = [v.strip() for v in re.split(r",(?![^({]*[)}])", m.group(2)) if v.strip()]
            if len(variants) == 2 and sum(bool(re.search(r"[({]", v)) for v in variants) >= 1:
                place("1 enums of the shape of Option or Result", f"{path}:{text.count(chr(10), 0, m.start()) + 1}", m.group(1))
        for m in re.finditer(r"((?:#\[[^\]]*\]\s*)*)(?:pub(?:\(crate\))? )?struct (\w+)[^{;(]*\{([^}]*)\}", text):
            flags = re.findall(r"\b(fine|found|given|wrong|second|list|is_\w+|has_\w+|none|sized|single): (?:bool|u32)\b", m.group(3))
            if flags and m.group(3).count(":") > 1:
                c = " (C)" if "repr(C)" in m.group(1) else ""
                place("1 a flag or a number of refusal with values beside it" + c, f"{path}:{text.count(chr(10), 0, m.start()) + 1}", m.group(2))
        for name, line, parameters, contract, body in functions(text):
            where = f"{path}:{line}"
            if parts(parameters) > 6:
                place("5 functions of more than six parameters", where, f"{name} {parts(parameters)}")
            if name in OWN:
                place("4 equality, order, copying, conversion and printing of our own", where, name)
            if re.search(r"\b(packed|width|kinds|wanted|several): (bool|usize)\b", parameters) and "requires" not in name:
                if re.search(r"\b(packed|kinds): bool|\bwidth: usize", parameters):
                    place("7 a parameter that switches what is done", where, name)
            if re.search(r"&(?:mut )?\[\w+(?:; [\w:]+)?\]", parameters) and re.search(r"\b(n|count|used|length|len): (usize|u32)\b", parameters):
                place("6 a buffer with a length beside it", where, name)
            for clause in re.findall(r"^\s*(?:requires|ensures)\b.*$", whole[whole.find("fn " + name):][:len(contract) + 4000].split("\n{")[0], re.M):
                clauses.setdefault(re.sub(r"^\s*(\w+)( \w+)? \{", r"\1 {", clause).strip(), set()).add(where)
            tokens = re.findall(r"\w+|[^\w\s]", body)
            if len(tokens) >= 25 and not path.startswith("crates/gate_"):
                bodies.append((where, name, tokens))
    for clause, where in clauses.items():
        if len(where) >= 3 and clause.startswith("requires"):
            place("5 requires that stand in three contracts or more", sorted(where)[0], f"{len(where)} times: {clause[:110]}")
    for i, (where, name, a) in enumerate(bodies):
        for other, named, b in bodies[i + 1:]:
            if 0.75 < len(a) / len(b) < 1.33 and difflib.SequenceMatcher(None, a, b, False).quick_ratio() > 0.85:
                if difflib.SequenceMatcher(None, a, b, False).ratio() >= 0.85:
                    place("2 twins: pairs of functions whose bodies agree in 85 of 100 words", where, f"{name} = {other} {named}")
    for point in sorted(found):
        print(f"{len(found[point]):5d}  {point}")
        if "--list" in sys.argv:
            for where, what in found[point]:
                print(f"         {where} {what}")


main()
