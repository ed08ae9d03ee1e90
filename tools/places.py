#!/usr/bin/env python3
"""Lists the places of src/ where an older form of code may stand, point by point, as docs/DESIGN-PASS.md counts them.

    python3 tools/places.py [--list] [FOLDER]

Without --list only the counts. FOLDER is a checkout (this one, if none is named). Tests are counted too. A line that is listed is a candidate: the page says which are places and which are not."""
import re
import sys
from collections import defaultdict
from pathlib import Path

WORDS = set("fn pub let mut for in if else match return self Self while impl struct enum trait as ref move where true false".split())

FN = re.compile(r"^(?P<indent>[ ]*)(?:pub(?:\([a-z]+\))? )?fn (?P<name>\w+)(?:<.*?>)?\(", re.M)


def without_comments(text):
    """The text with comments and ghost imports blanked, line for line."""
    lines = []
    for line in text.split("\n"):
        code = re.sub(r"//.*", "", line)
        lines.append("" if code.startswith("ghost use") else code)
    return "\n".join(lines)


def closing(text, start, left="(", right=")"):
    """The place behind the bracket that closes the one at `start`."""
    depth = 0
    for place in range(start, len(text)):
        if text[place] == left:
            depth += 1
        elif text[place] == right:
            depth -= 1
            if depth == 0:
                return place + 1
    return len(text)


def split_top(text):
    """What stands between the commas that no bracket encloses."""
    parts, depth, part = [], 0, ""
    for char in text:
        if char in "([{<":
            depth += 1
        elif char in ")]}>":
            depth -= 1
        if char == "," and depth == 0:
            parts.append(part)
            part = ""
        else:
            part += char
    return [p.strip() for p in parts + [part] if p.strip()]


def conjuncts(clause):
    """The facts of a clause, of which one stands between two signs of a product."""
    clause = clause.strip()
    while clause.startswith("(") and closing(clause, 0) == len(clause):
        clause = clause[1:-1].strip()
    parts, depth, part = [], 0, ""
    for char in clause:
        depth += char in "([{"
        depth -= char in ")]}"
        if char == "×" and depth == 0:
            parts.append(part)
            part = ""
        else:
            part += char
    parts.append(part)
    return [clause] if len(parts) == 1 else [fact for p in parts for fact in conjuncts(p)]


def functions(text):
    """Each function: its line, name, parameters, result, clauses and body."""
    for found in FN.finditer(text):
        opening = found.end() - 1
        behind = closing(text, opening)
        parameters = [re.sub(r"\s+", " ", p) for p in split_top(text[opening + 1:behind - 1])]
        end = re.compile(r"^%s(\{|[^\n]*\{ *$|[^\n]*\{\}$|[^\n]*;$)" % found["indent"], re.M).search(text, behind)
        rest = text[behind:]
        result = re.match(r"\s*->\s*([^\n{;]+)", rest)
        clauses = re.findall(r"^\s*(requires|ensures)\b[^{\n]*\{(.*)\}\s*$", rest[: (end.start() - behind) if end else None], re.M)
        body = rest[end.start() - behind:] if end else ""
        brace = body.find("{")
        inner = body[brace:closing(body, brace, "{", "}")] if brace >= 0 else ""
        yield {
            "shape": shape(", ".join(parameters) + (result[0] if result else "") + inner),
            "body": inner,
            "start": found.start(),
            "line": text.count("\n", 0, found.start()) + 1,
            "name": found["name"],
            "parameters": parameters,
            "result": result[1].strip() if result else "",
            "clauses": clauses,
        }


def shape(text):
    """The text of a function, with names, numbers and strings by the order in which they come."""
    names, tokens = {}, []
    for token in re.findall(r"b?\"[^\"]*\"|b?'[^']'|\w+|[^\s\w]", text):
        if re.match(r"\w|b?[\"']", token) and token not in WORDS:
            token = f"#{names.setdefault(token, len(names))}"
        tokens.append(token)
    return tuple(tokens)


def main():
    arguments = [a for a in sys.argv[1:] if a != "--list"]
    root = Path(arguments[0]) if arguments else Path(__file__).resolve().parent.parent
    places = defaultdict(list)
    groups, facts, shapes_of = defaultdict(list), defaultdict(list), defaultdict(list)
    for path in sorted(root.glob("crates/*/src/**/*.rt")):
        name = str(path.relative_to(root / "crates"))
        text = without_comments(path.read_text())
        lines = text.split("\n")

        def put(point, line, what):
            places[point].append(f"{name}:{line}: {what}")

        for found in re.finditer(r"^(?:pub(?:\([a-z]+\))? )?enum (\w+)[^{]*\{(.*?)^\}", text, re.M | re.S):
            variants = split_top(re.sub(r"#\[[^\]]*\]\s*", "", found[2]))
            plain = [v for v in variants if re.fullmatch(r"\w+( = \d+)?", v)]
            line = text.count("\n", 0, found.start()) + 1
            if plain and len(plain) < len(variants):
                put("1a enums of which some cases carry a value and some none", line, found[1])
            if not plain:
                put("7a enums of which every case carries a value", line, found[1])
        for number, line in enumerate(lines, 1):
            if re.search(r"\bfor \w+ in \(?[^{]*\.\.", line) or re.search(r"^\s*(while|loop)\b", line):
                if "u64::MAX" in line:
                    put("3b loops over a range that is no index", number, line.strip())
                else:
                    put("3a loops over a range, and while", number, line.strip())
            if re.search(r"\bis\(\w+, b\"|\w+ == b\"", line):
                put("4c words told apart by comparing", number, line.strip())
            if re.search(r"\.split_at\(|[\[(]0?\.\.(?=\w)", line):
                put("6b parts of a slice by a number beside it", number, line.strip())
            if re.search(r"\bspent: (bool|true|false)\b|let mut understood", line):
                put("1d flags that say which state", number, line.strip())
            if re.search(r"= \w+\.next(_line)?\(\)", line):
                put("7b loops that ask for the next by hand", number, line.strip())
        for found in re.finditer(r"^(?:pub(?:\([a-z]+\))? )?struct (\w+)[^{;]*\{(.*?)^\}", text, re.M | re.S):
            line = text.count("\n", 0, found.start()) + 1
            fields = found[2]
            arrays = len(re.findall(r":\s*(?:&'a (?:mut )?)?\[", fields))
            counts = re.findall(r"\b(count|used|at|lines|len)\s*: usize", fields)
            if arrays and counts or arrays > 1:
                put("6a structs of an array or slice with a count, or of two arrays", line, found[1])
        for function in functions(text):
            what, line = function["name"], function["line"]
            headers = re.findall(r"^(?:pub )?(?:impl|trait)\b[^\n]*", text[: function["start"]], re.M)
            header = headers[-1] if headers else ""
            result, parameters = function["result"], function["parameters"]
            if len(function["shape"]) >= 30:
                shapes_of[function["shape"]].append(f"{name}:{line}: {what}")
            changes = any("&mut" in p for p in parameters)
            if re.search(r"^Option<(Fault|PanelRefusal)>", result):
                put("1b functions of which Some is the failure", line, f"{what} -> {result}")
            if result == "Option<usize>" and "fault" in what:
                put("1b functions of which Some is the failure", line, f"{what} -> {result}")
            if result == "bool" and changes and not re.match(r"is_|has_", what):
                put("1c functions that change and answer a flag", line, what)
            if what == "number" and result == "u32" and "Row" not in header:
                put("4a numbers of cases", line, f"{what} -> {result}")
            if re.match(r"(same|is_blank|has_no_|weighing_number|answer_of|of_fault|of_panel|movement_of|small$|short$|.*_name$|earlier_of|parted)", what):
                put("4b equality, conversion and names by hand", line, what)
            if re.match(r"show_|write_|report$", what):
                put("4d printing by hand", line, what)
            shapes = [re.sub(r"&'\w+ ", "&", p) for p in parameters if p not in ("&self", "&mut self", "self", "mut self")]
            for size in (3, 4, 5):
                for start in range(len(shapes) - size + 1):
                    groups[tuple(re.sub(r"&mut ", "&", s) for s in shapes[start:start + size])].append(f"{name}:{line}: {what}")
            for kind, clause in function["clauses"]:
                if kind == "requires":
                    for fact in conjuncts(clause):
                        facts[re.sub(r"\.(now|old|entry)\b", "", fact)].append(f"{name}:{line}: {what}")
    for twins in shapes_of.values():
        if len(twins) > 1:
            places["2a functions that differ from another in names, types and constants alone"].extend(f"{twin} ~ {twins[0]}" for twin in twins[1:])
    largest = {}
    for group, who in groups.items():
        if len(who) >= 3:
            largest[group] = who
    for group in list(largest):
        if any(len(other) > len(group) and set(largest[group]) <= set(largest[other]) and any(other[i:i + len(group)] == group for i in range(len(other))) for other in largest if other in largest):
            del largest[group]
    for group, who in sorted(largest.items(), key=lambda item: -len(item[1])):
        places["5a parameters, three or more in a row, of three or more functions"].append(f"{len(who)} functions: {', '.join(group)}")
    for fact, who in sorted(facts.items(), key=lambda item: -len(item[1])):
        if len(who) >= 3:
            places["5b facts that three or more contracts require"].append(f"{len(who)} functions: {fact}")
    for point in sorted(places):
        print(f"{len(places[point]):4} {point}")
        if "--list" in sys.argv:
            for place in places[point]:
                print(f"       {place}")


main()
