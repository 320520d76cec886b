"""Holds the table of opcodes to what javap tells of classes of the JDK: opcodes by name and length, and words of operands.

  python3 opcodes.py TABLE WORDS CLASS..

TABLE and WORDS are Table.antt and Words.antt of crates/jcf_effects/specs. For each method the words that stand at a time, by the table and
the descriptors that javap shows, are never below 0, are the same wherever ways meet, and are at most what the class file says: exactly so
many, since javac writes no more than it needs. Prints what differs, and how many instructions and methods were held to it.
"""
import re
import subprocess
import sys

NAMED_WIDE = re.compile(r"^(.load|.store|iinc|ret)_w$")


def table_of(path):
    rows = {}
    for line in open(path, encoding="utf-8"):
        row = re.match(r'\s+(?:∷ )?opcode (\d+) \(codes "(\w+)"\) (\(.*?\)|\S+) \(?(.*?)\)?$', line)
        if row:
            rows[row[2]] = (row[3].strip("()").split()[0], row[4].rstrip(")").split())
    return rows


def numbers_of(path, head):
    numbers = {}
    for line in open(path, encoding="utf-8"):
        row = re.match(head + r" \(?(\w+\.\w+).*?\)? = (?:Some )?(.+)$", line)
        if row:
            numbers[row[1]] = row[2].strip()
    return numbers


def words_of(kind):
    return 0 if kind == "V" else 2 if kind in "JD" else 1


def taken_of(descriptor):
    kinds = re.findall(r"\[*(?:L[^;]*;|[A-Z])", descriptor[1 : descriptor.index(")")])
    return sum(words_of(kind) for kind in kinds)


def by_descriptor(op, said):
    """Words that an instruction takes and gives whose row leaves that to a descriptor."""
    if op == "multianewarray":
        return int(re.match(r"#\d+,\s+(\d+)", said)[1]), 1
    if "field" in op or "static" in op and op != "invokestatic":
        words = words_of(said.rsplit(":", 1)[1].strip())
        object_ = 1 if "field" in op else 0
        return (object_, words) if op.startswith("get") else (object_ + words, 0)
    descriptor = said[said.rindex(":(") + 1 :].strip() if ":(" in said else said[said.rindex("(") :]
    taken = taken_of(descriptor) + (0 if op in ("invokestatic", "invokedynamic") else 1)
    return taken, words_of(descriptor[descriptor.index(")") + 1 :])


def moves_of(words, moved, row, op, said):
    name = row[0]
    if name == "effects.Move":
        return tuple(int(word) for word in re.findall(r"\d+", moved[row[1]]))
    told = words[name]
    if told == "None":
        return by_descriptor(op, said)
    places = {"takes": 1, "gives": 2, "n": 1}
    return tuple(int(row[places[word]]) if word in places else int(word) for word in re.findall(r"\w+", told))


def methods_of(text):
    """Of each method its words of operands, instructions and handlers."""
    found, method = [], None
    for line in text.splitlines():
        head = re.match(r"\s+stack=(\d+), locals=\d+", line)
        row = re.match(r"\s+(\d+): ([a-z]\w*)\s*(.*)$", line)
        arm = re.match(r"\s+(-?\d+|default): (\d+)$", line)
        handler = re.match(r"\s+(\d+)\s+(\d+)\s+(\d+)\s+(?:any|Class \S+)$", line)
        if head:
            method = (int(head[1]), [], [])
            found.append(method)
        elif method and handler:
            method[2].append(int(handler[3]))
        elif method and row and len(line) - len(line.lstrip()) < 12:
            method[1].append([int(row[1]), row[2], row[3], []])
        elif method and arm and method[1] and method[1][-1][1].endswith("switch"):
            method[1][-1][3].append(int(arm[2]))
    return found


def held(rows, fixed, words, moved, method):
    """What differs in a method, a line each."""
    most, instructions, handlers = method
    places = {row[0]: index for index, row in enumerate(instructions)}
    for row, after in zip(instructions, instructions[1:]):
        form = rows.get(row[1], (None,))[0]
        if not NAMED_WIDE.match(row[1]) and fixed.get(form) != "None" and str(after[0] - row[0] - 1) != fixed.get(form):
            yield f"{row[1]} takes {after[0] - row[0]} bytes"
    depths, ways, highest = {}, [(0, 0)] + [(place, 1) for place in handlers], 0
    while ways:
        place, depth = ways.pop()
        highest = max(highest, depth)
        if place in depths:
            if depths[place] != depth:
                yield f"{depth} and {depths[place]} words at {place}"
            continue
        depths[place] = depth
        _, op, said, arms = instructions[places[place]]
        row = rows[op[:-2] if NAMED_WIDE.match(op) else op][1]
        takes, gives = moves_of(words, moved, row, op, said)
        if depth < takes:
            yield f"{op} takes {takes} of {depth} words"
        depth = depth - takes + gives
        leads = arms or ([int(said.split()[0])] if row[0].startswith("effects.If") or row[0] == "effects.Go" else [])
        ways += [(lead, depth) for lead in leads]
        highest = max(highest, depth)
        if row[0] not in ("effects.Go", "effects.Switch", "effects.Return", "effects.Throw"):
            ways.append((instructions[places[place] + 1][0], depth))
    if highest != most:
        yield f"{highest} words of {most}"


def main(table, words_path, *classes):
    rows, fixed = table_of(table), numbers_of(words_path, "fixed_bytes")
    words, moved = numbers_of(words_path, "words"), numbers_of(words_path, "moved")
    text = subprocess.run(["javap", "-c", "-v", "-p", *classes], capture_output=True, text=True, check=True).stdout
    methods = methods_of(text)
    wrong = [line for method in methods for line in held(rows, fixed, words, moved, method)]
    print("\n".join(sorted(set(wrong))[:20]))
    print(len(rows), "opcodes,", sum(len(method[1]) for method in methods), "instructions,", len(methods), "methods")
    sys.exit(1 if wrong or len(rows) != 202 or not methods else 0)


main(*sys.argv[1:])
