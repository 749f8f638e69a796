"""The functions of a source file, by the layout of `rt fmt`, under the names that `rattle` gives them."""

import dataclasses
import re

HOLDER = re.compile(r"(?:unsafe )?impl\b|(?:pub(?:\([^)]*\))? )?trait ")
FUNCTION = re.compile(r'( *)(?:pub(?:\([^)]*\))? )?(?:final )?(?:const )?(?:unsafe )?(?:extern "C" )?fn (\w+)')
NAME = re.compile(r"(&(?:'\w+ )?(?:mut )?)?(?:\w+::)*(\w+)")


@dataclasses.dataclass(frozen=True)
class Function:
    """Its name, as `rattle` takes it, and its lines, counted from 0: all, attributes included, and those of its body."""

    name: str
    lines: range
    body: range


def depths(text):
    """Of each character how many brackets it stands in. Those that open and close a bracket stand outside of it."""
    depth, found = 0, []
    for at, char in enumerate(text):
        depth -= char in ">)]" and text[at - 1 : at] not in ("-", "=")
        found.append(depth)
        depth += char in "<(["
    return found


def named(kind, parameters):
    """A type in the name of an impl: without its path and arguments, `Any` for a parameter, `Tuple2` for a pair."""
    if kind.startswith("("):
        return f"Tuple{sum(bool(it.strip()) for it in kind[1:-1].split(','))}"
    refers, name = NAME.match(kind).groups()
    return ("Ref" if refers else "") + ("Any" if name in parameters else name)


def holder(head):
    """The name of a trait, or of an impl: its type, and then its trait, with the argument of that if it is no parameter."""
    trait = re.match(r"(?:pub(?:\([^)]*\))? )?trait (\w+)", head)
    if trait:
        return trait[1]
    rest, parameters = head.partition("impl")[2], set()
    if rest.startswith("<"):
        end = depths(rest).index(0, 1)
        parameters, rest = set(re.findall(r"(?:^|,)\s*(?:const )?(\w+)", rest[1:end])), rest[end + 1 :]
    free = depths(rest)
    at = next((it.start() for it in re.finditer(" for ", rest) if not free[it.start()]), None)
    if at is None:
        return named(rest.strip(), parameters)
    trait = re.match(r"(?:\w+::)*(\w+)(?:<(.*)>)?$", rest[:at].strip())
    argument = NAME.match(trait[2])[2] if trait[2] else ""
    of = "" if argument in parameters else argument[:1].upper() + argument[1:]
    return named(rest[at + len(" for ") :].strip(), parameters) + trait[1] + of


def end_of_head(lines, number, lead):
    """The line at which a function's head, contracts included, ends: the first of its body, or the last of a head alone."""
    depth = 0
    for at in range(number, len(lines)):
        line = lines[at].partition(" //")[0]
        begins = line.startswith(lead) and line[len(lead)] != " " and line.endswith(("{", "}"))
        before, depth = depth, depth + line.count("{") - line.count("}")
        if (begins and not before) or (line.endswith(";") and not depth):
            return at
    raise ValueError(f"a function without an end: {lines[number]}")


def functions(path, text):
    """The functions of a file of src/ that have a body. The path of a type's own method is that of the type, so if the type is not
    of this file the method's name begins with it."""
    module = "" if path in ("src/lib.rt", "src/main.rt") else path.removeprefix("src/").removesuffix(".rt").replace("/", "::")
    types = set(re.findall(r"(?m)^(?:pub(?:\([^)]*\))? )?(?:struct|enum|union) (\w+)", text))
    lines, inside, home = text.split("\n"), "", module
    for number, line in enumerate(lines):
        if HOLDER.match(line):
            end = next(at for at in range(number, len(lines)) if lines[at].endswith(("{", "}")))
            head = " ".join(it.strip() for it in lines[number : end + 1]).rstrip("{} ")
            inside = holder(head)
            home = module if inside in types or "trait " in head or " for " in head else ""
        elif line == "}":
            inside, home = "", module
        head = FUNCTION.match(line)
        if head and len(head[1]) == (4 if inside else 0):
            begin = end_of_head(lines, number, head[1])
            if not lines[begin].endswith(";"):
                end = begin if lines[begin].endswith("}") else lines.index(head[1] + "}", begin)
                name = "::".join(filter(None, (home, inside, head[2])))
                first = next(at for at in range(number, -1, -1) if not lines[at - 1].startswith(head[1] + "#["))
                yield Function(name, range(first, end + 1), range(begin, end + 1))
