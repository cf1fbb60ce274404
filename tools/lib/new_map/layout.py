"""How code, contracts and definitions are laid out: as `rt fmt` has them, where names aren't long."""

CODE_WIDTH = 100
WIDTH = 120


def filled(text, margin, first=None):
    """The lines of a text, filled up word by word behind a margin, which the first line may have for itself."""
    lines, line = [], margin if first is None else first
    start = line
    for word in text.split(" "):
        if line != start and len(line) + 1 + len(word) > WIDTH:
            lines.append(line)
            line = start = margin
        line += word if line == start else f" {word}"
    return "\n".join([*lines, line]) + "\n"


def comment(text, mark="///"):
    """The lines of a comment."""
    return filled(text, mark + " ")


def signature(head, parameters, result):
    line = f"{head}({', '.join(parameters)}) -> {result}"
    if len(line) <= CODE_WIDTH:
        return line
    return f"{head}(\n" + "".join(f"    {it},\n" for it in parameters) + f") -> {result}"


def type_alias(name, kind):
    """A line that names a type; the arguments of a long one stand in lines of their own."""
    line = f"type {name} = {kind};"
    if len(line) <= CODE_WIDTH:
        return line + "\n"
    outer, _, rest = kind.partition("<")
    arguments, depth = [""], 0
    for character in rest[:-1]:
        depth += (character in "<(") - (character in ">)")
        if character == "," and not depth:
            arguments.append("")
        else:
            arguments[-1] += character
    return f"type {name} = {outer}<\n" + "".join(f"    {it.strip()},\n" for it in arguments) + ">;\n"


def clause(name, text):
    """The lines of a clause `ensures`."""
    return filled(f"ensures {name + ' ' if name else ''}{{ {text} }}", " " * 8, " " * 4)


def method_call(receiver, name, types, arguments):
    """A body that is one call."""
    head = f"    {receiver}.{name}" + (f"::<{types}>" if types else "")
    line = f"{head}({', '.join(arguments)})"
    if len(line) <= CODE_WIDTH:
        return line + "\n"
    return f"{head}(\n" + "".join(f"        {it},\n" for it in arguments) + "    )\n"


def statement(name, kind):
    """A line that says of what type a definition is."""
    line = f"{name} : {kind}\n"
    return line if len(line) <= WIDTH else f"{name} :\n{filled(kind, '    ')}"


def equation(left, right):
    """A line of a definition, with its right side below if it is long or has several lines."""
    if "\n" in right:
        return f"{left} =\n    {right}\n"
    line = f"{left} = {right}\n"
    return line if len(line) <= WIDTH - 10 else f"{left} =\n{filled(right, '    ')}"
