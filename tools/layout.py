"""The layout of a constant array as `rt fmt` has it."""
import textwrap

WIDTH, ARRAY, SHORT = 99, 60, 10


def wrapped(numbers, indent):
    """Lines that the numbers fill, each number with a comma; the last comma takes no room."""
    lines = textwrap.wrap(", ".join(map(str, numbers)), WIDTH, initial_indent=indent, subsequent_indent=indent)
    return [*lines[:-1], lines[-1] + ","]


def field(name, numbers, indent):
    """The lines of a field that is an array of numbers, in a value of a struct."""
    inner = ", ".join(map(str, numbers))
    if len(inner) + 2 <= ARRAY:
        return [f"{indent}{name}: [{inner}],"]
    return [f"{indent}{name}: [", *wrapped(numbers, indent + "    "), f"{indent}],"]


def constant(name, kind, numbers):
    """Its lines and an empty one: the numbers fill lines where each is short, and else each has a line."""
    if max(len(str(n)) for n in numbers) > SHORT:
        lines = [f"    {n}," for n in numbers]
    else:
        lines = wrapped(numbers, "    ")
    return [f"pub const {name}: [{kind}; {len(numbers)}] = [", *lines, "];", ""]
