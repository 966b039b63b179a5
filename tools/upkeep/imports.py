"""What a line `use` or `ghost use` of Rattle imports."""

import re

LINE = re.compile(r"^ *(?P<pub>pub )?(?:ghost )?use (?P<path>Rattle\.[^;]+?);?$")


def items(text):
    """The items of a list in braces. A comma inside inner braces divides nothing."""
    found, depth = [""], 0
    for char in text:
        depth += (char == "{") - (char == "}")
        if char == "," and not depth:
            found.append("")
        else:
            found[-1] += char
    return [item.strip() for item in found]


def modules(path):
    """Each module that a path imports from, the names that it imports, and the name that it gives to the module itself, or none."""
    front, brace, rest = path.partition("{")
    if not brace:
        module, _, alias = path.partition(" as ")
        return [(module, [], alias)]
    inner = items(rest[:-1])
    if any("{" in item for item in inner):
        return [found for item in inner for found in modules(front + item)]
    return [(front.rstrip("."), inner, "")]


def of_specs(line, is_passed_on=False):
    """What a line imports of the definitions of crates: the crate, the path in specs/, the names, the module's own name; only what the line also passes on
    to others, where that is asked."""
    found = LINE.match(line)
    if not found or is_passed_on and not found["pub"]:
        return []
    parts = [(re.match(r"Rattle\.(\w+)\.specs\.(.+)", module), names, alias) for module, names, alias in modules(found["path"])]
    return [(part[1], part[2], names, alias) for part, names, alias in parts if part]
