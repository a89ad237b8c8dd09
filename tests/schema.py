"""A validator for plan.schema.json: the part of JSON Schema (2020-12) that this file uses.

`faults(schema, value)` lists what is wrong with a value. A keyword that isn't known here is an
error, so that no rule of a schema is left out in silence.
"""

import re

NOTES = {"$schema", "$defs", "title", "description"}
TYPES = {"object": dict, "array": list, "string": str}


def is_type(name, value):
    """Whether a value is of a type of JSON. True and false are no integers."""
    if name == "integer":
        whole = isinstance(value, int) or isinstance(value, float) and value.is_integer()
        return whole and not isinstance(value, bool)
    return isinstance(value, TYPES[name])


def is_number(value):
    return isinstance(value, (int, float)) and not isinstance(value, bool)


def named(root, reference):
    """The schema that `#/$defs/NAME` names."""
    for step in reference.removeprefix("#/").split("/"):
        root = root[step]
    return root


def simple_fault(keyword, wanted, value):
    """What a keyword that looks at the value alone finds wrong, or None."""
    holds = {
        "type": lambda: is_type(wanted, value),
        "enum": lambda: value in wanted,
        "minimum": lambda: not is_number(value) or value >= wanted,
        "maximum": lambda: not is_number(value) or value <= wanted,
        "multipleOf": lambda: not is_number(value) or value % wanted == 0,
        "pattern": lambda: not isinstance(value, str) or re.search(wanted, value),
        "minItems": lambda: not isinstance(value, list) or len(value) >= wanted,
        "maxItems": lambda: not isinstance(value, list) or len(value) <= wanted,
        "uniqueItems": lambda: not isinstance(value, list) or is_unique(value),
        "required": lambda: not isinstance(value, dict) or set(wanted) <= value.keys(),
    }
    if keyword not in holds:
        raise KeyError(f"the keyword {keyword} isn't known to tests/schema.py")
    return None if holds[keyword]() else f"{keyword} {wanted}"


def is_unique(values):
    return all(value not in values[:at] for at, value in enumerate(values))


def faults(schema, value, root=None, path="plan"):
    """What is wrong with a value: texts that begin with its path."""
    root, found = root or schema, []
    for keyword, wanted in schema.items():
        if keyword in NOTES:
            continue
        if keyword == "$ref":
            found += faults(named(root, wanted), value, root, path)
        elif keyword == "anyOf":
            if all(faults(choice, value, root, path) for choice in wanted):
                found.append(f"{path}: none of the forms that it may have")
        elif keyword == "properties":
            for key, inner in wanted.items():
                if isinstance(value, dict) and key in value:
                    found += faults(inner, value[key], root, f"{path}.{key}")
        elif keyword == "additionalProperties":
            unknown = value.keys() - schema["properties"].keys() if isinstance(value, dict) else ()
            found += [f"{path}.{key}: an unknown key" for key in sorted(unknown)]
        elif keyword == "items":
            for at, item in enumerate(value if isinstance(value, list) else ()):
                found += faults(wanted, item, root, f"{path}[{at}]")
        elif fault := simple_fault(keyword, wanted, value):
            found.append(f"{path}: {fault}")
    return found
