#!/usr/bin/env python3
"""Holds the JSON that the sessions of crates/test_sessions/data show against docs/threefield.schema.json.

    python3 bench/json_schema.py

Of each command with --json both outputs are empty or one object on one line, which fits the definition of its command, or of
what is said on standard error; its first member is the version. Of several instances there is such a line for each, and the
second member is its number. That the program prints what the sessions show is tested by
playing them. The judge of schemas here knows the few words of JSON Schema that this schema has.
"""
import json
import os
import sys

import sessions

SCHEMA = os.path.join(os.path.dirname(os.path.abspath(__file__)), "..", "docs", "threefield.schema.json")
KNOWN = {"$ref", "$schema", "$defs", "title", "description", "oneOf", "const", "enum", "type", "minimum", "items", "required",
         "properties", "additionalProperties"}


def is_whole(value):
    return isinstance(value, int) and not isinstance(value, bool)


TYPES = {
    "object": lambda value: isinstance(value, dict),
    "array": lambda value: isinstance(value, list),
    "string": lambda value: isinstance(value, str),
    "boolean": lambda value: isinstance(value, bool),
    "null": lambda value: value is None,
    "integer": is_whole,
    "number": lambda value: is_whole(value) or isinstance(value, float),
}


def faults(value, schema, whole, place="$"):
    """What of a value does not fit a schema."""
    unknown = set(schema) - KNOWN
    if unknown:
        raise ValueError(f"the judge does not know {unknown}")
    if "$ref" in schema:
        name = schema["$ref"].removeprefix("#/$defs/")
        yield from faults(value, whole["$defs"][name], whole, place)
    if "const" in schema and value != schema["const"]:
        yield f"{place} is not {schema['const']!r}"
    if "enum" in schema and value not in schema["enum"]:
        yield f"{place} is none of {schema['enum']}"
    types = schema.get("type", [])
    types = [types] if isinstance(types, str) else types
    if types and not any(TYPES[name](value) for name in types):
        yield f"{place} is no {' or '.join(types)}"
    if "minimum" in schema and value is not None and value < schema["minimum"]:
        yield f"{place} is below {schema['minimum']}"
    if "oneOf" in schema and not any(not list(faults(value, one, whole, place)) for one in schema["oneOf"]):
        yield f"{place} is none of the objects"
    if isinstance(value, list) and "items" in schema:
        for number, item in enumerate(value):
            yield from faults(item, schema["items"], whole, f"{place}[{number}]")
    if isinstance(value, dict) and "properties" in schema:
        for name in schema.get("required", []):
            if name not in value:
                yield f"{place} lacks {name}"
        for name, member in value.items():
            if name in schema["properties"]:
                yield from faults(member, schema["properties"][name], whole, f"{place}.{name}")
            elif schema.get("additionalProperties") is False:
                yield f"{place} has {name}"


def is_range(words):
    """Whether a command line names several instances."""
    return "--index" in words and not words[words.index("--index") + 1].isdigit()


def definition_of(words):
    """The definition of what a command line prints on standard output."""
    if "--orders" in words and not is_range(words):
        return "orders"
    return "border" if "--border" in words else words[0]


def object_faults(text, name, whole):
    """What is wrong with a text that is to be one object on one line."""
    if not text.endswith("\n") or text.count("\n") != 1:
        return ["not one line"]
    try:
        value = json.loads(text)
    except ValueError as error:
        return [str(error)]
    wrong = list(faults(value, whole["$defs"][name], whole)) + list(faults(value, whole, whole))
    if next(iter(value)) != "version":
        wrong.append("version is not the first member")
    return wrong


def main():
    with open(SCHEMA, encoding="utf-8") as file:
        whole = json.load(file)
    passed = failed = 0
    seen = set()
    for path in sessions.files():
        for command in sessions.commands(path):
            words = command.words()
            if "--json" not in words or command.status == 5 or "--help" in words:
                continue
            lines = command.output.splitlines(keepends=True) if is_range(words) else [command.output]
            shown = [(line, definition_of(words)) for line in lines] + [(command.errors, "said")]
            for text, name in shown:
                if not text:
                    continue
                seen.add(name)
                wrong = object_faults(text, name, whole)
                passed += not wrong
                failed += bool(wrong)
                for fault in wrong:
                    print(f"{os.path.basename(path)}:{command.number}: {name}: {fault}")
    for name in sorted({one["$ref"].removeprefix("#/$defs/") for one in whole["oneOf"]} - seen):
        failed += 1
        print(f"no session shows {name}")
    print(f"{passed} passed, {failed} failed")
    return failed > 0


if __name__ == "__main__":
    sys.exit(main())
