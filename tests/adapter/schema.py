"""Whether a message is one of the Debug Adapter Protocol, by the schema classes of pydevd, which are made from the protocol's own schema.

The classes are built from each message, so what is required has to be there; and each member, at any depth, has to be one that the class of its
place has, of the type that stands there."""
import importlib

import pytest

base = pytest.importorskip("_pydevd_bundle._debug_adapter.pydevd_base_schema", reason="python3-debugpy is not there")
importlib.import_module("_pydevd_bundle._debug_adapter.pydevd_schema")  # its classes put themselves into the tables of the base

TYPES = {"string": str, "boolean": bool, "integer": int, "number": (int, float), "array": list, "object": dict, "null": type(None)}
# Members of the protocol that are newer than these classes, and those that it does not have.
NEWER = {("DisassembledInstruction", "presentationHint"), *(("EvaluateResponse.body", name) for name in ("line", "number", "fault"))}


def faults(message):
    """What is wrong with a message, in words; nothing where it is right."""
    try:
        if message["type"] == "response" and not message["success"]:
            base._all_messages["ErrorResponse"](**message)
            return [*of_class("ErrorResponse", message)]
        built = base.from_dict(message)
    except Exception as problem:
        return [f"{type(problem).__name__}: {problem}"]
    return [*of_class(type(built).__name__, message)]


def of_class(name, value):
    """What is wrong with an object of a class."""
    wanted = base._all_messages[name]
    try:
        wanted(**value)
    except TypeError as problem:
        yield f"{name}: {problem}"
    yield from of_members(name, value, wanted.__props__)


def of_members(name, value, props):
    for key, member in value.items():
        if key in props:
            yield from of_value(f"{name}.{key}", member, props[key])
        elif props and (name, key) not in NEWER:
            yield f"{name} has no member {key}"


def of_value(name, value, wanted):
    if "$ref" in wanted:
        yield from of_reference(name, value, base._all_messages[wanted["$ref"].rpartition("/")[2]])
        return
    kinds = wanted.get("type", [])
    kinds = [kinds] if isinstance(kinds, str) else kinds
    if kinds and kinds[0] in base._all_messages:
        yield from of_reference(name, value, base._all_messages[kinds[0]])
        return
    if kinds and not any(isinstance(value, TYPES[kind]) and not (isinstance(value, bool) and kind in ("integer", "number")) for kind in kinds):
        yield f"{name} is {value!r}, and not of type {kinds}"
    elif "enum" in wanted and value not in wanted["enum"]:
        yield f"{name} is {value!r}, none of {wanted['enum']}"
    elif isinstance(value, list) and "items" in wanted:
        for entry in value:
            yield from of_value(f"{name}[]", entry, wanted["items"])
    elif isinstance(value, dict) and "properties" in wanted:
        for key in wanted.get("required", []):
            if key not in value:
                yield f"{name} lacks {key}"
        yield from of_members(name, value, wanted["properties"])


def of_reference(name, value, referred):
    """A value of a class: an object, or of an enumeration a text, which is one of its values where they are closed."""
    if isinstance(value, dict):
        yield from of_class(referred.__name__, value)
    elif not isinstance(value, str) or referred.__props__ or value not in getattr(referred, "VALID_VALUES", {value}):
        yield f"{name} is {value!r}, and no {referred.__name__}"
