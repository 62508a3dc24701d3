"""Whether a JSON value fits a JSON Schema, for tools that check documents. It knows the keywords that the schemas in docs/ use."""
import json
import sys

TYPES = {"object": dict, "array": list, "string": str, "boolean": bool, "integer": int, "null": type(None)}
KNOWN = {"$schema", "title", "definitions", "$ref", "type", "enum", "required", "properties", "additionalProperties", "items"}


def is_of(value, name):
    """Returns whether a JSON value has a type, by its name in a schema."""
    return isinstance(value, TYPES[name]) and not (name == "integer" and isinstance(value, bool))


def misfits(schema, value, whole, place="$"):
    """Yields each place where a value doesn't fit a schema, and why."""
    if set(schema) - KNOWN:
        sys.exit(f"unknown keywords of a schema: {sorted(set(schema) - KNOWN)}")
    if "$ref" in schema:
        yield from misfits(whole["definitions"][schema["$ref"].rsplit("/", 1)[1]], value, whole, place)
        return
    types = schema.get("type", [])
    types = [types] if isinstance(types, str) else types
    if types and not any(is_of(value, it) for it in types):
        yield f"{place}: not of type {' or '.join(types)}"
        return
    if "enum" in schema and value not in schema["enum"]:
        yield f"{place}: {json.dumps(value)} isn't allowed"
    if isinstance(value, dict):
        yield from (f"{place}: no {it}" for it in schema.get("required", []) if it not in value)
        of, others = schema.get("properties", {}), schema.get("additionalProperties", {})
        for name, part in value.items():
            yield from misfits(of.get(name, others), part, whole, f"{place}.{name}")
    if isinstance(value, list) and "items" in schema:
        for number, part in enumerate(value):
            yield from misfits(schema["items"], part, whole, f"{place}[{number}]")
