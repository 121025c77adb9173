"""Holds a JSON value against a JSON schema that has only the words below."""

TYPES = {"object": dict, "array": list, "string": str, "integer": int, "boolean": bool}


def is_of_type(value, name):
    return isinstance(value, TYPES[name]) and (name == "boolean" or not isinstance(value, bool))


def misfits(value, schema, root=None, at="$"):
    """Where the value isn't as the schema says, a text each."""
    root = schema if root is None else root
    if "$ref" in schema:
        yield from misfits(value, root["$defs"][schema["$ref"].removeprefix("#/$defs/")], root, at)
        return
    if "type" in schema and not is_of_type(value, schema["type"]):
        yield f"{at} is no {schema['type']}"
        return
    if "const" in schema and value != schema["const"]:
        yield f"{at} is {value!r}"
    if "enum" in schema and value not in schema["enum"]:
        yield f"{at} is {value!r}"
    if "oneOf" in schema and sum(not [*misfits(value, it, root, at)] for it in schema["oneOf"]) != 1:
        yield f"{at} is none of its forms, or several"
    if isinstance(value, int) and value < schema.get("minimum", value):
        yield f"{at} is {value}"
    if isinstance(value, list):
        for place, it in enumerate(value):
            yield from misfits(it, schema.get("items", {}), root, f"{at}[{place}]")
    if isinstance(value, dict):
        yield from misfits_of_object(value, schema, root, at)


def misfits_of_object(value, schema, root, at):
    named = schema.get("properties", {})
    yield from (f"{at} has no {key}" for key in schema.get("required", []) if key not in value)
    for key, it in value.items():
        if key in named:
            yield from misfits(it, named[key], root, f"{at}.{key}")
        elif schema.get("additionalProperties") is False:
            yield f"{at} has {key}"
    if not schema.get("minProperties", 0) <= len(value) <= schema.get("maxProperties", len(value)):
        yield f"{at} has {len(value)} members"
