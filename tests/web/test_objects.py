"""The objects of answers as the scripts of the page and of the package know them (web/src/auditor/objects.ts), beside
docs/answer.schema.json, by tsc."""
import json
import subprocess

from common import TOP, needs

SCHEMA = json.loads((TOP / "docs/answer.schema.json").read_text(encoding="utf-8"))["$defs"]
SIMPLE = {"string": "string", "integer": "number", "boolean": "boolean", "null": "null"}
# What a call never answers, but `folder` prints.
OF_FOLDERS = {"entry", "total"}
# The kinds of which the scripts know each key, and not only those that they read.
WHOLE = ["margins", "group_margins"]


def one_of(types):
    return " | ".join(f"({each})" for each in types)


def type_of(schema):
    """What a schema takes, as a type of TypeScript, but for how large numbers are and how texts look."""
    if "const" in schema or "enum" in schema:
        return one_of(map(json.dumps, schema.get("enum", [schema.get("const")])))
    if "oneOf" in schema:
        return one_of(map(type_of, schema["oneOf"]))
    if schema.get("type") == "object":
        # What a file declares may be more than a number holds, and is made a text where an object is read.
        types = {key: "string | null" if key.startswith("declared_") else type_of(each) for key, each in schema["properties"].items()}
        return f"{{ {'; '.join(f'readonly {key}: {each}' for key, each in types.items())} }}"
    if schema.get("type") == "array":
        items = [*map(type_of, schema.get("prefixItems", []))]
        return f"readonly [{', '.join(items)}]" if items else f"readonly ({type_of(schema['items'])})[]"
    if "$ref" in schema:
        return type_of(SCHEMA[schema["$ref"].removeprefix("#/$defs/")])
    types = schema["type"]
    return one_of(SIMPLE[each] for each in ([types] if isinstance(types, str) else types))


# Whether two types are the same, in each key.
SAME = "type Same<One, Other> = (<T>() => T extends One ? 1 : 2) extends (<T>() => T extends Other ? 1 : 2) ? true : false;"


def test_types_are_those_of_the_schema(room):
    """Each object that a call answers is one that the scripts know, with the keys that they read there; tables have all keys."""
    needs("tsc")
    kinds = {name: type_of(schema) for name, schema in SCHEMA.items() if "kind" in schema.get("properties", {})}
    lines = [f"import type {{ AnswerObject }} from '{TOP}/web/src/auditor/objects.js';", SAME,
             *(f"type {name}_ = {each};" for name, each in kinds.items()),
             *(f"export const {name} = (told: {name}_): AnswerObject => told;" for name in kinds if name not in OF_FOLDERS),
             *(f"export const same_{name}: Same<Extract<AnswerObject, {{ kind: '{name}' }}>, {name}_> = true;" for name in WHOLE)]
    (room / "schema.ts").write_text("\n".join(lines), encoding="utf-8")
    words = ["tsc", "--strict", "--noEmit", "--target", "es2022", "--moduleResolution", "node", "schema.ts"]
    told = subprocess.run(words, cwd=room, capture_output=True, text=True, check=False)
    assert len(kinds) == 11
    assert told.returncode == 0, told.stdout
