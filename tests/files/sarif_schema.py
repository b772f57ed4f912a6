"""A part of SARIF 2.1.0's schema, and a small validator of JSON Schema.

The standard's own schema file isn't here, and nothing is fetched: this one is written from the standard (OASIS, sections
3.13 to 3.49) for the objects that `smash-files` writes, with their required properties, types, enumerations and ranges,
and without the objects that it doesn't write: a property that isn't named here is refused, so nothing else slips in.
"""
import re
from typing import Any

Schema = dict[str, Any]

TEXT: Schema = {"type": "string"}
MESSAGE: Schema = {"type": "object", "required": ["text"], "properties": {"text": TEXT}}
ARTIFACT_LOCATION: Schema = {
    "type": "object", "required": ["uri"],
    "properties": {"uri": {"type": "string", "pattern": r"(?:[A-Za-z0-9._~/:@!$&'()*+,;=-]|%[0-9A-F]{2})+"}},
}
REGION: Schema = {
    "type": "object", "required": ["startLine"],
    "properties": {"startLine": {"type": "integer", "minimum": 1}, "startColumn": {"type": "integer", "minimum": 1}},
}
LOCATION: Schema = {
    "type": "object", "required": ["physicalLocation"],
    "properties": {
        "message": MESSAGE,
        "physicalLocation": {
            "type": "object", "required": ["artifactLocation"],
            "properties": {"artifactLocation": ARTIFACT_LOCATION, "region": REGION},
        },
    },
}
LEVEL: Schema = {"enum": ["none", "note", "warning", "error"]}
THREAD_FLOW: Schema = {
    "type": "object", "required": ["locations"],
    "properties": {"locations": {"type": "array", "minItems": 1, "items": {
        "type": "object", "required": ["location"], "properties": {"location": LOCATION}}}},
}
RESULT: Schema = {
    "type": "object", "required": ["message"],
    "properties": {
        "ruleId": TEXT, "ruleIndex": {"type": "integer", "minimum": -1}, "level": LEVEL, "message": MESSAGE,
        "kind": {"enum": ["notApplicable", "pass", "fail", "review", "open", "informational"]},
        "locations": {"type": "array", "items": LOCATION},
        "codeFlows": {"type": "array", "items": {
            "type": "object", "required": ["threadFlows"],
            "properties": {"threadFlows": {"type": "array", "minItems": 1, "items": THREAD_FLOW}}}},
        "partialFingerprints": {"type": "object", "values": TEXT},
        "baselineState": {"enum": ["new", "unchanged", "updated", "absent"]},
    },
}
RULE: Schema = {
    "type": "object", "required": ["id"],
    "properties": {"id": TEXT, "shortDescription": MESSAGE, "defaultConfiguration": {
        "type": "object", "properties": {"level": LEVEL}}},
}
RUN: Schema = {
    "type": "object", "required": ["tool"],
    "properties": {
        "tool": {"type": "object", "required": ["driver"], "properties": {"driver": {
            "type": "object", "required": ["name"],
            "properties": {"name": TEXT, "version": TEXT, "rules": {"type": "array", "items": RULE, "unique": True}}}}},
        "columnKind": {"enum": ["utf16CodeUnits", "unicodeCodePoints"]},
        "invocations": {"type": "array", "items": {
            "type": "object", "required": ["executionSuccessful"],
            "properties": {"executionSuccessful": {"type": "boolean"}, "exitCode": {"type": "integer"}}}},
        "artifacts": {"type": "array", "unique": True, "items": {
            "type": "object", "properties": {"location": ARTIFACT_LOCATION}}},
        "results": {"type": "array", "items": RESULT},
    },
}
LOG: Schema = {
    "type": "object", "required": ["version", "runs"],
    "properties": {"$schema": TEXT, "version": {"enum": ["2.1.0"]}, "runs": {"type": "array", "items": RUN}},
}
TYPES: dict[str, Any] = {"object": dict, "array": list, "string": str, "integer": int, "boolean": bool}


def faults(value: Any, schema: Schema = LOG, at: str = "log") -> list[str]:
    """Where a value doesn't fit a schema."""
    if "enum" in schema:
        return [] if value in schema["enum"] else [f"{at}: {value!r} is none of {schema['enum']}"]
    wanted = TYPES[schema["type"]]
    if not isinstance(value, wanted) or (wanted is int and isinstance(value, bool)):
        return [f"{at}: {value!r} is no {schema['type']}"]
    if wanted is dict:
        return faults_of_object(value, schema, at)
    if wanted is list:
        return faults_of_array(value, schema, at)
    if value is not None and wanted is int and value < schema.get("minimum", value):
        return [f"{at}: {value} is below {schema['minimum']}"]
    if wanted is str and not re.fullmatch(schema.get("pattern", r"(?s).*"), value):
        return [f"{at}: {value!r} isn't of the form {schema['pattern']}"]
    return []


def faults_of_object(value: dict[str, Any], schema: Schema, at: str) -> list[str]:
    """Where an object doesn't fit."""
    known = schema.get("properties", {})
    told = [f"{at}: there is no {name}" for name in schema.get("required", []) if name not in value]
    for name, part in value.items():
        inner = known.get(name, schema.get("values"))
        told += faults(part, inner, f"{at}.{name}") if inner else [f"{at}: {name} isn't known"]
    return told


def faults_of_array(value: list[Any], schema: Schema, at: str) -> list[str]:
    """Where an array doesn't fit."""
    told = [fault for number, part in enumerate(value) for fault in faults(part, schema["items"], f"{at}[{number}]")]
    if len(value) < schema.get("minItems", 0):
        told.append(f"{at}: too few items")
    if schema.get("unique") and any(value.count(part) > 1 for part in value):
        told.append(f"{at}: an item twice")
    return told


def rule_faults(log: dict[str, Any]) -> list[str]:
    """Where a log breaks the rules of the standard that no schema can say."""
    told = []
    for run in log["runs"]:
        rules = [it["id"] for it in run["tool"]["driver"]["rules"]]
        for it in run["results"]:
            if rules[it["ruleIndex"]] != it["ruleId"]:
                told.append(f"{it['ruleId']} isn't the rule of its index (3.27.6)")
            if it.get("kind", "fail") != "fail" and it.get("level", "none") != "none":
                told.append(f"a result of the kind {it['kind']} has the level {it['level']} (3.27.10)")
    return told
