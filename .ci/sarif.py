#!/usr/bin/env python3
"""Compares views/sarif-2.1.0.part.json, by which views/run.py checks SARIF, with what is at hand of the schema of the standard.

  .ci/sarif.py [--schema FILE]

The part has the objects and members that sarif.jq writes; the schema itself isn't in this repository. Two packages of Debian were
made of it: python3-sarif-python-om has the members of each object, and those that it must have; golang-github-haya14busa-go-sarif-dev
has their kinds of values besides, and the words that a value may be. What isn't installed is said. With --schema, which is
sarif-schema-2.1.0.json of OASIS, that checks the logs of all cases of the views too, by Python's jsonschema. The status is 1 if
something differs.
"""
import argparse
import importlib
import json
import pathlib
import re
import runpy
import sys
from typing import Any, Dict, Iterator, List, NamedTuple

TOP = pathlib.Path(__file__).resolve().parent.parent
PART = TOP / "views/sarif-2.1.0.part.json"
CLASSES = pathlib.Path("/usr/lib/python3/dist-packages/sarif_om")
STRUCTS = pathlib.Path("/usr/share/gocode/src/github.com/haya14busa/go-sarif/sarif/sarif.go")
Json = Dict[str, Any]


class Member(NamedTuple):
    """A member of an object: whether it must be there, and its kind in words of Go, or "" if that isn't known."""

    needed: bool
    kind: str


def main() -> None:
    """Ends with status 1 if something differs."""
    parser = argparse.ArgumentParser(description=(__doc__ or "").split("\n", maxsplit=1)[0])
    parser.add_argument("--schema", metavar="FILE", type=pathlib.Path, help="sarif-schema-2.1.0.json of OASIS")
    line = parser.parse_args()
    part = json.loads(PART.read_text(encoding="utf-8"))
    faults: List[str] = []
    compared = 0
    for path, package in ((CLASSES, "python3-sarif-python-om"), (STRUCTS, "golang-github-haya14busa-go-sarif-dev")):
        if path.exists():
            compared += 1
            faults += [f"{package}: {fault}" for fault in differences(part, path)]
        else:
            print(f"sarif: {package} isn't installed, so the part of the schema isn't compared with it")
    if line.schema:
        faults += faults_by_schema(json.loads(line.schema.read_text(encoding="utf-8")))
    print("\n".join(faults) or f"sarif: the part of the schema says the same as {compared} packages"
          + (", and all logs are as the schema wants them" if line.schema else ""))
    sys.exit(bool(faults))


def differences(part: Json, path: pathlib.Path) -> Iterator[str]:
    """What a package says otherwise of the objects of the part."""
    text = path.read_text(encoding="utf-8") if path == STRUCTS else ""
    for name, one in {"sarifLog": part, **part["definitions"]}.items():
        if one.get("type") != "object":
            words = re.findall(rf'^\s+\w+ {kind_of_name(name)} += "(.*)"', text, re.M)
            if words and sorted(words) != sorted(one["enum"]):
                yield f"{name}: its words are {words}"
            continue
        members = of_struct(text, name) if text else of_class(path, name)
        for member, value in one["properties"].items():
            if member not in members:
                yield f"{name}: it has no {member}"
            elif members[member].kind not in ("", kind_of(value)):
                yield f"{name}: {member} is {members[member].kind}, not {kind_of(value)}"
        yield from (f"{name}: {member} must be there" for member, told in members.items() if told.needed and member not in one.get("required", []))


def kind_of_name(name: str) -> str:
    """What Go calls an object of the schema."""
    return {"sarifLog": "Sarif"}.get(name, name[0].upper() + name[1:])


def kind_of(value: Json) -> str:
    """The kind of values of a member of the part, in words of Go."""
    if "$ref" in value:
        return kind_of_name(value["$ref"].rpartition("/")[2])
    if value.get("type") == "array":
        return "[]" + kind_of(value["items"])
    if value.get("type") == "object":
        return "ArtifactLocation" if "properties" in value and "uri" in value["properties"] else \
            "Region" if "properties" in value else "map[string]" + kind_of(value["additionalProperties"])
    return {"integer": "int64", "string": "string"}.get(value.get("type", ""), "Version")


def of_class(folder: pathlib.Path, name: str) -> Dict[str, Member]:
    """The members of a class of Python. One without a default must be there."""
    file = re.sub("([A-Z])", r"_\1", name).lower()
    text = (folder / f"_{file}.py").read_text(encoding="utf-8")
    found = re.findall(r'attr\.ib\((default=)?.*"schema_property_name": "(.*?)"', text)
    return {member: Member(not default, "") for default, member in found}


def of_struct(text: str, name: str) -> Dict[str, Member]:
    """The members of a struct of Go. One that isn't left out where it is empty must be there."""
    body = text.partition(f"type {kind_of_name(name)} struct {{")[2].partition("\n}")[0]
    found = re.findall(r'^\s+\w+\s+\*?(\S+)\s+`json:"(.*?)(,omitempty)?"`', body, re.M)
    return {member: Member(not omitted, kind) for kind, member, omitted in found}


def faults_by_schema(schema: Json) -> Iterator[str]:
    """What the schema doesn't take of the logs that the views make of their cases."""
    validator = importlib.import_module("jsonschema").Draft7Validator(schema)
    views = runpy.run_path(str(TOP / "views/run.py"))
    for case in sorted(pathlib.Path(views["CASES"]).iterdir()):
        log = json.loads(views["view"]("sarif", str(case))[1])
        yield from (f"{case.name}: {fault.json_path}: {fault.message}" for fault in validator.iter_errors(log))


if __name__ == "__main__":
    main()
