#!/usr/bin/env python3
"""Renders deploy/helm by what of Helm's language its template uses, and holds it against
deploy/control.yaml. Prints each object that differs, of the same name; needs yaml.

usage: tests/transport/deployed.py [NAME=VALUE ..]    (values; then the text is printed)
"""
import json
import re
import sys
from pathlib import Path

import yaml

DEPLOY = Path(__file__).resolve().parents[2] / "deploy"
RELEASE = {"Name": "cronsim-control", "Namespace": "cronsim"}
TAG = re.compile(r"(\s*\{\{-|\{\{) *(/\*.*?\*/|.*?) *(-\}\}\s*|\}\})", re.S)


def value_of(words, values, dot):
    """The value of a pipeline: a place, then quote, or toYaml with nindent."""
    place, *pipes = [it.strip() for it in words.split("|")]
    is_yaml = place.startswith("toYaml ")
    place = place.removeprefix("toYaml ")
    found = dot
    if place != ".":
        found = {"Values": values, "Release": RELEASE}
        for name in place.strip(".").split("."):
            found = found[name]
    if is_yaml:
        found = yaml.safe_dump(found).rstrip()
    for pipe in pipes:
        name, *number = pipe.split()
        if name == "quote":
            found = json.dumps(str(found))
        elif name == "nindent":
            found = "".join("\n" + " " * int(number[0]) + it for it in found.splitlines())
        else:
            raise ValueError(f"{pipe} isn't known here")
    return found


def parsed(text):
    """The tags and texts of a template, as (kind, words)."""
    at = 0
    for tag in TAG.finditer(text):
        yield "text", text[at : tag.start()]
        at = tag.end()
        words = tag[2]
        kind = words.split(" ")[0] if words.split(" ")[0] in ("if", "with", "range") else ""
        if words in ("else", "end"):
            yield words, ""
        elif kind:
            yield kind, words.removeprefix(kind).strip()
        elif not words.startswith("/*"):
            yield "value", words
    yield "text", text[at:]


def rendered(parts, values, dot=None):
    """The text of a template's parts."""
    found = ""
    for kind, words in parts:
        if kind == "text":
            found += words
        elif kind == "value":
            found += str(value_of(words, values, dot))
        else:
            found += block(kind, parts, value_of(words, values, dot), values, dot)
    return found


def block(kind, parts, value, values, dot):
    """The text of a block; its parts are taken out up to its end."""
    inside, depth, halves = [], 0, []
    for part in parts:
        depth += part[0] in ("if", "with", "range")
        if part[0] == "end":
            if not depth:
                break
            depth -= 1
        if part[0] == "else" and not depth:
            halves, inside = [inside], []
        else:
            inside.append(part)
    halves.append(inside)
    if not value:
        return rendered(iter(halves[1]), values, dot) if len(halves) > 1 else ""
    if kind == "range":
        return "".join(rendered(iter(halves[0]), values, it) for it in value)
    return rendered(iter(halves[0]), values, value if kind == "with" else dot)


def main():
    values = yaml.safe_load((DEPLOY / "helm/values.yaml").read_text())
    given = dict(word.split("=", 1) for word in sys.argv[1:])
    values |= {name: yaml.safe_load(text) for name, text in given.items()}
    text = rendered(parsed((DEPLOY / "helm/templates/control.yaml").read_text()), values)
    if given:
        print(text)
    found = {it["kind"]: it for it in yaml.safe_load_all(text)}
    wanted = (DEPLOY / "control.yaml").read_text().replace("image: IMAGE", "image: cronsim:latest")
    wanted = {it["kind"]: it for it in yaml.safe_load_all(wanted)}
    # (the release's namespace is made by others)
    del wanted["Namespace"]
    for kind in () if given else {**found, **wanted}:
        if found.get(kind) != wanted.get(kind):
            print(f"{kind}: {found.get(kind)}, and control.yaml has {wanted.get(kind)}")


if __name__ == "__main__":
    main()
