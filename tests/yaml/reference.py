"""What PyYAML reads of a text, by the schema that cj_yaml states.

libyaml's events are used, which the reader of Kubernetes has its parser from; what a plain scalar
is follows the core schema of YAML 1.2, with octal as the API server reads it. `read(data)` gives
the documents, each a value with the places of the values in it, or raises `Refused` with why.
"""
import json
import math
import re

import yaml

Parser = getattr(yaml, "CSafeLoader", None) or yaml.SafeLoader
NULL = {"", "~", "null", "Null", "NULL"}
TRUE = {"true", "True", "TRUE"}
FALSE = {"false", "False", "FALSE"}
INT = re.compile(r"[-+]?[0-9]+\Z")
OCTAL = re.compile(r"([-+]?)(0[0-7]+)\Z")
CORE = re.compile(r"0o([0-7]+)\Z|0x([0-9a-fA-F]+)\Z")
FLOAT = re.compile(r"[-+]?(\.[0-9]+|[0-9]+(\.[0-9]*)?)([eE][-+]?[0-9]+)?\Z")
ODD = re.compile(r"[-+]?\.(inf|Inf|INF)\Z|\.(nan|NaN|NAN)\Z")
TAGS = {"str", "int", "bool", "null", "float"}
PREFIX = "tag:yaml.org,2002:"
MAX_DEPTH = 127


class Refused(Exception):
    """Why cj_yaml may refuse what PyYAML reads: the names of its faults."""


class Place:
    """A value, where it stands, and the values in it."""

    def __init__(self, value, mark, children=(), alias=False, empty=False):
        self.value = value
        self.mark = mark
        self.children = children
        self.alias = alias
        self.empty = empty


def number(text):
    """The number that a plain text is, or None."""
    found = OCTAL.match(text)
    if found:
        return int(found.group(1) + found.group(2), 8)
    if INT.match(text):
        return whole(int(text))
    found = CORE.match(text)
    if found:
        return wide(int(found.group(1) or found.group(2), 8 if found.group(1) else 16))
    if ODD.match(text):
        raise Refused("NoJsonNumber")
    if FLOAT.match(text):
        value = float(text)
        if math.isinf(value):
            raise Refused("NoJsonNumber")
        return value
    return None


def whole(value):
    return value if -(2**63) <= value < 2**64 else float(value)


def wide(value):
    if value >= 2**64:
        raise Refused("NoJsonNumber")
    return value


def resolved(text):
    """What a plain text is."""
    if text in NULL:
        return None
    if text in TRUE or text in FALSE:
        return text in TRUE
    value = number(text)
    return text if value is None else value


def scalar(event):
    """The value of a scalar."""
    tag = event.tag
    if tag is None:
        return event.value if event.style else resolved(event.value)
    name = tag[len(PREFIX) :] if tag.startswith(PREFIX) else None
    if name not in TAGS:
        raise Refused("Tag")
    if name == "str":
        return event.value
    value = resolved(event.value)
    kinds = {"int": int, "bool": bool, "null": type(None), "float": (int, float)}[name]
    if not isinstance(value, kinds) or isinstance(value, bool) != (name == "bool"):
        raise Refused("TagMismatch")
    return float(value) if name == "float" else value


def key_text(event):
    """The text of a key."""
    if isinstance(event, yaml.AliasEvent):
        raise Refused("KeyProperty")
    if not isinstance(event, yaml.ScalarEvent):
        # (a key in it may be refused first)
        raise Refused("ComplexKey", "NumberKey", "NullKey", "KeyProperty", "MergeKey")
    if event.tag is not None or event.anchor is not None:
        raise Refused("KeyProperty", "MappingHere")
    if event.style:
        return event.value
    if event.value == "<<":
        raise Refused("MergeKey")
    value = resolved(event.value)
    if value is None:
        raise Refused("NullKey")
    if isinstance(value, float) or (isinstance(value, int) and value >= 2**63):
        raise Refused("NumberKey")
    return value if isinstance(value, str) else json.dumps(value)


class Builder:
    """Builds the values of a document from its events."""

    def __init__(self, events):
        self.events = events
        self.anchors = {}

    def node(self, event, depth):
        if isinstance(event, yaml.AliasEvent):
            if event.anchor not in self.anchors:
                raise Refused("UnknownAlias")
            found = self.anchors[event.anchor]
            return Place(found.value, event.start_mark, alias=True)
        if isinstance(event, yaml.ScalarEvent):
            empty = event.value == "" and not event.style
            found = Place(scalar(event), event.start_mark, empty=empty)
        elif event.tag is not None:
            raise Refused("TagMismatch", "Tag")
        elif depth >= MAX_DEPTH:
            raise Refused("TooDeep")
        elif isinstance(event, yaml.SequenceStartEvent):
            found = self.items(event, depth)
        else:
            found = self.members(event, depth)
        if event.anchor is not None:
            self.anchors[event.anchor] = found
        return found

    def items(self, event, depth):
        inner = []
        while not isinstance(item := next(self.events), yaml.SequenceEndEvent):
            inner.append(self.node(item, depth + 1))
        return Place([it.value for it in inner], event.start_mark, inner)

    def members(self, event, depth):
        inner = {}
        while not isinstance(item := next(self.events), yaml.MappingEndEvent):
            key = key_text(item)
            if key in inner:
                raise Refused("DuplicateKey")
            inner[key] = self.node(next(self.events), depth + 1)
        return Place({k: v.value for k, v in inner.items()}, event.start_mark, inner)


def parse(data):
    """Reads the events of a text to its end."""
    for _ in yaml.parse(data, Loader=Parser):
        pass


def read(data):
    """The documents of a text, each a `Place`."""
    events = yaml.parse(data, Loader=Parser)
    documents = []
    for event in events:
        if isinstance(event, yaml.DocumentStartEvent):
            if event.version or event.tags:
                raise Refused("Directive")
            documents.append(Builder(events).node(next(events), 0))
    return documents


def places(found):
    """The places of a value and of those in it, in the order in which the program names them."""
    yield found
    if found.alias:
        yield from (found for _ in range(count(found.value) - 1))
    elif isinstance(found.children, dict):
        for key in sorted(found.children, key=lambda key: key.encode()):
            yield from places(found.children[key])
    else:
        for child in found.children:
            yield from places(child)


def count(value):
    inner = value.values() if isinstance(value, dict) else value if isinstance(value, list) else ()
    return 1 + sum(count(it) for it in inner)
