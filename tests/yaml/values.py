"""Values that are hard to print, as texts of JSON: what YAML reads as something else.

`json_texts(random, count)` gives texts with each hard text as a document, a key, a member and an
item, values that nest as deep as is read, and so many values at random.
"""
import json

WORDS = """
~ null Null NULL true True TRUE false False yes Yes YES no off On y N 1 -1 +1 007 0644 089 0o17
0x1f -0x1f 0b11 1_000 1e3 1E3 -0 0.0 1. .5 5e-324 .inf -.INF .nan 12:30 190:20:30 2024-01-01 << = !
-a ?a 2024-01-01T00:00:00Z 9223372036854775808 18446744073709551616 1e400 &a *a !a !!str % %a @a `a`
# #a - -- --- ... ---a ? : :: a: :a a:b a#b | |- > [ ] { } [a] {a} , a,b "a" 'a' \\ \\n a\\b a"b a'b
http://a:80/b#c */5 true: null: 1: é 日本語 😀
""".split()
TEXTS = """
|  |a |  a|- a|? a|: a|a: b|a : b|a #b|a # b|--- a|... a|a b|a  b|*/5 * * * *|\t|\ta|a\t|a\tb|\r
a\rb|a\r~b|~|~~|~~~| ~|~ |~a|~ a|a~|a~~|a~~~|a~b|a~b~|a~~b~|a~ b|a ~b|a~ ~b| a~b| ~a|a~ |a~b |a~\tb
\ta~b|a~b\t|a\t~b|---~a|a~---~b|a~...~b~|#~#|# a~b|a~#b|- a~- b~|a: b~c: d~|a:~b|'~'|"~"|\\~|a\\~b
é~日|a\x07b|\x00|\x1b|\x7f|\x80|a\x85b|a~\x85b|\x9f|\xa0|a\xa0|\u2028|a\u2029b|\ufeff|\ufeffa|a\ufeff~b
\ufffe|\uffff|\ufffd|a\u200b|one~  two~    three~|#!/bin/sh~set -e~for i in 1 2; do~  echo $i~done~
""".strip("\n")
TEXTS = [it for line in TEXTS.split("\n") for it in line.split("|")]
TEXTS = [""] + WORDS + [it.replace("~", "\n") for it in TEXTS]
TEXTS += ["a" * 900, ("a b: " * 180).strip(), "x y\n" * 200, " " * 80 + "\n" + "a" * 80]
NUMBERS = [0, -0.0, 1, -1, 2**53 + 1, 2**63 - 1, 2**63, 2**64 - 1, -(2**63), 2.0**64, 1e3, 1e16]
NUMBERS += [1e21, 1e22, -1e22, 1e-7, 5e-324, 1.7976931348623157e308, 0.1, 1.5, 100.0]
NUMBERS += [123456789012.5]
OTHERS = [None, True, False, [], {}, [[]], [{}], {"a": []}, {"a": {}}, [[], {}], [[[]]]]
# The most levels that are read.
MOST = 127


def escaped(character):
    """A character by its code, where readers of YAML 1.1 refuse it or take it for a line break."""
    code = ord(character)
    odd = 127 <= code < 160 or code in (0x2028, 0x2029, 0xFEFF, 0xFFFE, 0xFFFF)
    return f"\\u{code:04x}" if odd else character


def json_text(value):
    return "".join(map(escaped, json.dumps(value, ensure_ascii=False)))


def deep(levels, leaf, wrap):
    """A leaf so many levels deep in what `wrap` makes of a value and its level."""
    found = leaf
    for level in range(levels):
        found = wrap(found, level)
    return found


def placed(value):
    """The value where values stand."""
    yield value
    yield {"a": value, "b": value}
    yield [value, value]
    yield {"a": [value, [value, {"b": value}], {"b": value, "c": value}, value]}
    yield [[[value], value], {"a": {"b": value}}, value]


def named(text):
    """The text where keys stand."""
    yield {text: 1}
    yield {text: text, "z": {text: [text]}}
    yield [{text: {text: {}}}, {text: []}, [{text: None, "a": text}]]


def at_random(random, depth):
    kind = random.randrange(12 if depth else 7)
    if kind < 5:
        return random.choice(TEXTS)
    if kind < 7:
        return random.choice(NUMBERS + OTHERS)
    count = random.choice([0, 1, 1, 2, 2, 3, 5])
    if kind < 9:
        return [at_random(random, depth - 1) for _ in range(count)]
    return {random.choice(TEXTS): at_random(random, depth - 1) for _ in range(count)}


def json_texts(random, count):
    found = [it for value in TEXTS + NUMBERS + OTHERS for it in placed(value)]
    found += [it for text in TEXTS for it in named(text)]
    wraps = [
        lambda value, _: [value],
        lambda value, _: {"a": value},
        lambda value, level: [value] if level % 2 else {"~": value},
        lambda value, level: {"k": value, "l": 1} if level % 3 else [value],
    ]
    for leaf in ("a\nb\n", 1, "", "a: b"):
        found += [deep(levels, leaf, wrap) for levels in (1, 2, 126, MOST) for wrap in wraps]
    found += [at_random(random, 4) for _ in range(count)]
    return [json_text(it).encode() for it in found]
