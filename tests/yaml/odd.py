"""Texts that no file of this repository may have, as tabs and blanks at the ends of lines.

A text that both readers take, or one that is refused, with the kind of the fault.
"""
DEEP = "".join("  " * i + f"k{i}:\n" for i in range(60)) + "  " * 60 + "end: here\n"
LETTERS = "abcdefgh"
BOMB = "a: &a [x, x, x, x, x, x, x, x, x, x]\n" + "".join(
    f"{c}: &{c} [{', '.join(['*' + before] * 10)}]\n" for before, c in zip(LETTERS, LETTERS[1:])
)
READ = [
    DEEP,
    "[" * 60 + "x" + "]" * 60 + "\n",
    "a: 1   \nb:  \n  - x \nc: \t d\t\n   \ne: f # g  \n",
    "a: 1\r\nb:\r\n- x\r\n- |\r\n  one\r\n  two\r\n- \"q\r\n  r\"\r\nc: plain\r\n  more\r\n",
    "\ufeffapiVersion: v1\nkind: Pod\n",
    "a: 1\nb: |\n  text without a line feed",
    'a: "tab\there"\nb: |\n  tab\there\n',
    "[" * 127 + "]" * 127,
    "",
    "---\n---\n...\n",
    "# only a comment",
    "a: |\n\n\nb: >+\n\n\n",
]
REFUSED = [
    ("a:\n\tb: 1\n", "Tab"),
    ("a:\n- b\n-\tc: 1\n", "Tab"),
    ("a:\n    b: 1\n  c: 2\n", "Indentation"),
    ("a: 1\n b: 2\n", "MappingHere"),
    ("a: [1, 2\nb: 3\n", "MappingHere"),
    ("a: [1, 2\n", "Unclosed"),
    ("a: 'b\n", "Unclosed"),
    ("a: 1\na: 2\n", "DuplicateKey"),
    ("{a: 1, 'a': 2}\n", "DuplicateKey"),
    ("a: &x {b: 1}\nc:\n  <<: *x\n", "MergeKey"),
    (BOMB, "AliasBomb"),
    ("[" * 200 + "]" * 200, "TooDeep"),
    ("- " * 200 + "x\n", "TooDeep"),
    ("a: *b\n", "UnknownAlias"),
    ("a: !custom x\n", "Tag"),
    ("a: !!int x\n", "TagMismatch"),
    ("? a\n: b\n", "ComplexKey"),
    ("[a]: b\n", "ComplexKey"),
    ("&a b: c\n", "MappingHere"),
    ("a: @b\n", "Indicator"),
    ('a: "\\q"\n', "Escape"),
    ("a: |x\n  y\n", "BlockHead"),
    ("a: .nan\n", "NoJsonNumber"),
    ("a: 1e999\n", "NoJsonNumber"),
    ("%YAML 1.1\n---\na: 1\n", "Directive"),
    ("a: b\n...\nc: d\n", "NoMarker"),
    ("a: [b: c]\n", "PairInList"),
    ("a: 'b' c\n", "Trailing"),
    ("a: b\nc\n", "NoColon"),
    ("a: b\n- c\n", "ItemHere"),
    ("~: b\n", "NullKey"),
    ("1.5: b\n", "NumberKey"),
    ("9223372036854775808: b\n", "NumberKey"),
    ("a: \x07\n", "Control"),
    (b"a: \xff\n", "NotUtf8"),
    ("a: &é b\n", "AnchorName"),
]
