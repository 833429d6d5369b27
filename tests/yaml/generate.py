"""Values at random, and texts of them in random styles of YAML.

`text_of(random)` gives a stream and how many documents it has. Every style that Kubernetes people
write turns up: block and flow, quotes, literal and folded texts, comments, anchors, tags, several
documents. `mutated(random, text)` changes some of its bytes.
"""
WORDS = """
app web nginx:1.25 schedule image a b-c name/with.dots x_y cron.example.com yes no on off true null
~ 1 -5 0644 0x1f 0o17 1.5 1e3 .5 5. 12:30 2024-01-01 007 1_000 -_1 0X1F 0b11 +3 -0
9223372036854775808 18446744073709551616 1.7976931348623157e308 y n NULL False .5e-3 089
""".split()
TEXTS = """
 | |a b|a: b|a #b|- a|? a|#a|'|"|\\|a~b|a~|~a|a~~|  a~b|a ~b|\ta|a\tb|é|日本語|\U0001f600
*/5 * * * *|@daily|%x|`x`|!x|&x|*x|>|[a]|{a}|a,b|a: |:|a:b|::|-|--|---|...|a~~~ b~c~|\x07|\x7f
\u0085|\u2028|\ufeffa|trailing |key=value|a  b|one~two~  three~~four|<<|=|\r~
#!/bin/sh~set -e~for i in 1 2; do~  echo $i~done~
""".strip("\n")
TEXTS = ["", "|"] + [it.replace("~", "\n") for line in TEXTS.split("\n") for it in line.split("|")]
COMMENTS = ["# c", "#", "# a: b", "# 'x", '# - "', "## [", "# é"]


class Emitter:
    """Prints values in random styles."""

    def __init__(self, random):
        self.random = random
        self.anchors = []
        self.count = 0

    def chance(self, one_in):
        return self.random.randrange(one_in) == 0

    def value(self, depth):
        """A value at random."""
        kind = self.random.randrange(10 if depth > 0 else 6)
        if kind < 3:
            return self.random.choice(WORDS)
        if kind < 6:
            return self.random.choice(TEXTS)
        count = self.random.choice([0, 1, 1, 2, 2, 3, 4])
        if kind < 8:
            return [self.value(depth - 1) for _ in range(count)]
        keys = [self.random.choice(WORDS + TEXTS[:8] + TEXTS[-20:]) for _ in range(count)]
        return {key: self.value(depth - 1) for key in keys}

    def space(self):
        return self.random.choice([" ", " ", " ", "  ", "   "])

    def comment(self):
        """A comment behind something on its line, mostly none."""
        return self.space() + self.random.choice(COMMENTS) if self.chance(12) else ""

    def end(self):
        """The end of a line, with lines without content behind it."""
        text = self.comment() + (" " if self.chance(30) else "") + "\n"
        while self.chance(15):
            blank = " " * self.random.randrange(4)
            text += blank + (self.random.choice(COMMENTS) if self.chance(2) else "") + "\n"
        return text

    def double(self, text, column=None):
        out = ""
        for c in text:
            if c == '"' or c == "\\":
                out += "\\" + c
            elif c in "\n\t\r" and not self.chance(3):
                out += "\\" + "ntr"["\n\t\r".index(c)]
            elif ord(c) < 32 or ord(c) == 127 or c in "\x85\u2028\ufeff" or self.chance(20):
                code = ord(c)
                forms = [f"\\U{code:08x}"]
                forms += [f"\\u{code:04X}"] if code < 65536 else []
                forms += [f"\\x{code:02x}"] if code < 256 else []
                out += self.random.choice(forms)
            elif c == " " and column is not None and self.chance(12):
                # (a fold, which a line break of one space stands for)
                out += "\\ " if self.chance(6) else "\n" + " " * (column + self.random.randrange(3))
            else:
                out += c
        return f'"{out}"'

    def single(self, text, column=None):
        out = text.replace("'", "''")
        if column is not None and "\n" in out:
            out = out.replace("\n", "\n\n" + " " * column)
        return f"'{out}'"

    def scalar(self, text, column, flow=False, key=False):
        """A scalar on its line, or on several."""
        styles = ["double"]
        printable = all(31 < ord(c) < 127 or ord(c) > 160 for c in text.replace("\n", ""))
        if printable and "\ufeff" not in text and "\u2028" not in text:
            edge = text.strip(" \n\t") == text and " \n" not in text and "\n " not in text
            if "\n" not in text or (edge and not key and column is not None):
                styles += ["single", "single"]
            safe = text and edge and "\n" not in text and not any(c in text for c in "#:")
            if safe and text[0] not in "-?!&*|>%@`\"'[]{},<=" and text not in ("---", "..."):
                if not flow or not any(c in text for c in ",[]{}?"):
                    styles += ["plain"] * 6
        if text in WORDS and not (flow and "?" in text):
            styles += ["plain"] * 8
        style = self.random.choice(styles)
        if style == "plain":
            return text
        return getattr(self, style)(text, None if key else column)

    def literal(self, text, column):
        """A literal or folded text whose lines are at this column; its value may be another."""
        head = self.random.choice("||>") + self.random.choice(["", "-", "+"])
        indent = column + self.random.randrange(3)
        if text.startswith((" ", "\n")) or self.chance(10):
            given = indent - column + 1
            head = head[0] + self.random.choice([str(given) + head[1:], head[1:] + str(given)])
        lines = text.split("\n")
        out = head + self.comment() + "\n"
        for line in lines:
            out += (" " * indent + line if line or self.chance(4) else "") + "\n"
        return out

    def prefix(self, may_anchor=True):
        """An anchor or a tag before a value, mostly nothing."""
        out = ""
        if may_anchor and self.chance(25):
            self.count += 1
            self.anchors.append(f"a{self.count}")
            out += f"&a{self.count} "
        if self.chance(60):
            out += self.random.choice(["!!str ", "!!str ", "!!int ", "!!bool ", "!!float ", "!x "])
        return out

    def alias(self):
        return "*" + self.random.choice(self.anchors) if self.anchors and self.chance(12) else None

    def flow(self, value, depth=0):
        """A value in brackets."""
        alias = self.alias()
        if alias:
            return alias + " "
        if isinstance(value, str):
            return self.scalar(value, None, flow=True)
        gap = self.random.choice(["", " ", "", "\n   " if depth else "", "  "])
        if isinstance(value, list):
            inner = [self.flow(item, depth + 1) for item in value]
            left, right = "[]"
        else:
            inner = [self.flow_member(key, item, depth) for key, item in value.items()]
            left, right = "{}"
        comma = "," + (gap or self.random.choice([" ", ""]))
        tail = "," if inner and self.chance(12) else ""
        return left + gap + comma.join(inner) + tail + gap + right

    def flow_member(self, key, item, depth):
        if item == "" and self.chance(2):
            return self.scalar(key, None, flow=True, key=True) + self.random.choice([": ", ""])
        return f"{self.scalar(key, None, flow=True, key=True)}: {self.flow(item, depth + 1)}"

    def block(self, value, column, least, in_list):
        """A value behind `key:` or `-`, with the end of its line."""
        alias = self.alias()
        if alias:
            return self.space() + alias + self.end()
        prefix = self.prefix()
        if isinstance(value, str):
            if self.chance(4) and all(c == "\n" or 31 < ord(c) < 127 for c in value):
                return self.space() + prefix + self.literal(value, max(least, 1))
            if value == "" and self.chance(2):
                return (" " + prefix.strip() if prefix else "") + self.end()
            return self.space() + prefix + self.scalar(value, max(least, 1)) + self.end()
        if not value or self.chance(6):
            return self.space() + prefix + self.flow(value) + self.end()
        if in_list and not prefix and not self.chance(4):
            pad = self.random.choice([1, 1, 1, 2, 3])
            inner = column + 1 + pad
            return " " * pad + self.collection(value, inner)[inner:]
        deeper = least - 1 + self.random.choice([2, 2, 2, 4, 1, 3])
        if isinstance(value, list) and not in_list and self.chance(2):
            deeper = least - 1
        start = (" " + prefix.strip() if prefix else "") + self.end()
        return start + self.collection(value, deeper)

    def collection(self, value, column):
        """The lines of a mapping or list at a column."""
        out = ""
        for at, item in enumerate(value):
            out += " " * column
            if isinstance(value, list):
                out += "-" + self.block(item, column, column + 1, True)
            else:
                key = self.scalar(item, None, key=True)
                colon = " :" if self.chance(25) else ":"
                out += key + colon + self.block(value[item], column, column + 1, False)
        return out

    def document(self):
        self.anchors = []
        value = self.value(self.random.choice([1, 2, 3, 4]))
        if isinstance(value, str):
            return "---" + self.block(value, 0, 0, False)
        if not value:
            return self.flow(value) + self.end()
        return self.collection(value, 0) if not self.chance(8) else self.flow(value) + "\n"

    def stream(self):
        text = "\ufeff" if self.chance(40) else ""
        count = self.random.choice([1, 1, 1, 2, 3])
        for at in range(count):
            document = self.document()
            marked = document.startswith("---")
            if not marked and (at or self.chance(4)):
                document = "---" + self.end() + document
            text += document
            if self.chance(12):
                text += "..." + self.end()
        if self.chance(12):
            text = text.replace("\n", "\r\n")
        return text


def text_of(random):
    """A stream at random, as bytes."""
    return Emitter(random).stream().encode()


def mutated(random, data):
    """The bytes with a few changes."""
    out = bytearray(data)
    marks = b"\n\n  -:,[]{}#&*!|>'\"%@`\\?\t0aA.~<=\r\x00\x7f\xff\xc2\x85"
    for _ in range(random.choice([1, 1, 2, 3, 6])):
        if not out:
            break
        at = random.randrange(len(out))
        kind = random.randrange(5)
        if kind == 0:
            del out[at]
        elif kind == 1:
            out.insert(at, random.choice(marks))
        elif kind == 2:
            out[at] = random.choice(marks)
        elif kind == 3:
            end = min(len(out), at + random.randrange(12))
            out[at:at] = out[at:end]
        else:
            del out[at : at + random.randrange(8)]
    return bytes(out)
