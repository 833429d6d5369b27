"""The page of `report`, taken apart."""
import base64
import hashlib
import re
from html.parser import HTMLParser
from xml.etree import ElementTree

VOID = {"meta", "wbr", "br", "hr", "img", "input", "link"}
LEVELS = ("h1", "h2", "h3", "h4")
SVG = "{http://www.w3.org/2000/svg}"


class Document(HTMLParser):
    """What a page has: its findings (`found`), how many there are of a kind (`kinds`), what it says
    of the CronJobs that need attention (`looks`), those that its table marks (`marked`), and its
    text without markup. What is wrong with it is put into `wrong`."""

    def __init__(self, html, wrong):
        super().__init__(convert_charrefs=True)
        self.html, self.wrong = html, wrong
        self.open, self.ids, self.levels = [], [], []
        self.text, self.found, self.kinds, self.tables = "", [], {}, {}
        self.looks, self.marked = [], []
        self.pictures, self.section = {}, None
        self.cell, self.item, self.skipped = None, None, False
        self.feed(html)
        self.close()
        if self.open:
            wrong.append(f"not closed: {self.open}")
        self.look()

    def handle_starttag(self, tag, attributes):
        given = dict(attributes)
        self.look_at(tag, given)
        if tag not in VOID:
            self.open.append(tag)
        if tag == "section":
            self.section = given.get("id")
            self.tables[self.section] = []
        if tag == "h3" and self.section == "findings":
            self.kinds[given.get("id")] = 0
        if tag == "tr" and "tbody" in self.open:
            self.tables[self.section].append([])
        if tag in ("td", "th") and "tbody" in self.open:
            self.cell = ""
        if tag == "td" and given.get("class") == "look":
            self.marked.append(self.tables[self.section][-1][0])
        if tag == "li" and (self.section == "look" or self.section == "findings" and self.kinds):
            self.item = ""
        if tag == "span" and given.get("class") == "jobs":
            self.skipped = True

    def handle_startendtag(self, tag, attributes):
        self.look_at(tag, dict(attributes))

    def look_at(self, tag, given):
        """What no element may have, and what each has to have."""
        if "id" in given:
            self.ids.append(given["id"])
        for name, value in given.items():
            outside = name in ("src", "srcset", "data", "action", "background") or (
                name in ("href", "xlink:href") and not value.startswith("#")
            )
            if outside or name.startswith("on"):
                self.wrong.append(f"{tag} {name}={value!r}")
        if tag in ("iframe", "link", "object", "embed", "img", "form", "base"):
            self.wrong.append(f"an element {tag}")
        if tag == "th" and "scope" not in given:
            self.wrong.append("a head without a scope")

    def handle_endtag(self, tag):
        if not self.open or self.open.pop() != tag:
            self.wrong.append(f"</{tag}> at {self.getpos()}")
        if tag in LEVELS:
            self.levels.append(int(tag[1]))
        if tag in ("td", "th") and self.cell is not None:
            self.tables[self.section][-1].append(self.cell.strip())
            self.cell = None
        if tag == "li" and self.item is not None:
            if self.section == "look":
                self.looks.append(self.item.strip())
            else:
                self.found.append(self.item.strip())
                self.kinds[list(self.kinds)[-1]] += 1
            self.item = None
        if tag == "span":
            self.skipped = False
        if tag == "section":
            self.section = None

    def handle_data(self, data):
        if self.open and self.open[-1] in ("style", "script"):
            return
        self.text += data
        if self.item is not None and not self.skipped:
            self.item += data
        # (the schedule as it is written, and the reasons, aren't in the cell's words)
        if self.cell is not None and self.open[-1] not in ("p", "code"):
            self.cell += data

    def look(self):
        """What the page as a whole has to have."""
        wrong, html = self.wrong, self.html
        if len(self.ids) != len(set(self.ids)):
            wrong.append("an id that is there twice")
        if self.levels[:1] != [1] or self.levels.count(1) != 1:
            wrong.append(f"the headings begin {self.levels[:3]}")
        if any(b > a + 1 for a, b in zip(self.levels, self.levels[1:])):
            wrong.append(f"a level of heading is left out: {self.levels}")
        if not html.startswith("<!DOCTYPE html>") or '<html lang="en">' not in html:
            wrong.append("no document of a language")
        if html.count("<table") != html.count("<caption>"):
            wrong.append("a table without a caption")
        if "@import" in html or "url(http" in html or "@font-face" in html:
            wrong.append("a style from elsewhere")
        scripts = re.findall(r"<script[^>]*>(.*?)</script>", html, re.S)
        sums = re.findall(r"'sha256-([^']*)'", html.split("</head>")[0])
        made = [
            base64.b64encode(hashlib.sha256(it.encode()).digest()).decode() for it in scripts
        ]
        if len(scripts) != 1 or made != sums:
            wrong.append(f"{len(scripts)} scripts, whose checksums are {made} and not {sums}")
        for part in html.split('<section id="')[1:]:
            name = part.split('"')[0]
            for picture in re.findall(r"<svg .*?</svg>", part, re.S):
                self.pictures[name] = self.parsed(picture)

    def parsed(self, picture):
        try:
            return ElementTree.fromstring(picture)
        except ElementTree.ParseError as error:
            self.wrong.append(f"a picture: {error}")
            return ElementTree.Element("none")

    def rows(self, section):
        """The rows of the section's table, each as the texts of its cells."""
        return self.tables.get(section, [])

    def count(self, tag, name, section):
        """How many elements of the section's picture have this class."""
        top = self.pictures.get(section)
        if top is None:
            return 0
        return sum(it.get("class") == name for it in top.iter(f"{SVG}{tag}"))

    def bars(self):
        """How many bars the time line has."""
        top = self.pictures.get("jobs")
        return 0 if top is None else len(top.findall(f".//{SVG}g[@id='bars']/{SVG}rect"))
