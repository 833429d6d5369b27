"""Zones by whose clock pictures are drawn, and what the labels of a picture must be."""
from datetime import datetime, timedelta

from scenarios import time
from svg import SVG

DAY = 86400


def second(text):
    """The instant of a printed time."""
    return int(datetime.fromisoformat(text.replace("Z", "+00:00")).timestamp())


class Clock:
    """A zone: its name, the word that asks for it, and its UTC offset in minutes up to the first of
    these changes, and from each on."""

    def __init__(self, name, word, offset, *changes):
        self.name, self.word = name, word
        self.offsets = [(0, offset), *((second(at), minutes) for at, minutes in changes)]

    def words(self):
        return ["--time-zone", self.word] if self.word else []

    def heading(self):
        return f"the clock of {self.name}" if self.word else "UTC"

    def offset(self, at):
        """Its UTC offset, in seconds."""
        return 60 * [minutes for since, minutes in self.offsets if since <= max(at, 0)][-1]

    def shown(self, at):
        """What it shows at an instant."""
        return datetime(1970, 1, 1) + timedelta(seconds=at + self.offset(at))


UTC = Clock("UTC", None, 0)
BERLIN = Clock(
    "Europe/Berlin",
    "Europe/Berlin=CET-1CEST,M3.5.0,M10.5.0/3",
    60,
    ("2024-03-31T01:00:00Z", 120),
    ("2024-10-27T01:00:00Z", 60),
)
# (A name with characters that XML has for itself.)
KOLKATA = Clock("<+0530>-5:30", "<+0530>-5:30", 330)
# Its midnight of 10 March is left out, and that of 3 November comes twice.
HAVANA = Clock(
    "America/Havana",
    "America/Havana=CST5CDT,M3.2.0/0,M11.1.0/1",
    -300,
    ("2024-03-10T05:00:00Z", -240),
    ("2024-11-03T05:00:00Z", -300),
)
# Its clock is put by half an hour.
LORD_HOWE = Clock(
    "Australia/Lord_Howe",
    "Australia/Lord_Howe=<+1030>-10:30<+11>-11,M10.1.0,M4.1.0",
    660,
    ("2024-04-06T15:00:00Z", 630),
    ("2024-10-05T15:30:00Z", 660),
)

# Runs, each with the labels of its picture.
RUNS = [
    # a night in which the clock goes forward, and one in which it goes back
    (
        BERLIN,
        "2024-03-30T22:30:00Z",
        "2024-03-31T06:00:00Z",
        "03-31 01:00 03:00 04:00 05:00 06:00 07:00 08:00",
    ),
    (
        BERLIN,
        "2024-10-26T21:30:00Z",
        "2024-10-27T05:00:00Z",
        "10-27 01:00 02:00 02:00 03:00 04:00 05:00 06:00",
    ),
    # every second and every third hour, of which one is left out or comes twice
    (
        BERLIN,
        "2024-03-30T20:00:00Z",
        "2024-03-31T10:00:00Z",
        "22:00 03-31 03:00 04:00 06:00 08:00 10:00 12:00",
    ),
    (
        BERLIN,
        "2024-10-26T20:00:00Z",
        "2024-10-27T20:00:00Z",
        "10-27 03:00 06:00 09:00 12:00 15:00 18:00 21:00",
    ),
    # midnights
    (
        BERLIN,
        "2024-03-28T12:00:00Z",
        "2024-04-04T12:00:00Z",
        "03-29 03-30 03-31 04-01 04-02 04-03 04-04",
    ),
    (
        HAVANA,
        "2024-03-07T00:00:00Z",
        "2024-03-13T00:00:00Z",
        "03-07 03-08 03-09 03-10 03-11 03-12",
    ),
    (
        HAVANA,
        "2024-10-31T12:00:00Z",
        "2024-11-06T12:00:00Z",
        "11-01 11-02 11-03 11-04 11-05 11-06",
    ),
    # half an hour beside UTC, and a clock that is put by half an hour
    (
        KOLKATA,
        "2024-01-01T15:00:00Z",
        "2024-01-01T23:00:00Z",
        "21:00 22:00 23:00 01-02 01:00 02:00 03:00 04:00",
    ),
    (
        LORD_HOWE,
        "2024-10-05T12:30:00Z",
        "2024-10-05T20:00:00Z",
        "23:00 10-06 01:00 02:30 03:00 04:00 05:00 06:00 07:00",
    ),
    (UTC, "2024-01-01T15:00:00Z", "2024-01-02T03:00:00Z", "16:00 18:00 20:00 22:00 01-02 02:00"),
]

# Those that CronJobs name.
NAMED = [BERLIN, HAVANA, LORD_HOWE]

# Windows of `upcoming`.
WINDOWS = [
    (BERLIN, "2024-03-30T20:20:00Z", "12h"),
    (BERLIN, "2024-10-26T20:00:00Z", "12h"),
    (KOLKATA, "2024-03-30T20:20:00Z", "30h"),
    (HAVANA, "2024-03-10T02:00:00Z", "9h"),
    (LORD_HOWE, "2024-10-05T12:15:00Z", "8h"),
    (UTC, "2024-03-30T20:20:00Z", "12h"),
]


def run_of(start, end):
    """A CronJob that comes a few times in the run."""
    one = {
        "apiVersion": "batch/v1",
        "kind": "CronJob",
        "metadata": {"name": "a", "namespace": "team"},
        "spec": {
            "schedule": "40 * * * *",
            "concurrencyPolicy": "Forbid",
            "jobTemplate": {"spec": {"template": {"spec": {"restartPolicy": "Never"}}}},
        },
    }
    step = 600 if second(end) - second(start) < DAY else 3600
    return {"start": start, "end": end, "stepSeconds": step, "cronJobs": [one]}


def printed_time(text, clock, wrong):
    """The instant of a time in a picture, which has the clock's offset."""
    at = second(text)
    offset = datetime.fromisoformat(text.replace("Z", "+00:00")).utcoffset()
    if offset != timedelta(seconds=clock.offset(at)):
        wrong.append(f"{text} by {clock.name}")
    return at


def texts(top, **attributes):
    return [
        part
        for part in top.iter(f"{SVG}text")
        if all(part.get(name) == value for name, value in attributes.items())
    ]


def stands(clock, label, at, within):
    """Whether the clock shows that about then: at an hour and minute, or where a date begins."""
    before, behind = clock.shown(at - within - 1), clock.shown(at + within)
    if "-" in label:
        return behind.strftime("%m-%d") == label != before.strftime("%m-%d")
    hour, minute = map(int, label.split(":"))
    wanted = behind.replace(hour=hour, minute=minute, second=0)
    return timedelta(0) <= behind - wanted <= timedelta(seconds=2 * within + 1)


def labels(top, clock, wrong):
    """What stands above the lanes, of which each is what the clock shows there."""
    caption = texts(top, y="22")[0].text
    if caption == "Nothing to show":
        return [label.text for label in texts(top, y="68")]
    start, end = (printed_time(text, clock, wrong) for text in caption.split(" to "))
    span = max(end - start, 60)
    within = span // 7100 + 1
    found = texts(top, y="68")
    for label in found:
        at = start + int((float(label.get("x")) - 230) * span / 710)
        if not stands(clock, label.text, at, within):
            wrong.append(f"{label.text} stands at {time(at)}")
    lines = [line.get("x1") for line in top.iter(f"{SVG}line") if line.get("class") == "grid"]
    if lines != [label.get("x") for label in found]:
        wrong.append(f"lines at {lines}")
    return [label.text for label in found]


def first_of(clock, start):
    """When the first row of a window begins: at a full hour of the clock."""
    return start - (start + clock.offset(start)) % 3600


def row_labels(clock, first, count):
    """The hours of a window, with the date at the first and where a day begins."""
    day = None
    for row in range(count):
        shown = clock.shown(first + 3600 * row)
        yield shown.strftime(" %H:%M" if shown.date() == day else "%Y-%m-%d %H:%M")
        day = shown.date()


def rows(top, clock, start, wrong):
    """The heading and the rows of a window; when the first row begins."""
    first = first_of(clock, start)
    heading = texts(top, y="22")[0].text
    if not heading.endswith(f", by {clock.heading()}"):
        wrong.append(f"heading: {heading}")
    found = [label.text for label in texts(top, **{"text-anchor": "end"})]
    wanted = list(row_labels(clock, first, len(found)))
    wrong += [f"row {it!r}, not {other!r}" for it, other in zip(found, wanted) if it != other]
    return first


def place(first, at):
    """Where a minute of a window stands."""
    return 132 + 14 * ((at - first) // 60 % 60), 74 + 16 * ((at - first) // 3600)


def changes(clocks, start, end):
    """When one of these clocks is put, behind the start."""
    return [at for clock in clocks for at, _ in clock.offsets[1:] if start < at < end]


def marks(top, wanted, first, wrong):
    """A mark at each of these instants."""
    found = [
        part.get("d").split("l")[0]
        for part in top.iter(f"{SVG}path")
        if part.find(f"{SVG}title") is not None
    ]
    places = [place(first, at) for at in wanted]
    if found != [f"M{x - 1} {y}" for x, y in places]:
        wrong.append(f"marks at {found}")
