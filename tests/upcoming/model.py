"""What `upcoming` and `describe` print, by a plain scan of all minutes, with Python's own zones:
nothing here knows of the program's code. A schedule is scanned as the sets of its five fields."""
import datetime
import re

DAYS = ["Monday", "Tuesday", "Wednesday", "Thursday", "Friday", "Saturday", "Sunday"]
RANGES = [(0, 59), (0, 23), (1, 31), (1, 12), (0, 6)]
MACROS = {
    "@yearly": "0 0 1 1 *",
    "@monthly": "0 0 1 * *",
    "@weekly": "0 0 * * 0",
    "@daily": "0 0 * * *",
    "@hourly": "0 * * * *",
}
NAMES = [
    {},
    {},
    {},
    {m: n + 1 for n, m in enumerate("jan feb mar apr may jun jul aug sep oct nov dec".split())},
    {d: n for n, d in enumerate("sun mon tue wed thu fri sat".split())},
]
UTC = datetime.timezone.utc
REACH = 3000 * 86400


def numbers(field, place):
    low, high = RANGES[place]
    found = set()
    for element in field.split(","):
        base, _, step = element.partition("/")
        if base in "*?":
            first, last = low, high
        else:
            ends = [NAMES[place][it] if it in NAMES[place] else int(it) for it in base.split("-")]
            first, last = ends[0], ends[-1]
            if step and len(ends) == 1:
                last = high
        found |= set(range(first, last + 1, int(step or 1)))
    return found


class Schedule:
    def __init__(self, text):
        fields = MACROS.get(text, text).lower().split()
        self.sets = [numbers(field, place) for place, field in enumerate(fields)]
        self.is_open = [
            any(re.fullmatch(r"[*?](/1)?", it) for it in fields[place].split(","))
            for place in (2, 4)
        ]

    def allows_day(self, local):
        day = local.day in self.sets[2]
        weekday = local.isoweekday() % 7 in self.sets[4]
        return (day and weekday) if any(self.is_open) else (day or weekday)

    def allows(self, local):
        clock = local.minute in self.sets[0] and local.hour in self.sets[1]
        return clock and local.month in self.sets[3] and self.allows_day(local)

    def is_never(self):
        """Whether no date of any year is allowed; each weekday falls on each date within the years
        that are searched."""
        lengths = [31, 29, 31, 30, 31, 30, 31, 31, 30, 31, 30, 31]
        days = any(day <= lengths[month - 1] for month in self.sets[3] for day in self.sets[2])
        return not days and (self.is_open[1] or self.is_open[0])


def shown(zone, at):
    return datetime.datetime.fromtimestamp(at, zone)


def text(at):
    return datetime.datetime.fromtimestamp(at, UTC).strftime("%Y-%m-%dT%H:%M:%SZ")


def civil(local):
    return local.strftime("%Y-%m-%dT%H:%M")


def ahead(zone, at):
    return int(shown(zone, at).utcoffset().total_seconds())


def changes(name, zone, after, last):
    """The lines of the instants after one and up to another at which the zone's clock is put; all
    zones here are put at whole minutes."""
    for at in range((after // 60 + 1) * 60, last + 1, 60):
        before, now = ahead(zone, at - 1), ahead(zone, at)
        if before != now:
            word = "skips" if before < now else "repeats"
            yield (
                f"{word} {name} {civil(shown(zone, at - 1))} {civil(shown(zone, at))} "
                f"{text(at)}\n"
            )


def due_times(schedule, zone, start, end):
    """The due times from one instant on and before another."""
    return [at for at in range(-(-start // 60) * 60, end, 60) if schedule.allows(shown(zone, at))]


def summed(schedule, zone, start, end):
    """How many starts there are, the first, the last, how far apart they are where that is the
    same for all, and the next one, be it after the end."""
    times = due_times(schedule, zone, start, end)
    gaps = {after - before for before, after in zip(times, times[1:])}
    every = gaps.pop() if len(gaps) == 1 else None
    at = times[0] if times else -(-start // 60) * 60
    while not times and not schedule.allows(local := shown(zone, at)):
        # (a day of these zones begins at a multiple of five minutes)
        is_day = local.month in schedule.sets[3] and schedule.allows_day(local)
        at = at + 60 if is_day else (at // 300 + 1) * 300
    first, last = (text(times[0]), text(times[-1])) if times else (None, None)
    return len(times), first, last, every, text(at)


def upcoming(crons, zones, start, end, peaks):
    """What is printed of CronJobs in their order, each as its key, its schedule, the name of its
    zone or none, and whether it is suspended."""
    minutes = {}
    for key, schedule, zone, suspended in crons:
        if not suspended:
            for at in due_times(schedule, zones[zone] if zone else UTC, start, end):
                minutes.setdefault(at, []).append(key)
    lines = [f"start {text(at)} {' '.join(minutes[at])}\n" for at in sorted(minutes)]
    for key, schedule, zone, suspended in crons:
        if suspended:
            lines.append(f"suspended {key}\n")
        elif schedule.is_never():
            lines.append(f"never {key}\n")
    for name in dict.fromkeys(zone for _, _, zone, _ in crons if zone):
        lines += changes(name, zones[name], start, end - 1)
    fullest = sorted(minutes, key=lambda at: (-len(minutes[at]), at))[:peaks]
    lines += [f"peak {text(at)} {len(minutes[at])} {' '.join(minutes[at])}\n" for at in fullest]
    lines.append(
        f"from {text(start)} to {text(end)}: {len(crons)} cron jobs, "
        f"{sum(map(len, minutes.values()))} starts\n"
    )
    return "".join(lines)


def two(seconds):
    return f"{seconds // 3600:02}:{seconds % 3600 // 60:02}" + (
        f":{seconds % 60:02}" if seconds % 60 else ""
    )


def span(seconds):
    days = seconds // 86400
    return (f"{days}d " if days else "") + two(seconds % 86400)


def times(schedule, name, zone, start, count):
    """What is printed behind the sentence."""
    lines, after, at = [], start, start // 60 * 60
    while count:
        at += 60
        if at > after + REACH:
            return "".join([*lines, "none within 3,000 days\n"])
        local = shown(zone, at)
        if schedule.allows(local):
            off = ahead(zone, at)
            sign = "-" if off < 0 else "+"
            lines += changes(name, zone, after, at)
            lines.append(
                f"{DAYS[local.weekday()]} {civil(local)} {sign}{two(abs(off))} {text(at)} in "
                f"{span(at - start)}\n"
            )
            after, count = at, count - 1
    return "".join(lines)
