"""The transcripts of a program's replicas: each must be what the program does, by its own
`--check`, and none that somebody has changed. And in none a CronJob has two syncs at a time."""
import json
import re
import subprocess

PATIENCE = 120
AGREES = ": as this program does\n"


class Transcripts:
    """The transcripts of the replicas of a scenario, which are in a folder."""

    def __init__(self, program, folder):
        self.program, self.folder, self.files = program, folder, []

    def options(self, number, name):
        """The option that has a replica write one."""
        file = self.folder / f"{number}.{name}.{len(self.files)}.jsonl"
        self.files.append(file)
        return ["--transcript", str(file)]

    def check(self, file):
        words = [str(self.program), "control", "--check", str(file)]
        ran = subprocess.run(words, capture_output=True, text=True, timeout=PATIENCE)
        return ran.returncode, ran.stdout, ran.stderr

    def wrong(self):
        """What is wrong with them; they are removed."""
        found = []
        for file in self.files:
            status, printed, said = self.check(file)
            if status != 0 or not printed.endswith(AGREES):
                found.append(("transcript", f"{file.name}: {status}: {printed}{said}"[:600]))
            found += [("two syncs", f"{file.name}: {it}") for it in at_once(file.read_text())]
            for what, text in tampered(file.read_text().splitlines(keepends=True)):
                file.write_text(text)
                status, printed, _ = self.check(file)
                if status != 1 or " differs\n" not in printed:
                    found.append(("tampered", f"{file.name}: {what}: {status}: {printed[:300]}"))
            file.unlink()
        self.files = []
        return found


def cron_of(request):
    """The CronJob that a request of a sync is for; none of another request."""
    body, path = request.get("body"), request["path"].partition("?")[0]
    name = body["metadata"]["name"] if request["method"] == "POST" and "/jobs" in path else ""
    found = re.search(r"/namespaces/(\w+)/(?:cronjobs|jobs)/(c\d+)", f"{path}/{name}")
    return found and found.group(1, 2)


def at_once(text):
    """Each request of a sync that goes out while one for the same CronJob waits for its answer."""
    waits, found = {}, []
    for line in text.splitlines():
        try:
            entry = json.loads(line)
        except ValueError:
            # (the end, which a kill cut off)
            continue
        request, answer = entry.get("out"), entry.get("in")
        if isinstance(answer, dict) and "event" not in answer:
            waits.pop(answer.get("id"), None)
        key = cron_of(request) if isinstance(request, dict) else None
        if key and key in waits.values():
            found.append(f"{request['method']} {request['path']}")
        if key:
            waits[request["id"]] = key
    return found


def tampered(lines):
    """The same transcript with a request changed, and with one left out."""
    places = [number for number, it in enumerate(lines[:-1]) if it.startswith('{"out":')]
    if not places:
        return
    place = places[len(places) // 2]
    changed = lines[place].replace('"method":"', '"method":"X', 1)
    yield "a request changed", "".join([*lines[:place], changed, *lines[place + 1 :]])
    # (one behind which something came in, since the end of a transcript may be cut off)
    followed = [it for it in places if any(x.startswith('{"in') for x in lines[it + 1 :])]
    if followed:
        place = followed[len(followed) // 2]
        yield "a request left out", "".join([*lines[:place], *lines[place + 1 :]])
