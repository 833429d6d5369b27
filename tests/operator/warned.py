"""What people are warned of, by a line and by an Event: creations that are refused, times that
nobody claimed, Jobs that are held for good, and a second controller."""
import re

from server import MERGE
from stage import MINUTES, OTHER, POD, T0, Stage, refusal

HOOK = 'admission webhook "x.example" denied the request: no "team" label'


def made(stage):
    """The requests that create an Event of a refused creation."""
    found = stage.of("POST", "/namespaces/n/events$")
    return [it for it in found if it.body.get("reason") == "FailedCreate"]


def changed(stage):
    """Those that count one."""
    names = {it.body["metadata"]["name"] for it in made(stage)}
    found = stage.of("PATCH", "/namespaces/n/events/")
    return [it for it in found if it.path.rpartition("/")[2] in names]


def refused_line(code, words=HOOK):
    return f"cronjob n/c: the API server answered {code} to the creation of its Job: {words}"


def refused():
    """A creation that is refused is told once, by a line and by one Event that is counted."""
    stage = Stage()
    stage.cron()
    stage.meddle("POST", "/jobs$", refusal(422, "Invalid", HOOK, name="c", kind="Job"))
    stage.run(230)
    yield "the line", stage.said().count(refused_line(422)), 1
    yield "one Event is created", [it.status() for it in made(stage)], [201]
    event = made(stage)[0].body if made(stage) else {}
    named = [event.get(it) for it in ("type", "reason", "message")]
    yield "what it says", named, ["Warning", "FailedCreate", f"Error creating job: {HOOK}"]
    about = {it: event.get("involvedObject", {}).get(it) for it in ("kind", "namespace", "name")}
    yield "what it is of", about, {"kind": "CronJob", "namespace": "n", "name": "c"}
    name = event.get("metadata", {}).get("name", "")
    yield "its name", bool(re.fullmatch(r"c\.[0-9a-f]+", name)), True
    counts = [it.body.get("count") for it in changed(stage)]
    # (several that come at once may be counted by one request)
    rises = [1 < it < later for it, later in zip(counts, counts[1:])]
    yield "it is counted", rises != [] and all(rises), True
    tries = len(stage.of("POST", "/jobs$"))
    yield "each of them", tries - 2 <= max(counts, default=0) <= tries, True
    fields = {tuple(sorted(it.body)) for it in changed(stage)}
    yield "by these members alone", fields, {("count", "lastTimestamp")}
    kinds = {it.request.get("contentType") for it in changed(stage)}
    yield "by a merge patch", kinds, {MERGE}
    names = {it.path.rpartition("/")[2] for it in changed(stage)}
    yield "of that Event", names, {name}


def refused_otherwise():
    """So is one by another status, and another cause is told as well."""
    for code in (403, 400, 500, 503):
        stage = Stage()
        stage.cron("c", "1 * * * *")
        stage.meddle("POST", "/jobs$", refusal(code, "Reason", HOOK))
        stage.begin()
        stage.go(80)
        stage.hands.clear()
        stage.meddle("POST", "/jobs$", refusal(code, "Reason", "another cause"))
        stage.go(90)
        stage.hands.clear()
        stage.go(120)
        stage.end()
        yield f"{code}: the line", stage.said().count(refused_line(code)), 1
        told = stage.said().count(refused_line(code, "another cause"))
        yield f"{code}: the other cause", told, 1
        found = {it["message"] for it in stage.events("FailedCreate")}
        wanted = {f"Error creating job: {it}" for it in (HOOK, "another cause")}
        yield f"{code}: Events", found, wanted
        yield f"{code}: it starts then", [name for name, _ in stage.starts()], [f"c-{MINUTES + 1}"]


def not_refused():
    """A name that is taken, and no answer, are no refusals of a creation; a proxy's is told."""
    for count, told in (
        (0, refusal(409, "AlreadyExists", 'jobs.batch "c-28401121" already exists')),
        (1, {"status": 403, "body": None}),
        (1, {"status": 422, "body": {"error": "x"}}),
        (0, {"error": "read timed out"}),
    ):
        stage, what = Stage(), str(told)[:30]
        stage.cron("c", "1 * * * *")
        stage.meddle("POST", "/jobs$", told, 1)
        stage.run(100)
        yield f"{what}: Events", len(stage.events("FailedCreate")), count
        lines = [it for it in stage.said() if "to the creation of its Job" in it]
        yield f"{what}: lines", len(lines), count


def expired_event():
    """An Event that has expired is created anew."""
    stage = Stage()
    stage.cron()
    stage.meddle("POST", "/jobs$", refusal(422, "Invalid", HOOK))
    stage.begin()
    stage.go(130)
    stage.server.events.clear()
    stage.go(130)
    stage.end()
    yield "the lost one", [it.status() for it in changed(stage) if it.status() != 200], [404]
    yield "a second one is created", [it.status() for it in made(stage)], [201, 201]
    yield "the line", stage.said().count(refused_line(422)), 1
    yield "which is there", len(stage.events("FailedCreate")), 1


def once_an_hour():
    """After an hour it is told again, with how often it came; its Event is counted on."""
    stage = Stage()
    stage.cron("c", "*/20 * * * *")
    stage.meddle("POST", "/jobs$", refusal(422, "Invalid", HOOK))
    stage.run(5500)
    first, *others = [it for it in stage.said() if "to the creation of" in it]
    yield "the first line", first, refused_line(422)
    more = r" \((\d+) times more since the last such line\)"
    found = [re.fullmatch(re.escape(refused_line(422)) + more, it) for it in others]
    yield "one more", [bool(it) for it in found], [True]
    times = len([it for it in stage.of("POST", "/jobs$") if it.heard < T0 + 3600])
    yield "how often it came before", [int(it[1]) + 1 for it in found if it], [times]
    yield "one Event is created", [it.status() for it in made(stage)], [201]
    counts = [it.body["count"] for it in changed(stage)]
    yield "whose count never falls", counts, sorted(counts)


def many_events():
    """At most 1,200 requests for Events go out in a minute."""
    stage, count = Stage(), 150
    for number in range(count):
        stage.cron(f"c{number}", "1 * * * *")
    stage.meddle("POST", "/jobs$", refusal(422, "Invalid", HOOK))
    stage.run(118)
    minutes = {}
    for it in stage.of("P", "/events"):
        minutes.setdefault(int(it.at // 60), []).append(it)
    most = max((len(it) for it in minutes.values()), default=0)
    yield "so many creations are tried", len(stage.of("POST", "/jobs$")) > 1500, True
    yield "at most 1,200 a minute", most <= 1200, True
    yield "each is told of", len({it.body["involvedObject"]["name"] for it in made(stage)}), count


# ---- missed times


def missed_line(minute, name="c"):
    time = f"2024-01-01T00:0{minute}:00Z"
    return f"cronjob n/{name}: no replica claimed its time {time} within a minute"


def missed():
    """A time that nobody claimed within a minute is told once, and still starts."""
    stage = Stage()
    stage.cron("c", "1 * * * *")
    stage.meddle("POST", "/jobs$", {"error": "read timed out"})
    stage.begin()
    stage.go(105)
    yield "not before the minute is over", [it for it in stage.said() if "no replica" in it], []
    stage.go(30)
    stage.hands.clear()
    stage.go(60)
    stage.end()
    yield "the line", stage.said().count(missed_line(1)), 1
    events = [(it["type"], it["message"], it.get("count")) for it in stage.events("MissSchedule")]
    words = "Missed scheduled time to start a job: 2024-01-01T00:01:00Z"
    yield "the Event", events, [("Warning", words, 1)]
    yield "it starts", [name for name, _ in stage.starts()], [f"c-{MINUTES + 1}"]


def missed_by_conflicts():
    """It doesn't matter why; each time is told."""
    stage = Stage()
    stage.cron("c")
    stage.meddle("PATCH", "/cronjobs/c/status", refusal(500, "InternalError", "x"))
    stage.run(200)
    told = [it for it in stage.said() if "no replica claimed" in it]
    yield "the lines", told, [missed_line(1), missed_line(2)]
    messages = [it["message"][-20:] for it in stage.events("MissSchedule")]
    yield "the Events", messages, [f"2024-01-01T00:0{it}:00Z" for it in (1, 2)]


def not_missed():
    """What isn't planned isn't missed: under Forbid, suspended, or claimed by another replica."""
    stage = Stage(replicas=2)
    template = {"metadata": {"annotations": {"test/run": "300"}}, "spec": {"template": POD}}
    stage.cron("forbid", template=template, concurrencyPolicy="Forbid")
    stage.cron("suspended", suspend=True)
    stage.cron("usual")
    stage.run(250)
    yield "no line", [it for it in stage.said() if "no replica claimed" in it], []
    yield "no Event", stage.events("MissSchedule"), []
    started = sorted(name for name, _ in stage.starts())
    yield "what started", len(started), 5


# ---- held for good


def orphans():
    """A held Job that no CronJob controls is told once, with what to do; no other one is."""
    stage = Stage()
    cron = stage.cron("c", "59 * * * *")
    labels, notes = {"cronsim/uid": "gone"}, {"cronsim/held": "suspend", "cronsim/policy": "Allow"}
    stage.job("left", None, notes, labels, suspend=True)
    stage.job("old", None, notes | {"cronsim/held": "true"}, labels, suspend=True)
    stage.job("started", None, {"cronsim/policy": "Allow"}, labels)
    stage.job("owned", cron, notes, {"cronsim/uid": cron["metadata"]["uid"]}, suspend=True)
    stage.job("strange", None, {}, {}, suspend=True)
    stage.begin()
    stage.go(30)
    path = stage.path("jobs", "left")
    stage.call("PATCH", path, {"metadata": {"labels": {"a": "b"}}})
    stage.job("later", None, notes, labels, suspend=True)
    stage.go(60)
    stage.end()
    told = sorted(it for it in stage.said() if "no CronJob controls it" in it)
    words = "held, and no CronJob controls it; it never runs: kubectl delete job -n n"
    yield "the lines", told, [f"job n/{it}: {words} {it}" for it in ("later", "left", "old")]


# ---- a second controller

SECOND = "kube-controller-manager writes its status too: two controllers look after it"


def second_controller():
    """Somebody else who writes the status is told once."""
    stage = Stage()
    for name in "cd":
        stage.cron(name, "59 * * * *")
    stage.begin()
    stage.go(20)
    for second in range(3):
        told = {"status": {"lastSuccessfulTime": f"2023-12-31T00:00:0{second}Z"}}
        stage.call("PATCH", stage.path("cronjobs", "c") + "/status", told, who=OTHER)
        stage.go(10)
    stage.end()
    told = [it for it in stage.said() if "its status too" in it]
    yield "the line", told, [f"cronjob n/c: {SECOND}"]
    events = [(it["type"], it["involvedObject"]["name"]) for it in stage.events("OtherController")]
    yield "the Event", events, [("Warning", "c")]


def no_second_controller():
    """Who writes something else, who wrote before, and replicas themselves are none."""
    stage = Stage(replicas=2)
    stage.cron()
    told = {"status": {"lastSuccessfulTime": "2023-12-31T00:00:00Z"}}
    stage.call("PATCH", stage.path("cronjobs", "c") + "/status", told, who=OTHER)
    stage.clock.now += 10
    stage.begin()
    for _ in range(4):
        stage.go(20)
        stage.touch()
    stage.go(60)
    stage.end()
    yield "no line", [it for it in stage.said() if "its status too" in it], []
    yield "no Event", stage.events("OtherController"), []
    yield "it starts", len(stage.starts()) > 1, True


CASES = (refused, refused_otherwise, not_refused, expired_event, missed, missed_by_conflicts)
CASES += (not_missed, orphans, second_controller, no_second_controller)
LONG = (once_an_hour, many_events)
