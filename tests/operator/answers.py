"""What answers prove, how Jobs are held and started, and what of a status names no Job."""
from server import stamp
from stage import MINUTES, POD, T0, TIME, Stage, ref_of, refusal

HELD = "/metadata/annotations/cronsim~1held"
LAST = f"c-{MINUTES}"
FIRST = f"c-{MINUTES + 1}"


def held_one(stage, held="suspend", policy="Allow", **spec):
    """A CronJob, hourly at minute 59, whose last Job was claimed and not started."""
    template = spec.pop("template", None)
    cron = stage.cron("c", "59 * * * *", template, concurrencyPolicy=policy)
    notes = {TIME: stamp(T0), "cronsim/policy": policy, "cronsim/held": held}
    labels = {"cronsim/uid": cron["metadata"]["uid"]}
    job = stage.job(LAST, cron, notes, labels, **(spec or {"suspend": True}))
    stage.is_claimed(cron, job)
    return cron, job


def missing(name="c-28401120", kind="jobs", reason="NotFound"):
    return refusal(404, reason, f'{kind}.batch "{name}" {reason}', name=name, kind=kind)


NOT_MISSING = (
    ("a proxy's 404", {"status": 404, "body": {"error": "default backend - 404"}}),
    ("a 404 without a body", {"status": 404, "body": None}),
    ("a 404 of another name", missing("c-28401121")),
    ("a 404 of another kind", missing(kind="cronjobs")),
    ("a 404 of another reason", missing(reason="Gone")),
    ("a 404 of no object", refusal(404, "NotFound", "the server could not find it")),
    ("a 200 without a body", {"status": 200, "body": None}),
    ("a 200 of another object", {"status": 200, "body": {"metadata": {"name": "x"}}}),
)


def not_missing():
    """A claimed Job of which some proxy says that it isn't there is still started."""
    for what, told in NOT_MISSING:
        stage = Stage()
        held_one(stage, "true")
        stop = stage.meddle("GET", f"/jobs/{LAST}$", told)
        stage.begin()
        stage.go(15)
        asked = stage.of("PATCH", "/cronjobs/c/status")
        yield f"{what}: nothing is written", [it.body for it in asked], []
        stop()
        stage.go(60)
        stage.end()
        yield f"{what}: it is started", [name for name, _ in stage.starts()], [LAST]


def is_missing():
    """One that the server doesn't have is dropped."""
    stage = Stage()
    held_one(stage)
    path = stage.path("jobs", LAST)
    stage.call("DELETE", path, {"propagationPolicy": "Background"}, "application/json")
    stage.run(30)
    yield "it is dropped", stage.status().get("active"), None


NOT_DELETED = (
    ("a 200 without a body", {"status": 200, "body": None}),
    ("a 200 of a proxy", {"status": 200, "body": {"error": "x"}}),
    ("a Success of no uid", {"status": 200, "body": {"kind": "Status", "status": "Success"}}),
    ("a 202 of another object", {"status": 202, "body": {"metadata": {"uid": "other"}}}),
    ("a proxy's 404", {"status": 404, "body": {"error": "default backend - 404"}}),
)


def not_deleted():
    """Under Replace nothing starts before the Job that runs is deleted."""
    for what, told in NOT_DELETED:
        stage = Stage()
        cron = stage.cron(concurrencyPolicy="Replace")
        notes = {TIME: stamp(T0), "test/run": "900"}
        job = stage.job(LAST, cron, notes)
        stage.has_status("c", lastScheduleTime=stamp(T0), active=[ref_of(job)])
        stop = stage.meddle("DELETE", f"/jobs/{LAST}$", told)
        stage.begin()
        stage.go(58 + 20)
        yield f"{what}: nothing starts", stage.starts(), []
        yield f"{what}: it is asked again", len(stage.of("DELETE", f"/jobs/{LAST}")) > 1, True
        stop()
        stage.go(30)
        stage.end()
        yield f"{what}: it starts", [name for name, _ in stage.starts()], [FIRST]


def is_deleted():
    """A Job that is still going, and a Success of its uid, are both deleted."""
    for finalizers in ([], ["example.com/slow"]):
        stage = Stage()
        cron = stage.cron(concurrencyPolicy="Replace")
        job = stage.job(LAST, cron, {TIME: stamp(T0), "test/run": "900"})
        old = stage.server.objects["jobs"]["n", LAST]
        meta = old["metadata"] | ({"finalizers": finalizers} if finalizers else {})
        stage.server.put("jobs", ("n", LAST), old, old | {"metadata": meta})
        stage.has_status("c", lastScheduleTime=stamp(T0), active=[ref_of(job)])
        stage.run(70)
        deleted = [it.status() for it in stage.of("DELETE", f"/jobs/{LAST}")]
        yield f"one deletion {finalizers}", deleted, [200]
        yield f"it starts {finalizers}", [name for name, _ in stage.starts()], [FIRST]


def foreign(**meta):
    return {"status": 200, "body": {"metadata": meta}}


NOT_WRITTEN = (
    ("nothing", {"status": 200, "body": None}),
    ("no uid", foreign(resourceVersion="5")),
    ("another uid", foreign(uid="other", resourceVersion="5")),
    ("a proxy's 409", {"status": 409, "body": {"error": "conflict"}}),
    ("a proxy's 422", {"status": 422, "body": None}),
)


def not_written():
    """A claim, and a start, that only a proxy took."""
    for what, told in NOT_WRITTEN:
        stage = Stage()
        stage.cron("c", "1 * * * *")
        stage.meddle("PATCH", "/cronjobs/c/status", told, 1)
        stage.meddle("PATCH", f"/jobs/{FIRST}", told, 1)
        stage.run(100)
        claims, starts = stage.claims(), stage.of("PATCH", f"/jobs/{FIRST}")
        yield f"{what}: two claims", [it.status() for it in claims][1:], [200]
        yield f"{what}: two starts", [it.status() for it in starts][1:], [200]
        is_after = [it.at >= claims[-1].heard for it in starts[:1]]
        yield f"{what}: no start before", is_after, [True]
        started = f"cronjob n/c: started job n/{FIRST}"
        yield f"{what}: it is told once", stage.said().count(started), 1


def without_version():
    """An object of the right uid without a version proves no claim."""
    stage = Stage()
    cron = stage.cron("c", "1 * * * *")
    told = foreign(uid=cron["metadata"]["uid"])
    stage.meddle("PATCH", "/cronjobs/c/status", told, 1)
    stage.run(100)
    yield "it claims again", [it.status() for it in stage.claims()], [200, 200]
    yield "the Jobs that started", len(stage.starts()), 1


# ---- how a Job is held


def ops_of(uid, held, **values):
    """A start."""
    found = [{"op": "test", "path": "/metadata/uid", "value": uid}]
    found.append({"op": "test", "path": HELD, "value": held})
    found.append({"op": "remove", "path": HELD})
    return found + [{"op": "add", "path": f"/spec/{it}", "value": values[it]} for it in values]


def holding():
    """A new Job says how it is held, which goes by the server's version."""
    for minor, beta, held, value in (
        (29, False, "suspend", True),
        (23, False, "parallelism", 0),
        (20, True, "parallelism", 0),
    ):
        stage = Stage(minor=minor, beta=beta)
        stage.cron("c", "1 * * * *")
        stage.run(70)
        made, starts = stage.of("POST", "/jobs$"), stage.of("PATCH", f"/jobs/{FIRST}")
        notes = [it.body["metadata"]["annotations"].get("cronsim/held") for it in made]
        yield f"1.{minor}: what it says", notes, [held]
        yield f"1.{minor}: how it is held", [it.body["spec"].get(held) for it in made], [value]
        uids = [it.told["body"]["metadata"]["uid"] for it in made]
        lifted = {"suspend": {"suspend": False}, "parallelism": {"parallelism": 1}}[held]
        wanted = [ops_of(uid, held, **lifted) for uid in uids]
        yield f"1.{minor}: its start", [it.body for it in starts], wanted


def other_holds():
    """A Job that is held as other servers do it, or by an earlier version, is started."""
    both = {"suspend": False, "parallelism": 3}
    for minor, held, spec, values in (
        (29, "parallelism", {"parallelism": 0, "completions": 1}, {"parallelism": 1}),
        (23, "suspend", {"suspend": True}, {"suspend": False}),
        (29, "true", {"parallelism": 0, "completions": 1}, {"suspend": False, "parallelism": 1}),
        (29, "true", {"suspend": True}, {"suspend": False, "parallelism": 1}),
        (23, "true", {"suspend": True}, {"suspend": False, "parallelism": 1}),
        (29, "true", {"parallelism": 0}, both),
        (29, "parallelism", {"parallelism": 0}, {"parallelism": 3}),
    ):
        stage, what = Stage(minor=minor), f"1.{minor}, {held}, {spec}"
        more = {}
        if values.get("parallelism") == 3:
            more["template"] = {"spec": {"parallelism": 3, "template": POD}}
        _, job = held_one(stage, held, **spec, **more)
        stage.run(20)
        starts = stage.of("PATCH", f"/jobs/{LAST}")
        wanted = [ops_of(job["metadata"]["uid"], held, **values)]
        yield f"{what}: its start", [it.body for it in starts], wanted
        now = stage.server.objects["jobs"]["n", LAST]
        lifted = not now["spec"].get("suspend") and now["spec"]["parallelism"] > 0
        yield f"{what}: it runs", lifted and "startTime" in now["status"], True


def no_hold():
    """Another text in the annotation is no hold: such a Job runs, as far as anybody knows."""
    stage = Stage()
    held_one(stage, "false")
    stage.run(20)
    yield "no start", stage.of("PATCH", f"/jobs/{LAST}"), []


# ---- references of no Job


def references():
    """References that name no Job are passed over and told, and the next write drops them."""
    names = ["../../../secrets/x", "UPPER", "a/b", "a" * 254, "%2e%2e", "a?watch=1", "-a"]
    stage = Stage()
    stage.cron("c", "1 * * * *")
    refs = [{"apiVersion": "batch/v1", "kind": "Job", "name": it} for it in names]
    stage.has_status("c", active=refs)
    stage.run(70)
    odd = [it.path for it in stage.asked if "secrets" in it.path or ".." in it.path]
    yield "no request for them", odd, []
    gets = {it.what for it in stage.of("GET", "/jobs/")}
    yield "nor any other", gets, set()
    told = f"cronjob n/c: status.active has {len(names)} references that name no Job"
    yield "people are told", stage.said().count(told), 1
    left = [it["name"] for it in stage.status().get("active") or []]
    yield "they are dropped", [it for it in left if it in names], []
    yield "the Jobs that started", [name for name, _ in stage.starts()], [FIRST]


def a_reference():
    """One alone is told of as one."""
    stage = Stage()
    stage.cron("c", "1 * * * *")
    stage.has_status("c", active=[{"apiVersion": "batch/v1", "kind": "Job", "name": "../x"}])
    stage.run(30)
    told = [it for it in stage.said() if "status.active" in it]
    yield "the line", told, ["cronjob n/c: status.active has a reference that names no Job"]


def references_at_rest():
    """They are dropped where nothing is due, too."""
    stage = Stage()
    stage.cron("c", "0 12 * * *")
    stage.has_status("c", active=[{"kind": "Job", "name": "../x"}])
    stage.run(30)
    yield "they are dropped", stage.status().get("active"), None


CASES = (not_missing, is_missing, not_deleted, is_deleted, not_written, without_version)
CASES += (holding, other_holds, no_hold, references, a_reference, references_at_rest)
