"""What people are told of calls that the API server goes on refusing: each cause once an hour."""
from itertools import count

from answers import FIRST, LAST, held_one
from server import stamp
from stage import MINUTES, POD, T0, TIME, Stage, ref_of, refusal

VERBS = {"GET": "get", "POST": "create", "PATCH": "patch", "DELETE": "delete"}
WRONG = "spec.backoffLimit: Invalid value: -1: must be greater than or equal to 0"


def forbidden_words(verb, resource, name):
    may = f'User "u" cannot {verb} resource "{resource}" in API group "batch" in the namespace "n"'
    return f'{resource}.batch "{name}" is forbidden: {may}'


def forbidden(request):
    """The answer to a request for which there is no right."""
    resource, name = request["path"].partition("?")[0].split("/")[6:8]
    words = forbidden_words(VERBS[request["method"]], resource, name)
    return refusal(403, "Forbidden", words, name=name, group="batch", kind=resource)


# ---- Jobs that can't be read

LATE = "etcdserver: request timed out"
UNREAD = (
    (403, forbidden, forbidden_words("get", "jobs", LAST)),
    (500, refusal(500, "InternalError", LATE), LATE),
    (404, {"status": 404, "body": {"error": "default backend - 404"}}, "default backend - 404"),
    (404, {"status": 404, "body": None}, "404, and no reason"),
    (200, {"status": 200, "body": {"metadata": {"name": "x"}}}, "it is no Job of that name"),
)


def unread_line(code, job, words):
    told = f"cronjob n/c: the API server answered {code} to the GET of job n/{job}: {words}; "
    return told + "no job starts until that one is read"


def unread():
    """A Job of `status.active` that can't be read is told, and asked for less and less often."""
    for code, told, words in UNREAD:
        stage, what = Stage(), f"{code}, {words[:25]}"
        held_one(stage)
        stop = stage.meddle("GET", f"/jobs/{LAST}$", told)
        stage.begin()
        stage.go(400)
        tries = len(stage.of("GET", f"/jobs/{LAST}$"))
        stop()
        stage.go(70)
        stage.end()
        yield f"{what}: a try a minute in the end", 12 < tries < 26, True
        lines = [it for it in stage.said() if "to the GET of" in it]
        yield f"{what}: the line", lines, [unread_line(code, LAST, words)]
        events = [(it["type"], it["message"]) for it in stage.events("FailedGet")]
        yield f"{what}: the Event", events, [("Warning", f"Error getting job {LAST}: {words}")]
        counts = [it["count"] for it in stage.events("FailedGet")]
        yield f"{what}: it is counted", [tries - 2 <= it <= tries for it in counts], [True]
        yield f"{what}: it is started then", [name for name, _ in stage.starts()], [LAST]


def unread_name():
    """So is one that has the name of the Job that is to be created."""
    stage = Stage()
    stage.cron("c", "1 * * * *")
    stage.job(FIRST)
    stop = stage.meddle("GET", f"/jobs/{FIRST}$", {"status": 404, "body": {"error": "no backend"}})
    stage.begin()
    stage.go(55 + 200)
    tries = len(stage.of("GET", f"/jobs/{FIRST}$"))
    stop()
    stage.go(70)
    stage.end()
    yield "the tries", 12 < tries < 26, True
    lines = [it for it in stage.said() if "to the GET of" in it]
    yield "the line", lines, [unread_line(404, FIRST, "no backend")]
    started = [it.what.rpartition("/")[2] for it in stage.of("PATCH", "/jobs/")]
    yield "one of another name starts", [it.startswith(f"{FIRST}-") for it in started], [True]


# ---- the words of a cause


def one_cause():
    """What is wrong with each minute's Job is one cause, whatever the Job is called."""
    stage = Stage()
    stage.cron()

    def told(request):
        name = request["body"]["metadata"]["name"]
        words = f'Job.batch "{name}" is invalid: {WRONG}'
        return refusal(422, "Invalid", words, name=name, group="batch", kind="Job")

    stage.meddle("POST", "/jobs$", told)
    stage.run(230)
    names = {it.body["metadata"]["name"] for it in stage.of("POST", "/jobs$")}
    yield "the Jobs that were tried", sorted(names), [f"c-{MINUTES + it}" for it in (1, 2, 3)]
    words = f'Job.batch "{FIRST}" is invalid: {WRONG}'
    lines = [it for it in stage.said() if "to the creation of" in it]
    line = f"cronjob n/c: the API server answered 422 to the creation of its Job: {words}"
    yield "the line", lines, [line]
    events = stage.events("FailedCreate")
    yield "the Event", [it["message"] for it in events], [f"Error creating job: {words}"]
    yield "it is counted", [it["count"] > 9 for it in events], [True]


# ---- writes


def refused_claims():
    """Claims that are refused for the same cause are told once."""
    stage = Stage()
    stage.cron()
    stage.meddle("PATCH", "/cronjobs/c/status", forbidden)
    stage.run(230)
    yield "the tries", len(stage.claims()) > 9, True
    lines = [it for it in stage.said() if "403" in it]
    words = forbidden_words("patch", "cronjobs", "c")
    line = f"cronjob n/c: the API server answered 403 to the claim in its status: {words}"
    yield "the line", lines, [line]


def causes_in_turn():
    """Causes that come in turn are each told once."""
    stage, number = Stage(), count()
    stage.cron()

    def told(_):
        return refusal(403, "Forbidden", f"cause {next(number) % 3}")

    stage.meddle("PATCH", "/cronjobs/c/status", told)
    stage.run(130)
    yield "the tries", len(stage.claims()) > 9, True
    lines = [it.rpartition(": ")[2] for it in stage.said() if "403" in it]
    yield "the lines", lines, ["cause 0", "cause 1", "cause 2"]


def refused_starts():
    """So are starts."""
    stage = Stage()
    stage.cron("c", "1 * * * *")
    stage.meddle("PATCH", "/jobs/", forbidden)
    stage.run(230)
    yield "the tries", len(stage.of("PATCH", "/jobs/")) > 4, True
    lines = [it for it in stage.said() if "403" in it]
    words = forbidden_words("patch", "jobs", FIRST)
    line = f"cronjob n/c: the API server answered 403 to the start of its Job: {words}"
    yield "the line", lines, [line]


def refused_deletions():
    """So are deletions: of the Job that runs under Replace, and of those over a history limit."""
    stage = Stage()
    cron = stage.cron(concurrencyPolicy="Replace")
    job = stage.job(LAST, cron, {TIME: stamp(T0), "test/run": "900"})
    stage.has_status("c", lastScheduleTime=stamp(T0), active=[ref_of(job)])
    template = {"metadata": {"annotations": {"test/run": "5"}}, "spec": {"template": POD}}
    stage.cron("d", template=template, successfulJobsHistoryLimit=0)
    stage.meddle("DELETE", "/jobs/", forbidden)
    stage.run(230)
    names = {it.path.rpartition("/")[2] for it in stage.of("DELETE", "/jobs/d-")}
    yield "the Jobs over the limit", len(names) > 1, True
    lines = [it for it in stage.said() if "403" in it]
    told = "the API server answered 403 to the deletion of a Job"
    wanted = [f"cronjob n/{it}: {told}: jobs.batch" for it in "cd"]
    yield "the lines", sorted(it[: len(wanted[0])] for it in lines), wanted


CASES = (unread, unread_name, one_cause, refused_claims, causes_in_turn, refused_starts)
CASES += (refused_deletions,)
