"""Jobs that a newer version of the program holds, in a way that this one doesn't know."""
from stage import MINUTES, T0, TIME, Stage, ref_of, stamp

JOB = f"c-{MINUTES}"
NEWER = "gate"
LEFT = "is held in a way that this version doesn't know: "
LEFT += "a newer version of cronsim is to start or remove it"


def held_job(stage, cron, name=JOB, time=T0, policy="Allow", held=NEWER):
    """A Job of a CronJob that is held."""
    notes = {TIME: stamp(time), "cronsim/policy": policy, "cronsim/held": held}
    labels = {"cronsim/uid": cron["metadata"]["uid"]}
    return stage.job(name, cron, notes, labels, suspend=True)


def claimed(policy, **spec):
    """A CronJob that claimed such a Job."""
    stage = Stage()
    cron = stage.cron(concurrencyPolicy=policy, **spec)
    job = held_job(stage, cron, policy=policy)
    stage.is_claimed(cron, job)
    return stage, cron, job


def told(stage, name=JOB):
    """How often people are told of a Job that it is left alone."""
    return [it for it in stage.said() if it == f"cronjob n/c: job n/{name} {LEFT}"]


def writes(stage, part="/jobs"):
    """What is written of Jobs."""
    found = [it for it in stage.of("", part) if it.method in ("POST", "PATCH", "DELETE")]
    return [it.what for it in found]


def has_hold(stage, name=JOB):
    job = stage.server.objects["jobs"].get(("n", name), {"metadata": {"annotations": {}}})
    return job["metadata"]["annotations"].get("cronsim/held")


def claimed_by_a_newer_one():
    """It isn't started, nor deleted for its deadline, and no other is made before it starts."""
    for policy in ("Allow", "Forbid", "Replace"):
        stage, cron, job = claimed(policy, startingDeadlineSeconds=20)
        others = [stage.job(f"c-{MINUTES - 1}", cron, {TIME: stamp(T0 - 60), "test/run": "900"})]
        stage.has_status("c", active=[ref_of(it) for it in (*others, job)])
        stage.run(200)
        yield f"{policy}: what is written of Jobs", writes(stage), []
        yield f"{policy}: its hold", has_hold(stage), NEWER
        yield f"{policy}: what the status names", len(stage.status()["active"]), 2
        yield f"{policy}: it is told once", len(told(stage)), 1


def started_by_a_newer_one():
    """Once it was started, the times that come are made."""
    stage, _, _ = claimed("Allow")
    stage.begin()
    stage.go(80)
    yield "nothing is written of Jobs", writes(stage), []
    free = {"metadata": {"annotations": {"cronsim/held": None}}, "spec": {"suspend": False}}
    stage.call("PATCH", stage.path("jobs", JOB), free, who="cronsim/v9")
    stage.go(60)
    stage.end()
    made = [name for name, _ in stage.starts() if name != JOB]
    yield "what starts", made, [f"c-{MINUTES + 1}", f"c-{MINUTES + 2}"]
    yield "it is told once", len(told(stage)), 1


def garbage_of_a_newer_one():
    """One that nobody claimed is left, beside another that is deleted."""
    stage = Stage()
    cron = stage.cron("c", "30 * * * *")
    held_job(stage, cron, f"c-{MINUTES - 30}-b", T0 - 1800)
    held_job(stage, cron, f"c-{MINUTES - 30}-a", T0 - 1800, held="suspend")
    stage.has_status("c", lastScheduleTime=stamp(T0 - 1800))
    stage.run(100)
    yield "what is deleted", writes(stage), [f"DELETE n/jobs/c-{MINUTES - 30}-a"]
    yield "it is told once", len(told(stage, f"c-{MINUTES - 30}-b")), 1


def a_name_of_a_newer_one():
    """One that has the name, and that nobody claimed, isn't claimed: the second name is taken."""
    stage = Stage()
    cron = stage.cron("c", "1 * * * *")
    stage.begin()
    stage.go(10)
    first = f"c-{MINUTES + 1}"
    held_job(stage, cron, first, T0 + 60)
    stage.go(90)
    stage.end()
    names = [it.body["metadata"]["name"] for it in stage.of("POST", "/jobs$")]
    yield "what is created", [it[: len(first)] for it in names], [first, first]
    yield "the second has another name", len(names) == 2 and names[1] != first, True
    claimed = [it.body["status"]["active"][0]["name"] for it in stage.claims()]
    yield "what is claimed", claimed, names[1:]
    yield "its hold", has_hold(stage, first), NEWER
    yield "it is told once", len(told(stage, first)), 1


CASES = (claimed_by_a_newer_one, started_by_a_newer_one, garbage_of_a_newer_one)
CASES += (a_name_of_a_newer_one,)
