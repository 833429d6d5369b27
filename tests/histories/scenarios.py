"""Random scenarios of a run: a few CronJobs of every policy, whose Jobs run for a while or for
ever, and a user who meddles."""
import random

START = 1704067200


def time(seconds):
    from datetime import datetime, timezone

    return datetime.fromtimestamp(seconds, timezone.utc).strftime("%Y-%m-%dT%H:%M:%SZ")


def cron(rnd, name, namespace):
    spec = {
        "schedule": rnd.choice(
            [
                "* * * * *",
                "*/2 * * * *",
                "*/3 * * * *",
                "*/5 * * * *",
                "*/7 * * * *",
                "1,4,9,16,25,36,49 * * * *",
                "@hourly",
            ]
        ),
        "concurrencyPolicy": rnd.choice(["Allow", "Forbid", "Replace"]),
        "suspend": rnd.random() < 0.1,
        "jobTemplate": {"spec": {"template": {"spec": {"restartPolicy": "Never"}}}},
    }
    for limit in ("successfulJobsHistoryLimit", "failedJobsHistoryLimit"):
        if rnd.random() < 0.5:
            spec[limit] = rnd.randrange(4)
    if rnd.random() < 0.2:
        spec["startingDeadlineSeconds"] = rnd.choice([30, 90, 300])
    return {
        "apiVersion": "batch/v1",
        "kind": "CronJob",
        "metadata": {"name": name, "namespace": namespace},
        "spec": spec,
    }


def edit(rnd, crons, end):
    """Something that a user does: to a CronJob, to a Job that may be there, or what it isn't
    permitted to do."""
    one, at = rnd.choice(crons), START + 60 * rnd.randrange(end)
    namespace, name = one["metadata"]["namespace"], one["metadata"]["name"]
    job = f"{name}-{at // 60 - rnd.randrange(8)}"
    kind = rnd.choice(
        [
            "updateCron",
            "updateCron",
            "updateCron",
            "deleteCron",
            "createCron",
            "deleteJob",
            "deleteJob",
            "createJob",
            "endJob",
            "take",
        ]
    )
    step = {"do": kind, "at": time(at)}
    if kind in ("updateCron", "createCron"):
        step["object"] = cron(rnd, name, namespace)
        if rnd.random() < 0.2:
            step["object"]["metadata"]["resourceVersion"] = str(rnd.randrange(1, 40))
    elif kind == "createJob":
        spec = {"template": {"spec": {"restartPolicy": "Never"}}}
        step["object"] = {
            "apiVersion": "batch/v1",
            "kind": "Job",
            "metadata": {"name": f"{name}-{at // 60 + rnd.randrange(4)}", "namespace": namespace},
            "spec": spec,
        }
    elif kind == "deleteCron":
        step["key"] = f"{namespace}/{name}"
    elif kind in ("deleteJob", "endJob"):
        step |= {"key": f"{namespace}/{job}", "outcome": "Failed"}
    return step


def scenario(number, crons=None, minutes=None, meddles=True):
    rnd = random.Random(number)
    count, end = crons or rnd.randrange(1, 5), minutes or rnd.randrange(10, 50)
    made = [cron(rnd, f"c{n}", rnd.choice(["default", "web"])) for n in range(count)]
    runs = {}
    for one in made:
        lasts = [
            {
                "seconds": rnd.choice([20, 60, 150, 400, 900]),
                "outcome": rnd.choice(["Complete", "Complete", "Failed"]),
            }
            for _ in range(rnd.randrange(4))
        ]
        runs[f"{one['metadata']['namespace']}/{one['metadata']['name']}"] = lasts
    edits = sorted(
        (edit(rnd, made, end) for _ in range(rnd.randrange(6) if meddles else 0)),
        key=lambda step: step["at"],
    )
    return {
        "start": time(START),
        "end": time(START + 60 * end),
        "cronJobs": made,
        "runs": runs,
        "edits": edits,
    }
