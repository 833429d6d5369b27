"""Random calls that are made at two API servers alike, to hold one against the other: the same
statuses and reasons, and the same objects afterwards, but for what each server gives by itself
(uids, versions, times) and for fields that only one of them fills in.
"""
import json
import random

from server import JSON_PATCH, MERGE

NAMES = ("x", "y", "z")
POLICIES = ("Background", "Foreground", "Orphan", None)
CRON_FIELDS = (
    "schedule",
    "concurrencyPolicy",
    "suspend",
    "startingDeadlineSeconds",
    "successfulJobsHistoryLimit",
    "failedJobsHistoryLimit",
)
JOB_FIELDS = ("parallelism", "completions", "backoffLimit", "suspend", "activeDeadlineSeconds")


class Side:
    """A server, with what it said of each name, newest last."""

    def __init__(self, call, group, namespace="calls"):
        self.call, self.group, self.namespace = call, group, namespace
        self.known, self.order = {}, []

    def path(self, resource, name=None, sub=None):
        group = self.group if resource == "cronjobs" else "batch/v1"
        words = [f"/apis/{group}/namespaces/{self.namespace}/{resource}", name, sub]
        return "/".join(filter(None, words))

    def meta(self, resource, name, age):
        """What was known of an object so many answers ago: its uid and version."""
        found = self.known.get((resource, name)) or [{"uid": "none", "resourceVersion": "1"}]
        return found[max(0, len(found) - 1 - age)]

    def learn(self, resource, body):
        if not isinstance(body, dict) or "uid" not in body.get("metadata", {}):
            return
        meta = body["metadata"]
        found = self.known.setdefault((resource, meta["name"]), [])
        if not found or found[-1] != meta:
            found.append(meta)
        if meta["uid"] not in self.order:
            self.order.append(meta["uid"])

    def filled(self, value, names):
        """A body in which the places of uids and versions are filled in."""
        if isinstance(value, dict):
            return {name: self.filled(it, names) for name, it in value.items()}
        if isinstance(value, list):
            return [self.filled(it, names) for it in value]
        if isinstance(value, str) and value.startswith("$"):
            field, age, resource, name = value[1:].split(" ")
            return self.meta(resource, name, int(age))[field]
        return value

    def make(self, method, resource, name, sub, body, kind):
        """Makes a call: its status, its reason, and the object as it is afterwards."""
        path = self.path(resource, None if method == "POST" else name, sub)
        status, answer = self.call(method, path, self.filled(body, name), kind)
        reason = answer.get("reason") if status >= 400 and isinstance(answer, dict) else None
        self.learn(resource, answer)
        found, item = self.call("GET", self.path(resource, name))
        before = self.known.get((resource, name), [{}])[-1].get("resourceVersion")
        if found == 200:
            self.learn(resource, item)
            moved = item["metadata"]["resourceVersion"] != before
            return status, reason, json.dumps(self.plain(item), sort_keys=True), moved
        return status, reason, found, None

    def plain(self, item):
        """What of an object both servers have to have alike."""
        meta, spec = item["metadata"], item["spec"]
        owners = [
            (it["kind"], it["name"], self.number(it["uid"]), it.get("controller"))
            for it in meta.get("ownerReferences") or []
        ]
        found = {"name": meta["name"], "uid": self.number(meta["uid"]), "owners": owners}
        labels = (meta.get("labels") or {}).items()
        found["labels"] = {name: self.number(value) for name, value in labels}
        for field in ("annotations", "finalizers"):
            found[field] = meta.get(field)
        found["leaving"] = "deletionTimestamp" in meta
        is_cron = item.get("kind") == "CronJob"
        for field in CRON_FIELDS if is_cron else JOB_FIELDS:
            found[field] = spec.get(field)
        status = item.get("status") or {}
        for field in ("lastScheduleTime", "startTime", "succeeded", "active"):
            found[f"status.{field}"] = status.get(field)
        if is_cron:
            found["status.active"] = [it.get("name") for it in status.get("active") or []]
        ends = [(it["type"], it["status"]) for it in status.get("conditions") or []]
        return found | {"conditions": ends}

    def number(self, uid):
        return self.order.index(uid) if uid in self.order else uid


def pod(dice):
    containers = [{"name": "c", "image": f"i:{dice.randrange(2)}"}]
    return {
        "spec": {
            "restartPolicy": dice.choice(("Never", "Always", "Never")),
            "containers": containers,
        }
    }


def random_call(dice):
    """Method, resource, name, subresource, body and its type."""
    resource, name = dice.choice(("cronjobs", "jobs", "jobs")), dice.choice(NAMES)
    make = dice.choice((create, create, claim, claim, edit, put, start, end, delete, delete))
    return make(dice, resource, name)


def create(dice, resource, name):
    meta = {"name": name}
    if dice.random() < 0.05:
        meta["resourceVersion"] = "5"
    if dice.random() < 0.1:
        meta["name"] = name = name * 64 if dice.random() < 0.5 else name.upper()
    if resource == "cronjobs":
        spec = {"schedule": dice.choice(("* * * * *", "*/5 * * * *", "no"))}
        spec["concurrencyPolicy"] = dice.choice(("Allow", "Forbid", "Replace", "Other"))
        spec["jobTemplate"] = {"spec": {"template": pod(dice)}}
        return "POST", resource, name, None, {"metadata": meta, "spec": spec}, None
    spec = {"template": pod(dice)}
    for field in ("parallelism", "completions"):
        if dice.random() < 0.3:
            spec[field] = dice.randrange(-1, 3)
    if dice.random() < 0.5:
        owner = {"apiVersion": "batch/v1beta1", "kind": "CronJob", "name": "x", "controller": True}
        meta["ownerReferences"] = [owner | {"uid": "$uid 0 cronjobs x"}] * dice.choice((1, 1, 1, 2))
    if dice.random() < 0.5:
        meta["annotations"] = {"cronsim/held": "suspend"}
    if dice.random() < 0.2:
        meta["finalizers"] = ["example.com/f"]
    return "POST", "jobs", name, None, {"metadata": meta, "spec": spec}, None


def condition(dice, resource, name):
    """metadata with uid and version, both now and then of earlier."""
    meta = {}
    if dice.random() < 0.7:
        meta["uid"] = f"$uid {dice.choice((0, 0, 0, 9))} {resource} {name}"
    if dice.random() < 0.7:
        meta["resourceVersion"] = f"$resourceVersion {dice.choice((0, 0, 0, 1))} {resource} {name}"
    return meta


def claim(dice, resource, name):
    status = {"lastScheduleTime": f"2026-11-28T02:0{dice.randrange(3)}:00Z"}
    if dice.random() < 0.5:
        ref = {"apiVersion": "batch/v1", "kind": "Job", "name": "y", "uid": "$uid 0 jobs y"}
        status["active"] = [ref] if dice.random() < 0.7 else None
    body = {"metadata": condition(dice, "cronjobs", name), "status": status}
    return "PATCH", "cronjobs", name, "status", body, MERGE


def edit(dice, resource, name):
    body = {"metadata": condition(dice, resource, name)}
    if resource == "cronjobs":
        body["spec"] = {"concurrencyPolicy": dice.choice(("Allow", "Forbid")), "suspend": True}
    elif dice.random() < 0.5:
        body["spec"] = {"parallelism": dice.randrange(3)}
    else:
        body["metadata"]["labels"] = {"n": dice.choice("ab")}
        body["metadata"]["finalizers"] = None
    return "PATCH", resource, name, dice.choice((None, None, "status")), body, MERGE


def put(dice, resource, name):
    meta = {"name": name} | condition(dice, "cronjobs", name)
    spec = {"schedule": "* * * * *", "jobTemplate": {"spec": {"template": pod(dice)}}}
    body = {"metadata": meta, "spec": spec}
    return "PUT", "cronjobs", name, dice.choice((None, "status")), body, None


def start(dice, resource, name):
    age, held = dice.choice((0, 0, 9)), "/metadata/annotations/cronsim~1held"
    body = [{"op": "test", "path": "/metadata/uid", "value": f"$uid {age} jobs {name}"}]
    body += [{"op": "test", "path": held, "value": "suspend"}, {"op": "remove", "path": held}]
    body.append({"op": dice.choice(("add", "replace")), "path": "/spec/parallelism", "value": 1})
    return "PATCH", "jobs", name, None, dice.sample(body, len(body)), JSON_PATCH


def end(dice, resource, name):
    found = {"type": dice.choice(("Complete", "Failed")), "status": "True"}
    body = {"metadata": condition(dice, "jobs", name), "status": {"conditions": [found]}}
    return "PATCH", "jobs", name, "status", body, MERGE


def delete(dice, resource, name):
    body = {"kind": "DeleteOptions", "apiVersion": "v1"}
    wanted, policy = condition(dice, resource, name), dice.choice(POLICIES)
    if wanted:
        body["preconditions"] = wanted
    if policy:
        body["propagationPolicy"] = policy
    return "DELETE", resource, name, None, body, None


def differences(one, other, count, seed=0):
    """Makes so many calls at two sides, and tells each that they answer otherwise."""
    dice, answered = random.Random(seed), {}
    for number in range(count):
        method, resource, name, sub, body, kind = random_call(dice)
        given = method, resource, name, sub, body, kind or "application/json"
        a, b = one.make(*given), other.make(*given)
        answered[method, a[0]] = answered.get((method, a[0]), 0) + 1
        if a != b:
            what = f"{method} {resource}/{name}{'/' + sub if sub else ''} {json.dumps(body)[:200]}"
            yield number, f"{what}: {a} {b}"
    yield None, ", ".join(f"{method} {it}: {n}" for (method, it), n in sorted(answered.items()))
