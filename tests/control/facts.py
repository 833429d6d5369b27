#!/usr/bin/env python3
"""What the small API server answers to single calls, beside what a real one was seen to answer, or
its documentation says.

usage: tests/control/facts.py    (tests/control/run does it first)
"""
import sys

sys.dont_write_bytecode = True
from server import JSON_PATCH, MERGE, Server  # noqa: E402

CRONS, JOBS = "/apis/batch/v1/namespaces/n/cronjobs", "/apis/batch/v1/namespaces/n/jobs"
POD = {"spec": {"restartPolicy": "Never", "containers": [{"name": "c", "image": "i"}]}}
SPEC = {"schedule": "* * * * *", "jobTemplate": {"spec": {"template": POD}}}
LAST = {"lastScheduleTime": "2026-11-28T02:00:00Z"}


class Facts:
    """Calls on a fresh server, each with what is expected of it."""

    def __init__(self):
        self.server, self.wrong, self.count = Server(lambda: 1795831200.5), [], 0
        self.heard = []

    def expect(self, what, found, wanted):
        self.count += 1
        if found != wanted:
            self.wrong.append(f"{what}: {found!r}, not {wanted!r}")

    def call(self, what, wanted, *words, reason=None):
        status, body = self.server.call(*words)
        self.expect(what, (status, reason and body.get("reason")), (wanted, reason))
        return body

    def job(self, name, **more):
        return {"metadata": {"name": name} | more, "spec": {"template": POD}}

    def run(self):
        self.creations()
        self.status()
        self.patches()
        self.deletions()
        self.lists()
        self.watches()
        self.managers()
        self.events()
        self.older()
        return self.wrong

    def creations(self):
        cron = {"kind": "CronJob", "metadata": {"name": "x"}, "spec": SPEC}
        made = self.call("create", 201, "POST", CRONS, cron)
        self.expect("generation", made["metadata"]["generation"], 1)
        self.expect("time", made["metadata"]["creationTimestamp"], "2026-11-28T02:00:00Z")
        self.expect("default policy", made["spec"]["concurrencyPolicy"], "Allow")
        self.call("a name that is taken", 409, "POST", CRONS, cron, reason="AlreadyExists")
        versioned = {"metadata": {"name": "y", "resourceVersion": "5"}, "spec": SPEC}
        self.call("create with a version", 500, "POST", CRONS, versioned)
        long = {"metadata": {"name": "a" * 53}, "spec": SPEC}
        self.call("a name of 53", 422, "POST", CRONS, long, reason="Invalid")
        self.call("a Job's name of 64", 422, "POST", JOBS, self.job("a" * 64), reason="Invalid")
        owner = {"apiVersion": "batch/v1", "kind": "CronJob", "name": "x", "controller": True}
        owners = [owner | {"uid": "1"}, owner | {"uid": "2"}]
        two = self.job("two", ownerReferences=owners)
        self.call("two controllers", 422, "POST", JOBS, two, reason="Invalid")
        self.call("none such", 404, "GET", JOBS + "/none", reason="NotFound")
        job = self.call("create a Job", 201, "POST", JOBS, self.job("one"))
        self.expect("completions", (job["spec"]["completions"], job["spec"]["parallelism"]), (1, 1))
        held = {"metadata": {"name": "h"}, "spec": {"template": POD, "parallelism": 0}}
        job = self.call("parallelism 0", 201, "POST", JOBS, held)
        self.expect("completions stay unset", "completions" in job["spec"], False)

    def status(self):
        path = CRONS + "/x"
        old = self.call("get", 200, "GET", path)
        meta = old["metadata"]
        right = {"uid": meta["uid"], "resourceVersion": meta["resourceVersion"]}
        claim = {"metadata": right, "status": LAST}
        now = self.call("a claim", 200, "PATCH", path + "/status", claim, MERGE)
        self.expect("generation stays", now["metadata"]["generation"], 1)
        self.call("an old version", 409, "PATCH", path + "/status", claim, MERGE, reason="Conflict")
        again = self.call("without one", 200, "PATCH", path + "/status", {"status": LAST}, MERGE)
        same = again["metadata"]["resourceVersion"] == now["metadata"]["resourceVersion"]
        self.expect("what changes nothing writes no version", same, True)
        other = now | {"metadata": now["metadata"] | {"uid": "other", "resourceVersion": ""}}
        self.call("PUT of another uid", 409, "PUT", path + "/status", other, reason="Conflict")
        spec = {"spec": {"suspend": True}}
        now = self.call("a spec by /status", 200, "PATCH", path + "/status", spec, MERGE)
        self.expect("changes nothing", now["spec"]["suspend"], False)
        now = self.call("a status by the main path", 200, "PATCH", path, {"status": {}}, MERGE)
        self.expect("stays", now["status"], LAST)
        now = self.call("an edit", 200, "PATCH", path, spec, MERGE)
        self.expect("is a generation", now["metadata"]["generation"], 2)
        gone = self.job("gone", uid="other")
        self.call("PUT of a Job that is gone, by uid", 409, "PUT", JOBS + "/gone", gone)

    def patches(self):
        path, meta = JOBS + "/one", self.call("get", 200, "GET", JOBS + "/one")["metadata"]
        test = {"op": "test", "path": "/metadata/uid", "value": meta["uid"]}
        hold = {"op": "add", "path": "/spec/suspend", "value": True}
        self.call("a test that holds", 200, "PATCH", path, [test, hold], JSON_PATCH)
        wrong = [test | {"value": "other"}, hold]
        self.call("one that fails", 422, "PATCH", path, wrong, JSON_PATCH, reason="Invalid")
        none = [{"op": "remove", "path": "/metadata/annotations/none"}]
        self.call("nothing to remove", 422, "PATCH", path, none, JSON_PATCH)
        self.call("no operation", 400, "PATCH", path, [{"op": "x", "path": "/a"}], JSON_PATCH)
        image = {"spec": {"template": {"spec": {"containers": []}}}}
        self.call("another template", 422, "PATCH", path, image, MERGE)
        self.call("no type of a patch", 415, "PATCH", path, {}, "text/plain")

    def deletions(self):
        path, meta = JOBS + "/one", self.call("get", 200, "GET", JOBS + "/one")["metadata"]
        other = {"preconditions": {"uid": "other"}, "propagationPolicy": "Background"}
        self.call("another uid", 409, "DELETE", path, other, reason="Conflict")
        old = {"preconditions": {"uid": meta["uid"], "resourceVersion": "1"}}
        self.call("an old version", 409, "DELETE", path, old, reason="Conflict")
        self.call("no policy", 200, "DELETE", path)
        left = self.call("leaves it", 200, "GET", path)["metadata"]
        self.expect("with a finalizer", left.get("finalizers"), ["orphan"])
        self.expect("being deleted", "deletionTimestamp" in left, True)
        self.call("its name", 409, "POST", JOBS, self.job("one"), reason="AlreadyExists")
        start = [{"op": "replace", "path": "/spec/suspend", "value": False}]
        self.call("it takes a start", 200, "PATCH", path, start, JSON_PATCH)
        free = {"metadata": {"finalizers": None}}
        self.call("the finalizer goes", 200, "PATCH", path, free, MERGE)
        self.call("and the Job", 404, "GET", path, reason="NotFound")
        uid = self.call("get", 200, "GET", JOBS + "/h")["metadata"]["uid"]
        right = {"preconditions": {"uid": uid}, "propagationPolicy": "Background"}
        gone = self.call("by uid", 200, "DELETE", JOBS + "/h", right)
        said = gone["status"], gone["details"]["uid"]
        self.expect("a Status says which", said, ("Success", uid))
        self.call("is gone", 404, "GET", JOBS + "/h")

    def lists(self):
        for name in "abcde":
            labels = {"team": "y" if name in "bd" else "z"}
            self.call("create", 201, "POST", JOBS, self.job(name, labels=labels))
        found = self.call("a page", 200, "GET", "/apis/batch/v1/jobs?limit=2")
        names, more = [it["metadata"]["name"] for it in found["items"]], found["metadata"]
        self.expect("items have no kind", "kind" in found["items"][0], False)
        self.call("meanwhile", 201, "POST", JOBS, self.job("aa"))
        while more.get("continue"):
            path = f"/apis/batch/v1/jobs?limit=2&continue={more['continue']}"
            found = self.call("the next page", 200, "GET", path)
            names += [it["metadata"]["name"] for it in found["items"]]
            more = found["metadata"]
        self.expect("pages of one moment", names, list("abcde"))
        path = JOBS + "?labelSelector=team%3Dy"
        names = [it["metadata"]["name"] for it in self.call("labels", 200, "GET", path)["items"]]
        self.expect("by label", names, ["b", "d"])
        path = "/apis/batch/v1/jobs?limit=2&continue=old"
        self.call("an old page", 410, "GET", path, reason="Expired")

    def watches(self):
        version, heard = self.server.version, self.heard
        path = f"/apis/batch/v1/jobs?watch=1&resourceVersion={version}&labelSelector=team=y"
        self.server.watch(path + "&allowWatchBookmarks=true", heard.append)
        self.call(
            "relabelled", 200, "PATCH", JOBS + "/a", {"metadata": {"labels": {"team": "y"}}}, MERGE
        )
        self.call("changed", 200, "PATCH", JOBS + "/a", {"metadata": {"labels": {"b": "c"}}}, MERGE)
        self.call(
            "and back", 200, "PATCH", JOBS + "/a", {"metadata": {"labels": {"team": "z"}}}, MERGE
        )
        self.call("deleted", 200, "DELETE", JOBS + "/b", {"propagationPolicy": "Background"})
        self.server.bookmark(self.server.watches[-1])
        told = [it["type"] for it in heard]
        self.expect("events", told, ["ADDED", "MODIFIED", "DELETED", "DELETED", "BOOKMARK"])
        last = heard[-1]["object"]["metadata"]["resourceVersion"]
        self.expect("a bookmark's version", last, str(self.server.version))
        later = []
        self.server.watch(path, later.append)
        self.expect("the same, told later", later, heard[:-1])
        self.server.forget()
        self.server.watch(path, heard.append)
        self.expect("too old", heard[-1]["object"].get("code"), 410)

    def managers(self):
        path, theirs = CRONS + "/x", "kube-controller-manager/v1.29.0"
        ended = {"status": {"lastSuccessfulTime": "2026-11-28T02:00:07Z"}}
        now = self.call("a success", 200, "PATCH", path + "/status", ended, MERGE, theirs)
        self.expect("stays", now["status"], LAST | ended["status"])
        found = [
            (it["manager"], list(it["fieldsV1"]), it.get("subresource"))
            for it in now["metadata"]["managedFields"]
        ]
        wanted = ("kube-controller-manager", ["f:status"], "status")
        self.expect("who wrote it last", found[-1], wanted)
        again = self.call("the same", 200, "PATCH", path + "/status", ended, MERGE, "other/v1")
        same = again["metadata"]["managedFields"] == now["metadata"]["managedFields"]
        self.expect("what changes nothing has no manager", same, True)
        odd = {"status": {"lastSuccessfulTime": "soon"}}
        self.call("no time", 400, "PATCH", path + "/status", odd, MERGE)

    def events(self):
        path, about = "/api/v1/namespaces/n/events", {"kind": "CronJob", "name": "x"}
        event = {"metadata": {"name": "x.1f"}, "involvedObject": about, "count": 1}
        self.call("an Event", 201, "POST", path, event)
        self.call("its name", 409, "POST", path, event, reason="AlreadyExists")
        more = self.call("is counted", 200, "PATCH", path + "/x.1f", {"count": 2}, MERGE)
        self.expect("its members", (more["count"], more["involvedObject"]), (2, about))
        self.call("none such", 404, "PATCH", path + "/x.2", {"count": 2}, MERGE, reason="NotFound")
        odd = event | {"metadata": {"name": "x_1"}}
        self.call("an odd name", 422, "POST", path, odd, reason="Invalid")

    def older(self):
        self.server = Server(lambda: 1795831200.5, beta=True)
        self.call("batch/v1", 404, "GET", CRONS)
        beta = CRONS.replace("v1", "v1beta1")
        self.call("batch/v1beta1", 201, "POST", beta, {"metadata": {"name": "x"}, "spec": SPEC})
        held = {"metadata": {"name": "h"}, "spec": {"template": POD, "suspend": True}}
        job = self.call("suspend", 201, "POST", JOBS, held)
        self.expect("is dropped", "suspend" in job["spec"], False)
        ended = {"status": LAST | {"lastSuccessfulTime": "2026-11-28T02:00:07Z"}}
        now = self.call("a success", 200, "PATCH", beta + "/x/status", ended, MERGE)
        self.expect("isn't known", now["status"], LAST)
        self.call("no policy", 200, "DELETE", beta + "/x")
        left = self.call("leaves it", 200, "GET", beta + "/x")["metadata"]
        self.expect("with a finalizer", left.get("finalizers"), ["orphan"])


def main():
    facts = Facts()
    for text in facts.run():
        print(f"facts: {text}")
    print(f"facts: {facts.count - len(facts.wrong)} hold, {len(facts.wrong)} don't")
    sys.exit(bool(facts.wrong))


if __name__ == "__main__":
    main()
