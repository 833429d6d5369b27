"""The CronJobs of the test, and the people who edit them."""
import random
import time

from .api import MERGE

POLICIES = ("Allow", "Forbid", "Replace")
# Seconds between two edits on average, and how often each is made.
PAUSE = 7
EDITS = {"policy": 8, "template": 4, "delete Job": 4, "re-create": 2}
BACKGROUND = {"propagationPolicy": "Background"}


def cron(version, name, policy, run, image="none"):
    pod = {"restartPolicy": "Never", "containers": [{"name": "main", "image": image}]}
    template = {"metadata": {"annotations": {"test/run": run}}, "spec": {"template": {"spec": pod}}}
    spec = {"schedule": "* * * * *", "concurrencyPolicy": policy, "jobTemplate": template}
    spec |= {"successfulJobsHistoryLimit": 2, "failedJobsHistoryLimit": 1}
    return {"apiVersion": version, "kind": "CronJob", "metadata": {"name": name}, "spec": spec}


class Users:
    """They make the CronJobs, and edit them until it is calm."""

    def __init__(self, api, observer, namespace, seed, is_beside=False):
        self.api, self.observer, self.namespace = api, observer, namespace
        self.is_beside = bool(is_beside)
        self.dice = random.Random(f"users {seed}")

    def path(self, resource, name=""):
        return self.api.path(self.namespace, resource, name)

    def make(self, count, run):
        for number in range(count):
            policy = POLICIES[number % 3]
            body = cron(self.api.cron_version, f"c{number}-{policy.lower()}", policy, run)
            if self.is_beside:
                body["metadata"]["annotations"] = {"cronsim/run": "true"}
                body["spec"]["suspend"] = True
            status, said = self.api.call("POST", self.path("cronjobs"), body)
            if status != 201:
                raise OSError(f"{body['metadata']['name']}: {status} {said}")

    def edit(self, calm):
        """Edits at random moments, until it is calm."""
        acts = {
            "policy": self.policy,
            "template": self.template,
            "delete Job": self.delete_job,
            "re-create": self.recreate,
        }
        while not calm.wait(self.dice.expovariate(1 / PAUSE)):
            what = self.dice.choices(list(EDITS), EDITS.values())[0]
            found = self.observer.all("jobs" if what == "delete Job" else "cronjobs")
            if found:
                item = self.dice.choice(found)
                self.observer.note("edit", what=what, uid=item["metadata"]["uid"])
                try:
                    acts[what](item)
                except Exception as fault:
                    # (the server doesn't answer: the next edit is another one)
                    self.observer.note("trouble", fault=f"{what}: {fault}"[:200])

    def change(self, item, spec):
        self.api.call("PATCH", self.path("cronjobs", item["metadata"]["name"]), spec, MERGE)

    def policy(self, item):
        others = [it for it in POLICIES if it != item["spec"]["concurrencyPolicy"]]
        self.change(item, {"spec": {"concurrencyPolicy": self.dice.choice(others)}})

    def template(self, item):
        body = cron("", "", "", "5-150", f"none:{self.dice.randrange(1000)}")
        self.change(item, {"spec": {"jobTemplate": body["spec"]["jobTemplate"]}})

    def delete_job(self, item):
        body = BACKGROUND | {"preconditions": {"uid": item["metadata"]["uid"]}}
        self.api.call("DELETE", self.path("jobs", item["metadata"]["name"]), body)

    def recreate(self, item):
        name, spec = item["metadata"]["name"], item["spec"]
        self.api.call("DELETE", self.path("cronjobs", name), BACKGROUND)
        time.sleep(self.dice.choice((0, 0, 1, 3)))
        body = {"apiVersion": self.api.cron_version, "kind": "CronJob", "metadata": {"name": name}}
        if self.is_beside:
            body["metadata"]["annotations"] = {"cronsim/run": "true"}
        self.api.call("POST", self.path("cronjobs"), body | {"spec": spec})
