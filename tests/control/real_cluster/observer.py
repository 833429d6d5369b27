"""Follows the CronJobs and Jobs of a namespace by list and watch, and writes each event with the
moment at which it came to a log, a line of JSON each:

    {"at":.., "type":"ADDED", "object":{..}}       MODIFIED, DELETED; GONE where a list lacks it
    {"at":.., "note":"kill", ..}                   what the test itself did
"""
import json
import threading
import time

KINDS = {"cronjobs": "CronJob", "jobs": "Job"}


def is_held(job):
    said = job["metadata"].get("annotations") or {}
    spec = job["spec"]
    return "cronsim/held" in said or spec.get("suspend") is True or spec.get("parallelism") == 0


def is_finished(job):
    conditions = (job.get("status") or {}).get("conditions") or []
    return any(it["type"] in ("Complete", "Failed") and it["status"] == "True" for it in conditions)


class Observer:
    """What stands, by resource and uid, and the log; `listeners` are told of each event."""

    def __init__(self, api, namespace, log):
        self.api, self.namespace, self.log = api, namespace, log
        self.items = {it: {} for it in KINDS}
        # The version of the last event, from which a watch that breaks off goes on.
        self.versions = dict.fromkeys(KINDS)
        self.listeners, self.lock, self.has_ended = [], threading.RLock(), False

    def start(self):
        for resource in KINDS:
            threading.Thread(target=self.follow, args=(resource,), daemon=True).start()

    def note(self, word, /, **more):
        self.write({"at": time.time(), "note": word, **more})

    def write(self, entry):
        with self.lock:
            if not self.log.closed:
                self.log.write(json.dumps(entry, separators=(",", ":")) + "\n")

    def end(self):
        with self.lock:
            self.has_ended = True
            self.log.close()

    def all(self, resource):
        """The objects that stand now."""
        with self.lock:
            return list(self.items[resource].values())

    def standing(self, resource, uid):
        with self.lock:
            return self.items[resource].get(uid)

    def follow(self, resource):
        while not self.has_ended:
            try:
                self.versions[resource] = self.versions[resource] or self.list(resource)
                self.watch(resource)
            except Exception as fault:
                self.note("trouble", resource=resource, fault=str(fault)[:200])
                time.sleep(0.5)

    def list(self, resource):
        found = self.api.get(self.api.path(self.namespace, resource))
        known = {it["metadata"]["uid"]: it for it in found["items"] or []}
        for uid, item in list(self.items[resource].items()):
            if uid not in known:
                self.see(resource, "GONE", item)
        # (what has finished first, since what began meanwhile may have waited for it)
        for item in sorted(known.values(), key=lambda it: not is_finished(it)):
            self.see(resource, "MODIFIED", item | {"kind": KINDS[resource]})
        return found["metadata"]["resourceVersion"]

    def watch(self, resource):
        """Watches to the end of the watch; where the server has forgotten the last version, all is
        listed again, and what came meanwhile is seen late or not at all."""
        path = self.api.path(self.namespace, resource)
        version = self.versions[resource]
        query = f"?watch=1&allowWatchBookmarks=true&timeoutSeconds=300&resourceVersion={version}"
        for event in self.api.events(path + query):
            if event["type"] == "ERROR":
                self.note("forgotten", resource=resource)
                self.versions[resource] = None
                return
            if event["type"] != "BOOKMARK":
                self.see(resource, event["type"], event["object"])
            self.versions[resource] = event["object"]["metadata"]["resourceVersion"]

    def see(self, resource, kind, item):
        item["metadata"].pop("managedFields", None)
        uid = item["metadata"]["uid"]
        with self.lock:
            self.write({"at": time.time(), "type": kind, "object": item})
            if kind in ("DELETED", "GONE"):
                self.items[resource].pop(uid, None)
            else:
                self.items[resource][uid] = item
        for listener in self.listeners:
            listener(resource, kind, item)
