#!/usr/bin/env python3
"""A small API server in memory, for tests: CronJobs and Jobs of the group batch, Events, /version.

get, list (limit, continue, labelSelector), watch (resourceVersion, bookmarks, 410), create, update,
merge and JSON patch, /status, delete (preconditions, propagationPolicy, finalizers), with versions,
managers (by the sender, up to a slash) and refusals as a real server has them. A log keeps every
request that was carried out, with its time, its sender, and the object before and after. With it
run a Job controller and a garbage collector (jobs.py), and faults by a seeded plan (faults.py).

usage: tests/control/server.py [--port N] [--beta] [--no-loops] [--minor N] [--faults SEED]
                                  [--log FILE]

    --port N        on 127.0.0.1 (8001; 0: any, printed)
    --beta          CronJobs are batch/v1beta1 alone, as servers up to 1.20 have them
    --no-loops      without the Job controller and the garbage collector
    --minor N       the version that /version tells (29, with --beta 20)
    --faults SEED   refuses, delays and loses some requests, and ends watches
    --log FILE      writes the log as lines of JSON at the end

Then `kubectl --server http://127.0.0.1:8001 get cronjobs,jobs -A`. Tests call Server.call in
process, on a clock of their own.
"""
import random
import sys
import time
import uuid
from collections import namedtuple
from functools import lru_cache
from urllib.parse import parse_qsl

sys.dont_write_bytecode = True
import patches  # noqa: E402
import rules  # noqa: E402
from rules import KINDS, Refusal  # noqa: E402

MERGE, JSON_PATCH = "application/merge-patch+json", "application/json-patch+json"
STRATEGIC = "application/strategic-merge-patch+json"
# As many pages of lists as can be gone on with.
PAGES = 100
# How Events are written: the methods, and whether the path names one.
EVENT_WRITES = (("POST", False), ("PATCH", True))

Route = namedtuple("Route", "group version resource namespace name sub query")
# What a write changed: `old` of none is a creation, `new` of none a deletion, whose last state
# `shown` is.
Change = namedtuple("Change", "version at resource key old new shown")


def stamp(at):
    """A time as metav1.Time prints it."""
    return time.strftime("%Y-%m-%dT%H:%M:%SZ", time.gmtime(at))


@lru_cache(4096)
def route_of(target):
    """What a path and its query name; of none where it is no path of this server."""
    path, _, query = target.partition("?")
    query = dict(parse_qsl(query, keep_blank_values=True))
    words = path.strip("/").split("/")
    if words[0] == "api":
        group, version, rest = "", words[1:2], words[2:]
    elif words[0] == "apis" and len(words) > 2:
        group, version, rest = words[1], words[2:3], words[3:]
    else:
        return Route("", "", "/" + "/".join(words), None, None, None, query)
    namespace = None
    if rest[:1] == ["namespaces"] and len(rest) > 2:
        namespace, rest = rest[1], rest[2:]
    rest += [None] * (3 - len(rest))
    return Route(group, *(version or [None]), rest[0], namespace, rest[1], rest[2], query)


@lru_cache(256)
def requirements(selector):
    """The requirements of a label selector: (key, whether equal, value)."""
    found = []
    for part in filter(None, (it.strip() for it in selector.split(","))):
        for sign, equal in (("!=", False), ("==", True), ("=", True)):
            key, split, value = part.partition(sign)
            if split:
                found.append((key.strip(), equal, value.strip()))
                break
        else:
            found.append((part.lstrip("!"), not part.startswith("!"), None))
    return found


def selects(query, key, item):
    """Whether a list or a watch with this query has an object."""
    name = query.get("fieldSelector", "").partition("metadata.name=")[2]
    if name and key[1] != name.lstrip("="):
        return False
    labels = item["metadata"].get("labels") or {}
    for label, equal, value in requirements(query.get("labelSelector", "")):
        has = label in labels and (value is None or labels[label] == value)
        if has != equal:
            return False
    return True


class Watch:
    """A watch: tells each event of its resource to a function."""

    def __init__(self, route, tell):
        self.resource, self.namespace, self.query = route.resource, route.namespace, route.query
        self.tell = tell

    def has(self, key, item):
        in_namespace = self.namespace in (None, key[0])
        return item is not None and in_namespace and selects(self.query, key, item)

    def see(self, change):
        if change.resource != self.resource:
            return
        was, now = self.has(change.key, change.old), self.has(change.key, change.new)
        if now:
            self.tell({"type": "MODIFIED" if was else "ADDED", "object": change.new})
        elif was:
            item = change.shown
            if change.new is not None:
                meta = change.old["metadata"] | {"resourceVersion": str(change.version)}
                item = change.old | {"metadata": meta}
            self.tell({"type": "DELETED", "object": item})


class Server:
    """The server's state, and what each request does to it."""

    def __init__(self, clock=time.time, beta=False, minor=None, window=20000, seed=0):
        self.clock, self.window = clock, window
        self.minor = minor or (20 if beta else 29)
        self.groups = {"cronjobs": "v1beta1" if beta else "v1", "jobs": "v1"}
        self.dice = random.Random(seed)
        self.version = self.oldest = 1000
        self.objects = {"cronjobs": {}, "jobs": {}}
        self.namespaces = {"default"}
        self.changes, self.watches, self.listeners = [], [], []
        self.events, self.log, self.pages = {}, [], {}
        # A list from the cache (resourceVersion=0) is so many seconds old, and a page of a list has
        # at most so many items, whatever limit is asked for (0: as many as are asked for).
        self.lag, self.most_items = 0, 0
        self.touched, self.sender = None, ""

    # ---- requests

    def call(self, method, target, body=None, kind="application/json", who="", tag=None):
        """Carries out a request, and answers its status and body."""
        route, self.touched, self.sender = route_of(target), None, who
        try:
            status, answer = self.served(method, route, body, kind)
        except Refusal as refusal:
            status, answer = refusal.code, refusal.body
        entry = {"at": self.clock(), "who": who, "id": tag, "method": method, "path": target}
        if method != "GET":
            before, after = self.touched or (None, None)
            entry |= {"type": kind, "body": body, "before": before, "after": after}
        self.log.append(entry | {"status": status})
        return status, answer

    def note(self, text):
        """Puts a word into the log, of the test itself."""
        self.log.append({"at": self.clock(), "who": "bench", "note": text})

    def served(self, method, route, body, kind):
        if route.group == "batch" and route.resource in KINDS:
            if route.version != self.groups[route.resource]:
                raise rules.no_resource()
            return self.batch(method, route, body, kind)
        if route.group == "" and route.resource == "events":
            return self.core_events(method, route, body, kind)
        if route.group == "" and route.resource == "namespaces":
            return self.core_namespaces(method, route, body)
        if method == "GET":
            return self.about(route)
        raise rules.no_resource()

    def batch(self, method, route, body, kind):
        if method == "GET":
            return (200, self.found(route)) if route.name else self.listed(route)
        if route.namespace is None or route.sub not in (None, "status"):
            raise rules.no_resource()
        if method != "DELETE" and not isinstance(body, (dict, list)):
            raise rules.bad_request("a body is expected")
        if method == "POST" and route.name is None:
            return 201, self.created(route, body)
        if route.name and method == "PUT":
            return 200, self.updated(route, body)
        if route.name and method == "PATCH":
            return 200, self.patched(route, body, kind)
        if route.name and method == "DELETE" and route.sub is None:
            return 200, self.deleted(route, body)
        raise Refusal(405, "MethodNotAllowed", "the server does not allow this method")

    def found(self, route):
        item = self.objects[route.resource].get((route.namespace, route.name))
        if item is None:
            raise rules.not_found(route.resource, route.name)
        return item

    # ---- lists and watches

    def listed(self, route):
        if route.query.get("watch") in ("1", "true"):
            raise rules.bad_request("a watch is no call: Server.watch")
        token = route.query.get("continue")
        if token:
            if token not in self.pages:
                raise rules.expired("The provided continue parameter is too old")
            version, items = self.pages[token]
        else:
            version, objects = self.version, self.objects[route.resource]
            if route.query.get("resourceVersion") == "0" and self.lag:
                version, objects = self.older(route.resource, self.clock() - self.lag)
            items = [
                {name: item[name] for name in item if name not in ("kind", "apiVersion")}
                for key, item in sorted(objects.items())
                if route.namespace in (None, key[0]) and selects(route.query, key, item)
            ]
        return 200, self.page(route, version, items)

    def page(self, route, version, items):
        meta = {"resourceVersion": str(version)}
        limit = int(route.query.get("limit") or 0)
        limit = min(limit, self.most_items or limit)
        if limit and len(items) > limit:
            meta["continue"] = f"page-{self.dice.getrandbits(64):x}"
            meta["remainingItemCount"] = len(items) - limit
            self.pages[meta["continue"]] = (version, items[limit:])
            while len(self.pages) > PAGES:
                del self.pages[next(iter(self.pages))]
            items = items[:limit]
        kind, group = KINDS[route.resource] + "List", f"batch/{route.version}"
        return {"kind": kind, "apiVersion": group, "metadata": meta, "items": items}

    def older(self, resource, at):
        """The version and the objects of a moment, as far as the window goes back."""
        objects, version = dict(self.objects[resource]), self.version
        for change in reversed(self.changes):
            if change.at <= at:
                break
            version = change.version - 1
            if change.resource == resource and change.old is None:
                objects.pop(change.key, None)
            elif change.resource == resource:
                objects[change.key] = change.old
        return version, objects

    def watch(self, target, tell, who="", tag=None):
        """Begins a watch, which tells its events to a function; or answers a refusal."""
        route, entry = route_of(target), {"at": self.clock(), "who": who, "id": tag}
        entry |= {"method": "WATCH", "path": target}
        if route.group != "batch" or self.groups.get(route.resource) != route.version:
            self.log.append(entry | {"status": 404})
            raise rules.no_resource()
        self.log.append(entry | {"status": 200})
        watch, version = Watch(route, tell), route.query.get("resourceVersion") or "0"
        if version == "0":
            for key, item in sorted(self.objects[route.resource].items()):
                if watch.has(key, item):
                    tell({"type": "ADDED", "object": item})
        elif not version.isdigit():
            raise rules.bad_request(f"no resource version: {version!r}")
        elif int(version) < self.oldest:
            words = f"too old resource version: {version} ({self.oldest})"
            tell({"type": "ERROR", "object": rules.expired(words).body})
            return None
        else:
            for change in self.changes_since(int(version)):
                watch.see(change)
        self.watches.append(watch)
        return watch

    def changes_since(self, version):
        first = max(0, version - self.oldest)
        return [it for it in self.changes[first:] if it.version > version]

    def bookmark(self, watch):
        """Tells a watch the version that it has come to, where it asked for bookmarks."""
        if watch.query.get("allowWatchBookmarks") in ("true", "1"):
            meta = {"resourceVersion": str(self.version), "creationTimestamp": None}
            kind, group = KINDS[watch.resource], f"batch/{self.groups[watch.resource]}"
            item = {"kind": kind, "apiVersion": group, "metadata": meta}
            watch.tell({"type": "BOOKMARK", "object": item | {"spec": {}, "status": {}}})

    def unwatch(self, watch):
        if watch in self.watches:
            self.watches.remove(watch)

    def forget(self, keep=0):
        """Drops all changes but the last so many: older watches are answered 410."""
        self.changes = self.changes[len(self.changes) - keep :] if keep else []
        self.oldest = self.version - len(self.changes)
        self.pages = {}

    # ---- writes

    def put(self, resource, key, old, new):
        """Stores an object, or takes it away, and tells it; answers it with its version."""
        self.version += 1
        item = old if new is None else new
        shown = item | {"metadata": item["metadata"] | {"resourceVersion": str(self.version)}}
        if new is None:
            del self.objects[resource][key]
        else:
            self.objects[resource][key] = new = shown
        self.namespaces.add(key[0])
        self.touched = (old, new)
        change = Change(self.version, self.clock(), resource, key, old, new, shown)
        self.changes.append(change)
        if len(self.changes) > 2 * self.window:
            self.forget(self.window)
        for see in self.listeners:
            see(change)
        for watch in list(self.watches):
            watch.see(change)
        return shown

    def new_uid(self):
        return str(uuid.UUID(int=self.dice.getrandbits(128), version=4))

    def check_kind(self, route, body):
        kind, group = KINDS[route.resource], f"batch/{self.groups[route.resource]}"
        if not isinstance(body, dict) or not isinstance(body.get("metadata", {}), dict):
            raise rules.bad_request("an object is expected")
        if body.get("kind", kind) != kind or body.get("apiVersion", group) != group:
            raise rules.bad_request("the object is of another kind or version")
        inner = body.get("metadata", {}).get("namespace") or route.namespace
        if inner != route.namespace:
            raise rules.bad_request("the namespace of the object doesn't match the request's")

    def created(self, route, body):
        self.check_kind(route, body)
        meta, resource = dict(body.get("metadata") or {}), route.resource
        name = meta.get("name") or ""
        if not name and meta.get("generateName"):
            letters = self.dice.choices("bcdfghjklmnpqrstvwxz2456789", k=5)
            name = meta["generateName"] + "".join(letters)
        version = meta.pop("resourceVersion", None)
        for field in ("deletionTimestamp", "deletionGracePeriodSeconds", "managedFields"):
            meta.pop(field, None)
        meta |= {"name": name, "namespace": route.namespace, "uid": self.new_uid()}
        meta |= {"generation": 1, "creationTimestamp": stamp(self.clock())}
        meta = rules.with_own_references(meta)
        rules.check_meta(resource, name, meta)
        kind, group = KINDS[resource], f"batch/{route.version}"
        item = {"kind": kind, "apiVersion": group, "metadata": self.managed(meta, group, None)}
        item |= {"spec": self.spec_of(resource, body.get("spec") or {}), "status": {}}
        if resource == "jobs":
            rules.check_job(name, item)
            item = rules.with_labels(item, meta["uid"], name)
        else:
            rules.check_cron(name, item)
        if version:
            words = "resourceVersion should not be set on objects to be created"
            raise Refusal(500, None, words)
        key = (route.namespace, name)
        if key in self.objects[resource]:
            raise rules.taken(resource, name)
        return self.put(resource, key, None, item)

    def spec_of(self, resource, spec):
        return rules.job_spec(spec, self.minor) if resource == "jobs" else rules.cron_spec(spec)

    def status_of(self, resource, status):
        """A status as this version keeps it."""
        kept = {name: value for name, value in status.items() if value}
        if resource == "cronjobs" and self.minor < rules.TELLS_SUCCESS_FROM:
            kept.pop("lastSuccessfulTime", None)
        return kept

    def managed(self, meta, group, sub):
        """metadata that says who wrote it now."""
        return rules.with_manager(meta, group, self.sender, sub, stamp(self.clock()))

    def updated(self, route, body):
        self.check_kind(route, body)
        key, meta = (route.namespace, route.name), body.get("metadata") or {}
        if meta.get("name", route.name) != route.name:
            raise rules.bad_request("the name of the object doesn't match the request's")
        old = self.objects[route.resource].get(key)
        uid, stands = meta.get("uid"), old and old["metadata"]["uid"]
        if uid and uid != stands:
            why = f"Precondition failed: UID in precondition: {uid}, UID in object meta: {stands}"
            raise rules.conflict(route.resource, route.name, why)
        if old is None:
            raise rules.not_found(route.resource, route.name)
        return self.stored(route, old, body)

    def patched(self, route, body, kind):
        old = self.found(route)
        try:
            if kind == JSON_PATCH:
                new = patches.applied(old, body)
            elif kind in (MERGE, STRATEGIC) and isinstance(body, dict):
                new = patches.merged(old, body)
            else:
                raise Refusal(415, "UnsupportedMediaType", f"{kind} is no type of a patch")
        except patches.Malformed as fault:
            raise rules.bad_request(str(fault)) from None
        except patches.Refused as fault:
            words = "the server rejected our request due to an error in our request"
            said = {"causes": [{"message": str(fault)}]}
            raise Refusal(422, "Invalid", words, said) from None
        return self.stored(route, old, new)

    def stored(self, route, old, new):
        """Stores an object in the place of another, but for what a caller can't change."""
        resource, name, was = route.resource, route.name, old["metadata"]
        meta = dict(new.get("metadata") or {})
        if meta.get("resourceVersion") not in (None, "", was["resourceVersion"]):
            raise rules.modified(resource, name)
        for field in ("uid", "name", "namespace"):
            if meta.get(field) not in (None, was[field]):
                raise rules.invalid(resource, name, f"metadata.{field}", "field is immutable")
        meta = rules.with_own_references(meta)
        rules.check_meta(resource, name, meta)
        for field in (
            "name",
            "namespace",
            "uid",
            "resourceVersion",
            "generation",
            "creationTimestamp",
            "deletionTimestamp",
            "deletionGracePeriodSeconds",
            "managedFields",
        ):
            meta.pop(field, None)
            if field in was:
                meta[field] = was[field]
        for field in ("labels", "annotations", "ownerReferences", "finalizers"):
            if not meta.get(field):
                meta.pop(field, None)
        item = {"kind": old["kind"], "apiVersion": old["apiVersion"], "metadata": meta}
        if route.sub == "status":
            status = self.status_of(resource, new.get("status") or {})
            item |= {"spec": old["spec"], "status": status}
        else:
            spec = self.spec_of(resource, new.get("spec") or {})
            if spec != old["spec"]:
                meta["generation"] = was["generation"] + 1
            item |= {"spec": spec, "status": old["status"]}
        if resource == "jobs":
            item = rules.with_pod_labels(item)
            rules.check_job(name, item)
            rules.check_job_change(name, old, item)
        else:
            rules.check_cron(name, item)
        key = (route.namespace, name)
        if "deletionTimestamp" in meta and not meta.get("finalizers"):
            return self.put(resource, key, item, None)
        if item == old:
            self.touched = (old, old)
            return old
        item["metadata"] = self.managed(meta, item["apiVersion"], route.sub)
        return self.put(resource, key, old, item)

    def deleted(self, route, body):
        options = dict(body or {}) | {
            name: value for name, value in route.query.items() if name == "propagationPolicy"
        }
        old, key = self.found(route), (route.namespace, route.name)
        meta, wanted = old["metadata"], options.get("preconditions") or {}
        for field in ("uid", "resourceVersion"):
            if wanted.get(field) not in (None, meta[field]):
                why = (
                    f"the {field} in the precondition ({wanted[field]}) does not match the one in "
                    f"record ({meta[field]}). The object might have been deleted and then recreated"
                )
                raise rules.conflict(route.resource, route.name, why)
        policy = options.get("propagationPolicy") or self.default_policy(route.resource, meta)
        if policy not in ("Orphan", "Background", "Foreground"):
            raise rules.invalid(route.resource, route.name, "propagationPolicy", "Unsupported")
        finalizers = [
            it for it in meta.get("finalizers") or [] if it not in ("orphan", "foregroundDeletion")
        ]
        finalizers += {"Orphan": ["orphan"], "Foreground": ["foregroundDeletion"]}.get(policy, [])
        if not finalizers and meta.get("finalizers") and wanted.get("resourceVersion"):
            # (real servers do so: they compare a version that they forgot meanwhile)
            raise rules.conflict(route.resource, route.name, "ResourceVersion in precondition: ")
        if not finalizers:
            self.put(route.resource, key, old, None)
            said = rules.details(route.resource, route.name) | {"uid": meta["uid"]}
            answer = {"kind": "Status", "apiVersion": "v1", "metadata": {}, "status": "Success"}
            return answer | {"details": said}
        meta = meta | {"finalizers": finalizers, "deletionGracePeriodSeconds": 0}
        meta = {"deletionTimestamp": stamp(self.clock())} | meta
        if meta == old["metadata"]:
            self.touched = (old, old)
            return old
        return self.put(route.resource, key, old, old | {"metadata": meta})

    def default_policy(self, resource, meta):
        """What a finalizer says already. Else Jobs of batch/v1 and CronJobs of batch/v1beta1 leave
        what they own, for old callers."""
        for finalizer, policy in (("orphan", "Orphan"), ("foregroundDeletion", "Foreground")):
            if finalizer in (meta.get("finalizers") or []):
                return policy
        is_old = resource == "jobs" or self.groups[resource] == "v1beta1"
        return "Orphan" if is_old else "Background"

    # ---- what else there is

    def core_events(self, method, route, body, kind):
        if method == "GET":
            return 200, self.events_of(route)
        if not route.namespace or (method, bool(route.name)) not in EVENT_WRITES:
            raise Refusal(405, "MethodNotAllowed", "the server does not allow this method")
        old = self.events.get((route.namespace, route.name))
        if method == "PATCH":
            if old is None:
                raise rules.no_event(route.name)
            if kind not in (MERGE, STRATEGIC) or not isinstance(body, dict):
                raise Refusal(415, "UnsupportedMediaType", f"{kind} is no type of a patch")
            new = patches.merged(old, body)
            return 200, self.put_event(old, new, dict(new["metadata"]))
        if not isinstance(body, dict) or not isinstance(body.get("involvedObject"), dict):
            raise rules.bad_request("an Event is expected")
        meta = dict(body.get("metadata") or {})
        if meta.get("namespace", route.namespace) != route.namespace:
            raise rules.bad_request("the namespace of the object doesn't match the request's")
        if not meta.get("name") and not meta.get("generateName"):
            raise Refusal(422, "Invalid", "Event is invalid: metadata.name: Required value")
        meta.setdefault("name", f"{meta.get('generateName')}{self.dice.getrandbits(40):x}")
        if not rules.NAME.fullmatch(meta["name"]):
            raise Refusal(422, "Invalid", "Event is invalid: metadata.name: Invalid value")
        if (route.namespace, meta["name"]) in self.events:
            raise rules.taken("events", meta["name"], "")
        meta |= {"namespace": route.namespace, "uid": self.new_uid()}
        meta |= {"creationTimestamp": stamp(self.clock())}
        return 201, self.put_event(None, body, meta)

    def put_event(self, old, new, meta):
        """Stores an Event."""
        self.version += 1
        meta |= {"resourceVersion": str(self.version)}
        item = new | {"kind": "Event", "apiVersion": "v1", "metadata": meta}
        # (an Event is a version too, which the window of changes has a place for)
        key = meta["namespace"], meta["name"]
        self.changes.append(Change(self.version, self.clock(), "events", key, None, None, None))
        self.events[key] = item
        self.touched = (old, item)
        return item

    def events_of(self, route):
        found = [it for key, it in self.events.items() if route.namespace in (None, key[0])]
        meta = {"resourceVersion": str(self.version)}
        return {"kind": "EventList", "apiVersion": "v1", "metadata": meta, "items": found}

    def core_namespaces(self, method, route, body):
        if method == "POST":
            self.namespaces.add(body["metadata"]["name"])
            return 201, body | {"kind": "Namespace", "apiVersion": "v1"}
        meta = {"resourceVersion": str(self.version)}
        items = [{"metadata": {"name": name}, "status": {}} for name in sorted(self.namespaces)]
        if route.name:
            return 200, {"kind": "Namespace", "apiVersion": "v1", "metadata": {"name": route.name}}
        return 200, {"kind": "NamespaceList", "apiVersion": "v1", "metadata": meta, "items": items}

    def about(self, route):
        """The version, and what discovery asks."""
        name = route.resource or ""
        if name == "/version":
            git = f"v1.{self.minor}.0"
            return 200, {"major": "1", "minor": str(self.minor), "gitVersion": git}
        if name in ("/healthz", "/readyz", "/livez"):
            return 200, {"status": "ok"}
        if name == "/api" or (route.group, route.version, name) == ("", None, ""):
            return 200, {"kind": "APIVersions", "versions": ["v1"]}
        versions = [
            {"groupVersion": f"batch/{it}", "version": it} for it in {*self.groups.values()}
        ]
        if name == "/apis":
            group = {"name": "batch", "versions": versions, "preferredVersion": versions[0]}
            return 200, {"kind": "APIGroupList", "apiVersion": "v1", "groups": [group]}
        if name == "" and (route.group == "batch" or route.version == "v1"):
            return 200, self.resources(route)
        raise rules.no_resource()

    def resources(self, route):
        if not route.group:
            kinds, version = {"events": "Event", "namespaces": "Namespace"}, "v1"
        else:
            kinds = {it: KINDS[it] for it in KINDS if self.groups[it] == route.version}
            version = f"batch/{route.version}"
        verbs = ["create", "delete", "get", "list", "patch", "update", "watch"]
        found = [
            {"name": it, "singularName": "", "namespaced": it != "namespaces", "kind": kind}
            | {"verbs": verbs}
            for it, kind in kinds.items()
        ]
        return {"kind": "APIResourceList", "groupVersion": version, "resources": found}


if __name__ == "__main__":
    import http_face

    http_face.main(__doc__)
