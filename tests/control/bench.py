"""Runs one scenario in simulated time: the server in process, replicas that are killed and stalled,
a way between them that delays and loses what it carries, and a clock that jumps from one thing that
happens to the next.
"""
import heapq
import json
import random
import time
from collections import Counter
from itertools import count

import faults
import jobs
from replicas import Crashed
from rules import NAME, Refusal, expired
from server import Server, route_of, stamp

TICK, BOOKMARK = 1, 60
MISFORTUNES = ("killed before", "killed after") + ("stalled before", "stalled after") * 2
AFTER_STOP = ("PATCH jobs", "DELETE jobs", "POST events", "PATCH events")
METHODS = ("GET", "POST", "PATCH", "PUT", "DELETE")


class Clock:
    def __init__(self, now):
        self.now = now

    def __call__(self):
        return self.now


def moment(at):
    """A time as ticks have it, in milliseconds."""
    seconds, thousandths = divmod(int(at * 1000), 1000)
    return time.strftime("%Y-%m-%dT%H:%M:%S", time.gmtime(seconds)) + f".{thousandths:03}Z"


def point_of(request):
    """What a request does, in a few words."""
    path = request["path"].partition("?")[0].strip("/").split("/")
    resource = next((it for it in ("cronjobs", "jobs", "events") if it in path), path[-1])
    return f"{request['method']} {resource}" + ("/status" if path[-1] == "status" else "")


def fed(machine, told):
    machine.put(json.dumps(told))
    return machine.said()


class Replica:
    """A place in which one process after the other runs."""

    def __init__(self, number):
        self.number, self.life, self.machine = number, 0, None
        self.inbox, self.paused, self.loses_ticks, self.watches = [], False, False, {}
        self.last_id, self.skew, self.all_watches = 0, 0, set()

    def who(self):
        return f"cronsim-control/{self.number}.{self.life}"


class Bench:
    """A scenario with replicas that `launch` makes, of a name and a scenario."""

    def __init__(self, scenario, launch):
        self.scenario, self.launch = scenario, launch
        self.clock = Clock(scenario.start)
        self.dice = random.Random(f"bench {scenario.number}")
        self.server = Server(
            self.clock, scenario.beta, scenario.minor, seed=f"server {scenario.number}"
        )
        self.server.most_items = scenario.most_items
        self.controller = jobs.JobController(self.server, scenario.number)
        self.controller.marks_held = scenario.marks_held
        self.collector = jobs.Collector(self.server, scenario.number)
        self.plan = faults.Plan(f"faults {scenario.number}", scenario.faults)
        self.replicas = [Replica(number) for number in range(scenario.replicas)]
        self.waiting, self.numbers = [], count()
        self.is_stormy, self.wrong, self.points = not scenario.is_calm, [], Counter()
        self.calm_at, self.rough_until = scenario.start + scenario.storm, 0
        for replica in self.replicas:
            replica.skew = self.dice.uniform(-scenario.skew, scenario.skew)

    # ---- time

    def later(self, seconds, do, *given):
        at = self.clock.now + max(0, seconds)
        heapq.heappush(self.waiting, (at, next(self.numbers), do, given))

    def run(self):
        """Runs it to its end; the server's log is what is left of it."""
        self.server.note("calm" if self.scenario.is_calm else "storm")
        self.scenario.begin(self.server, self.later)
        for replica in self.replicas:
            self.later(self.dice.uniform(0, 3), self.begin_life, replica)
        self.later(self.dice.uniform(0, TICK), self.tick)
        if self.is_stormy:
            self.later(self.dice.expovariate(1 / 200), self.compact)
            self.plan_bursts()
        self.later(self.scenario.storm, self.calm_down)
        self.go(self.scenario.storm + self.scenario.quiet)
        self.stop()

    def go(self, seconds):
        """Lets so much time pass."""
        end = self.clock.now + seconds
        loops = (self.controller, self.collector)
        while True:
            at = min([self.waiting[0][0]] + [it.next() for it in loops if it.waiting])
            if at > end:
                break
            self.clock.now = max(self.clock.now, at)
            if self.waiting[0][0] == at:
                _, _, do, given = heapq.heappop(self.waiting)
                do(*given)
            for loop in loops:
                loop.step()

    def plan_bursts(self):
        """Beside some whole minutes many writes of all replicas go wrong, and a user edits."""
        first = 60 - self.clock.now % 60
        for seconds in range(int(self.scenario.storm / 60)):
            if self.dice.random() < self.scenario.bursts:
                self.later(first + seconds * 60 - 2.5, self.begin_burst)
                if self.dice.random() < (0.8 if self.scenario.is_duel else 0.5):
                    at = first + seconds * 60 + self.dice.uniform(0, 4)
                    self.later(at, self.scenario.edit_in_burst)

    def begin_burst(self):
        self.rough_until = self.clock.now + self.dice.choice((5, 12, 25))

    def calm_down(self):
        """From now on nothing is disturbed; what is late is carried out, and the dead come back."""
        self.is_stormy, self.plan.rate = False, 0
        for replica in self.replicas:
            self.resume(replica, replica.life)
            if replica.machine is None:
                self.later(self.dice.uniform(0, 4), self.begin_life, replica)
        self.later(10, self.server.note, "calm")

    def compact(self):
        """Old versions go, so that some watches are answered 410."""
        if self.is_stormy:
            self.server.forget(self.dice.choice((0, 0, 5)))
            self.server.lag = self.dice.choice((0, 0, 3, 20))
            for replica in self.replicas:
                for number in list(replica.watches):
                    if self.dice.random() < 0.5:
                        self.end_watch(replica, number)
            self.later(self.dice.expovariate(1 / 200), self.compact)
        else:
            self.server.lag = 0

    # ---- replicas

    def begin_life(self, replica):
        if replica.machine is None:
            replica.life, replica.inbox, replica.last_id = replica.life + 1, [], 0
            replica.all_watches = set()
            replica.paused = False
            replica.machine = self.launch(str(replica.number), self.scenario)

    def kill(self, replica):
        if replica.machine is None:
            return
        replica.machine.kill()
        replica.machine, replica.inbox = None, []
        for watch, _ in replica.watches.values():
            self.server.unwatch(watch)
        replica.watches = {}
        self.later(self.dice.choice((0.5, 3, 10, 40)), self.begin_life, replica)

    def stall(self, replica, seconds):
        if replica.machine is not None and not replica.paused:
            replica.paused, replica.loses_ticks = True, self.dice.random() < 0.5
            self.later(seconds, self.resume, replica, replica.life)

    def resume(self, replica, life):
        if not replica.paused or replica.life != life:
            return
        replica.paused, inbox, replica.inbox = False, replica.inbox, []
        for place, line in enumerate(inbox):
            if replica.paused or replica.life != life or replica.machine is None:
                # (stalled or killed again by what it said to one of them)
                replica.inbox = inbox[place:] + replica.inbox
                break
            self.give(replica, line)

    def tick(self):
        """All replicas get the time; those with processes of their own work at once."""
        awake = []
        for replica in self.replicas:
            line = f'{{"now":"{moment(self.clock.now + replica.skew)}"}}'
            if replica.paused and not replica.loses_ticks:
                replica.inbox.append(line)
            elif replica.machine is not None and not replica.paused:
                awake.append((replica, replica.life))
                self.guarded(replica, replica.machine.put, line)
        for replica, life in awake:
            if replica.life == life and replica.machine is not None:
                self.hear(replica, "a tick")
        self.later(TICK, self.tick)

    def give(self, replica, line):
        """A line goes in, and what it says goes on its way."""
        if replica.machine is not None and replica.paused:
            replica.inbox.append(line)
        elif replica.machine is not None and self.guarded(replica, replica.machine.put, line):
            self.hear(replica, line)

    def guarded(self, replica, do, *given):
        """What the replica's process does; false where it has crashed."""
        try:
            do(*given)
            return True
        except Crashed as crash:
            self.wrong.append(("crash", f"{replica.who()}: {crash}, after {str(given)[:200]}"))
            self.kill(replica)
            return False

    def hear(self, replica, line):
        """Takes what it says to a line that was put in."""
        life, said = replica.life, []
        if self.guarded(replica, lambda _: said.extend(replica.machine.said()), line):
            for text in said:
                if replica.life != life or replica.machine is None:
                    # (it was killed while it wrote: these lines were never written)
                    break
                self.take(replica, text)

    def take(self, replica, text):
        fault = None
        try:
            request = json.loads(text)
            number, method = request["id"], request["method"]
            if method not in METHODS or not request["path"].startswith("/"):
                fault = "no request"
            elif number <= replica.last_id:
                fault = "an id twice"
            elif method in ("PATCH", "PUT", "POST") and "body" not in request:
                fault = "no body"
            elif method == "PATCH" and "contentType" not in request:
                fault = "no contentType"
            elif not NAME.fullmatch(route_of(request["path"]).name or "none"):
                fault = "a name that is none"
        except (ValueError, KeyError, TypeError, AttributeError):
            fault = "no request"
        if fault:
            self.wrong.append(("line", f"{replica.who()}: {fault}: {text[:200]}"))
            return
        replica.last_id = number
        if "watch=" in request["path"]:
            self.begin_watch(replica, request)
        else:
            self.send(replica, request)

    # ---- requests

    def send(self, replica, request):
        """A request goes on its way."""
        fate, what = self.plan.fate(), "passes"
        writes = request["method"] != "GET"
        if self.is_stormy:
            what = self.misfortune(writes)
        point = point_of(request)
        if what != "passes" and writes:
            self.points[f"{what}: {point}"] += 1
        delay = fate.before
        if what == "killed before":
            self.kill(replica)
            if self.dice.random() < 0.5:
                return
            delay = self.dice.choice((0.01, 2, 20, 70))
        elif what == "stalled before":
            delay = self.dice.choice((1, 5, 20, 60, 100)) * self.dice.uniform(0.5, 1)
            self.stall(replica, delay)
        if self.is_stormy:
            delay = min(delay, max(0.001, self.calm_at - self.clock.now))
        given = replica, replica.life, replica.who(), request, fate, what
        if fate.what == "late":
            self.later(fate.after, self.answer, replica, replica.life, self.lost(request))
        self.later(delay, self.arrive, *given)

    def misfortune(self, writes):
        luck, scenario = self.dice.random(), self.scenario
        share = 1 if writes else 0.2
        if writes and self.clock.now < self.rough_until:
            if luck < 0.35:
                return self.dice.choice(MISFORTUNES)
            return "passes"
        if luck < scenario.kills * share:
            return self.dice.choice(("killed before", "killed after"))
        if luck < (scenario.kills + scenario.stalls) * share:
            return self.dice.choice(("stalled before", "stalled after"))
        return "passes"

    def lost(self, request):
        return {"id": request["id"], "error": self.plan.no_answer()}

    def arrive(self, replica, life, who, request, fate, what):
        """A request comes to the server."""
        told = {"id": request["id"]}
        if fate.what == "refused":
            told |= {"status": fate.code, "body": self.plan.refusal(fate.code)}
        elif fate.what == "foreign":
            told |= self.plan.foreign()
        elif fate.what == "dropped":
            told = self.lost(request)
        else:
            told = self.carried_out(request, who)
        if fate.what in ("lost", "late"):
            told = self.lost(request)
        if replica.life == life and what == "killed after":
            self.kill(replica)
        elif replica.life == life and what == "stalled after":
            self.stall(replica, self.dice.choice((1, 5, 20, 60, 100)) * self.dice.uniform(0.5, 1))
        if fate.what != "late":
            self.later(fate.after, self.answer, replica, life, told)

    def answer(self, replica, life, told):
        if replica.life == life:
            self.give(replica, json.dumps(told))

    # ---- watches

    def begin_watch(self, replica, request):
        """A watch begins after the delay of a request, and tells in order, each event late."""
        replica.all_watches.add(request["id"])
        fate = self.plan.fate()
        given = replica, replica.life, request
        if fate.what == "passes":
            self.later(fate.before, self.open_watch, *given)
        elif fate.what == "refused":
            told = {"id": request["id"], "status": fate.code, "body": self.plan.refusal(fate.code)}
            self.later(fate.before, self.answer, replica, replica.life, told)
        elif fate.what == "foreign":
            told = {"id": request["id"]} | self.plan.foreign()
            self.later(fate.before, self.answer, replica, replica.life, told)
        else:
            self.later(fate.before, self.answer, replica, replica.life, self.lost(request))

    def open_watch(self, replica, life, request):
        if replica.life != life:
            return
        number, latest = request["id"], [self.clock.now]
        behind = 0
        if self.is_stormy and self.dice.random() < self.scenario.behind:
            behind = self.dice.uniform(20, 150)

        def tell(event):
            lag = self.plan.watch_lag() + (behind if self.is_stormy else 0)
            latest[0] = max(latest[0], self.clock.now + lag)
            told = {"id": number, "event": event}
            self.later(latest[0] - self.clock.now, self.answer, replica, life, told)

        version = route_of(request["path"]).query.get("resourceVersion") or "0"
        if 0 < int(version) < self.server.oldest and self.dice.random() < 0.4:
            # (some servers answer so, others by an event of the watch)
            told = {"id": number, "status": 410, "body": expired("too old resource version").body}
            self.later(0.01, self.answer, replica, life, told)
            return
        try:
            watch = self.server.watch(request["path"], tell, replica.who(), number)
        except Refusal as refusal:
            told = {"id": number, "status": refusal.code, "body": refusal.body}
            self.later(0.01, self.answer, replica, life, told)
            return
        replica.watches[number] = (watch, latest)
        if watch is None:
            self.end_watch(replica, number)
            return
        lasts = min(float(watch.query.get("timeoutSeconds", 1800)), self.plan.watch_ends())
        self.later(lasts, self.end_watch, replica, number, life)
        self.later(BOOKMARK, self.bookmark, replica, number, life)

    def bookmark(self, replica, number, life):
        if replica.life == life and number in replica.watches:
            self.server.bookmark(replica.watches[number][0])
            self.later(BOOKMARK, self.bookmark, replica, number, life)

    def end_watch(self, replica, number, life=None):
        if life not in (None, replica.life) or number not in replica.watches:
            return
        watch, latest = replica.watches.pop(number)
        self.server.unwatch(watch)
        told = {"id": number, "status": 200}
        if self.is_stormy and self.dice.random() < 0.3:
            told = {"id": number, "error": "connection reset by peer"}
        after = max(0, latest[0] - self.clock.now) + 0.001
        self.later(after, self.answer, replica, replica.life, told)

    # ---- the end

    def stop(self):
        """Tells each replica to stop, and answers what is under way."""
        for replica in self.replicas:
            if replica.machine is not None:
                found = self.finish(replica) + replica.machine.stop()
                self.wrong += [("end", f"{replica.who()}: {it}") for it in found]
                replica.machine = None

    def finish(self, replica):
        """What is wrong after a replica was told to stop, while its requests are answered. What it
        has claimed it may still start."""
        lines = [{"stop": True}, *self.under_way(replica)]
        while lines:
            try:
                more = [json.loads(it) for it in fed(replica.machine, lines.pop(0))]
            except Crashed as crash:
                fine = not lines and str(crash) == "status 0"
                return [] if fine else [f"{crash}, with {len(lines)} under way"]
            for request in more:
                if point_of(request) not in AFTER_STOP:
                    return [f"asks after it was told to stop: {str(request)[:200]}"]
                lines.append(self.carried_out(request, replica.who()))
        return []

    def under_way(self, replica):
        """The answers to the requests of a replica that are under way, but for watches."""
        found = []
        for at, _, do, given in sorted(self.waiting, key=lambda it: it[:2]):
            if do not in (self.answer, self.arrive) or given[:2] != (replica, replica.life):
                continue
            if do == self.arrive:
                self.clock.now = max(self.clock.now, at)
                found.append(self.carried_out(given[3], given[2]))
            elif "event" not in given[2] and given[2]["id"] not in replica.all_watches:
                found.append(given[2])
        return found

    def carried_out(self, request, who):
        """Carries a request out, and answers what is told of it."""
        kind = request.get("contentType", "application/json")
        words = request["method"], request["path"], request.get("body"), kind
        status, body = self.server.call(*words, who=who, tag=request["id"])
        if request["path"] == "/version":
            body = body | {"minor": str(self.scenario.minor_for(who))}
        told = {"id": request["id"], "status": status}
        if self.scenario.tells_date:
            told["date"] = stamp(self.clock.now)
        most = self.scenario.most_bytes
        if most and len(json.dumps(body)) > most:
            # (the transport reads no more of it, and says so)
            return told | {"status": 413}
        return told | {"body": body}
