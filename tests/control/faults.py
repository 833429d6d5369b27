"""Faults by a seeded plan: what becomes of a request on its way, and of a watch.

A Fate is drawn for each request:

    passes    it is carried out, and answered
    refused   429 or 500, without effect
    lost      it is carried out, and its answer is lost
    dropped   it isn't carried out, and nobody knows
    late      nobody hears of it again, and it is carried out seconds later
    foreign   it isn't carried out: a proxy answers it itself, and knows of no API

with the seconds before it is carried out, and those before the answer is there.
"""
import random
from collections import namedtuple

Fate = namedtuple("Fate", "what before after code")
TOO_MANY = {
    "kind": "Status",
    "apiVersion": "v1",
    "metadata": {},
    "status": "Failure",
    "message": "the server has received too many requests and has asked us to try again later",
    "reason": "TooManyRequests",
    "details": {"retryAfterSeconds": 1},
    "code": 429,
}
INTERNAL = {
    "kind": "Status",
    "apiVersion": "v1",
    "metadata": {},
    "status": "Failure",
    "message": "Internal error occurred: etcdserver: request timed out",
    "reason": "InternalError",
    "details": {},
    "code": 500,
}
# What proxies answer: with a status, and the JSON value of the body (a page of HTML is none).
FOREIGN = ((404, {"error": "default backend - 404"}), (200, None), (404, None), (403, None))
NO_ANSWERS = ("connection refused", "read timed out", "connection reset by peer")


FATES = ("slow",) * 2 + ("slow answer",) + ("refused",) * 2 + ("lost",) * 2 + ("dropped", "late")


class Plan:
    """Fates, by a rate: 0 is none but short delays, 1 that every request is disturbed."""

    def __init__(self, seed, rate):
        self.dice, self.rate = random.Random(seed), rate

    def fate(self):
        dice = self.dice
        before, after = dice.uniform(0.0005, 0.02), dice.uniform(0.0005, 0.02)
        if dice.random() >= self.rate:
            return Fate("passes", before, after, None)
        what = dice.choice(FATES)
        if dice.random() < 0.1:
            what = "foreign"
        if what == "slow":
            return Fate("passes", self.seconds(), after, None)
        if what == "slow answer":
            return Fate("passes", before, self.seconds(), None)
        if what == "refused":
            return Fate("refused", before, after, dice.choice((429, 500)))
        if what == "late":
            return Fate("late", self.seconds() * 10, self.seconds(), None)
        return Fate(what, before, self.seconds(), None)

    def seconds(self):
        """Mostly less than a second, at times ten."""
        return self.dice.uniform(0.02, 1) ** 2 * self.dice.choice((1, 1, 10))

    def refusal(self, code):
        return TOO_MANY if code == 429 else INTERNAL

    def foreign(self):
        """What is told of a request that a proxy answers."""
        status, body = self.dice.choice(FOREIGN)
        return {"status": status, "body": body}

    def no_answer(self):
        return self.dice.choice(NO_ANSWERS)

    def watch_lag(self):
        """The seconds before a watch tells an event."""
        if self.dice.random() < self.rate:
            return self.dice.uniform(0, 8)
        return self.dice.uniform(0.001, 0.03)

    def watch_ends(self):
        """The seconds after which a watch ends, if nothing else ends it."""
        return self.dice.expovariate(self.rate / 10) if self.rate else 1e9
