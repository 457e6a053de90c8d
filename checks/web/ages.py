#!/usr/bin/python3
"""Rolls a new map each day over replicas whose clients refuse maps older than two days: checks/web/ages.py PROGRAM
[--days 5]

An owner signs the same map each day, with a date as version. Each roll goes over three replicas behind nginx, with and
without haproxy. Eight clients (the module for Python over the proved library) ask and check hour after hour, by a clock
that this script sets. During the rolls no client may be refused.

Then the owner stops. One minute before the two days are over, all clients must still be served. One second after, all
must be refused: by status 503 with a problem that says so, or by the client if a cache or a server still answers. Such
refusals must not count against a replica: none is taken for dead, and a client that asks for any map is answered.
/v1/info and /metrics must state the age. promtool plays the sample of alarms, web/replicas/alarms.yml.

Parts whose program or library is missing are `skipped`. Ends with status 1 if anything differs. No client trusts this
script.
"""

from __future__ import annotations

import argparse
import collections
import pathlib
import re
import shutil
import subprocess
import sys
import tempfile
import threading
import time
from typing import Any

from bars import downs
from parties import STREETS, TOP, Many, Owner, Place, replace, roads

LIBRARY = TOP / "crates/route_check_c/out/libgogbetiku.so.0"
sys.path[:0] = [str(TOP / "bindings/python"), str(TOP / "web"), str(TOP / "checks")]
from common.looks import Looks  # noqa: E402
from gateway_parts.keeper import NO_MAP  # noqa: E402
from gogbetiku import Client, Refused, Stale  # noqa: E402

HOUR, DAY, CLIENTS, NODES = 3_600, 86_400, 8, 400
SAMPLES: dict[str, list[str]] = {"nginx alone": [], "nginx and haproxy": ["--haproxy"]}

LOOKS = Looks(300)
same, faults = LOOKS.same, LOOKS.faults


class Asker:
    """A client with a limit of two days and its own minimum version, by the script's clock."""

    def __init__(self, day: Day, number: int) -> None:
        self.day, self.number, self.place = day, number, Place(day.many.address)
        self.client = Client(
            day.key,
            library=LIBRARY,
            floor=day.owner.path(f"{day.title}-{number}.floor"),
            max_age=2 * DAY,
            clock=lambda: day.clock,
            name="The town",
        )

    def once(self) -> str:
        """The end of a query: `accepted`, the class of a refusal, or a status."""
        start, end = self.day.owner.ids[self.number], self.day.owner.ids[-1 - self.number]
        for again in (False, True):
            self.day.clock_read()
            status, headers, octets = self.place.ask(
                f"/v1/route?from={start}&to={end}&least={self.client.least_to_ask()}"
            )
            if status == 307:
                status, headers, octets = self.place.ask(headers["Location"])
            if status == 200:
                return self.checked(octets, start, end)
            if again or status != 503:
                break
            time.sleep(min(0.5, float(headers.get("Retry-After", 0))))
        if NO_MAP.encode() in octets:
            same("what a client says of it", str(self.client.none_young()), "No map younger than 2 days is here.")
            return "NoneYoung"
        return f"status {status}"

    def checked(self, octets: bytes, start: int, end: int) -> str:
        try:
            self.client.check_route(octets, start, end, 0)
        except Refused as refusal:
            return refusal.kind
        return "accepted"


class Day:
    """Replicas, an owner who signs dates, and the clock of all clients."""

    def __init__(self, owner: Owner, title: str, dates: list[int], many: Many) -> None:
        self.owner, self.title, self.dates, self.many = owner, title, dates, many
        self.key = owner.path("owner.key").read_text().strip()
        self.clock, self.reads = float(dates[0]), 0
        self.ended: collections.Counter[str] = collections.Counter()
        self.stopped = False

    def clock_read(self) -> None:
        self.reads += 1

    def asking(self, asker: Asker) -> None:
        """Sends queries until it is told to stop."""
        while not self.stopped:
            self.ended[asker.once()] += 1

    def announced(self, version: int) -> bool:
        """Whether each replica announces the publication."""
        return all(
            f'"version": "{version}"' in Place(it).ask("/v1/info")[2].decode().partition('"coming"')[0]
            for it in self.many.gateways
        )

    def rolls(self) -> None:
        """One day after the other: the roll begins with the day, and the hours continue during it."""
        for date in self.dates[1:]:
            octets = self.owner.path(f"dij-{date}.pub").read_bytes()
            self.clock = float(date)
            replace(self.many.folder / "map.pub", octets)
            for hour in range(24):
                self.clock = float(date + hour * HOUR)
                before, until = self.reads, time.monotonic() + 5
                while self.reads < before + CLIENTS and time.monotonic() < until:
                    time.sleep(0.01)
            until = time.monotonic() + 120
            while not self.announced(date):
                if time.monotonic() > until:
                    faults.append(f"{self.title}: {date} is not announced")
                    return
                time.sleep(0.1)

    def played(self) -> None:
        askers = [Asker(self, number) for number in range(CLIENTS)]
        threads = [threading.Thread(target=self.asking, args=(asker,)) for asker in askers]
        for thread in threads:
            thread.start()
        self.rolls()
        self.stopped = True
        for thread in threads:
            thread.join()
        same(f"{self.title}: while it rolls", set(self.ended), {"accepted"})
        print(
            f" {self.title}: {sum(self.ended.values())} asks in {len(self.dates) - 1} days of rolls, {sum(self.ended.values()) - self.ended['accepted']} refused"
        )
        before = downs(self.many)
        self.stops(askers)
        same(f"{self.title}: replicas that were taken for dead by what was refused", downs(self.many) - before, 0)
        self.replicas()

    def stops(self, askers: list[Asker]) -> None:
        """The owner stops signing."""
        last = self.dates[-1]
        # the requested age is in whole minutes, rounded up
        self.clock = float(last + 2 * DAY - 60)
        same(f"{self.title}: a minute before", {asker.once() for asker in askers}, {"accepted"})
        self.clock = float(last + 2 * DAY + 1)
        same(f"{self.title}: a second behind", {asker.once() for asker in askers}, {"NoneYoung"})
        newest = self.owner.prove(f"dij-{last}.pub", self.owner.ids[0], self.owner.ids[-1])
        same(
            f"{self.title}: what is answered all the same",
            askers[0].checked(newest, self.owner.ids[0], self.owner.ids[-1]),
            Stale.__name__,
        )
        for _ in range(20):
            same(f"{self.title}: and again", askers[0].once(), "NoneYoung")

    def replicas(self) -> None:
        """No replica is taken for dead, and each states the age."""
        same(
            f"{self.title}: who takes any map",
            Place(self.many.address).ask(f"/v1/route?from={self.owner.ids[0]}&to={self.owner.ids[1]}")[0],
            307,
        )
        none_as_new = 0
        for address in self.many.gateways:
            place = Place(address)
            same(f"{self.title}: ready", place.ask("/v1/ready")[0], 200)
            age, page = int(time.time()) - self.dates[-1], place.ask("/metrics")[2].decode()
            told = re.search(r"^road_gateway_newest_age_seconds (\d+)$", page, re.M)
            same(f"{self.title}: the age in /metrics", told is not None and abs(int(told[1]) - age) < 30, True)
            found = re.search(r'"age": (\d+),', place.ask("/v1/info")[2].decode())
            same(f"{self.title}: the age in /v1/info", found is not None and abs(int(found[1]) - age) < 30, True)
            counted = re.search(r"^road_gateway_none_as_new_total (\d+)$", page, re.M)
            none_as_new += int(counted[1]) if counted else 0
        same(f"{self.title}: they are counted by themselves", none_as_new >= 28, True)


def counts(owner: Owner) -> None:
    """A map with a counted version has no age."""
    many = Many(owner, owner.publish(7), "--replicas", 1)
    place = Place(many.gateways[0])
    same("the age of a count in /v1/info", '"age": null' in place.ask("/v1/info")[2].decode(), True)
    same(
        "the age of a count in /metrics",
        re.search(r"^road_gateway_newest_age_seconds ", place.ask("/metrics")[2].decode(), re.M),
        None,
    )
    many.end()


ALARMS = """rule_files: [ {rules} ]
evaluation_interval: 1m
tests:
  - interval: 1m
    input_series:
      - series: 'road_gateway_newest_age_seconds{{instance="young"}}'
        values: '60+60x60'
      - series: 'road_gateway_newest_age_seconds{{instance="old"}}'
        values: '129000+60x60'
      - series: 'road_gateway_newest_age_seconds{{instance="ahead"}}'
        values: '-7200+0x60'
      - series: 'road_gateway_newest_version{{instance="young"}}'
        values: '3+0x60'
      - series: 'road_gateway_newest_version{{instance="old"}}'
        values: '2+0x60'
    alert_rule_test:
      - {{eval_time: 9m, alertname: MapGrowsOld, exp_alerts: []}}
      - eval_time: 40m
        alertname: MapGrowsOld
        exp_alerts: [ {{exp_labels: {{instance: old}}, exp_annotations: {{summary: "old: the newest map is 1d 12h 30m 0s old. Sign again, or find out why the new map does not arrive."}}}} ]
      - eval_time: 40m
        alertname: MapIsAhead
        exp_alerts: [ {{exp_labels: {{instance: ahead}}, exp_annotations: {{summary: "ahead: the newest map is dated ahead of this machine's clock. Look at both clocks."}}}} ]
      - eval_time: 40m
        alertname: ReplicasApart
        exp_alerts: [ {{exp_annotations: {{summary: "The gateways announce different versions. Roll again."}}}} ]
"""


def alarms() -> None:
    """The rules of the sample are valid, use metrics of /metrics, and each fires when it should."""
    sample = TOP / "web/replicas/alarms.yml"
    from gateway_parts.counts import HELP

    for name in re.findall(r"road_gateway_\w+", sample.read_text()):
        same(f"{name} is in /metrics", name in HELP, True)
    if shutil.which("promtool") is None:
        return print("skipped: the sample of alarms, since this machine has no promtool")
    with tempfile.TemporaryDirectory() as folder:
        tests = pathlib.Path(folder) / "tests.yml"
        tests.write_text(ALARMS.format(rules=sample))
        done = subprocess.run(["promtool", "test", "rules", tests], capture_output=True, text=True, check=False)
        same("promtool", (done.returncode, done.stdout + done.stderr if done.returncode else ""), (0, ""))
    return None


def main(words: list[str]) -> int:
    parser = argparse.ArgumentParser(description=(__doc__ or "").splitlines()[0])
    parser.add_argument("program", metavar="PROGRAM")
    parser.add_argument("--days", type=int, default=5, metavar="COUNT")
    given = parser.parse_args(words)
    alarms()
    if not LIBRARY.exists():
        print("skipped: a day's roll, since bindings/build made no library")
        return 1 if faults else 0
    began = time.monotonic()
    owner: Any = Owner(given.program, roads(STREETS, NODES))
    # the last one is of an hour ago, by this machine's clock
    dates = [int(time.time()) - HOUR - DAY * back for back in range(given.days, -1, -1)]
    for date in dates:
        owner.publish(date)
    for title, more in SAMPLES.items():
        if any(shutil.which(name) is None for name in ["nginx", *["haproxy"] * bool(more)]):
            print(f"skipped: a day's roll by {title}, since this machine lacks it")
            continue
        many = Many(owner, f"dij-{dates[0]}.pub", "--replicas", 3, *more)
        Day(owner, title, dates, many).played()
        many.end()
    counts(owner)
    for fault in faults[:30]:
        print(f"DIFFERS {fault}")
    print(f"ages: {len(faults)} differ, {time.monotonic() - began:.0f} s")
    return 1 if faults else 0


if __name__ == "__main__":
    sys.exit(main(sys.argv[1:]))
