"""Tests of lanes.py."""

from __future__ import annotations

import dataclasses
import threading
import time
import unittest
from collections.abc import Mapping, Sequence

from tools.user import lanes

# A small house: two crates at the bottom, a long chain over one and a short one over the other.
HOUSE: Mapping[str, Sequence[str]] = {
    "ground": [], "shed": [], "hall": ["ground"], "roof": ["hall", "ground"], "gate": ["shed"]}
MINUTES = {"ground": 1.0, "shed": 4.0, "hall": 2.0, "roof": 3.0, "gate": 0.5}


@dataclasses.dataclass
class House:
    """A crate of the small house."""

    name: str

    def below(self) -> list[House]:
        return [House(it) for it in HOUSE[self.name]]


@dataclasses.dataclass
class Room:
    """A crate over the ground alone, or the ground."""

    name: str

    def below(self) -> list[Room]:
        return [] if self.name == "ground" else [Room("ground")]


class Chains(unittest.TestCase):
    def test_a_chain_is_the_longest_way_up(self) -> None:
        self.assertEqual(lanes.chains(["ground", "shed", "hall", "roof", "gate"], HOUSE, MINUTES),
                         {"gate": 0.5, "roof": 3.0, "hall": 5.0, "shed": 4.5, "ground": 6.0})

    def test_the_program_stands_on_the_bottom(self) -> None:
        chain = lanes.program_chains({})
        self.assertEqual(max(chain, key=chain.__getitem__), "xq_atoms")


class Pool(unittest.TestCase):
    def setUp(self) -> None:
        self.lock, self.at_work, self.most = threading.Lock(), 0, 0
        self.begun: list[str] = []
        self.shares: dict[str, int] = {}

    def work(self, crate: House) -> str:
        with self.lock:
            self.begun.append(crate.name)
            self.at_work += 1
            self.most = max(self.most, self.at_work)
            self.shares[crate.name] = self.pool.share(crate)
        time.sleep(0.02)
        with self.lock:
            self.at_work -= 1
        return crate.name

    def run_house(self, at_once: int) -> list[str]:
        chain = lanes.chains(list(HOUSE), HOUSE, MINUTES)
        with lanes.Lanes(at_once, chain) as self.pool:
            runs = {name: self.pool.submit(self.work, House(name)) for name in HOUSE}
        self.assertEqual([run.result() for run in runs.values()], list(HOUSE))
        return self.begun

    def test_one_lane_takes_the_longest_chain_first(self) -> None:
        self.assertEqual(self.run_house(1), ["ground", "hall", "shed", "roof", "gate"])
        self.assertEqual(self.most, 1)

    def test_two_lanes_hold_two_at_most(self) -> None:
        begun = self.run_house(2)
        self.assertEqual(self.most, 2)
        for name, uses in HOUSE.items():
            for below in uses:
                self.assertLess(begun.index(below), begun.index(name))

    def test_the_longest_way_ahead_has_two_processors(self) -> None:
        with lanes.Lanes(4, {"ground": 9.0, "roof": 4.0, "hall": 2.0}) as self.pool:
            for name in ["ground", "roof", "hall", "yard"]:
                self.pool.submit(self.work, Room(name))
        self.assertEqual(self.shares, {"ground": 4, "roof": 2, "hall": 1, "yard": 1})

    def test_processors_that_none_waits_for_are_shared(self) -> None:
        self.run_house(4)
        self.assertEqual(self.shares["ground"], 4)
        self.assertLessEqual(max(self.shares.values()), 4)

    def test_a_fault_is_handed_on_and_holds_up_nothing(self) -> None:
        with lanes.Lanes(2, {}) as pool:
            first = pool.submit(lambda crate: 1 // 0, House("ground"))
            second = pool.submit(lambda crate: str(crate.name), House("hall"))
        self.assertIsInstance(first.exception(), ZeroDivisionError)
        self.assertEqual(second.result(), "hall")

    def test_a_step_waits_for_nothing(self) -> None:
        with lanes.Lanes(1, {}) as pool:
            self.assertEqual(pool.submit(len, ["a", "b"]).result(), 2)


if __name__ == "__main__":
    unittest.main()
