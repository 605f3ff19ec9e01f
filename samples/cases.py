#!/usr/bin/env python3
"""Writes the cases that the program answers is run on, and what document 01 says of each, by hand. Run from the repository's root."""
import struct

from night import cycle, houses, sample, with_user

PLANNED = """node 0 subject 0 opens - seals 0,2,3
node 1 subject %d opens - seals -
node 2 subject 1 opens - seals 4,5
node 3 subject 3 opens - seals -
node 4 subject 3 opens - seals -
node 5 subject 4 opens 5 seals -
key 0 attributes 0,4 holders 0,1
key 2 attributes 2 holders 0
key 3 attributes 3 holders 0
key 5 attributes 5 holders 1,4
"""
CANDIDATES = """candidates 0 -
candidates 1 0,1,2,3,4,5
candidates 2 -
candidates 3 0,2,3,4,5
candidates 4 0,2,3,4,5
candidates 5 2,4
"""
SAMPLE = "grants 33 252\n" + CANDIDATES
# with a user the grants stand a byte further; U opens T, attribute 3, which is delivered sealed
WITH_USER = "grants 34 252\n" + CANDIDATES
DELIVERED = PLANNED.replace("attributes 3 holders 0\n", "attributes 3 holders 0,2\n")
# the day after Y's crop cycle: a header of 19 bytes, 15 grants of 22; Y sees P sealed, so that U alone may run the last select
DAY_AFTER = "grants 37 330\n" + CANDIDATES.replace("candidates 5 2,4\n", "candidates 5 2\n")
BY_U = DELIVERED.replace("node 5 subject 4", "node 5 subject 2").replace("holders 1,4", "holders 1,2")
# harvest and climate by house and cycle: the first rented machine opens the house's pair and leaves the cycle's sealed, the adviser opens what is delivered
BY_HOUSE = """grants 35 180
candidates 0 -
candidates 1 -
candidates 2 0,1,2,3
candidates 3 1,2
candidates 4 1,2
"""
HOUSES = """node 0 subject 0 opens - seals 0,1,2
node 1 subject 1 opens - seals 3,4,5
node 2 subject %d opens 0,3 seals 0,3
node 3 subject 1 opens 5 seals 5
node 4 subject 1 opens - seals -
key 0 attributes 0,3 holders %s
key 1 attributes 1,4 holders 0,1
key 2 attributes 2 holders 0,2
key 5 attributes 5 holders 1
"""
# file, offer, lengths of the rooms, the lines after `case K`
CASES = [
    (sample(), bytes([0, 1, 1, 3, 3, 4]), (64, 128, 128), SAMPLE + "total 14 steps 76\n" + PLANNED % 0 + "offered total 18\n" + PLANNED % 1 + "rooms kept\n"),
    (sample(), bytes(5), (5, 12, 12), SAMPLE + "refused 15 place 1\noffered refused 14 place 6\nrooms kept\n"),
    (sample()[:740], b"", (0, 0, 0), "grants refused 3 place 0\ncandidates refused 3 place 0\nrefused 3 place 0\noffered refused 3 place 0\nrooms kept\n"),
    (
        with_user(sample(), 2),
        bytes([0, 1, 1, 3, 3, 4]),
        (64, 128, 128),
        WITH_USER + "total 14 steps 76\n" + DELIVERED % 0 + "offered total 18\n" + DELIVERED % 1 + "rooms kept\n",
    ),
    (
        houses(),
        bytes([0, 1, 0, 1, 1]),
        (64, 128, 128),
        BY_HOUSE + "total 23 steps 20\n" + HOUSES % (3, "0,1,2,3") + "offered total 24\n" + HOUSES % (0, "0,1,2") + "rooms kept\n",
    ),
    (
        cycle(191),
        bytes([0, 1, 1, 3, 3, 4]),
        (64, 128, 128),
        DAY_AFTER + "total 22 steps 71\n" + BY_U % 0 + "offered refused 14 place 5\nrooms kept\n",
    ),
    (with_user(sample(), 0), bytes(5), (0, 0, 0), WITH_USER + "refused 17 place 2\noffered refused 17 place 2\nrooms kept\n"),
]


def main():
    with open("crates/answers/stdin", "wb") as given, open("crates/answers/stdout", "w", encoding="ascii") as expected:
        for k, (file, offer, rooms, said) in enumerate(CASES):
            given.write(struct.pack(">IIHHH", len(file), len(offer), *rooms) + file + offer)
            expected.write("case %d\n%s" % (k, said))
        # a case that is cut off ends the run
        given.write(struct.pack(">IIHHH", 741, 0, 64, 128, 128) + sample()[:100])
        expected.write("cut\n")


if __name__ == "__main__":
    main()
