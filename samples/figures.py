#!/usr/bin/env python3
"""Writes the figures that the program facts runs: its input, and what document 01, or the ticket that adds to it, says of each.

Each figure is the sample night, cut or filled with zeros to a length, with some bytes changed; or the same of a night with all kinds of node, or of
the houses, joined on pairs; or a leaf alone; or a file of the greatest length. What stands beside it is read off document 01 by hand, never computed. Run from the repository's root.
"""
import struct

from night import all_kinds, alone, cycle, houses, longest, parted, reasons, sample, with_days, with_pairs, with_user

# name, length, bytes changed, what document 01 says
FIGURES = [
    # the mark, the version, the header, the counts, the length
    ("the sample night", 741, {}, "accepted"),
    ("1 other mark", 741, {0: 66}, "refused 1 place 0"),
    ("1 mark's last letter", 741, {2: 81}, "refused 1 place 0"),
    ("1 two bytes", 2, {}, "refused 1 place 0"),
    ("1 no bytes", 0, {}, "refused 1 place 0"),
    ("2 version 0", 741, {4: 0}, "refused 2 place 0"),
    ("2 version 5", 741, {4: 5}, "refused 2 place 0"),
    ("2 version 257", 741, {3: 1}, "refused 2 place 0"),
    ("2 version 258", 741, {3: 1, 4: 2}, "refused 2 place 0"),
    ("2 version 259", 741, {3: 1, 4: 3}, "refused 2 place 0"),
    ("3 version 3, whose nodes are longer", 741, {4: 3}, "refused 3 place 0"),
    ("3 version 4, whose grants are longer too", 741, {4: 4}, "refused 3 place 0"),
    ("2 four bytes", 4, {}, "refused 2 place 0"),
    ("3 fourteen bytes", 14, {}, "refused 3 place 0"),
    ("3 fourteen bytes and no subject", 14, {5: 0}, "refused 3 place 0"),
    ("3 740 bytes", 740, {}, "refused 3 place 0"),
    ("3 742 bytes", 742, {}, "refused 3 place 0"),
    ("3 five subjects", 741, {5: 5}, "refused 3 place 0"),
    ("4 no subject", 741, {5: 0}, "refused 4 place 0"),
    ("4 seventeen subjects", 741, {5: 17}, "refused 4 place 0"),
    ("4 no relation, fifteen bytes", 15, {6: 0}, "refused 4 place 0"),
    ("4 seventeen relations", 741, {6: 17}, "refused 4 place 0"),
    ("4 no attribute", 741, {7: 0}, "refused 4 place 0"),
    ("4 65 attributes", 741, {7: 65}, "refused 4 place 0"),
    ("4 no node", 741, {8: 0}, "refused 4 place 0"),
    ("4 65 nodes", 741, {8: 65}, "refused 4 place 0"),
    ("4 273 grants", 741, {9: 1, 10: 17}, "refused 4 place 0"),
    ("3 272 grants", 741, {9: 1, 10: 16}, "refused 3 place 0"),
    # relations, grants, owners
    ("5 owner 6 of 6", 741, {15: 6}, "refused 5 place 0"),
    ("5 empty set", 741, {23: 0}, "refused 5 place 0"),
    ("5 attribute 6 of 6", 741, {32: 112}, "refused 5 place 1"),
    ("5 attribute taken before", 741, {32: 56}, "refused 5 place 1"),
    ("5 attribute left over", 741, {32: 32}, "refused 5 place 2"),
    ("6 relation 2 of 2", 741, {33: 2}, "refused 6 place 0"),
    ("6 subject 6 of 6", 741, {52: 6}, "refused 6 place 1"),
    ("6 sets that meet", 741, {68: 15}, "refused 6 place 1"),
    ("6 clear outside the relation", 741, {168: 17}, "refused 6 place 7"),
    ("6 sealed outside the relation", 741, {176: 33}, "refused 6 place 7"),
    ("6 pair seen before", 741, {52: 0}, "refused 6 place 1"),
    ("6 any seen before", 741, {52: 255}, "refused 6 place 6"),
    ("6 before 7", 741, {42: 7, 284: 33}, "refused 6 place 13"),
    ("7 owner sees less in clear", 741, {42: 7}, "refused 7 place 0"),
    ("7 owner sees sealed what any has in clear", 741, {42: 7, 50: 8}, "refused 7 place 0"),
    ("7 second owner", 741, {186: 16}, "refused 7 place 1"),
    ("7 own grant not all clear though any is", 741, {34: 255, 142: 0}, "refused 7 place 0"),
    # nodes
    ("8 kind 9", 741, {285: 9}, "refused 8 place 0"),
    ("8 kind 10, with nothing else wrong", 741, {425: 10, 428: 255, 448: 0}, "refused 8 place 5"),
    ("8 child not lower", 741, {314: 1}, "refused 8 place 1"),
    ("8 child missing", 741, {314: 255}, "refused 8 place 1"),
    ("8 children the same", 741, {371: 1}, "refused 8 place 3"),
    ("8 child taken", 741, {398: 1}, "refused 8 place 4"),
    ("8 unused left", 741, {286: 0}, "refused 8 place 0"),
    ("8 unused right", 741, {315: 0}, "refused 8 place 1"),
    ("8 unused x", 741, {369: 4, 373: 255}, "refused 8 place 3"),
    ("8 unused y", 741, {317: 0}, "refused 8 place 1"),
    ("8 unused set", 741, {384: 1}, "refused 8 place 3"),
    ("8 spare byte", 741, {348: 1}, "refused 8 place 2"),
    ("8 size 1,000,001", 741, {450: 15, 451: 66, 452: 65}, "refused 8 place 5"),
    ("8 before 9 of the same node", 741, {316: 6, 317: 0}, "refused 8 place 1"),
    ("9 before 8 of the next node", 741, {316: 6, 341: 1}, "refused 9 place 1"),
    ("8 after all nodes, no parent", 741, {369: 1, 371: 255, 372: 255, 373: 255, 384: 12, 397: 7, 400: 255, 428: 3, 448: 8}, "refused 8 place 2"),
    ("10 before the node without parent", 741, {369: 1, 371: 255, 372: 255, 373: 255, 384: 12, 397: 7, 400: 255, 428: 3, 448: 9}, "refused 10 place 5"),
    ("9 relation 2 of 2", 741, {288: 2}, "refused 9 place 0"),
    ("9 relation taken by an earlier leaf", 741, {344: 0, 356: 1}, "refused 9 place 2"),
    ("9 leaf's set empty", 741, {300: 0}, "refused 9 place 0"),
    ("9 leaf's set outside the relation", 741, {300: 29}, "refused 9 place 0"),
    ("9 x not visible", 741, {316: 1}, "refused 9 place 1"),
    ("9 x 255", 741, {316: 255}, "refused 9 place 1"),
    ("9 y on the wrong side", 741, {373: 2}, "refused 9 place 3"),
    ("9 set not visible", 741, {412: 2}, "refused 9 place 4"),
    ("9 aggregate inside the set", 741, {400: 3}, "refused 9 place 4"),
    ("9 user function outside its set", 741, {397: 8}, "refused 9 place 4"),
    ("9 empty set of group and count", 741, {397: 7, 400: 255, 412: 0}, "refused 9 place 4"),
    ("10 needed at a leaf", 741, {308: 1}, "refused 10 place 0"),
    ("10 needed outside what is read", 741, {448: 40}, "refused 10 place 5"),
    ("10 half of a join", 741, {392: 1}, "refused 10 place 3"),
    ("a whole join needed", 741, {392: 17}, "accepted"),
    ("aggregate of an empty set, nothing needed", 741, {412: 0, 448: 0}, "accepted"),
    # prices: one running index, step prices first
    ("11 leaf's price", 741, {456: 1}, "refused 11 place 0"),
    ("11 leaf's last price", 741, {524: 1}, "refused 11 place 17"),
    ("11 step price 1,000,001", 741, {478: 15, 479: 66, 480: 65}, "refused 11 place 6"),
    ("step price 1,000,000", 741, {478: 15, 479: 66, 480: 64}, "accepted"),
    ("11 last step price", 741, {594: 15, 595: 66, 596: 65}, "refused 11 place 35"),
    ("11 link to itself", 741, {600: 1}, "refused 11 place 36"),
    ("11 link price 1,001", 741, {603: 3, 604: 233}, "refused 11 place 37"),
    ("link price 1,000", 741, {603: 3, 604: 232}, "accepted"),
    ("11 last link", 741, {740: 1}, "refused 11 place 71"),
]


def in_node(i, field):
    """Where a field of node i stands in the night of all kinds; of a set, its lowest byte."""
    fields = {"kind": 0, "left": 1, "right": 2, "x": 3, "y": 4, "spare": 5, "set": 15, "needed": 23, "size": 24, "high": 8}
    return 15 + 3 * 9 + 4 * 18 + 28 * i + fields[field]


def changes(*rows):
    return {in_node(i, field): value for i, field, value in rows}


# name, changes to the night of all kinds, what document 01 says
KINDS = [
    ("all nine kinds", changes(), "accepted"),
    ("8 leaf's size", changes((0, "size", 1)), "refused 8 place 0"),
    ("8 first spare byte", changes((0, "spare", 1)), "refused 8 place 0"),
    ("8 unused y of a leaf", changes((0, "y", 0)), "refused 8 place 0"),
    ("8 high byte of an unused set", changes((2, "high", 1)), "refused 8 place 2"),
    ("8 right child not lower", changes((4, "right", 4)), "refused 8 place 4"),
    ("8 right child taken", changes((6, "right", 3)), "refused 8 place 6"),
    ("9 leaf's relation 255", changes((0, "x", 255)), "refused 9 place 0"),
    ("9 project of no attribute", changes((1, "set", 0)), "refused 9 place 1"),
    ("10 needed at project", changes((1, "needed", 1)), "refused 10 place 1"),
    ("kind 3 with x = y", changes((2, "y", 0)), "accepted"),
    ("9 x of kind 3 projected away", changes((2, "x", 2)), "refused 9 place 2"),
    ("9 y of kind 3 projected away", changes((2, "y", 2)), "refused 9 place 2"),
    ("10 half of kind 3", changes((2, "needed", 1)), "refused 10 place 2"),
    ("10 needed at product", changes((4, "needed", 1)), "refused 10 place 4"),
    ("9 x of join on the right", changes((6, "x", 5)), "refused 9 place 6"),
    ("10 half of kind 8", changes((7, "needed", 0b10000)), "refused 10 place 7"),
    ("all of kind 8 needed", changes((7, "needed", 0b1010000)), "accepted"),
    ("9 what kind 8 took away", changes((8, "x", 4)), "refused 9 place 8"),
    ("what kind 8 left", changes((8, "x", 6)), "accepted"),
    ("group and aggregate, all needed", changes((9, "needed", 0b1000011)), "accepted"),
    ("10 outside group and aggregate", changes((9, "needed", 0b10000000)), "refused 10 place 9"),
    ("some of group and count needed", changes((10, "needed", 1)), "accepted"),
    ("10 outside group and count", changes((10, "needed", 2)), "refused 10 place 10"),
    (
        "8 two nodes without parent",
        changes(
            *[(4, "kind", 2), (4, "right", 255), (4, "x", 0), (6, "kind", 2), (6, "right", 255), (6, "x", 0), (6, "y", 255)],
            *[(7, "set", 3), (7, "x", 0), (8, "x", 0), (9, "set", 0), (9, "x", 0), (10, "set", 1)],
        ),
        "refused 8 place 3",
    ),
]
# a leaf alone, and the same without a grant; the longest file: every count at its limit, all 64 bits of the sets in use
OTHERS = [
    ("a leaf alone", alone([(0, 0, 1, 0)]), "accepted"),
    ("7 no grant", alone([]), "refused 7 place 0"),
    ("the longest file, 11,967 bytes", longest(), "accepted"),
    ("3 11,966 bytes", longest()[:-1], "refused 3 place 0"),
    ("3 11,968 bytes", longest() + b"\0", "refused 3 place 0"),
]


# version 2, with a user: the length, the user, what stands a byte further; nobody asks here which leaves the user may have
WITH_USER = [
    ("U as user, 742 bytes", with_user(sample(), 2), "accepted"),
    ("H as user, who may not have INS", with_user(sample(), 0), "accepted"),
    ("2 fourteen bytes of version 258", b"AXP\1\2" + with_user(sample(), 2)[5:14], "refused 2 place 0"),
    ("3 fifteen bytes of version 2", with_user(sample(), 2)[:15], "refused 3 place 0"),
    ("3 fifteen bytes of version 2, no subject", with_user(sample()[:5] + b"\0" + sample()[6:], 2)[:15], "refused 3 place 0"),
    ("3 sixteen bytes of version 2", with_user(sample(), 2)[:16], "refused 3 place 0"),
    ("3 741 bytes of version 2", with_user(sample(), 2)[:741], "refused 3 place 0"),
    ("3 743 bytes of version 2", with_user(sample(), 2) + b"\0", "refused 3 place 0"),
    ("4 user 6 of 6", with_user(sample(), 6), "refused 4 place 0"),
    ("4 user 255", with_user(sample(), 255), "refused 4 place 0"),
    ("4 user 6 of 6, sixteen bytes", with_user(sample(), 6)[:16], "refused 4 place 0"),
    ("5 owner 6 of 6, U as user", with_user(sample()[:15] + b"\6" + sample()[16:], 2), "refused 5 place 0"),
    ("11 last link, U as user", with_user(sample()[:740] + b"\1", 2), "refused 11 place 71"),
    ("the longest file of version 2, 11,968 bytes", with_user(longest(), 15), "accepted"),
    ("3 11,967 bytes of version 2", with_user(longest(), 15)[:-1], "refused 3 place 0"),
    ("3 11,969 bytes of version 2", with_user(longest(), 15) + b"\0", "refused 3 place 0"),
]


def changed(data, length, edits):
    file = bytearray(data[:length].ljust(length, b"\0"))
    for at, value in edits.items():
        if at < length:
            file[at] = value
    return bytes(file)


# a join of every pair of the file, and one pair more than a node may name; the longest file of version 3, with pairs that no node names
EIGHT = houses(pairs=((0, 3), (1, 4)) * 4)
NINE = houses(pairs=((0, 3),) * 9)
LONGEST_OF_3 = with_pairs(longest(), 15, {}, ((255, 64),) * 255)
# where the join of the houses stands, and the pairs
AT, PAIRS = 275, 365


def join(**fields):
    """Changes to the join, by the name of a field; to the attributes of the pairs, as p0 to p3."""
    places = {"kind": 0, "x": 3, "y": 4, "set": 15, "needed": 23, "first": 28, "count": 29, "p0": 90, "p1": 91, "p2": 92, "p3": 93}
    return {AT + places[field]: value for field, value in fields.items()}


# version 3, with pairs: name, changes to the houses, what document 01 and ticket 2026-05 say
HOUSES = [
    ("harvest and climate by house and cycle, 569 bytes", {}, "accepted"),
    ("neither pair needed", join(needed=0), "accepted"),
    ("both pairs needed", join(needed=0b011011), "accepted"),
    ("the first pair alone", join(count=1), "accepted"),
    ("the second pair alone, the first then means nothing", join(first=1, count=1, needed=0, p0=255, p1=0), "accepted"),
    ("a pair twice", join(p2=0, p3=3), "accepted"),
    ("two pairs that share the house, all three needed", join(p2=0, needed=0b011001), "accepted"),
    ("3 a pair less than counted", {16: 3}, "refused 3 place 0"),
    ("3 a pair more than counted", {16: 1}, "refused 3 place 0"),
    ("4 user 5 of 5", {15: 5}, "refused 4 place 0"),
    ("5 owner 5 of 5 in version 3", {17: 5}, "refused 5 place 0"),
    ("8 kind 10 in version 3, with nothing else wrong", {335: 10, 338: 255, 350: 0}, "refused 8 place 4"),
    ("8 no pair named", join(count=0), "refused 8 place 2"),
    ("8 the last pair past the list", join(first=1), "refused 8 place 2"),
    ("8 the first pair past the list", join(first=2, count=1), "refused 8 place 2"),
    ("8 first and count past a byte", join(first=255, count=2), "refused 8 place 2"),
    ("8 x of a join on pairs", join(x=0), "refused 8 place 2"),
    ("8 y of a join on pairs", join(y=3), "refused 8 place 2"),
    ("8 set of a join on pairs", join(set=1), "refused 8 place 2"),
    ("8 a leaf's first pair", {215 + 28: 1}, "refused 8 place 0"),
    ("8 a leaf's number of pairs", {215 + 29: 1}, "refused 8 place 0"),
    ("8 a select's number of pairs", {305 + 29: 1}, "refused 8 place 3"),
    ("9 left's and right's exchanged", join(p0=3, p1=0), "refused 9 place 2"),
    ("9 left's attribute visible on the right alone", join(p2=4), "refused 9 place 2"),
    ("9 right's attribute visible on the left alone", join(p3=1), "refused 9 place 2"),
    ("9 attribute 6 of 6 in a pair", join(p1=6), "refused 9 place 2"),
    ("9 attribute 64 in a pair", join(p0=64), "refused 9 place 2"),
    ("9 attribute 255 in a pair", join(p3=255), "refused 9 place 2"),
    ("10 half a pair, left's", join(needed=0b000001), "refused 10 place 2"),
    ("10 half a pair, right's", join(needed=0b010000), "refused 10 place 2"),
    ("10 a whole pair and half of the other", join(needed=0b001011), "refused 10 place 2"),
    ("10 half of each", join(needed=0b010001), "refused 10 place 2"),
    ("10 needed outside the pairs", join(needed=0b001101), "refused 10 place 2"),
    ("10 needed of a pair that is not named", join(count=1, needed=0b010010), "refused 10 place 2"),
    ("10 two pairs that share the house, one of them needed", join(p2=0), "refused 10 place 2"),
    ("8 before 9 of a join on pairs", join(count=0, p0=9), "refused 8 place 2"),
    ("9 before 10 of a join on pairs", join(p0=3, needed=1), "refused 9 place 2"),
]
WITH_PAIRS = [
    ("eight pairs", EIGHT, "accepted"),
    ("8 nine pairs", NINE, "refused 8 place 2"),
    ("8 kind 9 in version 2", with_user(changed(sample(), 741, {369: 9, 372: 255, 373: 255}), 2), "refused 8 place 3"),
    ("the sample night in version 3, no pairs", with_pairs(sample(), 2, {}, ()), "accepted"),
    ("the sample night in version 3, pairs that no node names", with_pairs(sample(), 2, {}, ((0, 4), (99, 200))), "accepted"),
    ("2 sixteen bytes of version 259", b"AXP\1\3" + houses()[5:16], "refused 2 place 0"),
    ("3 sixteen bytes of version 3", houses()[:16], "refused 3 place 0"),
    ("3 sixteen bytes of version 3, no subject", changed(houses(), 16, {5: 0}), "refused 3 place 0"),
    ("3 seventeen bytes of version 3", houses()[:17], "refused 3 place 0"),
    ("4 seventeen bytes of version 3, no subject", changed(houses(), 17, {5: 0}), "refused 4 place 0"),
    ("3 568 bytes of version 3", houses()[:-1], "refused 3 place 0"),
    ("3 570 bytes of version 3", houses() + b"\0", "refused 3 place 0"),
    ("the longest file of version 3, 12,607 bytes", LONGEST_OF_3, "accepted"),
    ("3 12,606 bytes of version 3", LONGEST_OF_3[:-1], "refused 3 place 0"),
    ("3 12,608 bytes of version 3", LONGEST_OF_3 + b"\0", "refused 3 place 0"),
]


def on_day(days, subject=4):
    """Harvest and climate in version 4, on day 100, with these days of grants, and its grant 4 to this subject."""
    file = with_days(houses(), 100, days)
    return changed(file, len(file), {19 + 2 * 9 + 4 * 22 + 1: subject})


LONGEST_OF_4 = with_days(LONGEST_OF_3, 65535, {})
WITH_DAYS = [
    ("harvest and climate, grants of every day", on_day({}), "accepted"),
    ("harvest and climate, the owners' grants of day 100 alone", on_day({0: (100, 100), 6: (100, 100)}), "accepted"),
    ("two grants for a pair, before day 100 and from it on", on_day({3: (0, 99), 4: (100, 300)}, 3), "accepted"),
    ("two grants for a pair, the later days first", on_day({3: (100, 300), 4: (0, 99)}, 3), "accepted"),
    ("6 two grants for a pair, both on day 100", on_day({3: (0, 100), 4: (100, 300)}, 3), "refused 6 place 4"),
    ("6 two grants for a pair, the later days first, both on day 256", on_day({3: (256, 300), 4: (0, 256)}, 3), "refused 6 place 4"),
    ("6 two grants for a pair on other days than 100", on_day({3: (7, 9), 4: (8, 8)}, 3), "refused 6 place 4"),
    ("6 a first day after the last", on_day({3: (300, 299)}), "refused 6 place 3"),
    ("7 the owner's grant ended on day 99", on_day({0: (0, 99)}), "refused 7 place 0"),
    ("7 the second owner's grant starts on day 101", on_day({6: (101, 65535)}), "refused 7 place 1"),
    ("6 before 7, both by days", on_day({0: (0, 99), 9: (2, 1)}), "refused 6 place 9"),
    ("2 eighteen bytes of version 260", b"AXP\1\4" + on_day({})[5:18], "refused 2 place 0"),
    ("3 eighteen bytes of version 4, no subject", changed(on_day({}), 18, {5: 0}), "refused 3 place 0"),
    ("4 nineteen bytes of version 4, no subject", changed(on_day({}), 19, {5: 0}), "refused 4 place 0"),
    ("3 610 bytes of version 4", on_day({})[:-1], "refused 3 place 0"),
    ("the sample night in a crop cycle", cycle(190), "accepted"),
    ("6 the crop cycle's last day is the next one's first", cycle(191, 190), "refused 6 place 12"),
    ("the longest file of version 4, 13,697 bytes", LONGEST_OF_4, "accepted"),
    ("3 13,696 bytes of version 4", LONGEST_OF_4[:-1], "refused 3 place 0"),
]


# the entries, by the number that a case has
CHECK, CHEAPEST, OFFERED, WHY, REWRITE = range(5)
WIDE = (64, 128, 128)
EXACT = (6, 12, 12)


def allowed(file, steps):
    return file[:11] + struct.pack(">I", steps) + file[15:]


# the sample night with its join as one on the pair of S and C, U as user
ON_ONE_PAIR = with_pairs(changed(sample(), 741, {369: 9, 372: 255, 373: 255}), 2, {3: (0, 1)}, ((0, 4),))
# name, file, lengths of the rooms for choice, plan and keys, what document 01 says of the cheapest choice
CHEAPESTS = [
    ("cheapest, 76 steps allowed", sample(), WIDE, "total 14 steps 76"),
    ("cheapest, 75 steps allowed", allowed(sample(), 75), WIDE, "refused 13 place 0"),
    ("cheapest, no step allowed", allowed(sample(), 0), WIDE, "refused 13 place 0"),
    ("cheapest, rooms just long enough", sample(), EXACT, "total 14 steps 76"),
    ("cheapest of a leaf alone, no step allowed", allowed(alone([(0, 0, 1, 0)]), 0), (1, 2, 2), "total 0 steps 0"),
    ("cheapest of the longest file, 12,288 steps allowed", allowed(longest(), 12288), WIDE, "total 15048000000 steps 12288"),
    ("cheapest of the longest file, 12,287 steps allowed", allowed(longest(), 12287), WIDE, "refused 13 place 0"),
    ("12 nobody may join", parted(), WIDE, "refused 12 place 2"),
    ("12 before 13 and 15", allowed(parted(), 0), (0, 0, 0), "refused 12 place 2"),
    ("13 before 15", allowed(sample(), 75), (0, 0, 0), "refused 13 place 0"),
    ("15 choice", sample(), (5, 12, 12), "refused 15 place 1"),
    ("15 plan", sample(), (6, 11, 12), "refused 15 place 2"),
    ("15 keys", sample(), (6, 12, 11), "refused 15 place 3"),
    ("15 choice before keys", sample(), (0, 128, 0), "refused 15 place 1"),
    ("cheapest, U as user, who may not have B", with_user(sample(), 2), EXACT, "total 14 steps 76"),
    ("17 H as user", with_user(sample(), 0), WIDE, "refused 17 place 2"),
    ("17 I as user", with_user(sample(), 1), WIDE, "refused 17 place 0"),
    ("17 X as user", with_user(sample(), 3), WIDE, "refused 17 place 0"),
    ("17 Y as user", with_user(sample(), 4), WIDE, "refused 17 place 0"),
    ("17 Z as user", with_user(sample(), 5), WIDE, "refused 17 place 0"),
    ("17 who sees every leaf but one sealed", with_user(longest(), 15), WIDE, "refused 17 place 0"),
    ("17 before 12, nobody may join", with_user(parted(), 0), WIDE, "refused 17 place 1"),
    ("17 before 13 and 15", with_user(allowed(sample(), 0), 0), (0, 0, 0), "refused 17 place 2"),
    ("11 before 17", with_user(sample()[:740] + b"\1", 0), WIDE, "refused 11 place 71"),
    ("13 after 17, U as user", with_user(allowed(sample(), 75), 2), WIDE, "refused 13 place 0"),
    ("15 after 17, U as user", with_user(sample(), 2), (6, 12, 11), "refused 15 place 3"),
    ("cheapest by house and cycle", houses(), (5, 10, 12), "total 23 steps 20"),
    ("cheapest by house and cycle, neither needed", changed(houses(), 569, join(needed=0)), WIDE, "total 23 steps 20"),
    ("13 by house and cycle, 19 steps allowed", allowed(houses(), 19), WIDE, "refused 13 place 0"),
    ("17 the grower asks for the climate", houses(user=0), WIDE, "refused 17 place 1"),
    ("17 the laboratory asks for the harvest", houses(user=1), WIDE, "refused 17 place 0"),
    ("15 plan by house and cycle", houses(), (5, 9, 12), "refused 15 place 2"),
    ("cheapest, the sample's join as a join on one pair", ON_ONE_PAIR, EXACT, "total 14 steps 76"),
    ("cheapest by house and cycle, the first machine's last day", on_day({3: (0, 100), 8: (99, 100)}), WIDE, "total 23 steps 20"),
    ("17 the adviser's grant ended on day 99", on_day({2: (0, 99)}), WIDE, "refused 17 place 0"),
    ("cheapest the day before the crop cycle, where any serves Y", cycle(99), EXACT, "total 22 steps 54"),
    ("cheapest on the crop cycle's last day", cycle(190), EXACT, "total 14 steps 76"),
    ("cheapest the day after", cycle(191), EXACT, "total 22 steps 71"),
    ("cheapest of a leaf alone, its owner as user", with_user(allowed(alone([(0, 0, 1, 0)]), 0), 0), (1, 2, 2), "total 0 steps 0"),
]
# the same with the offered choice before the rooms
SAMPLE_CHOICE = bytes([0, 0, 1, 3, 3, 4])
OFFERS = [
    ("offered, the cheapest", sample(), SAMPLE_CHOICE, WIDE, "total 14"),
    ("offered, a dearer one", sample(), bytes([0, 1, 1, 3, 3, 4]), WIDE, "total 18"),
    ("offered, steps are not asked", allowed(sample(), 0), SAMPLE_CHOICE, WIDE, "total 14"),
    ("offered, no room for the choice", sample(), SAMPLE_CHOICE, (0, 12, 12), "total 14"),
    ("offered, a leaf alone", alone([(0, 0, 1, 0)]), bytes([0]), (0, 2, 2), "total 0"),
    ("14 five subjects", sample(), bytes([0, 0, 1, 3, 3]), WIDE, "refused 14 place 6"),
    ("14 seven subjects", sample(), bytes([0, 0, 1, 3, 3, 4, 4]), WIDE, "refused 14 place 6"),
    ("14 no candidate", sample(), bytes([0, 0, 1, 1, 3, 4]), WIDE, "refused 14 place 3"),
    ("14 not the owner", sample(), bytes([1, 0, 1, 3, 3, 4]), WIDE, "refused 14 place 0"),
    ("14 second leaf, not the owner", sample(), bytes([0, 0, 0, 3, 3, 4]), WIDE, "refused 14 place 2"),
    ("14 subject 6 of 6", sample(), bytes([0, 6, 1, 3, 3, 4]), WIDE, "refused 14 place 1"),
    ("14 subject 255", sample(), bytes([0, 255, 1, 3, 3, 4]), WIDE, "refused 14 place 1"),
    ("14 where 12 is not asked", parted(), bytes([0, 1, 0]), WIDE, "refused 14 place 2"),
    ("14 before 15", sample(), bytes(5), (0, 0, 0), "refused 14 place 6"),
    ("15 plan, offered", sample(), SAMPLE_CHOICE, (0, 11, 11), "refused 15 place 2"),
    ("15 keys, offered", sample(), SAMPLE_CHOICE, (0, 12, 11), "refused 15 place 3"),
    ("offered, U as user", with_user(sample(), 2), SAMPLE_CHOICE, WIDE, "total 14"),
    ("offered, the grower joins by house and cycle", houses(), bytes([0, 1, 0, 1, 1]), WIDE, "total 24"),
    ("offered, the first machine on its first day", on_day({3: (100, 200)}), bytes([0, 1, 3, 1, 1]), WIDE, "total 23"),
    ("14 the first machine, a day early", on_day({3: (101, 200)}), bytes([0, 1, 3, 1, 1]), WIDE, "refused 14 place 2"),
    ("14 who sees half of the cycle in clear", houses(), bytes([0, 1, 4, 1, 1]), WIDE, "refused 14 place 2"),
    ("offered, the sample's join as a join on one pair", ON_ONE_PAIR, SAMPLE_CHOICE, WIDE, "total 14"),
    ("17 before 14 and 15, H as user", with_user(sample(), 0), bytes(5), (0, 0, 0), "refused 17 place 2"),
    ("17 where 12 and 13 are not asked", with_user(allowed(parted(), 0), 1), bytes([0, 1, 0]), WIDE, "refused 17 place 0"),
    ("14 after 17, U as user", with_user(sample(), 2), bytes(5), WIDE, "refused 14 place 6"),
]
# name, file, node, subject, what document 01 and ticket 2026-01 say of why the subject is out
WHYS = [
    ("why, I at the join", sample(), 3, 1, "result 3 0,4"),
    ("why, X at the join", sample(), 3, 3, "candidate"),
    ("why, I at the aggregate", sample(), 4, 1, "left 3 0,4"),
    ("why, H at the root", sample(), 5, 0, "left 1 5"),
    ("why, I at the root", sample(), 5, 1, "left 3 0,4"),
    ("why, U at the root", sample(), 5, 2, "candidate"),
    ("why, X at the root", sample(), 5, 3, "left 1 5"),
    ("why, Y at the root", sample(), 5, 4, "candidate"),
    ("why, Z at the root", sample(), 5, 5, "left 1 5"),
    ("why, the left one's owner where nobody may join", parted(), 2, 0, "right 2 1"),
    ("why, the right one's owner where nobody may join", parted(), 2, 1, "left 2 0"),
    ("why, a join, who sees what it needs and each tied set alike", reasons(), 5, 0, "candidate"),
    ("why, a join, the left one's attribute sealed", reasons(), 5, 1, "left 1 0"),
    ("why, a join, a column of the left one unseen", reasons(), 5, 2, "left 2 1"),
    ("why, a join, half of the left one's tied set sealed", reasons(), 5, 3, "left 3 1,2"),
    ("why, a join, the right one's attribute sealed", reasons(), 5, 4, "right 1 3"),
    ("why, a join, two columns of the right one unseen", reasons(), 5, 5, "right 2 4"),
    ("why, a join, half of the right one's tied set sealed", reasons(), 5, 6, "right 3 4,5"),
    ("why, a join, who sees all in clear", reasons(), 5, 7, "candidate"),
    ("why, a comparison that ties what is seen clear and sealed", reasons(), 6, 0, "result 3 1,2,4,5"),
    ("why, who sees the house in clear and the cycle sealed", houses(), 2, 3, "candidate"),
    ("why, who sees half of the cycle in clear", houses(), 2, 4, "result 3 1,4"),
    ("why, the grower, who sees both in clear", houses(), 2, 0, "candidate"),
    ("why, the grower, who sees the warmth sealed", houses(), 3, 0, "left 1 5"),
    ("why, the first machine at the weight", houses(), 4, 3, "left 1 5"),
    ("why, the first machine, the cycle needed too", changed(houses(), 569, join(needed=0b011011)), 2, 3, "left 1 1"),
    ("why, the first machine, house with house and house with cycle", changed(houses(), 569, join(p2=0, needed=0)), 2, 3, "result 3 0,3,4"),
    ("why, I at the join on one pair", ON_ONE_PAIR, 3, 1, "result 3 0,4"),
    ("why, the first machine, whose grant ended on day 99", on_day({3: (0, 99)}), 2, 3, "left 1 0"),
    ("why, Y at the last select, the day after the crop cycle", cycle(191), 5, 4, "left 1 5"),
    ("why, Y at the join, the day before", cycle(99), 3, 4, "right 2 4"),
    ("16 a leaf", sample(), 0, 0, "refused 16 place 0"),
    ("16 the last leaf", sample(), 2, 1, "refused 16 place 2"),
    ("16 a leaf alone", alone([(0, 0, 1, 0)]), 0, 0, "refused 16 place 0"),
    ("16 node 6 of 6", sample(), 6, 0, "refused 16 place 6"),
    ("16 node 259", sample(), 259, 1, "refused 16 place 259"),
    ("16 the highest node", sample(), 4294967295, 1, "refused 16 place 4294967295"),
    ("16 subject 6 of 6", sample(), 3, 6, "refused 16 place 3"),
    ("16 subject 257", sample(), 3, 257, "refused 16 place 3"),
    ("16 the highest subject", sample(), 3, 4294967295, "refused 16 place 3"),
    ("16 neither node nor subject", sample(), 7, 8, "refused 16 place 7"),
    ("3 before 16", sample()[:-1], 0, 0, "refused 3 place 0"),
    ("why, I at the join, where X asked", with_user(sample(), 3), 3, 1, "result 3 0,4"),
]
# room for any file
LONGEST = 13697
# name, file, length of the room, what ticket 2026-04 says of the file written again from its values; all else in the room has to stay
REWRITES = [
    ("rewritten, the sample night", sample(), LONGEST, "741 bytes"),
    ("rewritten, 741 bytes of room", sample(), 741, "741 bytes"),
    ("rewritten, a byte more of room", sample(), 742, "741 bytes"),
    ("15 740 bytes of room", sample(), 740, "refused 15 place 4"),
    ("15 no room", sample(), 0, "refused 15 place 4"),
    ("rewritten, U as user", with_user(sample(), 2), LONGEST, "742 bytes"),
    ("15 741 bytes of room, U as user", with_user(sample(), 2), 741, "refused 15 place 4"),
    ("rewritten, all nine kinds", all_kinds(), 590, "590 bytes"),
    ("rewritten, a leaf alone", alone([(0, 0, 1, 0)]), 78, "78 bytes"),
    ("rewritten, the longest file", longest(), 11967, "11967 bytes"),
    ("rewritten, the longest file of version 2", with_user(longest(), 15), 11968, "11968 bytes"),
    ("15 11,967 bytes of room for 11,968", with_user(longest(), 15), 11967, "refused 15 place 4"),
    ("rewritten, harvest and climate", houses(), 569, "569 bytes"),
    ("15 568 bytes of room, harvest and climate", houses(), 568, "refused 15 place 4"),
    ("rewritten, the longest file of version 3", LONGEST_OF_3, LONGEST, "12607 bytes"),
    ("15 12,606 bytes of room for 12,607", LONGEST_OF_3, 12606, "refused 15 place 4"),
    ("rewritten, harvest and climate, with days", on_day({3: (7, 300), 4: (301, 302)}, 3), 611, "611 bytes"),
    ("15 610 bytes of room, with days", on_day({}), 610, "refused 15 place 4"),
    ("rewritten, 6 both on day 100, before 15", on_day({3: (0, 100), 4: (100, 300)}, 3), 0, "refused 6 place 4"),
    ("rewritten, the longest file of version 4", LONGEST_OF_4, LONGEST, "13697 bytes"),
    ("15 13,696 bytes of room for 13,697", LONGEST_OF_4, 13696, "refused 15 place 4"),
    ("rewritten, 8 the last pair past the list", changed(houses(), 569, join(first=1)), LONGEST, "refused 8 place 2"),
    ("rewritten, 9 left's and right's exchanged", changed(houses(), 569, join(p0=3, p1=0)), LONGEST, "refused 9 place 2"),
    ("rewritten, 10 half a pair", changed(houses(), 569, join(needed=1)), 0, "refused 10 place 2"),
    ("rewritten, where 12 is not asked", parted(), 193, "193 bytes"),
    ("rewritten, where 13 is not asked", allowed(sample(), 0), 741, "741 bytes"),
    ("rewritten, where 17 is not asked", with_user(sample(), 0), 742, "742 bytes"),
    ("rewritten, 3 740 bytes", sample()[:740], LONGEST, "refused 3 place 0"),
    ("rewritten, 3 742 bytes", sample() + b"\0", LONGEST, "refused 3 place 0"),
    ("rewritten, 3 before 5", changed(sample(), 740, {15: 6}), LONGEST, "refused 3 place 0"),
    ("rewritten, 4 user 6 of 6", with_user(sample(), 6), LONGEST, "refused 4 place 0"),
    ("rewritten, 6 sealed outside the relation", changed(sample(), 741, {176: 33}), LONGEST, "refused 6 place 7"),
    ("rewritten, 6 before 15", changed(sample(), 741, {176: 33}), 740, "refused 6 place 7"),
    ("rewritten, 8 third spare byte", changed(sample(), 741, {348: 1}), LONGEST, "refused 8 place 2"),
    ("rewritten, 11 last link, U as user", with_user(changed(sample(), 741, {740: 1}), 2), LONGEST, "refused 11 place 71"),
    ("rewritten, 11 before 15", changed(sample(), 741, {740: 1}), 0, "refused 11 place 71"),
]


def case(name, entry, rooms, offer, file):
    parts = [struct.pack(">B", len(name)), name.encode(), struct.pack(">BBBBB", entry, *rooms, len(offer)), offer]
    return b"".join(parts + [struct.pack(">H", len(file)), file])


def first_of_each(cases):
    """Of each number of refusal the first figure, with the file that is refused so."""
    seen = set()
    for name, file, said in cases:
        if said.split()[0] == "refused" and said.split()[1] not in seen:
            seen.add(said.split()[1])
            yield name, file, said


def main():
    cases = [(name, changed(sample(), length, edits), said) for name, length, edits, said in FIGURES]
    cases += [(name, changed(all_kinds(), len(all_kinds()), edits), said) for name, edits, said in KINDS]
    cases += OTHERS + WITH_USER + [(name, changed(houses(), 569, edits), said) for name, edits, said in HOUSES] + WITH_PAIRS + WITH_DAYS
    refused = list(first_of_each(cases))
    with open("crates/facts/stdin", "wb") as given, open("crates/facts/stdout", "w", encoding="ascii") as expected:
        for name, file, said in cases:
            given.write(case(name, CHECK, (0, 0, 0), b"", file))
            grants = (22 if file[4:5] == b"\4" else 18) * int.from_bytes(file[9:11], "big") if said == "accepted" else 0
            expected.write("%s: %s, %d bytes of grants\n" % (name, said, grants))
        for name, file, rooms, said in CHEAPESTS + [("cheapest, " + name, file, WIDE, said) for name, file, said in refused]:
            given.write(case(name, CHEAPEST, rooms, b"", file))
            expected.write("%s: %s, rooms kept\n" % (name, said))
        for name, file, offer, rooms, said in OFFERS + [("offered, " + name, file, SAMPLE_CHOICE, WIDE, said) for name, file, said in refused]:
            given.write(case(name, OFFERED, rooms, offer, file))
            expected.write("%s: %s, rooms kept\n" % (name, said))
        for name, file, node, subject, said in WHYS + [("why, " + name, file, 0, 0, said) for name, file, said in refused]:
            given.write(case(name, WHY, (0, 0, 0), struct.pack(">II", node, subject), file))
            expected.write("%s: %s\n" % (name, said))
        lent = [("rewritten, ", LONGEST), ("rewritten in no room, ", 0)]
        for name, file, room, said in REWRITES + [(how + name, file, room, said) for how, room in lent for name, file, said in refused]:
            given.write(case(name, REWRITE, (0, 0, 0), struct.pack(">I", room), file))
            expected.write("%s: %s, rooms kept\n" % (name, said))


if __name__ == "__main__":
    main()
