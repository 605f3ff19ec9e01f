#!/usr/bin/env python3
"""Writes document 01's sample night as samples/night.axp, with U as user as samples/night2.axp, and in the specs as a list of bytes and as
values; samples/reasons.axp; samples/houses.axp, a join on two pairs; and samples/cycle99.axp, cycle190.axp and cycle191.axp, a grant for one crop
cycle.
The files of the specs are laid out by `rt fmt` afterwards.

Run from the repository's root. The grants are those of figure 4 of source document 004.
"""
import struct

ATTRIBUTES = "SBDTCP"
SUBJECTS = "HIUXYZ"
ANY = 255
NONE = 255
# relation: owner, attributes, and for each subject (* is any) what is seen in clear and sealed
RELATIONS = [
    ("H", "SBDT", "H SBDT - I B SDT U SDT - X DT S Y BDT S Z ST D * DT -"),
    ("I", "CP", "H C P I CP - U CP - X - CP Y P C Z C P * - P"),
]
LEAF, PROJECT, SELECT, COMPARE, PRODUCT, JOIN, AGGREGATE, COUNT, FUNCTION, JOIN_ON_PAIRS = range(10)
# kind, left, right, x, y, set, needed, size
NODES = [
    (LEAF, NONE, NONE, 0, NONE, "SDT", "", 4),
    (SELECT, 0, NONE, "D", NONE, "", "", 2),
    (LEAF, NONE, NONE, 1, NONE, "CP", "", 4),
    (JOIN, 1, 2, "S", "C", "", "", 3),
    (AGGREGATE, 3, NONE, "P", NONE, "T", "", 1),
    (SELECT, 4, NONE, "P", NONE, "", "P", 1),
]
STEP_PRICES = [3, 3, 10, 1, 2, 1]
LINK_PRICE = 1
STEPS_ALLOWED = 76
# who asks for samples/night2.axp
USER = "U"
# the crop cycle for which Y's grant on INS is in force in samples/cycle99.axp, cycle190.axp and cycle191.axp, and the nights of these
FIRST_DAY, LAST_DAY = 100, 190
CYCLE_NIGHTS = (99, 190, 191)


def bits(names):
    return sum(1 << ATTRIBUTES.index(name) for name in names if name != "-")


def number(field):
    return ATTRIBUTES.index(field) if isinstance(field, str) else field


def grants():
    for r, (_, _, row) in enumerate(RELATIONS):
        words = row.split()
        for who, clear, sealed in zip(words[0::3], words[1::3], words[2::3]):
            subject = ANY if who == "*" else SUBJECTS.index(who)
            yield (r, subject, bits(clear), bits(sealed))


def file_of(s, a, relations, granted, nodes, step_prices, link_price):
    """The bytes of a plan file; a node is kind, left, right, x, y, set, needed, size."""
    parts = [b"AXP", struct.pack(">HBBBBHI", 1, s, len(relations), a, len(nodes), len(granted), STEPS_ALLOWED)]
    parts += [struct.pack(">BQ", *relation) for relation in relations]
    parts += [struct.pack(">BBQQ", *grant) for grant in granted]
    parts += [struct.pack(">BBBBB3xQQI", *node) for node in nodes]
    for node in nodes:
        parts.append(struct.pack(">%dI" % s, *([0] * s if node[0] == LEAF else step_prices)))
    for sender in range(s):
        parts.append(struct.pack(">%dI" % s, *(0 if to == sender else link_price for to in range(s))))
    return b"".join(parts)


def with_user(data, user):
    """A file of version 1 in version 2, with a user after the steps allowed."""
    return data[:3] + struct.pack(">H", 2) + data[5:15] + bytes([user]) + data[15:]


def with_pairs(data, user, named, pairs):
    """A file of version 1 in version 3: with a user, with pairs between the nodes and the prices, and for each node the first pair that it names
    and how many."""
    start = 15 + 9 * data[6] + 18 * int.from_bytes(data[9:11], "big")
    prices = start + 28 * data[8]
    parts = [data[:3], struct.pack(">H", 3), data[5:15], bytes([user, len(pairs)]), data[15:start]]
    parts += [data[at : at + 28] + bytes(named.get(i, (0, 0))) for i, at in enumerate(range(start, prices, 28))]
    return b"".join(parts + [bytes(pair) for pair in pairs] + [data[prices:]])


def with_days(data, day, days):
    """A file of version 3 in version 4: with the night's day behind the number of pairs, and behind each grant its first and last day, every day where
    none are given."""
    start = 17 + 9 * data[6]
    nodes = start + 18 * int.from_bytes(data[9:11], "big")
    parts = [data[:3], struct.pack(">H", 4), data[5:17], struct.pack(">H", day), data[17:start]]
    parts += [data[at : at + 18] + struct.pack(">HH", *days.get(i, (0, 65535))) for i, at in enumerate(range(start, nodes, 18))]
    return b"".join(parts + [data[nodes:]])


def sample(granted=None):
    """The sample night, or the same with other grants."""
    relations = [(SUBJECTS.index(owner), bits(names)) for owner, names, _ in RELATIONS]
    nodes = [(k, left, right, number(x), number(y), bits(held), bits(needed), size) for k, left, right, x, y, held, needed, size in NODES]
    return file_of(len(SUBJECTS), len(ATTRIBUTES), relations, granted or list(grants()), nodes, STEP_PRICES, LINK_PRICE)


def cycle(day, after=LAST_DAY + 1):
    """The sample night in version 4, asked for by U: Y's grant on INS is for one crop cycle, and from the day `after` on Y has both columns sealed."""
    granted, of_y = list(grants()), (1, SUBJECTS.index("Y"))
    at = [grant[:2] for grant in granted].index(of_y)
    granted.insert(at + 1, (*of_y, 0, bits("CP")))
    return with_days(with_pairs(sample(granted), SUBJECTS.index(USER), {}, ()), day, {at: (FIRST_DAY, LAST_DAY), at + 1: (after, 65535)})


def all_kinds():
    """A night with every kind of node, an owner that is served by any, and a grant of two empty sets."""
    relations = [(0, 0b111), (1, 0b11000), (2, 0b11100000)]
    granted = [(0, 0, 0b111, 0), (0, 1, 0, 0), (1, 1, 0b11000, 0), (2, ANY, 0b11100000, 0)]
    nodes = [
        (LEAF, NONE, NONE, 0, NONE, 0b111, 0, 9),
        (PROJECT, 0, NONE, NONE, NONE, 0b11, 0, 9),
        (COMPARE, 1, NONE, 0, 1, 0, 0, 9),
        (LEAF, NONE, NONE, 1, NONE, 0b11000, 0, 9),
        (PRODUCT, 2, 3, NONE, NONE, 0, 0, 9),
        (LEAF, NONE, NONE, 2, NONE, 0b11100000, 0, 9),
        (JOIN, 4, 5, 3, 5, 0, 0, 9),
        (FUNCTION, 6, NONE, 6, NONE, 0b1010000, 0, 9),
        (SELECT, 7, NONE, 7, NONE, 0, 0, 9),
        (AGGREGATE, 8, NONE, 6, NONE, 0b11, 0, 9),
        (COUNT, 9, NONE, NONE, NONE, 0b1000001, 0, 9),
    ]
    return file_of(3, 8, relations, granted, nodes, [5, 6, 7], 1)


def alone(granted):
    """One leaf alone, of a relation with one attribute."""
    return file_of(1, 1, [(0, 1)], granted, [(LEAF, NONE, NONE, 0, NONE, 1, 0, 0)], [0], 0)


def parted():
    """Two owners who see nothing of each other's, and a join of their relations: nobody may run it."""
    nodes = [(LEAF, NONE, NONE, 0, NONE, 1, 0, 1), (LEAF, NONE, NONE, 1, NONE, 2, 0, 1), (JOIN, 0, 1, 0, 1, 0, 0, 1)]
    return file_of(2, 2, [(0, 1), (1, 2)], [(0, 0, 1, 0), (1, 1, 2, 0)], nodes, [1, 1], 1)


def reasons():
    """Two owners, 0 and 1, and six more subjects: at the join, which needs its attributes, each has another reason to be out, or none."""
    relations = [(0, 0b000111), (1, 0b111000)]
    granted = [
        (0, 0, 0b000111, 0),
        (0, 1, 0, 0b000111),
        (0, 2, 0b000001, 0),
        (0, 3, 0b000011, 0b000100),
        (0, ANY, 0b000111, 0),
        (1, 0, 0b001000, 0b110000),
        (1, 1, 0b111000, 0),
        (1, 4, 0, 0b111000),
        (1, 5, 0b001000, 0),
        (1, 6, 0b011000, 0b100000),
        (1, 7, 0b111000, 0),
    ]
    nodes = [
        (LEAF, NONE, NONE, 0, NONE, 0b000111, 0, 4),
        (COMPARE, 0, NONE, 1, 2, 0, 0, 2),
        (PROJECT, 1, NONE, NONE, NONE, 0b000011, 0, 2),
        (LEAF, NONE, NONE, 1, NONE, 0b111000, 0, 4),
        (COMPARE, 3, NONE, 4, 5, 0, 0, 2),
        (JOIN, 2, 4, 0, 3, 0, 0b001001, 2),
        (COMPARE, 5, NONE, 1, 4, 0, 0, 1),
    ]
    return file_of(8, 6, relations, granted, nodes, [3, 3, 3, 3, 3, 3, 3, 5], 1)


# the houses: attributes house, cycle, weight of the grower's harvest and house, cycle, temperature of the laboratory's climate; subjects grower,
# laboratory, adviser, and two rented machines
HOUSE, CYCLE, WEIGHT, PLACE, ROUND, WARMTH = (1 << k for k in range(6))


def houses(pairs=((0, 3), (1, 4)), named=None, needed=HOUSE | PLACE, user=2):
    """Harvest and climate joined on house and cycle, the house needed in clear; who was too warm, and the weight by house. The first machine sees
    the house in clear and the cycle sealed, the second sees half of the cycle in clear."""
    harvest, climate = HOUSE | CYCLE | WEIGHT, PLACE | ROUND | WARMTH
    granted = [
        (0, 0, harvest, 0),
        (0, 1, HOUSE | CYCLE, WEIGHT),
        (0, 2, harvest, 0),
        (0, 3, HOUSE, CYCLE | WEIGHT),
        (0, 4, HOUSE | CYCLE, WEIGHT),
        (1, 0, PLACE | ROUND, WARMTH),
        (1, 1, climate, 0),
        (1, 2, climate, 0),
        (1, 3, PLACE, ROUND | WARMTH),
        (1, 4, PLACE, ROUND | WARMTH),
    ]
    nodes = [
        (LEAF, NONE, NONE, 0, NONE, harvest, 0, 2),
        (LEAF, NONE, NONE, 1, NONE, climate, 0, 2),
        (JOIN_ON_PAIRS, 0, 1, NONE, NONE, 0, needed, 2),
        (SELECT, 2, NONE, 5, NONE, 0, WARMTH, 1),
        (AGGREGATE, 3, NONE, 2, NONE, HOUSE, 0, 1),
    ]
    data = file_of(5, 6, [(0, harvest), (1, climate)], granted, nodes, [4, 8, 9, 1, 1], 1)
    return with_pairs(data[:11] + struct.pack(">I", 20) + data[15:], user, {2: named or (0, len(pairs))}, pairs)


def longest():
    """Every count at its limit, all 64 bits of the sets in use: 16 leaves, 15 products over them, 33 selects on top."""
    sets = [0xF << 4 * r for r in range(16)]
    relations = [(r, sets[r]) for r in range(16)]
    granted = [(r, p, sets[r] if p == r else 0, 0 if p == r else sets[r]) for r in range(16) for p in [*range(16), ANY]]
    nodes = [(LEAF, NONE, NONE, r, NONE, sets[r], 0, 1_000_000) for r in range(16)]
    for r in range(1, 16):
        nodes.append((PRODUCT, 0 if r == 1 else len(nodes) - 1, r, NONE, NONE, 0, 0, 1_000_000))
    while len(nodes) < 64:
        nodes.append((SELECT, len(nodes) - 1, NONE, len(nodes) - 1, NONE, 0, 0, 1_000_000))
    return file_of(16, 64, relations, granted, nodes, [1_000_000] * 16, 1_000)


def as_list(data):
    rows = [data[at : at + 24] for at in range(0, len(data), 24)]
    return "\n".join("    " + " ".join("%d ∷" % byte for byte in row) for row in rows) + " []"


def value(names, fields):
    return "record { " + "; ".join("%s = %d" % pair for pair in zip(names.split(), fields)) + " }"


def rows(items):
    """A list of the specs, one item to a line."""
    return "\n          " + "\n          ∷ ".join([*items, "[]"])


def decoded():
    """The sample night's values as a record of the specs."""
    s = len(SUBJECTS)
    relations = [value("owner set", (SUBJECTS.index(owner), bits(names))) for owner, names, _ in RELATIONS]
    granted = [value("relation subject first last clear sealed", (r, who, 0, 65535, clear, sealed)) for r, who, clear, sealed in grants()]
    fields = "kind left right x y spare1 spare2 spare3 set needed size first count"
    nodes = [value(fields, (k, l, r, number(x), number(y), 0, 0, 0, bits(held), bits(needed), size, 0, 0)) for k, l, r, x, y, held, needed, size in NODES]
    steps = [[0] * s if node[0] == LEAF else STEP_PRICES for node in NODES]
    links = [[0 if to == sender else LINK_PRICE for to in range(s)] for sender in range(s)]
    lists = [[" ∷ ".join("%d" % price for price in row) + " ∷ []" for row in table] for table in (steps, links)]
    counts = (s, len(RELATIONS), len(ATTRIBUTES), len(NODES), len(granted), STEPS_ALLOWED)
    header = value("subjects relations attributes nodes grants steps", counts)
    parts = [("header", " " + header.replace("{ ", "{ version = version; ").replace(" }", "; user = user; pairs = 0; day = 0 }"))]
    for name, items in [("relations", relations), ("grants", granted), ("nodes", nodes)]:
        parts.append((name, rows(items)))
    parts.append(("pairs", " []"))
    for name, items in [("stepPrices", lists[0]), ("linkPrices", lists[1])]:
        parts.append((name, rows("(%s)" % item for item in items)))
    return "record {\n" + "".join("      %s =%s;\n" % part for part in parts) + "    }"


def main():
    data = sample()
    with open("samples/night.axp", "wb") as out:
        out.write(data)
    with open("samples/night2.axp", "wb") as out:
        out.write(with_user(data, SUBJECTS.index(USER)))
    with open("samples/reasons.axp", "wb") as out:
        out.write(reasons())
    with open("samples/houses.axp", "wb") as out:
        out.write(houses())
    for day in CYCLE_NIGHTS:
        with open("samples/cycle%d.axp" % day, "wb") as out:
            out.write(cycle(day))
    with open("crates/demands/specs/Sample.antt", "w", encoding="utf-8") as out:
        out.write(
            "-- Document 01's sample night as bytes, written by samples/night.py.\n"
            "use Prim.Native.Nat.{ℕ}\n"
            "use mathlib.Core.List.{List, [], _∷_}\n\n"
            "-- the file samples/night.axp\n"
            "unfoldable pub sample : List ℕ\n"
            "sample =\n" + as_list(data) + "\n"
        )

    with open("crates/demands/specs/SampleNight.antt", "w", encoding="utf-8") as out:
        out.write(
            "-- Document 01's sample night as values, written by samples/night.py.\n"
            "use Prim.Native.Nat.{ℕ}\n"
            "use mathlib.Core.List.{[], _∷_}\n"
            "use Rattle·night.specs.Night.{Night}\n\n"
            "-- its values in a version, with a user\n"
            "unfoldable pub sampleIn : ℕ → ℕ → Night\n"
            "sampleIn version user =\n    " + decoded() + "\n\n"
            "-- what samples/night.axp holds\n"
            "abbrev pub sampleNight : Night\n"
            "sampleNight = sampleIn 1 0\n\n"
            "-- what samples/night2.axp holds: %s, subject %d, is the user\n" % (USER, SUBJECTS.index(USER)) + "abbrev pub sampleUser : Night\n"
            "sampleUser = sampleIn 2 %d\n" % SUBJECTS.index(USER)
        )


if __name__ == "__main__":
    main()
