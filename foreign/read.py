"""Reads a ship: read.py LIBRARY FILE. Prints a line for each field."""
import sys

import harbour


def put(field, items):
    if items is not None:
        print(field, *items)


def place(pos):
    return pos.lat, pos.lon, pos.alt


harbour.load(sys.argv[1])
ship = harbour.root(open(sys.argv[2], "rb").read())
print("name", ship.name)
print("hull", ship.hull)
print("kind", int(ship.kind))
print("level", int(ship.level))
print("needs", int(ship.needs))
print("home", *place(ship.home))
print("heat", ship.heat)
print("depth", ship.depth)
print("open", int(ship.open))
print("shut", int(ship.shut))
print("maybe", ship.maybe)
put("cargo", ship.cargo)
put("track", (",".join(map(str, place(pos))) for pos in ship.track))
put("photo", ship.photo)
put("names", (f"[{name}]" for name in ship.names))
print(f"mate {ship.mate.name}, whose maybe is {'absent' if ship.mate.maybe is None else 'there'}")
put("consorts", (f"{consort.name} {consort.hull}" for consort in ship.consorts))
put("kinds", map(int, ship.kinds))
print("owner", ship.owner_tag, ship.owner.name, ship.owner.age)
print("shares", *ship.shares or ["absent"])
print("tall", ship.tall)
put("temps", ship.temps)
put("deltas", ship.deltas)
print("fix", ship.fix.when, *place(ship.fix.at), ship.fix.kind)
print("which", int(ship.which))
put("flags", map(int, ship.flags))

assert isinstance(ship.owner, harbour.Person) and ship.kind is harbour.Kind.Ship
assert ship.needs == harbour.Needs.WATER | harbour.Needs.POWER
assert ship.cargo[-1] == 30 and ship.cargo[1:] == [20, 30] and len(ship.cargo) == 3 and 20 in ship.cargo
try:
    harbour.Ship(b"").name
except harbour.Error as error:
    assert error.status == 2, error
else:
    raise AssertionError
