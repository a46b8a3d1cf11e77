"""Classes over buffers of `harbour`, by the calls of harbour.h.

`load` loads the library of these calls. Where it isn't called, the library is that whose path the
environment's HARBOUR_LIBRARY has. A table is `TABLE(buffer)`, or with the position of the reference that
leads to it, and its fields are properties: None where one is absent. No byte and no position does
harm: what can't be read raises `Error`.
"""

import collections.abc as _abc
import ctypes as _c
import enum as _enum
import os as _os

_library = None

_TEXTS = (
    "ok",
    "absent",
    "an offset leads out of the buffer",
    "a length leads out of the buffer",
    "the vectors of a union have different lengths",
    "an enum has no such value",
    "a union has no such tag",
    "a vtable has a wrong length",
    "a string isn't UTF-8",
    "a required field is missing",
    "a string doesn't end in a zero byte",
    "tables lead to tables beyond the limit",
    "more tables are reached than the limit",
)


class Error(Exception):
    """Why nothing is read."""

    def __init__(self, status):
        super().__init__(_TEXTS[status] if status < len(_TEXTS) else "no status")
        self.status = status


class _Span(_c.Structure):
    _fields_ = [("at", _c.c_size_t), ("len", _c.c_size_t)]


class _Member(_c.Structure):
    _fields_ = [("at", _c.c_size_t), ("tag", _c.c_uint8)]


def load(path):
    """Loads the library of the calls."""
    global _library
    _library = _c.CDLL(_os.fspath(path))


def _call(name):
    if _library is None:
        load(_os.environ["HARBOUR_LIBRARY"])
    return getattr(_library, name)


def _status(name, buffer, position, out, *index):
    call = _call(name)
    call.restype = _c.c_uint32
    numbers = [_c.c_size_t(number) for number in (len(buffer), position, *index)]
    return call(_c.c_char_p(buffer), *numbers, _c.byref(out))


def _maybe(name, buffer, position, reader):
    out = reader.kind()
    status = _status(name, buffer, position, out)
    if status > 1:
        raise Error(status)
    return None if status == 1 else reader.of(buffer, out)


def _surely(name, buffer, position, reader):
    found = _maybe(name, buffer, position, reader)
    if found is None:
        raise Error(9)
    return found


class _Number:
    """Each reader has the type that a call stores, and the size of an item of a vector in bytes."""

    def __init__(self, kind):
        self.kind = kind
        self.size = _c.sizeof(kind)

    def of(self, buffer, out):
        return out.value

    def at(self, buffer, position):
        return self.kind.from_buffer_copy(buffer, position).value


class _Enum:
    def __init__(self, result, kind, name):
        self.result = result
        self.kind = kind
        self.size = _c.sizeof(kind)
        self.name = name

    def of(self, buffer, out):
        return self.result(out.value)

    def at(self, buffer, position):
        return _surely(self.name, buffer, position, self)


class _Struct:
    def __init__(self, kind, name):
        self.kind = kind
        self.size = _c.sizeof(kind)
        self.name = name

    def of(self, buffer, out):
        return out

    def at(self, buffer, position):
        return _surely(self.name + "_at", buffer, position, self)

    def behind(self, buffer, position):
        return _surely(self.name + "_behind", buffer, position, self)


class _Text:
    kind = _Span
    size = 4

    def of(self, buffer, out):
        return buffer[out.at : out.at + out.len].decode()

    def at(self, buffer, position):
        return _surely("harbour_string_at", buffer, position, self)

    behind = at


class _Bytes:
    kind = _Span

    def of(self, buffer, out):
        return buffer[out.at : out.at + out.len]


class _Table:
    kind = _c.c_size_t
    size = 4

    def __init__(self, result):
        self.result = result

    def of(self, buffer, out):
        return self.at(buffer, out.value)

    def at(self, buffer, position):
        return self.result()(buffer, position)

    behind = at


class _Union:
    kind = _Member

    def __init__(self, readers):
        self.readers = readers

    def of(self, buffer, out):
        reader = self.readers().get(out.tag)
        if reader is None:
            return UnionOffset(out.tag)
        return reader.behind(buffer, out.at)


class _Tag:
    kind = _Member

    def of(self, buffer, out):
        return out.tag


class _Vector:
    kind = _Span

    def __init__(self, reader):
        self.reader = reader

    def of(self, buffer, out):
        return Vector(buffer, out, self.reader)


def _field(name, reader):
    return property(lambda table: _surely(name, table._Buffer, table._Position, reader))


def _field_if(name, reader):
    return property(lambda table: _maybe(name, table._Buffer, table._Position, reader))


def _unions(name, reader):
    return property(lambda table: UnionVector(table._Buffer, table._Position, name, reader))


class UnionOffset:
    """A union whose tag the schema doesn't have."""

    def __init__(self, tag):
        self.tag = tag


class Vector(_abc.Sequence):
    """Items that are read when they are asked for."""

    def __init__(self, buffer, span, reader):
        self._buffer = buffer
        self._span = span
        self._reader = reader

    def __len__(self):
        return self._span.len

    def __getitem__(self, index):
        numbers = range(len(self))[index]
        if isinstance(numbers, range):
            return [self._at(number) for number in numbers]
        return self._at(numbers)

    def __iter__(self):
        return map(self._at, range(len(self)))

    def _at(self, index):
        return self._reader.at(self._buffer, self._span.at + index * self._reader.size)


class UnionVector(Vector):
    """The same of unions."""

    def __init__(self, buffer, position, name, reader):
        self._buffer = buffer
        self._position = position
        self._name = name
        self._reader = reader
        most = _c.c_size_t(-1).value
        status = self._status(most, _Member())
        if status != 1:
            raise Error(status)
        self._count = 0
        while self._count < most:
            middle = (self._count + most) // 2
            if self._status(middle, _Member()) == 1:
                most = middle
            else:
                self._count = middle + 1

    def __len__(self):
        return self._count

    def tag(self, index):
        """The tag of the union at an index."""
        return self._member(range(len(self))[index]).tag

    def _at(self, index):
        return self._reader.of(self._buffer, self._member(index))

    def _member(self, index):
        out = _Member()
        status = self._status(index, out)
        if status:
            raise Error(status)
        return out

    def _status(self, index, out):
        return _status(self._name, self._buffer, self._position, out, index)


class Table:
    """A table: the position of the reference that leads to it."""

    def __init__(self, buffer, position=0):
        self._Buffer = bytes(buffer)
        self._Position = position


def sized(buffer):
    """The first of these size-prefixed buffers, after its size."""
    buffer, out = bytes(buffer), _Span()
    call = _call("harbour_sized")
    call.restype = _c.c_uint32
    status = call(_c.c_char_p(buffer), _c.c_size_t(len(buffer)), _c.byref(out))
    if status:
        raise Error(status)
    return buffer[out.at : out.at + out.len]


class Kind(_enum.IntEnum):
    Car = 0
    Bike = 1
    Ship = 2


_of_kind = _Enum(Kind, _c.c_uint8, "harbour_kind_at")


class Level(_enum.IntEnum):
    Low = -300
    Mid = 0
    High = 300


_of_level = _Enum(Level, _c.c_int16, "harbour_level_at")


class Needs(_enum.IntFlag):
    WATER = 1
    POWER = 2


_of_needs = _Enum(Needs, _c.c_uint16, "harbour_needs_at")


class Pos(_c.Structure):
    _fields_ = [
        ("lat", _c.c_int32),
        ("lon", _c.c_int32),
        ("alt", _c.c_int16),
        ("padding_3", _c.c_uint8 * 2),
    ]


assert _c.sizeof(Pos) == 12
_of_pos = _Struct(Pos, "harbour_pos")


class Fix(_c.Structure):
    _fields_ = [
        ("when", _c.c_uint64),
        ("at", Pos),
        ("kind", _c.c_uint8),
        ("padding_3", _c.c_uint8 * 3),
    ]


assert _c.sizeof(Fix) == 24
_of_fix = _Struct(Fix, "harbour_fix")


class Gauge(_c.Structure):
    _fields_ = [
        ("depth", _c.c_int32),
        ("rises", _c.c_bool),
        ("padding_2", _c.c_uint8 * 3),
    ]


assert _c.sizeof(Gauge) == 8
_of_gauge = _Struct(Gauge, "harbour_gauge")


class Signal(_enum.IntEnum):
    Alfa = 0
    Bravo = 1
    Charlie = 2
    Delta = 3
    Echo = 4
    Foxtrot = 5
    Golf = 6
    Hotel = 7
    India = 8
    Juliett = 9
    Kilo = 10
    Lima = 11
    Mike = 12
    November = 13
    Oscar = 14
    Papa = 15
    Quebec = 16
    Romeo = 17
    Sierra = 18
    Tango = 19
    Uniform = 20
    Victor = 21
    Whiskey = 22
    Xray = 23
    Yankee = 24
    Zulu = 25


_of_signal = _Enum(Signal, _c.c_int8, "harbour_signal_at")


_of_person = _Table(lambda: Person)
_of_company = _Table(lambda: Company)
_of_owner = _Union(lambda: _in_owner)
_of_ship = _Table(lambda: Ship)
_of_port = _Table(lambda: Port)
_of_manifest = _Table(lambda: Manifest)
_of_origin = _Table(lambda: Origin)
_of_cause = _Union(lambda: _in_cause)
_of_entry = _Table(lambda: Entry)


class Person(Table):
    """Tables `Person`."""

    name = _field("harbour_person_name", _Text())
    age = _field("harbour_person_age", _Number(_c.c_uint8))


class Company(Table):
    """Tables `Company`."""

    title = _field_if("harbour_company_title", _Text())
    vat = _field_if("harbour_company_vat", _Bytes())


_in_owner = {
    1: _of_person,
    2: _of_company,
}


class Ship(Table):
    """Tables `Ship`."""

    name = _field("harbour_ship_name", _Text())
    hull = _field("harbour_ship_hull", _Number(_c.c_uint16))
    cargo = _field_if("harbour_ship_cargo", _Vector(_Number(_c.c_uint32)))
    kind = _field("harbour_ship_kind", _of_kind)
    level = _field("harbour_ship_level", _of_level)
    needs = _field("harbour_ship_needs", _of_needs)
    home = _field_if("harbour_ship_home", _of_pos)
    track = _field_if("harbour_ship_track", _Vector(_of_pos))
    heat = _field("harbour_ship_heat", _Number(_c.c_float))
    depth = _field("harbour_ship_depth", _Number(_c.c_int16))
    open = _field("harbour_ship_open", _Number(_c.c_bool))
    shut = _field("harbour_ship_shut", _Number(_c.c_bool))
    maybe = _field_if("harbour_ship_maybe", _Number(_c.c_int32))
    photo = _field_if("harbour_ship_photo", _Bytes())
    names = _field_if("harbour_ship_names", _Vector(_Text()))
    mate = _field_if("harbour_ship_mate", _of_ship)
    consorts = _field_if("harbour_ship_consorts", _Vector(_of_ship))
    kinds = _field_if("harbour_ship_kinds", _Vector(_of_kind))
    owner = _field_if("harbour_ship_owner", _of_owner)
    owner_tag = _field_if("harbour_ship_owner", _Tag())
    shares = _unions("harbour_ship_shares", _of_owner)
    tall = _field("harbour_ship_tall", _Number(_c.c_int64))
    temps = _field_if("harbour_ship_temps", _Vector(_Number(_c.c_double)))
    deltas = _field_if("harbour_ship_deltas", _Vector(_Number(_c.c_int8)))
    fix = _field("harbour_ship_fix", _of_fix)
    which = _field_if("harbour_ship_which", _of_kind)
    flags = _field_if("harbour_ship_flags", _Vector(_Number(_c.c_bool)))


class Port(Table):
    """Tables `Port`."""

    owner = _field("harbour_port_owner", _of_owner)
    owner_tag = _field_if("harbour_port_owner", _Tag())
    ships = _field("harbour_port_ships", _Vector(_of_ship))
    berths = _field("harbour_port_berths", _Vector(_Text()))
    shares = _unions("harbour_port_shares", _of_owner)
    soundings = _field("harbour_port_soundings", _Vector(_Number(_c.c_uint16)))
    chart = _field("harbour_port_chart", _Bytes())
    gauge = _field_if("harbour_port_gauge", _of_gauge)
    hoisted = _field("harbour_port_hoisted", _of_signal)


class Manifest(Table):
    """Tables `Manifest`."""

    number = _field("harbour_manifest_number", _Number(_c.c_uint64))
    issued = _field("harbour_manifest_issued", _Number(_c.c_int64))
    weight = _field("harbour_manifest_weight", _Number(_c.c_double))
    worth = _field("harbour_manifest_worth", _Number(_c.c_float))
    boxes = _field("harbour_manifest_boxes", _Number(_c.c_uint32))
    debt = _field("harbour_manifest_debt", _Number(_c.c_int32))
    pages = _field("harbour_manifest_pages", _Number(_c.c_uint16))
    shift = _field("harbour_manifest_shift", _Number(_c.c_int16))
    tier = _field("harbour_manifest_tier", _Number(_c.c_uint8))
    lean = _field("harbour_manifest_lean", _Number(_c.c_int8))
    sealed = _field("harbour_manifest_sealed", _Number(_c.c_bool))
    opened = _field("harbour_manifest_opened", _Number(_c.c_bool))
    kind = _field("harbour_manifest_kind", _of_kind)
    level = _field("harbour_manifest_level", _of_level)
    needs = _field("harbour_manifest_needs", _of_needs)
    signal = _field("harbour_manifest_signal", _of_signal)
    rank = _field_if("harbour_manifest_rank", _Number(_c.c_uint64))
    margin = _field_if("harbour_manifest_margin", _Number(_c.c_double))
    dues = _field_if("harbour_manifest_dues", _Number(_c.c_int32))
    paid = _field_if("harbour_manifest_paid", _Number(_c.c_bool))
    grade = _field_if("harbour_manifest_grade", _of_kind)
    berth = _field_if("harbour_manifest_berth", _of_pos)
    gauge = _field("harbour_manifest_gauge", _of_gauge)
    title = _field("harbour_manifest_title", _Text())
    note = _field_if("harbour_manifest_note", _Text())
    scan = _field_if("harbour_manifest_scan", _Bytes())
    stamp = _field("harbour_manifest_stamp", _Bytes())
    weights = _field_if("harbour_manifest_weights", _Vector(_Number(_c.c_double)))
    counts = _field("harbour_manifest_counts", _Vector(_Number(_c.c_uint32)))
    offsets = _field_if("harbour_manifest_offsets", _Vector(_Number(_c.c_int16)))
    marks = _field_if("harbour_manifest_marks", _Vector(_Number(_c.c_bool)))
    kinds = _field_if("harbour_manifest_kinds", _Vector(_of_kind))
    track = _field_if("harbour_manifest_track", _Vector(_of_pos))
    labels = _field_if("harbour_manifest_labels", _Vector(_Text()))
    holders = _field("harbour_manifest_holders", _Vector(_Text()))
    ship = _field("harbour_manifest_ship", _of_ship)
    next = _field_if("harbour_manifest_next", _of_manifest)
    persons = _field_if("harbour_manifest_persons", _Vector(_of_person))
    parts = _field("harbour_manifest_parts", _Vector(_of_manifest))
    owner = _field_if("harbour_manifest_owner", _of_owner)
    owner_tag = _field_if("harbour_manifest_owner", _Tag())
    payer = _field("harbour_manifest_payer", _of_owner)
    payer_tag = _field_if("harbour_manifest_payer", _Tag())
    owners = _unions("harbour_manifest_owners", _of_owner)


class Origin(Table):
    """Tables `Origin`."""

    host = _field_if("harbour_origin_host", _Text())
    port = _field("harbour_origin_port", _Number(_c.c_uint16))


_in_cause = {
    1: _of_entry,
    2: _of_origin,
}


class Entry(Table):
    """Tables `Entry`."""

    at = _field("harbour_entry_at", _Number(_c.c_uint64))
    text = _field("harbour_entry_text", _Text())
    origin = _field("harbour_entry_origin", _of_origin)
    cause = _field_if("harbour_entry_cause", _of_cause)
    cause_tag = _field_if("harbour_entry_cause", _Tag())
    parents = _field_if("harbour_entry_parents", _Vector(_of_entry))


def has_identifier(buffer):
    """Whether a buffer has the file identifier of the schema."""
    buffer = bytes(buffer)
    call = _call("harbour_has_identifier")
    call.restype = _c.c_bool
    return call(_c.c_char_p(buffer), _c.c_size_t(len(buffer)))


def root(buffer):
    """The table at the root of a buffer."""
    return Ship(buffer)


def verify(buffer, depth=64, most_tables=1000000):
    """Tests all that the root leads to, and raises `Error` for the first that can't be read: after it
    no property raises, but of a number that its enum doesn't have. No more than `depth` tables may
    stand one in the other, and no more than `most_tables` be reached, each as often as it is."""
    place = (_c.c_size_t * 4)()
    call = _call("harbour_verify")
    call.restype = _c.c_uint32
    limits = (_c.c_uint8(depth), _c.c_size_t(most_tables))
    status = call(_c.c_char_p(buffer), _c.c_size_t(len(buffer)), *limits, place)
    if status != 0:
        raise Error(status)
