// Classes over buffers of `harbour`, by the calls of harbour.h. C++17.
//
// A table is `TABLE(buffer, len)`, or with the position of the reference that leads to it; what is
// read is of the buffer, which stays as it is for as long. No byte and no position does harm: what
// can't be read throws `Error`.
#ifndef HARBOUR_HPP
#define HARBOUR_HPP

#include "harbour.h"

#include <cstddef>
#include <cstdint>
#include <cstring>
#include <iterator>
#include <optional>
#include <stdexcept>
#include <string_view>

namespace harbour {

// Why nothing is read.
class Error : public std::runtime_error {
 public:
  explicit Error(std::uint32_t number)
      : std::runtime_error(::harbour_status_text(number)), Number(number) {}
  std::uint32_t status() const noexcept { return Number; }

 private:
  std::uint32_t Number;
};

namespace inner {

struct BufferView {
  const std::uint8_t *buffer;
  std::size_t len;
  std::size_t at;
};

template <class Plain>
using CallRef = std::uint32_t (*)(const std::uint8_t *, std::size_t, std::size_t, Plain *);

// What a call stores of a value, and how an item of a vector is read. This is that of numbers.
template <class T>
struct TableRead {
  using Plain = T;
  static constexpr std::size_t size = sizeof(T);
  static T of(const BufferView &, T out) { return out; }
  static T at(const BufferView &place) {
    T out;
    std::memcpy(&out, place.buffer + place.at, sizeof out);
    return out;
  }
};

template <class T>
std::optional<T> maybe(const BufferView &place, CallRef<typename TableRead<T>::Plain> call) {
  typename TableRead<T>::Plain out{};
  const std::uint32_t status = call(place.buffer, place.len, place.at, &out);
  if (status > 1) throw Error(status);
  if (status == 1) return std::nullopt;
  return TableRead<T>::of(place, out);
}

template <class T>
T surely(const BufferView &place, CallRef<typename TableRead<T>::Plain> call) {
  std::optional<T> found = maybe<T>(place, call);
  if (!found) throw Error(9);
  return *found;
}

// The items that a call says are of the buffer.
inline void test(const BufferView &place, ::harbour_span items, std::size_t size) {
  if (items.at > place.len || items.len > (place.len - items.at) / size) throw Error(3);
}

template <>
struct TableRead<bool> {
  using Plain = bool;
  static constexpr std::size_t size = 1;
  static bool of(const BufferView &, bool out) { return out; }
  static bool at(const BufferView &place) { return place.buffer[place.at] != 0; }
};

template <>
struct TableRead<std::string_view> {
  using Plain = ::harbour_span;
  static constexpr std::size_t size = 4;
  static std::string_view of(const BufferView &place, Plain out) {
    test(place, out, 1);
    if (out.len == 0) return std::string_view();
    return std::string_view(reinterpret_cast<const char *>(place.buffer) + out.at, out.len);
  }
  static std::string_view at(const BufferView &place) {
    return surely<std::string_view>(place, ::harbour_string_at);
  }
};

// Over the items of a vector.
template <class List>
class VectorView {
 public:
  using iterator_category = std::input_iterator_tag;
  using value_type = typename List::value_type;
  using difference_type = std::ptrdiff_t;
  using pointer = void;
  using reference = value_type;

  VectorView(const List &list, std::size_t index) : Items(list), Index(index) {}
  value_type operator*() const { return Items[Index]; }
  VectorView &operator++() {
    ++Index;
    return *this;
  }
  VectorView operator++(int) {
    VectorView before = *this;
    ++Index;
    return before;
  }
  bool operator==(const VectorView &other) const { return Index == other.Index; }
  bool operator!=(const VectorView &other) const { return Index != other.Index; }

 private:
  List Items;
  std::size_t Index;
};

}  // namespace inner

// Items that are read when they are asked for. There is none at size() and after.
template <class T>
class Vector {
 public:
  using value_type = T;

  Vector(const inner::BufferView &place, ::harbour_span items) : At(place), Items(items) {}
  std::size_t size() const { return Items.len; }
  bool empty() const { return Items.len == 0; }
  // The bytes of all items, which may not be aligned.
  const std::uint8_t *data() const { return empty() ? nullptr : At.buffer + Items.at; }
  T operator[](std::size_t index) const {
    if (index >= Items.len) throw std::out_of_range("no such item");
    return inner::TableRead<T>::at(
        {At.buffer, At.len, Items.at + index * inner::TableRead<T>::size});
  }
  inner::VectorView<Vector> begin() const { return {*this, 0}; }
  inner::VectorView<Vector> end() const { return {*this, Items.len}; }

 private:
  inner::BufferView At;
  ::harbour_span Items;
};

// The same of unions.
template <class T>
class UnionVector {
 public:
  using value_type = T;
  using CallRef = std::uint32_t (*)(const std::uint8_t *, std::size_t, std::size_t, std::size_t,
                                 ::harbour_member *);

  UnionVector(const inner::BufferView &place, CallRef call) : At(place), Item(call), Count(0) {
    std::size_t more = SIZE_MAX;
    if (!is_end(more, true)) throw Error(3);
    while (Count < more) {
      const std::size_t middle = Count + (more - Count) / 2;
      if (is_end(middle, false)) more = middle;
      else Count = middle + 1;
    }
  }
  std::size_t size() const { return Count; }
  bool empty() const { return Count == 0; }
  T operator[](std::size_t index) const {
    ::harbour_member out{};
    const std::uint32_t status = Item(At.buffer, At.len, At.at, index, &out);
    if (status > 1) throw Error(status);
    if (status == 1) throw std::out_of_range("no such item");
    return inner::TableRead<T>::of(At, out);
  }
  inner::VectorView<UnionVector> begin() const { return {*this, 0}; }
  inner::VectorView<UnionVector> end() const { return {*this, Count}; }

 private:
  bool is_end(std::size_t index, bool throws) const {
    ::harbour_member out{};
    const std::uint32_t status = Item(At.buffer, At.len, At.at, index, &out);
    if (status > 1 && throws) throw Error(status);
    return status == 1;
  }
  inner::BufferView At;
  CallRef Item;
  std::size_t Count;
};

namespace inner {

template <class T>
struct TableRead<Vector<T>> {
  using Plain = ::harbour_span;
  static Vector<T> of(const BufferView &place, Plain out) {
    test(place, out, TableRead<T>::size);
    return Vector<T>(place, out);
  }
};

}  // namespace inner

enum class Kind : ::harbour_kind {
  Car = HARBOUR_KIND_CAR,
  Bike = HARBOUR_KIND_BIKE,
  Ship = HARBOUR_KIND_SHIP,
};

template <>
struct inner::TableRead<Kind> {
  using Plain = ::harbour_kind;
  static constexpr std::size_t size = 1;
  static_assert(sizeof(Plain) == size, "its bytes are those of the format");
  static Kind of(const BufferView &, Plain out) { return static_cast<Kind>(out); }
  static Kind at(const BufferView &place) { return surely<Kind>(place, ::harbour_kind_at); }
};

enum class Level : ::harbour_level {
  Low = HARBOUR_LEVEL_LOW,
  Mid = HARBOUR_LEVEL_MID,
  High = HARBOUR_LEVEL_HIGH,
};

template <>
struct inner::TableRead<Level> {
  using Plain = ::harbour_level;
  static constexpr std::size_t size = 2;
  static_assert(sizeof(Plain) == size, "its bytes are those of the format");
  static Level of(const BufferView &, Plain out) { return static_cast<Level>(out); }
  static Level at(const BufferView &place) { return surely<Level>(place, ::harbour_level_at); }
};

enum class Needs : ::harbour_needs {
  WATER = HARBOUR_NEEDS_WATER,
  POWER = HARBOUR_NEEDS_POWER,
};
constexpr Needs operator|(Needs one, Needs other) {
  return static_cast<Needs>(static_cast<::harbour_needs>(one) | static_cast<::harbour_needs>(other));
}
constexpr Needs operator&(Needs one, Needs other) {
  return static_cast<Needs>(static_cast<::harbour_needs>(one) & static_cast<::harbour_needs>(other));
}

template <>
struct inner::TableRead<Needs> {
  using Plain = ::harbour_needs;
  static constexpr std::size_t size = 2;
  static_assert(sizeof(Plain) == size, "its bytes are those of the format");
  static Needs of(const BufferView &, Plain out) { return static_cast<Needs>(out); }
  static Needs at(const BufferView &place) { return surely<Needs>(place, ::harbour_needs_at); }
};

using Pos = ::harbour_pos;

template <>
struct inner::TableRead<Pos> {
  using Plain = ::harbour_pos;
  static constexpr std::size_t size = 12;
  static_assert(sizeof(Plain) == size, "its bytes are those of the format");
  static Pos of(const BufferView &, Plain out) { return out; }
  static Pos at(const BufferView &place) { return surely<Pos>(place, ::harbour_pos_at); }
};

using Fix = ::harbour_fix;

template <>
struct inner::TableRead<Fix> {
  using Plain = ::harbour_fix;
  static constexpr std::size_t size = 24;
  static_assert(sizeof(Plain) == size, "its bytes are those of the format");
  static Fix of(const BufferView &, Plain out) { return out; }
  static Fix at(const BufferView &place) { return surely<Fix>(place, ::harbour_fix_at); }
};

using Gauge = ::harbour_gauge;

template <>
struct inner::TableRead<Gauge> {
  using Plain = ::harbour_gauge;
  static constexpr std::size_t size = 8;
  static_assert(sizeof(Plain) == size, "its bytes are those of the format");
  static Gauge of(const BufferView &, Plain out) { return out; }
  static Gauge at(const BufferView &place) { return surely<Gauge>(place, ::harbour_gauge_at); }
};

enum class Signal : ::harbour_signal {
  Alfa = HARBOUR_SIGNAL_ALFA,
  Bravo = HARBOUR_SIGNAL_BRAVO,
  Charlie = HARBOUR_SIGNAL_CHARLIE,
  Delta = HARBOUR_SIGNAL_DELTA,
  Echo = HARBOUR_SIGNAL_ECHO,
  Foxtrot = HARBOUR_SIGNAL_FOXTROT,
  Golf = HARBOUR_SIGNAL_GOLF,
  Hotel = HARBOUR_SIGNAL_HOTEL,
  India = HARBOUR_SIGNAL_INDIA,
  Juliett = HARBOUR_SIGNAL_JULIETT,
  Kilo = HARBOUR_SIGNAL_KILO,
  Lima = HARBOUR_SIGNAL_LIMA,
  Mike = HARBOUR_SIGNAL_MIKE,
  November = HARBOUR_SIGNAL_NOVEMBER,
  Oscar = HARBOUR_SIGNAL_OSCAR,
  Papa = HARBOUR_SIGNAL_PAPA,
  Quebec = HARBOUR_SIGNAL_QUEBEC,
  Romeo = HARBOUR_SIGNAL_ROMEO,
  Sierra = HARBOUR_SIGNAL_SIERRA,
  Tango = HARBOUR_SIGNAL_TANGO,
  Uniform = HARBOUR_SIGNAL_UNIFORM,
  Victor = HARBOUR_SIGNAL_VICTOR,
  Whiskey = HARBOUR_SIGNAL_WHISKEY,
  Xray = HARBOUR_SIGNAL_XRAY,
  Yankee = HARBOUR_SIGNAL_YANKEE,
  Zulu = HARBOUR_SIGNAL_ZULU,
};

template <>
struct inner::TableRead<Signal> {
  using Plain = ::harbour_signal;
  static constexpr std::size_t size = 1;
  static_assert(sizeof(Plain) == size, "its bytes are those of the format");
  static Signal of(const BufferView &, Plain out) { return static_cast<Signal>(out); }
  static Signal at(const BufferView &place) { return surely<Signal>(place, ::harbour_signal_at); }
};

class Person;
class Company;
class Owner;
class Ship;
class Port;
class Manifest;
class Origin;
class Cause;
class Entry;

template <>
struct inner::TableRead<Person> {
  using Plain = std::size_t;
  static constexpr std::size_t size = 4;
  static Person of(const BufferView &place, Plain out);
  static Person at(const BufferView &place);
};

template <>
struct inner::TableRead<Company> {
  using Plain = std::size_t;
  static constexpr std::size_t size = 4;
  static Company of(const BufferView &place, Plain out);
  static Company at(const BufferView &place);
};

template <>
struct inner::TableRead<Owner> {
  using Plain = ::harbour_member;
  static Owner of(const BufferView &place, Plain out);
};

template <>
struct inner::TableRead<Ship> {
  using Plain = std::size_t;
  static constexpr std::size_t size = 4;
  static Ship of(const BufferView &place, Plain out);
  static Ship at(const BufferView &place);
};

template <>
struct inner::TableRead<Port> {
  using Plain = std::size_t;
  static constexpr std::size_t size = 4;
  static Port of(const BufferView &place, Plain out);
  static Port at(const BufferView &place);
};

template <>
struct inner::TableRead<Manifest> {
  using Plain = std::size_t;
  static constexpr std::size_t size = 4;
  static Manifest of(const BufferView &place, Plain out);
  static Manifest at(const BufferView &place);
};

template <>
struct inner::TableRead<Origin> {
  using Plain = std::size_t;
  static constexpr std::size_t size = 4;
  static Origin of(const BufferView &place, Plain out);
  static Origin at(const BufferView &place);
};

template <>
struct inner::TableRead<Cause> {
  using Plain = ::harbour_member;
  static Cause of(const BufferView &place, Plain out);
};

template <>
struct inner::TableRead<Entry> {
  using Plain = std::size_t;
  static constexpr std::size_t size = 4;
  static Entry of(const BufferView &place, Plain out);
  static Entry at(const BufferView &place);
};

class Person {
 public:
  explicit Person(const std::uint8_t *buffer, std::size_t len, std::size_t at = 0)
      : Table{buffer, len, at} {}
  std::string_view name() const;
  std::uint8_t age() const;

 private:
  inner::BufferView Table;
};

class Company {
 public:
  explicit Company(const std::uint8_t *buffer, std::size_t len, std::size_t at = 0)
      : Table{buffer, len, at} {}
  std::optional<std::string_view> title() const;
  std::optional<Vector<std::uint8_t>> vat() const;

 private:
  inner::BufferView Table;
};

// A union: its tag, and its value by its type.
class Owner {
 public:
  Owner(const inner::BufferView &place, std::uint8_t tag) : Offset(place), Type(tag) {}
  std::uint8_t tag() const { return Type; }
  std::optional<Person> as_person() const;
  std::optional<Company> as_firm() const;

 private:
  inner::BufferView Offset;
  std::uint8_t Type;
};

class Ship {
 public:
  explicit Ship(const std::uint8_t *buffer, std::size_t len, std::size_t at = 0)
      : Table{buffer, len, at} {}
  std::string_view name() const;
  std::uint16_t hull() const;
  std::optional<Vector<std::uint32_t>> cargo() const;
  Kind kind() const;
  Level level() const;
  Needs needs() const;
  std::optional<Pos> home() const;
  std::optional<Vector<Pos>> track() const;
  float heat() const;
  std::int16_t depth() const;
  bool open() const;
  bool shut() const;
  std::optional<std::int32_t> maybe() const;
  std::optional<Vector<std::uint8_t>> photo() const;
  std::optional<Vector<std::string_view>> names() const;
  std::optional<Ship> mate() const;
  std::optional<Vector<Ship>> consorts() const;
  std::optional<Vector<Kind>> kinds() const;
  std::optional<Owner> owner() const;
  UnionVector<Owner> shares() const;
  std::int64_t tall() const;
  std::optional<Vector<double>> temps() const;
  std::optional<Vector<std::int8_t>> deltas() const;
  Fix fix() const;
  std::optional<Kind> which() const;
  std::optional<Vector<bool>> flags() const;

 private:
  inner::BufferView Table;
};

class Port {
 public:
  explicit Port(const std::uint8_t *buffer, std::size_t len, std::size_t at = 0)
      : Table{buffer, len, at} {}
  Owner owner() const;
  Vector<Ship> ships() const;
  Vector<std::string_view> berths() const;
  UnionVector<Owner> shares() const;
  Vector<std::uint16_t> soundings() const;
  Vector<std::uint8_t> chart() const;
  std::optional<Gauge> gauge() const;
  Signal hoisted() const;

 private:
  inner::BufferView Table;
};

class Manifest {
 public:
  explicit Manifest(const std::uint8_t *buffer, std::size_t len, std::size_t at = 0)
      : Table{buffer, len, at} {}
  std::uint64_t number() const;
  std::int64_t issued() const;
  double weight() const;
  float worth() const;
  std::uint32_t boxes() const;
  std::int32_t debt() const;
  std::uint16_t pages() const;
  std::int16_t shift() const;
  std::uint8_t tier() const;
  std::int8_t lean() const;
  bool sealed() const;
  bool opened() const;
  Kind kind() const;
  Level level() const;
  Needs needs() const;
  Signal signal() const;
  std::optional<std::uint64_t> rank() const;
  std::optional<double> margin() const;
  std::optional<std::int32_t> dues() const;
  std::optional<bool> paid() const;
  std::optional<Kind> grade() const;
  std::optional<Pos> berth() const;
  Gauge gauge() const;
  std::string_view title() const;
  std::optional<std::string_view> note() const;
  std::optional<Vector<std::uint8_t>> scan() const;
  Vector<std::uint8_t> stamp() const;
  std::optional<Vector<double>> weights() const;
  Vector<std::uint32_t> counts() const;
  std::optional<Vector<std::int16_t>> offsets() const;
  std::optional<Vector<bool>> marks() const;
  std::optional<Vector<Kind>> kinds() const;
  std::optional<Vector<Pos>> track() const;
  std::optional<Vector<std::string_view>> labels() const;
  Vector<std::string_view> holders() const;
  Ship ship() const;
  std::optional<Manifest> next() const;
  std::optional<Vector<Person>> persons() const;
  Vector<Manifest> parts() const;
  std::optional<Owner> owner() const;
  Owner payer() const;
  UnionVector<Owner> owners() const;

 private:
  inner::BufferView Table;
};

class Origin {
 public:
  explicit Origin(const std::uint8_t *buffer, std::size_t len, std::size_t at = 0)
      : Table{buffer, len, at} {}
  std::optional<std::string_view> host() const;
  std::uint16_t port() const;

 private:
  inner::BufferView Table;
};

// A union: its tag, and its value by its type.
class Cause {
 public:
  Cause(const inner::BufferView &place, std::uint8_t tag) : Offset(place), Type(tag) {}
  std::uint8_t tag() const { return Type; }
  std::optional<Entry> as_entry() const;
  std::optional<Origin> as_origin() const;

 private:
  inner::BufferView Offset;
  std::uint8_t Type;
};

class Entry {
 public:
  explicit Entry(const std::uint8_t *buffer, std::size_t len, std::size_t at = 0)
      : Table{buffer, len, at} {}
  std::uint64_t at() const;
  std::string_view text() const;
  Origin origin() const;
  std::optional<Cause> cause() const;
  std::optional<Vector<Entry>> parents() const;

 private:
  inner::BufferView Table;
};

inline Person inner::TableRead<Person>::of(const BufferView &place, Plain out) {
  return Person(place.buffer, place.len, out);
}
inline Person inner::TableRead<Person>::at(const BufferView &place) {
  return Person(place.buffer, place.len, place.at);
}

inline Company inner::TableRead<Company>::of(const BufferView &place, Plain out) {
  return Company(place.buffer, place.len, out);
}
inline Company inner::TableRead<Company>::at(const BufferView &place) {
  return Company(place.buffer, place.len, place.at);
}

inline Owner inner::TableRead<Owner>::of(const BufferView &place, Plain out) {
  return Owner({place.buffer, place.len, out.at}, out.tag);
}

inline Ship inner::TableRead<Ship>::of(const BufferView &place, Plain out) {
  return Ship(place.buffer, place.len, out);
}
inline Ship inner::TableRead<Ship>::at(const BufferView &place) {
  return Ship(place.buffer, place.len, place.at);
}

inline Port inner::TableRead<Port>::of(const BufferView &place, Plain out) {
  return Port(place.buffer, place.len, out);
}
inline Port inner::TableRead<Port>::at(const BufferView &place) {
  return Port(place.buffer, place.len, place.at);
}

inline Manifest inner::TableRead<Manifest>::of(const BufferView &place, Plain out) {
  return Manifest(place.buffer, place.len, out);
}
inline Manifest inner::TableRead<Manifest>::at(const BufferView &place) {
  return Manifest(place.buffer, place.len, place.at);
}

inline Origin inner::TableRead<Origin>::of(const BufferView &place, Plain out) {
  return Origin(place.buffer, place.len, out);
}
inline Origin inner::TableRead<Origin>::at(const BufferView &place) {
  return Origin(place.buffer, place.len, place.at);
}

inline Cause inner::TableRead<Cause>::of(const BufferView &place, Plain out) {
  return Cause({place.buffer, place.len, out.at}, out.tag);
}

inline Entry inner::TableRead<Entry>::of(const BufferView &place, Plain out) {
  return Entry(place.buffer, place.len, out);
}
inline Entry inner::TableRead<Entry>::at(const BufferView &place) {
  return Entry(place.buffer, place.len, place.at);
}
inline std::string_view Person::name() const {
  return inner::surely<std::string_view>(Table, ::harbour_person_name);
}
inline std::uint8_t Person::age() const {
  return inner::surely<std::uint8_t>(Table, ::harbour_person_age);
}
inline std::optional<std::string_view> Company::title() const {
  return inner::maybe<std::string_view>(Table, ::harbour_company_title);
}
inline std::optional<Vector<std::uint8_t>> Company::vat() const {
  return inner::maybe<Vector<std::uint8_t>>(Table, ::harbour_company_vat);
}
inline std::optional<Person> Owner::as_person() const {
  if (Type != 1) return std::nullopt;
  return inner::TableRead<Person>::at(Offset);
}
inline std::optional<Company> Owner::as_firm() const {
  if (Type != 2) return std::nullopt;
  return inner::TableRead<Company>::at(Offset);
}
inline std::string_view Ship::name() const {
  return inner::surely<std::string_view>(Table, ::harbour_ship_name);
}
inline std::uint16_t Ship::hull() const {
  return inner::surely<std::uint16_t>(Table, ::harbour_ship_hull);
}
inline std::optional<Vector<std::uint32_t>> Ship::cargo() const {
  return inner::maybe<Vector<std::uint32_t>>(Table, ::harbour_ship_cargo);
}
inline Kind Ship::kind() const {
  return inner::surely<Kind>(Table, ::harbour_ship_kind);
}
inline Level Ship::level() const {
  return inner::surely<Level>(Table, ::harbour_ship_level);
}
inline Needs Ship::needs() const {
  return inner::surely<Needs>(Table, ::harbour_ship_needs);
}
inline std::optional<Pos> Ship::home() const {
  return inner::maybe<Pos>(Table, ::harbour_ship_home);
}
inline std::optional<Vector<Pos>> Ship::track() const {
  return inner::maybe<Vector<Pos>>(Table, ::harbour_ship_track);
}
inline float Ship::heat() const {
  return inner::surely<float>(Table, ::harbour_ship_heat);
}
inline std::int16_t Ship::depth() const {
  return inner::surely<std::int16_t>(Table, ::harbour_ship_depth);
}
inline bool Ship::open() const {
  return inner::surely<bool>(Table, ::harbour_ship_open);
}
inline bool Ship::shut() const {
  return inner::surely<bool>(Table, ::harbour_ship_shut);
}
inline std::optional<std::int32_t> Ship::maybe() const {
  return inner::maybe<std::int32_t>(Table, ::harbour_ship_maybe);
}
inline std::optional<Vector<std::uint8_t>> Ship::photo() const {
  return inner::maybe<Vector<std::uint8_t>>(Table, ::harbour_ship_photo);
}
inline std::optional<Vector<std::string_view>> Ship::names() const {
  return inner::maybe<Vector<std::string_view>>(Table, ::harbour_ship_names);
}
inline std::optional<Ship> Ship::mate() const {
  return inner::maybe<Ship>(Table, ::harbour_ship_mate);
}
inline std::optional<Vector<Ship>> Ship::consorts() const {
  return inner::maybe<Vector<Ship>>(Table, ::harbour_ship_consorts);
}
inline std::optional<Vector<Kind>> Ship::kinds() const {
  return inner::maybe<Vector<Kind>>(Table, ::harbour_ship_kinds);
}
inline std::optional<Owner> Ship::owner() const {
  return inner::maybe<Owner>(Table, ::harbour_ship_owner);
}
inline UnionVector<Owner> Ship::shares() const {
  return UnionVector<Owner>(Table, ::harbour_ship_shares);
}
inline std::int64_t Ship::tall() const {
  return inner::surely<std::int64_t>(Table, ::harbour_ship_tall);
}
inline std::optional<Vector<double>> Ship::temps() const {
  return inner::maybe<Vector<double>>(Table, ::harbour_ship_temps);
}
inline std::optional<Vector<std::int8_t>> Ship::deltas() const {
  return inner::maybe<Vector<std::int8_t>>(Table, ::harbour_ship_deltas);
}
inline Fix Ship::fix() const {
  return inner::surely<Fix>(Table, ::harbour_ship_fix);
}
inline std::optional<Kind> Ship::which() const {
  return inner::maybe<Kind>(Table, ::harbour_ship_which);
}
inline std::optional<Vector<bool>> Ship::flags() const {
  return inner::maybe<Vector<bool>>(Table, ::harbour_ship_flags);
}
inline Owner Port::owner() const {
  return inner::surely<Owner>(Table, ::harbour_port_owner);
}
inline Vector<Ship> Port::ships() const {
  return inner::surely<Vector<Ship>>(Table, ::harbour_port_ships);
}
inline Vector<std::string_view> Port::berths() const {
  return inner::surely<Vector<std::string_view>>(Table, ::harbour_port_berths);
}
inline UnionVector<Owner> Port::shares() const {
  return UnionVector<Owner>(Table, ::harbour_port_shares);
}
inline Vector<std::uint16_t> Port::soundings() const {
  return inner::surely<Vector<std::uint16_t>>(Table, ::harbour_port_soundings);
}
inline Vector<std::uint8_t> Port::chart() const {
  return inner::surely<Vector<std::uint8_t>>(Table, ::harbour_port_chart);
}
inline std::optional<Gauge> Port::gauge() const {
  return inner::maybe<Gauge>(Table, ::harbour_port_gauge);
}
inline Signal Port::hoisted() const {
  return inner::surely<Signal>(Table, ::harbour_port_hoisted);
}
inline std::uint64_t Manifest::number() const {
  return inner::surely<std::uint64_t>(Table, ::harbour_manifest_number);
}
inline std::int64_t Manifest::issued() const {
  return inner::surely<std::int64_t>(Table, ::harbour_manifest_issued);
}
inline double Manifest::weight() const {
  return inner::surely<double>(Table, ::harbour_manifest_weight);
}
inline float Manifest::worth() const {
  return inner::surely<float>(Table, ::harbour_manifest_worth);
}
inline std::uint32_t Manifest::boxes() const {
  return inner::surely<std::uint32_t>(Table, ::harbour_manifest_boxes);
}
inline std::int32_t Manifest::debt() const {
  return inner::surely<std::int32_t>(Table, ::harbour_manifest_debt);
}
inline std::uint16_t Manifest::pages() const {
  return inner::surely<std::uint16_t>(Table, ::harbour_manifest_pages);
}
inline std::int16_t Manifest::shift() const {
  return inner::surely<std::int16_t>(Table, ::harbour_manifest_shift);
}
inline std::uint8_t Manifest::tier() const {
  return inner::surely<std::uint8_t>(Table, ::harbour_manifest_tier);
}
inline std::int8_t Manifest::lean() const {
  return inner::surely<std::int8_t>(Table, ::harbour_manifest_lean);
}
inline bool Manifest::sealed() const {
  return inner::surely<bool>(Table, ::harbour_manifest_sealed);
}
inline bool Manifest::opened() const {
  return inner::surely<bool>(Table, ::harbour_manifest_opened);
}
inline Kind Manifest::kind() const {
  return inner::surely<Kind>(Table, ::harbour_manifest_kind);
}
inline Level Manifest::level() const {
  return inner::surely<Level>(Table, ::harbour_manifest_level);
}
inline Needs Manifest::needs() const {
  return inner::surely<Needs>(Table, ::harbour_manifest_needs);
}
inline Signal Manifest::signal() const {
  return inner::surely<Signal>(Table, ::harbour_manifest_signal);
}
inline std::optional<std::uint64_t> Manifest::rank() const {
  return inner::maybe<std::uint64_t>(Table, ::harbour_manifest_rank);
}
inline std::optional<double> Manifest::margin() const {
  return inner::maybe<double>(Table, ::harbour_manifest_margin);
}
inline std::optional<std::int32_t> Manifest::dues() const {
  return inner::maybe<std::int32_t>(Table, ::harbour_manifest_dues);
}
inline std::optional<bool> Manifest::paid() const {
  return inner::maybe<bool>(Table, ::harbour_manifest_paid);
}
inline std::optional<Kind> Manifest::grade() const {
  return inner::maybe<Kind>(Table, ::harbour_manifest_grade);
}
inline std::optional<Pos> Manifest::berth() const {
  return inner::maybe<Pos>(Table, ::harbour_manifest_berth);
}
inline Gauge Manifest::gauge() const {
  return inner::surely<Gauge>(Table, ::harbour_manifest_gauge);
}
inline std::string_view Manifest::title() const {
  return inner::surely<std::string_view>(Table, ::harbour_manifest_title);
}
inline std::optional<std::string_view> Manifest::note() const {
  return inner::maybe<std::string_view>(Table, ::harbour_manifest_note);
}
inline std::optional<Vector<std::uint8_t>> Manifest::scan() const {
  return inner::maybe<Vector<std::uint8_t>>(Table, ::harbour_manifest_scan);
}
inline Vector<std::uint8_t> Manifest::stamp() const {
  return inner::surely<Vector<std::uint8_t>>(Table, ::harbour_manifest_stamp);
}
inline std::optional<Vector<double>> Manifest::weights() const {
  return inner::maybe<Vector<double>>(Table, ::harbour_manifest_weights);
}
inline Vector<std::uint32_t> Manifest::counts() const {
  return inner::surely<Vector<std::uint32_t>>(Table, ::harbour_manifest_counts);
}
inline std::optional<Vector<std::int16_t>> Manifest::offsets() const {
  return inner::maybe<Vector<std::int16_t>>(Table, ::harbour_manifest_offsets);
}
inline std::optional<Vector<bool>> Manifest::marks() const {
  return inner::maybe<Vector<bool>>(Table, ::harbour_manifest_marks);
}
inline std::optional<Vector<Kind>> Manifest::kinds() const {
  return inner::maybe<Vector<Kind>>(Table, ::harbour_manifest_kinds);
}
inline std::optional<Vector<Pos>> Manifest::track() const {
  return inner::maybe<Vector<Pos>>(Table, ::harbour_manifest_track);
}
inline std::optional<Vector<std::string_view>> Manifest::labels() const {
  return inner::maybe<Vector<std::string_view>>(Table, ::harbour_manifest_labels);
}
inline Vector<std::string_view> Manifest::holders() const {
  return inner::surely<Vector<std::string_view>>(Table, ::harbour_manifest_holders);
}
inline Ship Manifest::ship() const {
  return inner::surely<Ship>(Table, ::harbour_manifest_ship);
}
inline std::optional<Manifest> Manifest::next() const {
  return inner::maybe<Manifest>(Table, ::harbour_manifest_next);
}
inline std::optional<Vector<Person>> Manifest::persons() const {
  return inner::maybe<Vector<Person>>(Table, ::harbour_manifest_persons);
}
inline Vector<Manifest> Manifest::parts() const {
  return inner::surely<Vector<Manifest>>(Table, ::harbour_manifest_parts);
}
inline std::optional<Owner> Manifest::owner() const {
  return inner::maybe<Owner>(Table, ::harbour_manifest_owner);
}
inline Owner Manifest::payer() const {
  return inner::surely<Owner>(Table, ::harbour_manifest_payer);
}
inline UnionVector<Owner> Manifest::owners() const {
  return UnionVector<Owner>(Table, ::harbour_manifest_owners);
}
inline std::optional<std::string_view> Origin::host() const {
  return inner::maybe<std::string_view>(Table, ::harbour_origin_host);
}
inline std::uint16_t Origin::port() const {
  return inner::surely<std::uint16_t>(Table, ::harbour_origin_port);
}
inline std::optional<Entry> Cause::as_entry() const {
  if (Type != 1) return std::nullopt;
  return inner::TableRead<Entry>::at(Offset);
}
inline std::optional<Origin> Cause::as_origin() const {
  if (Type != 2) return std::nullopt;
  return inner::TableRead<Origin>::at(Offset);
}
inline std::uint64_t Entry::at() const {
  return inner::surely<std::uint64_t>(Table, ::harbour_entry_at);
}
inline std::string_view Entry::text() const {
  return inner::surely<std::string_view>(Table, ::harbour_entry_text);
}
inline Origin Entry::origin() const {
  return inner::surely<Origin>(Table, ::harbour_entry_origin);
}
inline std::optional<Cause> Entry::cause() const {
  return inner::maybe<Cause>(Table, ::harbour_entry_cause);
}
inline std::optional<Vector<Entry>> Entry::parents() const {
  return inner::maybe<Vector<Entry>>(Table, ::harbour_entry_parents);
}

// The table at the root of a buffer.
inline Ship root(const std::uint8_t *buffer, std::size_t len) { return Ship(buffer, len); }

// Tests all that the root leads to: after it no method throws, but of a number that its enum doesn't
// have. No more than `depth` tables may stand one in the other, and no more than `most_tables` be
// reached, each as often as it is.
inline void verify(const std::uint8_t *buffer, std::size_t len, std::uint8_t depth = 64,
                   std::size_t most_tables = 1000000) {
  ::harbour_fault place{};
  const std::uint32_t status = ::harbour_verify(buffer, len, depth, most_tables, &place);
  if (status != 0) throw Error(status);
}

}  // namespace harbour

#endif
