// Reads a ship: read FILE. Prints a line for each field.
#include "harbour.hpp"
#include <fstream>
#include <iostream>
#include <iterator>
#include <vector>

using harbour::Ship;

template <class Items>
void put(const char *field, const Items &items) {
  std::cout << field;
  for (auto item : items) std::cout << ' ' << +item;
  std::cout << '\n';
}

static void put_lists(const Ship &ship) {
  if (auto cargo = ship.cargo()) put("cargo", *cargo);
  if (auto track = ship.track()) {
    std::cout << "track";
    for (auto pos : *track) std::cout << ' ' << pos.lat << ',' << pos.lon << ',' << pos.alt;
    std::cout << '\n';
  }
  if (auto photo = ship.photo()) put("photo", *photo);
  if (auto names = ship.names()) {
    std::cout << "names";
    for (auto name : *names) std::cout << " [" << name << ']';
    std::cout << '\n';
  }
}

static void put_tables(const Ship &ship) {
  if (auto mate = ship.mate())
    std::cout << "mate " << mate->name() << ", whose maybe is " << (mate->maybe() ? "there" : "absent") << '\n';
  if (auto consorts = ship.consorts()) {
    std::cout << "consorts";
    for (auto consort : *consorts) std::cout << ' ' << consort.name() << ' ' << consort.hull();
    std::cout << '\n';
  }
  if (auto kinds = ship.kinds()) {
    std::cout << "kinds";
    for (auto kind : *kinds) std::cout << ' ' << int(kind);
    std::cout << '\n';
  }
}

static void put_union_and_rest(const Ship &ship) {
  if (auto owner = ship.owner())
    if (auto person = owner->as_person())
      std::cout << "owner " << int(owner->tag()) << ' ' << person->name() << ' ' << int(person->age()) << '\n';
  if (ship.shares().empty()) std::cout << "shares absent\n";
  std::cout << "tall " << ship.tall() << '\n';
  if (auto temps = ship.temps()) put("temps", *temps);
  if (auto deltas = ship.deltas()) put("deltas", *deltas);
  auto fix = ship.fix();
  std::cout << "fix " << fix.when << ' ' << fix.at.lat << ' ' << fix.at.lon << ' ' << fix.at.alt << ' ' << int(fix.kind) << '\n';
  if (auto which = ship.which()) std::cout << "which " << int(*which) << '\n';
  if (auto flags = ship.flags()) put("flags", *flags);
}

int main(int, char **words) {
  std::ifstream file(words[1], std::ios::binary);
  std::vector<char> bytes{std::istreambuf_iterator<char>(file), {}};
  Ship ship = harbour::root(reinterpret_cast<const std::uint8_t *>(bytes.data()), bytes.size());
  std::cout << "name " << ship.name() << "\nhull " << ship.hull() << "\nkind " << int(ship.kind()) << '\n';
  std::cout << "level " << int(ship.level()) << "\nneeds " << int(ship.needs()) << '\n';
  if (auto home = ship.home()) std::cout << "home " << home->lat << ' ' << home->lon << ' ' << home->alt << '\n';
  std::cout << "heat " << ship.heat() << "\ndepth " << ship.depth() << '\n';
  std::cout << "open " << ship.open() << "\nshut " << ship.shut() << '\n';
  if (auto maybe = ship.maybe()) std::cout << "maybe " << *maybe << '\n';
  put_lists(ship);
  put_tables(ship);
  put_union_and_rest(ship);
}
