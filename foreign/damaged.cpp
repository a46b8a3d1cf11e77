// Reads all of a ship of each beginning of its buffer, and of the buffer with each byte in it changed
// to some others, by the module for C++: damaged FILE.
#include "harbour.hpp"
#include <fstream>
#include <iostream>
#include <iterator>
#include <memory>
#include <vector>

using Bytes = std::vector<char>;

static unsigned long reads, values, sum;

template <class Read>
void count(Read read) {
  reads++;
  try {
    read();
    values++;
  } catch (const harbour::Error &) {
  }
}

template <class Items>
void each(const Items &items) {
  for (std::size_t i = 0; i < items.size(); i++) count([&] { sum += sizeof items[i]; });
}

static void add(std::string_view text) {
  for (char letter : text) sum += static_cast<unsigned char>(letter);
}

static void read_all(const std::uint8_t *buffer, std::size_t len) {
  harbour::Ship ship(buffer, len);
  count([&] { add(ship.name()); });
  count([&] { sum += ship.hull(); });
  count([&] { sum += ship.kind() == harbour::Kind::Ship; });
  count([&] { if (auto home = ship.home()) sum += home->alt; });
  count([&] { if (auto cargo = ship.cargo()) each(*cargo); });
  count([&] { if (auto track = ship.track()) each(*track); });
  count([&] { if (auto temps = ship.temps()) each(*temps); });
  count([&] { if (auto flags = ship.flags()) each(*flags); });
  count([&] { if (auto kinds = ship.kinds()) each(*kinds); });
  count([&] { if (auto names = ship.names()) for (auto name : *names) add(name); });
  count([&] { if (auto mate = ship.mate()) add(mate->name()); });
  count([&] { if (auto consorts = ship.consorts()) for (auto consort : *consorts) add(consort.name()); });
  count([&] { if (auto owner = ship.owner()) if (auto person = owner->as_person()) add(person->name()); });
  count([&] { each(ship.shares()); });
  count([&] { sum += ship.fix().when; });
}

static void read_copy(const Bytes &bytes, std::size_t len) {
  std::unique_ptr<std::uint8_t[]> copy(new std::uint8_t[len]);  // so that a read past its end is seen
  for (std::size_t i = 0; i < len; i++) copy[i] = static_cast<std::uint8_t>(bytes[i]);
  read_all(copy.get(), len);
}

int main(int, char **words) {
  std::ifstream file(words[1], std::ios::binary);
  Bytes bytes{std::istreambuf_iterator<char>(file), {}};
  for (std::size_t len = 0; len <= bytes.size(); len++) read_copy(bytes, len);
  for (std::size_t i = 0; i < bytes.size(); i++)
    for (int byte : {0, 1, 4, 127, 128, 255}) {
      const char before = bytes[i];
      bytes[i] = static_cast<char>(byte);
      read_copy(bytes, bytes.size());
      bytes[i] = before;
    }
  read_all(nullptr, 0);
  std::cout << reads << " reads by C++, " << values << " with a value\n";
  return sum == 0;
}
