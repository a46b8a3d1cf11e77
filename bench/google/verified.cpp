// The rows of verification over Google's C++ flatbuffers: what flatc prints of rows.fbs, exported for the harness.
//   bench_read_*: accessors, which test nothing      bench_verify_*: the Verifier over each buffer
// With TEST_UTF8 the Verifier also tests that each string is UTF-8, as ours does.
// The makers give each buffer `stride` bytes, zeros behind it; they return 0 where one doesn't fit.
#include <flatbuffers/flatbuffers.h>
#include <cstring>
#include <vector>
typedef uint8_t u8;
typedef uint64_t u64;

#ifdef TEST_UTF8
// A test of UTF-8 in the usual way: eight bytes of ASCII at a time, else one sequence after the other.
static bool is_utf8(const u8 *p, size_t n) {
  size_t i = 0;
  while (i < n) {
    u64 word;
    while (i + 8 <= n && (memcpy(&word, p + i, 8), (word & 0x8080808080808080ull) == 0)) i += 8;
    if (i == n) break;
    u8 a = p[i];
    if (a < 0x80) {
      i++;
      continue;
    }
    size_t more = a >= 0xc2 && a <= 0xdf ? 1 : (a & 0xf0) == 0xe0 ? 2 : a >= 0xf0 && a <= 0xf4 ? 3 : 0;
    if (more == 0 || n - i <= more) return false;
    u8 b = p[i + 1];
    u8 low = a == 0xe0 ? 0xa0 : a == 0xf0 ? 0x90 : 0x80, high = a == 0xed ? 0x9f : a == 0xf4 ? 0x8f : 0xbf;
    if (b < low || b > high) return false;
    for (size_t k = 2; k <= more; k++)
      if ((p[i + k] & 0xc0) != 0x80) return false;
    i += more + 1;
  }
  return true;
}
static bool is_utf8(const flatbuffers::String *s) { return !s || is_utf8(s->Data(), s->size()); }
static bool are_utf8(const flatbuffers::Vector<flatbuffers::Offset<flatbuffers::String>> *v) {
  for (flatbuffers::uoffset_t i = 0; v && i < v->size(); i++)
    if (!is_utf8(v->Get(i))) return false;
  return true;
}
// What flatc prints calls these two in a chain of &&: the test comes after Google's own of a string.
#define VerifyString(s) VerifyString(s) && is_utf8(s)
#define VerifyVectorOfStrings(v) VerifyVectorOfStrings(v) && are_utf8(v)
#endif
#include "rows_generated.h"

using namespace flatbuffers;
using namespace rows;

static u64 text_sum(const String *s) { return s ? u64(s->size()) + (s->size() ? u64(s->Data()[0]) : 0) : 0; }
static u64 weapon(const Weapon *w) { return text_sum(w->name()) + u64(int64_t(w->damage())); }
static u64 wide_one(const Wide *w) { return text_sum(w->e()) + w->d(); }
static u64 wide_all(const Wide *w) {
  return u64(w->a()) + w->b() + w->c() + w->d() + (w->f() < 0) + w->g() + text_sum(w->e()) + text_sum(w->h());
}
static u64 weapons(const Vector<Offset<Weapon>> *v) {
  u64 sum = 0;
  if (v)
    for (const Weapon *w : *v) sum += weapon(w);
  return sum;
}
static u64 numbers_in(const Vector<uint32_t> *v) {
  u64 sum = 0;
  if (v)
    for (uint32_t x : *v) sum += x;
  return sum;
}
static u64 texts_in(const Vector<Offset<String>> *v) {
  u64 sum = 0;
  if (v)
    for (const String *s : *v) sum += text_sum(s);
  return sum;
}
static u64 monster(const Monster *m) {
  u64 sum = text_sum(m->name()) + u64(int64_t(m->hp())) + weapons(m->weapons());
  if (m->inventory()) sum += m->inventory()->size();
  if (auto w = m->equipped_as_Weapon()) sum += weapon(w);
  if (auto loot = m->loot())
    for (uoffset_t i = 0; i < loot->size(); i++)
      if (m->loot_type()->Get(i) == Equipment_Weapon) sum += weapon(loot->GetAs<Weapon>(i));
  return sum;
}
static u64 numbers(const Vectors *v) { return numbers_in(v->numbers()); }
static u64 texts(const Vectors *v) { return texts_in(v->texts()); }
static u64 tables(const Vectors *v) { return weapons(v->weapons()); }
static u64 person(const Person *p) { return text_sum(p->name()) + p->age(); }
static u64 ship(const Ship *s) {
  u64 sum = text_sum(s->name()) + s->hull() + numbers_in(s->cargo()) + texts_in(s->names());
  if (s->captain()) sum += person(s->captain());
  if (s->crew())
    for (const Person *p : *s->crew()) sum += person(p);
  if (auto p = s->owner_as_Person()) sum += person(p);
  if (auto c = s->owner_as_Firm()) sum += text_sum(c->title());
  return sum;
}

template<typename T, u64 (*F)(const T *)> static u64 reads(const u8 *p, size_t n, size_t stride, size_t rounds) {
  u64 sum = 0;
  for (size_t r = 0; r < rounds; r++) {
    asm volatile("" : : : "memory");  // else g++ sums once and multiplies
    for (size_t i = 0; i + stride <= n; i += stride) sum += F(GetRoot<T>(p + i));
  }
  return sum;
}
template<typename T> static bool passes(const u8 *p, size_t n) {
  Verifier v(p, n);
  return v.VerifyBuffer<T>(nullptr);
}
template<typename T> static u64 verifies(const u8 *p, size_t n, size_t stride, size_t rounds) {
  u64 passed = 0;
  for (size_t r = 0; r < rounds; r++) {
    asm volatile("" : : : "memory");
    for (size_t i = 0; i + stride <= n; i += stride) passed += passes<T>(p + i, stride);
  }
  return passed;
}
#define ROW(name, T) \
  extern "C" u64 bench_read_##name(const u8 *p, size_t n, size_t s, size_t r) { return reads<T, name>(p, n, s, r); } \
  extern "C" u64 bench_verify_##name(const u8 *p, size_t n, size_t s, size_t r) { return verifies<T>(p, n, s, r); }
ROW(weapon, Weapon)
ROW(wide_one, Wide)
ROW(wide_all, Wide)
ROW(monster, Monster)
ROW(numbers, Vectors)
ROW(texts, Vectors)
ROW(tables, Vectors)
ROW(ship, Ship)

// The buffers.
static Offset<String> letters(FlatBufferBuilder &b, size_t i, size_t size) {
  char text[64];
  for (size_t k = 0; k < sizeof text; k++) text[k] = char('a' + (i * 7 + k) % 26);
  return b.CreateString(text, size);
}
static Offset<Weapon> some_weapon(FlatBufferBuilder &b, size_t i) { return CreateWeapon(b, letters(b, i, 3), int16_t(i * 7 + 1)); }
template<typename F> static size_t make(u8 *out, size_t stride, size_t count, F one) {
  memset(out, 0, stride * count);
  for (size_t i = 0; i < count; i++) {
    FlatBufferBuilder b(1024);
    one(b, i);
    if (b.GetSize() > stride) return 0;
    memcpy(out + i * stride, b.GetBufferPointer(), b.GetSize());
  }
  return count;
}
#define MAKE(name) extern "C" size_t make_v_##name(u8 *out, size_t stride, size_t count)
MAKE(weapon) {
  return make(out, stride, count, [](FlatBufferBuilder &b, size_t i) { b.Finish(some_weapon(b, i)); });
}
MAKE(wide) {
  return make(out, stride, count, [](FlatBufferBuilder &b, size_t i) {
    auto e = letters(b, i, 3 + i % 30), h = letters(b, i + 5, 3 + i * 5 % 20);
    b.Finish(CreateWide(b, u8(i + 1), uint16_t(i + 300), uint32_t(i + 70000), u64(i) + 5000000000ull, e, int16_t(-5 - int(i)), true, h));
  });
}
MAKE(monster) {
  return make(out, stride, count, [](FlatBufferBuilder &b, size_t i) {
    auto axe = some_weapon(b, i);
    auto name = letters(b, i, 3 + i % 5);
    const u8 inventory[3] = {1, 2, 3}, types[2] = {1, 1};
    auto bytes = b.CreateVector(inventory, 3), kinds = b.CreateVector(types, 2);
    auto list = b.CreateVector(&axe, 1);
    const Offset<void> both[2] = {axe.Union(), axe.Union()};
    auto loot = b.CreateVector(both, 2);
    b.Finish(CreateMonster(b, int16_t(80 + i), name, bytes, list, Equipment_Weapon, axe.Union(), kinds, loot));
  });
}
MAKE(numbers) {
  return make(out, stride, count, [](FlatBufferBuilder &b, size_t i) {
    std::vector<uint32_t> v(256);
    for (size_t k = 0; k < v.size(); k++) v[k] = uint32_t((i * 256 + k) * 2654435761u);
    b.Finish(CreateVectors(b, b.CreateVector(v)));
  });
}
MAKE(texts) {
  return make(out, stride, count, [](FlatBufferBuilder &b, size_t i) {
    std::vector<Offset<String>> v;
    for (size_t k = 0; k < 32; k++) v.push_back(letters(b, i + k, 1 + (i + k) * 37 % 40));
    b.Finish(CreateVectors(b, 0, b.CreateVector(v)));
  });
}
MAKE(tables) {
  return make(out, stride, count, [](FlatBufferBuilder &b, size_t i) {
    std::vector<Offset<Weapon>> v;
    for (size_t k = 0; k < 32; k++) v.push_back(some_weapon(b, i + k));
    b.Finish(CreateVectors(b, 0, 0, b.CreateVector(v)));
  });
}
// Of every two ships one is owned by a person and one by a firm.
MAKE(ship) {
  return make(out, stride, count, [](FlatBufferBuilder &b, size_t i) {
    std::vector<Offset<Person>> crew;
    std::vector<Offset<String>> names;
    std::vector<uint32_t> cargo;
    for (size_t k = 0; k < 8; k++) {
      crew.push_back(CreatePerson(b, letters(b, i + k, 3 + (i + k) % 9), u8(20 + k)));
      cargo.push_back(uint32_t(i * 1000 + k));
      if (k < 3) names.push_back(letters(b, i * 3 + k, 4 + k));
    }
    auto captain = CreatePerson(b, letters(b, i, 6), 50);
    Offset<void> owner = i % 2 ? CreatePerson(b, letters(b, i, 5), 60).Union() : CreateCompany(b, letters(b, i, 12)).Union();
    auto name = letters(b, i, 4 + i % 8);
    auto goods = b.CreateVector(cargo);
    auto list = b.CreateVector(names);
    auto people = b.CreateVector(crew);
    b.Finish(CreateShip(b, name, uint16_t(90 + i % 20), goods, list, captain, people, i % 2 ? Owner_Person : Owner_Firm, owner));
  });
}
