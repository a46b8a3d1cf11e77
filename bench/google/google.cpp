// The workloads over Google's C++ flatbuffers, exported for the harness (the same C ABI). Readers are without a Verifier, as C++ code
// reads trusted bytes; verified.cpp has the rows of verification.
// Bit 0 of `caches` dedups vtables (DedupVtables, Google's default), bit 1 shares texts (CreateSharedString); byte lists are never shared.
#include <flatbuffers/flatbuffers.h>
#include <cstring>
#include <vector>
using namespace flatbuffers;
typedef uint8_t u8;
typedef uint64_t u64;

static const size_t CAPACITY = 1 << 18;

static u64 sum_of(const u8 *p, size_t n, size_t rounds) {
  if (rounds == 0) {
    u64 hash = 0xcbf29ce484222325ull;
    for (size_t i = 0; i < n; i++) hash = (hash ^ p[i]) * 0x100000001b3ull;
    return hash;
  }
  return u64(n) + ((n ? u64(p[0]) : 0) << 32);
}
static Offset<String> text(FlatBufferBuilder &b, const u8 *p, size_t n, size_t caches) {
  const char *c = reinterpret_cast<const char *>(p);
  return caches & 2 ? b.CreateSharedString(c, n) : b.CreateString(c, n);
}
static Offset<String> text(FlatBufferBuilder &b, const char *p, size_t caches) { return text(b, reinterpret_cast<const u8 *>(p), strlen(p), caches); }
static u64 finished(FlatBufferBuilder &b, size_t caches, size_t rounds) {
  b.Finish(text(b, "end", caches));
  return sum_of(b.GetBufferPointer(), b.GetSize(), rounds);
}
template<typename F> static u64 reused(size_t caches, size_t rounds, F work) {
  FlatBufferBuilder b(CAPACITY);
  b.DedupVtables(caches & 1);
  u64 sum = 0;
  for (size_t r = 0; r < (rounds ? rounds : 1); r++) {
    b.Clear();
    sum += work(b);
  }
  return sum;
}
template<typename F> static u64 anew(size_t caches, size_t rounds, F work) {
  u64 sum = 0;
  for (size_t r = 0; r < (rounds ? rounds : 1); r++) {
    FlatBufferBuilder b(16);
    b.DedupVtables(caches & 1);
    sum += work(b);
  }
  return sum;
}
#define EXPORT(name) extern "C" u64 bench_##name(const u8 *p, size_t n, size_t size, size_t caches, size_t rounds)

// What is written.
struct Weapon : private Table {
  enum { NAME = 4, DAMAGE = 6 };
  const String *name() const { return GetPointer<const String *>(NAME); }
  int16_t damage() const { return GetField<int16_t>(DAMAGE, 0); }
};
static Offset<Weapon> weapon(FlatBufferBuilder &b, Offset<String> name, int16_t damage) {
  auto start = b.StartTable();
  b.AddOffset(Weapon::NAME, name);
  b.AddElement<int16_t>(Weapon::DAMAGE, damage, 0);
  return Offset<Weapon>(b.EndTable(start));
}
struct Monster : private Table {
  enum { HP = 4, NAME = 6, INVENTORY = 8, WEAPONS = 10, EQUIPPED_TYPE = 12, EQUIPPED = 14, LOOT_TYPE = 16, LOOT = 18 };
  int16_t hp() const { return GetField<int16_t>(HP, 100); }
  const String *name() const { return GetPointer<const String *>(NAME); }
  const Vector<u8> *inventory() const { return GetPointer<const Vector<u8> *>(INVENTORY); }
  const Vector<Offset<Weapon>> *weapons() const { return GetPointer<const Vector<Offset<Weapon>> *>(WEAPONS); }
  u8 equipped_type() const { return GetField<u8>(EQUIPPED_TYPE, 0); }
  const Weapon *equipped() const { return equipped_type() == 1 ? GetPointer<const Weapon *>(EQUIPPED) : nullptr; }
  const Vector<u8> *loot_type() const { return GetPointer<const Vector<u8> *>(LOOT_TYPE); }
  const Vector<Offset<void>> *loot() const { return GetPointer<const Vector<Offset<void>> *>(LOOT); }
};
typedef Offset<Vector<Offset<Weapon>>> Weapons;
typedef Offset<Vector<u8>> Bytes;
typedef Offset<Vector<Offset<void>>> Values;
static Offset<Monster> monster(FlatBufferBuilder &b, int16_t hp, Offset<String> name, Bytes inventory, Weapons weapons, Offset<Weapon> equipped, Bytes types, Values loot) {
  auto start = b.StartTable();
  b.AddOffset(Monster::LOOT, loot);
  b.AddOffset(Monster::LOOT_TYPE, types);
  b.AddOffset(Monster::EQUIPPED, equipped);
  b.AddOffset(Monster::WEAPONS, weapons);
  b.AddOffset(Monster::INVENTORY, inventory);
  b.AddOffset(Monster::NAME, name);
  b.AddElement<int16_t>(Monster::HP, hp, 100);
  b.AddElement<u8>(Monster::EQUIPPED_TYPE, 1, 0);
  return Offset<Monster>(b.EndTable(start));
}
static Offset<Monster> whole(FlatBufferBuilder &b, const u8 *name, size_t size, size_t caches) {
  auto axe = weapon(b, text(b, "Axe", caches), 24);
  auto n = text(b, name, size, caches);
  const u8 inventory[3] = {1, 2, 3}, types[2] = {1, 1};
  auto i = b.CreateVector(inventory, 3);
  auto w = b.CreateVector(&axe, 1);
  const Offset<void> both[2] = {axe.Union(), axe.Union()};
  auto v = b.CreateVector(both, 2);
  auto t = b.CreateVector(types, 2);
  return monster(b, 80, n, i, w, axe, t, v);
}

EXPORT(texts) {
  return reused(caches, rounds, [&](FlatBufferBuilder &b) {
    for (size_t i = 0; i + size <= n; i += size) text(b, p + i, size, caches);
    return finished(b, caches, rounds);
  });
}
EXPORT(growth) {
  return anew(caches, rounds, [&](FlatBufferBuilder &b) {
    for (size_t i = 0; i + size <= n; i += size) text(b, p + i, size, caches);
    return finished(b, caches, rounds);
  });
}
extern "C" u64 bench_mixed(const u8 *p, size_t, const u8 *l, size_t m, size_t caches, size_t rounds) {
  return reused(caches, rounds, [&](FlatBufferBuilder &b) {
    const u8 *at = p;
    for (size_t i = 0; i < m; i++) {
      text(b, at, l[i], caches);
      at += l[i];
    }
    return finished(b, caches, rounds);
  });
}
EXPORT(blocks) {
  return reused(caches, rounds, [&](FlatBufferBuilder &b) {
    for (size_t i = 0; i + 8 <= n; i += 8) {
      u64 word;
      memcpy(&word, p + i, 8);
      b.PushElement<u64>(word);
    }
    return finished(b, caches, rounds);
  });
}
EXPORT(blobs) {
  return reused(caches, rounds, [&](FlatBufferBuilder &b) {
    for (size_t i = 0; i + size <= n; i += size) {
      b.ForceVectorAlignment(size, 1, 8);
      b.PushBytes(p + i, size);
    }
    return finished(b, caches, rounds);
  });
}
EXPORT(numbers) {
  std::vector<uint32_t> v(n / 4);
  memcpy(v.data(), p, v.size() * 4);
  return reused(caches, rounds, [&](FlatBufferBuilder &b) {
    for (size_t i = 0; i + size <= v.size(); i += size) b.CreateVector(v.data() + i, size);
    return finished(b, caches, rounds);
  });
}
EXPORT(text_lists) {
  return reused(caches, rounds, [&](FlatBufferBuilder &b) {
    for (size_t i = 0; i + 64 * size <= n; i += 64 * size) {
      std::vector<Offset<String>> offsets(64);
      for (size_t k = 0; k < 64; k++) offsets[k] = text(b, p + i + k * size, size, caches);
      b.CreateVector(offsets.data(), 64);
    }
    return finished(b, caches, rounds);
  });
}
EXPORT(byte_lists) {
  return reused(caches, rounds, [&](FlatBufferBuilder &b) {
    for (size_t i = 0; i + size <= n; i += size) b.CreateVector(p + i, size);
    return finished(b, caches, rounds);
  });
}
EXPORT(growing_bytes) {
  return anew(caches, rounds, [&](FlatBufferBuilder &b) {
    for (size_t i = 0; i + size <= n; i += size) b.CreateVector(p + i, size);
    return finished(b, caches, rounds);
  });
}
EXPORT(small_tables) {
  return reused(caches, rounds, [&](FlatBufferBuilder &b) {
    auto name = text(b, "Axe", caches);
    for (size_t i = 0; i + 2 <= n; i += 2) weapon(b, name, int16_t(p[i] | p[i + 1] << 8) | 1);
    return finished(b, caches, rounds);
  });
}
EXPORT(large_tables) {
  return reused(caches, rounds, [&](FlatBufferBuilder &b) {
    auto name = text(b, "Orc", caches);
    const u8 inventory[3] = {1, 2, 3}, types[2] = {1, 1};
    auto i = b.CreateVector(inventory, 3);
    auto axe = weapon(b, text(b, "Axe", caches), 24);
    auto w = b.CreateVector(&axe, 1);
    const Offset<void> both[2] = {axe.Union(), axe.Union()};
    auto v = b.CreateVector(both, 2);
    auto t = b.CreateVector(types, 2);
    for (size_t k = 0; k + 2 <= n; k += 2) monster(b, int16_t(p[k] | p[k + 1] << 8) | 1, name, i, w, axe, t, v);
    return finished(b, caches, rounds);
  });
}
EXPORT(monsters) {
  return reused(caches, rounds, [&](FlatBufferBuilder &b) {
    for (size_t i = 0; i + size <= n; i += size) whole(b, p + i, size, caches);
    return finished(b, caches, rounds);
  });
}
EXPORT(messages) {
  return reused(caches, rounds, [&](FlatBufferBuilder &b) {
    u64 sum = 0;
    for (size_t i = 0; i + size <= n; i += size) {
      b.Clear();
      b.Finish(weapon(b, text(b, p + i, size, caches), 24));
      sum += sum_of(b.GetBufferPointer(), b.GetSize(), rounds);
    }
    return sum;
  });
}
EXPORT(after_texts) {
  FlatBufferBuilder b(CAPACITY);
  u64 sum = 0;
  for (size_t i = 0; i + size <= n; i += size) text(b, p + i, size, caches);
  for (size_t r = 0; r < (rounds ? rounds : 1); r++)
    for (size_t i = 0; i < 1000; i++) {
      b.Clear();
      text(b, p + i * size, size, caches);
      sum += finished(b, caches, rounds);
    }
  return sum;
}
EXPORT(after_large) {
  FlatBufferBuilder b(CAPACITY);
  b.DedupVtables(caches & 1);
  u64 sum = 0;
  for (size_t i = 0; i + size <= n; i += size) text(b, p + i, size, caches);
  for (size_t r = 0; r < (rounds ? rounds : 1); r++)
    for (size_t i = 0; i < 1000; i++) {
      b.Clear();
      b.Finish(weapon(b, text(b, p + i * size, size, caches), 24));
      sum += sum_of(b.GetBufferPointer(), b.GetSize(), rounds);
    }
  return sum;
}
EXPORT(monster_messages) {
  return reused(caches, rounds, [&](FlatBufferBuilder &b) {
    u64 sum = 0;
    for (size_t i = 0; i + size <= n; i += size) {
      b.Clear();
      b.Finish(whole(b, p + i, size, caches));
      sum += sum_of(b.GetBufferPointer(), b.GetSize(), rounds);
    }
    return sum;
  });
}

// What is read.
struct Wide : private Table {
  enum { A = 4, B = 6, C = 8, D = 10, E = 12, F = 14, G = 16, H = 18 };
  uint8_t a() const { return GetField<uint8_t>(A, 0); }
  uint16_t b() const { return GetField<uint16_t>(B, 0); }
  uint32_t c() const { return GetField<uint32_t>(C, 0); }
  u64 d() const { return GetField<u64>(D, 0); }
  const String *e() const { return GetPointer<const String *>(E); }
  int16_t f() const { return GetField<int16_t>(F, 0); }
  bool g() const { return GetField<uint8_t>(G, 0) != 0; }
  const String *h() const { return GetPointer<const String *>(H); }
};
static u64 text_sum(const String *s) { return u64(s->size()) + (s->size() ? u64(s->Data()[0]) : 0); }
static u64 one(const Weapon *w) { return text_sum(w->name()) + u64(int64_t(w->damage())); }
static u64 two(const Wide *w) { return text_sum(w->e()) + w->d(); }
static u64 all(const Wide *w) {
  return u64(w->a()) + w->b() + w->c() + w->d() + (w->f() < 0) + w->g() + text_sum(w->e()) + text_sum(w->h());
}
typedef Vector<uint32_t> Numbers;
typedef Vector<Offset<String>> Texts;
typedef Vector<Offset<Weapon>> WeaponList;
static u64 sum_iter(const Numbers *v) {
  u64 sum = 0;
  for (uint32_t x : *v) sum += x;
  return sum;
}
static u64 sum_get(const Numbers *v) {
  u64 sum = 0;
  for (uoffset_t i = 0; i < v->size(); i++) sum += v->Get(i);
  return sum;
}
static u64 texts_iter(const Texts *v) {
  u64 sum = 0;
  for (const String *s : *v) sum += text_sum(s);
  return sum;
}
static u64 tables_iter(const WeaponList *v) {
  u64 sum = 0;
  for (const Weapon *w : *v) sum += one(w);
  return sum;
}
static u64 unions_iter(const Monster *m) {
  u64 sum = 0;
  for (uoffset_t i = 0; i < m->loot()->size(); i++)
    if (m->loot_type()->Get(i) == 1) sum += one(m->loot()->GetAs<Weapon>(i));
  return sum;
}
static u64 monster_all(const Monster *m) {
  u64 sum = text_sum(m->name()) + u64(int64_t(m->hp()));
  if (m->inventory()) sum += m->inventory()->size();
  if (m->weapons()) sum += tables_iter(m->weapons());
  if (m->equipped()) sum += one(m->equipped());
  if (m->loot()) sum += unions_iter(m);
  return sum;
}
template<typename T, u64 (*F)(const T *)> static u64 reads(const u8 *p, size_t n, size_t stride, size_t rounds) {
  u64 sum = 0;
  for (size_t r = 0; r < rounds; r++) {
    asm volatile("" : : : "memory");  // else g++ sums once and multiplies
    for (size_t i = 0; i + stride <= n; i += stride) sum += F(GetRoot<T>(p + i));
  }
  return sum;
}
#define READS(name, T, F) \
  extern "C" u64 bench_##name(const u8 *p, size_t n, size_t s, size_t r) { return reads<T, F>(p, n, s, r); }
READS(weapons, Weapon, one)
READS(wide, Wide, two)
READS(wide_all, Wide, all)
READS(sum_iter, Numbers, sum_iter)
READS(sum_get, Numbers, sum_get)
READS(texts_iter, Texts, texts_iter)
READS(tables_iter, WeaponList, tables_iter)
READS(unions_iter, Monster, unions_iter)
READS(monster_all, Monster, monster_all)

// Makes the buffers that are read: `count` of them, each in `stride` bytes of out, zeros behind it. Those with one buffer answer its size.
static bool put(FlatBufferBuilder &b, u8 *out, size_t stride, size_t i) {
  if (b.GetSize() > stride) return false;
  memcpy(out + i * stride, b.GetBufferPointer(), b.GetSize());
  return true;
}
static Offset<Weapon> some_weapon(FlatBufferBuilder &b, size_t i) {
  char name[4] = {char('A' + i % 26), char('a' + i % 25), char('a' + i % 24), 0};
  return weapon(b, b.CreateString(name, 3), int16_t(i * 7 + 1));
}
extern "C" size_t make_weapons(u8 *out, size_t stride, size_t count) {
  memset(out, 0, stride * count);
  for (size_t i = 0; i < count; i++) {
    FlatBufferBuilder b(256);
    b.Finish(some_weapon(b, i));
    if (!put(b, out, stride, i)) return 0;
  }
  return count;
}
extern "C" size_t make_wide(u8 *out, size_t stride, size_t count) {
  memset(out, 0, stride * count);
  for (size_t i = 0; i < count; i++) {
    FlatBufferBuilder b(256);
    char text[64];
    for (size_t k = 0; k < sizeof text; k++) text[k] = char('a' + (i + k) % 26);
    auto e = b.CreateString(text, 3 + i % 30);
    auto h = b.CreateString(text + 5, 3 + (i * 5) % 20);
    auto start = b.StartTable();
    b.AddElement<uint8_t>(Wide::A, uint8_t(i + 1), 0);
    b.AddElement<uint16_t>(Wide::B, uint16_t(i + 300), 0);
    b.AddElement<uint32_t>(Wide::C, uint32_t(i + 70000), 0);
    b.AddElement<u64>(Wide::D, u64(i) + 5000000000ull, 0);
    b.AddOffset(Wide::E, e);
    b.AddElement<int16_t>(Wide::F, int16_t(-5 - int(i)), 0);
    b.AddElement<uint8_t>(Wide::G, 1, 0);
    b.AddOffset(Wide::H, h);
    b.Finish(Offset<Wide>(b.EndTable(start)));
    if (!put(b, out, stride, i)) return 0;
  }
  return count;
}
extern "C" size_t make_monster_all(u8 *out, size_t stride, size_t count) {
  memset(out, 0, stride * count);
  for (size_t i = 0; i < count; i++) {
    FlatBufferBuilder b(256);
    const char *name = "OrcElfGobRat" + i % 4 * 3;
    b.Finish(whole(b, reinterpret_cast<const u8 *>(name), 3, 0));
    if (!put(b, out, stride, i)) return 0;
  }
  return count;
}
static size_t made(FlatBufferBuilder &b, u8 *out, size_t room) {
  if (b.GetSize() > room) return 0;
  memcpy(out, b.GetBufferPointer(), b.GetSize());
  return b.GetSize();
}
extern "C" size_t make_numbers(u8 *out, size_t room, size_t count) {
  FlatBufferBuilder b(room);
  std::vector<uint32_t> v(count);
  for (size_t i = 0; i < count; i++) v[i] = uint32_t(i * 2654435761u);
  b.Finish(Offset<Numbers>(b.CreateVector(v).o));
  return made(b, out, room);
}
extern "C" size_t make_texts_iter(u8 *out, size_t room, size_t count) {
  FlatBufferBuilder b(room);
  std::vector<Offset<String>> v;
  char text[64];
  for (size_t k = 0; k < sizeof text; k++) text[k] = char('a' + k % 26);
  for (size_t i = 0; i < count; i++) v.push_back(b.CreateString(text + i % 20, 1 + i * 37 % 40));
  b.Finish(Offset<Texts>(b.CreateVector(v).o));
  return made(b, out, room);
}
extern "C" size_t make_tables_iter(u8 *out, size_t room, size_t count) {
  FlatBufferBuilder b(room);
  std::vector<Offset<Weapon>> v;
  for (size_t i = 0; i < count; i++) v.push_back(some_weapon(b, i));
  b.Finish(Offset<WeaponList>(b.CreateVector(v).o));
  return made(b, out, room);
}
extern "C" size_t make_unions_iter(u8 *out, size_t room, size_t count) {
  FlatBufferBuilder b(room);
  std::vector<Offset<void>> v;
  std::vector<u8> t(count, 1);
  for (size_t i = 0; i < count; i++) v.push_back(some_weapon(b, i).Union());
  auto name = b.CreateString("Orc");
  auto values = b.CreateVector(v);
  auto types = b.CreateVector(t);
  auto start = b.StartTable();
  b.AddOffset(Monster::LOOT, values);
  b.AddOffset(Monster::LOOT_TYPE, types);
  b.AddOffset(Monster::NAME, name);
  b.Finish(Offset<Monster>(b.EndTable(start)));
  return made(b, out, room);
}
