// The harness. Each contestant is a shared library, or two (without caches, with them), with the same exports. Each row is timed for all of
// them in turn, over and over, in one process on one processor, by the thread's CPU time. Printed are tables in Markdown: the median time of
// an operation of the first column, and for each other column the ratio of the first's time to its, as the median of neighbouring turns
// with their quartiles. Below 1 the first is faster.
//   harness [--turns N] [--ms N] [--only WORD] [--scaling] NAME=LIB.so[,CACHES.so] ..
//   harness --peak WORK N NAME=LIB.so[,CACHES.so]      one round of a work; prints by how many KiB the peak of memory rose
#include <dlfcn.h>
#include <malloc.h>
#include <sched.h>
#include <time.h>
#include <algorithm>
#include <cmath>
#include <cstdint>
#include <cstdio>
#include <cstdlib>
#include <cstring>
#include <functional>
#include <map>
#include <string>
#include <vector>
typedef uint8_t u8;
typedef uint64_t u64;
using std::string;
using std::vector;

typedef u64 (*Write)(const u8 *, size_t, size_t, size_t, size_t);                      // data, a size, caches, rounds
typedef u64 (*Mixed)(const u8 *, size_t, const u8 *, size_t, size_t, size_t);          // data, lengths, caches, rounds
typedef u64 (*Read)(const u8 *, size_t, size_t, size_t);                               // data, stride, rounds
typedef u64 (*Plain)(const u8 *, size_t, size_t);                                      // data, rounds
typedef size_t (*Make)(u8 *, size_t, size_t);                                          // out, room or stride, count

static double now() {
  timespec t;
  clock_gettime(CLOCK_THREAD_CPUTIME_ID, &t);
  return t.tv_sec * 1e9 + t.tv_nsec;
}
static double quantile(vector<double> v, double q) {
  std::sort(v.begin(), v.end());
  double at = q * (v.size() - 1);
  size_t i = size_t(at);
  return i + 1 < v.size() ? v[i] + (at - i) * (v[i + 1] - v[i]) : v[i];
}
static u64 seed = 88172645463325252ull;
static u64 rnd() {
  seed ^= seed << 13;
  seed ^= seed >> 7;
  seed ^= seed << 17;
  return seed;
}
static vector<u8> letters(size_t n) {
  vector<u8> v(n);
  for (auto &b : v) b = u8('a' + rnd() % 26);
  return v;
}
static vector<u8> noise(size_t n) {
  vector<u8> v(n);
  for (auto &b : v) b = u8(rnd());
  return v;
}
// `count` texts of `size` bytes, drawn from `kinds` different ones: the k-th with a weight of 1 / k.
static vector<u8> zipf(size_t count, size_t size, size_t kinds) {
  vector<u8> pool = letters(kinds * size), v;
  vector<double> up(kinds);
  double all = 0;
  for (size_t k = 0; k < kinds; k++) up[k] = all += 1.0 / double(k + 1);
  for (size_t i = 0; i < count; i++) {
    double x = double(rnd() >> 11) / double(1ull << 53) * all;
    size_t k = std::min<size_t>(kinds - 1, size_t(std::lower_bound(up.begin(), up.end(), x) - up.begin()));
    v.insert(v.end(), pool.begin() + long(k * size), pool.begin() + long((k + 1) * size));
  }
  return v;
}
static vector<u8> equal(size_t count, size_t size) {
  vector<u8> one = letters(size), v;
  for (size_t i = 0; i < count; i++) v.insert(v.end(), one.begin(), one.end());
  return v;
}

struct Lib {
  string name;
  void *plain, *caching;
};
// A column of a table: whose library, and which export.
struct Side {
  string title, lib, prefix;
};
struct Group {
  string title, unit;
  vector<Side> sides;
};
struct Row {
  string name, key;
  double ops;       // operations a round
  bool caches;      // from the libraries with caches
  bool writes;      // with no rounds it returns a hash of its bytes
  std::function<u64(void *, size_t)> call;  // the export, rounds
};
struct Table {
  Group group;
  vector<Row> rows;
};

static vector<u8> *keep(vector<u8> v) { return new vector<u8>(std::move(v)); }
static Row writing(string name, string key, double ops, size_t caches, vector<u8> *v, size_t size) {
  return {name, key, ops, caches != 0, true, [v, size, caches](void *f, size_t r) { return ((Write)f)(v->data(), v->size(), size, caches, r); }};
}
static Row reading(string name, string key, double ops, vector<u8> *v, size_t stride) {
  return {name, key, ops, false, false, [v, stride](void *f, size_t r) { return ((Read)f)(v->data(), v->size(), stride, r); }};
}

// Google's library makes the buffers that are read: one, or `count` of them, each in `room` bytes.
static vector<u8> *made(const vector<Lib> &libs, const string &name, size_t room, size_t count, bool many = false) {
  for (auto &l : libs)
    if (Make make = (Make)dlsym(l.plain, ("make_" + name).c_str())) {
      vector<u8> v(many ? room * count : room);
      size_t n = make(v.data(), room, count);
      if (n == 0) break;
      if (!many) v.resize(n);
      return keep(v);
    }
  fprintf(stderr, "no make_%s, or too large\n", name.c_str());
  exit(2);
}
// The same export of each contestant, the first named first.
static vector<Side> all_of(const vector<Lib> &libs) {
  vector<Side> sides;
  for (auto &l : libs)
    if (l.name != "google_utf8") sides.push_back({l.name, l.name, "bench_"});
  return sides;
}

static vector<Table> tables(const vector<Lib> &libs) {
  vector<Row> off, on;
  auto w = [&](string name, string key, double ops, size_t caches, vector<u8> *v, size_t size) {
    (caches ? on : off).push_back(writing(name, key, ops, caches, v, size));
  };
  w("1a create_string 3 bytes, 1000, reused", "texts", 1000, 0, keep(letters(3 * 1000)), 3);
  w("1b create_string 100 bytes, 1000, reused", "texts", 1000, 0, keep(letters(100 * 1000)), 100);
  {
    auto mixed = keep(letters(61 * 1000)), lengths = keep(vector<u8>(1000));
    for (auto &b : *lengths) b = u8(rnd() % 61);
    off.push_back({"1c create_string 0 to 60 bytes, 1000, reused", "mixed", 1000, false, true, [=](void *f, size_t r) {
                     return ((Mixed)f)(mixed->data(), mixed->size(), lengths->data(), lengths->size(), 0, r);
                   }});
  }
  w("1d 1000 different strings of 20 bytes", "texts", 1000, 7, keep(letters(20 * 1000)), 20);
  w("1e 1000 different strings of 100 bytes", "texts", 1000, 7, keep(letters(100 * 1000)), 100);
  w("1f 1000 equal strings of 20 bytes", "texts", 1000, 7, keep(equal(1000, 20)), 20);
  w("1g 1000 equal strings of 100 bytes", "texts", 1000, 7, keep(equal(1000, 100)), 100);
  w("1h 10000 strings of 20 bytes, Zipf of 1000", "texts", 10000, 7, keep(zipf(10000, 20, 1000)), 20);
  w("2a growth: 10000 x 100 bytes, new builder", "growth", 10000, 0, keep(letters(100 * 10000)), 100);
  w("2b growth to 16 MiB: byte vectors of 1024, new builder", "growing_bytes", 16320, 0, keep(noise(1024 * 16320)), 1024);
  w("3a write_with 8 bytes align 8, 1000", "blocks", 1000, 0, keep(noise(8 * 1000)), 8);
  w("3b write_with 4096 bytes align 8, 50", "blobs", 50, 0, keep(noise(4096 * 50)), 4096);
  w("4a create_vector u32, 4 items, 1000", "numbers", 1000, 0, keep(noise(4 * 4 * 1000)), 4);
  w("4b create_vector u32, 64 items, 500", "numbers", 500, 0, keep(noise(4 * 64 * 500)), 64);
  w("4c create_vector u32, 4096 items, 10", "numbers", 10, 0, keep(noise(4 * 4096 * 10)), 4096);
  w("4d create_vector of 64 strings of 10 bytes, 20", "text_lists", 20, 0, keep(letters(64 * 10 * 20)), 10);
  w("4e create_vector of 64 strings, Zipf of 200, 20", "text_lists", 20, 7, keep(zipf(64 * 20, 10, 200)), 10);
  w("5a byte vector of 100, 1000", "byte_lists", 1000, 0, keep(noise(100 * 1000)), 100);
  w("5b byte vector of 64 KiB, 3", "byte_lists", 3, 0, keep(noise(65536 * 3)), 65536);
  w("5c different byte vectors of 100, 1000", "byte_lists", 1000, 7, keep(noise(100 * 1000)), 100);
  w("5d different byte vectors of 64 KiB, 3", "byte_lists", 3, 7, keep(noise(65536 * 3)), 65536);
  w("6a table of 2 fields, 1000", "small_tables", 1000, 0, keep(noise(2 * 1000)), 0);
  w("6b table of 2 fields, 1000", "small_tables", 1000, 7, keep(noise(2 * 1000)), 0);
  w("6c table of 8 fields, 1000", "large_tables", 1000, 0, keep(noise(2 * 1000)), 0);
  w("6d table of 8 fields, 1000", "large_tables", 1000, 7, keep(noise(2 * 1000)), 0);
  w("6e whole monsters in one buffer, 500", "monsters", 500, 0, keep(letters(3 * 500)), 3);
  w("6f whole monsters in one buffer, 500", "monsters", 500, 7, keep(letters(3 * 500)), 3);
  w("7a clear, weapon, finish, 1000", "messages", 1000, 0, keep(letters(8 * 1000)), 8);
  w("7b clear, weapon, finish, 1000", "messages", 1000, 7, keep(letters(8 * 1000)), 8);
  w("7c clear, monster, finish, 1000", "monster_messages", 1000, 0, keep(letters(8 * 1000)), 8);
  w("7d clear, monster, finish, 1000", "monster_messages", 1000, 7, keep(letters(8 * 1000)), 8);
  w("7e clear, weapon, finish, 1000, after 10000 strings", "after_large", 1000, 0, keep(letters(8 * 10000)), 8);
  w("7f clear, weapon, finish, 1000, after 10000 strings", "after_large", 1000, 7, keep(letters(8 * 10000)), 8);
  w("7g clear, string, finish, 1000, after 1000 strings", "after_texts", 1000, 7, keep(letters(8 * 1000)), 8);
  w("7h clear, string, finish, 1000, after 10000 strings", "after_texts", 1000, 7, keep(letters(8 * 10000)), 8);
  w("7i clear, string, finish, 1000, after 100000 strings", "after_texts", 1000, 7, keep(letters(8 * 100000)), 8);
  w("7j clear, string, finish, 1000, after 100000 strings", "after_texts", 1000, 0, keep(letters(8 * 100000)), 8);

  const size_t COUNT = 64;
  vector<Row> reads, vectors;
  auto r = [&](vector<Row> &to, string name, string key, double ops, vector<u8> *v, size_t stride = 0) {
    to.push_back(reading(name, key, ops, v, stride ? stride : v->size()));
  };
  auto weapons = made(libs, "weapons", 32, COUNT, true), wide = made(libs, "wide", 128, COUNT, true);
  auto monsters = made(libs, "monster_all", 192, COUNT, true), numbers = made(libs, "numbers", 1 << 16, 4096);
  auto texts = made(libs, "texts_iter", 1 << 16, 64), items = made(libs, "tables_iter", 1 << 16, 64);
  auto unions = made(libs, "unions_iter", 1 << 16, 64);
  r(reads, "8a weapon: root, number, string", "weapons", COUNT, weapons, 32);
  r(reads, "8b table of 8 fields: root, a number, a string", "wide", COUNT, wide, 128);
  r(reads, "8c table of 8 fields: root, all 8", "wide_all", COUNT, wide, 128);
  r(reads, "8d a whole monster", "monster_all", COUNT, monsters, 192);
  r(vectors, "9a 4096 numbers: iter()", "sum_iter", 4096, numbers);
  r(vectors, "9b 4096 numbers: get(i)", "sum_get", 4096, numbers);
  r(vectors, "9c 4096 numbers: chunks(16)", "sum_chunks", 4096, numbers);
  r(vectors, "9d 4096 numbers: windows(4)", "sum_windows", 4 * 4093, numbers);
  r(vectors, "9e 64 strings", "texts_iter", 64, texts);
  r(vectors, "9f 64 tables of 2 fields", "tables_iter", 64, items);
  r(vectors, "9g 64 unions of such tables", "unions_iter", 64, unions);

  // The rows of verification have the same buffers in three tables.
  struct Kind {
    string name, key;
    size_t count;
    vector<u8> *buffers;
  };
  vector<Kind> kinds;
  auto v = [&](string name, string key, string maker, size_t stride, size_t count) {
    kinds.push_back({name, key, count, made(libs, "v_" + maker, stride, count, true)});
  };
  v("v1 weapon", "weapon", "weapon", 32, COUNT);
  v("v2 table of 8 fields: a number, a string", "wide_one", "wide", 128, COUNT);
  v("v3 table of 8 fields: all 8", "wide_all", "wide", 128, COUNT);
  v("v4 monster", "monster", "monster", 192, COUNT);
  v("v5 vector of 256 numbers", "numbers", "numbers", 1088, 16);
  v("v6 vector of 32 strings", "texts", "texts", 1536, 16);
  v("v7 vector of 32 tables", "tables", "tables", 1536, 16);
  v("v9 ship with a crew of 8", "ship", "ship", 768, 16);
  vector<Row> verified;
  for (auto &k : kinds) r(verified, k.name, k.key, double(k.count), k.buffers, k.buffers->size() / k.count);

  vector<Row> structs;
  auto rows = keep(noise(64 * COUNT));
  r(structs, "s1 reading: 27 values in 64 bytes", "read", COUNT, rows, 64);
  structs.push_back(writing("s2 reading and writing by itself, 1000", "write", 1000, 0, keep(noise(64 * 1000)), 64));

  auto sides = all_of(libs);
  string first = libs[0].name;
  return {
      {{"Writing, caches off", "operation", sides}, off},
      {{"Writing, caches on", "operation", sides}, on},
      {{"Reading untrusted bytes (Google: without tests)", "buffer", sides}, reads},
      {{"Vectors of untrusted bytes (Google: without tests)", "item", sides}, vectors},
      {{"Structs with arrays",
        "struct",
        {{"arrays", first, "bench_arrays_"}, {"single fields", first, "bench_singles_"}}},
       structs},
      {{"Verified reading",
        "buffer",
        {{"verified", first, "bench_verified_"}, {"checked", first, "bench_checked_"}, {"google, no tests", "google", "bench_read_"}}},
       verified},
      {{"Verification",
        "buffer",
        {{"verify", first, "bench_verify_"}, {"google Verifier", "google", "bench_verify_"}, {"and UTF-8", "google_utf8", "bench_verify_"}}},
       verified},
      {{"Verification and one reading",
        "buffer",
        {{"verify, read", first, "bench_both_"}, {"checked", first, "bench_checked_"}}},
       verified},
  };
}

// The same work for growing numbers of items. Strings are different, of 8 bytes.
static vector<Table> scaling(const vector<Lib> &libs) {
  vector<Row> all;
  for (size_t n : {10, 1000, 100000, 10000000}) {
    string s = ", n = " + std::to_string(n);
    all.push_back(writing("S1 strings of 8 bytes, caches on" + s, "texts", double(n), 7, keep(letters(8 * n)), 8));
    all.push_back(writing("S2 strings of 8 bytes, caches off" + s, "texts", double(n), 0, keep(letters(8 * n)), 8));
    all.push_back(writing("S3 new builder, strings of 8 bytes, caches off" + s, "growth", double(n), 0, keep(letters(8 * n)), 8));
    all.push_back(writing("S4 new builder, strings of 8 bytes, caches on" + s, "growth", double(n), 7, keep(letters(8 * n)), 8));
    all.push_back(writing("S5 create_vector of n u32" + s, "numbers", double(n), 0, keep(noise(4 * n)), n));
    all.push_back(writing("S6 tables of 2 fields, vtable cache on" + s, "small_tables", double(n), 7, keep(noise(2 * n)), 0));
    auto v = made(libs, "numbers", 4 * n + 64, n);
    all.push_back(reading("S7 Vector<u32> iter()" + s, "sum_iter", double(n), v, v->size()));
  }
  return {{{"Growing numbers of items", "item", all_of(libs)}, all}};
}

// What --peak measures: one round with n operations.
static Row peak_work(const string &key, size_t n) {
  if (key == "texts-caches") return writing(key, "texts", double(n), 7, keep(letters(8 * n)), 8);
  if (key == "texts") return writing(key, "texts", double(n), 0, keep(letters(8 * n)), 8);
  if (key == "numbers") return writing(key, "numbers", double(n), 0, keep(noise(4 * n)), n);
  if (key == "text-list") return writing(key, "text_lists", double(n), 0, keep(letters(8 * n)), 8);
  if (key == "bytes-growth") return writing(key, "growing_bytes", double(n), 0, keep(noise(1024 * n)), 1024);
  if (key == "bytes-caches") return writing(key, "byte_lists", double(n), 7, keep(noise(100 * n)), 100);
  if (key == "tables") return writing(key, "small_tables", double(n), 7, keep(noise(2 * n)), 0);
  fprintf(stderr, "texts-caches texts numbers text-list bytes-growth bytes-caches tables\n");
  exit(2);
}
static long peak_kib() {
  long kib = 0;
  FILE *f = fopen("/proc/self/status", "r");
  char line[256];
  while (f && fgets(line, sizeof line, f))
    if (sscanf(line, "VmHWM: %ld", &kib) == 1) break;
  if (f) fclose(f);
  return kib;
}
static void reset_peak() {
  if (FILE *f = fopen("/proc/self/clear_refs", "w")) {
    fputs("5", f);
    fclose(f);
  }
}

// A row's times, by its columns.
struct One {
  const Lib *lib;
  void *f;
  vector<double> ns;
  u64 sum, hash;
};
static int differ = 0;

static void time_row(const Row &w, vector<One> &ones, int turns, double ms) {
  // The bytes that are written, by a hash of all of them, before anything is timed.
  if (w.writes)
    for (auto &o : ones) o.hash = w.call(o.f, 0);
  // Rounds for a turn of about `ms`, the same number for all: from the first column. Also warms up.
  size_t rounds = 1;
  w.call(ones[0].f, 2);
  for (;;) {
    double t = now();
    w.call(ones[0].f, rounds);
    t = now() - t;
    if (t > ms * 5e5) {
      rounds = std::max<size_t>(1, size_t(double(rounds) * ms * 1e6 / t));
      break;
    }
    rounds *= 2;
  }
  for (auto &o : ones) o.sum = w.call(o.f, rounds);
  for (int turn = 0; turn < turns; turn++)
    for (size_t k = 0; k < ones.size(); k++) {
      One &o = ones[(k + size_t(turn)) % ones.size()];
      double t = now();
      u64 sum = w.call(o.f, rounds);
      t = now() - t;
      if (sum != o.sum) {
        printf("SUM CHANGED: %s\n", o.lib->name.c_str());
        exit(1);
      }
      o.ns.push_back(t / (double(rounds) * w.ops));
    }
  for (auto &o : ones) {
    bool is_google = o.lib->name.compare(0, 6, "google") == 0;
    bool same = w.writes ? o.hash == ones[0].hash : o.sum == ones[0].sum;
    if (!same && !(is_google && w.writes)) {
      printf("DIFFERENT %s: %s, %s\n", w.writes ? "BYTES" : "SUMS", w.name.c_str(), o.lib->name.c_str());
      differ++;
    }
  }
}

static void print_table(const Table &table, const vector<Lib> &libs, const string &only, int turns, double ms) {
  std::map<string, const Lib *> by_name;
  for (auto &l : libs) by_name[l.name] = &l;
  auto &sides = table.group.sides;
  vector<vector<double>> logs(sides.size());
  bool begun = false;
  for (auto &w : table.rows) {
    if (!only.empty() && (w.name + table.group.title).find(only) == string::npos) continue;
    vector<One> ones;
    vector<size_t> at;
    for (size_t k = 0; k < sides.size(); k++) {
      auto l = by_name.find(sides[k].lib);
      void *f = l == by_name.end() ? nullptr : dlsym(w.caches ? l->second->caching : l->second->plain, (sides[k].prefix + w.key).c_str());
      if (f) ones.push_back({l->second, f, {}, 0, 0}), at.push_back(k);
    }
    if (ones.empty() || at[0] != 0) {
      fprintf(stderr, "%s: %s doesn't have it\n", w.name.c_str(), sides[0].title.c_str());
      continue;
    }
    time_row(w, ones, turns, ms);
    if (!begun) {
      printf("\n**%s**\n\n| | %s, ns a%s %s |", table.group.title.c_str(), sides[0].title.c_str(), strchr("aeiou", table.group.unit[0]) ? "n" : "", table.group.unit.c_str());
      for (size_t k = 1; k < sides.size(); k++) printf(" / %s |", sides[k].title.c_str());
      printf("\n|");
      for (size_t k = 0; k <= sides.size(); k++) printf("---|");
      printf("\n");
      begun = true;
    }
    printf("| %s | %.2f |", w.name.c_str(), quantile(ones[0].ns, 0.5));
    for (size_t k = 1, i = 1; k < sides.size(); k++) {
      if (i >= at.size() || at[i] != k) {
        printf(" |");
        continue;
      }
      vector<double> r;
      for (int t = 0; t < turns; t++) r.push_back(ones[0].ns[size_t(t)] / ones[i].ns[size_t(t)]);
      printf(" %.2f (%.2f to %.2f) |", quantile(r, 0.5), quantile(r, 0.25), quantile(r, 0.75));
      logs[k].push_back(std::log(quantile(r, 0.5)));
      i++;
    }
    printf("\n");
    fflush(stdout);
  }
  if (!begun) return;
  printf("| geometric mean | |");
  for (size_t k = 1; k < sides.size(); k++) {
    double s = 0;
    for (double x : logs[k]) s += x;
    if (logs[k].empty()) printf(" |");
    else printf(" **%.2f** |", std::exp(s / double(logs[k].size())));
  }
  printf("\n");
}

int main(int argc, char **argv) {
  int turns = 41;
  double ms = 10;
  string only, peak;
  size_t peak_n = 0;
  bool scales = false;
  vector<Lib> libs;
  for (int i = 1; i < argc; i++) {
    string a = argv[i];
    if (a == "--turns") turns = atoi(argv[++i]);
    else if (a == "--ms") ms = atof(argv[++i]);
    else if (a == "--only") only = argv[++i];
    else if (a == "--scaling") scales = true;
    else if (a == "--peak") peak = argv[++i], peak_n = size_t(atol(argv[++i]));
    else {
      size_t eq = a.find('=');
      string files = a.substr(eq + 1), second;
      size_t comma = files.find(',');
      if (comma != string::npos) second = files.substr(comma + 1), files = files.substr(0, comma);
      void *h = dlopen(files.c_str(), RTLD_NOW | RTLD_LOCAL), *g = second.empty() ? h : dlopen(second.c_str(), RTLD_NOW | RTLD_LOCAL);
      if (!h || !g) {
        fprintf(stderr, "%s\n", dlerror());
        return 2;
      }
      libs.push_back({a.substr(0, eq), h, g});
    }
  }
  if (!peak.empty()) {
    Row w = peak_work(peak, peak_n);
    void *f = dlsym(w.caches ? libs[0].caching : libs[0].plain, ("bench_" + w.key).c_str());
    reset_peak();
    long before = peak_kib();
    u64 sum = w.call(f, 1);
    printf("%ld KiB (sum %llx)\n", peak_kib() - before, (unsigned long long)sum);
    return 0;
  }
  // What is freed stays with malloc, so that no column pays for pages that another's free gave back.
  mallopt(M_MMAP_MAX, 0);
  mallopt(M_TRIM_THRESHOLD, 1 << 30);
  cpu_set_t set;
  CPU_ZERO(&set);
  CPU_SET(sched_getcpu(), &set);
  sched_setaffinity(0, sizeof set, &set);
  for (auto &table : scales ? scaling(libs) : tables(libs)) print_table(table, libs, only, turns, ms);
  printf("\nDifferent bytes or sums (the bytes that Google's writers make aside): %d\n", differ);
  return differ != 0;
}
