/* Calls over buffers of `harbour`. Each answers a status, and stores what it reads only with 0.

   No position and no byte of a buffer does harm. A pointer is valid for the bytes that its length
   says, or null with length 0; what a call stores into overlaps nothing else that it is given.

   A table is the position of the reference that leads to it, in bytes from the buffer's start; the
   root is at 0. A vector is a span: the position of its first item and the number of its items,
   which stand one after another. An item that is a table or a string is a reference of 4 bytes:
   its position is that of the table, and harbour_string_at reads the string. A union is its tag and
   the position of the reference to its value: of a table its position, of a string what
   harbour_string_at reads, of a struct what its call that ends in `behind` reads. */
#ifndef HARBOUR_H
#define HARBOUR_H

#include <stdbool.h>
#include <stddef.h>
#include <stdint.h>

#ifdef __cplusplus
extern "C" {
#endif

/* There is a value; it is absent; why none is read; why a buffer isn't verified. */
enum {
  HARBOUR_OK = 0,
  HARBOUR_ABSENT = 1,
  HARBOUR_INVALID_OFFSET = 2,
  HARBOUR_INVALID_LENGTH = 3,
  HARBOUR_UNION_LENGTHS = 4,
  HARBOUR_UNKNOWN_VALUE = 5,
  HARBOUR_UNKNOWN_TAG = 6,
  HARBOUR_INVALID_VTABLE = 7,
  HARBOUR_INVALID_UTF8 = 8,
  HARBOUR_MISSING_REQUIRED = 9,
  HARBOUR_MISSING_NULL = 10,
  HARBOUR_TOO_DEEP = 11,
  HARBOUR_TOO_MANY = 12
};

/* Bytes, or items, from buffer[at] on. */
typedef struct {
  size_t at;
  size_t len;
} harbour_span;

/* A union: the position of the reference to its value, and its tag. */
typedef struct {
  size_t at;
  uint8_t tag;
} harbour_member;

static const size_t harbour_root = 0;

/* What a status says. */
static inline const char *harbour_status_text(uint32_t status) {
  switch (status) {
  case 0: return "ok";
  case 1: return "absent";
  case 2: return "an offset leads out of the buffer";
  case 3: return "a length leads out of the buffer";
  case 4: return "the vectors of a union have different lengths";
  case 5: return "an enum has no such value";
  case 6: return "a union has no such tag";
  case 7: return "a vtable has a wrong length";
  case 8: return "a string isn't UTF-8";
  case 9: return "a required field is missing";
  case 10: return "a string doesn't end in a zero byte";
  case 11: return "tables lead to tables beyond the limit";
  case 12: return "more tables are reached than the limit";
  default: return "no status";
  }
}

/* The string to which the reference at a position leads. */
uint32_t harbour_string_at(const uint8_t *buffer, size_t len, size_t position, harbour_span *out);

/* The first of these size-prefixed buffers, after its size. */
uint32_t harbour_sized(const uint8_t *buffer, size_t len, harbour_span *out);

/* Whether a buffer has the file identifier of the schema. */
bool harbour_has_identifier(const uint8_t *buffer, size_t len);

/* The field with a fault: the index of its table, which harbour_table_name names, where the table
   begins, in bytes from the buffer's start, the field's slot, and the index of the item, of an item
   of a vector, else SIZE_MAX. Of a root that can't be read all four are SIZE_MAX. */
typedef struct {
  size_t table;
  size_t start;
  size_t slot;
  size_t item;
} harbour_fault;

/* 0 if each field of each table that the root leads to is read without an error, an unknown number
   of an enum and an unknown tag of a union aside; else why the first one isn't, and where it is is
   stored; 11 if more than `depth` tables stand one in the other, 12 if more than `most_tables` are
   reached, each as often as it is. flatc's own verifiers have 64 and 1000000. */
uint32_t harbour_verify(const uint8_t *buffer, size_t len, uint8_t depth, size_t most_tables, harbour_fault *out);

/* The name of a table by its index. */
static inline const char *harbour_table_name(size_t index) {
  switch (index) {
  case 0: return "Person";
  case 1: return "Company";
  case 2: return "Ship";
  case 3: return "Port";
  case 4: return "Manifest";
  case 5: return "Origin";
  case 6: return "Entry";
  default: return "no table";
  }
}

/* `Kind`. */
typedef uint8_t harbour_kind;
#define HARBOUR_KIND_CAR 0
#define HARBOUR_KIND_BIKE 1
#define HARBOUR_KIND_SHIP 2
uint32_t harbour_kind_at(const uint8_t *buffer, size_t len, size_t position, harbour_kind *out);

/* `Level`. */
typedef int16_t harbour_level;
#define HARBOUR_LEVEL_LOW (-300)
#define HARBOUR_LEVEL_MID 0
#define HARBOUR_LEVEL_HIGH 300
uint32_t harbour_level_at(const uint8_t *buffer, size_t len, size_t position, harbour_level *out);

/* `Needs`. */
typedef uint16_t harbour_needs;
#define HARBOUR_NEEDS_WATER 1
#define HARBOUR_NEEDS_POWER 2
uint32_t harbour_needs_at(const uint8_t *buffer, size_t len, size_t position, harbour_needs *out);

/* `Pos`, in its bytes. */
typedef struct {
  int32_t lat;
  int32_t lon;
  int16_t alt;
  uint8_t padding_3[2];
} harbour_pos;
uint32_t harbour_pos_at(const uint8_t *buffer, size_t len, size_t position, harbour_pos *out);
uint32_t harbour_pos_behind(const uint8_t *buffer, size_t len, size_t position, harbour_pos *out);

/* `Fix`, in its bytes. */
typedef struct {
  uint64_t when;
  harbour_pos at;
  harbour_kind kind;
  uint8_t padding_3[3];
} harbour_fix;
uint32_t harbour_fix_at(const uint8_t *buffer, size_t len, size_t position, harbour_fix *out);
uint32_t harbour_fix_behind(const uint8_t *buffer, size_t len, size_t position, harbour_fix *out);

/* `Gauge`, in its bytes. */
typedef struct {
  int32_t depth;
  bool rises;
  uint8_t padding_2[3];
} harbour_gauge;
uint32_t harbour_gauge_at(const uint8_t *buffer, size_t len, size_t position, harbour_gauge *out);
uint32_t harbour_gauge_behind(const uint8_t *buffer, size_t len, size_t position, harbour_gauge *out);

/* `Signal`. */
typedef int8_t harbour_signal;
#define HARBOUR_SIGNAL_ALFA 0
#define HARBOUR_SIGNAL_BRAVO 1
#define HARBOUR_SIGNAL_CHARLIE 2
#define HARBOUR_SIGNAL_DELTA 3
#define HARBOUR_SIGNAL_ECHO 4
#define HARBOUR_SIGNAL_FOXTROT 5
#define HARBOUR_SIGNAL_GOLF 6
#define HARBOUR_SIGNAL_HOTEL 7
#define HARBOUR_SIGNAL_INDIA 8
#define HARBOUR_SIGNAL_JULIETT 9
#define HARBOUR_SIGNAL_KILO 10
#define HARBOUR_SIGNAL_LIMA 11
#define HARBOUR_SIGNAL_MIKE 12
#define HARBOUR_SIGNAL_NOVEMBER 13
#define HARBOUR_SIGNAL_OSCAR 14
#define HARBOUR_SIGNAL_PAPA 15
#define HARBOUR_SIGNAL_QUEBEC 16
#define HARBOUR_SIGNAL_ROMEO 17
#define HARBOUR_SIGNAL_SIERRA 18
#define HARBOUR_SIGNAL_TANGO 19
#define HARBOUR_SIGNAL_UNIFORM 20
#define HARBOUR_SIGNAL_VICTOR 21
#define HARBOUR_SIGNAL_WHISKEY 22
#define HARBOUR_SIGNAL_XRAY 23
#define HARBOUR_SIGNAL_YANKEE 24
#define HARBOUR_SIGNAL_ZULU 25
uint32_t harbour_signal_at(const uint8_t *buffer, size_t len, size_t position, harbour_signal *out);

/* Tables `Person`. */
uint32_t harbour_person_name(const uint8_t *buffer, size_t len, size_t table, harbour_span *out);
uint32_t harbour_person_age(const uint8_t *buffer, size_t len, size_t table, uint8_t *out);

/* Tables `Company`. */
uint32_t harbour_company_title(const uint8_t *buffer, size_t len, size_t table, harbour_span *out);
uint32_t harbour_company_vat(const uint8_t *buffer, size_t len, size_t table, harbour_span *out);

/* Tables `Ship`. */
uint32_t harbour_ship_name(const uint8_t *buffer, size_t len, size_t table, harbour_span *out);
uint32_t harbour_ship_hull(const uint8_t *buffer, size_t len, size_t table, uint16_t *out);
uint32_t harbour_ship_cargo(const uint8_t *buffer, size_t len, size_t table, harbour_span *out);
uint32_t harbour_ship_kind(const uint8_t *buffer, size_t len, size_t table, harbour_kind *out);
uint32_t harbour_ship_level(const uint8_t *buffer, size_t len, size_t table, harbour_level *out);
uint32_t harbour_ship_needs(const uint8_t *buffer, size_t len, size_t table, harbour_needs *out);
uint32_t harbour_ship_home(const uint8_t *buffer, size_t len, size_t table, harbour_pos *out);
uint32_t harbour_ship_track(const uint8_t *buffer, size_t len, size_t table, harbour_span *out);
uint32_t harbour_ship_heat(const uint8_t *buffer, size_t len, size_t table, float *out);
uint32_t harbour_ship_depth(const uint8_t *buffer, size_t len, size_t table, int16_t *out);
uint32_t harbour_ship_open(const uint8_t *buffer, size_t len, size_t table, bool *out);
uint32_t harbour_ship_shut(const uint8_t *buffer, size_t len, size_t table, bool *out);
uint32_t harbour_ship_maybe(const uint8_t *buffer, size_t len, size_t table, int32_t *out);
uint32_t harbour_ship_photo(const uint8_t *buffer, size_t len, size_t table, harbour_span *out);
uint32_t harbour_ship_names(const uint8_t *buffer, size_t len, size_t table, harbour_span *out);
uint32_t harbour_ship_mate(const uint8_t *buffer, size_t len, size_t table, size_t *out);
uint32_t harbour_ship_consorts(const uint8_t *buffer, size_t len, size_t table, harbour_span *out);
uint32_t harbour_ship_kinds(const uint8_t *buffer, size_t len, size_t table, harbour_span *out);
uint32_t harbour_ship_owner(const uint8_t *buffer, size_t len, size_t table, harbour_member *out);
uint32_t harbour_ship_shares(const uint8_t *buffer, size_t len, size_t table, size_t index, harbour_member *out);
uint32_t harbour_ship_tall(const uint8_t *buffer, size_t len, size_t table, int64_t *out);
uint32_t harbour_ship_temps(const uint8_t *buffer, size_t len, size_t table, harbour_span *out);
uint32_t harbour_ship_deltas(const uint8_t *buffer, size_t len, size_t table, harbour_span *out);
uint32_t harbour_ship_fix(const uint8_t *buffer, size_t len, size_t table, harbour_fix *out);
uint32_t harbour_ship_which(const uint8_t *buffer, size_t len, size_t table, harbour_kind *out);
uint32_t harbour_ship_flags(const uint8_t *buffer, size_t len, size_t table, harbour_span *out);

/* Tables `Port`. */
uint32_t harbour_port_owner(const uint8_t *buffer, size_t len, size_t table, harbour_member *out);
uint32_t harbour_port_ships(const uint8_t *buffer, size_t len, size_t table, harbour_span *out);
uint32_t harbour_port_berths(const uint8_t *buffer, size_t len, size_t table, harbour_span *out);
uint32_t harbour_port_shares(const uint8_t *buffer, size_t len, size_t table, size_t index, harbour_member *out);
uint32_t harbour_port_soundings(const uint8_t *buffer, size_t len, size_t table, harbour_span *out);
uint32_t harbour_port_chart(const uint8_t *buffer, size_t len, size_t table, harbour_span *out);
uint32_t harbour_port_gauge(const uint8_t *buffer, size_t len, size_t table, harbour_gauge *out);
uint32_t harbour_port_hoisted(const uint8_t *buffer, size_t len, size_t table, harbour_signal *out);

/* Tables `Manifest`. */
uint32_t harbour_manifest_number(const uint8_t *buffer, size_t len, size_t table, uint64_t *out);
uint32_t harbour_manifest_issued(const uint8_t *buffer, size_t len, size_t table, int64_t *out);
uint32_t harbour_manifest_weight(const uint8_t *buffer, size_t len, size_t table, double *out);
uint32_t harbour_manifest_worth(const uint8_t *buffer, size_t len, size_t table, float *out);
uint32_t harbour_manifest_boxes(const uint8_t *buffer, size_t len, size_t table, uint32_t *out);
uint32_t harbour_manifest_debt(const uint8_t *buffer, size_t len, size_t table, int32_t *out);
uint32_t harbour_manifest_pages(const uint8_t *buffer, size_t len, size_t table, uint16_t *out);
uint32_t harbour_manifest_shift(const uint8_t *buffer, size_t len, size_t table, int16_t *out);
uint32_t harbour_manifest_tier(const uint8_t *buffer, size_t len, size_t table, uint8_t *out);
uint32_t harbour_manifest_lean(const uint8_t *buffer, size_t len, size_t table, int8_t *out);
uint32_t harbour_manifest_sealed(const uint8_t *buffer, size_t len, size_t table, bool *out);
uint32_t harbour_manifest_opened(const uint8_t *buffer, size_t len, size_t table, bool *out);
uint32_t harbour_manifest_kind(const uint8_t *buffer, size_t len, size_t table, harbour_kind *out);
uint32_t harbour_manifest_level(const uint8_t *buffer, size_t len, size_t table, harbour_level *out);
uint32_t harbour_manifest_needs(const uint8_t *buffer, size_t len, size_t table, harbour_needs *out);
uint32_t harbour_manifest_signal(const uint8_t *buffer, size_t len, size_t table, harbour_signal *out);
uint32_t harbour_manifest_rank(const uint8_t *buffer, size_t len, size_t table, uint64_t *out);
uint32_t harbour_manifest_margin(const uint8_t *buffer, size_t len, size_t table, double *out);
uint32_t harbour_manifest_dues(const uint8_t *buffer, size_t len, size_t table, int32_t *out);
uint32_t harbour_manifest_paid(const uint8_t *buffer, size_t len, size_t table, bool *out);
uint32_t harbour_manifest_grade(const uint8_t *buffer, size_t len, size_t table, harbour_kind *out);
uint32_t harbour_manifest_berth(const uint8_t *buffer, size_t len, size_t table, harbour_pos *out);
uint32_t harbour_manifest_gauge(const uint8_t *buffer, size_t len, size_t table, harbour_gauge *out);
uint32_t harbour_manifest_title(const uint8_t *buffer, size_t len, size_t table, harbour_span *out);
uint32_t harbour_manifest_note(const uint8_t *buffer, size_t len, size_t table, harbour_span *out);
uint32_t harbour_manifest_scan(const uint8_t *buffer, size_t len, size_t table, harbour_span *out);
uint32_t harbour_manifest_stamp(const uint8_t *buffer, size_t len, size_t table, harbour_span *out);
uint32_t harbour_manifest_weights(const uint8_t *buffer, size_t len, size_t table, harbour_span *out);
uint32_t harbour_manifest_counts(const uint8_t *buffer, size_t len, size_t table, harbour_span *out);
uint32_t harbour_manifest_offsets(const uint8_t *buffer, size_t len, size_t table, harbour_span *out);
uint32_t harbour_manifest_marks(const uint8_t *buffer, size_t len, size_t table, harbour_span *out);
uint32_t harbour_manifest_kinds(const uint8_t *buffer, size_t len, size_t table, harbour_span *out);
uint32_t harbour_manifest_track(const uint8_t *buffer, size_t len, size_t table, harbour_span *out);
uint32_t harbour_manifest_labels(const uint8_t *buffer, size_t len, size_t table, harbour_span *out);
uint32_t harbour_manifest_holders(const uint8_t *buffer, size_t len, size_t table, harbour_span *out);
uint32_t harbour_manifest_ship(const uint8_t *buffer, size_t len, size_t table, size_t *out);
uint32_t harbour_manifest_next(const uint8_t *buffer, size_t len, size_t table, size_t *out);
uint32_t harbour_manifest_persons(const uint8_t *buffer, size_t len, size_t table, harbour_span *out);
uint32_t harbour_manifest_parts(const uint8_t *buffer, size_t len, size_t table, harbour_span *out);
uint32_t harbour_manifest_owner(const uint8_t *buffer, size_t len, size_t table, harbour_member *out);
uint32_t harbour_manifest_payer(const uint8_t *buffer, size_t len, size_t table, harbour_member *out);
uint32_t harbour_manifest_owners(const uint8_t *buffer, size_t len, size_t table, size_t index, harbour_member *out);

/* Tables `Origin`. */
uint32_t harbour_origin_host(const uint8_t *buffer, size_t len, size_t table, harbour_span *out);
uint32_t harbour_origin_port(const uint8_t *buffer, size_t len, size_t table, uint16_t *out);

/* Tables `Entry`. */
uint32_t harbour_entry_at(const uint8_t *buffer, size_t len, size_t table, uint64_t *out);
uint32_t harbour_entry_text(const uint8_t *buffer, size_t len, size_t table, harbour_span *out);
uint32_t harbour_entry_origin(const uint8_t *buffer, size_t len, size_t table, size_t *out);
uint32_t harbour_entry_cause(const uint8_t *buffer, size_t len, size_t table, harbour_member *out);
uint32_t harbour_entry_parents(const uint8_t *buffer, size_t len, size_t table, harbour_span *out);

#ifdef __cplusplus
}
#endif
#endif
