/* Reads a ship: read FILE. Prints a line for each field. */
#include "harbour.h"
#include <inttypes.h>
#include <stdio.h>
#include <string.h>

static uint8_t buffer[65536];
static size_t len;

static void text(harbour_span span) { printf("%.*s", (int)span.len, (const char *)buffer + span.at); }

static int failed(const char *field, uint32_t status) {
  if (status == HARBOUR_OK) return 0;
  printf("%s %s\n", field, harbour_status_text(status));
  return 1;
}

/* Items stand one after another; those of two and more bytes may not be aligned. */
#define ITEM(span, index, item) memcpy(&(item), buffer + (span).at + (index) * sizeof(item), sizeof(item))

static void lists(void) {
  harbour_span span, name;
  if (!failed("cargo", harbour_ship_cargo(buffer, len, harbour_root, &span))) {
    printf("cargo");
    for (size_t i = 0; i < span.len; i++) { uint32_t item; ITEM(span, i, item); printf(" %" PRIu32, item); }
    printf("\n");
  }
  if (!failed("track", harbour_ship_track(buffer, len, harbour_root, &span))) {
    printf("track");
    for (size_t i = 0; i < span.len; i++) {
      harbour_pos pos;
      if (harbour_pos_at(buffer, len, span.at + i * sizeof pos, &pos)) return;
      printf(" %" PRId32 ",%" PRId32 ",%" PRId16, pos.lat, pos.lon, pos.alt);
    }
    printf("\n");
  }
  if (!failed("photo", harbour_ship_photo(buffer, len, harbour_root, &span))) {
    printf("photo");
    for (size_t i = 0; i < span.len; i++) printf(" %u", buffer[span.at + i]);
    printf("\n");
  }
  if (!failed("names", harbour_ship_names(buffer, len, harbour_root, &span))) {
    printf("names");
    for (size_t i = 0; i < span.len; i++) {
      if (harbour_string_at(buffer, len, span.at + 4 * i, &name)) return;
      printf(" ["); text(name); printf("]");
    }
    printf("\n");
  }
}

static void tables(void) {
  size_t mate; harbour_span span, name; int32_t maybe; uint16_t hull;
  if (!failed("mate", harbour_ship_mate(buffer, len, harbour_root, &mate))) {
    if (harbour_ship_name(buffer, len, mate, &name)) return;
    printf("mate "); text(name);
    printf(", whose maybe is %s\n", harbour_status_text(harbour_ship_maybe(buffer, len, mate, &maybe)));
  }
  if (!failed("consorts", harbour_ship_consorts(buffer, len, harbour_root, &span))) {
    printf("consorts");
    for (size_t i = 0; i < span.len; i++) {
      if (harbour_ship_name(buffer, len, span.at + 4 * i, &name)) return;
      if (harbour_ship_hull(buffer, len, span.at + 4 * i, &hull)) return;
      printf(" "); text(name); printf(" %u", hull);
    }
    printf("\n");
  }
}

static void union_and_rest(void) {
  harbour_span span, name; harbour_member owner; uint8_t age; int64_t tall; harbour_fix fix; harbour_kind kind;
  if (!failed("kinds", harbour_ship_kinds(buffer, len, harbour_root, &span))) {
    printf("kinds");
    for (size_t i = 0; i < span.len; i++) {
      if (harbour_kind_at(buffer, len, span.at + i * sizeof kind, &kind)) return;
      printf(" %u", kind);
    }
    printf("\n");
  }
  if (!failed("owner", harbour_ship_owner(buffer, len, harbour_root, &owner))) {
    if (harbour_person_name(buffer, len, owner.at, &name) || harbour_person_age(buffer, len, owner.at, &age)) return;
    printf("owner %u ", owner.tag); text(name); printf(" %u\n", age);
  }
  if (!failed("shares", harbour_ship_shares(buffer, len, harbour_root, 0, &owner))) printf("shares %u\n", owner.tag);
  if (!failed("tall", harbour_ship_tall(buffer, len, harbour_root, &tall))) printf("tall %" PRId64 "\n", tall);
  if (!failed("temps", harbour_ship_temps(buffer, len, harbour_root, &span))) {
    printf("temps");
    for (size_t i = 0; i < span.len; i++) { double item; ITEM(span, i, item); printf(" %g", item); }
    printf("\n");
  }
  if (!failed("deltas", harbour_ship_deltas(buffer, len, harbour_root, &span))) {
    printf("deltas");
    for (size_t i = 0; i < span.len; i++) printf(" %d", (int8_t)buffer[span.at + i]);
    printf("\n");
  }
  if (!failed("fix", harbour_ship_fix(buffer, len, harbour_root, &fix)))
    printf("fix %" PRIu64 " %" PRId32 " %" PRId32 " %" PRId16 " %u\n", fix.when, fix.at.lat, fix.at.lon, fix.at.alt, fix.kind);
  if (!failed("which", harbour_ship_which(buffer, len, harbour_root, &kind))) printf("which %u\n", kind);
  if (!failed("flags", harbour_ship_flags(buffer, len, harbour_root, &span))) {
    printf("flags");
    for (size_t i = 0; i < span.len; i++) printf(" %u", buffer[span.at + i] != 0);
    printf("\n");
  }
}

int main(int count, char **words) {
  FILE *file = count == 2 ? fopen(words[1], "rb") : NULL;
  if (!file) return 2;
  len = fread(buffer, 1, sizeof buffer, file);
  fclose(file);

  harbour_span name; uint16_t hull; harbour_kind kind; harbour_level level; harbour_needs needs; harbour_pos home;
  float heat; int16_t depth; bool is; int32_t maybe;
  if (!failed("name", harbour_ship_name(buffer, len, harbour_root, &name))) { printf("name "); text(name); printf("\n"); }
  if (!failed("hull", harbour_ship_hull(buffer, len, harbour_root, &hull))) printf("hull %u\n", hull);
  if (!failed("kind", harbour_ship_kind(buffer, len, harbour_root, &kind))) printf("kind %u\n", kind);
  if (!failed("level", harbour_ship_level(buffer, len, harbour_root, &level))) printf("level %d\n", level);
  if (!failed("needs", harbour_ship_needs(buffer, len, harbour_root, &needs))) printf("needs %u\n", needs);
  if (!failed("home", harbour_ship_home(buffer, len, harbour_root, &home)))
    printf("home %" PRId32 " %" PRId32 " %" PRId16 "\n", home.lat, home.lon, home.alt);
  if (!failed("heat", harbour_ship_heat(buffer, len, harbour_root, &heat))) printf("heat %g\n", heat);
  if (!failed("depth", harbour_ship_depth(buffer, len, harbour_root, &depth))) printf("depth %d\n", depth);
  if (!failed("open", harbour_ship_open(buffer, len, harbour_root, &is))) printf("open %d\n", is);
  if (!failed("shut", harbour_ship_shut(buffer, len, harbour_root, &is))) printf("shut %d\n", is);
  if (!failed("maybe", harbour_ship_maybe(buffer, len, harbour_root, &maybe))) printf("maybe %" PRId32 "\n", maybe);
  lists();
  tables();
  union_and_rest();
  return 0;
}
