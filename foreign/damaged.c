/* Calls over each beginning of a ship's buffer, at each position, and over the buffer with each byte
   in it changed to each other: damaged FILE. Ends with 1 where a span leads out of the buffer, or where
   a buffer is verified and a call for its root fails, but of a number that an enum doesn't have. */
#include "harbour.h"
#include <stdio.h>
#include <stdlib.h>

static unsigned long calls, values, failures, verified;

static void inside(uint32_t status, harbour_span span, size_t size, size_t len) {
  calls++;
  failures += status > HARBOUR_ABSENT;
  if (status != HARBOUR_OK) return;
  values++;
  if (span.at > len || span.len > (len - span.at) / size) {
    fprintf(stderr, "%zu items at %zu of %zu bytes\n", span.len, span.at, len);
    exit(1);
  }
}

static void value(uint32_t status) {
  calls++;
  failures += status > HARBOUR_ABSENT && status != HARBOUR_UNKNOWN_VALUE;
  values += status == HARBOUR_OK;
}

static void read_all(const uint8_t *buffer, size_t len, size_t table) {
  harbour_span span = {0, 0}, name = {0, 0};
  harbour_member member;
  uint16_t hull; float heat; int32_t maybe; bool open; size_t mate;
  harbour_kind kind; harbour_pos home; harbour_fix fix;
  inside(harbour_ship_name(buffer, len, table, &span), span, 1, len);
  inside(harbour_ship_cargo(buffer, len, table, &span), span, 4, len);
  inside(harbour_ship_track(buffer, len, table, &span), span, sizeof home, len);
  inside(harbour_ship_photo(buffer, len, table, &span), span, 1, len);
  inside(harbour_ship_temps(buffer, len, table, &span), span, 8, len);
  inside(harbour_ship_consorts(buffer, len, table, &span), span, 4, len);
  uint32_t status = harbour_ship_names(buffer, len, table, &span);
  inside(status, span, 4, len);
  if (status == HARBOUR_OK)
    for (size_t i = 0; i < span.len; i++)
      inside(harbour_string_at(buffer, len, span.at + 4 * i, &name), name, 1, len);
  value(harbour_ship_hull(buffer, len, table, &hull));
  value(harbour_ship_heat(buffer, len, table, &heat));
  value(harbour_ship_maybe(buffer, len, table, &maybe));
  value(harbour_ship_open(buffer, len, table, &open));
  value(harbour_ship_kind(buffer, len, table, &kind));
  value(harbour_ship_home(buffer, len, table, &home));
  value(harbour_ship_fix(buffer, len, table, &fix));
  value(harbour_ship_owner(buffer, len, table, &member));
  value(harbour_ship_shares(buffer, len, table, 0, &member));
  value(harbour_ship_mate(buffer, len, table, &mate));
}

static void verify_and_read(const uint8_t *buffer, size_t len) {
  harbour_fault fault;
  unsigned long before = failures;
  uint32_t status = harbour_verify(buffer, len, 64, 1000000, &fault);
  read_all(buffer, len, harbour_root);
  if (status != HARBOUR_OK) return;
  verified++;
  if (failures == before) return;
  fprintf(stderr, "a call fails over a verified buffer\n");
  exit(1);
}

int main(int count, char **words) {
  static uint8_t whole[65536];
  FILE *file = count == 2 ? fopen(words[1], "rb") : NULL;
  if (!file) return 2;
  size_t len = fread(whole, 1, sizeof whole, file);
  fclose(file);
  uint8_t *buffer = malloc(len); /* so that a read past its end is seen */
  if (!buffer) return 2;
  for (size_t i = 0; i < len; i++) buffer[i] = whole[i];
  for (size_t position = 0; position < len + 9; position++) read_all(buffer, len, position);
  for (size_t i = 1; i < 9; i++) read_all(buffer, len, SIZE_MAX - i + 1);
  for (size_t i = 0; i < len; i++)
    for (int byte = 0; byte < 256; byte++) {
      buffer[i] = (uint8_t)byte;
      verify_and_read(buffer, len);
      buffer[i] = whole[i];
    }
  free(buffer);
  for (size_t cut = 0; cut < len; cut++) {
    uint8_t *part = malloc(cut ? cut : 1);
    if (!part) return 2;
    for (size_t i = 0; i < cut; i++) part[i] = whole[i];
    verify_and_read(part, cut);
    free(part);
  }
  verify_and_read(NULL, 0);
  printf("%lu calls, %lu with a value; %lu buffers verified\n", calls, values, verified);
  return 0;
}
