/* The example of the rules both ways, and nothing passed as (NULL, 0) to every call. The sheet and the message are
 * read from the two files named. It is C11 and C++17. */
#include <stdio.h>
#include <string.h>

#include "desk.h"

enum { ROOM = 10000 };

static uint8_t sheet[ROOM], message[ROOM], out[ROOM];
static uint32_t list[DESK_LIST_ROOM];
static int wrong = 0;

static size_t load(const char *name, uint8_t *room) {
  FILE *file = fopen(name, "rb");
  if (!file) return 0;
  size_t n = fread(room, 1, ROOM, file);
  fclose(file);
  return n;
}

static void hold(const char *what, int holds) {
  if (holds) return;
  printf("%s: not as it must be\n", what);
  wrong++;
}

/* The answer must be `n` bytes in `out`, those of `wanted`. */
static void same(const char *what, uint64_t answer, const uint8_t *wanted, size_t n) {
  if (desk_refused(answer)) {
    printf("%s: refused\t%u\t%u\n", what, (unsigned)desk_number(answer), (unsigned)desk_place(answer));
  }
  hold(what, answer == n && memcmp(out, wanted, n) == 0);
}

static void refused(const char *what, uint64_t answer, enum desk_refusal number, size_t place) {
  hold(what, desk_refused(answer) && desk_number(answer) == (uint32_t)number && desk_place(answer) == place);
}

static void both_ways(size_t s, size_t m) {
  same("sheet to message", desk_to_message(sheet, s, out, ROOM), message, m);
  same("message to sheet", desk_to_sheet(103, message, m, out, ROOM), sheet, s);
  hold("kopecks", desk_kopecks(103, message, m) == 150050);
  hold("date", desk_date(103, message, m) == 20240229);
}

/* The list of the check and the contents of the places say the same. */
static void field_by_field(size_t m) {
  uint64_t checked = desk_check(103, message, m, list, DESK_LIST_ROOM);
  hold("check", !desk_refused(checked) && desk_fields(checked) == 8);
  hold("70 is there", desk_present(checked, DESK_103_70));
  hold("26T is not", !desk_present(checked, DESK_103_26T));
  size_t field = 0;
  for (uint32_t place = DESK_103_20; place <= DESK_103_77B; place++) {
    uint64_t part = desk_content(103, message, m, place);
    hold("a content where there is a field", desk_present(checked, place) == (part != 0));
    if (part == 0) continue;
    hold("content start", desk_start(part) == list[3 * field + 1]);
    hold("content end", desk_start(part) + desk_length(part) == list[3 * field + 2]);
    field++;
    switch (place) {
      case DESK_103_23B: hold("23B", memcmp(message + desk_start(part), "CRED", 4) == 0); break;
      case DESK_103_71A: hold("71A", memcmp(message + desk_start(part), "OUR", 3) == 0); break;
      default: break;
    }
  }
  hold("a content for each field", field == desk_fields(checked));
}

/* Every slice of every call, and two at once. */
static void nothing(size_t s, size_t m) {
  static const uint8_t letter[] = {'A'};
  memset(out, 7, ROOM);
  hold("read nothing", desk_read_text(1, NULL, 0, out, ROOM) == 0);
  refused("read into nothing", desk_read_text(1, letter, 1, NULL, 0), DESK_REFUSED_ROOM, 1);
  hold("read nothing into nothing", desk_read_text(1, NULL, 0, NULL, 0) == 0);
  hold("write nothing", desk_write_text(1, NULL, 0, out, ROOM) == 0);
  refused("write into nothing", desk_write_text(1, letter, 1, NULL, 0), DESK_REFUSED_ROOM, 3);
  hold("write nothing into nothing", desk_write_text(1, NULL, 0, NULL, 0) == 0);
  refused("check nothing", desk_check(103, NULL, 0, list, DESK_LIST_ROOM), DESK_REFUSED_FRAME, 0);
  refused("check into nothing", desk_check(103, message, m, NULL, 0), DESK_REFUSED_ROOM, 24);
  refused("check nothing into nothing", desk_check(103, NULL, 0, NULL, 0), DESK_REFUSED_FRAME, 0);
  hold("content of nothing", desk_content(103, NULL, 0, DESK_103_20) == 0);
  refused("kopecks of nothing", desk_kopecks(103, NULL, 0), DESK_REFUSED_FRAME, 0);
  refused("date of nothing", desk_date(202, NULL, 0), DESK_REFUSED_FRAME, 0);
  refused("sheet of nothing", desk_to_sheet(103, NULL, 0, out, ROOM), DESK_REFUSED_FRAME, 0);
  refused("sheet into nothing", desk_to_sheet(103, message, m, NULL, 0), DESK_REFUSED_ROOM, s);
  refused("sheet of nothing into nothing", desk_to_sheet(104, NULL, 0, NULL, 0), DESK_REFUSED_TYPE, 0);
  refused("message of nothing", desk_to_message(NULL, 0, out, ROOM), DESK_REFUSED_SHEET, 0);
  refused("message into nothing", desk_to_message(sheet, s, NULL, 0), DESK_REFUSED_ROOM, m);
  refused("message of nothing into nothing", desk_to_message(NULL, 0, NULL, 0), DESK_REFUSED_SHEET, 0);
  for (size_t i = 0; i < ROOM; i++) hold("the room is left", out[i] == 7);
}

/* A call's address is that of the function that takes nothing as well. */
static void by_address(void) {
  uint64_t (*text[])(uint32_t, const uint8_t *, size_t, uint8_t *, size_t) = {desk_read_text, &desk_write_text};
  uint64_t (*value[])(uint32_t, const uint8_t *, size_t) = {desk_kopecks, &desk_date};
  for (int i = 0; i < 2; i++) {
    hold("a text by its address", text[i](1, NULL, 0, NULL, 0) == 0);
    refused("a value by its address", value[i](103, NULL, 0), DESK_REFUSED_FRAME, 0);
  }
}

int main(int count, char **names) {
  if (count != 3) return 2;
  size_t s = load(names[1], sheet);
  size_t m = load(names[2], message);
  hold("the two files", s > 0 && m > 0);
  both_ways(s, m);
  field_by_field(m);
  nothing(s, m);
  by_address();
  if (wrong == 0) printf("example of desk %s: as it must be\n", DESK_VERSION);
  return wrong == 0 ? 0 : 1;
}
