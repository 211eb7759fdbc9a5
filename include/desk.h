/* Rimpelsloot: texts, messages and sheets of a payment desk for roubles.
 *
 * The archive is libdesk.a (`rt lib` in crates/desk_c, then `link/lib`), for x86-64 Linux. By its symbols
 * (`link/symbols`) it uses no heap, keeps no state between calls and calls nothing back; any number of threads may
 * call at once.
 *
 * A slice passes as a pointer and a length. Where the length is 0 the pointer may be null: (NULL, 0) is nothing.
 * What a caller owes: where the length is not 0, the pointer is not null and stands before as many readable units
 * (for `out` and `list`: writable ones) as the length says; a list is aligned for 32-bit numbers; input and room
 * lie apart; 32 KB of stack are free. A null pointer with another length is the caller's fault, and nothing here
 * tests for it.
 *
 * An answer is one 64-bit number. Below 2^63 it is accepted, and means what each call says. Else it is
 * 2^63 + number * 2^32 + place: a refusal by a number (`enum desk_refusal`) at a place. A refused call has changed
 * nothing of `out` or `list`; an accepted one only the first units, as many as it reports (for the check three
 * times the count of fields).
 *
 * kind is the type of message, 103 or 202; any other is refused by 18. sign is 0 for off, anything else for on.
 *
 * What is said here of the answers is proved; docs/PROMISES.md has the laws, docs/RULES.md the rules.
 */
#ifndef RIMPELSLOOT_DESK_H
#define RIMPELSLOOT_DESK_H

#include <stddef.h>
#include <stdint.h>

#define DESK_VERSION "1.2.1"
#define DESK_VERSION_MAJOR 1
#define DESK_VERSION_MINOR 2
#define DESK_VERSION_PATCH 1

/* Input that is longer is refused by 1: bytes of a sheet, of a message, of a desk text, of a bank text. */
#define DESK_SHEET_LIMIT 10000
#define DESK_MESSAGE_LIMIT 10000
#define DESK_TEXT_LIMIT 5000
#define DESK_BANK_LIMIT 10000

/* As many numbers are enough for the list of every message: 3 for each of at most 14 fields. */
#define DESK_LIST_ROOM 42

#ifdef __cplusplus
extern "C" {
#endif

/* The numbers of refusals, in the words of docs/NUMBERS.md, which also says what to do. */
enum desk_refusal {
  /* The input is longer than 10,000 bytes; of a sheet with place 0, the message built from it would be. (A
   * text alone: 5,000 bytes typed, 10,000 in bank letters.) */
  DESK_REFUSED_LENGTH = 1,
  /* The message does not begin with `{4:` and a line end, or does not end with a line end and `-}`. */
  DESK_REFUSED_FRAME = 2,
  /* A byte that a message may not hold, or a broken line end. */
  DESK_REFUSED_BYTE = 3,
  /* A line that is empty, begins with `-`, or has no right tag; or the first line opens no field. */
  DESK_REFUSED_LINE = 4,
  /* A tag that this type of message does not have. */
  DESK_REFUSED_TAG = 5,
  /* A field out of order, or a second time. */
  DESK_REFUSED_ORDER = 6,
  /* A field that must be there is missing. */
  DESK_REFUSED_MISSING = 7,
  /* A field's content is not as its tag asks. */
  DESK_REFUSED_CONTENT = 8,
  /* A date that is no day of the calendar. */
  DESK_REFUSED_DATE = 9,
  /* A currency other than RUB. */
  DESK_REFUSED_CURRENCY = 10,
  /* A 56 (intermediary) without a 57. */
  DESK_REFUSED_INTERMEDIARY = 11,
  /* A BIK and an account that do not belong together: their last three digits differ. */
  DESK_REFUSED_BIK = 12,
  /* A payment to the budget that is not whole: 26T without 77B, or without INN and KPP of both payer and
   * payee; or 77B without 26T. */
  DESK_REFUSED_BUDGET = 13,
  /* A text that does not read back to Russian letters, or a name that would be taken for something else: an
   * account, a new field, a tax line. */
  DESK_REFUSED_TEXT = 14,
  /* A character that can't be sent: a small Russian letter, an apostrophe in a name or in details; without
   * the sign `+` any Russian letter. */
  DESK_REFUSED_CHARACTER = 15,
  /* The details do not fit the lines of their field; those of a 103 do not fit the fields 70 and 72 together. */
  DESK_REFUSED_DETAILS = 16,
  /* The room lent is too short (a matter for the program, not for the clerk). */
  DESK_REFUSED_ROOM = 17,
  /* A type that is neither 103 nor 202. */
  DESK_REFUSED_TYPE = 18,
  /* The sheet is not built as a sheet must be: a record without its end, an empty part, a wrong tag, VO
   * digits that are not five. */
  DESK_REFUSED_SHEET = 19,
  /* The details of a 103, run on from field 70 into field 72, have more than 210 bytes with their code. */
  DESK_REFUSED_RUN_ON = 21
};

/* The places of a 103; 56 is 56A or 56D, 57 is 57A or 57D. */
enum desk_103 {
  DESK_103_20 = 0,
  DESK_103_23B = 1,
  DESK_103_26T = 2,
  DESK_103_32A = 3,
  DESK_103_50K = 4,
  DESK_103_52A = 5,
  DESK_103_53B = 6,
  DESK_103_56 = 7,
  DESK_103_57 = 8,
  DESK_103_59 = 9,
  DESK_103_70 = 10,
  DESK_103_71A = 11,
  DESK_103_72 = 12,
  DESK_103_77B = 13
};

/* The places of a 202; 56, 57 and 58 are each with A or with D. */
enum desk_202 {
  DESK_202_20 = 0,
  DESK_202_21 = 1,
  DESK_202_32A = 2,
  DESK_202_52A = 3,
  DESK_202_53B = 4,
  DESK_202_56 = 5,
  DESK_202_57 = 6,
  DESK_202_58 = 7,
  DESK_202_72 = 8
};

/* Takes an answer apart. */
static inline int desk_refused(uint64_t answer) { return answer >> 63 != 0; }
static inline uint32_t desk_number(uint64_t answer) { return (uint32_t)(answer >> 32 & 0x7fffffff); }
static inline uint32_t desk_place(uint64_t answer) { return (uint32_t)answer; }

/* Takes an accepted answer of the check apart: the count of fields, the word, and whether a place is present. */
static inline size_t desk_fields(uint64_t answer) { return (size_t)(answer & 0xffff); }
static inline uint32_t desk_word(uint64_t answer) { return (uint32_t)(answer >> 16); }
static inline int desk_present(uint64_t answer, uint32_t place) {
  return place < 32 && (desk_word(answer) >> place & 1) != 0;
}

/* Takes the answer of desk_content apart. */
static inline size_t desk_start(uint64_t part) { return (size_t)(part >> 32); }
static inline size_t desk_length(uint64_t part) { return (size_t)(part & 0xffffffff); }

/* The exports take no null pointer. What stands in front of them at the end of this header sees to that. */
#ifdef __GNUC__
#define DESK_NOT_NULL __attribute__((nonnull))
#else
#define DESK_NOT_NULL
#endif

/* The bank text read as desk text (windows-1251), or its own bytes without the sign. Accepted: the bytes
 * written to out. Refused: 1 (over 10,000 bytes), 14 (place: the first byte without a reading, or the length
 * where the Latin side is open at the end), 17 (place: the bytes needed). */
DESK_NOT_NULL
uint64_t desk_read_text(uint32_t sign, const uint8_t *bank, size_t bank_len, uint8_t *out, size_t out_len);

/* The shortest bank text for a desk text, and of these the one with the fewest characters between
 * apostrophes. Accepted: the bytes written to out. Refused: 1 (over 5,000 bytes), 15 (place: the first byte
 * that can't be written), 17 (place: the bytes needed). */
DESK_NOT_NULL
uint64_t desk_write_text(uint32_t sign, const uint8_t *text, size_t text_len, uint8_t *out, size_t out_len);

/* A message judged by every rule. Accepted: fields + word * 2^16, where the word has a bit for each place
 * present, counted from bit 0; list then holds colon, content start and content end of each field in turn.
 * Refused: by the first broken rule of 18, 1 to 14, 21, then 17 (place: the numbers needed). */
DESK_NOT_NULL
uint64_t desk_check(uint32_t kind, const uint8_t *message, size_t len, uint32_t *list, size_t list_len);

/* Where the content of a place stands: start * 2^32 + length; 0 where the message is refused or has no such
 * field. Never a refusal. */
DESK_NOT_NULL
uint64_t desk_content(uint32_t kind, const uint8_t *message, size_t len, uint32_t place);

/* The amount of field 32A in kopecks, or the message's refusal. */
DESK_NOT_NULL
uint64_t desk_kopecks(uint32_t kind, const uint8_t *message, size_t len);

/* The date of field 32A as year * 10000 + month * 100 + day, or the message's refusal. */
DESK_NOT_NULL
uint64_t desk_date(uint32_t kind, const uint8_t *message, size_t len);

/* The sheet of a message; its record of 70 holds all of the details, also those that run on into 72. Accepted:
 * the bytes written to out; no sheet is longer than its message. Refused: the message's refusal, then 17 (place:
 * the bytes needed). */
DESK_NOT_NULL
uint64_t desk_to_sheet(uint32_t kind, const uint8_t *message, size_t len, uint8_t *out, size_t out_len);

/* The message of a sheet; the type stands in the sheet. Details of a 103 that field 70 can't hold run on into
 * 72; no other break of the same bank text saves a line of a field. Accepted: the bytes written to out. Refused:
 * 1, 19, 18, 15, 16, then 17 (place: the bytes needed, which may be over 10,000), then the refusal of the message
 * itself (1, 5 to 13) with place 0. */
DESK_NOT_NULL
uint64_t desk_to_message(const uint8_t *sheet, size_t len, uint8_t *out, size_t out_len);

/* In front of each export stands a function that puts a pointer to a unit of its own where a length is 0. By the
 * macros behind them, a name as `desk_check` stands for that function, called or with its address taken. Who
 * declares the exports without this header owes a pointer that is not null also where the length is 0. */
static inline const uint8_t *desk_bytes(const uint8_t *bytes, size_t len) {
  static const uint8_t none = 0;
  return len == 0 ? &none : bytes;
}

static inline uint8_t *desk_room(uint8_t *room, size_t len) {
  static uint8_t none = 0;
  return len == 0 ? &none : room;
}

static inline uint32_t *desk_list(uint32_t *list, size_t len) {
  static uint32_t none = 0;
  return len == 0 ? &none : list;
}

static inline uint64_t desk_call_read_text(uint32_t sign, const uint8_t *bank, size_t bank_len, uint8_t *out,
                                           size_t out_len) {
  return desk_read_text(sign, desk_bytes(bank, bank_len), bank_len, desk_room(out, out_len), out_len);
}

static inline uint64_t desk_call_write_text(uint32_t sign, const uint8_t *text, size_t text_len, uint8_t *out,
                                            size_t out_len) {
  return desk_write_text(sign, desk_bytes(text, text_len), text_len, desk_room(out, out_len), out_len);
}

static inline uint64_t desk_call_check(uint32_t kind, const uint8_t *message, size_t len, uint32_t *list,
                                       size_t list_len) {
  return desk_check(kind, desk_bytes(message, len), len, desk_list(list, list_len), list_len);
}

static inline uint64_t desk_call_content(uint32_t kind, const uint8_t *message, size_t len, uint32_t place) {
  return desk_content(kind, desk_bytes(message, len), len, place);
}

static inline uint64_t desk_call_kopecks(uint32_t kind, const uint8_t *message, size_t len) {
  return desk_kopecks(kind, desk_bytes(message, len), len);
}

static inline uint64_t desk_call_date(uint32_t kind, const uint8_t *message, size_t len) {
  return desk_date(kind, desk_bytes(message, len), len);
}

static inline uint64_t desk_call_to_sheet(uint32_t kind, const uint8_t *message, size_t len, uint8_t *out,
                                          size_t out_len) {
  return desk_to_sheet(kind, desk_bytes(message, len), len, desk_room(out, out_len), out_len);
}

static inline uint64_t desk_call_to_message(const uint8_t *sheet, size_t len, uint8_t *out, size_t out_len) {
  return desk_to_message(desk_bytes(sheet, len), len, desk_room(out, out_len), out_len);
}

#define desk_read_text desk_call_read_text
#define desk_write_text desk_call_write_text
#define desk_check desk_call_check
#define desk_content desk_call_content
#define desk_kopecks desk_call_kopecks
#define desk_date desk_call_date
#define desk_to_sheet desk_call_to_sheet
#define desk_to_message desk_call_to_message

#ifdef __cplusplus
}
#endif

#endif
