/* Zifnora: rule sheets, their label translation and its run (document 01).
 *
 * Every call of the archive is proved: for whatever bytes, lengths and numbers it is given it returns, reads only what it is
 * lent, writes only what is said here, and keeps nothing between calls. Nothing is allocated. Buffers that are lent for writing
 * must not overlap any other buffer of the call. A buffer of length 0 may be any non-null pointer that is aligned for its type.
 * The inline functions here are plain C.
 *
 * Platform: x86-64, System V calling convention; the archive is ELF. Build it with `tools/archive`, and link
 * target/staticlib/libzifnora_c.a. It needs `memcpy` and `memset` from what it is linked with, and nothing else (`nm -u`).
 *
 * Stack: a run takes less than 124 KiB, for an owner or a hirer, on one row of readings or on several, in a search and in the joined
 * call, the other calls less than 32 KiB. These bounds are measured, not proved. `bench` measures on files that nest in each way in which
 * visits can nest, to 1,024 open visits, and prints for the archive as rattle-kit-13f builds it: a run 13,744 bytes, 96 more for each visit
 * that stays open, 107,272 at nesting 1,024, for an owner, for a hirer and on several rows; a search 13,776 and 107,240; the
 * joined call 30,112 and 107,336; translating 21,312; asking for a translation's length 18,640; writing a canonical form 18,512, however deep
 * the trees; listing a context 24, of one cell as of 960; a driver's view 0. Another build of the archive has to be measured again.
 */
#ifndef ZIFNORA_H
#define ZIFNORA_H

#include <stddef.h>
#include <stdint.h>

#ifdef __cplusplus
extern "C" {
#endif

/* Ceilings. */
#define ZIFNORA_SHEET_BYTES 32768u        /* a sheet */
#define ZIFNORA_TRANSLATION_BYTES 40960u  /* a translation; a buffer of this length is always long enough */
#define ZIFNORA_READINGS 32u              /* readings */
#define ZIFNORA_TYPES 64u                 /* the greatest type of a typed sheet; 0 is that of numbers */
#define ZIFNORA_NESTING 1024u             /* the nesting allowance, from 1 */
#define ZIFNORA_CELLS 960u                /* the cell allowance, from 0: cells alive together */
#define ZIFNORA_ROWS 16u                  /* rows of readings in one call, from 0 */
#define ZIFNORA_VALUES 1024u              /* values in the range of a search, from 1 */
#define ZIFNORA_CELL_BYTES 68u            /* lent for each cell */
#define ZIFNORA_ENTRY_BYTES 8u            /* an entry of a cell */
#define ZIFNORA_ENTRIES 8u                /* entries of a cell, one for each position of a parameter */
#define ZIFNORA_RECORD_BYTES 20u          /* the answer record */
#define ZIFNORA_VIEW_BYTES 6u             /* the driver's view of an answer record */

/* The kinds of records, with document 01's words; those with types are of document 02. */
enum zifnora_sheet_kind {
  ZIFNORA_SHEET_HEAD = 1,
  ZIFNORA_SHEET_CONSTRUCTOR = 2,
  ZIFNORA_SHEET_FUNCTION = 3,
  ZIFNORA_SHEET_TYPED_CONSTRUCTOR = 6, /* arity, own type, field types */
  ZIFNORA_SHEET_TYPED_FUNCTION = 7,    /* parameters, node count, result type, parameter types */
  ZIFNORA_SHEET_NUMBER = 16,
  ZIFNORA_SHEET_READING = 17,
  ZIFNORA_SHEET_PARAMETER = 18,
  ZIFNORA_SHEET_PATTERN_VARIABLE = 19,
  ZIFNORA_SHEET_OPERATOR = 20,
  ZIFNORA_SHEET_IF = 21,
  ZIFNORA_SHEET_CALL = 22,
  ZIFNORA_SHEET_BUILD = 23,
  ZIFNORA_SHEET_CASE = 24
};

enum zifnora_translation_kind {
  ZIFNORA_TRANSLATION_HEAD = 33,
  ZIFNORA_TRANSLATION_FUNCTION = 34,    /* node count, parameter count */
  ZIFNORA_TRANSLATION_FORMAL_LIST = 35, /* "formal": the list of its actuals */
  ZIFNORA_TRANSLATION_NUMBER = 48,
  ZIFNORA_TRANSLATION_READING = 49,
  ZIFNORA_TRANSLATION_FORMAL = 50, /* "formal": a node */
  ZIFNORA_TRANSLATION_SELECT = 51,
  ZIFNORA_TRANSLATION_OPERATOR = 52,
  ZIFNORA_TRANSLATION_IF = 53,
  ZIFNORA_TRANSLATION_CALL = 54,
  ZIFNORA_TRANSLATION_TUPLE = 55,
  ZIFNORA_TRANSLATION_CASE = 56
};

enum zifnora_record_kind { ZIFNORA_ANSWER_RECORD = 64 };

/* The codes of operators, with document 01's words. */
enum zifnora_operator {
  ZIFNORA_ADD = 0,
  ZIFNORA_SUBTRACT = 1,
  ZIFNORA_MULTIPLY = 2,
  ZIFNORA_DIVIDE = 3,
  ZIFNORA_LESS = 4,
  ZIFNORA_EQUAL = 5
};

/* The numbers of document 01's table and those that document 02 adds, with the paper's word for each, and the two outcomes that
 * are values. */
enum zifnora_outcome {
  ZIFNORA_NUMBER = 0,
  ZIFNORA_CONSTRUCTOR = 100,
  /* Refusals: */
  ZIFNORA_TRUNCATED = 1,       /* "cut": the file ends inside a record, or before the last one due */
  ZIFNORA_OVERSIZE = 2,        /* "oversize": the file is above its size */
  ZIFNORA_BAD_RECORD = 3,      /* "bad record": kind not due, length wrong, operator code above 5, or bytes after the last record */
  ZIFNORA_BAD_COUNT = 4,       /* "bad count": a count or a type outside its range, or a sum of counts */
  ZIFNORA_OUT_OF_RANGE = 5,    /* "dangling": a reference or a parameter position out of range; a damaged cell */
  ZIFNORA_BAD_TREE = 6,        /* "misgrown": a child, case or pattern rule broken */
  ZIFNORA_BAD_ARGUMENTS = 7,   /* "misfit": argument count wrong, or `result` has parameters */
  ZIFNORA_SHORT_OUTPUT = 8,    /* "short tray": an output does not fit */
  ZIFNORA_BAD_READINGS = 9,    /* "sensor count": the readings are not as many as the sheet asks for, for each row */
  ZIFNORA_BAD_ALLOWANCE = 10,  /* "bad allowance": a ceiling passed (of rows too), nesting 0, or cells not lent */
  ZIFNORA_CLOSED_READING = 21, /* "closed": a reading node outside the hirer's set; place: that node's record */
  ZIFNORA_ILL_TYPED = 22,      /* "ill typed": a typed sheet breaks a rule of types; place: the first such node's record */
  ZIFNORA_BAD_RANGE = 23,      /* "bad range": no values to search, more than 1,024, or the position of no reading */
  /* Stops: */
  ZIFNORA_NO_STEP = 11,    /* "steps" */
  ZIFNORA_NO_NESTING = 12, /* "nesting" */
  ZIFNORA_NO_CELL = 13,    /* "cells": as many are alive as are allowed */
  /* Run faults: */
  ZIFNORA_NUMBER_WANTED = 14,      /* "number wanted": an operand or a condition is a constructor */
  ZIFNORA_CONSTRUCTOR_WANTED = 15, /* "constructor wanted": a case or select on a number */
  ZIFNORA_NO_CLAUSE = 16,          /* "no clause" */
  ZIFNORA_ZERO_DIVISOR = 17,       /* "zero divisor" */
  ZIFNORA_NO_ACTUAL = 18,          /* "no actual": empty context, or a label beyond the list */
  ZIFNORA_NO_FIELD = 19,           /* "no field": an index beyond the tuple */
  ZIFNORA_OVERFLOW = 20,           /* "overflow": a product outside signed 32 bits */
  /* The outcome of a search that finds nothing: */
  ZIFNORA_NO_VALUE = 24 /* "none": with no value of the range the run ends in the wanted number */
};

/* The class of an outcome. Every number above is in one class, any other in none. */
static inline int zifnora_is_number(uint32_t outcome) { return outcome == ZIFNORA_NUMBER; }
static inline int zifnora_is_constructor(uint32_t outcome) { return outcome == ZIFNORA_CONSTRUCTOR; }
static inline int zifnora_is_refusal(uint32_t outcome) {
  return (outcome >= ZIFNORA_TRUNCATED && outcome <= ZIFNORA_BAD_ALLOWANCE) ||
         (outcome >= ZIFNORA_CLOSED_READING && outcome <= ZIFNORA_BAD_RANGE);
}
static inline int zifnora_is_stop(uint32_t outcome) { return outcome >= ZIFNORA_NO_STEP && outcome <= ZIFNORA_NO_CELL; }
static inline int zifnora_is_fault(uint32_t outcome) {
  return outcome >= ZIFNORA_NUMBER_WANTED && outcome <= ZIFNORA_OVERFLOW;
}
static inline int zifnora_is_none(uint32_t outcome) { return outcome == ZIFNORA_NO_VALUE; }

/* A cell, in its 68 bytes, little-endian: label (2 bytes), number of the previous cell (2), then the entries by the position of the
 * parameter. An entry remembers the value of that parameter of the call that made the cell, once it was worked out: its kind (2),
 * then 4 bytes, then two zero bytes. The last two bytes of the eighth entry are no zero bytes but the number of the function that
 * was called, from the cell's making on. A call makes a cell with empty entries and writes all of its 68 bytes, so what they held
 * before does not count.
 *
 * When a call ends with a number, the cells made since that call, its own included, are given back and used again, lowest number
 * first, unless during it a constructor was remembered in a cell older than the call (document 02, request 9). Giving back writes
 * no byte. The allowance limits the cells that are alive together, made and not given back. */
enum zifnora_entry_kind {
  ZIFNORA_ENTRY_EMPTY = 0,      /* four zero bytes */
  ZIFNORA_ENTRY_NUMBER = 1,     /* the number (4 bytes) */
  ZIFNORA_ENTRY_CONSTRUCTOR = 2 /* node, context (2 each) */
};

/* What a call returns: bits 32 to 47 are a refusal's number, 0 where nothing is refused; the low 32 bits are a length or a count,
 * or the refusal's place (the record's number from 0; the cell's number for a listing; 0 for 2, 8, 9, 10 and 23, and for a driver's
 * view). A search also returns 24 there, which is no refusal: see zifnora_find_reading. */
#define ZIFNORA_REFUSAL(code) ((uint32_t)((code) >> 32))
#define ZIFNORA_VALUE(code) ((uint32_t)(code))

/* The answer record, field by field. In its 20 bytes, little-endian, they stand in this order after the length 20 and the kind 64
 * (two bytes each); value and steps have 4 bytes, the others 2. */
struct zifnora_record {
  uint32_t outcome; /* of enum zifnora_outcome */
  int32_t value;    /* the number, the constructor's tag, a refusal's place; else 0 */
  uint32_t steps;   /* steps taken */
  uint32_t node;    /* of a constructor, else 0 */
  uint32_t context; /* of a constructor, a cell's number, else 0 */
  uint32_t cells;   /* the most cells alive together */
};

/* The number in 32 bits with a sign: the lower half of the range as it stands, the upper half less 2^32; in two bytes, in four, and
 * in four with a sign. */
static inline int32_t zifnora_signed_bits(uint32_t bits) {
  return bits <= 0x7fffffffu ? (int32_t)bits : -(int32_t)(0xffffffffu - bits) - 1;
}
static inline uint32_t zifnora_word(const uint8_t *bytes) { return bytes[0] | (uint32_t)bytes[1] << 8; }
static inline uint32_t zifnora_double_word(const uint8_t *bytes) { return zifnora_word(bytes) | zifnora_word(bytes + 2) << 16; }
static inline int32_t zifnora_signed(const uint8_t *bytes) { return zifnora_signed_bits(zifnora_double_word(bytes)); }

/* Decodes the 20 bytes of an answer record. Returns 1, or 0 where their length or kind is not that of an answer record; then
 * `record` stays as it was. */
static inline int zifnora_decode_record(const uint8_t *bytes, struct zifnora_record *record) {
  if (zifnora_word(bytes) != ZIFNORA_RECORD_BYTES || zifnora_word(bytes + 2) != ZIFNORA_ANSWER_RECORD) {
    return 0;
  }
  record->outcome = zifnora_word(bytes + 4);
  record->value = zifnora_signed(bytes + 6);
  record->steps = zifnora_double_word(bytes + 10);
  record->node = zifnora_word(bytes + 14);
  record->context = zifnora_word(bytes + 16);
  record->cells = zifnora_word(bytes + 18);
  return 1;
}

/* Writes a sheet in canonical form (document 02, request 13): head, constructors and functions as they are, each function's nodes in
 * post-order, children left to right, with references to match; typed or not. `out` starts with it and stays as it was past it. Two
 * accepted sheets come out as equal bytes exactly if their heads, constructors and functions are equal and their bodies are equal trees.
 * What comes out is an accepted sheet; writing it again changes no byte; the owner's runs of both have the same outcome, value, steps and
 * cell count.
 *
 * Returns the length, which is that of the sheet. The refusals are those of the sheet's reader, 1 to 7 and 22 with their places, then 8
 * with place 0 where `out` is shorter than the sheet. A refusal leaves all of `out` as it was. */
uint64_t zifnora_canonical_sheet(const uint8_t *sheet, size_t sheet_length, uint8_t *out, size_t out_length);

/* Translates a sheet; calls of one function with equal arguments share a label (document 02, request 4). Returns the translation's
 * length; `out` starts with the translation and stays as it was past it. A refusal (1 to 8, 22) leaves all of `out` as it was. */
uint64_t zifnora_translate(const uint8_t *sheet, size_t sheet_length, uint8_t *out, size_t out_length);

/* How long the translation would be: returns what zifnora_translate would return for an `out` of `out_length` bytes, with none
 * lent. That is the translation's length, or the refusal: 1 to 7 or 22 with its place, then 8 where the translation is longer. Any
 * number of 64 bits may be stated, also one that no buffer has. Nothing is written. */
uint64_t zifnora_translated_length(const uint8_t *sheet, size_t sheet_length, uint64_t out_length);

/* The five calls that run, as they stand in the archive: the lent cells are a pair of address and length behind a pointer. The
 * pair is as it was after the call, and must not overlap any buffer of the call. zifnora_run, zifnora_run_for_hirer,
 * zifnora_run_rows, zifnora_find_reading and zifnora_translate_and_run below make the pair; what they say of `cells` holds of the
 * bytes that it names. */
struct zifnora_slice {
  uint8_t *data;
  size_t length;
};
uint64_t zifnora_run_slice(const uint8_t *translation, size_t translation_length, const int32_t *readings, size_t readings_count,
                           uint32_t steps, uint32_t nesting, uint32_t cells_allowed, struct zifnora_slice *cells,
                           uint8_t *record, size_t record_length);
uint64_t zifnora_run_for_hirer_slice(const uint8_t *translation, size_t translation_length, uint32_t set,
                                     const int32_t *readings, size_t readings_count, uint32_t steps, uint32_t nesting,
                                     uint32_t cells_allowed, struct zifnora_slice *cells, uint8_t *record,
                                     size_t record_length);
uint64_t zifnora_run_rows_slice(const uint8_t *translation, size_t translation_length, uint32_t rows, const int32_t *readings,
                                size_t readings_count, uint32_t steps, uint32_t nesting, uint32_t cells_allowed,
                                struct zifnora_slice *cells, uint8_t *records, size_t records_length);
uint64_t zifnora_find_reading_slice(const uint8_t *translation, size_t translation_length, const int32_t *readings,
                                    size_t readings_count, uint32_t position, int32_t lowest, int32_t highest, int32_t wanted,
                                    uint32_t steps, uint32_t nesting, uint32_t cells_allowed, struct zifnora_slice *cells);
uint64_t zifnora_translate_and_run_slice(const uint8_t *sheet, size_t sheet_length, uint8_t *out, size_t out_length,
                                         const int32_t *readings, size_t readings_count, uint32_t steps, uint32_t nesting,
                                         uint32_t cells_allowed, struct zifnora_slice *cells, uint8_t *record,
                                         size_t record_length);

/* Runs a translation on readings, with allowances of steps, nesting and cells, in lent cells, and writes the answer record.
 * Returns 0, also where the run itself is refused: the record's outcome says so. A refusal, of number 8, comes back only where
 * `record` has fewer than 20 bytes: then nothing is run, and nothing is written.
 *
 * zifnora_decode_record reads the record. Bytes of `record` past 20 stay as they were.
 *
 * `cells` has ZIFNORA_CELL_BYTES bytes for each cell allowed, else the run is refused with 10. It starts with as many cells as were
 * alive together at most, given back or not, and stays as it was past them; a refusal leaves it as it was. */
static inline uint64_t zifnora_run(const uint8_t *translation, size_t translation_length, const int32_t *readings,
                                   size_t readings_count, uint32_t steps, uint32_t nesting, uint32_t cells_allowed,
                                   uint8_t *cells, size_t cells_length, uint8_t *record, size_t record_length) {
  struct zifnora_slice lent = {cells, cells_length};
  return zifnora_run_slice(translation, translation_length, readings, readings_count, steps, nesting, cells_allowed, &lent,
                           record, record_length);
}

/* Sets of the readings that a hirer may use: bit i is reading i. Sets are joined by `|`; the reading of ZIFNORA_ALLOW is below
 * ZIFNORA_READINGS. */
#define ZIFNORA_ALLOW(reading) (UINT32_C(1) << (reading))
#define ZIFNORA_ALLOW_NONE UINT32_C(0)
#define ZIFNORA_ALLOW_ALL UINT32_C(0xffffffff)

/* Runs a translation for a hirer, who may use the readings of `set` and no others (document 02, request 5). Where the run is not
 * refused it is that of zifnora_run, record and cells alike. What is returned and written is as for zifnora_run.
 *
 * The refusals, in the record, in their order: 1 to 5 of the translation, then 21 where any of its nodes is a reading outside the
 * set, reached by the run or not, with the number of the first such node's record, then 9, then 10. Each leaves `cells` as it was.
 * Bits of `set` from the number of the translation's readings on say nothing.
 *
 * So a hirer learns nothing of the other readings: with one translation, set, allowances and earlier bytes of `cells`, two lists
 * of as many readings as the translation asks for that agree on the set leave the same record and cells, refusals included. */
static inline uint64_t zifnora_run_for_hirer(const uint8_t *translation, size_t translation_length, uint32_t set,
                                             const int32_t *readings, size_t readings_count, uint32_t steps, uint32_t nesting,
                                             uint32_t cells_allowed, uint8_t *cells, size_t cells_length, uint8_t *record,
                                             size_t record_length) {
  struct zifnora_slice lent = {cells, cells_length};
  return zifnora_run_for_hirer_slice(translation, translation_length, set, readings, readings_count, steps, nesting,
                                     cells_allowed, &lent, record, record_length);
}

/* Runs a translation on each of `rows` rows of readings, which stand one after the other, and writes an answer record for each,
 * one after the other. The runs are done in turn in the same cells, each with all of the allowances. Returns the length of the
 * records, 20 for each row; `records` stays as it was past them.
 *
 * A refusal runs no row, and leaves `records` and `cells` as they were: 1 to 5 of the translation, then 9 where `readings_count`
 * is not the rows times the readings that the translation asks for, then 10 where the rows are more than ZIFNORA_ROWS or a run
 * with these allowances and cells is refused, then 8 where `records` has fewer than 20 bytes for each row. So no record has a
 * refusal.
 *
 * `cells` is as these runs leave it: each makes its cells from the first on, and past the most that were alive together it stays as
 * the run before left it. */
static inline uint64_t zifnora_run_rows(const uint8_t *translation, size_t translation_length, uint32_t rows,
                                        const int32_t *readings, size_t readings_count, uint32_t steps, uint32_t nesting,
                                        uint32_t cells_allowed, uint8_t *cells, size_t cells_length, uint8_t *records,
                                        size_t records_length) {
  struct zifnora_slice lent = {cells, cells_length};
  return zifnora_run_rows_slice(translation, translation_length, rows, readings, readings_count, steps, nesting, cells_allowed,
                                &lent, records, records_length);
}

/* Finds the smallest value from `lowest` to `highest` for the reading at `position` (from 0) with which the run of a translation, on
 * `readings` with that value in that reading's place, ends in the number `wanted` (document 02, request 12). A run that stops or
 * faults, or that ends with a constructor, is none of these. The runs are done in turn in the same cells, each with all of the
 * allowances, from the lowest value to the one found, or to the highest. The readings are not written.
 *
 * ZIFNORA_SEARCHED of what comes back says which of three it is:
 *   ZIFNORA_NUMBER: found; ZIFNORA_FOUND has the value, which may be negative.
 *   ZIFNORA_NO_VALUE: none of the values does it. This is no refusal, and ZIFNORA_VALUE is 0.
 *   any other: a refusal, with ZIFNORA_VALUE as its place: 1 to 5 of the translation, then 9, then 10, then 23 where `lowest` is
 *   above `highest`, the values are more than ZIFNORA_VALUES, or `position` is not below the number of the translation's readings.
 *   Where it has none, every search is refused. A refusal runs nothing and leaves `cells` as it was.
 *
 * `cells` is as these runs leave it, as for zifnora_run_rows. */
#define ZIFNORA_SEARCHED(code) ((uint32_t)((code) >> 32))
#define ZIFNORA_FOUND(code) (zifnora_signed_bits(ZIFNORA_VALUE(code)))
static inline uint64_t zifnora_find_reading(const uint8_t *translation, size_t translation_length, const int32_t *readings,
                                            size_t readings_count, uint32_t position, int32_t lowest, int32_t highest,
                                            int32_t wanted, uint32_t steps, uint32_t nesting, uint32_t cells_allowed,
                                            uint8_t *cells, size_t cells_length) {
  struct zifnora_slice lent = {cells, cells_length};
  return zifnora_find_reading_slice(translation, translation_length, readings, readings_count, position, lowest, highest, wanted,
                                    steps, nesting, cells_allowed, &lent);
}

/* Translates a sheet into `out` and runs the translation; the rest is as for zifnora_run. Any refusal (1 to 7 and 22 of the sheet, then
 * 8 where `out` is too short, then 9, then 10) is in the record, and leaves `out` and `cells` as they were. */
static inline uint64_t zifnora_translate_and_run(const uint8_t *sheet, size_t sheet_length, uint8_t *out, size_t out_length,
                                                 const int32_t *readings, size_t readings_count, uint32_t steps,
                                                 uint32_t nesting, uint32_t cells_allowed, uint8_t *cells,
                                                 size_t cells_length, uint8_t *record, size_t record_length) {
  struct zifnora_slice lent = {cells, cells_length};
  return zifnora_translate_and_run_slice(sheet, sheet_length, out, out_length, readings, readings_count, steps, nesting,
                                         cells_allowed, &lent, record, record_length);
}

/* Lists the context of cell `cell` (0 is the empty context): its labels, newest first, two bytes each, into `out`. Returns their
 * count. 5 with the cell as place where a cell met is beyond the cells or its previous number is not smaller than its own; then 8
 * where `out` is too short. A refusal leaves `out` as it was; else it stays as it was past the labels. Bytes of `cells` past the
 * last whole cell are part of no cell. */
uint64_t zifnora_list_context(const uint8_t *cells, size_t cells_length, uint32_t cell, uint8_t *out, size_t out_length);

/* The first two bytes of a driver's view. */
enum zifnora_view {
  ZIFNORA_VIEW_NUMBER = 0, /* the number follows, 4 bytes; zifnora_signed reads it */
  ZIFNORA_VIEW_EMPTY = 1   /* four zero bytes follow */
};

/* Writes the driver's view of an answer record, the 6 bytes that the cab shows (document 02, request 10), little-endian: of a
 * number 0 (2 bytes) and the number (4), of anything else 1 and four zero bytes. So the views of two records are equal exactly if
 * both are the same number or neither is a number: nothing else of a record reaches the cab. The record may be any bytes of this
 * form, whoever wrote them; an outcome that is in no table is no number.
 *
 * Returns 6; `out` stays as it was past them. 3 where `record_length` is not 20 or the record's length or kind is not that of an
 * answer record, then 8 where `out` has fewer than 6 bytes, both with place 0. A refusal leaves all of `out` as it was. */
uint64_t zifnora_driver_view(const uint8_t *record, size_t record_length, uint8_t *out, size_t out_length);

#ifdef __cplusplus
}
#endif

#endif
