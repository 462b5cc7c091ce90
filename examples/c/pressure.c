/* Runs a sheet with two readings and prints what the cab shows of the answer, the answer record, and which pressure would give the
 * figure 850; status 1 where the run has no answer.
 *
 *   result = cold(r0, r1)
 *   cold(p, t) = if t < 20 then p else p - (t - 20) * 2
 *
 * r0 is a pressure in hundredths of a bar, r1 a temperature in degrees: 845 and 31, or those given as arguments. */
#include <stdio.h>
#include <stdlib.h>

#include "zifnora.h"

/* The allowances. */
#define STEPS 1000u
#define NESTING 100u
#define CELLS 100u

/* Which reading is the pressure, the pressures that are tried, and the figure that is wanted. */
#define PRESSURE 0u
#define LOWEST 0
#define HIGHEST 1023
#define WANTED 850

/* A record's length and kind, then its fields, two bytes each. */
#define WORD(w) (uint8_t)((w) & 255), (uint8_t)((w) >> 8)
#define RECORD1(kind, a) WORD(6), WORD(ZIFNORA_SHEET_##kind), WORD(a)
#define RECORD2(kind, a, b) WORD(8), WORD(ZIFNORA_SHEET_##kind), WORD(a), WORD(b)
#define RECORD3(kind, a, b, c) WORD(10), WORD(ZIFNORA_SHEET_##kind), WORD(a), WORD(b), WORD(c)
#define RECORD4(kind, a, b, c, d) WORD(12), WORD(ZIFNORA_SHEET_##kind), WORD(a), WORD(b), WORD(c), WORD(d)

static const uint8_t sheet[] = {
    RECORD4(HEAD, 2, 0, 2, 15),                    /* 2 readings, no constructor, 2 functions, 15 nodes */
    RECORD2(FUNCTION, 0, 3),                       /* result: 3 nodes */
    RECORD2(FUNCTION, 2, 12),                      /* cold: 2 parameters, 12 nodes */
    RECORD1(READING, 0),                           /* 0: r0 */
    RECORD1(READING, 1),                           /* 1: r1 */
    RECORD3(CALL, 1, 0, 1),                        /* 2: cold(0, 1) */
    RECORD1(PARAMETER, 1),                         /* 3: t */
    RECORD2(NUMBER, 20, 0),                        /* 4: 20 */
    RECORD3(OPERATOR, ZIFNORA_LESS, 3, 4),         /* 5: 3 < 4 */
    RECORD1(PARAMETER, 0),                         /* 6: p */
    RECORD1(PARAMETER, 0),                         /* 7: p */
    RECORD1(PARAMETER, 1),                         /* 8: t */
    RECORD2(NUMBER, 20, 0),                        /* 9: 20 */
    RECORD3(OPERATOR, ZIFNORA_SUBTRACT, 8, 9),     /* 10: 8 - 9 */
    RECORD2(NUMBER, 2, 0),                         /* 11: 2 */
    RECORD3(OPERATOR, ZIFNORA_MULTIPLY, 10, 11),   /* 12: 10 * 11 */
    RECORD3(OPERATOR, ZIFNORA_SUBTRACT, 7, 12),    /* 13: 7 - 12 */
    RECORD3(IF, 5, 6, 13),                         /* 14: if 5 then 6 else 13 */
};

static uint8_t translation[ZIFNORA_TRANSLATION_BYTES];
static uint8_t cells[CELLS * ZIFNORA_CELL_BYTES];

/* Prints how the run ended; the program's status. */
static int show(const struct zifnora_record *answer) {
  if (zifnora_is_refusal(answer->outcome)) {
    printf("refused %u place %u\n", answer->outcome, (uint32_t)answer->value);
    return 1;
  }
  if (!zifnora_is_number(answer->outcome) && !zifnora_is_constructor(answer->outcome)) {
    /* A stop and a run fault have no place; the steps tell how far the run came, the cells how many were alive together. */
    printf("%s %u steps %u cells %u\n", zifnora_is_stop(answer->outcome) ? "stopped" : "fault", answer->outcome, answer->steps,
           answer->cells);
    return 1;
  }
  printf("outcome %u value %d steps %u node %u context %u cells %u\n", answer->outcome, answer->value, answer->steps,
         answer->node, answer->context, answer->cells);
  return 0;
}

/* Prints the driver's view of an answer record. */
static void show_cab(const uint8_t *record) {
  uint8_t view[ZIFNORA_VIEW_BYTES];
  const uint64_t code = zifnora_driver_view(record, ZIFNORA_RECORD_BYTES, view, sizeof view);

  if (ZIFNORA_REFUSAL(code) == 0 && zifnora_word(view) == ZIFNORA_VIEW_NUMBER) {
    printf("cab %d\n", zifnora_signed(view + 2));
  } else {
    printf("cab shows no number\n");
  }
}

/* Prints the smallest pressure that gives the wanted figure. */
static void show_fill(const int32_t *readings, size_t readings_count) {
  const uint64_t length = zifnora_translate(sheet, sizeof sheet, translation, sizeof translation);
  uint64_t code;

  if (ZIFNORA_REFUSAL(length) != 0) {
    printf("refused %u place %u\n", ZIFNORA_REFUSAL(length), ZIFNORA_VALUE(length));
    return;
  }
  code = zifnora_find_reading(translation, ZIFNORA_VALUE(length), readings, readings_count, PRESSURE, LOWEST, HIGHEST, WANTED, STEPS,
                              NESTING, CELLS, cells, sizeof cells);
  if (zifnora_is_number(ZIFNORA_SEARCHED(code))) {
    printf("fill %d for %d\n", ZIFNORA_FOUND(code), WANTED);
  } else if (zifnora_is_none(ZIFNORA_SEARCHED(code))) {
    printf("no fill for %d\n", WANTED);
  } else {
    printf("refused %u place %u\n", ZIFNORA_SEARCHED(code), ZIFNORA_VALUE(code));
  }
}

int main(int count, char **arguments) {
  int32_t readings[ZIFNORA_READINGS] = {845, 31};
  size_t readings_count = 2;
  uint8_t record[ZIFNORA_RECORD_BYTES];
  struct zifnora_record answer;
  uint64_t code;
  int status;

  if (count > 1) {
    for (readings_count = 0; readings_count < ZIFNORA_READINGS && (int)readings_count + 1 < count; readings_count++) {
      readings[readings_count] = (int32_t)strtol(arguments[readings_count + 1], NULL, 10);
    }
  }
  code = zifnora_translate_and_run(sheet, sizeof sheet, translation, sizeof translation, readings, readings_count, STEPS, NESTING,
                                   CELLS, cells, sizeof cells, record, sizeof record);
  if (ZIFNORA_REFUSAL(code) != 0) {
    printf("refused %u place %u\n", ZIFNORA_REFUSAL(code), ZIFNORA_VALUE(code));
    return 1;
  }
  if (!zifnora_decode_record(record, &answer)) {
    printf("no answer record\n");
    return 1;
  }
  show_cab(record);
  status = show(&answer);
  show_fill(readings, readings_count);
  return status;
}
