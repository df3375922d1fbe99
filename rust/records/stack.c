/* How much stack each call takes: it runs on a stack that was filled with one byte, and the lowest
 * byte that changed is looked for. The most is taken over sets of 20 years that get each answer of
 * the call, under every method and basis, with every cut, for windows with and without a day and
 * for given delays, and over journals that do. In the repository's folder,
 *
 *     cc -O2 -Wl,-z,now -I include rust/records/stack.c crates/c_api/out/libc_api.a -o stack
 *     ./stack
 *
 * prints a line for each call: its name, the bytes that it takes and those that the header states.
 * It ends with status 1 where a call takes more, or an answer did not come up. */
#define _XOPEN_SOURCE 700 /* makecontext */
#include "pardesul.h"
#include <stdio.h>
#include <stdlib.h>
#include <string.h>
#include <ucontext.h>

#define YEARS 20
#define LINE (PARDESUL_LINES - 1)
#define LENGTH PARDESUL_FILE_LENGTH(YEARS, true)
#define FILLED 0xa5

static _Alignas(4096) uint8_t stack[1 << 20];

/* What the sets are written from, and what the calls write to. */
static int64_t counts[PARDESUL_CELLS], paid[PARDESUL_CELLS], incurred[PARDESUL_CELLS];
static int64_t triangles[3][PARDESUL_CELLS], lists[5][PARDESUL_LIST];
static int64_t entries[PARDESUL_ENTRIES(YEARS)], years[2][PARDESUL_YEARS];
static double mu, factors[PARDESUL_LIST], ratios[PARDESUL_LIST];
static uint8_t kinds[PARDESUL_LIST], text[PARDESUL_TEXT], copy[LENGTH];
static uint8_t page[PARDESUL_PAGE_LENGTH(YEARS)];
static uint64_t lent_line, sums[4];
static bool has_incurred;
static pardesul_journal_tally journal_tally;

/* The delays of the sets that are accepted, and the same with the last one off. */
static int64_t given[2][YEARS];

/* As many transactions as a journal may have. */
static uint8_t journal[PARDESUL_JOURNAL_MOST * PARDESUL_TRANSACTION];

/* The files, each behind a first line of `closing`. */
static struct input {
  uint8_t line[7], file[LENGTH];
  size_t length;
} inputs[16];
static size_t input_number;

/* The answers that came up, a bit for each. */
static unsigned answers;
#define FROM_TO(from, to) ((2u << (to)) - (1u << (from)))

static void answer(uint64_t number) { answers |= 1u << number; }

static void nothing(void) {}

/* 21 years are one too many. */
#define EACH_INPUT                                                                                 \
  for (struct input *in = inputs; in < inputs + input_number; in++)                                \
    for (size_t m = YEARS; m <= YEARS + 1; m++)
#define EACH_METHOD                                                                                \
  for (uint64_t method = 0; method <= 3; method++)                                                 \
    for (uint64_t basis = 0; basis <= 2; basis++)

static void read_set(void) {
  EACH_INPUT answer(pardesul_read_set(in->file, in->length, m, &lent_line, &has_incurred,
                                      triangles[0], triangles[1], triangles[2]));
}

/* Line PARDESUL_LINES is one too many. */
static void write_set(void) {
  for (size_t m = YEARS; m <= YEARS + 1; m++) {
    for (uint64_t on = LINE; on <= PARDESUL_LINES; on++) {
      for (int64_t count = -1; count <= 1; count++) {
        counts[0] = count;
        answer(pardesul_write_set(m, on, true, counts, paid, incurred, copy, sizeof copy));
        answer(pardesul_write_set(m, on, true, counts, paid, incurred, copy, sizeof copy - 1));
        answer(pardesul_write_set(m, on, false, counts, paid, incurred, copy, sizeof copy));
      }
    }
  }
}

static void shares(void) {
  EACH_INPUT answer(pardesul_shares(in->file, in->length, m, &lent_line, lists[0], lists[1],
                                    lists[2], lists[3], lists[4]));
}

static void delays(void) {
  EACH_INPUT answer(pardesul_delays(in->file, in->length, m, &lent_line, lists[0]));
}

/* All of them, and one too few. */
#define EACH_GIVEN                                                                                 \
  for (size_t list = 0; list <= 1; list++)                                                         \
    for (size_t number = YEARS - 1; number <= YEARS; number++)

static void check_delays(void) {
  EACH_INPUT EACH_GIVEN answer(
      pardesul_check_delays(in->file, in->length, m, given[list], number, &lent_line));
}

static void claim_costs(void) {
  EACH_INPUT answer(
      pardesul_claim_costs(in->file, in->length, m, &lent_line, &mu, factors, kinds, ratios));
}

static void forecast(void) {
  EACH_INPUT EACH_METHOD for (size_t less = 0; less <= 1; less++) {
    answer(pardesul_forecast(in->file, in->length, m, method, basis, &lent_line, entries,
                             PARDESUL_ENTRIES(YEARS) - less, lists[0]));
  }
}

static void forecast_with_delays(void) {
  EACH_INPUT EACH_METHOD EACH_GIVEN for (size_t less = 0; less <= 1; less++) {
    answer(pardesul_forecast_with_delays(in->file, in->length, m, method, basis, given[list],
                                         number, &lent_line, entries,
                                         PARDESUL_ENTRIES(YEARS) - less, lists[0]));
  }
}

static void back_test(void) {
  EACH_INPUT EACH_METHOD for (size_t c = 0; c < YEARS; c++) {
    answer(pardesul_back_test(in->file, in->length, m, method, basis, c, &lent_line, sums, sums + 1,
                              sums + 2, sums + 3));
  }
}

static void closing_page(void) {
  EACH_INPUT EACH_METHOD for (size_t less = 0; less <= 1; less++) {
    answer(pardesul_closing_page(in->file, in->length, m, method, basis, page,
                                 sizeof page - less));
  }
}

/* Good dates, and a bad one: the window ends where it starts, and on the day after the forecast
 * years. */
static void cash_in_window(void) {
  static const pardesul_date dates[] = {{2000, 2, 29}, {2038, 2, 28}, {2038, 2, 29}};
  int64_t amount;
  EACH_INPUT EACH_METHOD for (size_t end = 0; end <= 2; end++) {
    answer(pardesul_cash_in_window(in->file, in->length, m, method, basis, dates, dates,
                                   dates + end, &lent_line, &amount));
  }
}

static void transaction(size_t at, size_t claim, uint8_t kind, size_t accident, size_t calendar,
                        uint64_t amount) {
  uint8_t *to = journal + at * PARDESUL_TRANSACTION;
  const uint8_t head[] = {(uint8_t)claim,    (uint8_t)(claim >> 8), 0, 0, kind, (uint8_t)accident,
                          (uint8_t)calendar, 0};
  memcpy(to, head, sizeof head);
  for (size_t byte = 0; byte < 8; byte++) to[8 + byte] = (uint8_t)(amount >> 8 * byte);
}

/* The journal with this transaction as its last. */
static void replay_last(size_t claim, uint8_t kind, size_t accident, size_t calendar,
                        uint64_t amount) {
  transaction(PARDESUL_JOURNAL_MOST - 1, claim, kind, accident, calendar, amount);
  for (size_t m = YEARS; m <= YEARS + 1; m++) {
    for (size_t less = 0; less <= PARDESUL_TRANSACTION; less++)
      answer(pardesul_replay(journal, sizeof journal - less, m, &journal_tally));
  }
}

/* Accepted; a kind that there is not; a claim reported twice, not reported, or of another year; a
 * year below the one before; and more than the cell takes. */
static void replay(void) {
  const size_t latest = PARDESUL_JOURNAL_MOST - 2;
  replay_last(latest, 1, YEARS, YEARS, 1);
  replay_last(latest, 2, YEARS, YEARS, 1);
  replay_last(0, 0, 1, YEARS, 0);
  replay_last(1, 1, 1, YEARS, 1);
  replay_last(0, 1, 2, YEARS, 1);
  replay_last(0, 1, 1, YEARS - 1, 1);
  replay_last(latest, 1, YEARS, YEARS, 10000000000);
}

static void tally_add(void) {
  for (uint64_t year = 0; year <= PARDESUL_YEARS + 1; year++) {
    pardesul_tally_add(years[0], years[1], year, INT64_MAX, 1);
    pardesul_tally_add(years[0], years[1], year, 1, 1);
  }
  answer(PARDESUL_ACCEPTED);
}

static void respond(void) {
  EACH_INPUT EACH_METHOD {
    const uint8_t line[] = {'2', '0' + (uint8_t)(m - YEARS), ' ', '0' + (uint8_t)method, ' ',
                            '0' + (uint8_t)basis, '\n'};
    memcpy(in->line, line, sizeof line);
    const size_t length = sizeof line + in->length;
    pardesul_respond(in->line, length, text, 1);
    const size_t digits = pardesul_respond(in->line, length, text, sizeof text) - 9;
    const int first = text[8] - '0';
    answer(text[0] != 'r' ? 0 : digits == 1 ? first : 10 * first + text[9] - '0');
  }
}

/* The bytes of the stack that a function changed. */
static size_t changed(void (*function)(void)) {
  static ucontext_t here, there;
  size_t at = 0;
  memset(stack, FILLED, sizeof stack);
  if (getcontext(&there) != 0) exit(1);
  there.uc_stack.ss_sp = stack;
  there.uc_stack.ss_size = sizeof stack;
  there.uc_link = &here;
  makecontext(&there, function, 0);
  if (swapcontext(&here, &there) != 0) exit(1);
  while (at < sizeof stack && stack[at] == FILLED) at++;
  return sizeof stack - at;
}

/* A journal that is accepted: every other claim is reported and paid at once, year by year. */
static void write_journal(void) {
  for (size_t claim = 0; claim < PARDESUL_JOURNAL_MOST; claim += 2) {
    const size_t year = 1 + claim * YEARS / PARDESUL_JOURNAL_MOST;
    transaction(claim, claim, 0, year, year, 0);
    transaction(claim + 1, claim, 1, year, year, 1);
  }
}

/* The triangles of a set that every call accepts. */
static void accepted(void) {
  for (size_t i = 1; i <= YEARS; i++) {
    for (size_t j = 0; i + j <= YEARS; j++) {
      const size_t at = PARDESUL_PLACE(i, j);
      counts[at] = j == 0 ? 1000 + (int64_t)i : 20;
      paid[at] = j == 0 ? 9000000 + (int64_t)i : 300000 / (int64_t)(j + 1);
      incurred[at] = j == 0 ? 10000000 + (int64_t)i : 1000;
    }
  }
}

/* Gives each year of a triangle these values at delays 0 and 1, and zeros later. */
static void fill(int64_t *triangle, int64_t first, int64_t second) {
  for (size_t i = 1; i <= YEARS; i++) {
    for (size_t j = 0; i + j <= YEARS; j++)
      triangle[PARDESUL_PLACE(i, j)] = j == 0 ? first : j == 1 ? second : 0;
  }
}

/* One more file, of the triangles as they are. */
static struct input *add(bool with_incurred) {
  struct input *in = inputs + input_number++;
  in->length = PARDESUL_FILE_LENGTH(YEARS, with_incurred);
  if (pardesul_write_set(YEARS, LINE, with_incurred, counts, paid, incurred, in->file,
                         in->length) != PARDESUL_ACCEPTED)
    exit(1);
  return in;
}

/* A file for each refusal that hangs on it, and those that are accepted. */
static void add_all(void) {
  const size_t row = PARDESUL_LIST * sizeof *counts;
  accepted();
  add(true);
  add(false);
  add(true)->length--;
  add(true)->file[0] = 3;
  add(true)->file[LENGTH - 16 + 3] = 0;
  struct input *in = add(true);
  memcpy(in->file, in->file + 16, 16);
  add(true)->file[15] = 0xff;
  memset(counts, 0, row);
  add(true);
  accepted();
  memset(paid, 0, row);
  add(true);
  accepted();
  fill(counts, 1, 1000000);
  add(true);
  fill(counts, 25, 75);
  fill(paid, 751, 249);
  add(true);
  accepted();
  memset(incurred, 0, row);
  add(true);
  /* U(1) x W(2) / W(1) of about 10^17. */
  fill(incurred, 10000000000, 0);
  incurred[0] = 1;
  add(true);
  accepted();
}

/* The delays of the first file, which is accepted. */
static void give_delays(void) {
  if (pardesul_delays(inputs[0].file, inputs[0].length, YEARS, &lent_line, given[0]) !=
      PARDESUL_ACCEPTED)
    exit(1);
  memcpy(given[1], given[0], sizeof *given);
  given[1][YEARS - 1]++;
}

int main(void) {
  static const struct {
    const char *name;
    void (*function)(void);
    size_t stated;
    unsigned answers;
  } calls[] = {
      {"read_set", read_set, PARDESUL_STACK_READ_SET, FROM_TO(0, 5)},
      {"write_set", write_set, PARDESUL_STACK_WRITE_SET,
       1u << 0 | 1u << 1 | 1u << 3 | 1u << 5 | 1u << 7},
      {"shares", shares, PARDESUL_STACK_SHARES, FROM_TO(0, 5) | FROM_TO(9, 11)},
      {"delays", delays, PARDESUL_STACK_DELAYS, FROM_TO(0, 5) | FROM_TO(9, 12)},
      {"check_delays", check_delays, PARDESUL_STACK_CHECK_DELAYS,
       FROM_TO(0, 5) | FROM_TO(9, 11) | 1u << 20},
      {"claim_costs", claim_costs, PARDESUL_STACK_CLAIM_COSTS, FROM_TO(0, 5) | FROM_TO(9, 11)},
      {"forecast", forecast, PARDESUL_STACK_FORECAST, FROM_TO(0, 7) | FROM_TO(9, 14)},
      {"forecast_with_delays", forecast_with_delays, PARDESUL_STACK_FORECAST_WITH_DELAYS,
       FROM_TO(0, 7) | FROM_TO(9, 11) | 1u << 13 | 1u << 14 | 1u << 20},
      {"back_test", back_test, PARDESUL_STACK_BACK_TEST, FROM_TO(0, 6) | FROM_TO(8, 14)},
      {"closing_page", closing_page, PARDESUL_STACK_CLOSING_PAGE, FROM_TO(0, 6) | FROM_TO(9, 15)},
      {"cash_in_window", cash_in_window, PARDESUL_STACK_CASH_IN_WINDOW,
       FROM_TO(0, 6) | FROM_TO(9, 14) | 1u << 19},
      {"replay", replay, PARDESUL_STACK_REPLAY, 1u << 0 | 1u << 1 | FROM_TO(16, 18)},
      {"tally_add", tally_add, PARDESUL_STACK_TALLY_ADD, 1u << 0},
      {"respond", respond, PARDESUL_STACK_RESPOND, FROM_TO(0, 6) | FROM_TO(9, 14)},
  };
  int status = 0;
  size_t most = 0;
  add_all();
  give_delays();
  write_journal();
  const size_t none = changed(nothing);
  for (size_t at = 0; at < sizeof calls / sizeof *calls; at++) {
    answers = 0;
    const size_t taken = changed(calls[at].function) - none, stated = calls[at].stated;
    printf("%s %zu %zu\n", calls[at].name, taken, stated);
    if (answers != calls[at].answers) {
      fprintf(stderr, "%s: answers %#x instead of %#x\n", calls[at].name, answers,
              calls[at].answers);
      status = 1;
    }
    if (taken > stated) status = 1;
    if (stated > most) most = stated;
  }
  if (most != PARDESUL_STACK) {
    fprintf(stderr, "PARDESUL_STACK is not the largest, %zu\n", most);
    status = 1;
  }
  return status;
}
