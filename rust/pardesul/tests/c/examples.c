/* The examples of document 01 from C, given delays, windows of dates, a claims journal and lines of
 * cover: every function of the header, accepted and refused, and what a refusal leaves. Prints the
 * first thing that is wrong and ends with status 1, or ends with 0. */
#include "pardesul.h"
#include <stdio.h>
#include <stdlib.h>
#include <string.h>

/* Every byte of lent memory before a call. */
#define BEFORE 9

/* The line of cover of every file, unless another one is put there. */
#define LINE 5

/* A file, and a triangle's values by rows. */
typedef struct {
  size_t m, length;
  uint8_t bytes[PARDESUL_FILE_LENGTH(3, true)];
} set_file;

typedef const int64_t *rows;

static const int64_t counts_k[] = {80, 20, 90}, paid_k[] = {600, 400, 660},
                     incurred_k[] = {900, 100, 1080};

static void expect(bool holds, const char *what) {
  if (!holds) {
    printf("wrong: %s\n", what);
    exit(1);
  }
}

static bool untouched(const void *memory, size_t length) {
  const uint8_t *bytes = memory;
  for (size_t at = 0; at < length; at++) {
    if (bytes[at] != BEFORE) return false;
  }
  return true;
}

static void fill(int64_t *triangle, size_t m, rows values) {
  memset(triangle, 0, PARDESUL_CELLS * sizeof *triangle);
  for (size_t i = 1; i <= m; i++) {
    for (size_t j = 0; i + j <= m; j++) triangle[PARDESUL_PLACE(i, j)] = *values++;
  }
}

/* The file of a set; incurred is null where there is none. */
static set_file file_of(size_t m, rows counts, rows paid, rows incurred) {
  int64_t triangles[3][PARDESUL_CELLS] = {{0}};
  set_file file = {.m = m, .length = PARDESUL_FILE_LENGTH(m, incurred != NULL)};
  fill(triangles[0], m, counts);
  fill(triangles[1], m, paid);
  if (incurred) fill(triangles[2], m, incurred);
  expect(pardesul_write_set(m, LINE, incurred != NULL, triangles[0], triangles[1], triangles[2],
                            file.bytes, sizeof file.bytes) == PARDESUL_ACCEPTED,
         "a set's file");
  return file;
}

static set_file set_k(void) { return file_of(2, counts_k, paid_k, incurred_k); }

/* Delays of 3 x 10^9 and -8 x 10^9. */
static set_file widest(void) {
  return file_of(2, (int64_t[]){25, 75, 50}, (int64_t[]){750, 250, 750}, NULL);
}

/* Refused 12. */
static set_file too_wide(void) {
  return file_of(2, (int64_t[]){25, 75, 50}, (int64_t[]){751, 249, 750}, NULL);
}

/* Refused 11 where late is 1000. */
static set_file thin(int64_t late) {
  return file_of(2, (int64_t[]){1, late, 90}, paid_k, incurred_k);
}

/* p(0) = 2500002.5; behind its even neighbour p(1) = 2493749994.5, behind the odd one p(1) =
 * 2493749993. */
static set_file tied(void) {
  return file_of(2, (int64_t[]){2, 3, 2}, (int64_t[]){1000001, 998999999, 1000001}, NULL);
}

/* Three years that every call accepts. */
static set_file three_years(void) {
  return file_of(3, (int64_t[]){80, 20, 0, 90, 25, 100}, (int64_t[]){600, 400, 50, 660, 430, 700},
                 NULL);
}

/* K's file on a line, byte by byte: by kind, then accident year, then delay. */
static bool is_file_of_k(const uint8_t *bytes, uint8_t line) {
  static const struct {
    uint8_t head[3];
    uint16_t value;
  } records[] = {{{0, 1, 0}, 80},  {{0, 1, 1}, 20},  {{0, 2, 0}, 90},
                 {{1, 1, 0}, 600}, {{1, 1, 1}, 400}, {{1, 2, 0}, 660},
                 {{2, 1, 0}, 900}, {{2, 1, 1}, 100}, {{2, 2, 0}, 1080}};
  for (size_t k = 0; k < 9; k++, bytes += 16) {
    const uint8_t rest[13] = {[0] = line,
                              [5] = (uint8_t)(records[k].value & 255),
                              [6] = (uint8_t)(records[k].value >> 8)};
    if (memcmp(bytes, records[k].head, 3) != 0 || memcmp(bytes + 3, rest, 13) != 0) return false;
  }
  return true;
}

/* The refusal of K, written with this m, line and last payment, and something outside its cells. */
static uint64_t write_k(size_t m, uint64_t line, int64_t payment, uint8_t *out, size_t out_length) {
  int64_t triangles[3][PARDESUL_CELLS];
  fill(triangles[0], 2, counts_k);
  fill(triangles[1], 2, paid_k);
  fill(triangles[2], 2, incurred_k);
  triangles[1][PARDESUL_PLACE(2, 0)] = payment;
  triangles[1][PARDESUL_PLACE(2, 1)] = -1;
  return pardesul_write_set(m, line, true, triangles[0], triangles[1], triangles[2], out,
                            out_length);
}

static void writer(void) {
  uint8_t out[150];
  const size_t length = PARDESUL_FILE_LENGTH(2, true);
  memset(out, BEFORE, sizeof out);
  expect(length == 144, "the length of a file");
  expect(write_k(21, PARDESUL_LINES, -1, out, 0) == PARDESUL_REFUSED_YEARS,
         "a writer of 21 years, before the line is looked at");
  expect(write_k(2, PARDESUL_LINES, -1, out, 0) == PARDESUL_REFUSED_RECORD &&
             write_k(2, 256 + LINE, 660, out, sizeof out) == PARDESUL_REFUSED_RECORD &&
             write_k(2, UINT64_MAX, 660, out, sizeof out) == PARDESUL_REFUSED_RECORD,
         "a line that there is not, before the values are looked at");
  expect(write_k(2, LINE, -1, out, 0) == PARDESUL_REFUSED_VALUE,
         "a payment below zero, before the output is looked at");
  expect(write_k(2, LINE, 660, out, length - 1) == PARDESUL_REFUSED_OUTPUT,
         "an output that is too short");
  expect(untouched(out, sizeof out), "what a refused writer leaves");
  for (uint8_t line = 0; line < PARDESUL_LINES; line++) {
    expect(write_k(2, line, 660, out, sizeof out) == PARDESUL_ACCEPTED, "the writer on each line");
    expect(is_file_of_k(out, line), "the order of a file's records, and their line");
    expect(untouched(out + length, sizeof out - length), "the bytes past the file");
  }
}

static void reader(void) {
  struct {
    uint64_t line;
    int64_t counts[PARDESUL_CELLS], paid[PARDESUL_CELLS], incurred[PARDESUL_CELLS];
  } set;
  int64_t wanted[PARDESUL_CELLS];
  bool has_incurred = true;
  set_file file = set_k(), two = file_of(2, counts_k, paid_k, NULL);
  memset(&set, BEFORE, sizeof set);
  expect(pardesul_read_set(file.bytes, file.length, 1, &set.line, &has_incurred, set.counts,
                           set.paid, set.incurred) == PARDESUL_REFUSED_YEARS,
         "a reader of one year");
  expect(pardesul_read_set(file.bytes, 0, 2, &set.line, &has_incurred, set.counts, set.paid,
                           set.incurred) == PARDESUL_REFUSED_LENGTH,
         "a file of no bytes");
  file.bytes[7] = 1;
  expect(pardesul_read_set(file.bytes, file.length, 2, &set.line, &has_incurred, set.counts,
                           set.paid, set.incurred) == PARDESUL_REFUSED_RECORD,
         "a byte 7 that is not zero");
  expect(has_incurred && untouched(&set, sizeof set), "what a refused reader leaves");
  has_incurred = false;
  expect(pardesul_read_set(file.bytes, file.length, 2, &set.line, &has_incurred, set.counts,
                           set.paid, set.incurred) == PARDESUL_REFUSED_RECORD,
         "the same again");
  expect(!has_incurred, "the other flag that a refused reader leaves");
  file.bytes[7] = 0;
  expect(pardesul_read_set(file.bytes, file.length, 2, &set.line, &has_incurred, set.counts,
                           set.paid, set.incurred) == PARDESUL_ACCEPTED &&
             has_incurred && set.line == LINE,
         "the reader");
  fill(wanted, 2, counts_k);
  expect(memcmp(set.counts, wanted, sizeof wanted) == 0, "the counts read back");
  fill(wanted, 2, paid_k);
  expect(memcmp(set.paid, wanted, sizeof wanted) == 0, "the payments read back");
  fill(wanted, 2, incurred_k);
  expect(memcmp(set.incurred, wanted, sizeof wanted) == 0, "incurred read back");
  expect(pardesul_read_set(two.bytes, two.length, 2, &set.line, &has_incurred, set.counts, set.paid,
                           set.incurred) == PARDESUL_ACCEPTED &&
             !has_incurred,
         "a set without incurred");
  memset(wanted, 0, sizeof wanted);
  expect(memcmp(set.incurred, wanted, sizeof wanted) == 0, "incurred where there is none");
}

static void shares(void) {
  struct {
    uint64_t line;
    int64_t b[PARDESUL_LIST], n[PARDESUL_LIST], q[PARDESUL_LIST], g[PARDESUL_LIST],
        u[PARDESUL_LIST];
  } of;
  set_file k = set_k(), refused = thin(1000), passed = thin(999);
  memset(&of, BEFORE, sizeof of);
  expect(pardesul_shares(refused.bytes, refused.length, 2, &of.line, of.b, of.n, of.q, of.g,
                         of.u) == PARDESUL_REFUSED_SHARE,
         "row 1 counts 1, 1000");
  expect(untouched(&of, sizeof of), "what refused shares leave");
  expect(pardesul_shares(passed.bytes, passed.length, 2, &of.line, of.b, of.n, of.q, of.g, of.u) ==
             PARDESUL_ACCEPTED,
         "row 1 counts 1, 999");
  memset(&of, BEFORE, sizeof of);
  expect(pardesul_shares(k.bytes, k.length, 2, &of.line, of.b, of.n, of.q, of.g, of.u) ==
                 PARDESUL_ACCEPTED &&
             of.line == LINE,
         "the shares");
  expect(of.b[0] == 800000000 && of.b[1] == 200000000, "b");

  expect(of.q[0] == 600000000 && of.q[1] == 400000000 && of.g[0] == 600000000 &&
             of.g[1] == 1000000000,
         "q and g");
  expect(of.n[0] == 100 && of.n[1] == 112 && of.u[0] == 1000 && of.u[1] == 1100 && of.u[2] == 0,
         "N and U");
}

static void delays(void) {
  struct {
    uint64_t line;
    int64_t p[PARDESUL_LIST];
  } of;
  set_file k = set_k(), wide = widest(), refused = too_wide();
  memset(&of, BEFORE, sizeof of);
  expect(pardesul_delays(refused.bytes, refused.length, 2, &of.line, of.p) ==
             PARDESUL_REFUSED_DELAY,
         "paid 751, 249");
  expect(untouched(&of, sizeof of), "what refused delays leave");
  expect(pardesul_delays(k.bytes, k.length, 2, &of.line, of.p) == PARDESUL_ACCEPTED &&
             of.line == LINE && of.p[0] == 750000000 && of.p[1] == 312500000 && of.p[2] == 0,
         "the delays");
  expect(pardesul_delays(wide.bytes, wide.length, 2, &of.line, of.p) == PARDESUL_ACCEPTED &&
             of.p[0] == 3000000000 && of.p[1] == -8000000000,
         "the widest delays");
}

/* The refusal of given delays, which leaves the line; where there is none the line is that of the
 * file. */
static uint64_t given_of(set_file file, const int64_t *delays, size_t number) {
  uint64_t line;
  memset(&line, BEFORE, sizeof line);
  const uint64_t refusal = pardesul_check_delays(file.bytes, file.length, 2, delays, number, &line);
  expect(refusal ? untouched(&line, sizeof line) : line == LINE, "the line beside given delays");
  return refusal;
}

/* That of two. */
static uint64_t given(set_file file, int64_t first, int64_t second) {
  return given_of(file, (int64_t[]){first, second}, 2);
}

static void check_delays(void) {
  const int64_t delays[] = {750000000, 312500000, 0};
  set_file k = set_k(), wide = widest(), refused = thin(1000), shorter = k;
  shorter.length--;
  expect(given_of(k, delays, 2) == PARDESUL_ACCEPTED, "delays that are given");
  expect(given_of(k, delays, 0) == PARDESUL_REFUSED_GIVEN_DELAYS &&
             given_of(k, delays, 1) == PARDESUL_REFUSED_GIVEN_DELAYS &&
             given_of(k, delays, 3) == PARDESUL_REFUSED_GIVEN_DELAYS,
         "no delays, one and three of two years");
  expect(given_of(refused, delays, 0) == PARDESUL_REFUSED_SHARE &&
             given_of(shorter, delays, 2) == PARDESUL_REFUSED_LENGTH,
         "a refused set, before its delays are looked at");
  expect(given(k, 750000001, 312500000) == PARDESUL_REFUSED_GIVEN_DELAYS &&
             given(k, 750000000, 312499999) == PARDESUL_REFUSED_GIVEN_DELAYS,
         "a delay that is one off");
  expect(given(k, INT64_MIN, INT64_MIN) == PARDESUL_REFUSED_GIVEN_DELAYS &&
             given(k, INT64_MAX, INT64_MIN) == PARDESUL_REFUSED_GIVEN_DELAYS,
         "delays without end");
  expect(given(wide, 3000000000, -8000000000) == PARDESUL_ACCEPTED, "the widest delays given");
  expect(given(too_wide(), 3004000000, -8016000000) == PARDESUL_REFUSED_GIVEN_DELAYS,
         "a delay out of range that solves the system");
  expect(given(tied(), 2500002, 2493749994) == PARDESUL_ACCEPTED &&
             given(tied(), 2500002, 2493749995) == PARDESUL_ACCEPTED &&
             given(tied(), 2500003, 2493749993) == PARDESUL_ACCEPTED,
         "both neighbours of a half, and what follows from each");
  expect(given(tied(), 2500003, 2493749994) == PARDESUL_REFUSED_GIVEN_DELAYS &&
             given(tied(), 2500001, 2493749994) == PARDESUL_REFUSED_GIVEN_DELAYS &&
             given(tied(), 2500002, 2493749993) == PARDESUL_REFUSED_GIVEN_DELAYS,
         "what is beside them");
}

static void claim_costs(void) {
  struct {
    uint64_t line;
    double mu, factors[PARDESUL_LIST], ratios[PARDESUL_LIST];
    uint8_t kinds[PARDESUL_LIST];
  } of;
  set_file k = set_k(), refused = thin(1000),
           unpaid = file_of(2, counts_k, (int64_t[]){600, 400, 0}, NULL);
  memset(&of, BEFORE, sizeof of);
  expect(pardesul_claim_costs(refused.bytes, refused.length, 2, &of.line, &of.mu, of.factors,
                              of.kinds, of.ratios) == PARDESUL_REFUSED_SHARE,
         "refused claim costs");
  expect(untouched(&of.line, sizeof of.line), "the line that refused claim costs leave");
  expect(untouched(&of.mu, sizeof of.mu) && untouched(of.factors, sizeof of.factors),
         "the mean cost and factors that refused claim costs leave");
  expect(untouched(of.kinds, sizeof of.kinds) && untouched(of.ratios, sizeof of.ratios),
         "the inflations that refused claim costs leave");
  expect(pardesul_claim_costs(k.bytes, k.length, 2, &of.line, &of.mu, of.factors, of.kinds,
                              of.ratios) == PARDESUL_ACCEPTED &&
             of.line == LINE,
         "the claim costs");
  expect(of.mu == 10 && of.factors[0] == 1000.0 / 600.0 && of.factors[1] == 0,
         "mu and the factors");

  expect(of.kinds[0] == PARDESUL_INFLATION_BASE_YEAR && of.kinds[1] == PARDESUL_INFLATION_RATIO &&
             of.kinds[2] == PARDESUL_INFLATION_NO_PAYMENTS_YET,
         "what the inflations are");
  expect(of.ratios[0] == 0 && of.ratios[1] == 1100.0 / 112.0 / 10.0, "the ratios");
  expect(pardesul_claim_costs(unpaid.bytes, unpaid.length, 2, &of.line, &of.mu, of.factors,
                              of.kinds, of.ratios) == PARDESUL_ACCEPTED,
         "a year without payments");
  expect(of.kinds[1] == PARDESUL_INFLATION_NO_PAYMENTS_YET && of.ratios[1] == 0, "its inflation");
}

/* Whether a forecast's RBNS and IBNR of a cell are these. */
static bool cell(const int64_t *out, size_t i, size_t j, int64_t rbns, int64_t ibnr) {
  return out[PARDESUL_ENTRY(2, i, j)] == rbns && out[PARDESUL_ENTRY(2, i, j) + 1] == ibnr;
}

static void forecast(void) {
  struct {
    uint64_t line;
    int64_t out[PARDESUL_ENTRIES(2) + 1], leftovers[PARDESUL_LIST];
  } of;
  const size_t length = PARDESUL_ENTRIES(2);
  set_file k = set_k(), two = file_of(2, counts_k, paid_k, NULL), wide = widest(),
           refused = too_wide();
  memset(&of, BEFORE, sizeof of);
  expect(pardesul_forecast(k.bytes, k.length, 2, 3, 1, &of.line, of.out, length, of.leftovers) ==
             PARDESUL_REFUSED_METHOD,
         "a method that there is not");
  expect(pardesul_forecast(two.bytes, two.length, 2, PARDESUL_METHOD_IDCL, PARDESUL_BASIS_ESTIMATED,
                           &of.line, of.out, length, of.leftovers) == PARDESUL_REFUSED_METHOD,
         "IDCL without incurred");
  expect(pardesul_forecast(k.bytes, k.length, 2, PARDESUL_METHOD_DCL, PARDESUL_BASIS_ESTIMATED,
                           &of.line, of.out, length - 1, of.leftovers) == PARDESUL_REFUSED_OUTPUT,
         "entries that are too few");
  expect(pardesul_forecast(refused.bytes, refused.length, 2, PARDESUL_METHOD_DCL,
                           PARDESUL_BASIS_ESTIMATED, &of.line, of.out, length,
                           of.leftovers) == PARDESUL_REFUSED_DELAY,
         "the forecast of paid 751, 249");
  expect(untouched(&of, sizeof of), "what a refused forecast leaves");
  expect(pardesul_forecast(k.bytes, k.length, 2, PARDESUL_METHOD_DCL, PARDESUL_BASIS_ESTIMATED,
                           &of.line, of.out, length + 1, of.leftovers) == PARDESUL_ACCEPTED &&
             of.line == LINE,
         "DCL");
  expect(cell(of.out, 2, 1, 275, 165) && cell(of.out, 2, 2, 0, 69) && cell(of.out, 1, 2, 62, 0),
         "the cells of DCL");
  expect(cell(of.out, 1, 0, 0, 0) && cell(of.out, 1, 1, 0, 0) && cell(of.out, 2, 0, 0, 0),
         "known cells");
  expect(untouched(of.out + length, sizeof *of.out) && of.leftovers[0] == 0 &&
             of.leftovers[19] == 0,
         "the entry past the forecast, and the leftovers");
  expect(pardesul_forecast(k.bytes, k.length, 2, PARDESUL_METHOD_BDCL, PARDESUL_BASIS_ESTIMATED,
                           &of.line, of.out, length, of.leftovers) == PARDESUL_ACCEPTED &&
             cell(of.out, 2, 1, 300, 180),
         "BDCL");
  expect(pardesul_forecast(k.bytes, k.length, 2, PARDESUL_METHOD_IDCL, PARDESUL_BASIS_ESTIMATED,
                           &of.line, of.out, length, of.leftovers) == PARDESUL_ACCEPTED &&
             cell(of.out, 2, 1, 338, 202),
         "IDCL");
  expect(pardesul_forecast(wide.bytes, wide.length, 2, PARDESUL_METHOD_DCL,
                           PARDESUL_BASIS_ESTIMATED, &of.line, of.out, length,
                           of.leftovers) == PARDESUL_ACCEPTED &&
             cell(of.out, 2, 1, -2000, 2250),
         "cells of the widest delays");
}

static void forecast_with_delays(void) {
  struct {
    uint64_t line;
    int64_t out[PARDESUL_ENTRIES(2) + 1], leftovers[PARDESUL_LIST];
  } with, without;
  const size_t length = PARDESUL_ENTRIES(2);
  const int64_t own[] = {750000000, 312500000}, off[] = {750000000, 312500001},
                even[] = {2500002, 2493749994}, odd[] = {2500002, 2493749995};
  set_file k = set_k(), two = file_of(2, counts_k, paid_k, NULL), halves = tied(),
           refused = too_wide();
  memset(&with, BEFORE, sizeof with);
  memset(&without, BEFORE, sizeof without);
  expect(pardesul_forecast_with_delays(k.bytes, k.length, 2, PARDESUL_METHOD_DCL,
                                       PARDESUL_BASIS_ESTIMATED, own, 1, &with.line, with.out,
                                       length, with.leftovers) == PARDESUL_REFUSED_GIVEN_DELAYS,
         "the forecast with one delay of two years");
  expect(pardesul_forecast_with_delays(k.bytes, k.length, 2, PARDESUL_METHOD_DCL,
                                       PARDESUL_BASIS_ESTIMATED, own, 0, &with.line, with.out,
                                       length, with.leftovers) == PARDESUL_REFUSED_GIVEN_DELAYS,
         "the forecast without a delay");
  expect(pardesul_forecast_with_delays(k.bytes, k.length, 2, PARDESUL_METHOD_IDCL,
                                       PARDESUL_BASIS_ACTUAL, off, 2, &with.line, with.out, length,
                                       with.leftovers) == PARDESUL_REFUSED_GIVEN_DELAYS,
         "the forecast with a delay that is one off");
  expect(pardesul_forecast_with_delays(k.bytes, k.length, 2, PARDESUL_METHOD_DCL,
                                       PARDESUL_BASIS_ESTIMATED, off, 2, &with.line, with.out,
                                       length - 1, with.leftovers) == PARDESUL_REFUSED_OUTPUT,
         "entries that are too few, before the delays are looked at");
  expect(pardesul_forecast_with_delays(two.bytes, two.length, 2, PARDESUL_METHOD_BDCL,
                                       PARDESUL_BASIS_ESTIMATED, off, 2, &with.line, with.out, 0,
                                       with.leftovers) == PARDESUL_REFUSED_METHOD,
         "BDCL without incurred, before the entries are looked at");
  expect(pardesul_forecast_with_delays(refused.bytes, refused.length, 2, PARDESUL_METHOD_DCL,
                                       PARDESUL_BASIS_ESTIMATED, own, 2, &with.line, with.out,
                                       length, with.leftovers) == PARDESUL_REFUSED_GIVEN_DELAYS,
         "20 in place of 12");
  expect(untouched(&with, sizeof with), "what a forecast with refused delays leaves");
  for (uint64_t method = 0; method <= 2; method++) {
    for (uint64_t basis = 0; basis <= 1; basis++) {
      expect(pardesul_forecast_with_delays(k.bytes, k.length, 2, method, basis, own, 2, &with.line,
                                           with.out, length + 1,
                                           with.leftovers) == PARDESUL_ACCEPTED &&
                 pardesul_forecast(k.bytes, k.length, 2, method, basis, &without.line, without.out,
                                   length + 1, without.leftovers) == PARDESUL_ACCEPTED &&
                 memcmp(&with, &without, sizeof with) == 0,
             "the forecast with the delays that are solved");
    }
  }
  expect(untouched(with.out + length, sizeof *with.out) && with.line == LINE,
         "the entry past the forecast, and the line");
  expect(cell(with.out, 2, 1, 338, 202), "the cells of IDCL with given delays");
  expect(pardesul_forecast_with_delays(halves.bytes, halves.length, 2, PARDESUL_METHOD_DCL,
                                       PARDESUL_BASIS_ESTIMATED, even, 2, &with.line, with.out,
                                       length, with.leftovers) == PARDESUL_ACCEPTED &&
             cell(with.out, 1, 2, 1496249996, 0),
         "the even neighbour of a half");
  expect(pardesul_forecast_with_delays(halves.bytes, halves.length, 2, PARDESUL_METHOD_DCL,
                                       PARDESUL_BASIS_ESTIMATED, odd, 2, &with.line, with.out,
                                       length, with.leftovers) == PARDESUL_ACCEPTED &&
             cell(with.out, 1, 2, 1496249997, 0),
         "and the odd one");
}

static void back_test(void) {
  struct {
    uint64_t line, cells, cellwise, yearwise, overall;
  } of;
  set_file file = three_years();
  memset(&of, BEFORE, sizeof of);
  expect(pardesul_back_test(file.bytes, file.length, 3, PARDESUL_METHOD_DCL,
                            PARDESUL_BASIS_ESTIMATED, 2, &of.line, &of.cells, &of.cellwise,
                            &of.yearwise, &of.overall) == PARDESUL_REFUSED_CUT,
         "a cut of 2 of 3 years");
  expect(untouched(&of, sizeof of), "what a refused back-test leaves");
  expect(pardesul_back_test(file.bytes, file.length, 3, PARDESUL_METHOD_DCL,
                            PARDESUL_BASIS_ESTIMATED, 1, &of.line, &of.cells, &of.cellwise,
                            &of.yearwise, &of.overall) == PARDESUL_ACCEPTED &&
             of.line == LINE,
         "the back-test");
  expect(of.cells == 1 && of.cellwise == 10 && of.yearwise == 10 && of.overall == 10,
         "the cells compared, and the errors");
}

static void closing_page(void) {
  uint8_t page[PARDESUL_PAGE_LENGTH(2) + 1];
  const size_t length = PARDESUL_PAGE_LENGTH(2);
  const char *printed = "YEAR                 RBNS                 IBNR                TOTAL\n"
                        "   1                  337                  165                  502\n"
                        "   2                    0                   69                   69\n"
                        " ALL                  337                  234                  571\n",
             *totals = " ALL                -8000                -3750               -11750\n";
  set_file two = file_of(2, counts_k, paid_k, NULL), wide = widest(), refused = too_wide();
  memset(page, BEFORE, sizeof page);
  expect(length == 272 && strlen(printed) == length, "the length of a page");
  expect(pardesul_closing_page(two.bytes, two.length, 2, PARDESUL_METHOD_DCL,
                               PARDESUL_BASIS_ESTIMATED, page, length - 1) == PARDESUL_REFUSED_PAGE,
         "a page that is too short");
  expect(pardesul_closing_page(refused.bytes, refused.length, 2, PARDESUL_METHOD_DCL,
                               PARDESUL_BASIS_ESTIMATED, page, 0) == PARDESUL_REFUSED_PAGE,
         "a page of no bytes, before the delays are looked at");
  expect(pardesul_closing_page(two.bytes, two.length, 2, PARDESUL_METHOD_BDCL,
                               PARDESUL_BASIS_ESTIMATED, page, 0) == PARDESUL_REFUSED_METHOD,
         "BDCL without incurred, before the page is looked at");
  expect(pardesul_closing_page(refused.bytes, refused.length, 2, PARDESUL_METHOD_DCL,
                               PARDESUL_BASIS_ESTIMATED, page, length) == PARDESUL_REFUSED_DELAY,
         "the page of paid 751, 249");
  expect(untouched(page, sizeof page), "what a refused page leaves");
  expect(pardesul_closing_page(two.bytes, two.length, 2, PARDESUL_METHOD_DCL,
                               PARDESUL_BASIS_ESTIMATED, page, sizeof page) == PARDESUL_ACCEPTED &&
             memcmp(page, printed, length) == 0,
         "the page");
  expect(untouched(page + length, sizeof page - length), "the byte past the page");
  expect(pardesul_closing_page(wide.bytes, wide.length, 2, PARDESUL_METHOD_DCL,
                               PARDESUL_BASIS_ESTIMATED, page, length) == PARDESUL_ACCEPTED &&
             memcmp(page + length - strlen(totals), totals, strlen(totals)) == 0,
         "a page with negative amounts");
}

static pardesul_date date(uint64_t year, uint64_t month, uint64_t day) {
  return (pardesul_date){.year = year, .month = month, .day = day};
}

/* What a window hands back. */
typedef struct {
  uint64_t line;
  int64_t amount;
} cash;

/* The refusal of a window of K's forecast years from 31 December 2023 on; *of gets its cash. */
static uint64_t window(pardesul_date start, pardesul_date end, cash *of) {
  set_file k = set_k();
  const pardesul_date valuation = date(2023, 12, 31);
  return pardesul_cash_in_window(k.bytes, k.length, 2, PARDESUL_METHOD_DCL,
                                 PARDESUL_BASIS_ESTIMATED, &valuation, &start, &end, &of->line,
                                 &of->amount);
}

static void cash_in_window(void) {
  cash of;
  set_file k = set_k(), refused = too_wide();
  const pardesul_date valuation = date(2023, 12, 31), past = date(2025, 12, 31),
                      none = date(2023, 2, 29), early = date(1899, 12, 31);
  memset(&of, BEFORE, sizeof of);
  expect(pardesul_cash_in_window(refused.bytes, refused.length, 2, PARDESUL_METHOD_DCL,
                                 PARDESUL_BASIS_ESTIMATED, &none, &none, &none, &of.line,
                                 &of.amount) == PARDESUL_REFUSED_DELAY,
         "the cash of paid 751, 249, before the dates are looked at");
  expect(pardesul_cash_in_window(k.bytes, k.length, 2, PARDESUL_METHOD_DCL,
                                 PARDESUL_BASIS_ESTIMATED, &none, &valuation, &past, &of.line,
                                 &of.amount) == PARDESUL_REFUSED_DATE,
         "29 February 2023 as the valuation date");
  expect(pardesul_cash_in_window(k.bytes, k.length, 2, PARDESUL_METHOD_DCL,
                                 PARDESUL_BASIS_ESTIMATED, &early, &early, &early, &of.line,
                                 &of.amount) == PARDESUL_REFUSED_DATE,
         "a valuation date of 1899");
  expect(window(date(2024, 13, 1), past, &of) == PARDESUL_REFUSED_DATE &&
             window(valuation, date(2024, 1, 0), &of) == PARDESUL_REFUSED_DATE &&
             window(valuation, date(UINT64_MAX, 1, 1), &of) == PARDESUL_REFUSED_DATE,
         "a month 13, a day 0, and a year without end");
  expect(window(date(2023, 12, 30), past, &of) == PARDESUL_REFUSED_DATE &&
             window(past, past, &of) == PARDESUL_REFUSED_DATE &&
             window(valuation, date(2026, 1, 1), &of) == PARDESUL_REFUSED_DATE &&
             window(date(2024, 1, 2), date(2024, 1, 1), &of) == PARDESUL_REFUSED_DATE,
         "windows that leave the forecast years, or end before they start");
  expect(untouched(&of, sizeof of), "what a refused window leaves");
  expect(window(date(2024, 1, 1), date(2024, 4, 1), &of) == PARDESUL_ACCEPTED && of.line == LINE &&
             of.amount == 125,
         "the first quarter of 2024");
  expect(window(valuation, date(2024, 7, 1), &of) == PARDESUL_ACCEPTED && of.amount == 251,
         "half of the first forecast year");
  expect(window(valuation, date(2024, 12, 31), &of) == PARDESUL_ACCEPTED && of.amount == 502 &&
             window(date(2024, 12, 31), past, &of) == PARDESUL_ACCEPTED && of.amount == 69 &&
             window(valuation, past, &of) == PARDESUL_ACCEPTED && of.amount == 571,
         "each forecast year, and both");
  expect(pardesul_cash_in_window(k.bytes, k.length, 2, PARDESUL_METHOD_IDCL, PARDESUL_BASIS_ACTUAL,
                                 &valuation, &valuation, &valuation, &of.line,
                                 &of.amount) == PARDESUL_ACCEPTED &&
             of.amount == 0,
         "an empty window, whose three dates are the same memory");
}

enum { REPORTED = 0, PAID = 1 };

/* Puts a transaction to the end of a journal. */
static void put(uint8_t *journal, size_t *length, uint32_t claim, uint8_t kind, uint8_t accident,
                uint8_t calendar, int64_t amount) {
  uint8_t *at = journal + *length;
  for (int byte = 0; byte < 4; byte++) at[byte] = (uint8_t)(claim >> 8 * byte);
  at[4] = kind;
  at[5] = accident;
  at[6] = calendar;
  at[7] = 0;
  for (int byte = 0; byte < 8; byte++) at[8 + byte] = (uint8_t)((uint64_t)amount >> 8 * byte);
  *length += PARDESUL_TRANSACTION;
}

/* A journal of two years whose tally is known, with room for one transaction more. */
typedef struct {
  size_t length;
  uint8_t bytes[8 * PARDESUL_TRANSACTION];
} journal;

static journal two_years(void) {
  journal of = {0};
  put(of.bytes, &of.length, 263, REPORTED, 1, 1, 0);
  put(of.bytes, &of.length, 263, PAID, 1, 1, 600);
  put(of.bytes, &of.length, 0, REPORTED, 1, 2, 0);
  put(of.bytes, &of.length, 4095, REPORTED, 2, 2, 0);
  put(of.bytes, &of.length, 263, PAID, 1, 2, 399);
  put(of.bytes, &of.length, 0, PAID, 1, 2, 1);
  put(of.bytes, &of.length, 4095, PAID, 2, 2, 10000000000);
  return of;
}

/* The refusal of that journal and one transaction behind it, which has to leave the tally. */
static uint64_t refusal(uint32_t claim, uint8_t kind, uint8_t accident, uint8_t calendar,
                        int64_t amount) {
  journal of = two_years();
  pardesul_journal_tally tally;
  memset(&tally, BEFORE, sizeof tally);
  put(of.bytes, &of.length, claim, kind, accident, calendar, amount);
  const uint64_t number = pardesul_replay(of.bytes, of.length, 2, &tally);
  expect(untouched(&tally, sizeof tally) == (number != 0), "what a refused journal leaves");
  return number;
}

static void replay(void) {
  static uint8_t reports[(PARDESUL_JOURNAL_MOST + 1) * PARDESUL_TRANSACTION];
  const journal of = two_years();
  pardesul_journal_tally tally, wanted;
  set_file file = {.m = 2, .length = PARDESUL_FILE_LENGTH(2, false)};
  size_t length = 0;
  memset(&tally, BEFORE, sizeof tally);
  expect(pardesul_replay(of.bytes, of.length, 21, &tally) == PARDESUL_REFUSED_YEARS &&
             pardesul_replay(of.bytes, of.length - 1, 1, &tally) == PARDESUL_REFUSED_YEARS,
         "a journal of 21 years, or of one");
  expect(pardesul_replay(of.bytes, of.length - 1, 2, &tally) == PARDESUL_REFUSED_TRANSACTION,
         "a journal that is a byte short");
  expect(untouched(&tally, sizeof tally), "what a refused length leaves");

  expect(refusal(4096, REPORTED, 1, 2, 0) == PARDESUL_REFUSED_TRANSACTION, "claim 4096");
  expect(refusal(1, 2, 1, 2, 0) == PARDESUL_REFUSED_TRANSACTION, "kind 2");
  expect(refusal(1, REPORTED, 2, 1, 0) == PARDESUL_REFUSED_TRANSACTION, "before the accident");
  expect(refusal(1, REPORTED, 1, 2, 1) == PARDESUL_REFUSED_TRANSACTION, "a report with an amount");
  expect(refusal(0, PAID, 1, 2, -1) == PARDESUL_REFUSED_TRANSACTION, "a payment below zero");
  expect(refusal(263, REPORTED, 2, 2, 0) == PARDESUL_REFUSED_CLAIM, "a claim reported twice");
  expect(refusal(1, PAID, 1, 2, 0) == PARDESUL_REFUSED_CLAIM, "a claim paid unreported");
  expect(refusal(4095, PAID, 1, 2, 1) == PARDESUL_REFUSED_CLAIM, "a claim paid under another year");
  expect(refusal(1, REPORTED, 1, 1, 0) == PARDESUL_REFUSED_BOOKING, "a year below the one before");
  expect(refusal(4095, PAID, 2, 2, 1) == PARDESUL_REFUSED_BOOKING, "a cell above 10^10");
  expect(refusal(4095, PAID, 2, 2, 0) == PARDESUL_ACCEPTED, "a payment of nothing");

  memset(&tally, BEFORE, sizeof tally);
  expect(pardesul_replay(of.bytes, of.length, 2, &tally) == PARDESUL_ACCEPTED, "the journal");
  memset(&wanted, 0, sizeof wanted);
  wanted.claims[263] = wanted.claims[0] = 1;
  wanted.claims[4095] = 2;
  fill(wanted.counts, 2, (int64_t[]){1, 1, 1});
  fill(wanted.paid, 2, (int64_t[]){600, 400, 10000000000});
  wanted.last = 2;
  expect(memcmp(&tally, &wanted, sizeof tally) == 0, "the tally of the journal");
  expect(pardesul_write_set(2, LINE, false, tally.counts, tally.paid, tally.paid, file.bytes,
                            file.length) == PARDESUL_ACCEPTED,
         "the set of the journal");

  for (uint32_t claim = 0; claim < PARDESUL_CLAIMS; claim++)
    put(reports, &length, claim, REPORTED, 1, 1, 0);
  expect(pardesul_replay(reports, length, 20, &tally) == PARDESUL_ACCEPTED &&
             tally.counts[PARDESUL_PLACE(1, 0)] == 4096 && tally.claims[263] == 1 &&
             tally.paid[PARDESUL_PLACE(1, 0)] == 0 && tally.last == 1,
         "4096 reports");
  wanted = tally;
  put(reports, &length, 0, PAID, 1, 1, 0);
  expect(pardesul_replay(reports, length, 20, &tally) == PARDESUL_REFUSED_TRANSACTION &&
             memcmp(&tally, &wanted, sizeof tally) == 0,
         "4097 transactions");
  memset(&wanted, 0, sizeof wanted);
  expect(pardesul_replay(reports, 0, 2, &tally) == PARDESUL_ACCEPTED &&
             memcmp(&tally, &wanted, sizeof tally) == 0,
         "a journal without transactions");
}

static void tally(void) {
  int64_t rbns[PARDESUL_YEARS] = {0}, ibnr[PARDESUL_YEARS] = {0}, before[PARDESUL_YEARS];
  pardesul_tally_add(rbns, ibnr, 1, 62, 0);
  pardesul_tally_add(rbns, ibnr, 1, 275, 165);
  pardesul_tally_add(rbns, ibnr, 38, -5, INT64_MAX);
  expect(rbns[0] == 337 && ibnr[0] == 165 && rbns[37] == -5 && ibnr[37] == INT64_MAX, "the tally");
  memcpy(before, rbns, sizeof before);
  pardesul_tally_add(rbns, ibnr, 0, 1, 1);
  pardesul_tally_add(rbns, ibnr, 39, 1, 1);
  pardesul_tally_add(rbns, ibnr, 38, 1, 1);
  expect(memcmp(rbns, before, sizeof before) == 0 && ibnr[0] == 165 && ibnr[37] == INT64_MAX,
         "a tally that stays the same");
}

static void respond(void) {
  uint8_t input[6 + PARDESUL_FILE_LENGTH(2, false)] = "2 0 1\n", text[PARDESUL_TEXT];
  const char *printed = "1 337 165 502\n2 0 69 69\nT 337 234 571\n";
  const size_t length = strlen(printed);
  set_file two = file_of(2, counts_k, paid_k, NULL), refused = too_wide();
  memcpy(input + 6, two.bytes, two.length);
  memset(text, BEFORE, sizeof text);
  expect(pardesul_respond(input, sizeof input, text, length - 1) == 0 &&
             untouched(text, sizeof text),
         "an output that is too short for the text");
  expect(pardesul_respond(input, sizeof input, text, sizeof text) == length &&
             memcmp(text, printed, length) == 0,
         "the text");
  expect(untouched(text + length, sizeof text - length), "the bytes past the text");
  expect(pardesul_respond(input, 5, text, sizeof text) == 10 &&
             memcmp(text, "refused 1\n", 10) == 0,
         "a first line that does not end");
  memcpy(input + 6, refused.bytes, refused.length);
  expect(pardesul_respond(input, sizeof input, text, sizeof text) == 11 &&
             memcmp(text, "refused 12\n", 11) == 0,
         "a refused file");
}

/* The calls that hand a line back. */
enum { CALLS = 9 };

/* The refusal that each of them has for a file of three years; their lines go to `lines`. */
static uint64_t refusal_by_all(set_file file, uint64_t lines[CALLS]) {
  const pardesul_date valuation = date(2023, 12, 31);
  int64_t triangles[3][PARDESUL_CELLS], lists[5][PARDESUL_LIST], out[PARDESUL_ENTRIES(3)], amount;
  double mu, factors[PARDESUL_LIST], ratios[PARDESUL_LIST];
  uint8_t kinds[PARDESUL_LIST];
  uint64_t sums[4], refusals[CALLS];
  int64_t p[PARDESUL_LIST] = {0};
  bool has_incurred;
  refusals[0] = pardesul_read_set(file.bytes, file.length, 3, &lines[0], &has_incurred,
                                  triangles[0], triangles[1], triangles[2]);
  refusals[1] = pardesul_shares(file.bytes, file.length, 3, &lines[1], lists[0], lists[1], lists[2],
                                lists[3], lists[4]);
  refusals[2] = pardesul_delays(file.bytes, file.length, 3, &lines[2], p);
  refusals[3] = pardesul_check_delays(file.bytes, file.length, 3, p, 3, &lines[3]);
  refusals[4] =
      pardesul_claim_costs(file.bytes, file.length, 3, &lines[4], &mu, factors, kinds, ratios);
  refusals[5] =
      pardesul_forecast(file.bytes, file.length, 3, PARDESUL_METHOD_DCL, PARDESUL_BASIS_ESTIMATED,
                        &lines[5], out, PARDESUL_ENTRIES(3), lists[0]);
  refusals[6] = pardesul_forecast_with_delays(file.bytes, file.length, 3, PARDESUL_METHOD_DCL,
                                              PARDESUL_BASIS_ESTIMATED, p, 3, &lines[6], out,
                                              PARDESUL_ENTRIES(3), lists[0]);
  refusals[7] =
      pardesul_back_test(file.bytes, file.length, 3, PARDESUL_METHOD_DCL, PARDESUL_BASIS_ESTIMATED,
                         1, &lines[7], &sums[0], &sums[1], &sums[2], &sums[3]);
  refusals[8] = pardesul_cash_in_window(file.bytes, file.length, 3, PARDESUL_METHOD_DCL,
                                        PARDESUL_BASIS_ESTIMATED, &valuation, &valuation,
                                        &valuation, &lines[8], &amount);
  for (size_t call = 1; call < CALLS; call++)
    expect(refusals[call] == refusals[0], "one refusal by all calls");
  return refusals[0];
}

/* The page and the text of a file of three years. */
typedef struct {
  uint64_t refusal;
  uint8_t page[PARDESUL_PAGE_LENGTH(3)], text[PARDESUL_TEXT];
} printed;

static printed print(set_file file) {
  printed of;
  uint8_t input[6 + sizeof file.bytes] = "3 0 1\n";
  memset(&of, BEFORE, sizeof of);
  memcpy(input + 6, file.bytes, file.length);
  of.refusal = pardesul_closing_page(file.bytes, file.length, 3, PARDESUL_METHOD_DCL,
                                     PARDESUL_BASIS_ESTIMATED, of.page, sizeof of.page);
  expect(pardesul_respond(input, 6 + file.length, of.text, sizeof of.text) != 0, "a text");
  return of;
}

/* Whether all calls refuse a file with 3, and leave the lines and the page. */
static bool is_refused(set_file file) {
  uint64_t lines[CALLS];
  const printed of = print(file);
  memset(lines, BEFORE, sizeof lines);
  return refusal_by_all(file, lines) == PARDESUL_REFUSED_RECORD && untouched(lines, sizeof lines) &&
         of.refusal == PARDESUL_REFUSED_RECORD && untouched(of.page, sizeof of.page) &&
         memcmp(of.text, "refused 3\n", 10) == 0;
}

/* A file on each line, and such as have records on two lines, or on one that there is not. */
static void lines_of_cover(void) {
  uint64_t lines[CALLS];
  set_file file = three_years();
  const printed first = print(file);
  expect(first.refusal == PARDESUL_ACCEPTED, "the page of three years");
  for (unsigned line = 0; line < 256; line++) {
    for (size_t at = 3; at < file.length; at += 16) file.bytes[at] = (uint8_t)line;
    if (line >= PARDESUL_LINES) {
      expect(is_refused(file), "a line that there is not");
      continue;
    }
    memset(lines, BEFORE, sizeof lines);
    expect(refusal_by_all(file, lines) == PARDESUL_ACCEPTED, "every call on each line");
    for (size_t call = 0; call < CALLS; call++)
      expect(lines[call] == line, "the line of each call");
    const printed of = print(file);
    expect(memcmp(of.page, first.page, sizeof of.page) == 0 &&
               memcmp(of.text, first.text, sizeof of.text) == 0,
           "one page and one text for all lines");
    for (size_t at = 3; at < file.length; at += 16) {
      file.bytes[at] = (uint8_t)((line + 1) % PARDESUL_LINES);
      expect(is_refused(file), "a record on another line");
      file.bytes[at] = (uint8_t)line;
    }
  }
}

int main(void) {
  writer();
  reader();
  shares();
  delays();
  check_delays();
  claim_costs();
  forecast();
  forecast_with_delays();
  back_test();
  closing_page();
  cash_in_window();
  replay();
  tally();
  respond();
  lines_of_cover();
  return 0;
}
