/* Claims reserving for closing accounts: the calls of the static library libc_api.a, for x86-64,
 * which `rt lib` in crates/c_api writes. Each call is proved to answer as stated here;
 * docs/TRUST.md says what that rests on.
 *
 *     cc -I include program.c crates/c_api/out/libc_api.a
 *
 * Nothing else has to be linked.
 *
 * Sets. A set has m accident years, i from 1 to m, and cells (i,j) with delays j from 0 to m - i.
 * Amounts are whole currency units. A triangle is 400 numbers, cell (i,j) at PARDESUL_PLACE(i, j).
 * A set is of one line of cover, a number below PARDESUL_LINES; no amount depends on it.
 * Each share, ultimate, delay, weight, row base, cell and amount due is a quotient rounded to the
 * nearest whole number, halves to the even one.
 *
 * Files. A file has a record of 16 bytes for each cell of counts and paid, or of counts, paid and
 * incurred, once and in any order: a byte for the kind (0 count, 1 paid, 2 incurred), one for i,
 * one for j, one for the line of cover, the same in all records, four that are 0, and the value as
 * a signed 64-bit number, least byte first.
 *
 * Journals. A journal is a list of 0 to PARDESUL_JOURNAL_MOST transactions of 16 bytes: a claim
 * number below PARDESUL_CLAIMS in four, least byte first, a byte for the kind (0 reported, 1 paid),
 * one for the accident year i, one for the calendar year, i to m, one that is 0, and an amount of 0
 * to 10^10 as a signed 64-bit number, least byte first, which is 0 in a report. The cell is (i,j)
 * with j the calendar year less i.
 *
 * Dates. A date is a year, a month and a day of the Gregorian calendar; any numbers may be handed
 * in. The forecast years, 1 to 2m - 2, are the calendar years of a forecast: the first one starts
 * on the valuation date, each later one on the same day a year on, and after a valuation on 29
 * February those of common years on 28 February.
 *
 * Answers. A call hands back its refusal number, but for pardesul_respond and pardesul_tally_add:
 * PARDESUL_ACCEPTED, or the number of the first question that got a no. A refused call writes
 * nothing: every output stays as it was. *line gets the line of cover of the file's set.
 *
 * Memory. Pointers are not null, each is to as many places as its declaration says, and the memory
 * lent to one call does not overlap, but for memory that is only read. An empty file, journal, list
 * of delays or output is a pointer to anything and the length 0. A call keeps nothing for the next
 * one, so calls may run at the same time in several threads. PARDESUL_STACK bytes of stack are
 * enough for any of them. */
#ifndef PARDESUL_H
#define PARDESUL_H

#include <stdbool.h>
#include <stddef.h>
#include <stdint.h>

#ifdef __cplusplus
extern "C" {
#endif

/* The version, 1,000,000 x major + 1,000 x minor + patch: 0.8.0. */
#define PARDESUL_VERSION 8000

/* The bytes of stack that are enough for each call, and for any of them: so many a thread has to
 * have free when it makes the call. No theorem says so: the most that a call takes was measured
 * (docs/RECORDS.md), and these are at least a tenth more, in whole KiB. Not in them is what a
 * loader takes that looks for memcpy and memset only when they are first called. */
#define PARDESUL_STACK_READ_SET (12 * 1024)
#define PARDESUL_STACK_WRITE_SET (1 * 1024)
#define PARDESUL_STACK_SHARES (14 * 1024)
#define PARDESUL_STACK_DELAYS (15 * 1024)
#define PARDESUL_STACK_CHECK_DELAYS (15 * 1024)
#define PARDESUL_STACK_CLAIM_COSTS (15 * 1024)
#define PARDESUL_STACK_FORECAST (15 * 1024)
#define PARDESUL_STACK_FORECAST_WITH_DELAYS (15 * 1024)
#define PARDESUL_STACK_BACK_TEST (19 * 1024)
#define PARDESUL_STACK_CLOSING_PAGE (30 * 1024)
#define PARDESUL_STACK_CASH_IN_WINDOW (30 * 1024)
#define PARDESUL_STACK_REPLAY (12 * 1024)
#define PARDESUL_STACK_TALLY_ADD (3 * 1024)
#define PARDESUL_STACK_RESPOND (32 * 1024)
#define PARDESUL_STACK PARDESUL_STACK_RESPOND

/* The numbers of a triangle, and the place of a cell. */
#define PARDESUL_CELLS 400
#define PARDESUL_PLACE(i, j) (20 * ((i) - 1) + (j))

/* The length in bytes of a set's file. */
#define PARDESUL_FILE_LENGTH(m, has_incurred)                                                      \
  (((has_incurred) ? (size_t)24 : (size_t)16) * (m) * ((m) + 1))

/* The lines of cover: they are numbered from 0 to PARDESUL_LINES - 1. */
#define PARDESUL_LINES 6

/* The numbers of a list by accident year or delay: year i stands at place i - 1, delay j at place
 * j, and zeros behind the last one. */
#define PARDESUL_LIST 20

/* The entries of a forecast, and the place of year i's RBNS at delay j, 0 to 2m - 2; IBNR stands at
 * the next place. */
#define PARDESUL_ENTRIES(m) (2 * (m) * (2 * (m) - 1))
#define PARDESUL_ENTRY(m, i, j) (2 * (((i) - 1) * (2 * (m) - 1) + (j)))

/* The calendar years of a tally; year t stands at place t - 1. */
#define PARDESUL_YEARS 38

/* The length in bytes of a closing page. */
#define PARDESUL_PAGE_LENGTH(m) ((size_t)136 * (m))

/* The length in bytes of a transaction, the most transactions of a journal, and the claims, which
 * have the numbers from 0 on. */
#define PARDESUL_TRANSACTION 16
#define PARDESUL_JOURNAL_MOST 4096
#define PARDESUL_CLAIMS 4096

/* The bytes of the longest text of `closing`. */
#define PARDESUL_TEXT 2573

/* What the rows are based on. */
enum pardesul_method {
  PARDESUL_METHOD_DCL = 0,  /* double chain ladder: paid ultimates */
  PARDESUL_METHOD_BDCL = 1, /* paid ultimates with the inflation of incurred */
  PARDESUL_METHOD_IDCL = 2, /* paid ultimates with the reserves of incurred */
};

/* The counts behind the RBNS cells. */
enum pardesul_basis {
  PARDESUL_BASIS_ACTUAL = 0,    /* those of the set */
  PARDESUL_BASIS_ESTIMATED = 1, /* those that the chain ladder expects */
};

/* What a year's inflation is. */
enum pardesul_inflation {
  PARDESUL_INFLATION_BASE_YEAR = 0,
  PARDESUL_INFLATION_NO_PAYMENTS_YET = 1,
  PARDESUL_INFLATION_RATIO = 2,
};

/* The refusal numbers. C(i,j) is the sum of row i up to delay j; A(j) sums C(i,j-1) and B(j) sums
 * C(i,j), both over rows 1 to m - j; g(j) is the share of a row, in billionths, that is there up to
 * delay j, estimated from them; a row base is the amount that a year's forecast spreads. 13 and 14
 * come under methods 1 and 2 only; 15 is asked of a closing page, in place of 7; 16 to 18 are asked
 * of a journal, after 1: the length first, then transaction by transaction, of each by rising
 * number; 19 is asked of a window's dates, after all others; 20 is asked of given delays, in place
 * of 12: p(l) is the delay at place l, b(j) and q(j) are the shares of counts and of payments at
 * delay j, in billionths. */
enum pardesul_refusal {
  PARDESUL_ACCEPTED = 0,
  /* m is not 2 to 20 */
  PARDESUL_REFUSED_YEARS = 1,
  /* the length is not that of a set */
  PARDESUL_REFUSED_LENGTH = 2,
  /* a record has a kind that the length does not allow, a cell outside the triangle, a line of
   * cover that is above 5 or not the first record's, or a byte 4 to 7 that is not 0; or the line to
   * be written is above 5 */
  PARDESUL_REFUSED_RECORD = 3,
  /* a cell is missing or stands there more than once */
  PARDESUL_REFUSED_CELL = 4,
  /* a value is out of range: counts 0 to 10^7, paid 0 to 10^10, incurred -10^10 to 10^10 */
  PARDESUL_REFUSED_VALUE = 5,
  /* there is no such method or basis, or the method needs incurred and there is none */
  PARDESUL_REFUSED_METHOD = 6,
  /* the output is too short */
  PARDESUL_REFUSED_OUTPUT = 7,
  /* the back-test's cut is not 1 to m - 2 */
  PARDESUL_REFUSED_CUT = 8,
  /* a row has no count above zero */
  PARDESUL_REFUSED_COUNTS = 9,
  /* a paid B(j) is zero */
  PARDESUL_REFUSED_PAID = 10,
  /* g(0) of counts or of paid is below 10^6 */
  PARDESUL_REFUSED_SHARE = 11,
  /* a delay is outside -8 × 10^9 to 8 × 10^9 */
  PARDESUL_REFUSED_DELAY = 12,
  /* an incurred A(j) or B(j) is not above zero, a latest incurred row sum is negative, or an
   * incurred g(j) is outside 10^6 to 4 × 10^9 */
  PARDESUL_REFUSED_INCURRED = 13,
  /* a row base is outside -2 × 10^14 to 2 × 10^14 */
  PARDESUL_REFUSED_BASE = 14,
  /* the page is shorter than 136 × m bytes */
  PARDESUL_REFUSED_PAGE = 15,
  /* the journal's length is not 0 to 4096 whole transactions, or a transaction has a bad field */
  PARDESUL_REFUSED_TRANSACTION = 16,
  /* a claim is reported twice, paid before it is reported, or paid under another accident year */
  PARDESUL_REFUSED_CLAIM = 17,
  /* a calendar year is below the one before it, or a cell leaves its range */
  PARDESUL_REFUSED_BOOKING = 18,
  /* a date is impossible, the valuation date is not of the years 1900 to 2199, or the window ends
   * before it starts or leaves the forecast years */
  PARDESUL_REFUSED_DATE = 19,
  /* the given delays are not m in number, one is outside -8 × 10^9 to 8 × 10^9, or a sum of b(k) ×
   * p(l-k), k from 0 to l, is more than b(0) / 2 away from 10^9 × q(l) */
  PARDESUL_REFUSED_GIVEN_DELAYS = 20,
};

/* What a journal comes to. The members follow one another without a gap, at bytes 0, 4096, 7296 and
 * 10496, and are 10504 bytes, aligned to 8. */
typedef struct pardesul_journal_tally {
  uint8_t claims[PARDESUL_CLAIMS]; /* the claim's accident year, 0 where it is not reported */
  int64_t counts[PARDESUL_CELLS];  /* reports by cell */
  int64_t paid[PARDESUL_CELLS];    /* money paid by cell */
  size_t last;                     /* the last calendar year, 0 where there is no transaction */
} pardesul_journal_tally;

/* A date, or any numbers given for one. The members follow one another without a gap and are 24
 * bytes, aligned to 8. */
typedef struct pardesul_date {
  uint64_t year, month, day;
} pardesul_date;

/* An array parameter of at least so many places. C says so with `static`, by which compilers
 * warn of a shorter array; C++ has no such word, and takes the bare number, of which it checks
 * nothing. */
#ifdef __cplusplus
#define PARDESUL_LENT(places) places
#else
#define PARDESUL_LENT(places) static places
#endif

/* Reads a file of file_length bytes. counts, paid and incurred get the set's cells, with zeros in
 * the other places; *has_incurred says whether incurred is there, and incurred is all zeros where
 * it is not. Refuses with 1 to 5. */
uint64_t pardesul_read_set(const uint8_t *file, size_t file_length, size_t m, uint64_t *line,
                           bool *has_incurred, int64_t counts[PARDESUL_LENT(PARDESUL_CELLS)],
                           int64_t paid[PARDESUL_LENT(PARDESUL_CELLS)],
                           int64_t incurred[PARDESUL_LENT(PARDESUL_CELLS)]);

/* Writes a set's file, PARDESUL_FILE_LENGTH(m, has_incurred) bytes, to the front of out, which has
 * out_length bytes; those past the file stay. Only the set's cells are looked at: of incurred none
 * where has_incurred is false, but it is lent then too. Records go by kind, then accident year,
 * then delay, each ascending, and each has the line: sets of one m have the same file just where
 * their lines and cells are the same and both have incurred or neither. Refuses with 1, 3 for the
 * line, 5 and 7, in this order. */
uint64_t pardesul_write_set(size_t m, uint64_t line, bool has_incurred,
                            const int64_t counts[PARDESUL_LENT(PARDESUL_CELLS)],
                            const int64_t paid[PARDESUL_LENT(PARDESUL_CELLS)],
                            const int64_t incurred[PARDESUL_LENT(PARDESUL_CELLS)], uint8_t *out,
                            size_t out_length);

/* The chain ladder of counts and paid: b shares of counts and n ultimate counts; q shares of
 * payments, g the same up to each delay, and u ultimate payments. Shares are in billionths. Refuses
 * with 1 to 5 and 9 to 11. */
uint64_t pardesul_shares(const uint8_t *file, size_t file_length, size_t m, uint64_t *line,
                         int64_t b[PARDESUL_LENT(PARDESUL_LIST)],
                         int64_t n[PARDESUL_LENT(PARDESUL_LIST)],
                         int64_t q[PARDESUL_LENT(PARDESUL_LIST)],
                         int64_t g[PARDESUL_LENT(PARDESUL_LIST)],
                         int64_t u[PARDESUL_LENT(PARDESUL_LIST)]);

/* The delays in billionths, p(l) at place l; one may be negative. Refuses with 1 to 5 and 9 to
 * 12. */
uint64_t pardesul_delays(const uint8_t *file, size_t file_length, size_t m, uint64_t *line,
                         int64_t p[PARDESUL_LENT(PARDESUL_LIST)]);

/* Whether delays from elsewhere are delays of the set. There are `number` of them, any numbers, in
 * billionths. They are accepted where there are m, each is within -8 × 10^9 to 8 × 10^9, and for
 * each l from 0 to m - 1 the sum of b(k) × p(l-k), k from 0 to l, is at most b(0) / 2 away from
 * 10^9 × q(l), with b and q of pardesul_shares. The first m of pardesul_delays are accepted; where
 * a delay's quotient is a half, so are delays that go on from its other neighbour. Refuses with 1
 * to 5, 9 to 11 and 20. */
uint64_t pardesul_check_delays(const uint8_t *file, size_t file_length, size_t m,
                               const int64_t *delays, size_t number, uint64_t *line);

/* The claim costs: mu, the mean cost of year 1; factors, f(j) of paid at place j - 1; and the
 * inflation of year i at place i - 1: what it is, an enum pardesul_inflation, in kinds, and its
 * ratio to mu in ratios. Factors past the last one are 0, ratios are 0 where there is none, and
 * kinds past the last year are PARDESUL_INFLATION_NO_PAYMENTS_YET. Refuses with 1 to 5 and 9 to
 * 11. */
uint64_t pardesul_claim_costs(const uint8_t *file, size_t file_length, size_t m, uint64_t *line,
                              double *mu, double factors[PARDESUL_LENT(PARDESUL_LIST)],
                              uint8_t kinds[PARDESUL_LENT(PARDESUL_LIST)],
                              double ratios[PARDESUL_LENT(PARDESUL_LIST)]);

/* The forecast: PARDESUL_ENTRIES(m) entries at the front of out, which has out_length places; those
 * past them stay. A cell has an entry for RBNS (reported but not settled) and one for IBNR
 * (incurred but not reported), both 0 where i + j <= m: that is known. The leftover of year i goes
 * to place i - 1 of leftovers: under IDCL the incurred reserve of a year whose paid reserve is 0,
 * else 0. method is an enum pardesul_method, basis an enum pardesul_basis; other numbers are
 * refused. Refuses with 1 to 7 and 9 to 14. */
uint64_t pardesul_forecast(const uint8_t *file, size_t file_length, size_t m, uint64_t method,
                           uint64_t basis, uint64_t *line, int64_t *out, size_t out_length,
                           int64_t leftovers[PARDESUL_LENT(PARDESUL_LIST)]);

/* The forecast with given delays, those of pardesul_check_delays, in place of the ones that
 * pardesul_delays solves; all else is as in pardesul_forecast, and so are out and leftovers where
 * the delays are the first m of pardesul_delays. Refuses with 1 to 7, 9 to 11, 20, 13 and 14, in
 * this order. */
uint64_t pardesul_forecast_with_delays(const uint8_t *file, size_t file_length, size_t m,
                                       uint64_t method, uint64_t basis, const int64_t *delays,
                                       size_t number, uint64_t *line, int64_t *out,
                                       size_t out_length,
                                       int64_t leftovers[PARDESUL_LENT(PARDESUL_LIST)]);

/* The back-test: the set without its latest c calendar years is forecast, and RBNS + IBNR held
 * against what was paid in them. cells is the number of cells compared; cellwise, yearwise and
 * overall are the sums of absolute errors by cell, by calendar year and of the total. Refuses with
 * 1 to 6, 8, and 9 to 14 of the set that is left. */
uint64_t pardesul_back_test(const uint8_t *file, size_t file_length, size_t m, uint64_t method,
                            uint64_t basis, size_t c, uint64_t *line, uint64_t *cells,
                            uint64_t *cellwise, uint64_t *yearwise, uint64_t *overall);

/* The closing page: the forecast as `closing` prints it, but in columns. PARDESUL_PAGE_LENGTH(m)
 * bytes go to the front of page, which has page_length bytes; those past them stay. They are 2m
 * lines of 67 characters and a newline: a year of 4 characters and three amounts of 21, RBNS, IBNR
 * and their sum, all right-aligned with spaces, a minus sign right before a negative amount. The
 * first line has the words YEAR, RBNS, IBNR and TOTAL, then come the calendar years 1 to 2m - 2,
 * and the last line has ALL as its year, and the totals. The page is the same for every line of
 * cover. method and basis are those of pardesul_forecast. Refuses with 1 to 6, 15 and 9 to 14, in
 * this order. */
uint64_t pardesul_closing_page(const uint8_t *file, size_t file_length, size_t m, uint64_t method,
                               uint64_t basis, uint8_t *page, size_t page_length);

/* Cash by dates: *amount gets what of the forecast, RBNS + IBNR, falls due from start on and before
 * end. A forecast year's sum falls due evenly over its days. What is due before a date, the years
 * that are over and the part of the current one that has gone by, is rounded as one number, and the
 * amount is what is due before end less what is due before start: so windows that adjoin add up,
 * and a forecast year's window has its sum. The valuation date is of the years 1900 to 2199; start
 * lies in the forecast years, and end is not before it and at most the day after them. method and
 * basis are those of pardesul_forecast. Refuses with 1 to 6, 9 to 14 and 19. */
uint64_t pardesul_cash_in_window(const uint8_t *file, size_t file_length, size_t m, uint64_t method,
                                 uint64_t basis, const pardesul_date *valuation,
                                 const pardesul_date *start, const pardesul_date *end,
                                 uint64_t *line, int64_t *amount);

/* Replays a journal of journal_length bytes. *tally gets each reported claim's accident year, the
 * reports counted and the payments added up by cell, and the last calendar year; it starts from
 * zeros, whatever was handed in. A claim is reported once, paid only after that and under the same
 * accident year; calendar years do not fall; a cell of counts stays within 0 to 10^7 and one of
 * paid within 0 to 10^10. counts and paid are then the triangles of a set without incurred, as
 * pardesul_write_set takes them. Refuses with 1 and 16 to 18. */
uint64_t pardesul_replay(const uint8_t *journal, size_t journal_length, size_t m,
                         pardesul_journal_tally *tally);

/* Adds a cell to the sums of calendar year `year`, reported to rbns and unreported to ibnr. The
 * year of cell (i,j) of a forecast is i + j - m, 1 to 2m - 2. For a year outside 1 to 38, or where
 * a sum would leave the signed 64-bit numbers, both stay as they are. */
void pardesul_tally_add(int64_t rbns[PARDESUL_LENT(PARDESUL_YEARS)],
                        int64_t ibnr[PARDESUL_LENT(PARDESUL_YEARS)], uint64_t year,
                        int64_t reported, int64_t unreported);

/* The text that `closing` prints: input is its whole standard input, a line "m method basis" and
 * then the file. The text goes to the front of out, which has out_length bytes; those past it stay.
 * Hands back the text's length, or 0 where out is too short, which then stays as it was. The text
 * is a line for each calendar year and one for the totals, or "refused n" and a newline, with n 1
 * to 6 or 9 to 14, and 1 also for a first line that is not well formed. */
size_t pardesul_respond(const uint8_t *input, size_t input_length, uint8_t *out, size_t out_length);

#undef PARDESUL_LENT

#ifdef __cplusplus
}
#endif

#endif
