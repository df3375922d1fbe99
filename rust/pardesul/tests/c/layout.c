/* The layout of the header's structs, and the numbers of a journal. C and C++ both take this file,
 * which has nothing to run. */
#include "pardesul.h"
#include <assert.h>
#include <stddef.h>

static_assert(offsetof(pardesul_journal_tally, claims) == 0, "claims");
static_assert(offsetof(pardesul_journal_tally, counts) == 4096, "counts");
static_assert(offsetof(pardesul_journal_tally, paid) == 7296, "paid");
static_assert(offsetof(pardesul_journal_tally, last) == 10496, "last");
static_assert(sizeof(pardesul_journal_tally) == 10504, "the whole");
static_assert(sizeof(((pardesul_journal_tally *)0)->last) == 8, "a number of 64 bits");
static_assert(PARDESUL_TRANSACTION * PARDESUL_JOURNAL_MOST == 65536, "the longest journal");
static_assert(PARDESUL_CLAIMS == 4096, "claim numbers 0 to 4095");

static_assert(offsetof(pardesul_date, year) == 0, "year");
static_assert(offsetof(pardesul_date, month) == 8, "month");
static_assert(offsetof(pardesul_date, day) == 16, "day");
static_assert(sizeof(pardesul_date) == 24, "a date");
