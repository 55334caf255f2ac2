/* Production-line emission testing under 40 CFR 1054: the functions of libplt.a, for C and C++.

   A journal is a buffer of PLT_JOURNAL_SIZE bytes that the caller owns and lends to each call. It holds the test year of one engine family: a setup, then engines,
   amendments, periods, strikes and a declaration. Start from a buffer of zeros and key a setup ("S ..") with plt_command, which is also the way to amend ("A .."),
   to begin a period ("P"), to declare ("X") and to strike the newest engine ("Z"). docs/MANUAL.md explains the year, the key lines, units, verdicts and refusals,
   and the layout of the journal. The archive that `rt lib` in crates/plt builds is for x86-64: ELF, System V calling convention with its red zone and a stack aligned
   to 16 bytes, SSE2.

   A strike takes the newest engine out of the year, if it was entered in the current period: all figures and marks become what they would be without it. Once the
   family has failed nothing can be struck, so a program that has to take back any engine keeps a copy of the journal from before. A journal with a strike in it is
   of version 2, any other of version 1. Journals stored before there were strikes are read as before; a library of that time refuses version 2 by 7.

   plt_ask tells what entering an engine would give, before it is entered, as the key line "T .." does: it returns what plt_engine would return and writes the
   figures that plt_engine would write, but leaves the journal as it is. An ask takes up no engine number and no slot, and it may be repeated. plt_ask, plt_status,
   plt_marks and plt_report only read the journal.

   Units. A result unit is one tenth of the last decimal of the standard: 0.01 g/kWh under a standard of 8.0 g/kWh, 0.1 g/kWh under one of 610. Standards, results
   and their sum S are in result units, readings in thousandths of a result unit, s in 1/1,024, and C and H in 1/4,096 result unit; N is in tenths.

   Every function is proved to meet its contract in crates/plt/src/lib.rt, for all arguments that keep three rules:
   - a pointer is valid for as many elements as the length after it says (`written`, which has no length, for one), and aligned for its type;
   - with a length of 0 the pointer still has to be aligned and not NULL, but is not followed;
   - the buffers lent to one call do not overlap, and nothing else reads or writes them until it returns.

   Nothing else is required: bad input gets the number of its refusal, and where several refusals apply, the first that enum plt_refusal lists. A refused call
   leaves every byte of the journal unchanged. The library keeps no state, so calls on different buffers may run at once. It allocates nothing, needs only memcpy
   and memset from the host, and every call returns; docs/PERFORMANCE.md lists the stack that each call needs. */
#ifndef PLT_H
#define PLT_H

#include <stddef.h>
#include <stdint.h>

#ifdef __cplusplus
extern "C" {
#endif

#define PLT_JOURNAL_SIZE 544 /* bytes of a journal */
#define PLT_REPLY_SIZE 96    /* smallest output that plt_command takes; it holds any reply */
#define PLT_MARKS_SIZE 80    /* smallest output that holds the marks of any journal: forty engines */
#define PLT_REPORT_LINE_SIZE 61 /* bytes of a line of the wall page, its newline included */
#define PLT_REPORT_SIZE 2501 /* smallest output that holds the wall page of any journal: a head line and forty engines */
#define PLT_FIGURE_COUNT 20  /* figures of a status */

/* What a call returns; refusals are listed in the order in which they are checked, 17 after 9, 18 last. plt_command does not return it, but writes it into its reply
   ("NO 8"). */
enum plt_refusal {
    PLT_ACCEPTED = 0,
    PLT_REFUSED_LINE_TOO_LONG = 1,   /* a key line of more than 64 bytes */
    PLT_REFUSED_LINE_FORM = 2,       /* not a key line: unknown letter, wrong count or form of the numbers */
    PLT_REFUSED_JOURNAL_SIZE = 3,    /* the journal's buffer is not PLT_JOURNAL_SIZE bytes long */
    PLT_REFUSED_PRODUCTION = 4,      /* projected volume or production days out of range */
    PLT_REFUSED_STANDARD = 5,        /* a standard out of range, or not a multiple of ten */
    PLT_REFUSED_FACTOR = 6,          /* a deterioration factor or its kind out of range */
    PLT_REFUSED_JOURNAL = 7,         /* the buffer does not hold an accepted journal; a setup needs none */
    PLT_REFUSED_YEAR_CLOSED = 8,     /* the family has failed or was declared */
    PLT_REFUSED_EVENTS_FULL = 9,     /* 64 events are stored; struck engines and strikes count */
    PLT_REFUSED_DELETION = 17,       /* no engine of the current period to strike */
    PLT_REFUSED_ENGINE_NUMBER = 10,  /* out of range, or that of an engine in the year; a struck engine's is free again */
    PLT_REFUSED_READING_COUNT = 11,  /* not 1 to 3 readings, or not as many of one pollutant as of the other */
    PLT_REFUSED_READING = 12,        /* a reading above 20,000,000 */
    PLT_REFUSED_RESULT = 13,         /* a result above 20,000 */
    PLT_REFUSED_ENGINES_FULL = 14,   /* the year has forty engines, without struck ones */
    PLT_REFUSED_PERIOD = 15,         /* this is the last period, or it lacks engines */
    PLT_REFUSED_MARKS_SIZE = 16,     /* the output for marks has fewer than two bytes for each engine */
    PLT_REFUSED_REPORT_SIZE = 18,    /* the output for the wall page has no room for its head line and a line for each engine */
    PLT_TOO_FEW_FIGURES = 255        /* no refusal: the array lent for the figures has fewer than PLT_FIGURE_COUNT numbers, and nothing was done */
};

/* The verdict on the year, figures[PLT_FIGURE_VERDICT]. */
enum plt_verdict {
    PLT_VERDICT_SHORT = 0,               /* the current period lacks engines */
    PLT_VERDICT_CONTINUE = 1,            /* continue testing */
    PLT_VERDICT_SAMPLE_SIZE_REACHED = 2, /* stop: for both pollutants n is greater than N, and the mean is not above the standard */
    PLT_VERDICT_THIRTY_TESTED = 3,       /* stop: thirty engines or more, failing ones among them */
    PLT_VERDICT_ONE_PERCENT_TESTED = 4,  /* stop: one percent of the projected volume, without engines that fail a standard */
    PLT_VERDICT_UNDECIDED = 5,           /* two consecutive marks 'O' or '?', not both 'O' */
    PLT_VERDICT_FAILED = 6,              /* a pollutant has 'O' at two consecutive engines */
    PLT_VERDICT_DECLARED = 7             /* declared by the manufacturer */
};

/* Places among the figures of a status. Each pollutant has nine figures: figures[PLT_BASE_CO + PLT_OFFSET_MARK] is the CO mark. Before engine 2 a pollutant's
   figures are 0, except S; its mark is '-'. */
#define PLT_FIGURE_TESTED 0  /* n, the number of engines tested, without struck ones */
#define PLT_FIGURE_VERDICT 1 /* enum plt_verdict */
#define PLT_BASE_HCNOX 2     /* the first of the nine of HC+NOx */
#define PLT_BASE_CO 11       /* the first of the nine of CO */
#define PLT_OFFSET_SUM 0             /* S, the sum of the results, in result units */
#define PLT_OFFSET_DEVIATION 1       /* s, the sample standard deviation in 1/1,024 result unit, rounded down */
#define PLT_OFFSET_INEXACT 2         /* e: 0 if s is exact, else 1 */
#define PLT_OFFSET_CUMSUM_LOW 3      /* C low, in 1/4,096 result unit, as are the next three */
#define PLT_OFFSET_CUMSUM_HIGH 4     /* C high */
#define PLT_OFFSET_LIMIT_LOW 5       /* H low: the action limit */
#define PLT_OFFSET_LIMIT_HIGH 6      /* H high */
#define PLT_OFFSET_SAMPLE_SIZE 7     /* N in tenths, rounded up; 0 if there is none */
#define PLT_OFFSET_MARK 8            /* the newest engine's mark: '-', 'O', 'U' or '?' */

/* Keys one line, without its newline, on a journal of any length and content.

   line     any bytes; more than 64 are refused by 1.
   out      at least PLT_REPLY_SIZE bytes. The reply ("OK ..", "NO ..", without a newline or a terminating 0) is written at its front; later bytes are unchanged.
   returns  the length of the reply, at least 2 and less than PLT_REPLY_SIZE, refused ("NO 1" to "NO 15", "NO 17") or not. If out is shorter than PLT_REPLY_SIZE:
            0, and nothing is done.

   An ask ("T ..") gets the reply that the engine's entry ("E ..") would get on this journal, refused or not. Only an accepted setup (all 544 bytes) or entry (one slot and
   byte 24; the first strike also byte 3, the version) writes the journal. */
size_t plt_command(uint8_t *journal, size_t journal_length, const uint8_t *line, size_t line_length, uint8_t *out, size_t out_length);

/* Enters one engine: its number, and its readings for each pollutant in thousandths of a result unit.

   number     1 to 65,535 and not that of another engine in the year, else it is refused by 10.
   hcnox, co  1 to 3 readings each, as many of one as of the other, else it is refused by 11. A reading above 20,000,000 is refused by 12.
   figures    at least PLT_FIGURE_COUNT numbers: if the engine was entered, the new status; after a refusal all 0, with marks '-', so look at what is returned
              first (plt_status still gives the status of the unchanged journal). Later numbers are unchanged.
   returns    0 if the engine was entered, else the refusal: 3, 7 to 14. PLT_TOO_FEW_FIGURES if figures is too short, and nothing is done. */
uint8_t plt_engine(uint8_t *journal, size_t journal_length, uint32_t number, const uint32_t *hcnox, size_t hcnox_length, const uint32_t *co, size_t co_length,
    uint64_t *figures, size_t figures_length);

/* Asks what plt_engine would do with the same arguments on the same journal, and enters nothing.

   figures  as plt_engine would leave them: if the engine can be entered, the status of the year with it (plt_status still gives that of the year without it).
   returns  what plt_engine would return: 0 if the engine can be entered, else the refusal: 3, 7 to 14. PLT_TOO_FEW_FIGURES if figures is too short, and nothing is
            done. */
uint8_t plt_ask(const uint8_t *journal, size_t journal_length, uint32_t number, const uint32_t *hcnox, size_t hcnox_length, const uint32_t *co, size_t co_length,
    uint64_t *figures, size_t figures_length);

/* Reads the status of a journal.

   figures  as for plt_engine.
   returns  0, or the refusal: 3 or 7. PLT_TOO_FEW_FIGURES if figures is too short, and nothing is done. */
uint8_t plt_status(const uint8_t *journal, size_t journal_length, uint64_t *figures, size_t figures_length);

/* Writes the marks of a journal: two bytes for each engine that was not struck, in the order of entry, HC+NOx then CO.

   out      at least two bytes for each such engine, else it is refused by 16. The marks are written at its front; later bytes are unchanged.
   written  receives the number of bytes written: 2n, or 0 after a refusal.
   returns  0, or the refusal: 3, 7 or 16. */
uint8_t plt_marks(const uint8_t *journal, size_t journal_length, uint8_t *out, size_t out_length, size_t *written);

/* Writes the wall page of a journal: a head line, then a line for each engine that was not struck, in the order of entry. Each line is 60 bytes and a newline, so the
   line of engine i, counted from 1, starts at PLT_REPORT_LINE_SIZE * i, and the head line at 0. Numbers are decimal, right-aligned with spaces in columns that
   abut, so a reader goes by position:

     head line    P at 0 (8 bytes), D at 8 (3), the number of periods of the year at 11 (1), then spaces;
     engine line  its number at 0 (5 bytes), its results for HC+NOx at 5 (5) and CO at 10 (5), C low and C high of HC+NOx at 15 and 25 (10 each) and of CO at 35 and
                  45 (10 each), its marks for HC+NOx at 55 (1) and CO at 56 (1), then three spaces. C is what it was at that engine, in 1/4,096 result unit.

   out      at least PLT_REPORT_LINE_SIZE bytes for the head line and for each such engine, else it is refused by 18. The page is written at its front; later bytes
            are unchanged.
   written  receives the number of bytes written: 61 * (n + 1), or 0 after a refusal.
   returns  0, or the refusal: 3, 7 or 18. */
uint8_t plt_report(const uint8_t *journal, size_t journal_length, uint8_t *out, size_t out_length, size_t *written);

#ifdef __cplusplus
}
#endif

#endif
