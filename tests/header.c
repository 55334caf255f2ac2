/* Every function and every name of include/plt.h, and what it says of strikes, asks and the wall page. The figures are those of document 01's undecided mark:
   T 800, X 998 then 1,071; CO 5,000 twice under 6,100. */
#include "plt.h"
#include <stdio.h>
#include <string.h>

#define SETUP "S 5000 365 800 6100 0 0 0 0"

static int failures = 0;
static uint8_t journal[PLT_JOURNAL_SIZE];

static void same(const char *what, unsigned long long found, unsigned long long expected) {
    if (found != expected) {
        printf("%s: %llu, not %llu\n", what, found, expected);
        failures++;
    }
}

/* Keys a line, and returns the length of its reply. */
static size_t key(const char *line, uint8_t *out, size_t length) {
    return plt_command(journal, sizeof journal, (const uint8_t *)line, strlen(line), out, length);
}

/* Keys lines, each ended by a newline, on a zeroed journal; `engines` engines, and `amendments` amendments, follow the first line. Returns the last refusal. */
static int keyed(const char *lines, int engines, int amendments) {
    uint8_t out[PLT_REPLY_SIZE];
    char line[PLT_REPLY_SIZE];
    int refusal = PLT_ACCEPTED;
    memset(journal, 0, sizeof journal);
    for (; *lines != 0; lines += strlen(line) + 1) {
        memset(line, 0, sizeof line);
        memcpy(line, lines, (size_t)(strchr(lines, '\n') - lines));
        size_t count = key(line, out, sizeof out);
        refusal = out[0] == 'O' ? PLT_ACCEPTED : count == 4 ? out[3] - '0' : 10 * (out[3] - '0') + out[4] - '0';
        for (char more[PLT_REPLY_SIZE]; engines > 0; engines--) {
            snprintf(more, sizeof more, "E %d 800000 5000000", engines);
            same("an engine's reply", key(more, out, sizeof out) > 5, 1);
        }
        for (; amendments > 0; amendments--) {
            same("an amendment's reply", key("A 800 6100", out, sizeof out) > 5, 1);
        }
    }
    return refusal;
}

static void refusals(void) {
    same("too long", keyed(SETUP " 111111111111111111111111111111111111111111\n", 0, 0), PLT_REFUSED_LINE_TOO_LONG);
    same("form", keyed(SETUP "\nE\n", 0, 0), PLT_REFUSED_LINE_FORM);
    same("production", keyed("S 0 365 800 6100 0 0 0 0\n", 0, 0), PLT_REFUSED_PRODUCTION);
    same("standard", keyed("S 5000 365 805 6100 0 0 0 0\n", 0, 0), PLT_REFUSED_STANDARD);
    same("factor", keyed("S 5000 365 800 6100 2 0 0 0\n", 0, 0), PLT_REFUSED_FACTOR);
    same("no journal", keyed("L\n", 0, 0), PLT_REFUSED_JOURNAL);
    same("closed", keyed(SETUP "\nX\nP\n", 0, 0), PLT_REFUSED_YEAR_CLOSED);
    same("64 events", keyed(SETUP "\nP\n", 0, 64), PLT_REFUSED_EVENTS_FULL);
    same("nothing to strike", keyed(SETUP "\nZ\n", 0, 0), PLT_REFUSED_DELETION);
    same("nothing of this period to strike", keyed(SETUP "\nP\nZ\n", 2, 0), PLT_REFUSED_DELETION);
    same("engine number", keyed(SETUP "\nE 0 1 1\n", 0, 0), PLT_REFUSED_ENGINE_NUMBER);
    same("reading count", keyed(SETUP "\nE 1\n", 0, 0), PLT_REFUSED_READING_COUNT);
    same("reading", keyed(SETUP "\nE 1 20000001 1\n", 0, 0), PLT_REFUSED_READING);
    same("result", keyed("S 5000 365 800 6100 0 60000 0 0\nE 1 20000000 1\n", 0, 0), PLT_REFUSED_RESULT);
    same("forty engines", keyed(SETUP "\nE 41 1 1\n", 40, 0), PLT_REFUSED_ENGINES_FULL);
    same("period", keyed(SETUP "\nP\n", 0, 0), PLT_REFUSED_PERIOD);
}

static unsigned long long verdict(const char *lines, int engines) {
    uint64_t figures[PLT_FIGURE_COUNT];
    same("verdict's lines", (unsigned long long)keyed(lines, engines, 0), PLT_ACCEPTED);
    same("verdict's status", plt_status(journal, sizeof journal, figures, PLT_FIGURE_COUNT), PLT_ACCEPTED);
    return figures[PLT_FIGURE_VERDICT];
}

static void verdicts(void) {
    same("short", verdict(SETUP "\n", 1), PLT_VERDICT_SHORT);
    same("continue", verdict(SETUP "\n", 2), PLT_VERDICT_CONTINUE);
    same("sample size", verdict("S 5000 365 1000 6100 0 0 0 0\n", 2), PLT_VERDICT_SAMPLE_SIZE_REACHED);
    same("thirty", verdict(SETUP "\n", 30), PLT_VERDICT_THIRTY_TESTED);
    same("one percent", verdict("S 50 365 800 6100 0 0 0 0\n", 2), PLT_VERDICT_ONE_PERCENT_TESTED);
    same("undecided", verdict(SETUP "\nE 1 998000 5000000\nE 2 1071000 5000000\nE 3 926000 5000000\n", 0), PLT_VERDICT_UNDECIDED);
    same("failed", verdict("S 5000 365 100 6100 0 0 0 0\n", 3), PLT_VERDICT_FAILED);
    same("declared", verdict(SETUP "\nX\n", 0), PLT_VERDICT_DECLARED);
    same("short again", verdict(SETUP "\nZ\n", 2), PLT_VERDICT_SHORT);
}

static void pollutant(const uint64_t *f, uint64_t sum, uint64_t deviation, uint64_t inexact, uint64_t c, uint64_t h, uint64_t size, int mark) {
    same("S", f[PLT_OFFSET_SUM], sum);
    same("s", f[PLT_OFFSET_DEVIATION], deviation);
    same("e", f[PLT_OFFSET_INEXACT], inexact);
    same("C low", f[PLT_OFFSET_CUMSUM_LOW], c);
    same("C high", f[PLT_OFFSET_CUMSUM_HIGH], c + inexact);
    same("H low", f[PLT_OFFSET_LIMIT_LOW], h);
    same("H high", f[PLT_OFFSET_LIMIT_HIGH], h + 20 * inexact);
    same("N", f[PLT_OFFSET_SAMPLE_SIZE], size);
    same("mark", f[PLT_OFFSET_MARK], (unsigned char)mark);
}

static void status(const uint64_t *figures) {
    same("n", figures[PLT_FIGURE_TESTED], 2);
    same("verdict", figures[PLT_FIGURE_VERDICT], PLT_VERDICT_CONTINUE);
    pollutant(figures + PLT_BASE_HCNOX, 2069, 52857, 1, 1057158, 1057140, 30, '?');
    pollutant(figures + PLT_BASE_CO, 10000, 0, 0, 0, 0, 10, 'U');
}

static void refused(const char *what, uint8_t found, uint8_t expected, const uint64_t *figures) {
    same(what, found, expected);
    for (int i = 0; i < PLT_FIGURE_COUNT; i++) {
        same(what, figures[i], i == PLT_BASE_HCNOX + PLT_OFFSET_MARK || i == PLT_BASE_CO + PLT_OFFSET_MARK ? '-' : 0);
    }
}

static void calls(void) {
    const uint32_t first[] = {998000}, second[] = {1071000}, co[] = {5000000};
    uint8_t out[PLT_MARKS_SIZE > PLT_REPLY_SIZE ? PLT_MARKS_SIZE : PLT_REPLY_SIZE];
    uint64_t figures[PLT_FIGURE_COUNT];
    size_t written = 9;
    memset(journal, 0, sizeof journal);
    same("short output", key(SETUP, out, PLT_REPLY_SIZE - 1), 0);
    same("an unchanged journal", journal[0], 0);
    same("setup", key(SETUP, out, PLT_REPLY_SIZE), 13);
    same("first engine", plt_engine(journal, sizeof journal, 1, first, 1, co, 1, figures, PLT_FIGURE_COUNT), PLT_ACCEPTED);
    same("few figures", plt_engine(journal, sizeof journal, 2, second, 1, co, 1, figures, PLT_FIGURE_COUNT - 1), PLT_TOO_FEW_FIGURES);
    same("second engine", plt_engine(journal, sizeof journal, 2, second, 1, co, 1, figures, PLT_FIGURE_COUNT), PLT_ACCEPTED);
    status(figures);
    refused("number again", plt_engine(journal, sizeof journal, 2, second, 1, co, 1, figures, PLT_FIGURE_COUNT), PLT_REFUSED_ENGINE_NUMBER, figures);
    refused("no readings", plt_engine(journal, sizeof journal, 3, second, 0, co, 0, figures, PLT_FIGURE_COUNT), PLT_REFUSED_READING_COUNT, figures);
    same("status", plt_status(journal, sizeof journal, figures, PLT_FIGURE_COUNT), PLT_ACCEPTED);
    status(figures);
    same("few figures", plt_status(journal, sizeof journal, figures, PLT_FIGURE_COUNT - 1), PLT_TOO_FEW_FIGURES);
    refused("short journal", plt_status(journal, sizeof journal - 1, figures, PLT_FIGURE_COUNT), PLT_REFUSED_JOURNAL_SIZE, figures);
    same("marks", plt_marks(journal, sizeof journal, out, 4, &written), PLT_ACCEPTED);
    same("marks written", written, 4);
    same("the marks", (unsigned long long)memcmp(out, "--?U", 4), 0);
    same("marks in 3 bytes", plt_marks(journal, sizeof journal, out, 3, &written), PLT_REFUSED_MARKS_SIZE);
    same("none written", written, 0);
    keyed(SETUP "\n", 40, 0);
    same("marks of forty engines", plt_marks(journal, sizeof journal, out, PLT_MARKS_SIZE, &written), PLT_ACCEPTED);
    same("all of it written", written, PLT_MARKS_SIZE);
}

/* The journal differs from what it was at these places, which ascend, and at no others. */
static void differ_at(const uint8_t *before, const size_t *places, size_t count) {
    for (size_t i = 0, next = 0; i < PLT_JOURNAL_SIZE; i++) {
        int named = next < count && places[next] == i;
        next += (size_t)named;
        same("whether a byte was written", journal[i] != before[i], (unsigned long long)named);
    }
}

/* A strike leaves the figures and the refusals of the year without the engine. The first of a journal writes byte 3, the version, besides its slot and byte 24; a
   second leaves byte 3, and a setup writes version 1 again. */
static void strikes(void) {
    const uint32_t co[] = {5000000}, third[] = {900000};
    const size_t first_strike[] = {3, 24, 56}, second_strike[] = {24, 72};
    uint8_t before[PLT_JOURNAL_SIZE], out[PLT_REPLY_SIZE];
    uint64_t figures[PLT_FIGURE_COUNT];
    keyed(SETUP "\nE 1 998000 5000000\nE 2 1071000 5000000\n", 0, 0);
    for (int i = 0; i < 2; i++) {
        same("an engine to strike", plt_engine(journal, sizeof journal, 3, third, 1, co, 1, figures, PLT_FIGURE_COUNT), PLT_ACCEPTED);
        same("n with it", figures[PLT_FIGURE_TESTED], 3);
        memcpy(before, journal, sizeof before);
        same("strike", key("Z", out, sizeof out), 15);
        same("its reply", (unsigned long long)memcmp(out, "OK 2 1 ?U 30 10", 15), 0);
        differ_at(before, i == 0 ? first_strike : second_strike, i == 0 ? 3 : 2);
        same("status", plt_status(journal, sizeof journal, figures, PLT_FIGURE_COUNT), PLT_ACCEPTED);
        status(figures);
        same("version", journal[3], 2);
    }
    same("a strike after a failure", keyed("S 5000 365 100 6100 0 0 0 0\nZ\n", 3, 0), PLT_REFUSED_YEAR_CLOSED);
    same("a strike in the last slot", keyed(SETUP "\nZ\n", 1, 62), PLT_ACCEPTED);
    same("a strike after the last slot", keyed(SETUP "\nZ\n", 1, 63), PLT_REFUSED_EVENTS_FULL);
    same("a forty-first engine in a struck one's place", keyed(SETUP "\nZ\nE 41 1 1\n", 40, 0), PLT_ACCEPTED);
    same("version of a struck year", journal[3], 2);
    same("setup", key(SETUP, out, sizeof out), 13);
    same("version of a new year", journal[3], 1);
}

/* Asks about an engine, and then enters it on a copy of the journal: both return the same and write the same figures, whatever stood there, and the ask leaves the
   journal. Returns what they return. */
static uint8_t asked(size_t size, uint32_t number, const uint32_t *hcnox, size_t hcnox_count, const uint32_t *co, size_t co_count, uint64_t *figures) {
    uint8_t copy[PLT_JOURNAL_SIZE];
    uint64_t entered[PLT_FIGURE_COUNT];
    memcpy(copy, journal, sizeof copy);
    memset(figures, 1, sizeof entered);
    memset(entered, 2, sizeof entered);
    uint8_t told = plt_ask(journal, size, number, hcnox, hcnox_count, co, co_count, figures, PLT_FIGURE_COUNT);
    same("an ask changes the journal", memcmp(journal, copy, sizeof copy) != 0, 0);
    same("what an ask returns", told, plt_engine(copy, size, number, hcnox, hcnox_count, co, co_count, entered, PLT_FIGURE_COUNT));
    for (int i = 0; i < PLT_FIGURE_COUNT; i++) {
        same("a figure of an ask", figures[i], entered[i]);
    }
    return told;
}

/* The key T: the reply of E with the same numbers, which is then keyed, and the journal as it was. */
static void asked_by_key(const char *numbers) {
    uint8_t before[PLT_JOURNAL_SIZE], out[PLT_REPLY_SIZE], entered[PLT_REPLY_SIZE];
    char line[PLT_REPLY_SIZE];
    memcpy(before, journal, sizeof before);
    snprintf(line, sizeof line, "T%s", numbers);
    size_t length = key(line, out, sizeof out);
    same("a key T changes the journal", memcmp(journal, before, sizeof before) != 0, 0);
    line[0] = 'E';
    same("length of its reply", length, key(line, entered, sizeof entered));
    same("a reply to T and to E differ", memcmp(out, entered, length) != 0, 0);
}

static void asks_refused(void) {
    const uint32_t one[] = {1}, above[] = {20000001}, largest[] = {20000000};
    uint64_t figures[PLT_FIGURE_COUNT];
    memset(journal, 0, sizeof journal);
    refused("asked before a setup", asked(sizeof journal, 1, one, 1, one, 1, figures), PLT_REFUSED_JOURNAL, figures);
    keyed("S 5000 365 800 6100 0 60000 0 0\nE 1 998000 5000000\n", 0, 0);
    refused("asked on a short journal", asked(sizeof journal - 1, 2, one, 1, one, 1, figures), PLT_REFUSED_JOURNAL_SIZE, figures);
    refused("asked with a number again", asked(sizeof journal, 1, one, 1, one, 1, figures), PLT_REFUSED_ENGINE_NUMBER, figures);
    refused("asked without readings", asked(sizeof journal, 2, one, 0, one, 0, figures), PLT_REFUSED_READING_COUNT, figures);
    refused("asked with a reading", asked(sizeof journal, 2, one, 1, above, 1, figures), PLT_REFUSED_READING, figures);
    refused("asked with a result", asked(sizeof journal, 2, largest, 1, one, 1, figures), PLT_REFUSED_RESULT, figures);
    keyed(SETUP "\nX\n", 0, 0);
    refused("asked in a closed year", asked(sizeof journal, 1, one, 1, one, 1, figures), PLT_REFUSED_YEAR_CLOSED, figures);
    keyed(SETUP "\n", 0, 64);
    refused("asked with 64 events", asked(sizeof journal, 1, one, 1, one, 1, figures), PLT_REFUSED_EVENTS_FULL, figures);
    keyed(SETUP "\n", 40, 0);
    refused("asked with forty engines", asked(sizeof journal, 41, one, 1, one, 1, figures), PLT_REFUSED_ENGINES_FULL, figures);
}

/* The figures are those with the engine, and the status stays that without it; then the engine is entered. Too few figures: nothing is done. */
static void asks(void) {
    const uint32_t second[] = {1071000}, co[] = {5000000};
    uint64_t figures[PLT_FIGURE_COUNT + 1];
    keyed(SETUP "\nE 1 998000 5000000\n", 0, 0);
    figures[0] = figures[PLT_FIGURE_COUNT] = 7;
    same("few figures", plt_ask(journal, sizeof journal, 2, second, 1, co, 1, figures, PLT_FIGURE_COUNT - 1), PLT_TOO_FEW_FIGURES);
    same("a figure where there are too few", figures[0], 7);
    same("more figures", plt_ask(journal, sizeof journal, 2, second, 1, co, 1, figures, PLT_FIGURE_COUNT + 1), PLT_ACCEPTED);
    same("a figure behind the last", figures[PLT_FIGURE_COUNT], 7);
    for (int i = 0; i < 2; i++) {
        same("ask", asked(sizeof journal, 2, second, 1, co, 1, figures), PLT_ACCEPTED);
        status(figures);
        same("status", plt_status(journal, sizeof journal, figures, PLT_FIGURE_COUNT), PLT_ACCEPTED);
        same("n without the engine", figures[PLT_FIGURE_TESTED], 1);
    }
    asked_by_key(" 2 1071000 5000000");
    asked_by_key(" 2 1071000 5000000");
    asked_by_key(" 3 1071000");
    same("status", plt_status(journal, sizeof journal, figures, PLT_FIGURE_COUNT), PLT_ACCEPTED);
    status(figures);
    asks_refused();
}

static uint8_t page[PLT_REPORT_SIZE + PLT_REPORT_LINE_SIZE];

/* The wall page of the journal's first `size` bytes, into the first `room` bytes of an array of sevens: what is returned, and that neither the bytes behind the
   page nor the journal are written. Returns how many bytes are. */
static size_t reported(size_t size, size_t room, uint8_t expected) {
    uint8_t before[PLT_JOURNAL_SIZE];
    size_t written = 9;
    memcpy(before, journal, sizeof before);
    memset(page, 7, sizeof page);
    same("what a page returns", plt_report(journal, size, page, room, &written), expected);
    same("a page changes the journal", memcmp(journal, before, sizeof before) != 0, 0);
    for (size_t i = written; i < sizeof page; i++) {
        same("a byte behind the page", page[i], 7);
    }
    return written;
}

/* Into as many bytes as the page needs, one less, and more. */
static void paged(size_t engines, const char *text) {
    size_t room = PLT_REPORT_LINE_SIZE * (engines + 1);
    same("a page in one byte less", reported(sizeof journal, room - 1, PLT_REFUSED_REPORT_SIZE), 0);
    same("a page in none", reported(sizeof journal, 0, PLT_REFUSED_REPORT_SIZE), 0);
    same("a page in more", reported(sizeof journal, sizeof page, PLT_ACCEPTED), room);
    same("a page in its size", reported(sizeof journal, room, PLT_ACCEPTED), room);
    same("the page", memcmp(page, text, strlen(text)) != 0, 0);
    for (size_t line = 0; line <= engines; line++) {
        same("a newline within a line", memchr(page + PLT_REPORT_LINE_SIZE * line, '\n', PLT_REPORT_LINE_SIZE - 1) != NULL, 0);
        same("the end of a line", page[PLT_REPORT_LINE_SIZE * line + PLT_REPORT_LINE_SIZE - 1], '\n');
    }
}

#define REPORT_HEAD "    50003654                                                \n"

static void reports(void) {
    keyed(SETUP "\n", 0, 0);
    paged(0, REPORT_HEAD);
    keyed(SETUP "\nE 1 998000 5000000\nE 2 1071000 5000000\n", 0, 0);
    paged(2, REPORT_HEAD
        "    1  998 5000         0         0         0         0--   \n"
        "    2 1071 5000   1057158   1057159         0         0?U   \n");
    same("a page of a short journal", reported(sizeof journal - 1, sizeof page, PLT_REFUSED_JOURNAL_SIZE), 0);
    keyed(SETUP "\nE 1 998000 5000000\nE 2 1071000 5000000\nE 65535 900000 4000000\nZ\nX\n", 0, 0);
    paged(2, REPORT_HEAD
        "    1  998 5000         0         0         0         0--   \n"
        "    2 1071 5000   1057158   1057159         0         0?U   \n");
    keyed(SETUP "\n", 40, 0);
    paged(40, REPORT_HEAD "   40  800 5000         0         0         0         0--   \n   39  800 5000         0         0         0         0UU   \n");
    same("the largest page", reported(sizeof journal, PLT_REPORT_SIZE, PLT_ACCEPTED), PLT_REPORT_SIZE);
    memset(journal, 0, sizeof journal);
    same("a page before a setup", reported(sizeof journal, sizeof page, PLT_REFUSED_JOURNAL), 0);
    same("a page before a setup in none", reported(sizeof journal, 0, PLT_REFUSED_JOURNAL), 0);
    same("a page of no journal", reported(0, 0, PLT_REFUSED_JOURNAL_SIZE), 0);
}

int main(void) {
    calls();
    strikes();
    asks();
    reports();
    refusals();
    verdicts();
    printf(failures ? "the header and the library differ\n" : "every name of the header means what the library does\n");
    return failures != 0;
}
