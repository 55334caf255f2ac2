/* The wall page of a year, over libplt.a: keys each line of standard input on one journal, and prints the page of the year that the lines leave. A refused line is
   told on standard error, with its number and its reply; it leaves the year as it was.

     report <examples/year.txt
*/
#include "plt.h"
#include "read_line.h"

static void key_lines(uint8_t *journal) {
    uint8_t line[LINE_SIZE];
    uint8_t reply[PLT_REPLY_SIZE];
    long length;
    for (unsigned long number = 1; (length = read_line(line)) >= 0; number++) {
        size_t count = plt_command(journal, PLT_JOURNAL_SIZE, line, (size_t)length, reply, sizeof reply);
        if (reply[0] == 'N') {
            fprintf(stderr, "report: line %lu: %.*s\n", number, (int)count, (const char *)reply);
        }
    }
}

int main(void) {
    static uint8_t journal[PLT_JOURNAL_SIZE];
    static uint8_t page[PLT_REPORT_SIZE];
    size_t written;
    key_lines(journal);
    if (plt_report(journal, sizeof journal, page, sizeof page, &written) != PLT_ACCEPTED) {
        fprintf(stderr, "report: no setup was accepted\n");
        return 1;
    }
    if (fwrite(page, 1, written, stdout) != written || fflush(stdout) != 0) {
        fprintf(stderr, "report: the output cannot be written\n");
        return 1;
    }
    return 0;
}
