/* The calculator in C, over libplt.a: keys each line of standard input on one journal, and prints the reply. */
#include "plt.h"
#include "read_line.h"

int main(void) {
    static uint8_t journal[PLT_JOURNAL_SIZE];
    uint8_t line[LINE_SIZE];
    uint8_t out[PLT_REPLY_SIZE];
    long length;
    while ((length = read_line(line)) >= 0) {
        size_t count = plt_command(journal, sizeof journal, line, (size_t)length, out, sizeof out);
        fwrite(out, 1, count, stdout);
        putchar('\n');
    }
    return 0;
}
