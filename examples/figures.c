/* The figures of a year, over libplt.a, to lay beside a student's paper: S, s, e, C, H, N and mark of each pollutant.

     figures                key lines from standard input: each line, its reply, and the figures after each entry; after T those with the engine asked about
     figures --save FILE    the same; then writes the journal to FILE
     figures FILE           the figures of the journal in FILE

   s is in 1/1,024 and C and H are in 1/4,096 result unit, as the calculator works them. Below them stand the standard deviation sigma, C and H in result units, as
   a paper has them: exact, or the two numbers of four decimals between which the figure lies. */
#include "plt.h"
#include "read_line.h"
#include <string.h>

static const char *const verdicts[] = {
    [PLT_VERDICT_SHORT] = "short",
    [PLT_VERDICT_CONTINUE] = "continue",
    [PLT_VERDICT_SAMPLE_SIZE_REACHED] = "sample size reached",
    [PLT_VERDICT_THIRTY_TESTED] = "thirty tested",
    [PLT_VERDICT_ONE_PERCENT_TESTED] = "one percent tested",
    [PLT_VERDICT_UNDECIDED] = "undecided",
    [PLT_VERDICT_FAILED] = "failed",
    [PLT_VERDICT_DECLARED] = "declared",
};

static void print_decimals(uint64_t tenthousandths) {
    printf("%llu.%04llu", (unsigned long long)(tenthousandths / 10000), (unsigned long long)(tenthousandths % 10000));
}

/* A figure from low to high, in 1/scale result unit: the lower end rounded down, the upper end up. */
static void print_interval(const char *name, uint64_t low, uint64_t high, uint64_t scale) {
    uint64_t down = low * 10000 / scale, up = (high * 10000 + scale - 1) / scale;
    printf("  %s ", name);
    print_decimals(down);
    if (up != down) {
        printf(" to ");
        print_decimals(up);
    }
}

static void print_pollutant(const char *name, const uint64_t *f, uint64_t tested) {
    uint64_t s = f[PLT_OFFSET_DEVIATION], size = f[PLT_OFFSET_SAMPLE_SIZE];
    printf("%-6s %8llu %9llu %llu", name, (unsigned long long)f[PLT_OFFSET_SUM], (unsigned long long)s, (unsigned long long)f[PLT_OFFSET_INEXACT]);
    for (int i = PLT_OFFSET_CUMSUM_LOW; i <= PLT_OFFSET_LIMIT_HIGH; i++) {
        printf(" %11llu", (unsigned long long)f[i]);
    }
    if (size == 0) {
        printf("             -");
    } else {
        printf(" %11llu.%llu", (unsigned long long)(size / 10), (unsigned long long)(size % 10));
    }
    printf("    %c\n", (int)f[PLT_OFFSET_MARK]);
    if (tested >= 2) {
        printf("      ");
        print_interval("sigma", s, s + f[PLT_OFFSET_INEXACT], 1024);
        print_interval("C", f[PLT_OFFSET_CUMSUM_LOW], f[PLT_OFFSET_CUMSUM_HIGH], 4096);
        print_interval("H", f[PLT_OFFSET_LIMIT_LOW], f[PLT_OFFSET_LIMIT_HIGH], 4096);
        printf("\n");
    }
}

static void print_figures(const uint64_t *figures) {
    uint64_t tested = figures[PLT_FIGURE_TESTED], verdict = figures[PLT_FIGURE_VERDICT];
    printf("n %llu  verdict %llu (%s)\n", (unsigned long long)tested, (unsigned long long)verdict, verdicts[verdict]);
    if (tested > 0) {
        printf("              S         s e       C low      C high       H low      H high             N mark\n");
        print_pollutant("HC+NOx", figures + PLT_BASE_HCNOX, tested);
        print_pollutant("CO", figures + PLT_BASE_CO, tested);
    }
    printf("\n");
}

/* The figures that an accepted reply tells: the journal's; after T, those of a copy in which the engine is entered. */
static void read_figures(const uint8_t *journal, const uint8_t *line, long length, uint64_t *figures) {
    uint8_t copy[PLT_JOURNAL_SIZE];
    uint8_t entry[LINE_SIZE];
    uint8_t out[PLT_REPLY_SIZE];
    memcpy(copy, journal, sizeof copy);
    if (line[0] == 'T') {
        memcpy(entry, line, (size_t)length);
        entry[0] = 'E';
        plt_command(copy, sizeof copy, entry, (size_t)length, out, sizeof out);
    }
    plt_status(copy, sizeof copy, figures, PLT_FIGURE_COUNT);
}

/* Keys every line of standard input; figures follow an accepted line that is not L. */
static void key_lines(uint8_t *journal) {
    uint8_t line[LINE_SIZE];
    uint8_t out[PLT_REPLY_SIZE];
    uint64_t figures[PLT_FIGURE_COUNT];
    long length;
    while ((length = read_line(line)) >= 0) {
        size_t count = plt_command(journal, PLT_JOURNAL_SIZE, line, (size_t)length, out, sizeof out);
        fwrite(line, 1, (size_t)length, stdout);
        printf("%s\n%.*s\n", length == LINE_SIZE ? ".." : "", (int)count, (const char *)out);
        if (out[0] == 'O' && line[0] != 'L') {
            read_figures(journal, line, length, figures);
            print_figures(figures);
        }
    }
}

/* Reads a journal's file. A longer file gives a length that no journal has. Returns that length, or -1 if it cannot be read. */
static long read_file(const char *name, uint8_t *bytes, size_t size) {
    FILE *file = fopen(name, "rb");
    if (file == NULL) {
        return -1;
    }
    size_t length = fread(bytes, 1, size, file);
    int failed = ferror(file);
    fclose(file);
    return failed ? -1 : (long)length;
}

/* Writes a journal's file, if the journal is an accepted one. */
static int save_file(const char *name, const uint8_t *journal) {
    uint64_t figures[PLT_FIGURE_COUNT];
    if (plt_status(journal, PLT_JOURNAL_SIZE, figures, PLT_FIGURE_COUNT) != PLT_ACCEPTED) {
        fprintf(stderr, "figures: no setup was accepted, and %s is not written\n", name);
        return 1;
    }
    FILE *file = fopen(name, "wb");
    size_t written = file == NULL ? 0 : fwrite(journal, 1, PLT_JOURNAL_SIZE, file);
    if (file == NULL || fclose(file) != 0 || written != PLT_JOURNAL_SIZE) {
        fprintf(stderr, "figures: %s cannot be written\n", name);
        return 1;
    }
    return 0;
}

/* The figures of the newest engine, and the marks of all. */
static int show_file(const char *name) {
    uint8_t bytes[PLT_JOURNAL_SIZE + 1];
    uint8_t marks[PLT_MARKS_SIZE];
    uint64_t figures[PLT_FIGURE_COUNT];
    size_t count;
    long length = read_file(name, bytes, sizeof bytes);
    if (length < 0) {
        fprintf(stderr, "figures: %s cannot be read\n", name);
        return 1;
    }
    uint8_t refusal = plt_status(bytes, (size_t)length, figures, PLT_FIGURE_COUNT);
    if (refusal != PLT_ACCEPTED) {
        fprintf(stderr, "figures: %s is refused by %d: %s\n", name, refusal, refusal == PLT_REFUSED_JOURNAL_SIZE ? "not 544 bytes" : "no accepted journal");
        return 1;
    }
    print_figures(figures);
    plt_marks(bytes, (size_t)length, marks, sizeof marks, &count);
    printf("marks %.*s\n", (int)count, (const char *)marks);
    return 0;
}

/* Standard output is checked once, at the end. */
static int finish(int status) {
    if (fflush(stdout) != 0 || ferror(stdout)) {
        fprintf(stderr, "figures: the output cannot be written\n");
        return 1;
    }
    return status;
}

int main(int argc, char **argv) {
    static uint8_t journal[PLT_JOURNAL_SIZE];
    int save = argc == 3 && strcmp(argv[1], "--save") == 0;
    if (argc == 2 && argv[1][0] != '-') {
        return finish(show_file(argv[1]));
    }
    if (argc != 1 && !save) {
        fprintf(stderr, "usage: figures [FILE | --save FILE]\n");
        return 2;
    }
    key_lines(journal);
    return finish(save ? save_file(argv[2], journal) : 0);
}
