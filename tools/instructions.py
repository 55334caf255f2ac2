#!/usr/bin/env python3
"""instructions.py [ARCHIVE]: instructions that one call of libplt.a executes, counted by callgrind (valgrind). Unlike a time, a count is the same in every run.

Each call is made in a program of its own, on a journal of ten engines or of forty, whose entries are keyed first and not counted."""
import pathlib
import subprocess
import sys
import tempfile

ROOT = pathlib.Path(__file__).resolve().parent.parent
PROGRAM = r'''
#include <stdio.h>
#include <stdlib.h>
#include <string.h>
#include "plt.h"
static uint8_t journal[PLT_JOURNAL_SIZE], reply[PLT_REPLY_SIZE], marks[80];
static uint64_t figures[PLT_FIGURE_COUNT];
static size_t written;
static void key(const char *line) { plt_command(journal, sizeof journal, (const uint8_t *)line, strlen(line), reply, sizeof reply); }
static int is_status, is_marks;
__attribute__((noinline)) void counted(const char *line, size_t length) {
    if (is_status) plt_status(journal, sizeof journal, figures, PLT_FIGURE_COUNT);
    else if (is_marks) plt_marks(journal, sizeof journal, marks, sizeof marks, &written);
    else plt_command(journal, sizeof journal, (const uint8_t *)line, length, reply, sizeof reply);
}
int main(int count, char **calls) {
    if (count != 3) return 2;
    char line[80];
    int engines = atoi(calls[2]), number;
    key("S 100000 366 800 6100 0 0 1 1050");
    for (number = 1; number <= engines; number++) {
        snprintf(line, sizeof line, "E %d %d %d", number, (700 + number * 37 % 101) * 1000, (4762 + number * 71 % 257) * 1000);
        key(line);
        if (number > engines / 2) key("P");
    }
    is_status = !strcmp(calls[1], "status"), is_marks = !strcmp(calls[1], "marks");
    counted(calls[1], strlen(calls[1]));
    return 0;
}
'''
# name, call (a key line, or status or marks by the library's functions), and how many engines its journal holds
CALLS = [
    ('engine command, 1 reading, ten engines', 'E 5000 771000 5002000', 10),
    ('engine command, 3 readings, ten engines', 'E 5000 771000 780400 765999 5002000 5011111 4990000', 10),
    ('status, ten engines', 'status', 10),
    ('status, forty engines', 'status', 40),
    ('marks, forty engines', 'marks', 40),
    ('strike command, ten engines', 'Z', 10),
    ('setup command', 'S 100000 366 800 6100 0 0 1 1050', 10),
    ('line refused by 2', 'E 5000 771000 5002000 7', 10),
]


def main():
    archive = pathlib.Path(sys.argv[1] if len(sys.argv) > 1 else ROOT / 'crates/plt/out/libplt.a').resolve()
    with tempfile.TemporaryDirectory() as folder:
        source, program, counts = (pathlib.Path(folder) / name for name in ('count.c', 'count', 'counts'))
        source.write_text(PROGRAM)
        subprocess.run(['cc', '-std=c11', '-O2', f'-I{ROOT / "include"}', source, archive, '-o', program], check=True)
        for name, call, engines in CALLS:
            command = ['valgrind', '-q', '--tool=callgrind', '--toggle-collect=counted', f'--callgrind-out-file={counts}', program, call, str(engines)]
            subprocess.run(command, check=True)
            total = next(line.split()[1] for line in counts.read_text().split('\n') if line.startswith('summary:'))
            print(f'{name}: {int(total):,}')


main()
