/* Key lines from standard input, for the examples in C. */
#ifndef READ_LINE_H
#define READ_LINE_H

#include <stddef.h>
#include <stdint.h>
#include <stdio.h>

/* One byte more than a key line may have: enough to see that a line is too long. */
#define LINE_SIZE 65

/* Reads a line without its newline, and returns its length, or -1 at the end of the input. A longer line is read to its end, and its first LINE_SIZE bytes kept. */
static long read_line(uint8_t line[LINE_SIZE]) {
    size_t length = 0;
    int byte = getchar();
    if (byte == EOF) {
        return -1;
    }
    while (byte != EOF && byte != '\n') {
        if (length < LINE_SIZE) {
            line[length++] = (uint8_t)byte;
        }
        byte = getchar();
    }
    return (long)length;
}

#endif
