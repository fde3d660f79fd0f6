// count.c: the job of the program `count` in plain C: one pass over the bytes of a read buffer, a table of digit values, the report in one buffer.
#include <stdint.h>
#include <stdio.h>
#include <string.h>
#include <unistd.h>

enum { MOST_PACKS = 65535, NO_DIGIT = 16 };

static unsigned char chunk[65536];
static unsigned char values[256];
static uint32_t numbers[256]; // how often each answer stopped a read
static char out[8192];        // the longest report, 255 answers, has under 5,000 bytes

int main(void) {
    uint32_t seen = 0, unread = 0, sum = 0, lowest = 65535, highest = 0;
    uint32_t line = 0, digits = 0; // the line at hand: the number that its digits make, and how many there are
    int refused = 0;
    ssize_t n = 0;

    memset(values, NO_DIGIT, sizeof values);
    for (int v = 0; v < 16; v++)
        values[(unsigned char)"0123456789ABCDEF"[v]] = v;

    while (!refused && (n = read(0, chunk, sizeof chunk)) > 0) {
        for (const unsigned char *at = chunk, *end = chunk + n; at < end; at++) {
            uint32_t value = values[*at];
            if (value != NO_DIGIT && digits < 6) {
                line = line << 4 | value;
                digits++;
                continue;
            }
            if (*at != '\n' || seen == MOST_PACKS) {
                refused = 1;
                break;
            }
            if (digits == 6 && line <= 0xFFFF) {
                uint32_t cycles = (line & 0xFF) << 8 | line >> 8;
                sum += cycles;
                if (cycles < lowest)
                    lowest = cycles;
                if (cycles > highest)
                    highest = cycles;
            } else if (digits == 4 && line > 0x100 && line <= 0x1FF) {
                numbers[line - 0x100]++;
                unread++;
            } else {
                refused = 1;
                break;
            }
            seen++;
            line = digits = 0;
        }
    }
    if (n < 0) {
        perror("count: standard input");
        return 0; // as the program's status, which is always 0
    }

    int length;
    if (refused || digits > 0) {
        length = snprintf(out, sizeof out, "refused\t11\t%u\n", seen + 1);
    } else {
        uint32_t read_packs = seen - unread;
        length = snprintf(out, sizeof out, "seen\t%u\nread\t%u\nunread\t%u\n", seen, read_packs, unread);
        for (int k = 1; k < 256; k++)
            if (numbers[k] > 0)
                length += snprintf(out + length, sizeof out - length, "unread %d\t%u\n", k, numbers[k]);
        length += snprintf(out + length, sizeof out - length, "sum\t%u\n", sum);
        if (read_packs > 0)
            length += snprintf(out + length, sizeof out - length, "lowest\t%u\nhighest\t%u\nmean\t%u\nremainder\t%u\n",
                               lowest, highest, sum / read_packs, sum % read_packs);
    }
    for (int written = 0; written < length; written += n)
        if ((n = write(1, out + written, length - written)) < 0) {
            perror("count: standard output");
            return 0;
        }
    return 0;
}
