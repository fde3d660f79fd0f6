// Times the forms of the packet error code, Rattle's and C's, in one run, and prints the ratios of their times at two lengths.
// A form's time is its best of many rounds, and the forms take turns, so that what else the machine does falls on all alike.
#include <stddef.h>
#include <stdint.h>
#include <stdio.h>
#include <time.h>

typedef uint8_t form(uint8_t crc, const uint8_t *s, size_t n);
form c_table, c_bitwise, rattle_pec, rattle_pec_bitwise, rattle_pec_table;

enum { C_TABLE, C_BITWISE, FIRST_OF_RATTLE, FORMS = 5, ROUNDS = 40, BYTES_A_ROUND = 1000000 };
static const struct { const char *name; form *code; } forms[FORMS] = {
    { "C table loop", c_table },
    { "C bitwise loop", c_bitwise },
    { "pec", rattle_pec },
    { "pec_bitwise", rattle_pec_bitwise },
    { "pec_table", rattle_pec_table },
};
static uint8_t message[8192];

static double seconds(void)
{
    struct timespec t;
    clock_gettime(CLOCK_MONOTONIC, &t);
    return t.tv_sec + 1e-9 * t.tv_nsec;
}

// Calls a form again and again, each time from the code that it gave last, and answers the last code.
static uint8_t round_of(form *code, size_t n)
{
    uint8_t crc = 0;
    for (size_t done = 0; done < BYTES_A_ROUND; done += n)
        crc = code(crc, message, n);
    return crc;
}

// Prints the ratios at one length, and answers whether all forms gave the same code.
static int compare(size_t n)
{
    double best[FORMS];
    uint8_t crc[FORMS];
    for (int round = 0; round < ROUNDS; round++)
        for (int f = 0; f < FORMS; f++) {
            double start = seconds();
            crc[f] = round_of(forms[f].code, n);
            double took = seconds() - start;
            if (round == 0 || took < best[f])
                best[f] = took;
        }
    for (int f = FIRST_OF_RATTLE; f < FORMS; f++)
        printf("%6zu  %-12s %12.2f %15.2f\n", n, forms[f].name, best[f] / best[C_TABLE], best[f] / best[C_BITWISE]);
    for (int f = 1; f < FORMS; f++)
        if (crc[f] != crc[0]) {
            printf("%s gives %02x where the %s gives %02x\n", forms[f].name, crc[f], forms[0].name, crc[0]);
            return 0;
        }
    return 1;
}

int main(void)
{
    uint32_t x = 1;
    for (size_t i = 0; i < sizeof message; i++) {
        x = x * 1103515245 + 12345;
        message[i] = x >> 24;
    }
    puts("the time of Rattle's form over that of C's (gcc -O3): below 1.00 Rattle is faster\n");
    puts(" bytes  Rattle       C table loop  C bitwise loop");
    int same = compare(36);
    same &= compare(sizeof message);
    return !same;
}
