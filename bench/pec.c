/* The PEC of so many bytes, as often as asked:  pec library|plain|table CALLS BYTES */
#include "baseline.h"

#include <stdio.h>
#include <stdlib.h>
#include <string.h>

int main(int argc, char **argv)
{
    static uint8_t message[65536];
    uint8_t sum = 0;
    size_t bytes = argc == 4 ? strtoul(argv[3], NULL, 10) : 0;
    checker *pec = NULL;
    if (bytes == 0 || bytes > sizeof message)
        return 2;
    if (strcmp(argv[1], "library") == 0)
        pec = hb_pec;
    else if (strcmp(argv[1], "plain") == 0)
        pec = plain_pec;
    else if (strcmp(argv[1], "table") == 0)
        pec = table_pec;
    else
        return 2;
    for (size_t i = 0; i < bytes; i++)
        message[i] = (uint8_t)(i * 151 + 77);
    for (long calls = strtol(argv[2], NULL, 10); calls > 0; calls--) {
        message[0] = (uint8_t)calls;
        sum = (uint8_t)(sum * 3 + pec(message, bytes));
    }
    printf("%u\n", sum);
    return 0;
}
