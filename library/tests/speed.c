/* Microseconds of a processor that gossipmpi_eval takes on a script:  speed SCRIPT [TIMES] */
#include "gossipmpi.h"
#include <stdio.h>
#include <stdlib.h>
#include <time.h>

int main(int argc, char **argv)
{
    static uint8_t script[1 << 20], out[1 << 20];
    FILE *file = argc > 1 ? fopen(argv[1], "rb") : NULL;
    int times = argc > 2 ? atoi(argv[2]) : 20000;
    size_t needed = 0;
    struct timespec begin, end;
    if (!file) return 2;
    size_t length = fread(script, 1, sizeof script, file);
    fclose(file);
    clock_gettime(CLOCK_PROCESS_CPUTIME_ID, &begin);
    for (int i = 0; i < times; i++) gossipmpi_eval(script, length, out, sizeof out, &needed);
    clock_gettime(CLOCK_PROCESS_CPUTIME_ID, &end);
    printf("%.2f\n", ((double)(end.tv_sec - begin.tv_sec) * 1e9 + (double)(end.tv_nsec - begin.tv_nsec)) / times / 1e3);
    return 0;
}
