/* emulated JOB ITEMS: does a job of the library's side so many times over (bench/emulated.sh). */
#include "ours.c"
#include <stdlib.h>

int main(int argc, char **argv)
{
    if (argc != 3)
        return 2;
    unsigned long job = strtoul(argv[1], NULL, 10), items = strtoul(argv[2], NULL, 10);
    unsigned sum = 0;
    start_side();
    for (unsigned long i = 0; i < items; i++)
        sum += jobs[job].one((long)i);
    return sum == 1;
}
