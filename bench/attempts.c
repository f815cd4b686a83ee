/* Attempts in C, for a comparison of times: attempts COUNT STUDY X .. makes COUNT attempts at the point X .. in the current
 * folder, each of an evaluation of its own, and prints how often there were values. */
#include "files.h"

#include <stdio.h>
#include <stdlib.h>

int main(int word_count, char **words)
{
    if (word_count < 3)
        return 1;
    unsigned count = (unsigned)atoi(words[1]), read = 0;
    task study;
    station by;
    read_task(words[2], &study);
    decimal *point = point_of(&study, words + 3, word_count - 3), values[MOST_LABELS];
    make_station(&study, &by);
    for (unsigned i = 1; i <= count; i++)
        read += attempt(&by, i, point, values);
    printf("%u of %u with values\n", read, count);
    return 0;
}
