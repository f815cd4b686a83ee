/* Parameters files and results files in C, for a comparison of times: texts COUNT STUDY RESULTS X .. writes the parameters
 * files of the evaluations 1 to COUNT of the study in STUDY into memory, each at the point X .., reads the results file
 * RESULTS as often, and prints how many bytes it wrote, and how often there were values. */
#include "files.h"

#include <stdio.h>
#include <stdlib.h>

int main(int word_count, char **words)
{
    if (word_count < 4)
        return 1;
    unsigned count = (unsigned)atoi(words[1]), read = 0;
    unsigned long bytes = 0;
    size_t length;
    task study;
    read_task(words[2], &study);
    char *left = bytes_of(words[3], &length), *text = malloc(most_bytes(&study));
    decimal *point = point_of(&study, words + 4, word_count - 4), values[MOST_LABELS];
    insist(text, "malloc");
    for (unsigned i = 1; i <= count; i++) {
        bytes += parameters_text(&study, i, point, text);
        read += read_results(left, left + length, values, study.response_count);
    }
    printf("%lu bytes, %u of %u with values\n", bytes, read, count);
    return 0;
}
