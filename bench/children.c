/* A vector study by steps over children in C, for a comparison of times: children STUDY makes an attempt at each of its
 * points in the current folder, records it in dakota.rst before the next one, and then writes t.dat and prints the summary.
 * It ends at an attempt that gives no values, and refuses nothing else. */
#include "files.h"

#include <stdint.h>
#include <stdio.h>
#include <stdlib.h>
#include <string.h>
#include <unistd.h>

/* Writes a decimal as restart files have it, on a machine that keeps a number's lowest byte first. */
static char *put_pair(const decimal *number, char *to)
{
    __int128 mantissa = number->negative ? -(__int128)number->mantissa : (__int128)number->mantissa;
    int16_t exponent = (int16_t)number->exponent;
    memcpy(to, &mantissa, sizeof mantissa);
    memcpy(to + sizeof mantissa, &exponent, sizeof exponent);
    return to + DECIMAL;
}

static char *put_pairs(const decimal *numbers, int count, char *to)
{
    for (int i = 0; i < count; i++)
        to = put_pair(&numbers[i], to);
    return to;
}

/* Writes a list of labels, each behind its length. */
static char *put_labels(const piece *labels, int count, char *to)
{
    *to++ = (char)count;
    *to++ = 0;
    for (int i = 0; i < count; i++) {
        *to++ = (char)labels[i].length;
        memcpy(to, labels[i].text, labels[i].length);
        to += labels[i].length;
    }
    return to;
}

/* Makes the restart file of a study, and answers where its end gate stands. */
static int begun(const task *study, off_t *gate)
{
    static char header[MOST_PAYLOAD];
    memcpy(header, "DKRSTv1\n", MAGIC);
    char *end = put_labels(study->variables, study->variable_count, header + MAGIC);
    size_t length = (size_t)(put_labels(study->responses, study->response_count, end) - header);
    *gate = (off_t)(GATE + length);
    return begin_restart("dakota.rst", header, length);
}

/* Records the first attempt of a row, which has its point and values, and answers where the end gate stands then. */
static off_t record(int file, off_t gate, const task *study, const decimal *row)
{
    static char payload[MOST_PAYLOAD];
    static const char first_with_values[ATTEMPT + KIND] = {1, 0, 0, 0, 1};
    char *end = put_pairs(row, study->variable_count, payload);
    memcpy(end, first_with_values, sizeof first_with_values);
    end = put_pairs(row + study->variable_count, study->response_count, end + sizeof first_with_values);
    append(file, gate, payload, (size_t)(end - payload));
    return gate + GATE + (end - payload);
}

static void write_labels(const piece *labels, int count, FILE *file)
{
    for (int i = 0; i < count; i++)
        fprintf(file, " %s", labels[i].text);
}

/* Writes the table, whose file stays open. */
static FILE *write_table(const task *study, const decimal *rows, unsigned count)
{
    int width = study->variable_count + study->response_count;
    FILE *file = fopen("t.dat", "wb");
    insist(file, "t.dat");
    fputs("%eval_id interface", file);
    write_labels(study->variables, study->variable_count, file);
    write_labels(study->responses, study->response_count, file);
    fputs("\n", file);
    for (unsigned i = 0; i < count; i++) {
        fprintf(file, "%u NO_ID", i + 1);
        for (int j = 0; j < width; j++, rows++) {
            char number[LONGEST_LINE] = " ";
            fwrite(number, 1, (size_t)(put_plain(rows, number + 1) - number), file);
        }
        fputs("\n", file);
    }
    insist(fflush(file) == 0, "t.dat");
    return file;
}

int main(int word_count, char **words)
{
    if (word_count != 2)
        return 2;
    task study;
    vector points;
    station by;
    read_task(words[1], &study);
    read_vector(words[1], &study, &points);
    make_station(&study, &by);
    unsigned count = points.step_count + 1;
    int variables = study.variable_count, width = variables + study.response_count;
    decimal *rows = malloc(sizeof(decimal) * (size_t)width * count);
    insist(rows, "malloc");
    off_t gate;
    int file = begun(&study, &gate);
    for (unsigned i = 0; i < count; i++) {
        decimal *row = rows + (size_t)width * i;
        for (int j = 0; j < variables; j++)
            row[j] = stepped(&points.first[j], &points.step[j], i);
        insist(attempt(&by, i + 1, row, row + variables), study.results);
        gate = record(file, gate, &study, row);
    }
    FILE *table = write_table(&study, rows, count);
    close(file);
    insist(fclose(table) == 0, "t.dat");
    printf("<<<<< Study finished: complete\n<<<<< Function evaluation summary: %u total (%u new, 0 duplicate)\n", count, count);
    return 0;
}
