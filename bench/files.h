/* The files of a run: the two of an attempt at an evaluation, as a study's driver meets them, what is written for it and what
 * is read; and the restart file, in which attempts are recorded. */
#ifndef FILES_H
#define FILES_H

#include "decimal.h"

#include <spawn.h>
#include <stdbool.h>
#include <stddef.h>
#include <sys/types.h>

enum { MOST_LABELS = 100, MOST_WORDS = 16, LONGEST_LINE = 320, MOST_LEFT = 65536 };

/* The sizes of a restart file's parts, and the most bytes of a payload with the gate behind it. */
enum { GATE = 1, MAGIC = 8, COUNT = 2, DECIMAL = 18, ATTEMPT = 4, KIND = 1, MOST_PAYLOAD = 1 << 16 };

/* A piece of a text. */
typedef struct {
    const char *text;
    size_t length;
} piece;

/* What the files of a study depend on. */
typedef struct {
    piece variables[MOST_LABELS], responses[MOST_LABELS];
    int variable_count, response_count;
    char *words[MOST_WORDS];
    int word_count;
    const char *parameters, *results;
    bool aprepro, tag, save;
} task;

/* The points of a vector study by steps. */
typedef struct {
    decimal first[MOST_LABELS], step[MOST_LABELS];
    unsigned step_count;
} vector;

/* What makes attempts: the study, room for the texts of one attempt, and what a child is to open. */
typedef struct {
    task *study;
    char *text, *left;
    posix_spawn_file_actions_t opened;
} station;

/* Ends the program where something isn't so. */
void insist(bool is_so, const char *what);

/* All bytes of a file, with a zero behind them. */
char *bytes_of(const char *path, size_t *length);

/* Reads a study that is known to be good and names all its labels, and refuses nothing. */
void read_task(const char *path, task *to);

/* Reads the points of a vector study by steps that is known to be good. */
void read_vector(const char *path, const task *study, vector *to);

/* The decimals that words say, as many as the study has variables. */
decimal *point_of(const task *study, char **words, int count);

/* Whether a text says a decimal, and which. */
bool read_decimal(const char *at, const char *end, decimal *to);

/* The decimal that lies so many steps behind the first, where no number of these has many digits. */
decimal stepped(const decimal *first, const decimal *step, unsigned count);

/* Writes a number as a table has it, where it is written plainly there, and returns its end. */
char *put_plain(const decimal *number, char *to);

/* The most bytes of a parameters file. */
size_t most_bytes(const task *study);

/* Writes the parameters file of an evaluation, and returns its length. */
size_t parameters_text(const task *study, unsigned evaluation, const decimal *point, char *out);

/* Whether a results file has a value for each place, and which. */
bool read_results(const char *at, const char *end, decimal *values, int count);

/* A station for the attempts of a study. */
void make_station(task *study, station *to);

/* Makes an attempt at an evaluation in the current folder, and tells whether it gave values, and which. It clears the results
 * file, lays the parameters file, runs the driver's words with the two names behind them, waits, fetches what was left, and
 * clears both. */
bool attempt(station *by, unsigned evaluation, const decimal *point, decimal *values);

/* A new restart file, which is locked, and whose name stands after a crash, with the payload of a header. */
int begin_restart(const char *path, const void *header, size_t length);

/* Writes a payload with a closed gate behind the gate at a place, which is opened then. */
void append(int file, off_t gate, const void *payload, size_t length);

#endif
