#include "files.h"

#include <errno.h>
#include <fcntl.h>
#include <stdint.h>
#include <stdio.h>
#include <stdlib.h>
#include <string.h>
#include <strings.h>
#include <sys/file.h>
#include <sys/wait.h>
#include <unistd.h>

extern char **environ;

enum { MOST_DIGITS = 34, MOST_EXPONENT = 9999, LEAST_PLACES = 22, LEAST_DIGITS = 15, MOST_PIECES = 1024, LONG = 100000000 };

#define PIECE(text) ((piece){text, sizeof text - 1})

static const piece standard_tags[] = {
    PIECE("variables"), PIECE("functions"), PIECE("derivative_variables"), PIECE("analysis_components"), PIECE("eval_id"),
};
static const piece aprepro_tags[] = {
    PIECE("DAKOTA_VARS"), PIECE("DAKOTA_FNS"), PIECE("DAKOTA_DER_VARS"), PIECE("DAKOTA_AN_COMPS"), PIECE("DAKOTA_EVAL_ID"),
};

void insist(bool is_so, const char *what)
{
    if (is_so)
        return;
    perror(what);
    exit(1);
}

char *bytes_of(const char *path, size_t *length)
{
    FILE *file = fopen(path, "rb");
    insist(file && fseek(file, 0, SEEK_END) == 0, path);
    *length = (size_t)ftell(file);
    rewind(file);
    char *bytes = malloc(*length + 1);
    insist(bytes && fread(bytes, 1, *length, file) == *length, path);
    bytes[*length] = 0;
    fclose(file);
    return bytes;
}

/* Numbers. */

static u128 power(int of)
{
    static u128 powers[MOST_DIGITS + 1];
    if (powers[0] == 0) {
        powers[0] = 1;
        for (int i = 1; i <= MOST_DIGITS; i++)
            powers[i] = powers[i - 1] * 10;
    }
    return powers[of];
}

static bool is_digit(char byte)
{
    return '0' <= byte && byte <= '9';
}

/* The number behind an `e`, which is cut where it is long. */
static bool read_exponent(const char *at, const char *end, int *to)
{
    bool negative = at < end && *at == '-';
    if (at < end && (*at == '-' || *at == '+'))
        at++;
    if (at == end)
        return false;
    for (*to = 0; at < end; at++) {
        if (!is_digit(*at))
            return false;
        if (*to < LONG)
            *to = *to * 10 + (*at - '0');
    }
    if (negative)
        *to = -*to;
    return true;
}

bool read_decimal(const char *at, const char *end, decimal *to)
{
    /* The digits of the mantissa so far, the zeros behind them, and how many stand behind the point. */
    u128 mantissa = 0;
    int kept = 0, zeros = 0, behind = 0, exponent = 0;
    bool negative = at < end && *at == '-', has_point = false, has_digit = false;
    if (at < end && (*at == '-' || *at == '+'))
        at++;
    for (; at < end; at++) {
        if (*at == '.' && !has_point) {
            has_point = true;
            continue;
        }
        if (!is_digit(*at))
            break;
        has_digit = true;
        behind += has_point;
        if (*at == '0') {
            zeros += kept > 0;
            continue;
        }
        kept += zeros + 1;
        if (kept <= MOST_DIGITS)
            mantissa = mantissa * power(zeros + 1) + (unsigned)(*at - '0');
        zeros = 0;
    }
    if (!has_digit)
        return false;
    if (at < end && !((*at == 'e' || *at == 'E') && read_exponent(at + 1, end, &exponent)))
        return false;
    if (kept == 0) {
        *to = (decimal){0, 0, false};
        return true;
    }
    exponent += zeros - behind;
    *to = (decimal){mantissa, exponent, negative};
    int first = exponent + kept - 1;
    return kept <= MOST_DIGITS && -MOST_EXPONENT <= first && first <= MOST_EXPONENT;
}

decimal *point_of(const task *study, char **words, int count)
{
    decimal *point = malloc(sizeof(decimal) * MOST_LABELS);
    insist(point && count == study->variable_count, "point");
    for (int i = 0; i < count; i++)
        insist(read_decimal(words[i], words[i] + strlen(words[i]), &point[i]), words[i]);
    return point;
}

/* A decimal in units of 10^unit. */
static __int128 in_units(const decimal *number, int unit)
{
    __int128 units = (__int128)(number->mantissa * power(number->exponent - unit));
    return number->negative ? -units : units;
}

decimal stepped(const decimal *first, const decimal *step, unsigned count)
{
    int unit = first->exponent < step->exponent ? first->exponent : step->exponent;
    __int128 units = in_units(first, unit) + count * in_units(step, unit);
    if (units == 0)
        return (decimal){0, 0, false};
    decimal number = {(u128)(units < 0 ? -units : units), unit, units < 0};
    for (; number.mantissa % 10 == 0; number.exponent++)
        number.mantissa /= 10;
    return number;
}

/* Texts. */

static char *put(piece text, char *to)
{
    memcpy(to, text.text, text.length);
    return to + text.length;
}

static char *put_byte(char byte, char *to)
{
    *to = byte;
    return to + 1;
}

/* Writes two digits before a place. */
static char *pair_before(unsigned pair, char *at)
{
    static const char pairs[] = "00010203040506070809101112131415161718192021222324252627282930313233343536373839404142434445464748"
                                "495051525354555657585960616263646566676869707172737475767778798081828384858687888990919293949596979899";
    memcpy(at - 2, pairs + 2 * pair, 2);
    return at - 2;
}

/* Writes the digits of a number at the end of a room, and returns the first. */
static char *digits_before(u128 number, char *at)
{
    const uint64_t part = 1000000000000000000u;
    while (number > UINT64_MAX) {
        u128 high = number / part;
        uint64_t low = (uint64_t)(number - high * part);
        number = high;
        for (int i = 0; i < 9; i++, low /= 100)
            at = pair_before((unsigned)(low % 100), at);
    }
    uint64_t small = (uint64_t)number;
    for (; small >= 100; small /= 100)
        at = pair_before((unsigned)(small % 100), at);
    if (small >= 10)
        return pair_before((unsigned)small, at);
    *--at = (char)('0' + small);
    return at;
}

static char *put_whole(unsigned number, char *to)
{
    char room[16], *end = room + sizeof room, *first = digits_before(number, end);
    return put((piece){first, (size_t)(end - first)}, to);
}

/* The scientific form: a digit, a point, the others filled to at least 15, and the exponent in at least two digits. */
static char *put_scientific(const decimal *number, char *to)
{
    char room[40], *end = room + sizeof room, *first = digits_before(number->mantissa, end);
    int others = (int)(end - first) - 1, exponent = number->mantissa ? number->exponent + others : 0;
    if (number->negative)
        *to++ = '-';
    *to++ = *first;
    *to++ = '.';
    to = put((piece){first + 1, (size_t)others}, to);
    for (; others < LEAST_DIGITS; others++)
        *to++ = '0';
    *to++ = 'e';
    *to++ = exponent < 0 ? '-' : '+';
    if (abs(exponent) < 10)
        *to++ = '0';
    return put_whole((unsigned)abs(exponent), to);
}

static char *put_zeros(int count, char *to)
{
    memset(to, '0', (size_t)count);
    return to + count;
}

char *put_plain(const decimal *number, char *to)
{
    char room[40], *end = room + sizeof room, *first = digits_before(number->mantissa, end);
    int count = (int)(end - first), whole = count + number->exponent;
    if (number->negative)
        *to++ = '-';
    if (number->exponent >= 0)
        return put_zeros(number->exponent, put((piece){first, (size_t)count}, to));
    if (whole <= 0) {
        to = put_zeros(-whole, put(PIECE("0."), to));
        whole = 0;
    } else {
        to = put_byte('.', put((piece){first, (size_t)whole}, to));
    }
    return put((piece){first + whole, (size_t)(count - whole)}, to);
}

/* Writes a line of a value and its tag. */
static char *put_line(bool aprepro, piece value, piece tag, char *to)
{
    if (aprepro) {
        to = put(tag, put(PIECE("{ "), to));
        return put(PIECE(" }\n"), put(value, put(PIECE(" = "), to)));
    }
    if (value.length < LEAST_PLACES) {
        memset(to, ' ', LEAST_PLACES - value.length);
        to += LEAST_PLACES - value.length;
    }
    return put_byte('\n', put(tag, put_byte(' ', put(value, to))));
}

static char *put_count(bool aprepro, unsigned count, piece tag, char *to)
{
    char value[16];
    return put_line(aprepro, (piece){value, (size_t)(put_whole(count, value) - value)}, tag, to);
}

/* Writes a line whose tag is a prefix with a number, a colon and a label. */
static char *put_numbered(bool aprepro, unsigned count, piece prefix, unsigned number, piece label, char *to)
{
    char tag[LONGEST_LINE], *end = put_byte(':', put_whole(number, put(prefix, tag)));
    end = put(label, end);
    return put_count(aprepro, count, (piece){tag, (size_t)(end - tag)}, to);
}

size_t most_bytes(const task *study)
{
    return (size_t)(2 * study->variable_count + study->response_count + 5) * LONGEST_LINE;
}

size_t parameters_text(const task *study, unsigned evaluation, const decimal *point, char *out)
{
    const piece *tags = study->aprepro ? aprepro_tags : standard_tags;
    unsigned variables = (unsigned)study->variable_count, responses = (unsigned)study->response_count;
    bool form = study->aprepro;
    char *to = put_count(form, variables, tags[0], out);
    for (unsigned i = 0; i < variables; i++) {
        char value[64];
        piece text = {value, (size_t)(put_scientific(&point[i], value) - value)};
        to = put_line(form, text, study->variables[i], to);
    }
    to = put_count(form, responses, tags[1], to);
    for (unsigned i = 0; i < responses; i++)
        to = put_numbered(form, 1, PIECE("ASV_"), i + 1, study->responses[i], to);
    to = put_count(form, variables, tags[2], to);
    for (unsigned i = 0; i < variables; i++)
        to = put_numbered(form, i + 1, PIECE("DVV_"), i + 1, study->variables[i], to);
    to = put_count(form, evaluation, tags[4], put_count(form, 0, tags[3], to));
    return (size_t)(to - out);
}

/* Results. */

static bool is_space(char byte)
{
    return byte == ' ' || byte == '\n' || byte == '\t' || byte == '\r';
}

static const char *behind_space(const char *at, const char *end)
{
    while (at < end && is_space(*at))
        at++;
    return at;
}

/* What follows white space and comments. */
static const char *behind_comments(const char *at, const char *end)
{
    at = behind_space(at, end);
    while (at < end && *at == '#') {
        const char *line = memchr(at, '\n', (size_t)(end - at));
        at = line ? behind_space(line, end) : end;
    }
    return at;
}

static const char *behind_piece(const char *at, const char *end)
{
    while (at < end && !is_space(*at) && *at != '#')
        at++;
    return at;
}

static bool begins_label(char byte)
{
    return ('a' <= byte && byte <= 'z') || ('A' <= byte && byte <= 'Z') || byte == '_';
}

bool read_results(const char *at, const char *end, decimal *values, int count)
{
    at = behind_space(at, end);
    if (end - at >= 4 && strncasecmp(at, "fail", 4) == 0)
        return false;
    for (int i = 0; i < count; i++) {
        at = behind_comments(at, end);
        const char *last = behind_piece(at, end);
        if (!read_decimal(at, last, &values[i]))
            return false;
        at = behind_comments(last, end);
        if (at < end && begins_label(*at))
            at = behind_piece(at, end);
    }
    return behind_comments(at, end) == end;
}

/* Studies. */

/* The next word, or string without its quotes, which ends with a zero then; none at the end. */
static char *next_piece(char **at)
{
    *at += strspn(*at, " \t\r\n=,");
    if (**at == 0)
        return NULL;
    bool is_quoted = **at == '\'';
    char *first = *at + is_quoted;
    char *end = first + strcspn(first, is_quoted ? "'" : " \t\r\n=,");
    *at = *end ? end + 1 : end;
    *end = 0;
    return first;
}

/* What follows a keyword, or none. */
static char **behind(const char *keyword, char **pieces, int count)
{
    for (int i = 0; i < count; i++)
        if (strcmp(pieces[i], keyword) == 0)
            return pieces + i + 1;
    return NULL;
}

/* Takes the labels of a count, whose keyword has one number behind it. */
static int take_labels(const char *keyword, const char *labels, char **pieces, int count, piece *to)
{
    char **number = behind(keyword, pieces, count), **first = behind(labels, pieces, count);
    insist(number && first, labels);
    int found = atoi(*number);
    insist(0 < found && found <= MOST_LABELS, keyword);
    for (int i = 0; i < found; i++)
        to[i] = (piece){first[i], strlen(first[i])};
    return found;
}

/* Cuts a study into its pieces, and answers how many there are. */
static int pieces_of(const char *path, char **pieces)
{
    size_t length;
    char *text = bytes_of(path, &length), *it;
    int count = 0;
    while (count < MOST_PIECES && (it = next_piece(&text)))
        pieces[count++] = it;
    return count;
}

void read_task(const char *path, task *to)
{
    char *pieces[MOST_PIECES], *it;
    int count = pieces_of(path, pieces);
    to->variable_count = take_labels("continuous_design", "descriptors", pieces, count, to->variables);
    to->response_count = take_labels("response_functions", "response_descriptors", pieces, count, to->responses);
    char **driver = behind("analysis_drivers", pieces, count);
    insist(driver, "analysis_drivers");
    to->word_count = 0;
    for (it = strtok(*driver, " "); it && to->word_count < MOST_WORDS - 3; it = strtok(NULL, " "))
        to->words[to->word_count++] = it;
    char **parameters = behind("parameters_file", pieces, count), **results = behind("results_file", pieces, count);
    to->parameters = parameters ? *parameters : "params.in";
    to->results = results ? *results : "results.out";
    to->aprepro = behind("aprepro", pieces, count);
    to->tag = behind("file_tag", pieces, count);
    to->save = behind("file_save", pieces, count);
}

/* Takes the numbers of a keyword. */
static void take_numbers(const char *keyword, char **pieces, int count, int numbers, decimal *to)
{
    char **first = behind(keyword, pieces, count);
    insist(first, keyword);
    for (int i = 0; i < numbers; i++)
        insist(read_decimal(first[i], first[i] + strlen(first[i]), &to[i]), first[i]);
}

void read_vector(const char *path, const task *study, vector *to)
{
    char *pieces[MOST_PIECES];
    int count = pieces_of(path, pieces);
    char **steps = behind("num_steps", pieces, count);
    insist(steps, "num_steps");
    to->step_count = (unsigned)atoi(*steps);
    take_numbers("initial_point", pieces, count, study->variable_count, to->first);
    take_numbers("step_vector", pieces, count, study->variable_count, to->step);
}

/* Attempts. */

/* The names of an evaluation's files, the first arguments behind the driver's words. */
typedef struct {
    char parameters[512], results[512];
} names;

static void name(const task *study, unsigned evaluation, names *to)
{
    if (study->tag) {
        snprintf(to->parameters, sizeof to->parameters, "%s.%u", study->parameters, evaluation);
        snprintf(to->results, sizeof to->results, "%s.%u", study->results, evaluation);
    } else {
        snprintf(to->parameters, sizeof to->parameters, "%s", study->parameters);
        snprintf(to->results, sizeof to->results, "%s", study->results);
    }
}

/* Removes a file, where it is there. */
static void clear(const char *path)
{
    insist(unlink(path) == 0 || errno == ENOENT, path);
}

/* Makes a file anew. */
static void lay(const char *path, const char *bytes, size_t length)
{
    clear(path);
    int file = open(path, O_WRONLY | O_CREAT | O_EXCL | O_CLOEXEC, 0666);
    insist(file >= 0, path);
    for (size_t at = 0; at < length;) {
        ssize_t count = write(file, bytes + at, length - at);
        insist(count > 0, path);
        at += (size_t)count;
    }
    close(file);
}

/* Starts the child, whose standard input is empty and whose standard output is this program's error, and waits for it. */
static void run(char **words, const posix_spawn_file_actions_t *opened)
{
    pid_t child;
    int status;
    errno = posix_spawnp(&child, words[0], opened, NULL, words, environ);
    insist(errno == 0, words[0]);
    insist(waitpid(child, &status, 0) == child, "waitpid");
}

/* How many bytes a file has, which are read; less than none where it isn't there or has too many. */
static ssize_t fetch(const char *path, char *left)
{
    int file = open(path, O_RDONLY | O_CLOEXEC);
    insist(file >= 0 || errno == ENOENT, path);
    if (file < 0)
        return -1;
    ssize_t length = 0, count;
    while ((count = read(file, left + length, (size_t)(MOST_LEFT + 1 - length))) > 0)
        length += count;
    insist(count == 0, path);
    close(file);
    return length > MOST_LEFT ? -1 : length;
}

void make_station(task *study, station *to)
{
    to->study = study;
    to->text = malloc(most_bytes(study));
    to->left = malloc(MOST_LEFT + 1);
    insist(to->text && to->left && posix_spawn_file_actions_init(&to->opened) == 0 &&
               posix_spawn_file_actions_addopen(&to->opened, STDIN_FILENO, "/dev/null", O_RDONLY, 0) == 0 &&
               posix_spawn_file_actions_adddup2(&to->opened, STDERR_FILENO, STDOUT_FILENO) == 0,
           "malloc");
}

bool attempt(station *by, unsigned evaluation, const decimal *point, decimal *values)
{
    task *study = by->study;
    names files;
    name(study, evaluation, &files);
    study->words[study->word_count] = files.parameters;
    study->words[study->word_count + 1] = files.results;
    study->words[study->word_count + 2] = NULL;
    size_t text_length = parameters_text(study, evaluation, point, by->text);
    clear(files.results);
    lay(files.parameters, by->text, text_length);
    run(study->words, &by->opened);
    ssize_t length = fetch(files.results, by->left);
    if (!study->save) {
        clear(files.results);
        clear(files.parameters);
    }
    return length >= 0 && read_results(by->left, by->left + length, values, study->response_count);
}

/* Restart files. */

/* Has the system write down the folder of a path. */
static void sync_folder(const char *path)
{
    char folder[4096] = ".";
    const char *last = strrchr(path, '/');
    if (last) {
        size_t length = last == path ? 1 : (size_t)(last - path);
        insist(length < sizeof folder, path);
        memcpy(folder, path, length);
        folder[length] = 0;
    }
    int file = open(folder, O_RDONLY | O_CLOEXEC);
    insist(file >= 0 && fsync(file) == 0, folder);
    close(file);
}

/* Writes a piece at a place, and syncs. */
static void rewrite(int file, off_t at, const void *piece, size_t length)
{
    insist(pwrite(file, piece, length, at) == (ssize_t)length, "pwrite");
    insist(fdatasync(file) == 0, "fdatasync");
}

void append(int file, off_t gate, const void *payload, size_t length)
{
    static const char open_gate = 1;
    static char piece[MOST_PAYLOAD];
    insist(length < sizeof piece, "payload");
    memcpy(piece, payload, length);
    piece[length] = 0;
    rewrite(file, gate + GATE, piece, length + GATE);
    rewrite(file, gate, &open_gate, GATE);
}

int begin_restart(const char *path, const void *header, size_t length)
{
    static const char closed_gate = 0;
    int file = open(path, O_RDWR | O_CREAT | O_EXCL | O_CLOEXEC, 0666);
    insist(file >= 0 && flock(file, LOCK_EX | LOCK_NB) == 0, path);
    sync_folder(path);
    insist(fdatasync(file) == 0, "fdatasync");
    rewrite(file, 0, &closed_gate, GATE);
    append(file, 0, header, length);
    return file;
}
