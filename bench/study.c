/* The same study in C, for a comparison of times: study FILE writes t.dat and prints the summary. A decimal is a pair
 * of a mantissa below 10^34 and an exponent. It reads the numbers of a vector study by steps, of a grid or of a compass
 * search that is known to be good, and refuses nothing. */
#include "decimal.h"

#include <stdint.h>
#include <stdio.h>
#include <stdlib.h>
#include <string.h>

enum { MOST_DIGITS = 34, MOST_EXPONENT = 9999, LINE = 256 };

typedef struct {
    decimal x1, x2, value;
} row;

static u128 powers[MOST_DIGITS + 1];

static int digit_count(u128 n)
{
    int count = 1;
    while (count < MOST_DIGITS && n >= powers[count])
        count++;
    return count;
}

static int leading(const decimal *d)
{
    return d->exponent + digit_count(d->mantissa) - 1;
}

/* The decimal with this value, where it has one. */
static bool decimal_of(u128 mantissa, int exponent, bool negative, decimal *to)
{
    if (mantissa == 0) {
        *to = (decimal){0, 0, false};
        return true;
    }
    if (mantissa >= powers[MOST_DIGITS])
        return false;
    while (mantissa > UINT64_MAX && (mantissa & 1) == 0 && mantissa % 10 == 0) {
        mantissa /= 10;
        exponent++;
    }
    if (mantissa <= UINT64_MAX) {
        uint64_t small = (uint64_t)mantissa;
        while (small % 10 == 0) {
            small /= 10;
            exponent++;
        }
        mantissa = small;
    }
    *to = (decimal){mantissa, exponent, negative};
    int first = leading(to);
    return -MOST_EXPONENT <= first && first <= MOST_EXPONENT;
}

static bool product(const decimal *a, const decimal *b, decimal *to)
{
    u128 mantissa;
    return !__builtin_mul_overflow(a->mantissa, b->mantissa, &mantissa) &&
           decimal_of(mantissa, a->exponent + b->exponent, a->negative != b->negative, to);
}

/* The mantissa of a decimal, written with a smaller exponent, where it is short enough. */
static bool scaled(const decimal *d, int exponent, u128 *to)
{
    int by = d->exponent - exponent;
    return by < MOST_DIGITS && !__builtin_mul_overflow(d->mantissa, powers[by], to) && *to < powers[MOST_DIGITS];
}

static bool sum(const decimal *a, const decimal *b, decimal *to)
{
    if (a->mantissa == 0 || b->mantissa == 0) {
        *to = a->mantissa == 0 ? *b : *a;
        return true;
    }
    int exponent = a->exponent < b->exponent ? a->exponent : b->exponent;
    u128 one, other;
    if (!scaled(a, exponent, &one) || !scaled(b, exponent, &other))
        return false;
    if (a->negative == b->negative)
        return decimal_of(one + other, exponent, a->negative, to);
    return one >= other ? decimal_of(one - other, exponent, a->negative, to)
                        : decimal_of(other - one, exponent, b->negative, to);
}

static bool difference(const decimal *a, const decimal *b, decimal *to)
{
    decimal negated = {b->mantissa, b->exponent, b->mantissa != 0 && !b->negative};
    return sum(a, &negated, to);
}

static bool rosenbrock(const decimal *x1, const decimal *x2, decimal *value)
{
    static const decimal one = {1, 0, false}, hundred = {1, 2, false};
    decimal a, b, c, d, f, g;
    return product(x1, x1, &a) && difference(x2, &a, &b) && product(&b, &b, &c) && product(&hundred, &c, &d) &&
           difference(&one, x1, &f) && product(&f, &f, &g) && sum(&d, &g, value);
}

/* Whether a is less than b, which both are values, and so not negative: the studies recover none that is. */
static bool is_less(const decimal *a, const decimal *b)
{
    if (a->mantissa == 0 || b->mantissa == 0)
        return a->mantissa == 0 && b->mantissa != 0;
    int first = leading(a), other = leading(b);
    if (first != other)
        return first < other;
    int by = a->exponent - b->exponent;
    return by >= 0 ? a->mantissa * powers[by] < b->mantissa : a->mantissa < b->mantissa * powers[-by];
}

/* Writes the digits, and returns their end. */
static char *put_digits(u128 n, char *to)
{
    char digits[40], *at = digits + sizeof digits;
    while (n > UINT64_MAX) {
        uint64_t low = (uint64_t)(n % 1000000000000000000u);
        n /= 1000000000000000000u;
        for (int i = 0; i < 18; i++, low /= 10)
            *--at = (char)('0' + low % 10);
    }
    uint64_t small = (uint64_t)n;
    do
        *--at = (char)('0' + small % 10);
    while (small /= 10);
    size_t count = (size_t)(digits + sizeof digits - at);
    memcpy(to, at, count);
    return to + count;
}

static char *put_zeros(int count, char *to)
{
    memset(to, '0', (size_t)count);
    return to + count;
}

static char *put_decimal(const decimal *d, char *to)
{
    char digits[40];
    int count = (int)(put_digits(d->mantissa, digits) - digits), first = d->exponent + count - 1;
    if (d->negative)
        *to++ = '-';
    if (first < -6 || first > 33) {
        *to++ = digits[0];
        if (count > 1)
            *to++ = '.';
        memcpy(to, digits + 1, (size_t)count - 1);
        return to + count - 1 + sprintf(to + count - 1, "e%c%02d", first < 0 ? '-' : '+', abs(first));
    }
    if (d->exponent >= 0) {
        memcpy(to, digits, (size_t)count);
        return put_zeros(d->exponent, to + count);
    }
    int whole = count + d->exponent;
    if (whole <= 0) {
        *to++ = '0';
        *to++ = '.';
        to = put_zeros(-whole, to);
        whole = 0;
    } else {
        memcpy(to, digits, (size_t)whole);
        to += whole;
        *to++ = '.';
    }
    memcpy(to, digits + whole, (size_t)(count - whole));
    return to + count - whole;
}

static char *put_text(const char *text, char *to)
{
    size_t length = strlen(text);
    memcpy(to, text, length);
    return to + length;
}

static decimal read_number(const char *text)
{
    u128 mantissa = 0;
    int exponent = 0;
    bool negative = *text == '-', is_behind = false;
    if (*text == '-' || *text == '+')
        text++;
    for (; *text && *text != 'e' && *text != 'E'; text++) {
        if (*text == '.') {
            is_behind = true;
        } else {
            mantissa = mantissa * 10 + (u128)(*text - '0');
            exponent -= is_behind;
        }
    }
    if (*text)
        exponent += atoi(text + 1);
    decimal d;
    if (!decimal_of(mantissa, exponent, negative, &d))
        exit(3);
    return d;
}

/* A decimal in units of 10^unit. */
static __int128 in_units(const decimal *d, int unit)
{
    if (d->mantissa == 0)
        return 0;
    __int128 units = (__int128)(d->mantissa * powers[d->exponent - unit]);
    return d->negative ? -units : units;
}

static bool point_of(__int128 units, int unit, decimal *to)
{
    return decimal_of((u128)(units < 0 ? -units : units), unit, units < 0, to);
}

static bool is_same(const decimal *a, const decimal *b)
{
    return a->mantissa == b->mantissa && a->exponent == b->exponent && a->negative == b->negative;
}

/* The first of a keyword's values, which stand behind `=`, or none. */
static char **values_of(const char *keyword, char **pieces, int count)
{
    for (int i = 0; i + 2 < count; i++)
        if (strcmp(pieces[i], keyword) == 0)
            return pieces + i + 2;
    return NULL;
}

/* The number of units that lies so many parts behind the first one on the way to the last, which is no less; a half is
 * rounded up. */
static __int128 between(__int128 first, __int128 last, int part, int parts)
{
    return first + (2 * part * (last - first) + parts) / (2 * parts);
}

/* The numbers of a compass search, in units: the point from which it goes, its bounds and its step; and its limits. */
typedef struct {
    __int128 x[2], lower[2], upper[2], delta, threshold;
    int unit, iterations, evaluations;
} compass;

/* The rows of a study, how many there are and how many may be, the best of them, the value that a point without one gets, if
 * any; and of a search where the points stand among the rows, by a hash of their units. */
typedef struct {
    row *all;
    int total, best, same, most;
    const decimal *recover;
    __int128 (*points)[2];
    int *places, mask;
} rows;

/* Adds a row with its value. Tells whether it has one. */
static bool add_row(rows *to, __int128 x1, __int128 x2, int unit)
{
    row *it = &to->all[to->total];
    if (!point_of(x1, unit, &it->x1) || !point_of(x2, unit, &it->x2))
        return false;
    if (!rosenbrock(&it->x1, &it->x2, &it->value)) {
        if (!to->recover)
            return false;
        it->value = *to->recover;
    }
    if (is_less(&it->value, &to->all[to->best].value))
        to->best = to->total;
    to->total++;
    return true;
}

/* Adds a row of a search, and counts it where its point has one already. */
static bool add_poll(rows *to, const __int128 x[2], int unit)
{
    uint64_t hash = (uint64_t)x[0] * 0x9e3779b97f4a7c15u + (uint64_t)(x[0] >> 64);
    hash = (hash ^ (uint64_t)x[1]) * 0x9e3779b97f4a7c15u + (uint64_t)(x[1] >> 64);
    int at = (int)(hash >> 32) & to->mask;
    while (to->places[at] && memcmp(to->points[to->places[at] - 1], x, sizeof *to->points) != 0)
        at = (at + 1) & to->mask;
    if (to->places[at])
        to->same++;
    else
        to->places[at] = to->total + 1;
    memcpy(to->points[to->total], x, sizeof *to->points);
    return add_row(to, x[0], x[1], unit);
}

/* Makes room for the rows of a search. */
static bool make_room(rows *to)
{
    int size = 1;
    while (size < 2 * to->most)
        size *= 2;
    to->mask = size - 1;
    to->points = malloc(sizeof *to->points * (size_t)to->most);
    to->places = calloc((size_t)size, sizeof *to->places);
    return to->points && to->places;
}

/* The points on and back along each variable that keep the bounds, and how many these are. */
static int polls_about(const compass *c, __int128 polls[4][2])
{
    int count = 0;
    for (int direction = 0; direction < 4; direction++) {
        int j = direction / 2;
        __int128 moved = direction % 2 ? c->x[j] - c->delta : c->x[j] + c->delta;
        if (moved < c->lower[j] || moved > c->upper[j])
            continue;
        polls[count][j] = moved;
        polls[count++][1 - j] = c->x[1 - j];
    }
    return count;
}

/* Goes through a search, and returns why it ended; none where a point has no value. */
static const char *searched(compass *c, rows *to)
{
    if (!add_poll(to, c->x, c->unit))
        return NULL;
    int at = 0;
    for (int iterations = 0;; iterations++) {
        __int128 polls[4][2];
        if (c->delta < c->threshold)
            return "threshold_delta";
        if (iterations == c->iterations)
            return "max_iterations";
        int count = polls_about(c, polls), best = at;
        if (to->total + count > c->evaluations)
            return "max_function_evaluations";
        for (int i = 0; i < count; i++) {
            if (!add_poll(to, polls[i], c->unit))
                return NULL;
            if (is_less(&to->all[to->total - 1].value, &to->all[best].value))
                best = to->total - 1;
        }
        if (best == at)
            c->delta /= 2;
        else
            memcpy(c->x, to->points[best], sizeof c->x);
        at = best;
    }
}

/* The unit of numbers: 28 below the greatest of their first digits. */
static int unit_of(const decimal *numbers, int count)
{
    int unit = 0;
    bool has_leading = false;
    for (int i = 0; i < count; i++)
        if (numbers[i].mantissa && (!has_leading || leading(&numbers[i]) > unit)) {
            unit = leading(&numbers[i]);
            has_leading = true;
        }
    return unit - 28;
}

/* Reads a search. */
static compass compass_of(char **pieces, int count)
{
    static const char *const keywords[] = {"initial_point", "lower_bounds", "upper_bounds", "initial_delta", "threshold_delta"};
    decimal numbers[8];
    for (int i = 0; i < 8; i++) {
        char **values = values_of(keywords[i < 6 ? i / 2 : i - 3], pieces, count);
        if (!values)
            exit(3);
        numbers[i] = read_number(values[i < 6 ? i % 2 : 0]);
    }
    char **iterations = values_of("max_iterations", pieces, count);
    char **evaluations = values_of("max_function_evaluations", pieces, count);
    if (!iterations || !evaluations)
        exit(3);
    compass c = {.unit = unit_of(numbers, 8), .iterations = atoi(*iterations), .evaluations = atoi(*evaluations)};
    for (int j = 0; j < 2; j++) {
        c.x[j] = in_units(&numbers[j], c.unit);
        c.lower[j] = in_units(&numbers[2 + j], c.unit);
        c.upper[j] = in_units(&numbers[4 + j], c.unit);
    }
    c.delta = in_units(&numbers[6], c.unit);
    c.threshold = in_units(&numbers[7], c.unit);
    return c;
}

/* The rows of a vector study or a grid, and how it ended; none where a point has no value. */
static const char *by_points(char **pieces, int count, rows *to)
{
    char **parts = values_of("partitions", pieces, count), **steps = values_of("num_steps", pieces, count);
    char **end = values_of(parts ? "upper_bounds" : "step_vector", pieces, count);
    char **from = values_of(parts ? "lower_bounds" : "initial_point", pieces, count);
    if (!end || !from || !(parts || steps))
        exit(3);
    decimal numbers[4] = {read_number(end[0]), read_number(end[1]), read_number(from[0]), read_number(from[1])};
    int unit = unit_of(numbers, 4);
    __int128 units[4];
    for (int i = 0; i < 4; i++)
        units[i] = in_units(&numbers[i], unit);

    int parts1 = parts ? atoi(parts[0]) : 0, parts2 = parts ? atoi(parts[1]) : 0;
    to->most = parts ? (parts1 + 1) * (parts2 + 1) : atoi(*steps) + 1;
    to->all = malloc(sizeof(row) * (size_t)to->most);
    if (!to->all)
        exit(10);
    while (to->total < to->most) {
        int at = to->total;
        __int128 x1 = parts ? between(units[2], units[0], at % (parts1 + 1), parts1) : units[2] + at * units[0];
        __int128 x2 = parts ? between(units[3], units[1], at / (parts1 + 1), parts2) : units[3] + at * units[1];
        if (!add_row(to, x1, x2, unit))
            return NULL;
    }
    return "complete";
}

/* The rows of a search, and how it ended; none where a point has no value. */
static const char *by_search(char **pieces, int count, rows *to)
{
    compass c = compass_of(pieces, count);
    to->most = c.evaluations;
    to->all = malloc(sizeof(row) * (size_t)to->most);
    if (!to->all || !make_room(to))
        exit(10);
    return searched(&c, to);
}

int main(int count, char **words)
{
    static char text[1 << 20];
    char *pieces[64];
    int piece_count = 0;
    powers[0] = 1;
    for (int i = 1; i <= MOST_DIGITS; i++)
        powers[i] = powers[i - 1] * 10;
    FILE *file = count == 2 ? fopen(words[1], "rb") : NULL;
    if (!file)
        return 4;
    text[fread(text, 1, sizeof text - 1, file)] = 0;
    fclose(file);
    for (char *it = strtok(text, " \t\r\n"); it && piece_count < 64; it = strtok(NULL, " \t\r\n"))
        pieces[piece_count++] = it;
    char **recover = values_of("recover", pieces, piece_count);
    decimal recovered = recover ? read_number(*recover) : (decimal){0, 0, false};
    rows found = {.recover = recover ? &recovered : NULL};
    bool is_search = values_of("initial_delta", pieces, piece_count);
    const char *ending = is_search ? by_search(pieces, piece_count, &found) : by_points(pieces, piece_count, &found);
    row *all = found.all;
    int total = found.total, best = found.best;

    file = fopen("t.dat", "wb");
    if (!file)
        return 9;
    fputs("%eval_id interface x1 x2 obj_fn\n", file);
    for (int i = 0; i < total; i++) {
        char line[LINE], *at = put_text(" NO_ID ", put_digits((u128)(i + 1), line));
        at = put_text(" ", put_decimal(&all[i].x1, at));
        at = put_text(" ", put_decimal(&all[i].x2, at));
        at = put_text("\n", put_decimal(&all[i].value, at));
        fwrite(line, 1, (size_t)(at - line), file);
    }
    if (fclose(file))
        return 9;

    if (ending)
        printf("<<<<< Study finished: %s\n", ending);
    else
        printf("<<<<< Study aborted: evaluation %d failed, attempts 1\n", total + 1);
    /* Else the points stand on a line, or in a grid of many units, so one is met again only where there is no step. */
    int same = found.same;
    if (!is_search && total > 1 && is_same(&all[0].x1, &all[1].x1) && is_same(&all[0].x2, &all[1].x2))
        same = total - 1;
    printf("<<<<< Function evaluation summary: %d total (%d new, %d duplicate)\n", total, total - same, same);
    if (total) {
        char x1[LINE], x2[LINE], value[LINE];
        *put_decimal(&all[best].x1, x1) = *put_decimal(&all[best].x2, x2) = *put_decimal(&all[best].value, value) = 0;
        printf("<<<<< Best evaluation: %d\n<<<<< Best parameters: x1 = %s, x2 = %s\n", best + 1, x1, x2);
        printf("<<<<< Best objective function: obj_fn = %s\n", value);
    }
    free(all);
    free(found.points);
    free(found.places);
    return ending ? 0 : 1;
}
