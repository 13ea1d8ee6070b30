// The machine's limit for TPC-H's Q6: answers
//     SELECT SUM(extendedprice * discount) FROM t
//     WHERE shipdate >= DATE '1994-01-01' AND shipdate < DATE '1995-01-01' AND discount BETWEEN 0.05 AND 0.07 AND quantity < 24
// over a plane file as fast as plain loops over words do, with one thread and without a bound on the way. Each plane of the four columns is
// read once. Prints the line of the last block of a report, and to standard error the seconds that it took, and those of them without the
// reading. It trusts the file, whose columns shipdate (date), discount and extendedprice (dec2) and quantity (int) are not nullable and
// have no number below 0; others are passed over.
// usage: limit6 FILE
#include <fcntl.h>
#include <stdint.h>
#include <stdio.h>
#include <stdlib.h>
#include <string.h>
#include <time.h>
#include <unistd.h>

struct column {
    int width;
    int64_t base;
    uint64_t at;      // of its highest plane
    uint64_t *planes; // room for them, one after the other, the highest first
};

static int file;
static uint64_t rows, words;
static uint64_t *mask; // the rows that pass
static double reading; // seconds

static void fail(const char *why) {
    fprintf(stderr, "limit6: %s\n", why);
    exit(1);
}

static double seconds(void) {
    struct timespec now;
    clock_gettime(CLOCK_MONOTONIC, &now);
    return now.tv_sec + now.tv_nsec / 1e9;
}

static void read_at(void *to, uint64_t size, uint64_t at) {
    double start = seconds();
    for (uint64_t got = 0; got < size;) {
        ssize_t count = pread(file, (char *)to + got, size - got, at + got);
        if (count <= 0) fail("the file cannot be read");
        got += count;
    }
    reading += seconds() - start;
}

static void *room(uint64_t size) {
    void *found = calloc(size ? size : 1, 1);
    if (!found) fail("no memory");
    return found;
}

static uint64_t number(const uint8_t *bytes, int size) {
    uint64_t value = 0;
    memcpy(&value, bytes, size);
    return value;
}

// Finds the columns of these names: each head is 24 bytes, its name and its texts.
static void read_heads(int wanted, const char *const names[], struct column found[]) {
    uint8_t header[32];
    read_at(header, 32, 0);
    if (memcmp(header, "DAQPLANE", 8)) fail("not a plane file");
    rows = number(header + 16, 8);
    words = (rows + 63) / 64;
    uint64_t size = number(header + 24, 8), at = 32 + size;
    uint8_t *heads = room(size), *head = heads;
    read_at(heads, size, 32);
    for (uint64_t c = 0; c < number(header + 12, 4); c++) {
        int nullable = head[0] >> 7, width = head[2], length = head[3], place = 0;
        uint64_t texts = number(head + 20, 4);
        while (place < wanted && (strlen(names[place]) != (size_t)length || memcmp(names[place], head + 24, length))) place++;
        if (place < wanted && nullable) fail("a column is nullable");
        if (place < wanted) found[place] = (struct column){width, number(head + 4, 8), at, room(8 * words * width)};
        at += 8 * words * (width + nullable);
        head += 24 + length;
        for (; texts > 0; texts--) head += 1 + head[0];
    }
    free(heads);
}

// The digits of the least number of a column that is not below a value: 0 where all are, and one more than they can be where none is.
static uint64_t digits_of(struct column column, int64_t value) {
    if (value <= column.base) return 0;
    uint64_t digits = value - column.base;
    return digits >> column.width ? 1ull << column.width : digits;
}

// Of 64 rows those whose digits are below these.
static inline uint64_t below(struct column column, uint64_t digits, uint64_t word) {
    uint64_t less = 0, level = ~0ull;
    if (digits >> column.width) return ~0ull;
    for (int place = 0; place < column.width; place++) {
        uint64_t plane = column.planes[place * words + word];
        uint64_t wanted = -(digits >> (column.width - 1 - place) & 1);
        less |= level & wanted & ~plane;
        level &= ~(plane ^ wanted);
    }
    return less;
}

// Reads a column, and keeps the rows whose number is not below the one value, and below the other.
static void keep_between(struct column column, int64_t from, int64_t until) {
    uint64_t first = digits_of(column, from), end = digits_of(column, until);
    read_at(column.planes, 8 * words * column.width, column.at);
    for (uint64_t w = 0; w < words; w++) mask[w] &= below(column, end, w) & ~below(column, first, w);
}

// How many rows both have.
static uint64_t count(const uint64_t *one, const uint64_t *other) {
    uint64_t sum = 0;
    for (uint64_t w = 0; w < words; w++) sum += __builtin_popcountll(one[w] & other[w]);
    return sum;
}

// The sum over the mask's rows of the numbers of the one column times those of the other, which was read: a number is its base, and 2^i for
// each digit 1. Each plane of the one is read once, and counted under the mask and under each plane of the other within it.
static __int128 sum_of_products(struct column one, struct column other) {
    for (int digit = 0; digit < other.width; digit++)
        for (uint64_t w = 0; w < words; w++) other.planes[digit * words + w] &= mask[w];
    __int128 total = 0;
    for (int place = -1; place < one.width; place++) {
        uint64_t *plane = place < 0 ? mask : one.planes;
        __int128 weight = place < 0 ? one.base : (__int128)1 << (one.width - 1 - place);
        if (place >= 0) read_at(plane, 8 * words, one.at + 8 * words * place);
        if (other.base) total += weight * other.base * count(plane, mask);
        for (int digit = 0; digit < other.width; digit++)
            total += (weight << (other.width - 1 - digit)) * count(plane, other.planes + digit * words);
    }
    return total;
}

int main(int given, char **words_given) {
    enum { SHIP, DISCOUNT, QUANTITY, PRICE, WANTED };
    static const char *const names[] = {"shipdate", "discount", "quantity", "extendedprice"};
    struct column columns[WANTED] = {0};
    double start = seconds();
    if (given != 2 || (file = open(words_given[1], O_RDONLY)) < 0) fail("usage: limit6 FILE");
    read_heads(WANTED, names, columns);
    for (int i = 0; i < WANTED; i++)
        if (!columns[i].planes) fail("a column is missing");
    mask = room(8 * words);
    memset(mask, 255, 8 * words);
    if (rows % 64) mask[words - 1] = (1ull << rows % 64) - 1;
    keep_between(columns[SHIP], 8766, 9131); // the days of 1994
    keep_between(columns[DISCOUNT], 5, 8);
    keep_between(columns[QUANTITY], 0, 24);
    uint64_t total = sum_of_products(columns[PRICE], columns[DISCOUNT]);
    if (count(mask, mask) == 0)
        printf("1 null\n");
    else
        printf("1 %llu.%04llu\n", (unsigned long long)(total / 10000), (unsigned long long)(total % 10000));
    fflush(stdout);
    double spent = seconds() - start;
    fprintf(stderr, "%.4f %.4f\n", spent, spent - reading);
    return 0;
}
