// The machine's limit: answers `SELECT COUNT(*), SUM(b), MAX(d) FROM t WHERE a < 0` over a plane file as fast as plain loops over words do, with one
// thread and without a bound on the way. Each plane that has a part in the answer is read once. Prints the lines of the last block of a report, and the
// seconds that it took to standard error. It trusts the file, whose columns are a (int), b (dec2) and d (date), in any order, none of them nullable.
// usage: limit FILE
#include <fcntl.h>
#include <stdint.h>
#include <stdio.h>
#include <stdlib.h>
#include <string.h>
#include <time.h>
#include <unistd.h>

struct column {
    int width;
    int64_t base, top;
    uint64_t at; // of its highest plane
};

static int file;
static uint64_t rows, words;
static uint64_t *plane, *mask, *rest;

static void fail(const char *why) {
    fprintf(stderr, "limit: %s\n", why);
    exit(1);
}

static void read_at(void *to, uint64_t size, uint64_t at) {
    for (uint64_t got = 0; got < size;) {
        ssize_t count = pread(file, (char *)to + got, size - got, at + got);
        if (count <= 0) fail("the file cannot be read");
        got += count;
    }
}

static void *room(uint64_t size) {
    void *found = calloc(size ? size : 1, 1);
    if (!found) fail("no memory");
    return found;
}

static uint64_t number(const uint8_t *bytes, int size) {
    uint64_t value = 0;
    memcpy(&value, bytes, size);
    return value;
}

// Finds the columns by their names of one letter: each head is 24 bytes, its name and its texts.
static void read_heads(struct column found[256]) {
    uint8_t header[32];
    read_at(header, 32, 0);
    if (memcmp(header, "DAQPLANE", 8)) fail("not a plane file");
    rows = number(header + 16, 8);
    words = (rows + 63) / 64;
    uint64_t size = number(header + 24, 8), at = 32 + size;
    uint8_t *heads = room(size), *head = heads;
    read_at(heads, size, 32);
    for (uint64_t c = 0; c < number(header + 12, 4); c++) {
        if (head[0] & 128) fail("a column is nullable");
        int width = head[2], length = head[3];
        uint64_t texts = number(head + 20, 4);
        found[head[24]] = (struct column){width, number(head + 4, 8), number(head + 12, 8), at};
        at += 8 * words * width;
        head += 24 + length;
        for (; texts > 0; texts--) head += 1 + head[0];
    }
    free(heads);
}

static void read_plane(struct column column, int place) {
    read_at(plane, 8 * words, column.at + 8 * words * place);
}

// The rows below 0 into the mask: those whose digits are less than those of 0, from the highest on.
static void keep_negative(struct column column) {
    uint64_t zero = -(uint64_t)column.base;
    int all = column.top < 0, none = column.base >= 0;
    for (uint64_t w = 0; w < words; w++) mask[w] = all ? ~0ull : 0, rest[w] = ~0ull;
    if (rows % 64) mask[words - 1] &= (1ull << rows % 64) - 1, rest[words - 1] &= (1ull << rows % 64) - 1;
    if (all || none) return;
    for (int place = 0; place < column.width; place++) {
        read_plane(column, place);
        if (zero >> (column.width - 1 - place) & 1)
            for (uint64_t w = 0; w < words; w++) mask[w] |= rest[w] & ~plane[w], rest[w] &= plane[w];
        else
            for (uint64_t w = 0; w < words; w++) rest[w] &= ~plane[w];
    }
}

static uint64_t count(const uint64_t *of) {
    uint64_t sum = 0;
    for (uint64_t w = 0; w < words; w++) sum += __builtin_popcountll(of[w]);
    return sum;
}

// The sum of the numbers at the mask's rows.
static __int128 sum(struct column column, uint64_t kept) {
    __int128 total = (__int128)column.base * kept;
    for (int place = 0; place < column.width; place++) {
        uint64_t ones = 0;
        read_plane(column, place);
        for (uint64_t w = 0; w < words; w++) ones += __builtin_popcountll(plane[w] & mask[w]);
        total += (__int128)ones << (column.width - 1 - place);
    }
    return total;
}

// The greatest number at the mask's rows: at each plane those go on that have the digit 1, if there are any.
static int64_t greatest(struct column column) {
    uint64_t above = 0;
    memcpy(rest, mask, 8 * words);
    for (int place = 0; place < column.width; place++) {
        uint64_t some = 0;
        read_plane(column, place);
        for (uint64_t w = 0; w < words; w++) some |= rest[w] & plane[w];
        if (!some) continue;
        for (uint64_t w = 0; w < words; w++) rest[w] &= plane[w];
        above |= 1ull << (column.width - 1 - place);
    }
    return column.base + above;
}

static double seconds(void) {
    struct timespec now;
    clock_gettime(CLOCK_MONOTONIC, &now);
    return now.tv_sec + now.tv_nsec / 1e9;
}

int main(int given, char **words_given) {
    static struct column columns[256];
    double start = seconds();
    if (given != 2 || (file = open(words_given[1], O_RDONLY)) < 0) fail("usage: limit FILE");
    read_heads(columns);
    plane = room(8 * words), mask = room(8 * words), rest = room(8 * words);
    keep_negative(columns['a']);
    uint64_t kept = count(mask);
    printf("1 %llu\n", (unsigned long long)kept);
    if (kept == 0) {
        printf("2 null\n3 null\n");
    } else {
        __int128 total = sum(columns['b'], kept);
        uint64_t cents = total < 0 ? -total : total;
        time_t day = greatest(columns['d']) * 86400;
        char date[16];
        strftime(date, sizeof date, "%Y-%m-%d", gmtime(&day));
        printf("2 %s%llu.%02llu\n3 %s\n", total < 0 ? "-" : "", (unsigned long long)(cents / 100), (unsigned long long)(cents % 100), date);
    }
    fflush(stdout);
    fprintf(stderr, "%.4f\n", seconds() - start);
    return 0;
}
