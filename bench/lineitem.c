// Writes a table in the shape of TPC-H's lineitem as a CSV. The same words give the same bytes on every machine.
// usage: lineitem SCALE [SEED [COLUMN,..]]   the table at a scale, a decimal of at most six places: about 6,000,000 rows at 1; the seed is 1
//                                            where none is given
//        lineitem schema [COLUMN,..]         the schema by which `daq load` reads it
// Without a list all columns are written, with one these alone, in the list's order. What is written of a column does not depend on the
// others.
//
// Of TPC-H's rules for values it follows these:
// - There are 1,500,000 orders at scale 1, whose keys are the first eight of each 32 numbers; an order has 1 to 7 lines.
// - The part of a line is one of 200,000 at scale 1, its supplier one of that part's four among 10,000 at scale 1.
// - The quantity is 1 to 50, the price the quantity times the part's retail price, the discount 0.00 to 0.10 and the tax 0.00 to 0.08.
// - The order is of a day from 1992-01-01 to 1998-08-02. A line is shipped 1 to 121 days later, and received 1 to 30 days after that; its
//   receipt was promised for 30 to 90 days after the order.
// - What was received by 1995-06-17 has the flag R or A, all else N. What was shipped by then has the status F, all else O.
// - One of seven modes, and one of four instructions.
//
// And these it does not follow:
// - Draws come from a generator of its own, not from that of TPC-H's program. So the values differ from those of the official table, and so
//   does the number of rows, 6,001,215 there at scale 1.
// - The column of comments is left out: it has more different texts than a plane file takes.
// - Each scale is taken, not only TPC-H's; all three of orders, parts and suppliers are rounded down, to 1 at least.
// - Names have no `l_` before them and stand in a first line, fields are parted by commas, and texts are not padded to a width.
// - There are no other tables, so the keys lead nowhere.
#include <stdint.h>
#include <stdio.h>
#include <stdlib.h>
#include <string.h>

enum { FIRST_ORDER = 8035, LAST_ORDER = 10440, TODAY = 9298, LAST_DAY = LAST_ORDER + 121 + 30 }; // days from 1970-01-01

struct line {
    int64_t order, part, supplier, price;
    int number, quantity, discount, tax, ship, commit, receipt;
    const char *flag, *status, *instruction, *mode;
};

struct sizes {
    int64_t orders, parts, suppliers;
};

enum column {
    ORDER, PART, SUPPLIER, NUMBER, QUANTITY, PRICE, DISCOUNT, TAX, FLAG, STATUS, SHIP, COMMIT, RECEIPT, INSTRUCTION, MODE, COLUMNS
};

static const char *const names[COLUMNS][2] = {
    {"orderkey", "int"},     {"partkey", "int"},       {"suppkey", "int"},     {"linenumber", "int"},  {"quantity", "int"},
    {"extendedprice", "dec2"}, {"discount", "dec2"},   {"tax", "dec2"},        {"returnflag", "text"}, {"linestatus", "text"},
    {"shipdate", "date"},    {"commitdate", "date"},   {"receiptdate", "date"}, {"shipinstruct", "text"}, {"shipmode", "text"},
};

static void fail(const char *why) {
    fprintf(stderr, "lineitem: %s\n", why);
    exit(1);
}

// ---- draws

// The state of a generator: xorshift of 64 bits, which is never 0.
static uint64_t draws, other_draws;

static int64_t draw(uint64_t *state, int64_t least, int64_t most) {
    *state ^= *state << 13, *state ^= *state >> 7, *state ^= *state << 17;
    return least + (int64_t)(*state % (uint64_t)(most - least + 1));
}

static int64_t one_of(int64_t least, int64_t most) {
    return draw(&draws, least, most);
}

static uint64_t not_zero(uint64_t state) {
    return state ? state : 1;
}

static void seed_draws(uint64_t seed) {
    draws = not_zero(88172645463325252ull ^ seed * 2654435761ull);
    other_draws = not_zero(draws * 6364136223846793005ull + 1442695040888963407ull);
}

// ---- lines

// One of the four suppliers of a part, by TPC-H's formula.
static int64_t supplier_of(int64_t part, int64_t which, int64_t suppliers) {
    return (part + which * (suppliers / 4 + (part - 1) / suppliers)) % suppliers + 1;
}

// The price of one piece, in cents.
static int64_t retail_price(int64_t part) {
    return 90000 + part / 10 % 20001 + 100 * (part % 1000);
}

// The next line of an order of this day. Suppliers and instructions have draws of their own, so that others do not hang on them.
static struct line draw_line(int64_t order, int day, int number, struct sizes sizes) {
    static const char *const modes[] = {"AIR", "FOB", "MAIL", "RAIL", "REG AIR", "SHIP", "TRUCK"};
    static const char *const instructions[] = {"COLLECT COD", "DELIVER IN PERSON", "NONE", "TAKE BACK RETURN"};
    struct line line = {.order = order, .number = number};
    line.part = one_of(1, sizes.parts);
    line.quantity = one_of(1, 50);
    line.price = line.quantity * retail_price(line.part);
    line.discount = one_of(0, 10);
    line.tax = one_of(0, 8);
    line.ship = day + one_of(1, 121);
    line.commit = day + one_of(30, 90);
    line.receipt = line.ship + one_of(1, 30);
    line.flag = line.receipt > TODAY ? "N" : one_of(0, 1) ? "R" : "A";
    line.status = line.ship > TODAY ? "O" : "F";
    line.mode = modes[one_of(0, 6)];
    line.supplier = supplier_of(line.part, draw(&other_draws, 0, 3), sizes.suppliers);
    line.instruction = instructions[draw(&other_draws, 0, 3)];
    return line;
}

// ---- text

static void put(const char *text) {
    for (; *text; text++) putc_unlocked(*text, stdout);
}

static void put_number(int64_t number) {
    char digits[24], *first = digits + sizeof digits - 1;
    *first = 0;
    do *--first = '0' + number % 10;
    while (number /= 10);
    put(first);
}

// A number of hundredths.
static void put_hundredths(int64_t number) {
    put_number(number / 100);
    putc_unlocked('.', stdout), putc_unlocked('0' + number / 10 % 10, stdout), putc_unlocked('0' + number % 10, stdout);
}

static int days_of(int year, int month) {
    static const int days[] = {31, 28, 31, 30, 31, 30, 31, 31, 30, 31, 30, 31};
    return days[month - 1] + (month == 2 && year % 4 == 0); // of 1992 to 1998
}

static char dates[LAST_DAY - FIRST_ORDER + 1][40];

static void name_dates(void) {
    int year = 1992, month = 1, day = 1;
    for (int number = FIRST_ORDER; number <= LAST_DAY; number++) {
        snprintf(dates[number - FIRST_ORDER], sizeof dates[0], "%04d-%02d-%02d", year, month, day);
        if (++day > days_of(year, month)) day = 1, month++;
        if (month > 12) month = 1, year++;
    }
}

static void put_field(const struct line *line, enum column column) {
    switch (column) {
    case ORDER: put_number(line->order); break;
    case PART: put_number(line->part); break;
    case SUPPLIER: put_number(line->supplier); break;
    case NUMBER: put_number(line->number); break;
    case QUANTITY: put_number(line->quantity); break;
    case PRICE: put_hundredths(line->price); break;
    case DISCOUNT: put_hundredths(line->discount); break;
    case TAX: put_hundredths(line->tax); break;
    case FLAG: put(line->flag); break;
    case STATUS: put(line->status); break;
    case SHIP: put(dates[line->ship - FIRST_ORDER]); break;
    case COMMIT: put(dates[line->commit - FIRST_ORDER]); break;
    case RECEIPT: put(dates[line->receipt - FIRST_ORDER]); break;
    case INSTRUCTION: put(line->instruction); break;
    default: put(line->mode);
    }
}

// ---- words

// The columns of a list, or all; the answer is how many.
static int read_columns(char *list, enum column chosen[COLUMNS]) {
    int count = 0;
    if (!list) {
        for (; count < COLUMNS; count++) chosen[count] = count;
        return count;
    }
    for (char *name = strtok(list, ","); name; name = strtok(NULL, ",")) {
        int column = 0;
        while (column < COLUMNS && strcmp(names[column][0], name)) column++;
        if (column == COLUMNS) fail("no such column");
        for (int i = 0; i < count; i++)
            if (chosen[i] == (enum column)column) fail("a column twice");
        chosen[count++] = column;
    }
    if (count == 0) fail("no column");
    return count;
}

// How many millionths a decimal has: digits, and maybe a point and up to six more. No sum of draws passes 64 bits up to scale 1,000.
static int64_t millionths(const char *word) {
    int64_t whole = 0, part = 0, unit = 1000000;
    const char *at = word;
    for (; *at >= '0' && *at <= '9' && whole < 1000; at++) whole = whole * 10 + *at - '0';
    if (*at == '.')
        for (at++; *at >= '0' && *at <= '9' && unit > 1; at++) unit /= 10, part += (*at - '0') * unit;
    if (at == word || *at || whole > 1000) fail("the scale is no decimal of at most six places up to 1000");
    return whole * 1000000 + part;
}

static int64_t at_least_one(int64_t count) {
    return count < 1 ? 1 : count;
}

static struct sizes sizes_at(int64_t scale) {
    return (struct sizes){at_least_one(scale * 3 / 2), at_least_one(scale / 5), at_least_one(scale / 100)};
}

static void write_names(const enum column *chosen, int count, int with_kinds) {
    for (int i = 0; i < count; i++) {
        if (i) putchar(',');
        put(names[chosen[i]][0]);
        if (with_kinds) putchar(':'), put(names[chosen[i]][1]);
    }
    putchar('\n');
}

static void write_lines(const enum column *chosen, int count, struct sizes sizes) {
    for (int64_t order = 0; order < sizes.orders; order++) {
        int day = one_of(FIRST_ORDER, LAST_ORDER), lines = one_of(1, 7);
        for (int number = 1; number <= lines; number++) {
            struct line line = draw_line(order / 8 * 32 + order % 8 + 1, day, number, sizes);
            for (int i = 0; i < count; i++) {
                if (i) putc_unlocked(',', stdout);
                put_field(&line, chosen[i]);
            }
            putc_unlocked('\n', stdout);
        }
    }
}

int main(int given, char **words) {
    enum column chosen[COLUMNS];
    if (given >= 2 && given <= 3 && !strcmp(words[1], "schema")) {
        write_names(chosen, read_columns(given > 2 ? words[2] : NULL, chosen), 1);
        return 0;
    }
    if (given < 2 || given > 4) fail("usage: lineitem SCALE [SEED [COLUMN,..]]");
    struct sizes sizes = sizes_at(millionths(words[1]));
    int count = read_columns(given > 3 ? words[3] : NULL, chosen);
    seed_draws(given > 2 ? strtoull(words[2], NULL, 10) : 1);
    name_dates();
    write_names(chosen, count, 0);
    write_lines(chosen, count, sizes);
    if (fflush(stdout) || ferror(stdout)) fail("the table cannot be written");
    return 0;
}
