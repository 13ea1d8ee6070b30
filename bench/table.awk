# Prints the table that `daq demo` makes from a seed, as a CSV: awk -v seed=1 -v rows=1048576 -f bench/table.awk
# A draw multiplies numbers of 31 binary digits; it goes by two parts of the factor, so that no product passes 2^53.
function draw() {
    state = (state * 16838 % 32768 * 65536 + state * 20077 + 12345) % 2147483648
    return int(state / 65536)
}

# The days from 2000-01-01 on, of which the generator draws one.
function name_days(    year, month, day, count) {
    for (year = 2000; year < 2010; year++)
        for (month = 1; month <= 12; month++) {
            count = month == 2 ? (year % 4 ? 28 : 29) : (month == 4 || month == 6 || month == 9 || month == 11) ? 30 : 31
            for (day = 1; day <= count; day++) days[named++] = sprintf("%04d-%02d-%02d", year, month, day)
        }
}

BEGIN {
    name_days()
    state = seed % 2147483648
    print "a,b,d,g"
    for (row = 0; row < rows; row++) {
        a = draw() * 32768
        a += draw() - 536870912
        b = draw() % 10001
        day = draw() % 3653
        printf "%d,%d.%02d,%s,g%02d\n", a, int(b / 100), b % 100, days[day], draw() % 16
    }
}
