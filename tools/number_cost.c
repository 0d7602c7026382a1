/* Makes one call, whose instructions tools/number_cost.sh counts:
 *   number_cost number N    the number of `12x` and N digits behind it
 *   number_cost behind N    the header with the geometry `12a`, N digits, `x5`
 *   number_cost before N    the header with the geometry `00`, N zeros more, `ax5`
 * Exit status 0: the number's place is 2, the header has no size. */
#include "prophesee_raw.h"

#include <stdio.h>
#include <stdlib.h>
#include <string.h>

static uint8_t *text;
static size_t len;

static void add(const char *more)
{
    memcpy(text + len, more, strlen(more));
    len += strlen(more);
}

static void add_digits(char digit, size_t n)
{
    memset(text + len, digit, n);
    len += n;
}

static int number(size_t n)
{
    add("12x");
    add_digits('7', n);
    prophesee_number a = prophesee_read_number(text, len);
    return a.valid || a.place != 2;
}

static int header(size_t n, int behind)
{
    add("% evt 3\n% geometry ");
    add(behind ? "12a" : "00");
    add_digits(behind ? '7' : '0', n);
    add(behind ? "x5\n" : "ax5\n");
    prophesee_header h = prophesee_parse_header(text, len, 0, 0, 0);
    return h.refusal || h.sized || h.data_offset != len;
}

int main(int argc, char **argv)
{
    if (argc != 3)
        return 2;
    size_t n = strtoull(argv[2], NULL, 10);
    text = malloc(n + 64);
    if (!text)
        return 2;
    return strcmp(argv[1], "number") == 0 ? number(n) : header(n, strcmp(argv[1], "behind") == 0);
}
