/* An order in words, and its query. */
#include "order.h"

#include <stdio.h>
#include <string.h>

#include "frame.h"
#include "hex.h"
#include "shown.h"

#define BLANKS " \t"

enum { DECIMAL = 10, HEXADECIMAL = 16, LAST_WORD = 0xFFFF };

struct word {
    const char *at;
    size_t n;
};

/* How each order is written, and one that is good. */
struct form {
    const char *verb, *rest, *example;
};

static const struct form FORMS[] = {
    [CEDARSKEIN_READ] = { "read", "ADDRESS COUNT", "read 0103 2" },
    [CEDARSKEIN_RECORD] = { "record", "ADDRESS WORDS", "record 0400 22" },
    [CEDARSKEIN_WRITE] = { "write", "ADDRESS VALUE", "write 0101 0004" },
    [CEDARSKEIN_WRITES] = { "writes", "ADDRESS VALUE ..", "writes 0103 0000 03E8" },
    [CEDARSKEIN_CLEAR] = { "clear", "ADDRESS", "clear 0300" },
};

enum { FORMS_N = sizeof FORMS / sizeof *FORMS };

static struct word next_word(const char **text)
{
    *text += strspn(*text, BLANKS);
    struct word word = { *text, strcspn(*text, BLANKS) };
    *text += word.n;
    return word;
}

int take_number(const char *text, size_t n, int base, uint32_t *number)
{
    uint64_t sum = 0;
    size_t prefix = base == HEXADECIMAL && n > 2 && text[0] == '0' && (text[1] == 'x' || text[1] == 'X') ? 2 : 0;
    for (size_t k = prefix; k < n; k++) {
        int digit = hex_digit(text[k]);
        if (digit < 0 || base <= digit)
            return -1;
        sum = sum * (unsigned)base + (unsigned)digit;
        if (sum > UINT32_MAX)
            sum = UINT32_MAX;
    }
    *number = (uint32_t)sum;
    return n > 0 ? 0 : -1;
}

static int refuse_verb(struct word word)
{
    fprintf(stderr, "ORDER: ");
    if (word.n > 0)
        show_text(stderr, word.at, word.n);
    fprintf(stderr, word.n > 0 ? " is no order. It is one of" : "there is none. It is one of");
    for (int kind = 0; kind < FORMS_N; kind++)
        fprintf(stderr, "%s%s %s", kind == 0 ? ": " : ", ", FORMS[kind].verb, FORMS[kind].rest);
    fprintf(stderr, "; as ORDER=\"%s\"\n", FORMS[CEDARSKEIN_READ].example);
    return -1;
}

/* The end of every message about an order whose verb is good. */
static int refuse_form(const struct order *order)
{
    const struct form *form = &FORMS[order->kind];
    fprintf(stderr, "; the form is %s %s, as ORDER=\"%s\"\n", form->verb, form->rest, form->example);
    return -1;
}

/* A word that is there and no number, or that is not there. */
static int refuse_word(const struct order *order, struct word word, const char *what)
{
    fprintf(stderr, "ORDER: ");
    if (word.n > 0)
        show_text(stderr, word.at, word.n);
    fprintf(stderr, word.n > 0 ? " is no %s" : "there is no %s", what);
    return refuse_form(order);
}

static int take_verb(struct order *order, struct word word)
{
    for (int kind = 0; kind < FORMS_N; kind++)
        if (word.n == strlen(FORMS[kind].verb) && memcmp(word.at, FORMS[kind].verb, word.n) == 0) {
            order->kind = (uint32_t)kind;
            return 0;
        }
    return refuse_verb(word);
}

static const char *name_of_number(const struct order *order)
{
    switch (order->kind) {
    case CEDARSKEIN_READ: return "count (decimal, 1 to 47)";
    case CEDARSKEIN_RECORD: return "number of words (decimal, 1 to 47)";
    default: return "value (hexadecimal, 0000 to FFFF)";
    }
}

/* The values of one write of several. What does not fit the room is counted by the one value more that is kept. */
static int take_values(struct order *order, const char **text)
{
    size_t n = 0;
    do {
        uint32_t value;
        struct word word = next_word(text);
        if (take_number(word.at, word.n, HEXADECIMAL, &value) != 0 || value > LAST_WORD)
            return refuse_word(order, word, name_of_number(order));
        if (n <= MOST_WRITTEN)
            store_word(order->values, n++, value);
        *text += strspn(*text, BLANKS);
    } while (**text != '\0');
    order->values_n = 2 * n;
    return 0;
}

/* What stands behind the address. */
static int take_rest(struct order *order, const char **text)
{
    if (order->kind == CEDARSKEIN_CLEAR)
        return 0;
    if (order->kind == CEDARSKEIN_WRITES)
        return take_values(order, text);
    struct word word = next_word(text);
    if (take_number(word.at, word.n, order->kind == CEDARSKEIN_WRITE ? HEXADECIMAL : DECIMAL, &order->number) == 0)
        return 0;
    return refuse_word(order, word, name_of_number(order));
}

int take_order(struct order *order, const char *text)
{
    if (take_verb(order, next_word(&text)) != 0)
        return -1;
    struct word address = next_word(&text);
    if (take_number(address.at, address.n, HEXADECIMAL, &order->address) != 0)
        return refuse_word(order, address, "address (hexadecimal, 0000 to FFFF)");
    if (take_rest(order, &text) != 0)
        return -1;
    struct word more = next_word(&text);
    if (more.n == 0)
        return 0;
    fprintf(stderr, "ORDER: ");
    show_text(stderr, more.at, more.n);
    fprintf(stderr, " is a word too many");
    return refuse_form(order);
}

uint32_t addresses_behind(const struct order *order)
{
    switch (order->kind) {
    case CEDARSKEIN_READ: return order->number - 1;
    case CEDARSKEIN_WRITES: return (uint32_t)order->values_n / 2 - 1;
    default: return 0;
    }
}

static int is_read(const struct order *order)
{
    return order->kind == CEDARSKEIN_READ || order->kind == CEDARSKEIN_RECORD;
}

/* The library refuses without a word for each limit. These are the limits, the first that is missed. */
static void tell_no_frame(const struct order *order)
{
    if (order->station < FIRST_STATION || LAST_STATION < order->station) {
        fprintf(stderr, "STATION takes %d to %d, and not %lu; as STATION=1\n", FIRST_STATION, LAST_STATION, (unsigned long)order->station);
        return;
    }
    fprintf(stderr, "ORDER: ");
    if (is_read(order) && (order->number < 1 || MOST_READ < order->number))
        fprintf(stderr, order->kind == CEDARSKEIN_READ ? "a read is of 1 to %d registers" : "a record has 1 to %d words", MOST_READ);
    else if (order->kind == CEDARSKEIN_WRITE && order->number > LAST_WORD)
        fprintf(stderr, "a value is 0000 to %04X", LAST_WORD);
    else if (order->kind == CEDARSKEIN_WRITES && order->values_n > 2 * MOST_WRITTEN)
        fprintf(stderr, "a write is of 1 to %d values", MOST_WRITTEN);
    else if (order->address > LAST_WORD)
        fprintf(stderr, "an address is 0000 to %04X", LAST_WORD);
    else
        fprintf(stderr, "there is no address above %04X, and the order is for %lu more behind %04lX", LAST_WORD, (unsigned long)addresses_behind(order),
                (unsigned long)order->address);
    refuse_form(order);
}

uint32_t build_query(const struct order *order, uint8_t query[CEDARSKEIN_LEAST_OUT])
{
    uint32_t length;
    if (cedarskein_query(order->kind, order->station, order->address, order->number, order->values, order->values_n, query, CEDARSKEIN_LEAST_OUT,
                         &length) != CEDARSKEIN_DONE)
        tell_no_frame(order);
    return length;
}
