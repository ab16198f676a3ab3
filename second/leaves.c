/*
 * leaves.c - the second program's own leaves, one question at a time.
 *
 * Reads questions on standard input, each a letter, a size octet and so many octets, and prints a line
 * for each: K the kind of an element and tag, D whether octets are the default of an element and tag, U whether
 * octets are text, T a time or the field of it that is wrong, O a time's local time, B a bearer.  The functions
 * that answer are those of second.c.
 */
#define main second_main
#include "second.c"
#undef main

static const char *const body_names[] = {"unknown", "items", "tokens", "plain", "text", "time", "bearer",
                                          "number 1", "number 2", "number 3", "number 2"};

static void put_hex(const uint8_t *octets, size_t size)
{
    for (size_t i = 0; i < size; i++)
        put_octet(octets[i], "0123456789abcdef");
}

static void put_field(uint64_t number)
{
    put_char(' ');
    put_number(number);
}

/* Only an attribute's kind depends on what it stands in, and that has to be an element, as it always is in second.c. */
static void answer_kind(const uint8_t *octets, size_t size)
{
    bool may_stand = size == 2 && (octets[0] < ELEMENT_TAGS || !is_attribute(octets[1]));

    put_string("kind ");
    put_string(may_stand ? body_names[body_of_item(octets[0], octets[1])] : "unknown");
}

/* Behind an element and a tag stands the value. */
static void answer_default(const uint8_t *octets, size_t size)
{
    bool may_stand = size >= 2 && octets[0] < ELEMENT_TAGS;

    put_string(may_stand && is_default(octets[0], octets[1], octets + 2, size - 2) ? "default yes" : "default no");
}

/* The first octet says whether token octets may stand in the text. */
static void answer_text(const uint8_t *octets, size_t size)
{
    struct text_facts facts;
    bool good = size > 0 && scan_text(octets + 1, size - 1, &no_tokens, &facts) && (octets[0] != 0 || facts.tokens == 0);

    put_string(good ? "text yes" : "text no");
}

static void answer_time(const uint8_t *octets, size_t size)
{
    struct time_value time;
    uint8_t normal[8];
    uint8_t wrong = read_time(octets, size, &time);

    if (wrong != NO_FIELD) {
        put_string("time bad");
        put_field(wrong);
        return;
    }
    put_string("time");
    put_field(time.date);
    put_field(time.hours);
    put_field(time.minutes);
    put_field(time.seconds);
    put_string((time.offset & MINUS) != 0 ? " minus" : " plus");
    put_field(time.offset & HALF_HOURS);
    put_string(" normal ");
    put_hex(normal, (size_t)(write_time(normal, &time) - normal));
}

static void answer_local(const uint8_t *octets, size_t size)
{
    struct time_value time;

    if (read_time(octets, size, &time) != NO_FIELD) {
        put_string("local none");
        return;
    }
    struct local_time local = local_time(&time);
    put_string(local.day < 0 ? "local -1" : "local");
    if (local.day >= 0)
        put_field((uint64_t)local.day);
    put_field(local.hours);
    put_field(local.minutes);
    put_field(time.seconds);
}

static void answer_bearer(const uint8_t *octets, size_t size)
{
    if (!bearer_fits(octets, size)) {
        put_string("bearer none");
        return;
    }
    size_t at = 1;
    put_string("bearer");
    if ((octets[0] & ENSEMBLE_FLAG) != 0) {
        put_char(' ');
        put_hex(octets + 1, 1);
        put_char(' ');
        put_hex(octets + 2, 2);
        at += 3;
    }
    put_string(" sid ");
    put_hex(octets + at, size - at);
    put_string(" scids");
    put_field(octets[0] & 0x0F);
    put_string(" normal ");
    uint8_t first = octets[0] & BEARER_MEANING;
    put_hex(&first, 1);
    put_hex(octets + 1, size - 1);
}

int main(void)
{
    uint8_t head[2], octets[256];

    while (take_octets(head, 2) && take_octets(octets, head[1])) {
        switch (head[0]) {
        case 'K': answer_kind(octets, head[1]); break;
        case 'D': answer_default(octets, head[1]); break;
        case 'U': answer_text(octets, head[1]); break;
        case 'T': answer_time(octets, head[1]); break;
        case 'O': answer_local(octets, head[1]); break;
        case 'B': answer_bearer(octets, head[1]); break;
        default: put_string("unknown question");
        }
        put_char('\n');
    }
    flush_output();
    return 0;
}
