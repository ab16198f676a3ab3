/*
 * second.c - the second program of Drangosk.
 *
 * Reads a stream of cases on standard input and prints one answer for each: the listing of a
 * binary SPI object (L), its normal form (N), the octets that records stand for (W), whether two
 * objects mean the same (S), the XML of an object (X), what a run of edits makes of an object (E),
 * whether the small receiver's gate lets an object pass (G), how many records and items it has (C, and J where
 * no list is lent), what two objects, Basic and Advanced, are merged into (M), whether a packed object may go in
 * the place of a normal form (F), and what a plain packer makes of one (P).  With the word `replay` or
 * `replay-no-list` it reads a recording instead, and prints a line for each object of it.
 * Written from documents 01 (the rules) and 02 (the requests that amend them), from 002, TS 102 371 V3.2.1
 * (the layouts, and annex A for the gate), and for the XML and the defaults from document 003, TS 102 818,
 * alone, so that it can be held against the proved program.
 *
 * Merging holds each child of an element to each of its partner's.
 * All memory is fixed; nothing is allocated.  Each octet of an object is looked at once while it is
 * judged and once more while its normal form is written or its meaning compared; twice more for its XML.
 * An edit makes the whole edited tree anew, and takes it in the place of the old one only where it fits; the
 * packer makes the packed tree likewise.
 */
#include <stdbool.h>
#include <stdint.h>
#include <stdio.h>
#include <string.h>

enum {
    OBJECT_LIMIT = 32768,   /* octets of an object, read or written (01, refusals 1 and 15) */
    FIELD_LIMIT = 65536,    /* largest object, store or room that a case may name */
    LIST_LIMIT = 65535,     /* records that a 16-bit count can name */
    RECORD_OCTETS = 9,      /* one record in a W case */
    EDITS_LIMIT = 255,      /* edits in an E case */
    DEPTH_LIMIT = 16,       /* deepest element; the top has depth 1 */
    FIRST_ATTRIBUTE = 0x80,
    ATTRIBUTE_TAGS = 8,     /* annex E goes no further than 0x87 */
    ELEMENT_TAGS = 0x80,
    TOKEN_TAGS = 0x20
};

/* Refusal numbers of document 01; 0 stands for no refusal. */
enum {
    ACCEPTED = 0,
    BAD_SIZE = 1,
    FIELD_PAST_END = 2,
    BODY_PAST_END = 3,
    TAG_NOT_ALLOWED = 4,
    OCTETS_AFTER_TOP = 5,
    OUT_OF_ORDER = 6,
    TOO_DEEP = 7,
    ATTRIBUTE_TWICE = 8,
    BAD_VALUE = 9,
    BAD_TEXT = 10,
    BAD_TOKEN_TABLE = 11,
    TOKEN_WITHOUT_ENTRY = 12,
    SHOWN_TEXT_TOO_LONG = 13,
    TOO_FEW_PLACES = 14,
    OUTPUT_TOO_LARGE = 15,
    NOT_WELL_FORMED = 16,
    PLAIN_OCTETS = 17,  /* of document 02, request 2026-02 */
    NO_SUCH_RECORD = 18, /* and 2026-06; a place, a wrong kind of record and the top to be removed too */
    OUTSIDE_PROFILE = 19, /* and 2026-07 */
    CONTRADICTION = 20, /* and 2026-10, as the next */
    KEY_TWICE = 21,
    NOT_FOLDED = 22, /* and 2026-11: the check says no, or the packer is given no normal form */
    NO_RECORDING = 23, /* and 2026-12: wrong mark or version */
    CUT_RECORDING = 24 /* within its first five octets, a size or an object */
};

/* Which field of a time is wrong, where 9 refuses it (document 02, request 2026-04); 0 for other kinds. */
enum { NO_FIELD = 0, LENGTH_FIELD = 1, DATE_FIELD = 2, HOURS_FIELD = 3, MINUTES_FIELD = 4, SECONDS_FIELD = 5 };

/* No larger than a register, since every known item is answered by one. */
struct verdict {
    uint8_t number;
    uint8_t field;
    uint32_t place;
};

static const struct verdict accepted = {ACCEPTED, NO_FIELD, 0};

static struct verdict refused(int number, uint32_t place)
{
    return (struct verdict){(uint8_t)number, NO_FIELD, place};
}

/* The two counts of a text, each of a type of its own, so that neither passes for the other (02,
 * 2026-01): the octets that it takes, by which lengths, store and room go, and the characters that it
 * shows, by which refusal 13 goes alone.  No text of an object takes more than 255 times 32,768 octets.
 * Sizes that can only be of octets are plain numbers. */
struct octet_count {
    uint32_t octets;
};

struct character_count {
    uint32_t characters;
};

/* ---- Tags (002, annexes D and E) --------------------------------------------------------------- */

enum {
    CDATA = 0x01,
    EPG = 0x02,
    SERVICE_INFORMATION = 0x03,
    TOKEN_TABLE = 0x04,
    DEFAULT_LANGUAGE = 0x06,
    SHORT_NAME = 0x10,
    MEDIUM_NAME = 0x11,
    LONG_NAME = 0x12,
    MEDIA_DESCRIPTION = 0x13,
    GENRE = 0x14,
    KEYWORDS = 0x16,
    MEMBER_OF = 0x17,
    LINK = 0x18,
    LOCATION = 0x19,
    SHORT_DESCRIPTION = 0x1A,
    LONG_DESCRIPTION = 0x1B,
    PROGRAMME = 0x1C,
    PROGRAMME_GROUPS = 0x20,
    SCHEDULE = 0x21,
    PROGRAMME_GROUP = 0x23,
    SCOPE = 0x24,
    SERVICE_SCOPE = 0x25,
    ENSEMBLE = 0x26,
    SERVICE = 0x28,
    SERVICE_BEARER = 0x29,
    MULTIMEDIA = 0x2B,
    TIME_ELEMENT = 0x2C,
    LOCATION_BEARER = 0x2D,
    PROGRAMME_EVENT = 0x2E,
    RELATIVE_TIME = 0x2F,
    RADIODNS = 0x31,
    GEOLOCATION = 0x32,
    COUNTRY = 0x33,
    POINT = 0x34,
    POLYGON = 0x35,
    ON_DEMAND = 0x36,
    PRESENTATION_TIME = 0x37,
    ACQUISITION_TIME = 0x38
};

/* What the body of an item is.  UNKNOWN is 0, so that tags left out of the tables are unknown. */
enum {
    UNKNOWN = 0,
    ITEMS,      /* attributes, elements and CDATA */
    ENTRIES,    /* the token table's own layout (clause 4.9.1) */
    PLAIN,      /* any octets: genre href, ensemble id and the georss:doubleList elements */
    TEXT,       /* strings, CRID, MIME type, language (clauses 4.4.0, 4.7.1, 4.7.3, 4.8.1) */
    TIME,       /* clause 4.7.4 */
    BEARER,     /* clause 4.7.6.1 */
    ENUMERATED, /* one octet (clause 4.6) */
    NUMBER,     /* two octets (clauses 4.8.2 to 4.8.5) */
    SHORT_ID,   /* three octets (clause 4.7.2) */
    DURATION    /* two octets, seconds (clause 4.7.5) */
};

/* Annex D: every element that is in use, with what its body is. */
static const uint8_t element_body[ELEMENT_TAGS] = {
    [EPG] = ITEMS,
    [SERVICE_INFORMATION] = ITEMS,
    [TOKEN_TABLE] = ENTRIES,
    [DEFAULT_LANGUAGE] = TEXT,
    [SHORT_NAME] = ITEMS,
    [MEDIUM_NAME] = ITEMS,
    [LONG_NAME] = ITEMS,
    [MEDIA_DESCRIPTION] = ITEMS,
    [GENRE] = ITEMS,
    [KEYWORDS] = ITEMS,
    [MEMBER_OF] = ITEMS,
    [LINK] = ITEMS,
    [LOCATION] = ITEMS,
    [SHORT_DESCRIPTION] = ITEMS,
    [LONG_DESCRIPTION] = ITEMS,
    [PROGRAMME] = ITEMS,
    [PROGRAMME_GROUPS] = ITEMS,
    [SCHEDULE] = ITEMS,
    [PROGRAMME_GROUP] = ITEMS,
    [SCOPE] = ITEMS,
    [SERVICE_SCOPE] = ITEMS,
    [ENSEMBLE] = ITEMS,
    [SERVICE] = ITEMS,
    [SERVICE_BEARER] = ITEMS,
    [MULTIMEDIA] = ITEMS,
    [TIME_ELEMENT] = ITEMS,
    [LOCATION_BEARER] = ITEMS,
    [PROGRAMME_EVENT] = ITEMS,
    [RELATIVE_TIME] = ITEMS,
    [RADIODNS] = ITEMS,
    [GEOLOCATION] = ITEMS,
    [COUNTRY] = ITEMS,
    [POINT] = PLAIN,
    [POLYGON] = PLAIN,
    [ON_DEMAND] = ITEMS,
    [PRESENTATION_TIME] = ITEMS,
    [ACQUISITION_TIME] = ITEMS
};

/* Annex E: the values of an element's attributes 0x80, 0x81 and so on, in that order.  Rows that
 * the annex marks as not used stay unknown; epg has no other row. */
static const uint8_t attribute_body[ELEMENT_TAGS][ATTRIBUTE_TAGS] = {
    /* table E.1 */
    [GENRE] = {PLAIN, ENUMERATED},
    [KEYWORDS] = {TEXT},
    [LINK] = {TEXT, TEXT, TEXT, TEXT, TIME},
    [SHORT_NAME] = {TEXT},
    [MEDIUM_NAME] = {TEXT},
    [LONG_NAME] = {TEXT},
    [SHORT_DESCRIPTION] = {TEXT},
    [LONG_DESCRIPTION] = {TEXT},
    [MULTIMEDIA] = {TEXT, TEXT, TEXT, ENUMERATED, NUMBER, NUMBER},
    [SERVICE_BEARER] = {BEARER, UNKNOWN, TEXT},
    [LOCATION_BEARER] = {BEARER, UNKNOWN, TEXT},
    [GEOLOCATION] = {TEXT, TEXT},
    /* table E.2 */
    [SERVICE_INFORMATION] = {NUMBER, TIME, TEXT, TEXT},
    [ENSEMBLE] = {PLAIN},
    [SERVICE] = {NUMBER},
    [RADIODNS] = {TEXT, TEXT},
    /* table E.3 */
    [PROGRAMME_GROUPS] = {NUMBER, TIME, TEXT},
    [PROGRAMME_GROUP] = {TEXT, SHORT_ID, NUMBER, ENUMERATED, NUMBER},
    [SCHEDULE] = {NUMBER, TIME, TEXT},
    [SCOPE] = {TIME, TIME},
    [SERVICE_SCOPE] = {BEARER},
    [PROGRAMME] = {TEXT, SHORT_ID, NUMBER, ENUMERATED, ENUMERATED, UNKNOWN, TEXT},
    [PROGRAMME_EVENT] = {TEXT, SHORT_ID, NUMBER, ENUMERATED, ENUMERATED, UNKNOWN, TEXT},
    [TIME_ELEMENT] = {TIME, DURATION, TIME, DURATION},
    [RELATIVE_TIME] = {DURATION, DURATION, DURATION, DURATION},
    [MEMBER_OF] = {TEXT, SHORT_ID, NUMBER},
    [PRESENTATION_TIME] = {TIME, TIME, DURATION},
    [ACQUISITION_TIME] = {TIME, TIME}
};

/* Characters that the CDATA of an element may have once its tokens are replaced (01, "Lengths of shown
 * text", as 2026-01 amends it); 0 where there is no limit. */
static const struct character_count shown_limit[ELEMENT_TAGS] = {
    [SHORT_NAME] = {8},
    [MEDIUM_NAME] = {16},
    [LONG_NAME] = {128},
    [SHORT_DESCRIPTION] = {180},
    [LONG_DESCRIPTION] = {1200}
};

/* The attributes whose default is fixed by the attribute alone, so that it means the same as their absence (02,
 * 2026-05): type of a genre (003, clause 5.3.3), recommendation and broadcast (5.3.13).  All are enumerated, and
 * annex F gives a default the octet 0x01.  xml:lang has a default in 003 too, but here 0x06 governs it. */
enum { DEFAULT_OCTET = 0x01 };

static const bool has_default[ELEMENT_TAGS][ATTRIBUTE_TAGS] = {
    [GENRE] = {[1] = true},
    [PROGRAMME] = {[3] = true, [4] = true},
    [PROGRAMME_EVENT] = {[3] = true, [4] = true}
};

static bool is_attribute(uint8_t tag)
{
    return tag >= FIRST_ATTRIBUTE;
}

static bool is_element(uint8_t tag)
{
    return tag > CDATA && tag < FIRST_ATTRIBUTE;
}

static bool is_top(uint8_t tag)
{
    return tag == EPG || tag == SERVICE_INFORMATION;
}

/* What the body of an item is; an attribute's meaning depends on the element that it stands in. */
static uint8_t body_of_item(uint8_t parent_tag, uint8_t tag)
{
    if (tag == CDATA)
        return TEXT;
    if (!is_attribute(tag))
        return element_body[tag];
    if (tag >= FIRST_ATTRIBUTE + ATTRIBUTE_TAGS)
        return UNKNOWN;
    return attribute_body[parent_tag][tag - FIRST_ATTRIBUTE];
}

/* Whether the value of an item is the default of its attribute. */
static bool is_default(uint8_t parent_tag, uint8_t tag, const uint8_t *body, size_t length)
{
    return body_of_item(parent_tag, tag) == ENUMERATED && has_default[parent_tag][tag - FIRST_ATTRIBUTE] &&
           length == 1 && body[0] == DEFAULT_OCTET;
}

/* ---- Text and tokens (01, "Text" and "Tokens"; 002, clauses 4.5.1 and 4.9) --------------------- */

/* Sets of octets below 0x20, one bit each. */
#define TOKEN_OCTETS UINT32_C(0x000FD9FE)   /* 0x01 to 0x13 but tab, line feed and return */
#define SPACING_OCTETS UINT32_C(0x00002600) /* tab, line feed and return */

struct token_table {
    uint32_t present; /* a bit for each tag that has an entry */
    struct octet_count length[TOKEN_TAGS];
    struct character_count shown[TOKEN_TAGS];
    const uint8_t *text[TOKEN_TAGS];
};

static const struct token_table no_tokens = {0};

struct text_facts {
    uint32_t tokens;              /* the token octets in it, one bit each */
    struct octet_count expanded;  /* what it takes once they are replaced */
    struct character_count shown; /* what it shows then */
};

/* How many octets, in whole groups of eight, are printable ASCII at the start of a text. */
static size_t printable_run(const uint8_t *text, size_t length)
{
    const uint64_t ones = UINT64_C(0x0101010101010101);
    const uint64_t tops = UINT64_C(0x8080808080808080);
    size_t at = 0;

    while (length - at >= 8) {
        uint64_t group;
        memcpy(&group, text + at, sizeof group);
        if (((group | (group - 0x20 * ones)) & tops) != 0)
            break;
        at += 8;
    }
    return at;
}

/* The size of the sequence that begins a text with an octet above 0x7F, or 0 where it is bad: the
 * leading ones of that octet give the size, and the code point must need that many octets, be at
 * most U+10FFFF, and be neither a surrogate nor in the private area right behind them. */
static size_t wide_character(const uint8_t *text, size_t left)
{
    static const uint32_t lowest[] = {0, 0, 0x80, 0x800, 0x10000};
    uint8_t first = text[0];
    size_t size = first >= 0xF0 ? 4 : first >= 0xE0 ? 3 : 2;

    if (first < 0xC0 || first > 0xF7 || left < size)
        return 0;
    uint32_t code = first & (0x7Fu >> size);
    for (size_t i = 1; i < size; i++) {
        if ((text[i] & 0xC0) != 0x80)
            return 0;
        code = code << 6 | (text[i] & 0x3F);
    }
    if (code < lowest[size] || code > 0x10FFFF || (code >= 0xD800 && code <= 0xF8FF))
        return 0;
    return size;
}

/* Whether a text is good, and what is to be known of it; token octets may stand in it whether they
 * have an entry or not.  Both counts begin as if each octet were a character that stands for itself. */
static bool scan_text(const uint8_t *text, size_t length, const struct token_table *table,
                      struct text_facts *facts)
{
    struct text_facts found = {.expanded = {(uint32_t)length}, .shown = {(uint32_t)length}};
    size_t at = 0;

    for (;;) {
        at += printable_run(text + at, length - at);
        if (at == length)
            break;
        uint8_t octet = text[at];
        if (octet >= 0x80) {
            size_t size = wide_character(text + at, length - at);
            if (size == 0)
                return false;
            found.shown.characters -= (uint32_t)size - 1;
            at += size;
            continue;
        }
        at++;
        if (octet >= 0x20)
            continue;
        uint32_t bit = UINT32_C(1) << octet;
        if ((bit & TOKEN_OCTETS) != 0) {
            found.tokens |= bit;
            found.expanded.octets += table->length[octet].octets;
            found.expanded.octets--;
            found.shown.characters += table->shown[octet].characters;
            found.shown.characters--;
        } else if ((bit & SPACING_OCTETS) == 0) {
            return false;
        }
    }
    *facts = found;
    return true;
}

/* Reads the entries of a token table: a tag that is a token octet and new, a length octet that is
 * always the length itself, and good text in which no token stands.  Anything else is 11. */
static int read_token_table(const uint8_t *body, size_t length, struct token_table *table)
{
    size_t at = 0;

    while (at < length) {
        if (length - at < 2)
            return BAD_TOKEN_TABLE;
        uint8_t tag = body[at];
        uint8_t size = body[at + 1];
        const uint8_t *text = body + at + 2;
        struct text_facts facts;

        if (tag >= TOKEN_TAGS || (UINT32_C(1) << tag & TOKEN_OCTETS & ~table->present) == 0)
            return BAD_TOKEN_TABLE;
        if (length - at - 2 < size)
            return BAD_TOKEN_TABLE;
        if (!scan_text(text, size, &no_tokens, &facts) || facts.tokens != 0)
            return BAD_TOKEN_TABLE;
        table->present |= UINT32_C(1) << tag;
        table->length[tag] = facts.expanded;
        table->shown[tag] = facts.shown;
        table->text[tag] = text;
        at += 2 + (size_t)size;
    }
    return ACCEPTED;
}

static bool has_entry(const struct token_table *table, uint8_t octet)
{
    return octet < TOKEN_TAGS && (UINT32_C(1) << octet & table->present) != 0;
}

/* Writes a text with each token octet replaced by its entry; answers where the output ends. */
static uint8_t *write_expanded(uint8_t *out, const uint8_t *text, size_t length,
                               const struct token_table *table)
{
    for (size_t at = 0; at < length; at++) {
        uint8_t octet = text[at];
        if (has_entry(table, octet)) {
            memcpy(out, table->text[octet], table->length[octet].octets);
            out += table->length[octet].octets;
        } else {
            *out++ = octet;
        }
    }
    return out;
}

/* ---- Times (01, "Time"; 002, clause 4.7.4) ----------------------------------------------------- */

struct time_value {
    uint32_t date;
    uint8_t hours, minutes, seconds;
    uint8_t offset; /* sense (0x20 is minus) and half hours, as in the octet; 0 for no offset */
};

enum {
    OFFSET_FLAG = 1 << 12,
    LONG_FLAG = 1 << 11,
    OFFSET_BITS = 0x3F,
    MINUS = 0x20,
    HALF_HOURS = 0x1F
};

/* Takes a time apart, and answers the lowest of its fields that is wrong.  A length that is not what the
 * flags say is the lowest of all, so it hides the others. */
static uint8_t read_time(const uint8_t *body, size_t length, struct time_value *time)
{
    if (length < 4)
        return LENGTH_FIELD;
    uint32_t head = (uint32_t)body[0] << 24 | (uint32_t)body[1] << 16 | (uint32_t)body[2] << 8 | body[3];
    size_t seconds_octets = (head & LONG_FLAG) != 0 ? 2 : 0;
    size_t offset_octets = (head & OFFSET_FLAG) != 0 ? 1 : 0;

    if (length != 4 + seconds_octets + offset_octets)
        return LENGTH_FIELD;
    time->date = head >> 14 & 0x1FFFF;
    time->hours = head >> 6 & 0x1F;
    time->minutes = head & 0x3F;
    time->seconds = seconds_octets != 0 ? body[4] >> 2 : 0;
    time->offset = offset_octets != 0 ? body[length - 1] & OFFSET_BITS : 0;
    if ((time->offset & HALF_HOURS) == 0)
        time->offset = 0; /* minus nothing is nothing */
    if (time->date > 99999)
        return DATE_FIELD;
    if (time->hours > 23)
        return HOURS_FIELD;
    if (time->minutes > 59)
        return MINUTES_FIELD;
    return time->seconds > 59 ? SECONDS_FIELD : NO_FIELD;
}

/* Puts a time together in its shortest form with reserved bits 0; answers where the output ends. */
static uint8_t *write_time(uint8_t *out, const struct time_value *time)
{
    uint32_t head = time->date << 14 | (uint32_t)time->hours << 6 | time->minutes;

    head |= time->seconds != 0 ? LONG_FLAG : 0;
    head |= time->offset != 0 ? OFFSET_FLAG : 0;
    *out++ = (uint8_t)(head >> 24);
    *out++ = (uint8_t)(head >> 16);
    *out++ = (uint8_t)(head >> 8);
    *out++ = (uint8_t)head;
    if (time->seconds != 0) {
        *out++ = (uint8_t)(time->seconds << 2);
        *out++ = 0;
    }
    if (time->offset != 0)
        *out++ = time->offset;
    return out;
}

/* A time moved by its offset, which is less than a day; the day may be the one before day 0. */
struct local_time {
    int64_t day;
    uint32_t hours, minutes;
};

static struct local_time local_time(const struct time_value *time)
{
    int64_t moved = 30 * (time->offset & HALF_HOURS);
    int64_t day = time->date;
    int64_t minutes = 60 * time->hours + time->minutes;

    minutes += (time->offset & MINUS) != 0 ? -moved : moved;
    if (minutes < 0) {
        minutes += 24 * 60;
        day--;
    } else if (minutes >= 24 * 60) {
        minutes -= 24 * 60;
        day++;
    }
    return (struct local_time){day, (uint32_t)minutes / 60, (uint32_t)minutes % 60};
}

/* ---- Bearers (01, "DAB bearer"; 002, clause 4.7.6.1) ------------------------------------------- */

enum {
    ENSEMBLE_FLAG = 0x40,
    LONG_SID_FLAG = 0x10,
    BEARER_MEANING = 0x5F /* the first octet without the reserved bit and the X-PAD flag */
};

/* Whether a bearer has the length that its flags ask for. */
static bool bearer_fits(const uint8_t *body, size_t length)
{
    if (length == 0)
        return false;
    size_t ensemble_octets = (body[0] & ENSEMBLE_FLAG) != 0 ? 3 : 0;
    size_t sid_octets = (body[0] & LONG_SID_FLAG) != 0 ? 4 : 2;
    return length == 1 + ensemble_octets + sid_octets;
}

/* ---- The tree of known items ------------------------------------------------------------------- */

struct node {
    uint64_t normal_size; /* octets of its body in normal form */
    uint32_t start;       /* its body's place and size in the octets it was read from */
    uint32_t length;
    uint16_t parent;
    uint8_t tag;
    uint8_t depth;
    uint8_t body;         /* what the body is, UNKNOWN never */
    uint8_t header;       /* octets of its tag and length, which stand right before the body */
    bool has_tokens;
    bool is_default;      /* it has a record and its octet in a store, and no meaning */
};

/* A text attribute of the top whose tokens wait for the table. */
struct waiting {
    uint32_t place;
    size_t node;
};

struct tree {
    const uint8_t *octets;
    struct token_table table;
    size_t waiting_count;
    struct waiting waiting[ATTRIBUTE_TAGS];
    uint32_t first_plain; /* the place of the first item of plain octets; 0, the top's own, for none */
    size_t headers;       /* items that were judged, unknown ones and the token table too (02, 2026-09) */
    size_t count;
    struct node nodes[LIST_LIMIT];
    uint16_t ends[LIST_LIMIT]; /* of each record the index behind it and all below it; merging alone fills it */
};

static void clear_tree(struct tree *tree, const uint8_t *octets)
{
    tree->octets = octets;
    tree->table = no_tokens;
    tree->waiting_count = 0;
    tree->first_plain = 0;
    tree->headers = 0;
    tree->count = 0;
}

static const uint8_t *body_octets(const struct tree *tree, const struct node *node)
{
    return tree->octets + node->start;
}

/* The attributes that one element means, each at the place of its tag, and the index behind all that it has. */
struct attributes {
    const struct node *by_tag[ATTRIBUTE_TAGS];
    size_t end;
};

/* Their records stand side by side, from `index` on; where no attribute stands there, there are none. */
static struct attributes attributes_at(const struct tree *tree, size_t index)
{
    struct attributes found = {.end = index};

    for (; found.end < tree->count && is_attribute(tree->nodes[found.end].tag); found.end++) {
        const struct node *node = &tree->nodes[found.end];
        if (!node->is_default)
            found.by_tag[node->tag - FIRST_ATTRIBUTE] = node;
    }
    return found;
}

/* ---- Rules that the reader and the writer share ------------------------------------------------ */

/* An element whose list of items is being judged. */
struct open_element {
    size_t node;
    uint8_t tag;
    uint8_t depth;
    uint8_t earliest;        /* the first stage that may still come */
    uint8_t seen_attributes; /* a bit for each known attribute, 0x80 lowest */
};

/* The stages of an element's body (01, "Framing"; 002, clauses 4.3.0 and 4.3.1). */
enum { STAGE_ATTRIBUTES, STAGE_TABLE, STAGE_LANGUAGE, STAGE_ELEMENTS, STAGE_CDATA };

static struct open_element open_list(const struct tree *tree, size_t node)
{
    return (struct open_element){.node = node,
                                 .tag = tree->nodes[node].tag,
                                 .depth = tree->nodes[node].depth,
                                 .earliest = STAGE_ATTRIBUTES,
                                 .seen_attributes = 0};
}

static uint8_t stage_of(uint8_t tag)
{
    if (is_attribute(tag))
        return STAGE_ATTRIBUTES;
    if (tag == TOKEN_TABLE)
        return STAGE_TABLE;
    if (tag == DEFAULT_LANGUAGE)
        return STAGE_LANGUAGE;
    return tag == CDATA ? STAGE_CDATA : STAGE_ELEMENTS;
}

/* Refusal 4: 0x00 and the two top tags never stand in a list, 0x04 and 0x06 in the top's alone. */
static bool tag_allowed(const struct open_element *parent, uint8_t tag)
{
    if (tag == TOKEN_TABLE || tag == DEFAULT_LANGUAGE)
        return is_top(parent->tag);
    return tag != 0 && !is_top(tag);
}

/* Refusals 4, 6, 7 and 8 of an item in a list, the lowest first.  An accepted item moves the list
 * on: attributes and other elements may be repeated, the other stages are over after one item. */
static int judge_placement(struct open_element *parent, uint8_t tag, uint8_t body)
{
    if (!tag_allowed(parent, tag))
        return TAG_NOT_ALLOWED;
    uint8_t stage = stage_of(tag);
    if (stage < parent->earliest)
        return OUT_OF_ORDER;
    if (is_element(tag) && parent->depth == DEPTH_LIMIT)
        return TOO_DEEP;
    if (is_attribute(tag) && body != UNKNOWN) {
        uint8_t bit = (uint8_t)(1u << (tag - FIRST_ATTRIBUTE));
        if ((parent->seen_attributes & bit) != 0)
            return ATTRIBUTE_TWICE;
        parent->seen_attributes |= bit;
    }
    bool repeatable = stage == STAGE_ATTRIBUTES || stage == STAGE_ELEMENTS;
    parent->earliest = repeatable ? stage : stage + 1;
    return ACCEPTED;
}

/* Refusals 10, 12 and 13 of a text. */
static int judge_text(const struct tree *tree, struct node *node, uint8_t parent_tag)
{
    struct character_count limit = shown_limit[parent_tag];
    struct text_facts facts;

    if (!scan_text(body_octets(tree, node), node->length, &tree->table, &facts))
        return BAD_TEXT;
    node->has_tokens = facts.tokens != 0;
    node->normal_size = facts.expanded.octets;
    if ((facts.tokens & ~tree->table.present) != 0)
        return TOKEN_WITHOUT_ENTRY;
    if (node->tag == CDATA && limit.characters != 0 && facts.shown.characters > limit.characters)
        return SHOWN_TEXT_TOO_LONG;
    return ACCEPTED;
}

static int judge_time(const struct tree *tree, struct node *node)
{
    struct time_value time;

    if (read_time(body_octets(tree, node), node->length, &time) != NO_FIELD)
        return BAD_VALUE;
    node->normal_size = 4u + (time.seconds != 0 ? 2u : 0u) + (time.offset != 0 ? 1u : 0u);
    return ACCEPTED;
}

/* Refusals 9, 10, 12 and 13 of a known item's body, with the size that it has in normal form; the
 * size of a list of items is counted later. */
static int judge_body(const struct tree *tree, struct node *node, uint8_t parent_tag)
{
    node->normal_size = node->length;
    switch (node->body) {
    case ITEMS:
        node->normal_size = 0;
        return ACCEPTED;
    case TEXT:
        return judge_text(tree, node, parent_tag);
    case TIME:
        return judge_time(tree, node);
    case BEARER:
        return bearer_fits(body_octets(tree, node), node->length) ? ACCEPTED : BAD_VALUE;
    case ENUMERATED:
        node->is_default = is_default(parent_tag, node->tag, body_octets(tree, node), node->length);
        return node->length == 1 ? ACCEPTED : BAD_VALUE;
    case NUMBER:
    case DURATION:
        return node->length == 2 ? ACCEPTED : BAD_VALUE;
    case SHORT_ID:
        return node->length == 3 ? ACCEPTED : BAD_VALUE;
    default: /* PLAIN: any octets pass */
        return ACCEPTED;
    }
}

/* The field that goes with the refusal of a known item's body. */
static uint8_t wrong_field(const struct tree *tree, const struct node *node)
{
    struct time_value time;

    return node->body == TIME ? read_time(body_octets(tree, node), node->length, &time) : NO_FIELD;
}

/* ---- The reader: refusals 1 to 13 -------------------------------------------------------------- */

struct item {
    uint32_t place; /* of its tag */
    uint32_t start; /* of its body */
    uint32_t end;
    uint8_t tag;
};

/* Finds where an item's body lies (01, "Framing"; 002, table 3).  `end` is the end of the part that
 * encloses the item: its parent's body, or the object for the top.  Gives refusals 2 and 3. */
static int frame_item(const uint8_t *octets, uint32_t place, uint32_t end, struct item *item)
{
    if (end - place < 2)
        return FIELD_PAST_END;
    uint32_t start = place + 2;
    uint32_t length = octets[place + 1];
    if (length >= 0xFE) {
        uint32_t field = length == 0xFE ? 2 : 3;
        if (end - start < field)
            return FIELD_PAST_END;
        length = 0;
        for (uint32_t i = 0; i < field; i++)
            length = length << 8 | octets[start++];
    }
    if (length > end - start)
        return BODY_PAST_END;
    *item = (struct item){.place = place, .start = start, .end = start + length, .tag = octets[place]};
    return ACCEPTED;
}

/* The late 12: the tokens of the top's own attributes are looked up once it is settled which table
 * there is; the first attribute with a token that is not in it is refused. */
static struct verdict settle_waiting(struct tree *tree)
{
    for (size_t i = 0; i < tree->waiting_count; i++) {
        struct node *node = &tree->nodes[tree->waiting[i].node];
        int number = judge_text(tree, node, SERVICE_INFORMATION);
        if (number != ACCEPTED)
            return refused(number, tree->waiting[i].place);
    }
    tree->waiting_count = 0;
    return accepted;
}

/* Adds the record of a known item.  An object within its limit holds far fewer than LIST_LIMIT. */
static struct node *add_node(struct tree *tree, const struct open_element *parent,
                             const struct item *item, uint8_t body)
{
    struct node *node = &tree->nodes[tree->count++];

    *node = (struct node){.start = item->start,
                          .length = item->end - item->start,
                          .parent = (uint16_t)parent->node,
                          .tag = item->tag,
                          .depth = (uint8_t)(parent->depth + 1),
                          .body = body,
                          .header = (uint8_t)(item->start - item->place)};
    if (body == PLAIN && tree->first_plain == 0)
        tree->first_plain = item->place;
    return node;
}

static struct verdict read_list(struct tree *tree, size_t node, uint32_t start, uint32_t end);

/* Judges the inside of an item that is known and stands where it may. */
static struct verdict read_known(struct tree *tree, const struct open_element *parent,
                                 const struct item *item, uint8_t body)
{
    if (body == ENTRIES) {
        int number = read_token_table(tree->octets + item->start, item->end - item->start, &tree->table);
        return number != ACCEPTED ? refused(number, item->place) : settle_waiting(tree);
    }
    size_t index = tree->count;
    struct node *node = add_node(tree, parent, item, body);
    int number = judge_body(tree, node, parent->tag);
    if (number == TOKEN_WITHOUT_ENTRY && is_attribute(item->tag) && is_top(parent->tag)) {
        tree->waiting[tree->waiting_count++] = (struct waiting){item->place, index};
        return accepted;
    }
    if (number != ACCEPTED)
        return (struct verdict){(uint8_t)number, wrong_field(tree, node), item->place};
    return body == ITEMS ? read_list(tree, index, item->start, item->end) : accepted;
}

/* Judges the items of one element in reading order: the rules of each, then its children's.  An item
 * that is neither attribute nor table ends the top's attributes, so what waits is settled before it.
 * Every item of the list is counted, and none that lies in an unknown one, since no list is read there. */
static struct verdict read_list(struct tree *tree, size_t node, uint32_t start, uint32_t end)
{
    struct open_element here = open_list(tree, node);
    struct item item;

    for (uint32_t at = start; at < end; at = item.end) {
        uint8_t tag = tree->octets[at];
        struct verdict verdict = accepted;
        if (!is_attribute(tag) && tag != TOKEN_TABLE)
            verdict = settle_waiting(tree);
        if (verdict.number != ACCEPTED)
            return verdict;

        uint8_t body = body_of_item(here.tag, tag);
        int number = frame_item(tree->octets, at, end, &item);
        if (number == ACCEPTED)
            number = judge_placement(&here, tag, body);
        if (number != ACCEPTED)
            return refused(number, at);

        tree->headers++;
        if (body != UNKNOWN)
            verdict = read_known(tree, &here, &item, body);
        if (verdict.number != ACCEPTED)
            return verdict;
    }
    return settle_waiting(tree);
}

/* Reads an object: the top's own rules 2 to 5, then its list. */
static struct verdict read_object(struct tree *tree, const uint8_t *octets, uint32_t size)
{
    struct item top;

    clear_tree(tree, octets);
    if (size == 0 || size > OBJECT_LIMIT)
        return refused(BAD_SIZE, 0);
    int number = frame_item(octets, 0, size, &top);
    if (number == ACCEPTED && !is_top(octets[0]))
        number = TAG_NOT_ALLOWED;
    if (number != ACCEPTED)
        return refused(number, 0);
    if (top.end < size)
        return refused(OCTETS_AFTER_TOP, top.end);

    const struct open_element outside = {.node = 0, .depth = 0};
    add_node(tree, &outside, &top, ITEMS);
    tree->headers = 1;
    return read_list(tree, 0, top.start, top.end);
}

/* ---- Records given to the writer: refusal 16 --------------------------------------------------- */

enum { KIND_ELEMENT = 0, KIND_ATTRIBUTE = 1, KIND_CDATA = 2 };

static const char *const kind_names[] = {"element", "attribute", "cdata"};

static uint8_t kind_of_tag(uint8_t tag)
{
    if (is_attribute(tag))
        return KIND_ATTRIBUTE;
    return tag == CDATA ? KIND_CDATA : KIND_ELEMENT;
}

struct record {
    uint8_t tag, kind, depth;
    uint32_t parent, start, length;
};

static struct record record_at(const uint8_t *records, size_t index)
{
    const uint8_t *field = records + index * RECORD_OCTETS;

    return (struct record){.tag = field[0],
                           .kind = field[1],
                           .depth = field[2],
                           .parent = (uint32_t)field[3] << 8 | field[4],
                           .start = (uint32_t)field[5] << 8 | field[6],
                           .length = (uint32_t)field[7] << 8 | field[8]};
}

/* The elements that enclose the next record: open[1] is the top, open[depth] the innermost that
 * holds items. */
struct path {
    uint8_t depth;
    struct open_element open[DEPTH_LIMIT + 1];
};

static void enter_element(struct path *path, const struct tree *tree, size_t node)
{
    path->depth = tree->nodes[node].depth;
    path->open[path->depth] = open_list(tree, node);
}

/* Record 0 must be the top: an epg or serviceInformation of depth 1 that is its own parent. */
static bool admit_top(struct tree *tree, struct path *path, const struct record *record)
{
    if (!is_top(record->tag) || record->depth != 1 || record->parent != 0)
        return false;
    tree->nodes[0] = (struct node){.tag = record->tag, .depth = 1, .body = ITEMS};
    enter_element(path, tree, 0);
    return true;
}

/* Any other record must be a known item below an element that is still open, which its parent and
 * its depth both name, and must obey rules 4 and 6 to 13. */
static bool admit_item(struct tree *tree, struct path *path, size_t index, const struct record *record)
{
    if (record->depth < 2 || record->depth > path->depth + 1)
        return false;
    struct open_element *parent = &path->open[record->depth - 1];
    uint8_t body = body_of_item(parent->tag, record->tag);
    struct node *node = &tree->nodes[index];

    if (record->parent != parent->node || body == UNKNOWN || body == ENTRIES)
        return false;
    if (judge_placement(parent, record->tag, body) != ACCEPTED)
        return false;
    *node = (struct node){.start = record->start,
                          .length = record->length,
                          .parent = (uint16_t)record->parent,
                          .tag = record->tag,
                          .depth = record->depth,
                          .body = body};
    if (judge_body(tree, node, parent->tag) != ACCEPTED)
        return false;
    path->depth = record->depth - 1;
    if (body == ITEMS)
        enter_element(path, tree, index);
    return true;
}

/* Makes a tree of the records over the lent octets; false where they are not well-formed.  No table
 * is ever read here, so a token octet in a text has no entry and fails as it must. */
static bool read_records(struct tree *tree, const uint8_t *records, size_t count, const uint8_t *octets,
                         uint32_t size)
{
    struct path path;

    clear_tree(tree, octets);
    for (size_t index = 0; index < count; index++) {
        struct record record = record_at(records, index);
        if (record.kind != kind_of_tag(record.tag) || record.start + record.length > size)
            return false;
        if (index == 0 ? !admit_top(tree, &path, &record) : !admit_item(tree, &path, index, &record))
            return false;
        tree->count++;
    }
    return tree->count != 0;
}

/* ---- Normal form (01, "Records and meaning") --------------------------------------------------- */

/* The octets of tag and length before a body: the shorter of two forms (02, 2026-08).  A body above
 * 65,535 octets is measured too, in a tree that is then refused with 15; its length is never written. */
static uint64_t header_size(uint64_t body)
{
    return body <= 0xFD ? 2 : 4;
}

struct sizes {
    uint64_t output; /* the whole normal form */
    uint64_t store;  /* expanded texts, normal values and plain bodies of all records */
};

/* Adds each item's size to its parent's, last item first, so that a body is complete before it is
 * added itself.  A default lies in the store, as every record's value does, and isn't written. */
static struct sizes measure(struct tree *tree)
{
    struct sizes sizes = {0, 0};

    for (size_t i = tree->count - 1; i > 0; i--) {
        const struct node *node = &tree->nodes[i];
        if (!node->is_default)
            tree->nodes[node->parent].normal_size += header_size(node->normal_size) + node->normal_size;
        if (node->body != ITEMS)
            sizes.store += node->normal_size;
    }
    sizes.output = header_size(tree->nodes[0].normal_size) + tree->nodes[0].normal_size;
    return sizes;
}

/* Writes tag and length.  Output is never above 32,768 octets, so 16 bits hold every length. */
static uint8_t *write_header(uint8_t *out, const struct node *node)
{
    *out++ = node->tag;
    if (node->normal_size > 0xFD) {
        *out++ = 0xFE;
        *out++ = (uint8_t)(node->normal_size >> 8);
    }
    *out++ = (uint8_t)node->normal_size;
    return out;
}

/* Writes a body that is no list; a list's items come by themselves. */
static uint8_t *write_body(uint8_t *out, const struct tree *tree, const struct node *node)
{
    const uint8_t *body = body_octets(tree, node);

    if (node->body == ITEMS)
        return out;
    if (node->body == TIME) {
        struct time_value time;
        read_time(body, node->length, &time);
        return write_time(out, &time);
    }
    if (node->has_tokens)
        return write_expanded(out, body, node->length, &tree->table);
    memcpy(out, body, node->length);
    if (node->body == BEARER)
        out[0] &= BEARER_MEANING;
    return out + node->length;
}

static uint8_t *write_item(uint8_t *out, const struct tree *tree, const struct node *node)
{
    return write_body(write_header(out, node), tree, node);
}

/* Writes one element's attributes by rising tag; `*index` is left behind the last. */
static uint8_t *write_attributes(uint8_t *out, const struct tree *tree, size_t *index)
{
    struct attributes attributes = attributes_at(tree, *index);

    for (size_t i = 0; i < ATTRIBUTE_TAGS; i++)
        if (attributes.by_tag[i] != NULL)
            out = write_item(out, tree, attributes.by_tag[i]);
    *index = attributes.end;
    return out;
}

/* Writes the normal form of a tree that has been measured and found to fit. */
static void write_tree(uint8_t *out, const struct tree *tree)
{
    size_t index = 0;

    while (index < tree->count) {
        if (is_attribute(tree->nodes[index].tag))
            out = write_attributes(out, tree, &index);
        else
            out = write_item(out, tree, &tree->nodes[index++]);
    }
}

/* ---- Whether two objects mean the same (01, "Records and meaning") ------------------------------ */

/* An item and the tree that it stands in. */
struct place {
    const struct tree *tree;
    const struct node *node;
};

/* A text while it is read with its tokens replaced: octets that follow each other, then the rest of it. */
struct reading {
    const struct token_table *table;
    const uint8_t *run, *rest;
    size_t run_left, rest_left;
};

static struct reading begin_reading(struct place text)
{
    const uint8_t *body = body_octets(text.tree, text.node);
    size_t length = text.node->length;

    if (!text.node->has_tokens)
        return (struct reading){.run = body, .run_left = length};
    return (struct reading){.table = &text.tree->table, .rest = body, .rest_left = length};
}

/* Goes on to the next octets where none are left in the run: a token's, or those before the next token. */
static void next_run(struct reading *reading)
{
    while (reading->run_left == 0 && reading->rest_left > 0) {
        uint8_t octet = reading->rest[0];
        size_t taken = 1;
        if (has_entry(reading->table, octet)) {
            reading->run = reading->table->text[octet];
            reading->run_left = reading->table->length[octet].octets;
        } else {
            while (taken < reading->rest_left && !has_entry(reading->table, reading->rest[taken]))
                taken++;
            reading->run = reading->rest;
            reading->run_left = taken;
        }
        reading->rest += taken;
        reading->rest_left -= taken;
    }
}

/* Whether two texts are the same once their tokens are replaced. */
static bool same_texts(struct place first, struct place second)
{
    struct reading a = begin_reading(first), b = begin_reading(second);

    for (;;) {
        next_run(&a);
        next_run(&b);
        size_t both = a.run_left < b.run_left ? a.run_left : b.run_left;
        if (both == 0)
            return a.run_left == b.run_left;
        if (memcmp(a.run, b.run, both) != 0)
            return false;
        a.run += both;
        a.run_left -= both;
        b.run += both;
        b.run_left -= both;
    }
}

static bool same_times(struct place first, struct place second)
{
    struct time_value a, b;

    read_time(body_octets(first.tree, first.node), first.node->length, &a);
    read_time(body_octets(second.tree, second.node), second.node->length, &b);
    return a.date == b.date && a.hours == b.hours && a.minutes == b.minutes && a.seconds == b.seconds &&
           a.offset == b.offset;
}

/* A bearer's flags give its length, so bearers of one meaning differ at most in the bits that mean nothing. */
static bool same_bearers(const uint8_t *a, const uint8_t *b, size_t length)
{
    return (a[0] & BEARER_MEANING) == (b[0] & BEARER_MEANING) && memcmp(a + 1, b + 1, length - 1) == 0;
}

/* Whether two items of one tag, in elements of one tag, mean the same; what a list of items means is told
 * by these items.  Items of one meaning have normal forms of one size. */
static bool same_items(struct place first, struct place second)
{
    const uint8_t *a = body_octets(first.tree, first.node), *b = body_octets(second.tree, second.node);

    if (first.node->body == ITEMS)
        return true;
    if (first.node->normal_size != second.node->normal_size)
        return false;
    switch (first.node->body) {
    case TEXT:
        return same_texts(first, second);
    case TIME:
        return same_times(first, second);
    case BEARER:
        return same_bearers(a, b, first.node->length);
    default:
        return memcmp(a, b, first.node->length) == 0;
    }
}

/* Whether two elements have the same attributes, as a set; both indexes are left behind them. */
static bool same_attributes(const struct tree *first, size_t *first_index, const struct tree *second,
                            size_t *second_index)
{
    struct attributes a = attributes_at(first, *first_index), b = attributes_at(second, *second_index);

    for (size_t i = 0; i < ATTRIBUTE_TAGS; i++) {
        if ((a.by_tag[i] != NULL) != (b.by_tag[i] != NULL))
            return false;
        if (a.by_tag[i] != NULL &&
            !same_items((struct place){first, a.by_tag[i]}, (struct place){second, b.by_tag[i]}))
            return false;
    }
    *first_index = a.end;
    *second_index = b.end;
    return true;
}

/* Records that stand side by side in a tree, the last left out. */
struct part {
    const struct tree *tree;
    size_t first, end;
};

/* Whether two parts mean the same: item by item in reading order, in which tags and depths tell what stands in
 * what.  Each part has an index of its own, since either may have defaults that the other has not; attributes
 * stand right behind their element, so each item is compared with those that follow it. */
static bool same_parts(struct part first, struct part second)
{
    size_t i = first.first, j = second.first;

    while (i < first.end && j < second.end) {
        const struct node *a = &first.tree->nodes[i++], *b = &second.tree->nodes[j++];
        if (a->tag != b->tag || a->depth != b->depth)
            return false;
        if (!same_items((struct place){first.tree, a}, (struct place){second.tree, b}))
            return false;
        if (!same_attributes(first.tree, &i, second.tree, &j))
            return false;
    }
    return i == first.end && j == second.end;
}

/* Whether two accepted objects mean the same. */
static bool same_meaning(const struct tree *first, const struct tree *second)
{
    return same_parts((struct part){first, 0, first->count}, (struct part){second, 0, second->count});
}

/* ---- XML: names (02, request 2026-02; 002, annexes D, E and F) ---------------------------------- */

struct name {
    size_t length;
    const char *letters;
};

#define NAME(letters) {sizeof letters - 1, letters}

/* Annex D.  The two codes that share a name have a dot and the code behind it.  What is never written has
 * none: the token table, and the elements of plain octets, which refusal 17 is for. */
static const struct name element_names[ELEMENT_TAGS] = {
    [EPG] = NAME("epg"),
    [SERVICE_INFORMATION] = NAME("serviceInformation"),
    [DEFAULT_LANGUAGE] = NAME("defaultLanguage"),
    [SHORT_NAME] = NAME("shortName"),
    [MEDIUM_NAME] = NAME("mediumName"),
    [LONG_NAME] = NAME("longName"),
    [MEDIA_DESCRIPTION] = NAME("mediaDescription"),
    [GENRE] = NAME("genre"),
    [KEYWORDS] = NAME("keywords"),
    [MEMBER_OF] = NAME("memberOf"),
    [LINK] = NAME("link"),
    [LOCATION] = NAME("location"),
    [SHORT_DESCRIPTION] = NAME("shortDescription"),
    [LONG_DESCRIPTION] = NAME("longDescription"),
    [PROGRAMME] = NAME("programme"),
    [PROGRAMME_GROUPS] = NAME("programmeGroups"),
    [SCHEDULE] = NAME("schedule"),
    [PROGRAMME_GROUP] = NAME("programmeGroup"),
    [SCOPE] = NAME("scope"),
    [SERVICE_SCOPE] = NAME("serviceScope"),
    [ENSEMBLE] = NAME("ensemble"),
    [SERVICE] = NAME("service"),
    [SERVICE_BEARER] = NAME("bearer.29"),
    [MULTIMEDIA] = NAME("multimedia"),
    [TIME_ELEMENT] = NAME("time"),
    [LOCATION_BEARER] = NAME("bearer.2d"),
    [PROGRAMME_EVENT] = NAME("programmeEvent"),
    [RELATIVE_TIME] = NAME("relativeTime"),
    [RADIODNS] = NAME("radiodns"),
    [GEOLOCATION] = NAME("geolocation"),
    [COUNTRY] = NAME("country"),
    [ON_DEMAND] = NAME("onDemand"),
    [PRESENTATION_TIME] = NAME("presentationTime"),
    [ACQUISITION_TIME] = NAME("acquisitionTime")
};

/* Annex E: the names of an element's attributes 0x80, 0x81 and so on; no element has a name twice. */
static const struct name attribute_names[ELEMENT_TAGS][ATTRIBUTE_TAGS] = {
    /* table E.1 */
    [GENRE] = {[1] = NAME("type")},
    [KEYWORDS] = {NAME("xml:lang")},
    [LINK] = {NAME("uri"), NAME("mimeValue"), NAME("xml:lang"), NAME("description"), NAME("expiryTime")},
    [SHORT_NAME] = {NAME("xml:lang")},
    [MEDIUM_NAME] = {NAME("xml:lang")},
    [LONG_NAME] = {NAME("xml:lang")},
    [SHORT_DESCRIPTION] = {NAME("xml:lang")},
    [LONG_DESCRIPTION] = {NAME("xml:lang")},
    [MULTIMEDIA] = {NAME("mimeValue"), NAME("xml:lang"), NAME("url"), NAME("type"), NAME("width"),
                    NAME("height")},
    [SERVICE_BEARER] = {NAME("id"), [2] = NAME("url")},
    [LOCATION_BEARER] = {NAME("id"), [2] = NAME("url")},
    [GEOLOCATION] = {NAME("xml:id"), NAME("ref")},
    /* table E.2 */
    [SERVICE_INFORMATION] = {NAME("version"), NAME("creationTime"), NAME("originator"),
                             NAME("serviceProvider")},
    [SERVICE] = {NAME("version")},
    [RADIODNS] = {NAME("fqdn"), NAME("serviceIdentifier")},
    /* table E.3 */
    [PROGRAMME_GROUPS] = {NAME("version"), NAME("creationTime"), NAME("originator")},
    [PROGRAMME_GROUP] = {NAME("id"), NAME("shortId"), NAME("version"), NAME("type"), NAME("numOfItems")},
    [SCHEDULE] = {NAME("version"), NAME("creationTime"), NAME("originator")},
    [SCOPE] = {NAME("startTime"), NAME("stopTime")},
    [SERVICE_SCOPE] = {NAME("id")},
    [PROGRAMME] = {NAME("id"), NAME("shortId"), NAME("version"), NAME("recommendation"),
                   NAME("broadcast"), [6] = NAME("xml:lang")},
    [PROGRAMME_EVENT] = {NAME("id"), NAME("shortId"), NAME("version"), NAME("recommendation"),
                         NAME("broadcast"), [6] = NAME("xml:lang")},
    [TIME_ELEMENT] = {NAME("time"), NAME("duration"), NAME("actualTime"), NAME("actualDuration")},
    [RELATIVE_TIME] = {NAME("time"), NAME("duration"), NAME("actualTime"), NAME("actualDuration")},
    [MEMBER_OF] = {NAME("id"), NAME("shortId"), NAME("index")},
    [PRESENTATION_TIME] = {NAME("start"), NAME("end"), NAME("duration")},
    [ACQUISITION_TIME] = {NAME("start"), NAME("end")}
};

/* Annex F: the names of octets, those that share one with a dot and the code.  Defaults have none here: they
 * are never written. */
enum { NAMED_OCTETS = 10 };

static const struct name group_types[NAMED_OCTETS] = {
    [0x02] = NAME("series"),
    [0x03] = NAME("show"),
    [0x04] = NAME("programConcept"),
    [0x05] = NAME("magazine"),
    [0x06] = NAME("programCompilation"),
    [0x07] = NAME("otherCollection"),
    [0x08] = NAME("otherChoice"),
    [0x09] = NAME("topic")
};

static const struct name broadcasts[NAMED_OCTETS] = {
    [0x02] = NAME("off-air")
};

static const struct name recommendations[NAMED_OCTETS] = {
    [0x02] = NAME("yes")
};

static const struct name multimedia_types[NAMED_OCTETS] = {
    [0x02] = NAME("logo_unrestricted"),
    [0x03] = NAME("Not used.03"),
    [0x04] = NAME("logo_colour_square"),
    [0x05] = NAME("Not used.05"),
    [0x06] = NAME("logo_colour_rectangle")
};

static const struct name genre_types[NAMED_OCTETS] = {
    [0x02] = NAME("secondary"),
    [0x03] = NAME("other")
};

/* The names of each enumerated attribute's octets. */
static const struct name *const octet_names[ELEMENT_TAGS][ATTRIBUTE_TAGS] = {
    [PROGRAMME_GROUP] = {[3] = group_types},
    [PROGRAMME] = {[3] = recommendations, [4] = broadcasts},
    [PROGRAMME_EVENT] = {[3] = recommendations, [4] = broadcasts},
    [MULTIMEDIA] = {[3] = multimedia_types},
    [GENRE] = {[1] = genre_types}
};

static const struct name empty_section = NAME("<![CDATA[]]>");

/* What is escaped, and how; the length of all other octets' names is 0. */
enum { ESCAPES = '>' + 1 };

static const struct name escapes[ESCAPES] = {
    ['&'] = NAME("&amp;"),
    ['<'] = NAME("&lt;"),
    ['>'] = NAME("&gt;"),
    ['"'] = NAME("&quot;"),
    ['\''] = NAME("&apos;")
};

/* ---- XML: its size ------------------------------------------------------------------------------ */

/* Of each octet of a text, how many it becomes: one, but for escapes and tokens. */
struct widths {
    uint16_t of[256];
};

static struct widths widths_under(const struct token_table *table)
{
    struct widths widths;

    for (size_t octet = 0; octet < 256; octet++)
        widths.of[octet] = 1;
    for (size_t octet = 0; octet < ESCAPES; octet++)
        if (escapes[octet].length != 0)
            widths.of[octet] = (uint16_t)escapes[octet].length;
    for (uint8_t tag = 0; tag < TOKEN_TAGS; tag++) {
        if (!has_entry(table, tag))
            continue;
        widths.of[tag] = 0;
        for (size_t at = 0; at < table->length[tag].octets; at++)
            widths.of[tag] += widths.of[table->text[tag][at]];
    }
    return widths;
}

enum {
    TIME_LETTERS = 25,   /* YYYY-MM-DDThh:mm:ss+hh:mm */
    DURATION_LETTERS = 3 /* PT and S */
};

static uint32_t number_in(const uint8_t *octets, size_t length)
{
    uint32_t number = 0;

    for (size_t i = 0; i < length; i++)
        number = number << 8 | octets[i];
    return number;
}

static size_t decimal_size(uint32_t number)
{
    size_t size = 1;

    for (uint32_t above = 10; number >= above; above *= 10) /* at most 24 bits */
        size++;
    return size;
}

/* How many octets at the start of a text, in whole groups of eight, stand in the XML as they do there: none
 * is below 0x20, as tokens are, and none is escaped.  & and ' differ in one bit, and so do < and >. */
static size_t copied_run(const uint8_t *text, size_t length)
{
    const uint64_t ones = UINT64_C(0x0101010101010101);
    const uint64_t tops = UINT64_C(0x8080808080808080);
    size_t at = 0;

    while (length - at >= 8) {
        uint64_t group;
        memcpy(&group, text + at, sizeof group);
        uint64_t quote = group ^ '"' * ones;
        uint64_t first_pair = (group | ('&' ^ '\'') * ones) ^ ('&' | '\'') * ones;
        uint64_t second_pair = (group | ('<' ^ '>') * ones) ^ ('<' | '>') * ones;
        uint64_t found = ((group - 0x20 * ones) & ~group) | ((quote - ones) & ~quote) |
                         ((first_pair - ones) & ~first_pair) | ((second_pair - ones) & ~second_pair);
        if ((found & tops) != 0)
            break;
        at += 8;
    }
    return at;
}

static uint64_t text_size(const uint8_t *text, size_t length, const struct widths *widths)
{
    uint64_t size = 0;
    size_t at = 0;

    while (at < length) {
        size_t run = copied_run(text + at, length - at);
        size += run;
        at += run;
        for (size_t end = length - at < 8 ? length : at + 8; at < end; at++)
            size += widths->of[text[at]];
    }
    return size;
}

/* Annex F's name of an enumerated value, or NULL where it has none. */
static const struct name *octet_name(const struct tree *tree, const struct node *node)
{
    uint8_t octet = body_octets(tree, node)[0];
    const struct name *names = octet_names[tree->nodes[node->parent].tag][node->tag - FIRST_ATTRIBUTE];

    return octet < NAMED_OCTETS && names[octet].length != 0 ? &names[octet] : NULL;
}

static uint64_t value_size(const struct tree *tree, const struct node *node, const struct widths *widths)
{
    const uint8_t *body = body_octets(tree, node);

    switch (node->body) {
    case TEXT:
        return text_size(body, node->length, widths);
    case TIME:
        return TIME_LETTERS;
    case BEARER: /* two digits an octet but for the first, of which one is left, and three dots */
        return 2 * (node->length - 1) + 4;
    case ENUMERATED: {
        const struct name *name = octet_name(tree, node);
        return name != NULL ? name->length : 2;
    }
    case DURATION:
        return DURATION_LETTERS + decimal_size(number_in(body, node->length));
    default: /* NUMBER and SHORT_ID */
        return decimal_size(number_in(body, node->length));
    }
}

/* Whether an element has CDATA, children or, as the default language, text, so that an end tag follows. */
static bool has_content(const struct tree *tree, size_t index)
{
    const struct node *node = &tree->nodes[index];

    if (node->body == TEXT)
        return node->normal_size != 0;
    do
        index++;
    while (index < tree->count && is_attribute(tree->nodes[index].tag));
    return index < tree->count && tree->nodes[index].depth > node->depth;
}

/* The octets that an item adds to the XML beside those of the items in it: with a name and a value stand a
 * blank, an equals sign and two quotes, with an element's name or names the brackets and a slash. */
static uint64_t own_size(const struct tree *tree, size_t index, const struct widths *widths)
{
    const struct node *node = &tree->nodes[index];

    if (node->is_default)
        return 0;
    if (is_attribute(node->tag)) {
        uint8_t element = tree->nodes[node->parent].tag;
        size_t name = attribute_names[element][node->tag - FIRST_ATTRIBUTE].length;
        return name + 4 + value_size(tree, node, widths);
    }
    if (node->tag == CDATA && node->normal_size == 0)
        return empty_section.length;
    uint64_t text = node->body == TEXT ? value_size(tree, node, widths) : 0;
    if (node->tag == CDATA)
        return text;
    size_t name = element_names[node->tag].length;
    return has_content(tree, index) ? 2 * name + 5 + text : name + 3;
}

static uint64_t xml_size(const struct tree *tree)
{
    struct widths widths = widths_under(&tree->table);
    uint64_t size = 0;

    for (size_t i = 0; i < tree->count; i++)
        size += own_size(tree, i, &widths);
    return size;
}

/* ---- XML: its octets ---------------------------------------------------------------------------- */

static const char lower_digits[] = "0123456789abcdef";

static uint8_t *write_name(uint8_t *out, const struct name *name)
{
    memcpy(out, name->letters, name->length);
    return out + name->length;
}

static uint8_t *write_hex(uint8_t *out, const uint8_t *octets, size_t size)
{
    for (size_t i = 0; i < size; i++) {
        *out++ = (uint8_t)lower_digits[octets[i] >> 4];
        *out++ = (uint8_t)lower_digits[octets[i] & 0xF];
    }
    return out;
}

/* Writes a number in so many decimal digits, leading zeros among them. */
static uint8_t *write_digits(uint8_t *out, uint32_t number, size_t digits)
{
    for (size_t i = digits; i > 0; number /= 10)
        out[--i] = (uint8_t)('0' + number % 10);
    return out + digits;
}

static uint8_t *write_decimal(uint8_t *out, uint32_t number)
{
    return write_digits(out, number, decimal_size(number));
}

/* Writes a text escaped, with each token replaced by its entry, in which there are no tokens. */
static uint8_t *write_escaped(uint8_t *out, const uint8_t *text, size_t length,
                              const struct token_table *table)
{
    size_t at = 0;

    while (at < length) {
        size_t run = copied_run(text + at, length - at);
        memcpy(out, text + at, run);
        out += run;
        at += run;
        for (size_t end = length - at < 8 ? length : at + 8; at < end; at++) {
            uint8_t octet = text[at];
            if (octet < ESCAPES && escapes[octet].length != 0)
                out = write_name(out, &escapes[octet]);
            else if (has_entry(table, octet))
                out = write_escaped(out, table->text[octet], table->length[octet].octets, &no_tokens);
            else
                *out++ = octet;
        }
    }
    return out;
}

static uint8_t *write_xml_text(uint8_t *out, struct place text)
{
    return write_escaped(out, body_octets(text.tree, text.node), text.node->length, &text.tree->table);
}

static uint8_t *write_xml_cdata(uint8_t *out, struct place cdata)
{
    return cdata.node->normal_size != 0 ? write_xml_text(out, cdata) : write_name(out, &empty_section);
}

struct date {
    uint32_t year, month, day;
};

/* The date of a day of 002's count, in the calendar in which each fourth year has a leap day but for three in
 * 400 years.  Years begin in March here, so that a leap day ends its year, its four years and its 400. */
static struct date date_of(int64_t day)
{
    uint32_t left = (uint32_t)(day + 678881); /* since 1 March of the year 0; day 0 is 17 November 1858 */
    uint32_t spans = left / 146097;
    left %= 146097;
    uint32_t centuries = left / 36524 < 4 ? left / 36524 : 3;
    left -= centuries * 36524;
    uint32_t fours = left / 1461;
    left %= 1461;
    uint32_t years = left / 365 < 4 ? left / 365 : 3;
    left -= years * 365;
    uint32_t months = (5 * left + 2) / 153; /* from March on, five months have 153 days */
    bool next_year = months >= 10;

    return (struct date){.year = 400 * spans + 100 * centuries + 4 * fours + years + next_year,
                         .month = next_year ? months - 9 : months + 3,
                         .day = left - (153 * months + 2) / 5 + 1};
}

/* 003, clause 5.2.12: local time and its difference from UTC, here with seconds and difference always.  Days
 * from -1 to 100,000 lie in the years 1858 to 2132, so four digits do. */
static uint8_t *write_xml_time(uint8_t *out, const struct time_value *time)
{
    struct local_time local = local_time(time);
    struct date date = date_of(local.day);
    uint32_t half_hours = time->offset & HALF_HOURS;

    out = write_digits(out, date.year, 4);
    *out++ = '-';
    out = write_digits(out, date.month, 2);
    *out++ = '-';
    out = write_digits(out, date.day, 2);
    *out++ = 'T';
    out = write_digits(out, local.hours, 2);
    *out++ = ':';
    out = write_digits(out, local.minutes, 2);
    *out++ = ':';
    out = write_digits(out, time->seconds, 2);
    *out++ = (time->offset & MINUS) != 0 ? '-' : '+';
    out = write_digits(out, half_hours / 2, 2);
    *out++ = ':';
    return write_digits(out, half_hours % 2 * 30, 2);
}

/* ECC, EId, SId and SCIdS; without an ensemble the first two are empty.  No field more: 002's third bit
 * brings none. */
static uint8_t *write_xml_bearer(uint8_t *out, const uint8_t *body, size_t length)
{
    size_t ensemble_octets = (body[0] & ENSEMBLE_FLAG) != 0 ? 3 : 0;
    const uint8_t *sid = body + 1 + ensemble_octets;

    if (ensemble_octets != 0)
        out = write_hex(out, body + 1, 1);
    *out++ = '.';
    if (ensemble_octets != 0)
        out = write_hex(out, body + 2, 2);
    *out++ = '.';
    out = write_hex(out, sid, length - 1 - ensemble_octets);
    *out++ = '.';
    *out++ = (uint8_t)lower_digits[body[0] & 0xF];
    return out;
}

static uint8_t *write_xml_value(uint8_t *out, const struct tree *tree, const struct node *node)
{
    const uint8_t *body = body_octets(tree, node);

    switch (node->body) {
    case TEXT:
        return write_xml_text(out, (struct place){tree, node});
    case TIME: {
        struct time_value time;
        read_time(body, node->length, &time);
        return write_xml_time(out, &time);
    }
    case BEARER:
        return write_xml_bearer(out, body, node->length);
    case ENUMERATED: {
        const struct name *name = octet_name(tree, node);
        return name != NULL ? write_name(out, name) : write_hex(out, body, 1);
    }
    case DURATION:
        *out++ = 'P';
        *out++ = 'T';
        out = write_decimal(out, number_in(body, node->length));
        *out++ = 'S';
        return out;
    default: /* NUMBER and SHORT_ID */
        return write_decimal(out, number_in(body, node->length));
    }
}

/* Writes an element's attributes by rising tag; `*index` is left behind the last. */
static uint8_t *write_xml_attributes(uint8_t *out, const struct tree *tree, uint8_t element, size_t *index)
{
    struct attributes attributes = attributes_at(tree, *index);

    for (size_t i = 0; i < ATTRIBUTE_TAGS; i++) {
        if (attributes.by_tag[i] == NULL)
            continue;
        *out++ = ' ';
        out = write_name(out, &attribute_names[element][i]);
        *out++ = '=';
        *out++ = '"';
        out = write_xml_value(out, tree, attributes.by_tag[i]);
        *out++ = '"';
    }
    *index = attributes.end;
    return out;
}

/* Writes the element at `*index` with all in it; `*index` is left behind them. */
static uint8_t *write_xml_element(uint8_t *out, const struct tree *tree, size_t *index)
{
    const struct node *node = &tree->nodes[*index];
    const struct name *name = &element_names[node->tag];
    bool is_open = has_content(tree, *index);

    *out++ = '<';
    out = write_name(out, name);
    ++*index;
    if (*index < tree->count && is_attribute(tree->nodes[*index].tag))
        out = write_xml_attributes(out, tree, node->tag, index);
    if (!is_open)
        *out++ = '/';
    *out++ = '>';
    if (!is_open)
        return out;
    if (node->body == TEXT)
        out = write_xml_text(out, (struct place){tree, node});
    while (*index < tree->count && tree->nodes[*index].depth > node->depth) {
        if (tree->nodes[*index].tag == CDATA)
            out = write_xml_cdata(out, (struct place){tree, &tree->nodes[(*index)++]});
        else
            out = write_xml_element(out, tree, index);
    }
    *out++ = '<';
    *out++ = '/';
    out = write_name(out, name);
    *out++ = '>';
    return out;
}

/* Writes the XML of an accepted object, or refuses it by 17 or 15 and writes nothing. */
static struct verdict export_xml(const struct tree *tree, uint32_t room, uint8_t *out, size_t *size)
{
    size_t index = 0;

    if (tree->first_plain != 0)
        return refused(PLAIN_OCTETS, tree->first_plain);
    if (xml_size(tree) > room)
        return refused(OUTPUT_TOO_LARGE, 0);
    *size = (size_t)(write_xml_element(out, tree, &index) - out);
    return accepted;
}

/* ---- Edits (02, request 2026-06) --------------------------------------------------------------- */

/* A tree that is edited.  Its records lie over a store of its own, which holds their bodies as the normal
 * form has them, packed in record order; so no token is left in it.  The store has room for all that a case
 * may lend and for the octets that one edit brings, so that a state can be made before it is known to fit. */
struct state {
    struct tree tree;
    uint32_t used;                /* octets of the store */
    size_t open[DEPTH_LIMIT + 1]; /* the last element of each depth: what comes one deeper stands in it */
    uint8_t store[2 * FIELD_LIMIT];
};

static void clear_state(struct state *state)
{
    clear_tree(&state->tree, state->store);
    state->used = 0;
    state->open[0] = 0; /* the top is its own parent */
}

/* Adds an item of a tree behind all records of a state, at the depth that it has in that tree. */
static void add_record(struct state *state, const struct tree *from, const struct node *node)
{
    size_t index = state->tree.count++;
    struct node *added = &state->tree.nodes[index];
    uint8_t *body = state->store + state->used;

    *added = *node;
    added->parent = (uint16_t)state->open[node->depth - 1];
    added->start = state->used;
    added->length = (uint32_t)(write_body(body, from, node) - body);
    added->has_tokens = false;
    added->normal_size = added->length;
    state->used += added->length;
    if (node->body == ITEMS)
        state->open[node->depth] = index;
}

static void add_records(struct state *state, const struct tree *from, size_t first, size_t end)
{
    for (size_t i = first; i < end; i++)
        add_record(state, from, &from->nodes[i]);
}

/* What is edited: the state as it is, the one that an edit makes, and what both must fit. */
struct editing {
    struct state *now, *next;
    uint32_t places, store;
};

/* Counts the sizes of the state that was made, and takes it over where it fits. */
static int take_over(struct editing *editing)
{
    struct state *made = editing->next;
    struct sizes sizes = measure(&made->tree);

    if (sizes.store > editing->store || sizes.output > OBJECT_LIMIT)
        return OUTPUT_TOO_LARGE;
    editing->next = editing->now;
    editing->now = made;
    return ACCEPTED;
}

/* Takes an accepted object in.  Tokens can make of it far more than any store holds, so it is measured
 * before its texts are expanded. */
static int take_in(struct editing *editing, struct tree *object)
{
    if (object->count > editing->places)
        return TOO_FEW_PLACES;
    if (measure(object).store > editing->store)
        return OUTPUT_TOO_LARGE;
    clear_state(editing->next);
    add_records(editing->next, object, 0, object->count);
    return take_over(editing);
}

/* Every edit is this: the records of `given` come in the place of those from `first` to before `end`.  A
 * text comes in the place of a text, nothing in the place of an item with all below it, an element with all
 * below it in the place of nothing. */
static int exchange(struct editing *editing, size_t first, size_t end, const struct tree *given)
{
    const struct tree *tree = &editing->now->tree;

    if (tree->count - (end - first) + given->count > editing->places)
        return TOO_FEW_PLACES;
    clear_state(editing->next);
    add_records(editing->next, tree, 0, first);
    add_records(editing->next, given, 0, given->count);
    add_records(editing->next, tree, end, tree->count);
    return take_over(editing);
}

/* The index behind an item and all below it. */
static size_t behind(const struct tree *tree, size_t index)
{
    size_t end = index + 1;

    while (end < tree->count && tree->nodes[end].depth > tree->nodes[index].depth)
        end++;
    return end;
}

/* One edit as it stands in the stream.  `given` is over the octets that come with it, and gets the records
 * that these stand for; it has none before they are judged. */
struct edit {
    uint8_t letter;
    uint32_t number; /* of the record that is edited, or of the element that gets a child */
    uint32_t place;  /* among the child elements there */
    uint32_t size;   /* of the octets */
    struct tree *given;
};

/* Replaces a text: CDATA, a text attribute or 0x06.  No table is there, so a token octet has no entry. */
static int replace_text(struct editing *editing, const struct edit *edit)
{
    const struct tree *tree = &editing->now->tree;
    struct node *text = &edit->given->nodes[0];

    if (edit->number >= tree->count || tree->nodes[edit->number].body != TEXT)
        return NO_SUCH_RECORD;
    *text = tree->nodes[edit->number];
    text->start = 0;
    text->length = edit->size;
    edit->given->count = 1;
    if (judge_body(edit->given, text, tree->nodes[text->parent].tag) != ACCEPTED)
        return NOT_WELL_FORMED;
    return exchange(editing, edit->number, edit->number + 1, edit->given);
}

/* Removes an item with all below it.  What is left breaks no rule and needs no more than before. */
static int remove_item(struct editing *editing, const struct edit *edit)
{
    const struct tree *tree = &editing->now->tree;

    if (edit->number == 0 || edit->number >= tree->count)
        return NO_SUCH_RECORD;
    return exchange(editing, edit->number, behind(tree, edit->number), edit->given);
}

/* Where an element is put in, to be the child element of this number: behind the attributes and so many
 * child elements.  False where there aren't as many. */
static bool find_place(const struct tree *tree, size_t parent, uint32_t place, size_t *found)
{
    size_t end = behind(tree, parent), at = attributes_at(tree, parent + 1).end;

    for (; place > 0; place--) {
        if (at == end || tree->nodes[at].tag == CDATA)
            return false;
        at = behind(tree, at);
    }
    *found = at;
    return true;
}

/* Whether the list of an element obeys rules 4, 6 and 7 with an element of this tag put in at `place`. */
static bool may_stand(const struct tree *tree, size_t parent, size_t place, uint8_t tag)
{
    struct open_element list = open_list(tree, parent);
    size_t end = behind(tree, parent);

    for (size_t at = parent + 1;; at = behind(tree, at)) {
        if (at == place && judge_placement(&list, tag, element_body[tag]) != ACCEPTED)
            return false;
        if (at == end)
            return true;
        if (judge_placement(&list, tree->nodes[at].tag, tree->nodes[at].body) != ACCEPTED)
            return false;
    }
}

/* Reads octets that are to be one known element, 0x04 apart, where it will stand: below a record of the
 * tree, with no token table.  Unknown items in it are passed over, as in an object, and like an object it has
 * at most 32,768 octets. */
static bool read_element(struct tree *given, uint32_t size, const struct tree *tree, size_t parent,
                         size_t place)
{
    struct open_element list = open_list(tree, parent);
    struct item item;

    if (size > OBJECT_LIMIT || frame_item(given->octets, 0, size, &item) != ACCEPTED || item.end != size)
        return false;
    if (!is_element(item.tag))
        return false;
    uint8_t body = element_body[item.tag];
    if (body == UNKNOWN || body == ENTRIES || !may_stand(tree, parent, place, item.tag))
        return false;
    list.node = 0; /* numbers of records are those of `given` here, and go by depths when it is put in */
    return read_known(given, &list, &item, body).number == ACCEPTED;
}

/* Puts an element in, with all below it, among the child elements of one that holds items. */
static int put_in(struct editing *editing, const struct edit *edit)
{
    const struct tree *tree = &editing->now->tree;
    size_t place;

    if (edit->number >= tree->count || tree->nodes[edit->number].body != ITEMS)
        return NO_SUCH_RECORD;
    if (!find_place(tree, edit->number, edit->place, &place))
        return NO_SUCH_RECORD;
    if (!read_element(edit->given, edit->size, tree, edit->number, place))
        return NOT_WELL_FORMED;
    return exchange(editing, place, place, edit->given);
}

/* Makes one edit, or answers 18, 16, 14 or 15, the first of them that holds, and changes nothing. */
static int make_edit(struct editing *editing, const struct edit *edit)
{
    switch (edit->letter) {
    case 'T':
        return replace_text(editing, edit);
    case 'D':
        return remove_item(editing, edit);
    default: /* I */
        return put_in(editing, edit);
    }
}

/* ---- The small receiver's gate: refusal 19 (02, 2026-07; 002, annex A) ------------------------- */

enum {
    SI = 0, /* the data types, as a G case numbers them */
    PI = 1,
    GI = 2,
    DATA_TYPES = 3,
    PROFILE_ITEMS = 9 /* the most that one element may hold: a programme of table A.3 */
};

/* The top of a data type, and what may stand directly in each element: attributes by their tags of annex E,
 * then elements.  Rows that aren't filled end in 0, which is no tag. */
struct profile {
    uint8_t top;
    uint8_t inside[ELEMENT_TAGS][PROFILE_ITEMS];
};

/* Annex A spells some names in another way than annexes D and E; here they go by these.  What is required
 * isn't asked. */
static const struct profile basic_profile[DATA_TYPES] = {
    /* tables A.1 (DAB) and A.2 (DRM) together */
    [SI] = {.top = SERVICE_INFORMATION,
            .inside = {[SERVICE_INFORMATION] = {0x80, ENSEMBLE, SERVICE},
                       [ENSEMBLE] = {0x80, SHORT_NAME, MEDIUM_NAME, MEDIA_DESCRIPTION, SERVICE},
                       [SHORT_NAME] = {0x80},
                       [MEDIUM_NAME] = {0x80},
                       [MEDIA_DESCRIPTION] = {MULTIMEDIA},
                       [MULTIMEDIA] = {0x83, 0x80, 0x81, 0x82, 0x84, 0x85},
                       [SERVICE] = {SERVICE_BEARER, SHORT_NAME, MEDIUM_NAME, MEDIA_DESCRIPTION, RADIODNS},
                       [SERVICE_BEARER] = {0x80},
                       [RADIODNS] = {0x80, 0x81}}},
    /* table A.3; its attribute `time` is that of the element time, since a location has none */
    [PI] = {.top = EPG,
            .inside = {[EPG] = {SCHEDULE},
                       [SCHEDULE] = {0x80, SCOPE, PROGRAMME},
                       [SCOPE] = {0x80, 0x81, SERVICE_SCOPE},
                       [SERVICE_SCOPE] = {0x80},
                       [PROGRAMME] = {0x81, 0x83, 0x84, MEDIUM_NAME, LONG_NAME, LOCATION, MEDIA_DESCRIPTION,
                                      GENRE, MEMBER_OF},
                       [MEDIUM_NAME] = {0x80},
                       [LONG_NAME] = {0x80},
                       [LOCATION] = {TIME_ELEMENT, LOCATION_BEARER},
                       [TIME_ELEMENT] = {0x80, 0x81},
                       [LOCATION_BEARER] = {0x80},
                       [MEDIA_DESCRIPTION] = {SHORT_DESCRIPTION},
                       [SHORT_DESCRIPTION] = {0x80},
                       [GENRE] = {0x80, 0x81},
                       [MEMBER_OF] = {0x81, 0x82}}},
    /* table A.4 */
    [GI] = {.top = EPG,
            .inside = {[EPG] = {PROGRAMME_GROUPS},
                       [PROGRAMME_GROUPS] = {0x80, PROGRAMME_GROUP},
                       [PROGRAMME_GROUP] = {0x81, 0x83, 0x84, MEDIUM_NAME, LONG_NAME, GENRE, MEMBER_OF},
                       [MEDIUM_NAME] = {0x80},
                       [LONG_NAME] = {0x80},
                       [GENRE] = {0x80, 0x81},
                       [MEMBER_OF] = {0x81, 0x82}}}
};

/* Whether a known item may stand in an element.  The language is allowed always; it, like the token table,
 * stands in the top or the object is refused. */
static bool in_profile(const struct profile *profile, uint8_t parent_tag, uint8_t tag)
{
    const uint8_t *inside = profile->inside[parent_tag];

    if (tag == CDATA || tag == DEFAULT_LANGUAGE)
        return true;
    for (size_t i = 0; i < PROFILE_ITEMS; i++)
        if (inside[i] == tag)
            return true;
    return false;
}

/* Judges an accepted object: its top, then its records, which are its known items but the token table. */
static struct verdict judge_profile(const struct tree *tree, uint8_t data_type)
{
    if (data_type >= DATA_TYPES || tree->nodes[0].tag != basic_profile[data_type].top)
        return refused(OUTSIDE_PROFILE, 0);
    for (size_t i = 1; i < tree->count; i++) {
        const struct node *node = &tree->nodes[i];
        if (!in_profile(&basic_profile[data_type], tree->nodes[node->parent].tag, node->tag))
            return refused(OUTSIDE_PROFILE, node->start - node->header);
    }
    return accepted;
}

/* ---- Folding: refusal 22 (02, request 2026-11) ------------------------------------------------- */

enum {
    SHORTEST_WORD = 4,
    LONGEST_WORD = 255,
    TOKENS = 16,                   /* octets that a token may be */
    WORD_LIMIT = OBJECT_LIMIT / 5, /* a word has four octets, and one that is in no word stands before it */
    WORD_SLOTS = 1 << 14           /* more than twice as many */
};

/* A whole run of letters in a text, and how often it stands as one in all texts. */
struct word {
    const uint8_t *letters;
    uint32_t length, uses;
    uint8_t token; /* that stands for it, or 0 */
};

struct vocabulary {
    size_t count, chosen_count;
    struct word words[WORD_LIMIT]; /* in the order of their first use */
    struct word *chosen[TOKENS];   /* those that get a token, the most octets saved first */
    uint16_t slots[WORD_SLOTS];    /* the number of a word from 1, at its hash or behind it; 0 for none */
};

static bool is_letter(uint8_t octet)
{
    return (octet >= 'A' && octet <= 'Z') || (octet >= 'a' && octet <= 'z');
}

/* How many octets at the start of a text are letters. */
static size_t letter_run(const uint8_t *text, size_t length)
{
    size_t run = 0;

    while (run < length && is_letter(text[run]))
        run++;
    return run;
}

/* The place of a word among the slots: its own, or the first free one where it isn't there. */
static uint16_t *slot_of(struct vocabulary *vocabulary, const uint8_t *letters, size_t length)
{
    uint32_t hash = 0;

    for (size_t i = 0; i < length; i++)
        hash = (hash ^ letters[i]) * UINT32_C(0x01000193);
    for (uint32_t at = hash >> 16 ^ hash;; at++) {
        uint16_t *slot = &vocabulary->slots[at % WORD_SLOTS];
        if (*slot == 0)
            return slot;
        const struct word *word = &vocabulary->words[*slot - 1];
        if (word->length == length && memcmp(word->letters, letters, length) == 0)
            return slot;
    }
}

static void count_word(struct vocabulary *vocabulary, const uint8_t *letters, size_t length)
{
    uint16_t *slot = slot_of(vocabulary, letters, length);

    if (*slot == 0) {
        struct word *word = &vocabulary->words[vocabulary->count++];
        *word = (struct word){.letters = letters, .length = (uint32_t)length};
        *slot = (uint16_t)vocabulary->count;
    }
    vocabulary->words[*slot - 1].uses++;
}

static bool is_word(size_t run)
{
    return run >= SHORTEST_WORD && run <= LONGEST_WORD;
}

static void count_words(struct vocabulary *vocabulary, const uint8_t *text, size_t length)
{
    for (size_t at = 0; at < length; at++) {
        size_t run = letter_run(text + at, length - at);
        if (is_word(run))
            count_word(vocabulary, text + at, run);
        at += run; /* the octet there is no letter */
    }
}

/* What a token for a word saves: each use becomes one octet, and the entry is tag, length and letters. */
static int64_t saving(const struct word *word)
{
    return (int64_t)word->uses * (word->length - 1) - (word->length + 2);
}

/* Puts a word among those that are chosen, behind all that save as much; the last one goes where it is one
 * too many. */
static void choose(struct vocabulary *vocabulary, struct word *word)
{
    size_t at = vocabulary->chosen_count;

    while (at > 0 && saving(vocabulary->chosen[at - 1]) < saving(word))
        at--;
    if (at == TOKENS)
        return;
    if (vocabulary->chosen_count < TOKENS)
        vocabulary->chosen_count++;
    for (size_t i = vocabulary->chosen_count - 1; i > at; i--)
        vocabulary->chosen[i] = vocabulary->chosen[i - 1];
    vocabulary->chosen[at] = word;
}

/* Chooses words of an object's texts, and gives them tokens, which rise in the order of what they save. */
static void choose_words(struct vocabulary *vocabulary, const struct tree *tree)
{
    vocabulary->count = vocabulary->chosen_count = 0;
    memset(vocabulary->slots, 0, sizeof vocabulary->slots);
    for (size_t i = 0; i < tree->count; i++)
        if (tree->nodes[i].body == TEXT)
            count_words(vocabulary, body_octets(tree, &tree->nodes[i]), tree->nodes[i].length);
    for (size_t i = 0; i < vocabulary->count; i++)
        if (saving(&vocabulary->words[i]) > 0)
            choose(vocabulary, &vocabulary->words[i]);
    uint8_t token = 0;
    for (size_t i = 0; i < vocabulary->chosen_count; i++) {
        do
            token++;
        while ((UINT32_C(1) << token & TOKEN_OCTETS) == 0);
        vocabulary->chosen[i]->token = token;
    }
}

/* Adds the table of the words that were chosen to a state. */
static void add_table(struct state *state, const struct vocabulary *vocabulary)
{
    struct node *table = &state->tree.nodes[state->tree.count++];
    uint8_t *body = state->store + state->used, *out = body;

    for (size_t i = 0; i < vocabulary->chosen_count; i++) {
        const struct word *word = vocabulary->chosen[i];
        *out++ = word->token;
        *out++ = (uint8_t)word->length;
        memcpy(out, word->letters, word->length);
        out += word->length;
    }
    *table = (struct node){.start = state->used,
                           .length = (uint32_t)(out - body),
                           .normal_size = (uint64_t)(out - body),
                           .tag = TOKEN_TABLE,
                           .depth = 2,
                           .body = ENTRIES};
    state->used += table->length;
}

/* The token of a word that was counted, or 0. */
static uint8_t token_of(struct vocabulary *vocabulary, const uint8_t *letters, size_t length)
{
    return vocabulary->words[*slot_of(vocabulary, letters, length) - 1].token;
}

/* Puts tokens in the place of words, in the text that was added to a state last; it becomes no longer. */
static void fold_last(struct state *state, struct vocabulary *vocabulary)
{
    struct node *node = &state->tree.nodes[state->tree.count - 1];
    uint8_t *text = state->store + node->start, *out = text;

    for (size_t at = 0; at < node->length;) {
        size_t run = letter_run(text + at, node->length - at);
        uint8_t token = is_word(run) ? token_of(vocabulary, text + at, run) : 0;
        if (token != 0) {
            *out++ = token;
        } else {
            memmove(out, text + at, run);
            out += run;
        }
        at += run;
        if (at < node->length)
            *out++ = text[at++]; /* no letter */
    }
    node->length = (uint32_t)(out - text);
    node->normal_size = node->length;
    state->used = node->start + node->length;
}

/* Makes the packed form of an object in normal form: its records with folded texts, and the table behind the
 * attributes of the top.  Answers its size. */
static uint64_t fold(struct state *state, const struct tree *tree, struct vocabulary *vocabulary)
{
    size_t behind_attributes = attributes_at(tree, 1).end;

    choose_words(vocabulary, tree);
    clear_state(state);
    for (size_t i = 0; i < tree->count; i++) {
        if (i == behind_attributes)
            add_table(state, vocabulary);
        add_record(state, tree, &tree->nodes[i]);
        if (tree->nodes[i].body == TEXT)
            fold_last(state, vocabulary);
    }
    if (behind_attributes == tree->count)
        add_table(state, vocabulary);
    return measure(&state->tree).output;
}

/* ---- Merging Basic and Advanced: refusals 20 and 21 (02, 2026-10; 002, clauses 5.3 and 5.4) ------ */

/* Tables 8 to 10: the attribute that is the merging key of an element, by the last name of a row's path.  The rows
 * of a bearer are those of a service, so theirs is the code 0x29.  The version of serviceInformation is an attribute
 * like any other here: the tops merge without a key. */
static const uint8_t merging_attribute[ELEMENT_TAGS] = {
    [ENSEMBLE] = 0x80,
    [SERVICE_BEARER] = 0x80,
    [SCHEDULE] = 0x80,
    [PROGRAMME] = 0x81,
    [PROGRAMME_GROUPS] = 0x80,
    [PROGRAMME_GROUP] = 0x81
};

/* How services are told apart.  Annex D's column of parents makes a service the one element, the tops aside, that
 * isn't named by the tables and can hold a named one. */
enum services { BY_TAG = 0, BY_BEARERS = 1, WAYS_TO_TELL = 2 };

/* Finds where each item ends, so that brothers can be gone through one by one: an element ends where the last item in
 * it does, and items in it come behind it, so the last item is looked at first. */
static void mark_ends(struct tree *tree)
{
    for (size_t i = 0; i < tree->count; i++)
        tree->ends[i] = (uint16_t)(i + 1);
    for (size_t i = tree->count - 1; i > 0; i--) {
        uint16_t *parent_end = &tree->ends[tree->nodes[i].parent];
        if (*parent_end < tree->ends[i])
            *parent_end = tree->ends[i];
    }
}

/* An element of one of the objects, or no element, where it has no tree. */
struct element {
    const struct tree *tree;
    size_t index;
};

static const struct element no_element = {NULL, 0};

static const struct node *node_of(struct element element)
{
    return &element.tree->nodes[element.index];
}

static struct attributes attributes_of(struct element element)
{
    return element.tree != NULL ? attributes_at(element.tree, element.index + 1) : (struct attributes){.end = 0};
}

/* What stands in an element behind its attributes: the language of a top, child elements, CDATA. */
static struct part inside(struct element element)
{
    if (element.tree == NULL)
        return (struct part){NULL, 0, 0};
    struct part part = {element.tree, element.index + 1, element.tree->ends[element.index]};
    while (part.first < part.end && is_attribute(part.tree->nodes[part.first].tag))
        part.first++;
    return part;
}

/* The item of this tag directly in an element, of those that stand there at most once; NULL where there is none. */
static const struct node *find_inside(struct element element, uint8_t tag)
{
    struct part part = inside(element);

    for (size_t at = part.first; at < part.end; at = part.tree->ends[at])
        if (part.tree->nodes[at].tag == tag)
            return &part.tree->nodes[at];
    return NULL;
}

/* Whether two items of one tag contradict each other; one that isn't there, NULL, contradicts none. */
static bool differ(struct element first, const struct node *a, struct element second, const struct node *b)
{
    return a != NULL && b != NULL && !same_items((struct place){first.tree, a}, (struct place){second.tree, b});
}

/* One attribute of an element, of those that have no default; NULL where it isn't there. */
static const struct node *attribute_of(struct element element, uint8_t tag)
{
    const struct tree *tree = element.tree;

    for (size_t at = element.index + 1; at < tree->count && is_attribute(tree->nodes[at].tag); at++)
        if (tree->nodes[at].tag == tag)
            return &tree->nodes[at];
    return NULL;
}

/* Whether the attributes of one tag of two elements are the same, or neither has it. */
static bool same_attribute(struct element first, struct element second, uint8_t tag)
{
    const struct node *a = attribute_of(first, tag), *b = attribute_of(second, tag);

    if (a == NULL || b == NULL)
        return a == b;
    return same_items((struct place){first.tree, a}, (struct place){second.tree, b});
}

static bool has_bearer(struct part service, struct element bearer)
{
    for (size_t at = service.first; at < service.end; at = service.tree->ends[at])
        if (service.tree->nodes[at].tag == SERVICE_BEARER &&
            same_attribute(bearer, (struct element){service.tree, at}, merging_attribute[SERVICE_BEARER]))
            return true;
    return false;
}

/* Whether each bearer of the other service has its id, or has none, as a bearer of this one. */
static bool has_bearers_of(struct part service, struct part other)
{
    for (size_t at = other.first; at < other.end; at = other.tree->ends[at])
        if (other.tree->nodes[at].tag == SERVICE_BEARER && !has_bearer(service, (struct element){other.tree, at}))
            return false;
    return true;
}

/* Whether the ids of their bearers are one set, in which an absent one counts as an id of its own. */
static bool same_services(struct part first, struct part second)
{
    return has_bearers_of(first, second) && has_bearers_of(second, first);
}

/* Whether items of a tag have a merging key; of those inside an element, only elements have. */
static bool has_key(uint8_t tag)
{
    return is_element(tag) && (tag == SERVICE || merging_attribute[tag] != 0);
}

/* Whether two items have the same merging key, so that they become one where one is of each object.  An attribute
 * that isn't there is a key too, and the same as another that isn't. */
static bool same_key(struct element first, struct element second, enum services services)
{
    uint8_t tag = node_of(first)->tag;

    if (!has_key(tag) || node_of(second)->tag != tag)
        return false;
    if (tag == SERVICE)
        return services == BY_TAG || same_services(inside(first), inside(second));
    return same_attribute(first, second, merging_attribute[tag]);
}

/* Whether two elements that become one contradict each other, or two below them do that become one with them: in the
 * value of an attribute, in the language, or since both have CDATA, be it the same. */
static bool contradict(struct element basic, struct element advanced, enum services services)
{
    struct attributes a = attributes_of(basic), b = attributes_of(advanced);
    struct part first = inside(basic), second = inside(advanced);

    for (size_t i = 0; i < ATTRIBUTE_TAGS; i++)
        if (differ(basic, a.by_tag[i], advanced, b.by_tag[i]))
            return true;
    if (differ(basic, find_inside(basic, DEFAULT_LANGUAGE), advanced, find_inside(advanced, DEFAULT_LANGUAGE)))
        return true;
    if (find_inside(basic, CDATA) != NULL && find_inside(advanced, CDATA) != NULL)
        return true;
    for (size_t i = first.first; i < first.end; i = first.tree->ends[i]) {
        if (!has_key(first.tree->nodes[i].tag))
            continue;
        for (size_t j = second.first; j < second.end; j = second.tree->ends[j]) {
            struct element child = {first.tree, i}, partner = {second.tree, j};
            if (same_key(child, partner, services) && contradict(child, partner, services))
                return true;
        }
    }
    return false;
}

/* Whether two elements under one parent, wherever that stands, have the same key: brothers follow each other at one
 * depth. */
static bool has_key_twice(const struct tree *tree, enum services services)
{
    for (size_t i = 1; i < tree->count; i++) {
        if (!has_key(tree->nodes[i].tag))
            continue;
        for (size_t j = tree->ends[i]; j < tree->count && tree->nodes[j].depth == tree->nodes[i].depth;
             j = tree->ends[j])
            if (same_key((struct element){tree, i}, (struct element){tree, j}, services))
                return true;
    }
    return false;
}

/* What two objects become: records as the normal form has them, and of each the tree that its body is read in. */
struct merged {
    struct tree tree;
    const struct tree *from[LIST_LIMIT];
    enum services services;
};

/* Adds an item behind all others; answers its number. */
static size_t add_merged(struct merged *merged, size_t parent, const struct tree *from, const struct node *item)
{
    size_t index = merged->tree.count++;
    struct node *node = &merged->tree.nodes[index];

    *node = *item;
    node->parent = (uint16_t)parent;
    if (node->body == ITEMS)
        node->normal_size = 0; /* it is measured anew */
    merged->from[index] = from;
    return index;
}

/* Adds an item that either of two elements has, if any; where both do, they mean the same. */
static void add_either(struct merged *merged, size_t parent, struct element basic, const struct node *first,
                       struct element advanced, const struct node *second)
{
    if (first != NULL)
        add_merged(merged, parent, basic.tree, first);
    else if (second != NULL)
        add_merged(merged, parent, advanced.tree, second);
}

/* The element inside another that a given one becomes one with, or none. */
static struct element partner_of(struct element element, struct element other, enum services services)
{
    struct part part = inside(other);

    if (!has_key(node_of(element)->tag))
        return no_element;
    for (size_t at = part.first; at < part.end; at = part.tree->ends[at])
        if (same_key(element, (struct element){part.tree, at}, services))
            return (struct element){part.tree, at};
    return no_element;
}

/* Whether an element of Basic has a child that means what an element of Advanced does. */
static bool has_child_like(struct element basic, struct element element)
{
    struct part part = inside(basic), like = {element.tree, element.index, element.tree->ends[element.index]};

    for (size_t at = part.first; at < part.end; at = part.tree->ends[at])
        if (part.tree->nodes[at].tag == node_of(element)->tag &&
            same_parts((struct part){part.tree, at, part.tree->ends[at]}, like))
            return true;
    return false;
}

/* Whether an item is one of the children that are gone through; language and CDATA have places of their own. */
static bool is_child(const struct node *node)
{
    return node->tag != CDATA && node->tag != DEFAULT_LANGUAGE;
}

/* Adds what two elements become, below a record of the result.  An element without a partner is one of Basic's here,
 * and Advanced's is none.  No key is twice in either object, so no element has two partners. */
static void add_pair(struct merged *merged, size_t parent, struct element basic, struct element advanced)
{
    size_t index = add_merged(merged, parent, basic.tree, node_of(basic));
    struct attributes a = attributes_of(basic), b = attributes_of(advanced);
    struct part first = inside(basic), second = inside(advanced);

    for (size_t i = 0; i < ATTRIBUTE_TAGS; i++)
        add_either(merged, index, basic, a.by_tag[i], advanced, b.by_tag[i]);
    add_either(merged, index, basic, find_inside(basic, DEFAULT_LANGUAGE), advanced,
               find_inside(advanced, DEFAULT_LANGUAGE));
    for (size_t at = first.first; at < first.end; at = first.tree->ends[at]) {
        struct element child = {first.tree, at};
        if (is_child(node_of(child)))
            add_pair(merged, index, child, partner_of(child, advanced, merged->services));
    }
    for (size_t at = second.first; at < second.end; at = second.tree->ends[at]) {
        struct element child = {second.tree, at};
        if (is_child(node_of(child)) && partner_of(child, basic, merged->services).tree == NULL &&
            !has_child_like(basic, child))
            add_pair(merged, index, child, no_element);
    }
    add_either(merged, index, basic, find_inside(basic, CDATA), advanced, find_inside(advanced, CDATA));
}

/* Merges two accepted objects, or answers 20 or 21.  20 is looked for in each pair of one key, so it comes first even
 * where a key is twice. */
static int merge(struct merged *merged, struct tree *basic, struct tree *advanced, enum services services)
{
    struct element top = {basic, 0}, other = {advanced, 0};

    mark_ends(basic);
    mark_ends(advanced);
    if (node_of(top)->tag != node_of(other)->tag || contradict(top, other, services))
        return CONTRADICTION;
    if (has_key_twice(basic, services) || has_key_twice(advanced, services))
        return KEY_TWICE;
    clear_tree(&merged->tree, NULL);
    merged->services = services;
    add_pair(merged, 0, top, other);
    return ACCEPTED;
}

/* Writes the normal form of what was merged, once it is measured and found to fit. */
static void write_merged(uint8_t *out, const struct merged *merged)
{
    for (size_t i = 0; i < merged->tree.count; i++) {
        const struct node *node = &merged->tree.nodes[i];
        out = write_body(write_header(out, node), merged->from[i], node);
    }
}

/* ---- The stream of cases ----------------------------------------------------------------------- */

static struct {
    uint8_t buffer[FIELD_LIMIT];
    size_t at, end;
    uint64_t offset; /* of the next octet in the whole stream */
} input;

/* Makes sure that there is an octet to take; false at the end of the stream. */
static bool more_input(void)
{
    if (input.at == input.end) {
        input.at = 0;
        input.end = fread(input.buffer, 1, sizeof input.buffer, stdin);
    }
    return input.at < input.end;
}

/* The functions below take a field; false where the stream is cut or the field above its bound. */

static bool take_octets(uint8_t *into, size_t count)
{
    while (count > 0) {
        if (!more_input())
            return false;
        size_t ready = input.end - input.at;
        size_t part = count < ready ? count : ready;
        memcpy(into, input.buffer + input.at, part);
        input.at += part;
        input.offset += part;
        into += part;
        count -= part;
    }
    return true;
}

static bool take_short(uint32_t *number)
{
    uint8_t octets[2];

    if (!take_octets(octets, sizeof octets))
        return false;
    *number = (uint32_t)octets[0] << 8 | octets[1];
    return true;
}

static bool take_bounded(uint32_t *number)
{
    uint8_t octets[3];

    if (!take_octets(octets, sizeof octets))
        return false;
    *number = (uint32_t)octets[0] << 16 | (uint32_t)octets[1] << 8 | octets[2];
    return *number <= FIELD_LIMIT;
}

struct object {
    uint32_t size;
    uint8_t octets[FIELD_LIMIT];
};

static bool take_object(struct object *object)
{
    return take_bounded(&object->size) && take_octets(object->octets, object->size);
}

/* ---- Printing ---------------------------------------------------------------------------------- */

static struct {
    char buffer[FIELD_LIMIT];
    size_t used;
    bool failed;
} output;

static void flush_output(void)
{
    if (fwrite(output.buffer, 1, output.used, stdout) != output.used || fflush(stdout) != 0)
        output.failed = true;
    output.used = 0;
}

static void put_char(char character)
{
    if (output.used == sizeof output.buffer)
        flush_output();
    output.buffer[output.used++] = character;
}

static void put_string(const char *string)
{
    while (*string != '\0')
        put_char(*string++);
}

static void put_number(uint64_t number)
{
    char digits[20];
    size_t count = 0;

    do {
        digits[count++] = (char)('0' + number % 10);
        number /= 10;
    } while (number != 0);
    while (count > 0)
        put_char(digits[--count]);
}

static void put_octet(uint8_t octet, const char *digits)
{
    if (sizeof output.buffer - output.used < 2)
        flush_output();
    output.buffer[output.used++] = digits[octet >> 4];
    output.buffer[output.used++] = digits[octet & 0xF];
}

static void put_refusal(struct verdict verdict)
{
    put_string("refused ");
    put_number(verdict.number);
    put_string(" at ");
    put_number(verdict.place);
    if (verdict.number == BAD_VALUE) {
        put_string(" field ");
        put_number(verdict.field);
    }
}

static void put_record(const struct node *node)
{
    put_number(node->depth);
    put_char(' ');
    put_octet(node->tag, "0123456789ABCDEF");
    put_char(' ');
    put_string(kind_names[kind_of_tag(node->tag)]);
    put_char(' ');
    put_number(node->start);
    put_char(' ');
    put_number(node->length);
    put_char('\n');
}

static void put_record_count(const struct tree *tree)
{
    put_string("records ");
    put_number(tree->count);
}

static void put_listing(const struct tree *tree)
{
    put_string("depth tag kind offset length\n");
    for (size_t i = 0; i < tree->count; i++)
        put_record(&tree->nodes[i]);
    put_record_count(tree);
}

static void put_counts(const struct tree *tree)
{
    put_record_count(tree);
    put_string(" headers ");
    put_number(tree->headers);
}

static void put_octets(const char *word, const uint8_t *octets, size_t size)
{
    put_string(word);
    for (size_t i = 0; i < size; i++)
        put_octet(octets[i], "0123456789abcdef");
}

/* ---- One function for each letter -------------------------------------------------------------- */

static struct tree first_tree, second_tree;
static struct state first_state, second_state;
static struct merged merged_objects;
static struct object first_object, second_object;
static uint8_t normal_form[OBJECT_LIMIT];
static uint8_t lent_records[LIST_LIMIT * RECORD_OCTETS];
static uint8_t xml_octets[FIELD_LIMIT];
static uint8_t given_octets[FIELD_LIMIT];
static struct vocabulary vocabulary;

/* Writes the normal form of an accepted object, or answers 14 or 15 and writes nothing. */
static int normalise(struct tree *tree, uint32_t places, uint32_t store, uint32_t room, uint8_t *out,
                     size_t *size)
{
    if (tree->count > places)
        return TOO_FEW_PLACES;
    struct sizes sizes = measure(tree);
    if (sizes.store > store || sizes.output > room || sizes.output > OBJECT_LIMIT)
        return OUTPUT_TOO_LARGE;
    write_tree(out, tree);
    *size = sizes.output;
    return ACCEPTED;
}

/* Each function below takes one case and prints its answer but for the newline; false, with nothing
 * printed, where the stream is bad. */

/* Reads an object into so many places. */
static struct verdict read_into(struct tree *tree, const struct object *object, uint32_t places)
{
    struct verdict verdict = read_object(tree, object->octets, object->size);

    if (verdict.number == ACCEPTED && tree->count > places)
        return refused(TOO_FEW_PLACES, 0);
    return verdict;
}

/* The listing of the object of a case, or its counts, of which nothing is told after a refusal, since both are
 * 0 then. */
static void put_reading(uint32_t places, void (*put)(const struct tree *tree))
{
    struct verdict verdict = read_into(&first_tree, &first_object, places);

    if (verdict.number != ACCEPTED)
        put_refusal(verdict);
    else
        put(&first_tree);
}

static bool answer_reading(void (*put)(const struct tree *tree))
{
    uint32_t places;

    if (!take_short(&places) || !take_object(&first_object))
        return false;
    put_reading(places, put);
    return true;
}

/* With no list lent (02, request 2026-14): as with one that is long enough for every object. */
static bool answer_counts(void)
{
    if (!take_object(&first_object))
        return false;
    put_reading(LIST_LIMIT, put_counts);
    return true;
}

static bool answer_normal(void)
{
    uint32_t places, store, room;
    size_t size = 0;

    if (!take_short(&places) || !take_bounded(&store) || !take_bounded(&room) || !take_object(&first_object))
        return false;
    struct verdict verdict = read_object(&first_tree, first_object.octets, first_object.size);
    if (verdict.number == ACCEPTED)
        verdict.number = (uint8_t)normalise(&first_tree, places, store, room, normal_form, &size);
    if (verdict.number != ACCEPTED)
        put_refusal(verdict);
    else
        put_octets("normal ", normal_form, size);
    return true;
}

static bool answer_written(void)
{
    uint32_t count, places, room;
    size_t size = 0;
    struct verdict verdict = refused(NOT_WELL_FORMED, 0);

    if (!take_short(&count) || !take_short(&places) || !take_octets(lent_records, places * RECORD_OCTETS))
        return false;
    if (!take_bounded(&room) || !take_object(&first_object))
        return false;
    if (count <= places &&
        read_records(&first_tree, lent_records, count, first_object.octets, first_object.size)) {
        size = measure(&first_tree).output;
        verdict.number = size > room || size > OBJECT_LIMIT ? OUTPUT_TOO_LARGE : ACCEPTED;
    }
    if (verdict.number != ACCEPTED) {
        put_refusal(verdict);
        return true;
    }
    write_tree(normal_form, &first_tree);
    put_octets("written ", normal_form, size);
    return true;
}

static void put_refusal_in(struct verdict verdict, const char *which)
{
    put_refusal(verdict);
    put_string(which);
}

/* Nothing is lent, so no object is too large to be compared. */
static bool answer_same(void)
{
    if (!take_object(&first_object) || !take_object(&second_object))
        return false;
    struct verdict first = read_object(&first_tree, first_object.octets, first_object.size);
    struct verdict second = read_object(&second_tree, second_object.octets, second_object.size);
    if (first.number != ACCEPTED)
        put_refusal_in(first, " in first");
    else if (second.number != ACCEPTED)
        put_refusal_in(second, " in second");
    else
        put_string(same_meaning(&first_tree, &second_tree) ? "same" : "different");
    return true;
}

static bool answer_xml(void)
{
    uint32_t room;
    size_t size = 0;

    if (!take_bounded(&room) || !take_object(&first_object))
        return false;
    struct verdict verdict = read_object(&first_tree, first_object.octets, first_object.size);
    if (verdict.number == ACCEPTED)
        verdict = export_xml(&first_tree, room, xml_octets, &size);
    if (verdict.number != ACCEPTED)
        put_refusal(verdict);
    else
        put_octets("xml ", xml_octets, size);
    return true;
}

static bool take_given(struct edit *edit)
{
    return take_short(&edit->size) && take_octets(given_octets, edit->size);
}

static bool take_edit(struct edit *edit)
{
    clear_tree(edit->given, given_octets);
    if (!take_octets(&edit->letter, 1) || !take_short(&edit->number))
        return false;
    switch (edit->letter) {
    case 'T':
        return take_given(edit);
    case 'D':
        return true;
    case 'I':
        return take_short(&edit->place) && take_given(edit);
    default:
        return false;
    }
}

static void put_edits(const int *numbers, size_t count)
{
    for (size_t i = 0; i < count; i++) {
        if (numbers[i] == ACCEPTED)
            put_string("edited");
        else
            put_refusal(refused(numbers[i], 0));
        put_char('\n');
    }
}

static void put_state(const struct tree *tree)
{
    write_tree(normal_form, tree);
    put_octets("written ", normal_form, header_size(tree->nodes[0].normal_size) + tree->nodes[0].normal_size);
    put_string("\nsizes");
    for (size_t i = 0; i < tree->count; i++) {
        put_char(' ');
        put_number(tree->nodes[i].normal_size);
    }
}

/* Nothing may be printed before the whole case is there, so the edits are made as they come and what each
 * answered is kept.  Edits of an object that isn't taken in are passed over. */
static bool answer_edits(void)
{
    struct editing editing = {.now = &first_state, .next = &second_state};
    struct edit edit = {.given = &second_tree};
    int numbers[EDITS_LIMIT];
    uint8_t count;

    if (!take_short(&editing.places) || !take_bounded(&editing.store) || !take_object(&first_object))
        return false;
    struct verdict verdict = read_object(&first_tree, first_object.octets, first_object.size);
    if (verdict.number == ACCEPTED)
        verdict.number = (uint8_t)take_in(&editing, &first_tree);
    if (!take_octets(&count, 1))
        return false;
    for (size_t i = 0; i < count; i++) {
        if (!take_edit(&edit))
            return false;
        numbers[i] = verdict.number == ACCEPTED ? make_edit(&editing, &edit) : ACCEPTED;
    }
    if (verdict.number != ACCEPTED) {
        put_refusal(verdict);
        return true;
    }
    put_edits(numbers, count);
    put_state(&editing.now->tree);
    return true;
}

/* Nothing is lent, so the places that the case names say nothing. */
static bool answer_gate(void)
{
    uint8_t data_type;
    uint32_t places;

    if (!take_octets(&data_type, 1) || !take_short(&places) || !take_object(&first_object))
        return false;
    struct verdict verdict = read_object(&first_tree, first_object.octets, first_object.size);
    if (verdict.number == ACCEPTED)
        verdict = judge_profile(&first_tree, data_type);
    if (verdict.number != ACCEPTED)
        put_refusal(verdict);
    else
        put_string("yes");
    return true;
}

/* Whether an object is accepted and these octets are its normal form; where that is above 32,768 octets it is
 * no object, and no octets are. */
static bool has_normal_form(struct tree *tree, const struct object *object, const struct object *normal)
{
    size_t size;

    if (read_object(tree, object->octets, object->size).number != ACCEPTED)
        return false;
    if (normalise(tree, LIST_LIMIT, FIELD_LIMIT, OBJECT_LIMIT, normal_form, &size) != ACCEPTED)
        return false;
    return size == normal->size && memcmp(normal_form, normal->octets, size) == 0;
}

/* Octets that are no normal form are no object's, so nothing passes beside them. */
static bool answer_folded(void)
{
    if (!take_object(&first_object) || !take_object(&second_object))
        return false;
    if (second_object.size <= first_object.size &&
        has_normal_form(&second_tree, &second_object, &first_object))
        put_string("passes");
    else
        put_refusal(refused(NOT_FOLDED, 0));
    return true;
}

/* Packs a normal form, or answers 22 or 15; where the packed object isn't shorter, it is the normal form. */
static struct verdict pack(const struct object *object, uint32_t room, uint8_t *out, size_t *size)
{
    if (!has_normal_form(&first_tree, object, object))
        return refused(NOT_FOLDED, 0);
    uint64_t folded = fold(&first_state, &first_tree, &vocabulary);
    bool is_shorter = folded < object->size;
    *size = is_shorter ? folded : object->size;
    if (*size > room)
        return refused(OUTPUT_TOO_LARGE, 0);
    if (is_shorter)
        write_tree(out, &first_state.tree);
    else
        memcpy(out, object->octets, object->size);
    return accepted;
}

static bool answer_packed(void)
{
    uint32_t room;
    size_t size;

    if (!take_bounded(&room) || !take_object(&first_object))
        return false;
    struct verdict verdict = pack(&first_object, room, normal_form, &size);
    if (verdict.number != ACCEPTED)
        put_refusal(verdict);
    else
        put_octets("packed ", normal_form, size);
    return true;
}

/* What two accepted objects become, or 20, 21, 14 or 15.  The result's records and octets must fit what is lent; those
 * of the two objects needn't. */
static int merge_into(struct merged *result, enum services services, uint32_t places, uint32_t store, size_t *size)
{
    int number = merge(result, &first_tree, &second_tree, services);

    if (number != ACCEPTED)
        return number;
    if (result->tree.count > places)
        return TOO_FEW_PLACES;
    struct sizes sizes = measure(&result->tree);
    if (sizes.store > store || sizes.output > OBJECT_LIMIT)
        return OUTPUT_TOO_LARGE;
    *size = sizes.output;
    return ACCEPTED;
}

static bool answer_merged(void)
{
    uint8_t services;
    uint32_t places, store;
    size_t size = 0;

    if (!take_octets(&services, 1) || services >= WAYS_TO_TELL || !take_short(&places) || !take_bounded(&store))
        return false;
    if (!take_object(&first_object) || !take_object(&second_object))
        return false;
    struct verdict first = read_object(&first_tree, first_object.octets, first_object.size);
    struct verdict second = read_object(&second_tree, second_object.octets, second_object.size);
    if (first.number != ACCEPTED || second.number != ACCEPTED) {
        bool is_first = first.number != ACCEPTED;
        put_refusal_in(is_first ? first : second, is_first ? " in first" : " in second");
        return true;
    }
    int number = merge_into(&merged_objects, (enum services)services, places, store, &size);
    if (number != ACCEPTED) {
        put_refusal(refused(number, 0));
        return true;
    }
    write_merged(normal_form, &merged_objects);
    put_octets("merged ", normal_form, size);
    return true;
}

static bool answer_case(uint8_t letter)
{
    switch (letter) {
    case 'L':
        return answer_reading(put_listing);
    case 'N':
        return answer_normal();
    case 'W':
        return answer_written();
    case 'S':
        return answer_same();
    case 'X':
        return answer_xml();
    case 'E':
        return answer_edits();
    case 'G':
        return answer_gate();
    case 'C':
        return answer_reading(put_counts);
    case 'M':
        return answer_merged();
    case 'J':
        return answer_counts();
    case 'F':
        return answer_folded();
    case 'P':
        return answer_packed();
    default:
        return false;
    }
}

static void answer_stream(void)
{
    bool good = true;

    while (good && more_input()) {
        uint64_t start = input.offset;
        uint8_t letter;
        good = take_octets(&letter, 1) && answer_case(letter);
        if (!good) {
            put_string("bad stream at ");
            put_number(start);
        }
        put_char('\n');
    }
}

/* ---- Replay of a recording (02, requests 2026-12 and 2026-14) ---------------------------------- */

enum { REPLAY_PLACES = 1024 };

static const uint8_t recording_head[] = {'S', 'P', 'R', 0, 1}; /* the mark, and the version in 16 bits */

/* A line for an object of a recording: its number, then ok and its records, or its refusal. */
static void put_replayed(uint64_t number, struct verdict verdict, const struct tree *tree)
{
    put_number(number);
    if (verdict.number == ACCEPTED) {
        put_string(" ok ");
        put_number(tree->count);
    } else {
        put_char(' ');
        put_number(verdict.number);
        put_char(' ');
        put_number(verdict.place);
    }
    if (verdict.number == BAD_VALUE) {
        put_char(' ');
        put_number(verdict.field);
    }
    put_char('\n');
}

/* A last line, where the recording itself is refused; places in it can be above those in an object. */
static void put_refused_recording(int number, uint64_t place)
{
    put_string("refused ");
    put_number((uint64_t)number);
    put_char(' ');
    put_number(place);
    put_char('\n');
}

/* Lists the objects behind the head one by one: a size of 16 bits and as many octets each. */
static void replay_objects(uint32_t places)
{
    for (uint64_t number = 1; more_input(); number++) {
        uint64_t start = input.offset;
        if (!take_short(&first_object.size) || !take_octets(first_object.octets, first_object.size)) {
            put_refused_recording(CUT_RECORDING, start);
            return;
        }
        put_replayed(number, read_into(&first_tree, &first_object, places), &first_tree);
    }
}

/* Replays the recording on standard input, with so many places lent. */
static void replay(uint32_t places)
{
    uint8_t head[sizeof recording_head];

    if (!take_octets(head, sizeof head))
        put_refused_recording(CUT_RECORDING, 0);
    else if (memcmp(head, recording_head, sizeof head) != 0)
        put_refused_recording(NO_RECORDING, 0);
    else
        replay_objects(places);
}

int main(int count, char **words)
{
    if (count == 1) {
        answer_stream();
    } else if (count == 2 && strcmp(words[1], "replay") == 0) {
        replay(REPLAY_PLACES);
    } else if (count == 2 && strcmp(words[1], "replay-no-list") == 0) {
        replay(LIST_LIMIT); /* as with a list that is long enough for every object */
    } else {
        fprintf(stderr, "usage: second [replay | replay-no-list]\n");
        return 2;
    }
    flush_output();
    return output.failed ? 1 : 0;
}
