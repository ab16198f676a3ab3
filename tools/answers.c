/*
 * answers < STREAM: answers a stream of test cases (docs/STREAM.md) through the library for C, so that its answers can
 * be compared with those of the second program.  tools/answers builds it and runs it.
 *
 * A new letter is a row of the table `letters`: the fields of its cases, the call, and what is printed of the answer.
 * After the call all that was lent, and what lies around it, has to be as before, but for what was handed out.
 */
#include "spi.h"

#include <stdio.h>
#include <string.h>

enum {
    MOST = 65536, /* octets of an object, a store or a room in a case; places are fewer */
    EDITS = 255,  /* in a case */
    AROUND = 64,  /* octets on each side of what is lent */
    FIELDS = 8    /* a letter has fewer */
};

/* ---- Lent memory -------------------------------------------------------------------------------- */

enum { TAGS, KINDS, DEPTHS, PARENTS, STARTS, SIZES, BODIES, STORE, ROOM, FIRST, SECOND, PIECES };

union memory {
    uint8_t octets[AROUND + 2 * MOST + AROUND];
    uint16_t numbers[(AROUND + 2 * MOST + AROUND) / 2];
};

/* A list, a store, a room or an object; `handed` of its elements, the first ones, are the call's to change. */
struct piece {
    size_t count, handed;
    union memory now, before;
};

static struct piece lent[PIECES];
static bool astray; /* an answer said that more was handed out than was lent, or an earlier call of the case touched what it had to leave */
static uint8_t pattern[sizeof(union memory)];

#define OCTETS(piece) lent[piece].now.octets + AROUND, lent[piece].count
#define NUMBERS(piece) lent[piece].now.numbers + AROUND / 2, lent[piece].count
#define LISTS OCTETS(TAGS), OCTETS(KINDS), OCTETS(DEPTHS), NUMBERS(PARENTS), NUMBERS(STARTS), NUMBERS(SIZES)
#define MEMORY LISTS, NUMBERS(BODIES), OCTETS(STORE)

static uint8_t *octets_of(int piece)
{
    return lent[piece].now.octets + AROUND;
}

static uint16_t *numbers_of(int piece)
{
    return lent[piece].now.numbers + AROUND / 2;
}

static size_t width_of(int piece)
{
    return piece >= PARENTS && piece <= BODIES ? 2 : 1;
}

static size_t end_of(int piece)
{
    return AROUND + lent[piece].count * width_of(piece);
}

/* No octet of the pattern is its neighbour, so that memory that is moved or filled shows. */
static void make_pattern(void)
{
    for (size_t i = 0; i < sizeof pattern; i++)
        pattern[i] = (uint8_t)(255 - i % 251);
}

static void lend(int piece, size_t count)
{
    lent[piece].count = count;
    lent[piece].handed = 0;
    memcpy(lent[piece].now.octets, pattern, end_of(piece) + AROUND);
}

static void lend_lists(size_t places)
{
    for (int piece = TAGS; piece <= BODIES; piece++)
        lend(piece, places);
}

static void lend_nothing(void)
{
    astray = false;
    for (int piece = 0; piece < PIECES; piece++)
        lend(piece, 0);
}

static void keep_before(void)
{
    for (int piece = 0; piece < PIECES; piece++)
        memcpy(lent[piece].before.octets, lent[piece].now.octets, end_of(piece) + AROUND);
}

/* The first `count` elements of a piece are the answer's, and no more than were lent. */
static void hand_out(int piece, size_t count)
{
    astray = astray || count > lent[piece].count;
    lent[piece].handed = count < lent[piece].count ? count : lent[piece].count;
}

static void hand_out_lists(size_t records)
{
    for (int piece = TAGS; piece <= SIZES; piece++)
        hand_out(piece, records);
}

/* The lists have as many records as they hand out, and the store ends with the last of their bodies. */
static void hand_out_store(void)
{
    size_t stored = 0;

    for (size_t i = 0; i < lent[TAGS].handed; i++) {
        size_t end = (size_t)numbers_of(STARTS)[i] + numbers_of(SIZES)[i];
        stored = end > stored ? end : stored;
    }
    hand_out(STORE, stored);
}

/* Whether all that the call had to leave is as it was: what was not handed out, and what lies around it. */
static bool is_kept(void)
{
    for (int piece = 0; piece < PIECES; piece++) {
        const uint8_t *now = lent[piece].now.octets, *before = lent[piece].before.octets;
        size_t rest = AROUND + lent[piece].handed * width_of(piece);
        if (memcmp(now, before, AROUND) != 0 || memcmp(now + rest, before + rest, end_of(piece) + AROUND - rest) != 0)
            return false;
    }
    return !astray;
}

/* ---- The fields of a case: each is taken from the stream and lent; false where the stream is bad -- */

static size_t taken;         /* octets of the stream so far */
static size_t data_type_given; /* by a G case */
static size_t records_given; /* by a W case, whose lists may have more places */
static size_t services_given; /* by an M case: told apart 0 by tag, 1 by bearers */

static bool take_octets(uint8_t *into, size_t count)
{
    taken += count;
    return fread(into, 1, count, stdin) == count;
}

static bool take_number(size_t octets, size_t *number)
{
    uint8_t digits[3];

    if (!take_octets(digits, octets))
        return false;
    *number = 0;
    for (size_t i = 0; i < octets; i++)
        *number = *number << 8 | digits[i];
    return *number <= MOST;
}

static bool take_count(void)
{
    return take_number(2, &records_given);
}

static bool take_data_type(void)
{
    return take_number(1, &data_type_given);
}

static bool take_services(void)
{
    return take_number(1, &services_given) && services_given <= 1;
}

static bool take_places(void)
{
    size_t number;

    if (!take_number(2, &number))
        return false;
    lend_lists(number);
    return true;
}

static bool take_size(int piece)
{
    size_t size;

    if (!take_number(3, &size))
        return false;
    lend(piece, size);
    return true;
}

static bool take_store(void)
{
    return take_size(STORE);
}

static bool take_room(void)
{
    return take_size(ROOM);
}

static bool take_object(void)
{
    return take_size(FIRST) && take_octets(octets_of(FIRST), lent[FIRST].count);
}

static bool take_second_object(void)
{
    return take_size(SECOND) && take_octets(octets_of(SECOND), lent[SECOND].count);
}

/* A room that the stream does not tell of, since it is the same in every case. */
static bool lend_whole_room(void)
{
    lend(ROOM, SPI_MOST_OCTETS);
    return true;
}

/* An edit, with the octets of a text or an element. */
struct edit {
    uint8_t letter;
    size_t number, place, size;
    uint8_t octets[MOST];
    uint64_t answer;
};

static struct edit edits[EDITS];
static size_t edit_count;

static bool take_edit(struct edit *edit)
{
    if (!take_octets(&edit->letter, 1) || !take_number(2, &edit->number))
        return false;
    switch (edit->letter) {
    case 'T':
        return take_number(2, &edit->size) && take_octets(edit->octets, edit->size);
    case 'D':
        edit->size = 0;
        return true;
    case 'I':
        return take_number(2, &edit->place) && take_number(2, &edit->size) && take_octets(edit->octets, edit->size);
    default:
        return false;
    }
}

static bool take_edits(void)
{
    if (!take_number(1, &edit_count))
        return false;
    for (size_t i = 0; i < edit_count; i++)
        if (!take_edit(&edits[i]))
            return false;
    return true;
}

/* Places, and a record for each. */
static bool take_records(void)
{
    uint8_t fields[9];

    if (!take_places())
        return false;
    for (size_t i = 0; i < lent[TAGS].count; i++) {
        if (!take_octets(fields, sizeof fields))
            return false;
        for (int piece = TAGS; piece <= DEPTHS; piece++)
            octets_of(piece)[i] = fields[piece];
        for (int piece = PARENTS; piece <= SIZES; piece++) {
            const uint8_t *number = fields + 3 + 2 * (piece - PARENTS);
            numbers_of(piece)[i] = (uint16_t)(number[0] << 8 | number[1]);
        }
    }
    return true;
}

/* ---- The calls ---------------------------------------------------------------------------------- */

/* Lists of the program's own, for what a case does not lend. */
static struct {
    uint8_t tags[SPI_MOST_RECORDS], kinds[SPI_MOST_RECORDS], depths[SPI_MOST_RECORDS];
    uint16_t parents[SPI_MOST_RECORDS], starts[SPI_MOST_RECORDS], sizes[SPI_MOST_RECORDS];
} own;

#define OWN_LISTS                                                                                                      \
    own.tags, SPI_MOST_RECORDS, own.kinds, SPI_MOST_RECORDS, own.depths, SPI_MOST_RECORDS, own.parents,                \
        SPI_MOST_RECORDS, own.starts, SPI_MOST_RECORDS, own.sizes, SPI_MOST_RECORDS

static uint64_t call_read(void)
{
    return spi_read(OCTETS(FIRST), LISTS);
}

static uint64_t call_scan(void)
{
    return spi_scan(OCTETS(FIRST));
}

static uint64_t call_normalise(void)
{
    return spi_normalise(OCTETS(FIRST), LISTS, NUMBERS(BODIES), OCTETS(STORE), OCTETS(ROOM));
}

static uint64_t call_write(void)
{
    return spi_write(records_given, LISTS, NUMBERS(BODIES), OCTETS(FIRST), OCTETS(ROOM));
}

static uint64_t call_same(void)
{
    return spi_same(OCTETS(FIRST), OCTETS(SECOND));
}

static uint64_t call_gate(void)
{
    return spi_gate(OCTETS(FIRST), (uint8_t)data_type_given);
}

static uint64_t call_check_packed(void)
{
    return spi_check_packed(OCTETS(FIRST), OCTETS(SECOND));
}

static uint64_t call_pack(void)
{
    return spi_pack(OCTETS(FIRST), OCTETS(ROOM));
}

static uint64_t call_export(void)
{
    return spi_export(OCTETS(FIRST), OCTETS(ROOM));
}

static uint64_t call_merge(void)
{
    return spi_merge(OCTETS(FIRST), OCTETS(SECOND), services_given == 1, MEMORY, OCTETS(ROOM));
}

/* A call of a run has left what it had to leave, and the next one begins with what is there now. */
static uint64_t watched(uint64_t answer)
{
    if (spi_refused(answer) == SPI_OK) {
        hand_out_lists(spi_value(answer));
        hand_out(BODIES, spi_value(answer));
        hand_out_store();
    }
    astray = !is_kept();
    for (int piece = 0; piece < PIECES; piece++)
        lent[piece].handed = 0;
    return answer;
}

static uint64_t call_edit(const struct edit *edit, size_t records)
{
    lend(SECOND, edit->size);
    memcpy(octets_of(SECOND), edit->octets, edit->size);
    keep_before();
    switch (edit->letter) {
    case 'T':
        return spi_replace_text(records, edit->number, OCTETS(SECOND), MEMORY);
    case 'D':
        return spi_remove(records, edit->number, MEMORY);
    default: /* I */
        return spi_insert(records, edit->number, edit->place, OCTETS(SECOND), MEMORY);
    }
}

static size_t edited_records;

/* The run, and then the write, whose answer is that of all where the object was taken in. */
static uint64_t call_edits(void)
{
    uint64_t taken_in = watched(spi_take_in(OCTETS(FIRST), MEMORY));

    if (spi_refused(taken_in) != SPI_OK) {
        keep_before();
        return taken_in;
    }
    edited_records = spi_value(taken_in);
    for (size_t i = 0; i < edit_count; i++) {
        edits[i].answer = watched(call_edit(&edits[i], edited_records));
        if (spi_refused(edits[i].answer) == SPI_OK)
            edited_records = spi_value(edits[i].answer);
    }
    keep_before();
    return spi_write_state(edited_records, MEMORY, OCTETS(ROOM));
}

/* ---- What is printed where nothing is refused; each says what was handed out --------------------- */

/* A line of the listing.  Where the body lies is asked of the library once more, and CDATA has to be text. */
static void print_record(size_t i)
{
    static const char *const words[] = {"element", "attribute", "cdata"};
    uint64_t span = spi_span(OCTETS(FIRST), NUMBERS(STARTS), NUMBERS(SIZES), i);
    const uint8_t *body = octets_of(FIRST) + spi_span_start(span);
    uint8_t kind = octets_of(KINDS)[i];

    printf("%u %02X %s %zu %zu\n", (unsigned)octets_of(DEPTHS)[i], (unsigned)octets_of(TAGS)[i],
           kind <= SPI_CDATA ? words[kind] : "no kind", spi_span_start(span), spi_span_size(span));
    if (kind == SPI_CDATA && !spi_check_text(body, spi_span_size(span), true))
        printf("no text\n");
}

static void print_listing(uint64_t answer)
{
    size_t records = spi_value(answer);

    hand_out_lists(records);
    printf("depth tag kind offset length\n");
    for (size_t i = 0; i < lent[TAGS].handed; i++)
        print_record(i);
    printf("records %zu\n", records);
}

static void print_room(const char *word, size_t octets)
{
    static const char digits[] = "0123456789abcdef";
    static char text[2 * MOST];

    hand_out(ROOM, octets);
    for (size_t i = 0; i < lent[ROOM].handed; i++) {
        text[2 * i] = digits[octets_of(ROOM)[i] >> 4];
        text[2 * i + 1] = digits[octets_of(ROOM)[i] & 0xF];
    }
    printf("%s ", word);
    fwrite(text, 1, 2 * lent[ROOM].handed, stdout);
    printf("\n");
}

/* What spi_sizes tells of the object is what normalising took; else the answer has a word that no other program says. */
static void expect_sizes(size_t store, size_t normal)
{
    uint64_t sizes = spi_sizes(OCTETS(FIRST));

    if (spi_store_size(sizes) != store || spi_normal_size(sizes) != normal)
        printf("missized\n");
}

/* The answer tells the octets alone; the lists have as many records as `spi_read` counts. */
static void print_normal(uint64_t answer)
{
    size_t octets = spi_value(answer);

    hand_out_lists(spi_value(spi_read(OCTETS(FIRST), OWN_LISTS)));
    hand_out(BODIES, lent[TAGS].handed);
    hand_out_store();
    print_room("normal", octets);
    expect_sizes(lent[STORE].handed, octets);
}

static void print_written(uint64_t answer)
{
    size_t octets = spi_value(answer);

    hand_out(BODIES, records_given);
    print_room("written", octets);
}

/* Lists and store hold what the room has: they are written as that; else the answer has a word that no other program says. */
static void expect_held(size_t records)
{
    static uint8_t room[SPI_MOST_OCTETS];
    uint64_t written = spi_write_state(records, MEMORY, room, sizeof room);

    if (written != lent[ROOM].handed || memcmp(room, octets_of(ROOM), lent[ROOM].handed) != 0)
        printf("misheld\n");
}

static void print_merged(uint64_t answer)
{
    size_t records = spi_merged_records(answer), octets = spi_value(answer);

    hand_out_lists(records);
    hand_out(BODIES, records);
    hand_out_store();
    print_room("merged", octets);
    expect_held(records);
}

static void print_xml(uint64_t answer)
{
    size_t octets = spi_value(answer);

    print_room("xml", octets);
}

static void print_packed(uint64_t answer)
{
    size_t octets = spi_value(answer);

    print_room("packed", octets);
}

/* By `read`, which has filled the lists. */
static void print_counts(uint64_t answer)
{
    printf("records %zu headers %zu\n", spi_value(answer), spi_items(answer));
}

static void print_read_counts(uint64_t answer)
{
    hand_out_lists(spi_value(answer));
    print_counts(answer);
}

static void print_yes(uint64_t answer)
{
    (void)answer;
    printf("yes\n");
}

static void print_passes(uint64_t answer)
{
    (void)answer;
    printf("passes\n");
}

static void print_same(uint64_t answer)
{
    size_t same = spi_value(answer);

    printf(same == 1 ? "same\n" : "different\n");
}

/* The field of a refusal is told of every 9; where another has one, that shows too. */
static void print_refusal(uint64_t answer)
{
    static const char *const which[] = {"", " in first", " in second"};
    int number = (int)spi_refused(answer), field = (int)spi_refused_field(answer), object = spi_refused_object(answer);

    printf("refused %d at %zu", number, spi_value(answer));
    if (number == SPI_BAD_VALUE || field != 0)
        printf(" field %d", field);
    printf("%s\n", object <= 2 ? which[object] : " in neither");
}

static void print_edited(uint64_t answer)
{
    size_t octets = spi_value(answer);

    for (size_t i = 0; i < edit_count; i++)
        if (spi_refused(edits[i].answer) == SPI_OK)
            printf("edited\n");
        else
            print_refusal(edits[i].answer);
    print_room("written", octets);
    printf("sizes");
    for (size_t i = 0; i < edited_records && i < lent[BODIES].count; i++)
        printf(" %u", (unsigned)numbers_of(BODIES)[i]);
    printf("\n");
}

/* ---- The letters -------------------------------------------------------------------------------- */

struct letter {
    char letter;
    bool (*fields[FIELDS])(void); /* in the order of the stream */
    uint64_t (*call)(void);
    void (*print)(uint64_t answer);
};

static const struct letter letters[] = {
    {'L', {take_places, take_object}, call_read, print_listing},
    {'C', {take_places, take_object}, call_read, print_read_counts},
    {'J', {take_object}, call_scan, print_counts},
    {'N', {take_places, take_store, take_room, take_object}, call_normalise, print_normal},
    {'W', {take_count, take_records, take_room, take_object}, call_write, print_written},
    {'S', {take_object, take_second_object}, call_same, print_same},
    {'X', {take_room, take_object}, call_export, print_xml},
    {'G', {take_data_type, take_places, take_object}, call_gate, print_yes},
    {'F', {take_object, take_second_object}, call_check_packed, print_passes},
    {'P', {take_room, take_object}, call_pack, print_packed},
    {'E', {take_places, take_store, take_object, take_edits, lend_whole_room}, call_edits, print_edited},
    {'M', {take_services, take_places, take_store, take_object, take_second_object, lend_whole_room}, call_merge, print_merged},
};

static const struct letter *find_letter(int letter)
{
    for (size_t i = 0; i < sizeof letters / sizeof letters[0]; i++)
        if (letters[i].letter == letter)
            return &letters[i];
    return NULL;
}

/* The case behind a letter; false where the stream is bad. */
static bool answer_case(const struct letter *letter)
{
    if (letter == NULL)
        return false;
    lend_nothing();
    for (size_t i = 0; letter->fields[i] != NULL; i++)
        if (!letter->fields[i]())
            return false;
    keep_before();
    uint64_t answer = letter->call();
    if (spi_refused(answer) == SPI_OK)
        letter->print(answer);
    else
        print_refusal(answer);
    if (!is_kept())
        printf("touched\n");
    return true;
}

int main(void)
{
    int letter;

    make_pattern();
    for (size_t begun = 0; (letter = getchar()) != EOF; begun = taken) {
        taken++;
        if (!answer_case(find_letter(letter))) {
            printf("bad stream at %zu\n", begun);
            break;
        }
    }
    return fflush(stdout) != 0 || ferror(stdin);
}
