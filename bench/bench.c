/*
 * bench FOLDER: times the library against the second program, in one process, on the objects that make_objects.py
 * wrote to the folder, and its check of text against two plain ones as well.  Answers are compared before anything
 * is timed.  A time is the least of many short runs on the clock of the process, in which all programs and all sizes
 * take turns, so that a processor that changes its pace does so for all of them.  A run goes over all objects of a
 * size, of which there are the more the smaller they are.
 */
#define _POSIX_C_SOURCE 199309L /* clock_gettime */
#define main second_main
#include "../second/second.c"
#undef main

#include "spi.h"
#include "text_checks.h"

#include <stdlib.h>
#include <time.h>

enum {
    TURNS = 250,
    RUN_NANOSECONDS = 1000000,
    PLACES = SPI_MOST_RECORDS,
    ROOM = SPI_MOST_OCTETS,
    XML_ROOM = 8 * ROOM, /* the XML of small items has about five octets for one of theirs */
    MOST_OBJECTS = 32
};

struct file {
    size_t size;
    uint8_t octets[ROOM];
};

/* The objects of a size, and texts of that size. */
struct set {
    size_t count, texts, text_starts[PLACES], text_sizes[PLACES];
    struct file objects[MOST_OBJECTS], others[MOST_OBJECTS], words;
};

#ifdef __clang__
#define COMPILER __VERSION__
#else
#define COMPILER "gcc " __VERSION__
#endif

static const int kilos[] = {1, 4, 16, 32};
enum { SIZES = sizeof kilos / sizeof kilos[0] };

static struct set sets[SIZES], *set;
static struct {
    uint8_t tags[PLACES], kinds[PLACES], depths[PLACES];
    uint16_t parents[PLACES], starts[PLACES], sizes[PLACES], bodies[PLACES];
} lists;
static uint8_t store[ROOM], room[ROOM];
static uint8_t xml_by_library[XML_ROOM], xml_by_second[XML_ROOM];

#define SIX_LISTS                                                                                                      \
    lists.tags, PLACES, lists.kinds, PLACES, lists.depths, PLACES, lists.parents, PLACES, lists.starts, PLACES,        \
        lists.sizes, PLACES

static void stop(const char *why)
{
    fprintf(stderr, "bench: %s\n", why);
    exit(2);
}

/* ---- What is timed; each answers by a number that all programs share ----------------------------- */

/* A call on each object of a size, and the sum of its answers. */
#define ON_EACH(name, one)                                                                                             \
    static uint64_t name(void)                                                                                         \
    {                                                                                                                  \
        uint64_t sum = 0;                                                                                              \
        for (size_t i = 0; i < set->count; i++)                                                                        \
            sum += one(&set->objects[i], &set->others[i]);                                                             \
        return sum;                                                                                                    \
    }

static uint64_t read_by_library(const struct file *object, const struct file *other)
{
    (void)other;
    return spi_value(spi_read(object->octets, object->size, SIX_LISTS));
}

static uint64_t read_by_second(const struct file *object, const struct file *other)
{
    (void)other;
    struct verdict verdict = read_object(&first_tree, object->octets, (uint32_t)object->size);
    return verdict.number == ACCEPTED ? first_tree.count : UINT64_MAX;
}

static uint64_t scan_by_library(const struct file *object, const struct file *other)
{
    (void)other;
    return spi_value(spi_scan(object->octets, object->size));
}

static uint64_t normalise_by_library(const struct file *object, const struct file *other)
{
    (void)other;
    return spi_normalise(object->octets, object->size, SIX_LISTS, lists.bodies, PLACES, store, ROOM, room, ROOM);
}

static uint64_t normalise_by_second(const struct file *object, const struct file *other)
{
    (void)other;
    size_t size = 0;
    struct verdict verdict = read_object(&first_tree, object->octets, (uint32_t)object->size);
    if (verdict.number != ACCEPTED || normalise(&first_tree, PLACES, ROOM, ROOM, normal_form, &size) != ACCEPTED)
        return UINT64_MAX;
    return size;
}

static uint64_t same_by_library(const struct file *object, const struct file *other)
{
    return spi_same(object->octets, object->size, other->octets, other->size);
}

static uint64_t same_by_second(const struct file *object, const struct file *other)
{
    struct verdict first = read_object(&first_tree, object->octets, (uint32_t)object->size);
    struct verdict second = read_object(&second_tree, other->octets, (uint32_t)other->size);
    return first.number == ACCEPTED && second.number == ACCEPTED && same_meaning(&first_tree, &second_tree);
}

static uint64_t export_by_library(const struct file *object, const struct file *other)
{
    (void)other;
    return spi_export(object->octets, object->size, xml_by_library, XML_ROOM);
}

static uint64_t export_by_second(const struct file *object, const struct file *other)
{
    (void)other;
    size_t size = 0;
    struct verdict verdict = read_object(&first_tree, object->octets, (uint32_t)object->size);
    if (verdict.number != ACCEPTED || export_xml(&first_tree, XML_ROOM, xml_by_second, &size).number != ACCEPTED)
        return UINT64_MAX;
    return size;
}

static uint64_t gate_by_library(const struct file *object, const struct file *other)
{
    (void)other;
    return spi_gate(object->octets, object->size, SPI_PROGRAMME_INFORMATION);
}

static uint64_t gate_by_second(const struct file *object, const struct file *other)
{
    (void)other;
    struct verdict verdict = read_object(&first_tree, object->octets, (uint32_t)object->size);
    if (verdict.number != ACCEPTED || judge_profile(&first_tree, SPI_PROGRAMME_INFORMATION).number != ACCEPTED)
        return UINT64_MAX;
    return 0;
}

static uint64_t pack_by_library(const struct file *object, const struct file *other)
{
    (void)other;
    return spi_pack(object->octets, object->size, room, ROOM);
}

static uint64_t pack_by_second(const struct file *object, const struct file *other)
{
    (void)other;
    size_t size = 0;
    first_object.size = (uint32_t)object->size;
    memcpy(first_object.octets, object->octets, object->size);
    return pack(&first_object, ROOM, normal_form, &size).number == ACCEPTED ? size : UINT64_MAX;
}

/* Basic and Advanced, each a whole day. */
static uint64_t merge_by_library(const struct file *object, const struct file *other)
{
    uint64_t answer = spi_merge(object->octets, object->size, other->octets, other->size, false, SIX_LISTS, lists.bodies, PLACES, store, ROOM, room, ROOM);
    return spi_refused(answer) == SPI_OK ? spi_value(answer) : UINT64_MAX;
}

static uint64_t merge_by_second(const struct file *object, const struct file *other)
{
    size_t size = 0;
    struct verdict first = read_object(&first_tree, object->octets, (uint32_t)object->size);
    struct verdict second = read_object(&second_tree, other->octets, (uint32_t)other->size);
    if (first.number != ACCEPTED || second.number != ACCEPTED || merge_into(&merged_objects, BY_TAG, PLACES, ROOM, &size) != ACCEPTED)
        return UINT64_MAX;
    write_merged(normal_form, &merged_objects);
    return size;
}

ON_EACH(library_read, read_by_library)
ON_EACH(library_merge, merge_by_library)
ON_EACH(second_merge, merge_by_second)
ON_EACH(library_pack, pack_by_library)
ON_EACH(second_pack, pack_by_second)
ON_EACH(second_read, read_by_second)
ON_EACH(library_normalise, normalise_by_library)
ON_EACH(second_normalise, normalise_by_second)
ON_EACH(library_same, same_by_library)
ON_EACH(second_same, same_by_second)
ON_EACH(library_export, export_by_library)
ON_EACH(second_export, export_by_second)
ON_EACH(library_gate, gate_by_library)
ON_EACH(second_gate, gate_by_second)

static bool check_by_library(const uint8_t *text, size_t size, bool tokens)
{
    return spi_check_text(text, size, tokens);
}

static bool check_by_second(const uint8_t *text, size_t size, bool tokens)
{
    struct text_facts facts;
    return scan_text(text, size, &no_tokens, &facts) && (tokens || facts.tokens == 0);
}

/* A check of each text of a size, and how many are good. */
#define ON_EACH_TEXT(name, check)                                                                                      \
    static uint64_t name(void)                                                                                         \
    {                                                                                                                  \
        uint64_t good = 0;                                                                                             \
        for (size_t i = 0; i < set->texts; i++)                                                                        \
            good += check(set->words.octets + set->text_starts[i], set->text_sizes[i], true);                          \
        return good;                                                                                                   \
    }

ON_EACH_TEXT(library_text, check_by_library)
ON_EACH_TEXT(second_text, check_by_second)
ON_EACH_TEXT(octet_text, check_by_octet)
ON_EACH_TEXT(table_text, check_by_table)

/* ---- A day in which one description is edited, against the same day normalised anew; each answers 0 ----- */

/* A tree in memory, its record that is edited, and two texts for that, of which one is a letter shorter. */
static struct tree_in_memory {
    uint8_t tags[PLACES], kinds[PLACES], depths[PLACES], store[ROOM];
    uint16_t parents[PLACES], starts[PLACES], sizes[PLACES], bodies[PLACES];
    size_t records, number, size, turn;
    uint8_t text[ROOM];
} trees[SIZES][MOST_OBJECTS];

#define MEMORY(tree)                                                                                                   \
    (tree)->tags, PLACES, (tree)->kinds, PLACES, (tree)->depths, PLACES, (tree)->parents, PLACES, (tree)->starts,      \
        PLACES, (tree)->sizes, PLACES, (tree)->bodies, PLACES, (tree)->store, ROOM

static struct tree_in_memory *tree_of(const struct file *object)
{
    return &trees[set - sets][object - set->objects];
}

static uint64_t edit_by_library(const struct file *object, const struct file *other)
{
    (void)other;
    struct tree_in_memory *tree = tree_of(object);
    tree->turn = 1 - tree->turn;
    return spi_refused(spi_replace_text(tree->records, tree->number, tree->text, tree->size - tree->turn, MEMORY(tree)));
}

static uint64_t edit_and_write_by_library(const struct file *object, const struct file *other)
{
    const struct tree_in_memory *tree = tree_of(object);
    return edit_by_library(object, other) + spi_refused(spi_write_state(tree->records, MEMORY(tree), room, ROOM));
}

static uint64_t make_anew_by_library(const struct file *object, const struct file *other)
{
    return spi_refused(normalise_by_library(object, other));
}

ON_EACH(library_scan, scan_by_library)
ON_EACH(library_edit, edit_by_library)
ON_EACH(library_edit_and_write, edit_and_write_by_library)
ON_EACH(library_anew, make_anew_by_library)

typedef uint64_t (*call)(void);

/* The library's call, then those of the programs that it is held to. */
enum { MOST_PROGRAMS = 4 };
struct calls {
    size_t count;
    call by[MOST_PROGRAMS];
};

static const struct calls reading = {2, {library_read, second_read}};
static const struct calls scanning = {2, {library_scan, second_read}};
static const struct calls normalising = {2, {library_normalise, second_normalise}};
static const struct calls comparing = {2, {library_same, second_same}};
static const struct calls exporting = {2, {library_export, second_export}};
static const struct calls gating = {2, {library_gate, second_gate}};
static const struct calls packing = {2, {library_pack, second_pack}};
static const struct calls merging = {2, {library_merge, second_merge}};
static const struct calls editing = {2, {library_edit, library_anew}};
static const struct calls editing_and_writing = {2, {library_edit_and_write, library_anew}};
static const struct calls checking = {4, {library_text, second_text, octet_text, table_text}};

/* ---- Timing ------------------------------------------------------------------------------------- */

static volatile uint64_t kept;
static double greatest_ratio, greatest_growth;

static double now(void)
{
    struct timespec time;
    clock_gettime(CLOCK_PROCESS_CPUTIME_ID, &time);
    return (double)time.tv_sec * 1e9 + (double)time.tv_nsec;
}

static double time_runs(call called, unsigned runs)
{
    double start = now();
    for (unsigned i = 0; i < runs; i++)
        kept = called();
    return (now() - start) / runs;
}

static void print_header(void)
{
    printf("%-22s %11s %9s %8s %9s %6s %9s %6s %9s %6s\n", "ns an octet", "octets", "library", "growth", "second", "ratio",
           "by octet", "ratio", "by table", "ratio");
}

/* A row: objects and their octets, the library's ns an octet and how they grew from the size before, and each other
 * program's with the ratio of the library's to it. */
static void print_row(const char *name, size_t octets, const double *least, size_t programs, double before)
{
    double each = least[0] / (double)octets;
    printf("%-22s %3zu * %5zu %9.3f", name, set->count, octets / set->count, each);
    if (before != 0) {
        printf(" %8.2f", each / before);
        greatest_growth = each / before > greatest_growth ? each / before : greatest_growth;
    } else {
        printf(" %8s", "");
    }
    for (size_t p = 1; p < programs; p++) {
        double ratio = least[0] / least[p];
        printf(" %9.3f %6.2f", least[p] / (double)octets, ratio);
        greatest_ratio = ratio > greatest_ratio ? ratio : greatest_ratio;
    }
    printf("\n");
}

static void compare(const char *name, size_t (*octets)(void), const struct calls *calls)
{
    unsigned runs[SIZES][MOST_PROGRAMS];
    double least[SIZES][MOST_PROGRAMS];
    for (size_t k = 0; k < SIZES; k++) {
        set = &sets[k];
        uint64_t answer = calls->by[0]();
        for (size_t p = 0; p < calls->count; p++) {
            if (calls->by[p]() != answer)
                stop("the programs answer differently");
            double once = time_runs(calls->by[p], 3);
            runs[k][p] = once < RUN_NANOSECONDS ? (unsigned)(RUN_NANOSECONDS / once) + 1 : 1;
            least[k][p] = 1e18;
        }
    }
    for (int turn = 0; turn < TURNS; turn++)
        for (size_t k = 0; k < SIZES; k++) {
            set = &sets[k];
            for (size_t p = 0; p < calls->count; p++) {
                double time = time_runs(calls->by[p], runs[k][p]);
                least[k][p] = time < least[k][p] ? time : least[k][p];
            }
        }
    double before = 0;
    for (size_t k = 0; k < SIZES; k++) {
        set = &sets[k];
        print_row(name, octets(), least[k], calls->count, before);
        before = least[k][0] / (double)octets();
    }
}

/* ---- Objects and texts -------------------------------------------------------------------------- */

static FILE *opened(const char *folder, const char *name)
{
    char path[4096];
    snprintf(path, sizeof path, "%s/%s", folder, name);
    FILE *stream = fopen(path, "rb");
    if (stream == NULL)
        stop("make_objects.py has not written the objects and texts");
    return stream;
}

static void load(struct file *file, const char *folder, const char *name, int kilo, size_t i)
{
    char whole_name[64];
    snprintf(whole_name, sizeof whole_name, "%s-%d-%zu.spi", name, kilo, i);
    FILE *stream = opened(folder, whole_name);
    file->size = fread(file->octets, 1, sizeof file->octets, stream);
    fclose(stream);
}

static void load_all(const char *folder, const char *name, const char *twin)
{
    for (size_t k = 0; k < SIZES; k++) {
        sets[k].count = (size_t)(MOST_OBJECTS / kilos[k]);
        for (size_t i = 0; i < sets[k].count; i++) {
            load(&sets[k].objects[i], folder, name, kilos[k], i);
            load(&sets[k].others[i], folder, twin, kilos[k], i);
        }
    }
}

static size_t object_octets(void)
{
    size_t octets = 0;
    for (size_t i = 0; i < set->count; i++)
        octets += set->objects[i].size;
    return octets;
}

static size_t both_octets(void)
{
    size_t octets = object_octets();
    for (size_t i = 0; i < set->count; i++)
        octets += set->others[i].size;
    return octets;
}

static size_t text_octets(void)
{
    size_t octets = 0;
    for (size_t i = 0; i < set->texts; i++)
        octets += set->text_sizes[i];
    return octets;
}

/* One text of each size, a sentence over and over. */
static void repeat_text(const char *sentence)
{
    size_t length = strlen(sentence);
    for (size_t k = 0; k < SIZES; k++) {
        struct file *words = &sets[k].words;
        for (words->size = 0; words->size + length <= (size_t)kilos[k] * 1024; words->size += length)
            memcpy(words->octets + words->size, sentence, length);
        sets[k].count = sets[k].texts = 1;
        sets[k].text_starts[0] = 0;
        sets[k].text_sizes[0] = words->size;
    }
}

static void add_text(const uint8_t *octets, size_t size)
{
    memcpy(set->words.octets + set->words.size, octets, size);
    set->text_starts[set->texts] = set->words.size;
    set->text_sizes[set->texts++] = size;
    set->words.size += size;
}

/* The texts that the objects show, as they stand in them. */
static void object_texts(void)
{
    for (size_t k = 0; k < SIZES; k++) {
        set = &sets[k];
        set->texts = set->words.size = 0;
        for (size_t i = 0; i < set->count; i++) {
            uint64_t answer = read_by_library(&set->objects[i], &set->others[i]);
            for (size_t r = 0; r < spi_value(answer); r++)
                if (lists.kinds[r] == SPI_CDATA)
                    add_text(set->objects[i].octets + lists.starts[r], lists.sizes[r]);
        }
    }
}

/* All checks are held against each other before any is timed, on the texts of a file: for each two octets of size, one
 * that says whether tokens may stand in it, and its own. */
static void compare_checks(const char *folder)
{
    static uint8_t text[UINT16_MAX];
    uint8_t head[3];
    size_t count[2] = {0, 0};
    FILE *stream = opened(folder, "texts");
    while (fread(head, 1, sizeof head, stream) == sizeof head) {
        size_t size = (size_t)head[0] << 8 | head[1];
        bool tokens = head[2] != 0;
        if (fread(text, 1, size, stream) != size)
            stop("the last of the texts is cut");
        bool good = check_by_second(text, size, tokens);
        if (check_by_library(text, size, tokens) != good || check_by_octet(text, size, tokens) != good ||
            check_by_table(text, size, tokens) != good)
            stop("the checks of text differ");
        count[good]++;
    }
    fclose(stream);
    if (count[true] == 0 || count[false] == 0)
        stop("the texts are not both good and bad");
    printf("checks agree on %zu good texts and %zu bad ones\n", count[true], count[false]);
}

/* Normal forms are held against each other before anything is timed. */
static void compare_normal_forms(void)
{
    for (size_t k = 0; k < SIZES; k++)
        for (size_t i = 0; i < sets[k].count; i++) {
            const struct file *object = &sets[k].objects[i], *other = &sets[k].others[i];
            uint64_t size = normalise_by_library(object, other);
            if (size != normalise_by_second(object, other) || memcmp(room, normal_form, size) != 0)
                stop("the normal forms differ");
        }
}

/* All calls on the objects of a name, and the check of the texts that they show, each under its label. */
static void compare_calls(const char *folder, const char *name, const char *twin, const char *labels[4])
{
    load_all(folder, name, twin);
    compare_normal_forms();
    compare(labels[0], object_octets, &reading);
    compare(labels[1], object_octets, &normalising);
    compare(labels[2], both_octets, &comparing);
    object_texts();
    compare(labels[3], text_octets, &checking);
}

/* The XML of objects that can have one, held against each other before it is timed. */
static void compare_export(const char *folder, const char *name, const char *label)
{
    load_all(folder, name, name);
    for (size_t k = 0; k < SIZES; k++)
        for (size_t i = 0; i < sets[k].count; i++) {
            const struct file *object = &sets[k].objects[i];
            uint64_t size = export_by_library(object, object);
            if (size != export_by_second(object, object) || memcmp(xml_by_library, xml_by_second, size) != 0)
                stop("the XML differs");
        }
    compare(label, object_octets, &exporting);
}

/* Reading with no list, against the second program's reading, which makes a tree. */
static void compare_scan(const char *folder, const char *name, const char *label)
{
    load_all(folder, name, name);
    compare(label, object_octets, &scanning);
}

static void hold_packed(const struct file *object)
{
    uint64_t size = pack_by_library(object, NULL);
    if (size != pack_by_second(object, NULL) || memcmp(room, normal_form, size) != 0)
        stop("the packed objects differ");
}

/* The packers are given normal forms. */
static void compare_pack(const char *folder, const char *name, const char *label)
{
    load_all(folder, name, name);
    for (size_t k = 0; k < SIZES; k++)
        for (size_t i = 0; i < sets[k].count; i++) {
            struct file *object = &sets[k].objects[i];
            object->size = normalise_by_library(object, NULL);
            memcpy(object->octets, room, object->size);
            hold_packed(object);
        }
    compare(label, object_octets, &packing);
}

/* Two parts of each day, whose normal forms once merged are held against each other. */
static void compare_merge(const char *folder)
{
    load_all(folder, "names", "words");
    for (size_t k = 0; k < SIZES; k++)
        for (size_t i = 0; i < sets[k].count; i++) {
            const struct file *object = &sets[k].objects[i], *other = &sets[k].others[i];
            uint64_t size = merge_by_library(object, other);
            if (size == UINT64_MAX || size != merge_by_second(object, other) || memcmp(room, normal_form, size) != 0)
                stop("the merged objects differ");
        }
    compare("merge two days", both_octets, &merging);
}

/* A text of four-letter words that all differ, in an attribute of the top: each is looked for among those behind it. Its cost is not one of an octet, so it is
 * told in milliseconds. */
static void compare_worst_pack(void)
{
    enum { WORDS = 6550, TEXT = 5 * WORDS, TURNS_OF_WORST = 50 };
    struct file *object = &sets[SIZES - 1].objects[0];
    const uint8_t head[] = {0x03, 0xFE, (TEXT + 4) >> 8, (TEXT + 4) & 0xFF, 0x82, 0xFE, TEXT >> 8, TEXT & 0xFF};
    memcpy(object->octets, head, sizeof head);
    for (unsigned i = 0; i < WORDS; i++) {
        unsigned mixed = i * 7919u % 456976u; /* 26 to the fourth, and a factor that has no divisor with it */
        uint8_t *word = object->octets + sizeof head + 5 * i;
        for (unsigned k = 0; k < 4; k++, mixed /= 26)
            word[k] = (uint8_t)('a' + mixed % 26);
        word[4] = ' ';
    }
    object->size = sizeof head + TEXT;
    set = &sets[SIZES - 1];
    set->count = 1;
    hold_packed(object);
    double least[2] = {1e18, 1e18};
    for (int turn = 0; turn < TURNS_OF_WORST; turn++)
        for (size_t p = 0; p < 2; p++) {
            double time = time_runs(packing.by[p], 1);
            least[p] = time < least[p] ? time : least[p];
        }
    printf("pack %zu octets, %d words that all differ: %.2f ms, the second program %.2f ms\n", object->size, WORDS, least[0] / 1e6, least[1] / 1e6);
}

/* The small receiver's gate, which lets all of these objects pass: an offender would end the look. */
static void compare_gate(const char *folder)
{
    load_all(folder, "basic", "basic");
    for (size_t k = 0; k < SIZES; k++)
        for (size_t i = 0; i < sets[k].count; i++)
            if (gate_by_library(&sets[k].objects[i], NULL) != 0)
                stop("an object within the Basic profile isn't let pass");
    compare("gate a day", object_octets, &gating);
}

/* The description in the middle of a tree: the CDATA of a longDescription, 0x1B, or else any CDATA. */
static size_t middle_text(const struct tree_in_memory *tree)
{
    size_t found = 0;
    for (size_t i = 0; i < tree->records && (found == 0 || i <= tree->records / 2); i++)
        if (tree->kinds[i] == SPI_CDATA && (found == 0 || tree->tags[tree->parents[i]] == 0x1B))
            found = i;
    return found;
}

/* Takes an object in, and holds what is written of it after two edits that leave it as it was to its normal form. */
static void prepare_tree(const struct file *object)
{
    struct tree_in_memory *tree = tree_of(object);
    uint64_t taken_in = spi_take_in(object->octets, object->size, MEMORY(tree));
    if (spi_refused(taken_in) != SPI_OK)
        stop("a day isn't taken in");
    tree->records = spi_value(taken_in);
    tree->number = middle_text(tree);
    tree->size = tree->sizes[tree->number];
    tree->turn = 0;
    memcpy(tree->text, tree->store + tree->starts[tree->number], tree->size);
    uint64_t refused = edit_by_library(object, object);
    size_t size = (size_t)normalise_by_second(object, object);
    uint64_t shorter = spi_write_state(tree->records, MEMORY(tree), room, ROOM);
    if (refused != 0 || spi_value(shorter) >= size)
        stop("an edit isn't made");
    if (edit_and_write_by_library(object, object) != 0 || memcmp(room, normal_form, size) != 0)
        stop("a day that is edited is written otherwise than its normal form");
}

/* How long an edit takes, with the check that memory holds a tree, against the whole day. */
static void compare_edits(const char *folder)
{
    load_all(folder, "day", "other");
    for (size_t k = 0; k < SIZES; k++) {
        set = &sets[k];
        for (size_t i = 0; i < set->count; i++)
            prepare_tree(&set->objects[i]);
    }
    printf("edits, against normalising the day anew by the library (goal of the ratio: 0.5)\n");
    compare("edit a description", object_octets, &editing);
    compare("edit and write", object_octets, &editing_and_writing);
}

/* One call alone on an object of 32 KB, many times, for a profiler to look at: bench FOLDER CALL OBJECT RUNS. */
static void repeat_call(const char *folder, const char *name, const char *of, unsigned runs)
{
    static const struct {
        const char *name;
        call called;
    } calls[] = {{"library_read", library_read}, {"second_read", second_read}, {"library_scan", library_scan}, {"library_normalise", library_normalise},
                 {"second_normalise", second_normalise}, {"library_same", library_same}, {"second_same", second_same},
                 {"library_export", library_export}, {"second_export", second_export}, {"library_gate", library_gate},
                 {"second_gate", second_gate}, {"library_edit", library_edit},
                 {"library_edit_and_write", library_edit_and_write}, {"library_merge", library_merge}, {"second_merge", second_merge}};
    load_all(folder, of, strcmp(of, "day") == 0 ? "other" : strcmp(of, "small") == 0 ? "twin" : strcmp(of, "names") == 0 ? "words" : of);
    set = &sets[SIZES - 1];
    if (strncmp(name, "library_edit", strlen("library_edit")) == 0)
        prepare_tree(&set->objects[0]);
    for (size_t i = 0; i < sizeof calls / sizeof calls[0]; i++)
        if (strcmp(calls[i].name, name) == 0)
            time_runs(calls[i].called, runs);
}

int main(int count, char **arguments)
{
    if (count == 5) {
        repeat_call(arguments[1], arguments[2], arguments[3], (unsigned)atoi(arguments[4]));
        return 0;
    }
    if (count != 2)
        stop("the folder of the objects is its one word");
    const char *folder = arguments[1];
    (void)second_main;
    printf("compiled by %s\n", COMPILER);
    compare_checks(folder);
    print_header();
    compare_calls(folder, "day", "other", (const char *[]){"read day", "normalise day", "same day", "texts of the day"});
    compare_calls(folder, "small", "twin",
                  (const char *[]){"read small", "normalise small", "same small", "texts of small items"});
    compare_export(folder, "named", "export day");
    compare_export(folder, "numbers", "export small");
    compare_gate(folder);
    compare_pack(folder, "named", "pack a day");
    compare_worst_pack();
    compare_merge(folder);
    compare_scan(folder, "day", "scan day");
    compare_scan(folder, "small", "scan small");
    repeat_text("The news at one, and then the weather for the coast. ");
    compare("text English", text_octets, &checking);
    repeat_text("Le café de São João à Łódź, avec Jürgen. ");
    compare("text accented", text_octets, &checking);
    compare_edits(folder);
    printf("greatest ratio %.2f (goal 1.50), greatest growth %.2f (goal 1.20)\n", greatest_ratio, greatest_growth);
    return 0;
}
