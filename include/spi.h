/*
 * spi.h - the proved library for binary service and programme information, for C on x86-64 Linux.
 *
 * `tools/c-library` has the library proved and writes target/staticlib/libspi_c.a; link that.  Its
 * code needs a processor of x86-64-v2, the kit's default.
 *
 * Each call takes memory that the caller lends, as a pointer and a count of elements, and answers by
 * one number of 64 bits.  It keeps nothing after it returns, allocates nothing and calls nothing.
 *
 * Proved of each call, for every input: its answer and what each lent list then holds are those that
 * the rules of document 01 give (crates/spi_c/specs/Claims.antt), it reads and writes nothing outside
 * what is lent, and it ends.  After a refusal everything lent holds what it held before.
 *
 * Believed, not proved, and for the caller to see to:
 *   - these declarations match the library, and the library is linked for the machine it was made for;
 *   - a pointer is good for as many elements as its count says, is aligned for its type, and is not
 *     NULL, even where the count is 0;
 *   - memory that a call writes overlaps nothing else that is lent to that call; memory that it only
 *     reads (const) may overlap other such memory; nobody else writes to either during the call;
 *   - there is stack: 96 KB are plenty, and 64 KB where spi_pack isn't called.
 */
#ifndef SPI_H
#define SPI_H

#include <stdbool.h>
#include <stddef.h>
#include <stdint.h>

#ifdef __cplusplus
extern "C" {
#endif

/* ---- Answers ----------------------------------------------------------------------------------
 *
 * bits 63 to 56   the refusal, 0 where there is none
 * bits 55 to 48   spi_same and spi_merge alone: the object that is refused, 1 or 2; 0 where spi_merge refuses the two together
 * bits 47 to 40   SPI_BAD_VALUE alone: the field of a time that is wrong, 0 for a value of another kind
 * bits 39 to 0    the place of the refusal in its object; where there is none, the call's count
 *
 * Where there is no refusal, bits 55 to 40 are a second count: of spi_read and spi_scan the number of items that they
 * judged, of spi_merge that of the records.
 */
enum spi_refusal {
    SPI_OK = 0,
    SPI_BAD_SIZE = 1,             /* no octets, or more than 32,768 */
    SPI_HEADER_PAST_END = 2,      /* a length field runs past the end of what encloses its item */
    SPI_BODY_PAST_END = 3,        /* so does a body */
    SPI_TAG_NOT_ALLOWED = 4,      /* a tag that may not stand there */
    SPI_OCTETS_AFTER_TOP = 5,     /* octets behind the top */
    SPI_OUT_OF_ORDER = 6,         /* an item that comes too late among its element's items */
    SPI_TOO_DEEP = 7,             /* an element below depth 16 */
    SPI_ATTRIBUTE_TWICE = 8,      /* a known attribute a second time */
    SPI_BAD_VALUE = 9,            /* a value with a wrong size or a field out of range */
    SPI_BAD_TEXT = 10,            /* octets that are no text */
    SPI_BAD_TOKEN_TABLE = 11,     /* octets that are no token table */
    SPI_TOKEN_WITHOUT_ENTRY = 12, /* a token that the table has no entry for */
    SPI_TEXT_TOO_LONG = 13,       /* a shown text above its limit of characters */
    SPI_TOO_FEW_PLACES = 14,      /* fewer places for records than there are records */
    SPI_TOO_LARGE = 15,           /* a room or store too small, or octets above 32,768 */
    SPI_NOT_WELL_FORMED = 16,     /* records that are no well-formed tree, or would be none after the edit */
    SPI_PLAIN_OCTETS = 17,        /* an item of plain octets, which have no XML */
    SPI_NOT_THERE = 18,           /* no such record or place, a record of the wrong kind, or the top to be removed */
    SPI_NOT_IN_PROFILE = 19,      /* an item that the Basic profile hasn't got for the data type */
    SPI_CLASH = 20,               /* tops of two tags, or for one element two languages, two values of an attribute, or two CDATA */
    SPI_KEY_TWICE = 21,           /* an object that has the same merging key twice in one element */
    SPI_NOT_PACKED = 22           /* no packed object of that normal form, or no normal form */
};

/* The field of a time that is wrong, the lowest that applies.  A wrong length hides all others. */
enum spi_field {
    SPI_NO_FIELD = 0,
    SPI_LENGTH = 1,
    SPI_DATE = 2,    /* above 99,999 */
    SPI_HOURS = 3,   /* above 23 */
    SPI_MINUTES = 4, /* above 59 */
    SPI_SECONDS = 5  /* above 59 */
};

static inline enum spi_refusal spi_refused(uint64_t answer)
{
    return (enum spi_refusal)(answer >> 56);
}

static inline int spi_refused_object(uint64_t answer)
{
    return answer >> 56 ? (int)(answer >> 48 & 0xFF) : 0;
}

static inline enum spi_field spi_refused_field(uint64_t answer)
{
    return answer >> 56 ? (enum spi_field)(answer >> 40 & 0xFF) : SPI_NO_FIELD;
}

/* The place of a refusal, else the count. */
static inline size_t spi_value(uint64_t answer)
{
    return (size_t)(answer & 0xFFFFFFFFFF);
}

/* The second count of a call that tells two, 0 after a refusal; spi_items and spi_merged_records say of what. */
static inline size_t spi_second_value(uint64_t answer)
{
    return answer >> 56 ? 0 : (size_t)(answer >> 40 & 0xFFFF);
}

/* How many items `spi_read` or `spi_scan` judged, known and unknown, those inside unknown ones left out: at most half the
 * object's octets. */
static inline size_t spi_items(uint64_t answer)
{
    return spi_second_value(answer);
}

/* ---- Records ----------------------------------------------------------------------------------
 *
 * A known item is a record, and the records are six lists; an item's fields stand at its number.
 *
 * tags      the item's tag
 * kinds     0 an element, 1 an attribute, 2 CDATA
 * depths    1 for the top, one more for what is in it, and so on
 * parents   the number of the element it stands in (0 for the top)
 * starts    where its body begins
 * sizes     how many octets its body has
 *
 * The shortest of the six counts as the number of places.
 */
enum spi_kind { SPI_ELEMENT = 0, SPI_ATTRIBUTE = 1, SPI_CDATA = 2 };

enum {
    SPI_MOST_OCTETS = 32768,      /* of an object, read or written */
    SPI_MOST_RECORDS = 16384,     /* of an object that is accepted */
    SPI_MOST_TREE_RECORDS = 65536 /* of a tree that is edited */
};

/* Reads an object into the lists.  Refused by 1 to 14; the count is that of the records. */
uint64_t spi_read(const uint8_t *object, size_t octets,
                  uint8_t *tags, size_t tags_count,
                  uint8_t *kinds, size_t kinds_count,
                  uint8_t *depths, size_t depths_count,
                  uint16_t *parents, size_t parents_count,
                  uint16_t *starts, size_t starts_count,
                  uint16_t *sizes, size_t sizes_count);

/* Reads an object with no list: its answer is that of spi_read lent lists long enough, for every input.  Refused by 1
 * to 13, and never by 14; the count is that of the records.  For receivers that can't lend lists. */
uint64_t spi_scan(const uint8_t *object, size_t octets);

/* What is to be lent to normalise an object or to take it in, beside places for the records that spi_scan counts, with
 * nothing lent and nothing made.  The answer is no refusal but two numbers: the octets that texts and values take of a
 * store, and those of the normal form.  Both are 0 where the object is refused; where its normal form has more octets
 * than an object may, which nothing can hold, they are 0 and SPI_MOST_OCTETS + 1. */
uint64_t spi_sizes(const uint8_t *object, size_t octets);

static inline size_t spi_store_size(uint64_t sizes)
{
    return (size_t)(sizes >> 32);
}

static inline size_t spi_normal_size(uint64_t sizes)
{
    return (size_t)(sizes & 0xFFFFFFFF);
}

/* Where the body of a record lies: the start in bits 63 to 32, the size in bits 31 to 0.  Both are 0
 * where the lists have no such record or the object no such part; nothing is refused. */
uint64_t spi_span(const uint8_t *object, size_t octets,
                  const uint16_t *starts, size_t starts_count,
                  const uint16_t *sizes, size_t sizes_count,
                  size_t number);

static inline size_t spi_span_start(uint64_t span)
{
    return (size_t)(span >> 32);
}

static inline size_t spi_span_size(uint64_t span)
{
    return (size_t)(span & 0xFFFFFFFF);
}

/* Writes the normal form of the first `records` records, whose bodies lie in `lent`, to the room.  A seventh list,
 * `bodies`, whose places count too, then has how many octets the body of each has in the normal form; what it held
 * before doesn't matter.  Refused by 16 and 15, at place 0; the count is that of the octets. */
uint64_t spi_write(size_t records,
                   const uint8_t *tags, size_t tags_count,
                   const uint8_t *kinds, size_t kinds_count,
                   const uint8_t *depths, size_t depths_count,
                   const uint16_t *parents, size_t parents_count,
                   const uint16_t *starts, size_t starts_count,
                   const uint16_t *sizes, size_t sizes_count,
                   uint16_t *bodies, size_t bodies_count,
                   const uint8_t *lent, size_t lent_count,
                   uint8_t *room, size_t room_count);

/* Writes the normal form of an object to the room.  The lists and the store then hold its records
 * with every token replaced and every value in normal form: the store has their bodies, and a seventh
 * list, `bodies`, whose places count too, how many octets each item's body has in the normal form.  An
 * attribute that has its default is among these, and not in the normal form.  Refused by 1 to 15; the count
 * is that of the octets.  With SPI_MOST_RECORDS places and SPI_MOST_OCTETS of store and of room, 14 never comes,
 * and 15 only where the normal form has more octets than an object may. */
uint64_t spi_normalise(const uint8_t *object, size_t octets,
                       uint8_t *tags, size_t tags_count,
                       uint8_t *kinds, size_t kinds_count,
                       uint8_t *depths, size_t depths_count,
                       uint16_t *parents, size_t parents_count,
                       uint16_t *starts, size_t starts_count,
                       uint16_t *sizes, size_t sizes_count,
                       uint16_t *bodies, size_t bodies_count,
                       uint8_t *store, size_t store_count,
                       uint8_t *room, size_t room_count);

/* Whether two objects mean the same: the count is 1 where they do, else 0.  Nothing is lent to it but the
 * objects, which may overlap.  Refused by 1 to 13 of the first object, then of the second; objects whose
 * normal form has more octets than an object may are compared like all others. */
uint64_t spi_same(const uint8_t *first, size_t first_octets,
                  const uint8_t *second, size_t second_octets);

/* Writes the XML of an object's meaning to the room: UTF-8, with no zero behind it.  Refused by 1 to 13; then by
 * 17, at the tag of the first item of plain octets; then by 15, where the room is too small.  The text is no
 * object, so SPI_MOST_OCTETS is no limit of it.  The count is that of the octets. */
uint64_t spi_export(const uint8_t *object, size_t octets, uint8_t *room, size_t room_count);

/* Whether an object may be sent to the small receiver, which takes the Basic profile alone (annex A of TS 102 371), as one
 * of a data type: every known element and attribute stands in the annex's table, each element in one that the table
 * allows; the token table and the default language may always stand in the top.  Refused by 1 to 13; then by 19, at
 * the tag of the first item that isn't allowed, which is the top at 0 for any other number than these.  Nothing is
 * lent to it but the object; the count of a yes is 0. */
enum spi_data_type { SPI_SERVICE_INFORMATION = 0, SPI_PROGRAMME_INFORMATION = 1, SPI_GROUP_INFORMATION = 2 };

uint64_t spi_gate(const uint8_t *object, size_t octets, uint8_t data_type);

/* Whether `packed`, by whichever packer, may be passed on in place of a normal form: it is accepted, has that very normal
 * form and isn't longer.  Refused by 22 at place 0: it may not, or the first is no normal form.  Nothing is lent to it but
 * the octets, which may overlap; the count of a yes is 0. */
uint64_t spi_check_packed(const uint8_t *normal, size_t normal_octets,
                          const uint8_t *packed, size_t packed_octets);

/* Writes a normal form with its common words folded to the room: up to 16 words that save most octets, in a token table.  It
 * is the normal form itself where that is no longer.  What it writes passes spi_check_packed.  Refused by 22 where it is
 * given no normal form, then by 15 where the room is too small; a room as long as the normal form always suffices.  The
 * count is that of the octets. */
uint64_t spi_pack(const uint8_t *normal, size_t octets, uint8_t *room, size_t room_count);

/* ---- A tree that is edited ----------------------------------------------------------------------
 *
 * An object that is taken in lies in the six lists, in a seventh and in a store.
 *
 * bodies    how many octets the item's body has in normal form
 * store     the texts, with every token replaced, the values in normal form and the plain octets, one right behind
 *           the other in record order, from the store's start on
 *
 * Here starts and sizes say where a body lies in the store; both are 0 for an element that holds items.  The shortest
 * of the seven lists counts as the number of places.  The first `records` records are the tree; taking in and each
 * edit answer how many there are.  Behind them, and in the store behind the last body, everything stays as it was, so
 * room that an edit frees is used again.
 *
 * The calls below ask nothing of memory: where it doesn't hold a tree of so many records in this form, as after it was
 * written to by others, they refuse with SPI_NOT_WELL_FORMED.  Refusals of edits are at place 0, in the order 18, 16,
 * 14, 15.  With SPI_MOST_TREE_RECORDS places and SPI_MOST_OCTETS of store, 14 and 15 come only where the normal form
 * would have more octets than an object may.
 */

/* Takes an object in.  Refused by 1 to 13, then by 14, then by 15, where its texts and values are more than the store
 * or its normal form has more octets than an object may.  The count is that of the records. */
uint64_t spi_take_in(const uint8_t *object, size_t octets,
                     uint8_t *tags, size_t tags_count,
                     uint8_t *kinds, size_t kinds_count,
                     uint8_t *depths, size_t depths_count,
                     uint16_t *parents, size_t parents_count,
                     uint16_t *starts, size_t starts_count,
                     uint16_t *sizes, size_t sizes_count,
                     uint16_t *bodies, size_t bodies_count,
                     uint8_t *store, size_t store_count);

/* Replaces a text: CDATA, a text attribute or the default language (0x06).  `text` has no token octets.  Refused by 18,
 * 16, 15. */
uint64_t spi_replace_text(size_t records, size_t number,
                          const uint8_t *text, size_t octets,
                          const uint8_t *tags, size_t tags_count,
                          const uint8_t *kinds, size_t kinds_count,
                          const uint8_t *depths, size_t depths_count,
                          const uint16_t *parents, size_t parents_count,
                          uint16_t *starts, size_t starts_count,
                          uint16_t *sizes, size_t sizes_count,
                          uint16_t *bodies, size_t bodies_count,
                          uint8_t *store, size_t store_count);

/* Removes a record with all below it.  Refused by 18, and by 16 only where memory holds no tree. */
uint64_t spi_remove(size_t records, size_t number,
                    uint8_t *tags, size_t tags_count,
                    uint8_t *kinds, size_t kinds_count,
                    uint8_t *depths, size_t depths_count,
                    uint16_t *parents, size_t parents_count,
                    uint16_t *starts, size_t starts_count,
                    uint16_t *sizes, size_t sizes_count,
                    uint16_t *bodies, size_t bodies_count,
                    uint8_t *store, size_t store_count);

/* Puts an element in, with all below it, as the child element of number `place`, from 0, of the element of number
 * `parent`; the language counts as one, attributes and CDATA don't.  `element` are the octets of one known element
 * without token octets, at most SPI_MOST_OCTETS.  Refused by 18, 16, 14, 15. */
uint64_t spi_insert(size_t records, size_t parent, size_t place,
                    const uint8_t *element, size_t octets,
                    uint8_t *tags, size_t tags_count,
                    uint8_t *kinds, size_t kinds_count,
                    uint8_t *depths, size_t depths_count,
                    uint16_t *parents, size_t parents_count,
                    uint16_t *starts, size_t starts_count,
                    uint16_t *sizes, size_t sizes_count,
                    uint16_t *bodies, size_t bodies_count,
                    uint8_t *store, size_t store_count);

/* Writes the normal form of the tree to the room.  Refused by 16, then by 15, where the room is too small; the count is
 * that of the octets. */
uint64_t spi_write_state(size_t records,
                         const uint8_t *tags, size_t tags_count,
                         const uint8_t *kinds, size_t kinds_count,
                         const uint8_t *depths, size_t depths_count,
                         const uint16_t *parents, size_t parents_count,
                         const uint16_t *starts, size_t starts_count,
                         const uint16_t *sizes, size_t sizes_count,
                         const uint16_t *bodies, size_t bodies_count,
                         const uint8_t *store, size_t store_count,
                         uint8_t *room, size_t room_count);

/* Merges two objects of one top tag, a Basic and an Advanced one (5.3 and 5.4 of TS 102 371): elements with the same path of
 * tags and the same merging attributes become one.  The room then has the normal form of the result, and lists and store
 * are as spi_take_in of that normal form leaves them, so that the result can be edited further.  `by_bearers` says how the
 * services of an ensemble are told apart: by the set of their bearers' ids, or else by their tag alone, so that an
 * ensemble has one service.
 *
 * Refused by 1 to 13 of Basic, which is the first object, then of Advanced; then by 20, 21, 14 and 15, at place 0.  The
 * count is that of the octets in the room, spi_merged_records that of the records.  With SPI_MOST_RECORDS places and
 * SPI_MOST_OCTETS of store and of room, 14 and 15 come only where the normal form would have more octets than an object
 * may. */
uint64_t spi_merge(const uint8_t *basic, size_t basic_octets,
                   const uint8_t *advanced, size_t advanced_octets,
                   bool by_bearers,
                   uint8_t *tags, size_t tags_count,
                   uint8_t *kinds, size_t kinds_count,
                   uint8_t *depths, size_t depths_count,
                   uint16_t *parents, size_t parents_count,
                   uint16_t *starts, size_t starts_count,
                   uint16_t *sizes, size_t sizes_count,
                   uint16_t *bodies, size_t bodies_count,
                   uint8_t *store, size_t store_count,
                   uint8_t *room, size_t room_count);

static inline size_t spi_merged_records(uint64_t answer)
{
    return spi_second_value(answer);
}

/* Whether octets are text; `tokens` says whether token octets may stand in it. */
bool spi_check_text(const uint8_t *text, size_t octets, bool tokens);

#ifdef __cplusplus
}
#endif

#endif
