/*
 * text_checks.h - the check of text as a C programmer would first write it, in two forms: octet by octet,
 * and by a table of states.  Peers of the library's check for bench.c, which holds both to the second
 * program before it times them.
 *
 * Text is UTF-8 without overlong forms, surrogates, what lies above U+10FFFF and U+E000 to U+F8FF; below
 * 0x20 only tab, line feed and return and, where `tokens` says so, 0x01 to 0x13 (01, "Text").
 */
#include <stdbool.h>
#include <stddef.h>
#include <stdint.h>

/* ---- Octet by octet ------------------------------------------------------------------------------ */

static bool stands_alone(uint8_t octet, bool tokens)
{
    if (octet >= 0x20 || octet == 0x09 || octet == 0x0A || octet == 0x0D)
        return true;
    return tokens && octet >= 0x01 && octet <= 0x13;
}

static bool is_scalar(uint32_t code, uint32_t lowest)
{
    return code >= lowest && code <= 0x10FFFF && (code < 0xD800 || code > 0xF8FF);
}

static bool check_by_octet(const uint8_t *text, size_t size, bool tokens)
{
    uint32_t code = 0, lowest = 0; /* what is known of a sequence, and the least that may need its length */
    int left = 0;                  /* its octets that are still to come */

    for (size_t i = 0; i < size; i++) {
        uint8_t octet = text[i];
        if (left > 0) {
            if ((octet & 0xC0) != 0x80)
                return false;
            code = code << 6 | (octet & 0x3F);
            left--;
            if (left == 0 && !is_scalar(code, lowest))
                return false;
        } else if (octet < 0x80) {
            if (!stands_alone(octet, tokens))
                return false;
        } else if ((octet & 0xE0) == 0xC0) {
            code = octet & 0x1F, lowest = 0x80, left = 1;
        } else if ((octet & 0xF0) == 0xE0) {
            code = octet & 0x0F, lowest = 0x800, left = 2;
        } else if ((octet & 0xF8) == 0xF0) {
            code = octet & 0x07, lowest = 0x10000, left = 3;
        } else {
            return false;
        }
    }
    return left == 0;
}

/* ---- By a table of states ------------------------------------------------------------------------ */

/* Octets that no state tells apart are of one class.  BARRED stands in no text. */
enum { BARRED, ALONE, FROM_80, FROM_90, FROM_A0, FROM_A4, LEADS_2, LEADS_3, LEADS_4, IS_E0, IS_ED, IS_EF, IS_F0, IS_F4, CLASSES };

/* 0xC0 and 0xC1 would lead overlong forms, 0xEE only U+E000 to U+EFFF, 0xF5 and above nothing. */
#define CLASSES_WITH(token)                                                                                             \
    {                                                                                                                  \
        [0x01 ... 0x08] = token, [0x09 ... 0x0A] = ALONE, [0x0B ... 0x0C] = token, [0x0D] = ALONE,                     \
        [0x0E ... 0x13] = token, [0x20 ... 0x7F] = ALONE, [0x80 ... 0x8F] = FROM_80, [0x90 ... 0x9F] = FROM_90,        \
        [0xA0 ... 0xA3] = FROM_A0, [0xA4 ... 0xBF] = FROM_A4, [0xC2 ... 0xDF] = LEADS_2, [0xE0] = IS_E0,               \
        [0xE1 ... 0xEC] = LEADS_3, [0xED] = IS_ED, [0xEF] = IS_EF, [0xF0] = IS_F0, [0xF1 ... 0xF3] = LEADS_4,          \
        [0xF4] = IS_F4                                                                                                 \
    }

static const uint8_t class_of[2][256] = {CLASSES_WITH(BARRED), CLASSES_WITH(ALONE)};

/* A state says what may come next: nothing at all, a character, so many octets of one, or those behind a
 * first octet after which not each second octet will do. */
enum { REFUSED, WHOLE, ONE_MORE, TWO_MORE, THREE_MORE, AFTER_E0, AFTER_ED, AFTER_EF, AFTER_F0, AFTER_F4, STATES };

static const uint8_t next_state[STATES][CLASSES] = {
    [WHOLE] = {[ALONE] = WHOLE, [LEADS_2] = ONE_MORE, [LEADS_3] = TWO_MORE, [LEADS_4] = THREE_MORE, [IS_E0] = AFTER_E0,
               [IS_ED] = AFTER_ED, [IS_EF] = AFTER_EF, [IS_F0] = AFTER_F0, [IS_F4] = AFTER_F4},
    [ONE_MORE] = {[FROM_80 ... FROM_A4] = WHOLE},
    [TWO_MORE] = {[FROM_80 ... FROM_A4] = ONE_MORE},
    [THREE_MORE] = {[FROM_80 ... FROM_A4] = TWO_MORE},
    [AFTER_E0] = {[FROM_A0 ... FROM_A4] = ONE_MORE}, /* from U+0800 on */
    [AFTER_ED] = {[FROM_80 ... FROM_90] = ONE_MORE}, /* up to U+D7FF */
    [AFTER_EF] = {[FROM_A4] = ONE_MORE},             /* from U+F900 on */
    [AFTER_F0] = {[FROM_90 ... FROM_A4] = TWO_MORE}, /* from U+10000 on */
    [AFTER_F4] = {[FROM_80] = TWO_MORE}              /* up to U+10FFFF */
};

static bool check_by_table(const uint8_t *text, size_t size, bool tokens)
{
    const uint8_t *classes = class_of[tokens];
    uint8_t state = WHOLE;

    for (size_t i = 0; i < size; i++)
        state = next_state[state][classes[text[i]]];
    return state == WHOLE;
}
