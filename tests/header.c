/* Holds the header's numbers to what the calls do, and prints the number of each fault that it has words for. C99 and C++11. */
#include <stdio.h>
#include <string.h>

#include "jiskromet.h"

static int wrong = 0;

static void expect(int right, const char *what) {
    if (right) return;
    fprintf(stderr, "tests/header.c: %s\n", what);
    wrong = 1;
}

/* Texts that take the most room, and one that is too long by one. */
static const uint8_t ascii[] = {0x41, 0x42};
static const uint8_t two_bytes[] = {0xDF, 0xBF, 0xDF, 0xBF};
static const uint8_t control[] = {0x20, 0x20, 0x20}; /* 80 in UTF-EBCDIC */
static const uint16_t last_unit[] = {0xFFFD, 0xFFFD}; /* FFFE and FFFF are not converted */
static const uint32_t last_value[] = {0x7FFFFFFF};
static const uint32_t pair[] = {0x10000, 0x10FFFF};
static const uint8_t zeros[JK_MAX_UNITS + 1] = {0};

/* A room is a constant, and its argument any expression. */
static uint8_t host[JK_UCS4_TO_UTF_EBCDIC_ROOM(1 + 1)];

#define COUNT(text) (sizeof text / sizeof text[0])
#define ROOM(text, call, PAIR) \
    expect(jk_##call##_length(text, COUNT(text)).units == JK_##PAIR##_ROOM(COUNT(text)), #PAIR "_ROOM is not what the text takes"); \
    expect(JK_##PAIR##_ROOM((size_t)-1) == JK_##PAIR##_ROOM(JK_MAX_UNITS), #PAIR "_ROOM grows beyond JK_MAX_UNITS")

static void rooms(void) {
    ROOM(two_bytes, fss_utf_to_utf_ebcdic, FSS_UTF_TO_UTF_EBCDIC);
    ROOM(ascii, fss_utf_to_utf16, FSS_UTF_TO_UTF16);
    ROOM(ascii, fss_utf_to_ucs4, FSS_UTF_TO_UCS4);
    ROOM(control, utf_ebcdic_to_fss_utf, UTF_EBCDIC_TO_FSS_UTF);
    ROOM(control, utf_ebcdic_to_utf16, UTF_EBCDIC_TO_UTF16);
    ROOM(control, utf_ebcdic_to_ucs4, UTF_EBCDIC_TO_UCS4);
    ROOM(last_unit, utf16_to_fss_utf, UTF16_TO_FSS_UTF);
    ROOM(last_unit, utf16_to_utf_ebcdic, UTF16_TO_UTF_EBCDIC);
    ROOM(last_unit, utf16_to_ucs4, UTF16_TO_UCS4);
    ROOM(last_value, ucs4_to_fss_utf, UCS4_TO_FSS_UTF);
    ROOM(last_value, ucs4_to_utf_ebcdic, UCS4_TO_UTF_EBCDIC);
    ROOM(pair, ucs4_to_utf16, UCS4_TO_UTF16);
    expect(JK_FSS_UTF_TO_UTF_EBCDIC_ROOM(3) == 4, "a half is not rounded down");
    expect(jk_ucs4_to_utf_ebcdic(last_value, COUNT(last_value), host, sizeof host).units == sizeof host / 2, "a sum is not taken whole");
}

static int same(jk_item a, jk_item b) {
    return a.kind == b.kind && a.fault == b.fault && a.value == b.value && a.offset == b.offset && a.length == b.length;
}

/* The text is the longest item of its form, read whole from its first unit and from its last. No item covers its end. */
#define LONGEST(text, form, FORM) \
    expect(jk_##form##_item_at(text, COUNT(text), 0).length == JK_##FORM##_LONGEST_ITEM, "JK_" #FORM "_LONGEST_ITEM"); \
    expect(same(jk_##form##_item_covering(text, COUNT(text), COUNT(text) - 1), jk_##form##_item_at(text, COUNT(text), 0)), \
           "jk_" #form "_item_covering does not give the item whole"); \
    expect(jk_##form##_item_covering(text, COUNT(text), COUNT(text)).fault == JK_OFFSET_OUT_OF_RANGE, \
           "jk_" #form "_item_covering gives an item at the end")

static void limits(void) {
    const uint8_t fss_utf[] = {0xFD, 0xBF, 0xBF, 0xBF, 0xBF, 0xBF};
    const uint8_t utf_ebcdic[] = {0xE1, 0xFE, 0xFE, 0xFE, 0xFE, 0xFE, 0xFE};
    const uint16_t utf16[] = {0xD800, 0xDC00};
    LONGEST(fss_utf, fss_utf, FSS_UTF);
    LONGEST(utf_ebcdic, utf_ebcdic, UTF_EBCDIC);
    LONGEST(utf16, utf16, UTF16);
    LONGEST(last_value, ucs4, UCS4);
    expect(jk_fss_utf_to_ucs4_length(zeros, JK_MAX_UNITS).units == JK_MAX_UNITS, "JK_MAX_UNITS are not taken");
    expect(jk_fss_utf_to_ucs4_length(zeros, JK_MAX_UNITS + 1).fault == JK_SOURCE_TOO_LONG, "more than JK_MAX_UNITS are taken");
}

/* Room for each form. */
static union {
    uint8_t fss_utf[64];
    uint8_t utf_ebcdic[64];
    uint16_t utf16[32];
    uint32_t ucs4[16];
} result, fresh;

static int twelve_at_1(jk_conversion answer) {
    return answer.fault == JK_NONCHARACTER && answer.offset == 1 && answer.units == 0;
}

/* A text whose second item is FFFE or FFFF is not converted, and nothing is written. */
#define NOT_CONVERTED(text, form, target) \
    result = fresh; \
    expect(twelve_at_1(jk_##form##_to_##target##_length(text, COUNT(text))), \
           "jk_" #form "_to_" #target "_length does not refuse FFFE or FFFF at its place"); \
    expect(twelve_at_1(jk_##form##_to_##target(text, COUNT(text), result.target, COUNT(result.target))), \
           "jk_" #form "_to_" #target " does not refuse FFFE or FFFF at its place"); \
    expect(memcmp(&result, &fresh, sizeof result) == 0, "jk_" #form "_to_" #target " writes where FFFE or FFFF is to be refused")

/* Every other call gives it as a character. */
#define READ(text, form, expected) \
    expect(jk_##form##_item_at(text, COUNT(text), 1).kind == JK_CHARACTER && jk_##form##_item_at(text, COUNT(text), 1).value == expected, \
           "jk_" #form "_item_at does not give FFFE or FFFF"); \
    expect(same(jk_##form##_item_covering(text, COUNT(text), COUNT(text) - 1), jk_##form##_item_at(text, COUNT(text), 1)), \
           "jk_" #form "_item_covering does not give FFFE or FFFF"); \
    expect(jk_##form##_decode_lossy(text, COUNT(text), values, COUNT(values), starts, COUNT(starts)).marks == 0 && values[1] == expected, \
           "jk_" #form "_decode_lossy does not give FFFE or FFFF")

static void noncharacters(void) {
    const uint8_t fss_utf[2][4] = {{0x41, 0xEF, 0xBF, 0xBE}, {0x41, 0xEF, 0xBF, 0xBF}};
    const uint8_t utf_ebcdic[2][5] = {{0xC1, 0xB3, 0xFE, 0xFE, 0xFD}, {0xC1, 0xB3, 0xFE, 0xFE, 0xFE}};
    const uint16_t utf16[2][2] = {{0x41, 0xFFFE}, {0x41, 0xFFFF}};
    const uint32_t ucs4[2][2] = {{0x41, 0xFFFE}, {0x41, 0xFFFF}};
    uint32_t values[8] = {0}, starts[8] = {0};
    int i;
    memset(&fresh, 0xEE, sizeof fresh);
    for (i = 0; i < 2; i++) {
        NOT_CONVERTED(fss_utf[i], fss_utf, utf_ebcdic);
        NOT_CONVERTED(fss_utf[i], fss_utf, utf16);
        NOT_CONVERTED(fss_utf[i], fss_utf, ucs4);
        NOT_CONVERTED(utf_ebcdic[i], utf_ebcdic, fss_utf);
        NOT_CONVERTED(utf_ebcdic[i], utf_ebcdic, utf16);
        NOT_CONVERTED(utf_ebcdic[i], utf_ebcdic, ucs4);
        NOT_CONVERTED(utf16[i], utf16, fss_utf);
        NOT_CONVERTED(utf16[i], utf16, utf_ebcdic);
        NOT_CONVERTED(utf16[i], utf16, ucs4);
        NOT_CONVERTED(ucs4[i], ucs4, fss_utf);
        NOT_CONVERTED(ucs4[i], ucs4, utf_ebcdic);
        NOT_CONVERTED(ucs4[i], ucs4, utf16);
        READ(fss_utf[i], fss_utf, ucs4[i][1]);
        READ(utf_ebcdic[i], utf_ebcdic, ucs4[i][1]);
        READ(utf16[i], utf16, ucs4[i][1]);
        READ(ucs4[i], ucs4, ucs4[i][1]);
    }
}

int main(void) {
    uint32_t number;
    rooms();
    limits();
    noncharacters();
    for (number = 1; number < 1000; number++)
        if (strcmp(jk_fault_text(number), jk_fault_text(0xFFFFFFFFu)) != 0) printf("%u\n", (unsigned)number);
    return wrong;
}
