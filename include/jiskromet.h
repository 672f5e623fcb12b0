/* Jiskromet: a text converter between FSS-UTF, UTF-EBCDIC, UTF-16 and UCS-4 whose every function is proved.
 *
 * FSS-UTF is X/Open's of 1993, with values up to 7FFFFFFF; today's UTF-8 can be lent as it. The surrogate values D800 to
 * DFFF are characters in no form: of UTF-16's units of these numbers two make a pair. FFFE and FFFF are characters in
 * every form, but strict conversion refuses them, since a client's host stops at them. UTF-EBCDIC is the draft of
 * Unicode Technical Report #16 of January 1999. The later report places 97 of the 256 bytes otherwise, and a host that
 * follows it misreads every letter outside ASCII: the degree sign is 47 BF here, and 80 57 there.
 *
 * A text is lent as a pointer and a number of code units, a result buffer as a pointer and a number of cells; with 0 of
 * them the pointer may be anything. Pointers are aligned as their types ask: units that came as bytes are copied into an
 * array of uint16_t or uint32_t first. A result buffer overlaps neither the text nor another result buffer. No call
 * writes to a lent text, keeps a pointer, allocates, or relies on the caller having tested the text. Calls share
 * nothing: any thread may make any call at any time. */
#ifndef JISKROMET_H
#define JISKROMET_H

#include <stddef.h>
#include <stdint.h>

#ifdef __cplusplus
extern "C" {
#endif

/* The version of this header, and of the library beside it. */
#define JK_VERSION "0.1.0"

/* How many code units a text may have. A result may be longer, and can then not be read again. */
#define JK_MAX_UNITS 65536

/* How many code units the longest item of each form has. */
#define JK_FSS_UTF_LONGEST_ITEM 6
#define JK_UTF_EBCDIC_LONGEST_ITEM 7
#define JK_UTF16_LONGEST_ITEM 2
#define JK_UCS4_LONGEST_ITEM 1

/* Fault numbers; jk_fault_text says what each means. */
enum jk_fault {
    JK_NO_FAULT = 0,
    JK_SOURCE_TOO_LONG = 1,
    JK_MISSING_TRAILING = 2,   /* the text's end included */
    JK_STRAY_TRAILING = 3,
    JK_INVALID_UNIT = 4,       /* FSS-UTF FE or FF; a UCS-4 unit of 80000000 or more */
    JK_OVERLONG = 5,
    JK_UNREPRESENTABLE = 6,    /* UTF-16 as the target of a value above 10FFFF */
    JK_BUFFER_TOO_SHORT = 7,
    /* 8 is never used again: it was a value above 7FFFFFFF, which no text gives */
    JK_OFFSET_OUT_OF_RANGE = 9,
    JK_SURROGATE = 10,         /* a value from D800 to DFFF in UCS-4, FSS-UTF or UTF-EBCDIC */
    JK_NONCHARACTER = 12       /* FFFE or FFFF, and no other value, in strict conversion and its length alone */
};

/* A fault in words, for a log or a panel. */
static inline const char *jk_fault_text(uint32_t fault) {
    switch (fault) {
    case JK_NO_FAULT: return "no fault";
    case JK_SOURCE_TOO_LONG: return "the text has more than 65,536 code units";
    case JK_MISSING_TRAILING: return "a lead has too few trailing units";
    case JK_STRAY_TRAILING: return "a trailing unit stands where no lead takes it";
    case JK_INVALID_UNIT: return "a code unit has no meaning in its form";
    case JK_OVERLONG: return "a sequence is longer than its value needs";
    case JK_UNREPRESENTABLE: return "the target form cannot hold the value";
    case JK_BUFFER_TOO_SHORT: return "a result buffer is too short for the whole result";
    case JK_OFFSET_OUT_OF_RANGE: return "the asked offset lies beyond the text";
    case JK_SURROGATE: return "a surrogate value, D800 to DFFF, is no character";
    case JK_NONCHARACTER: return "FFFE and FFFF are not converted";
    default: return "a fault that this header does not know";
    }
}

/* What stands at an offset. */
enum jk_item_kind {
    JK_END = 0,       /* the end of the text; only jk_F_item_at gives it */
    JK_CHARACTER = 1, /* a character, with its value */
    JK_MARK = 2,      /* code units that are no character, with the fault that says why */
    JK_REFUSAL = 3    /* no answer: fault 1 (offset 0) or fault 9 (offset as asked) */
};

typedef struct jk_item {
    uint32_t kind;   /* enum jk_item_kind */
    uint32_t fault;  /* enum jk_fault; 0 unless a mark or a refusal */
    uint32_t value;  /* the character's value, 0 otherwise */
    uint64_t offset; /* where the item starts, or the text ends; of a refusal, the place that the fault concerns */
    uint64_t length; /* how many code units the item has; 0 for the end and a refusal */
} jk_item;

/* The item at an offset, read as though the text began there. The next offset is offset + length. */
jk_item jk_fss_utf_item_at(const uint8_t *text, size_t len, size_t offset);
jk_item jk_utf_ebcdic_item_at(const uint8_t *text, size_t len, size_t offset);
jk_item jk_utf16_item_at(const uint16_t *text, size_t len, size_t offset);
jk_item jk_ucs4_item_at(const uint32_t *text, size_t len, size_t offset);

/* The item that covers an offset, in the reading of the whole text. Use it to cut a text without cutting a character,
 * at the item's offset; to step backwards, by asking one unit before an item; and to learn what a cursor in the middle
 * of a text stands in. Every unit of an item gives the same answer, that of jk_F_item_at where the item starts.
 *
 * However long the text is, it looks back at most five bytes in FSS-UTF, six in UTF-EBCDIC, one unit in UTF-16, none in
 * UCS-4, and from the item's start ahead as far as the longest item reaches. At or past the text's end it is fault 9. */
jk_item jk_fss_utf_item_covering(const uint8_t *text, size_t len, size_t offset);
jk_item jk_utf_ebcdic_item_covering(const uint8_t *text, size_t len, size_t offset);
jk_item jk_utf16_item_covering(const uint16_t *text, size_t len, size_t offset);
jk_item jk_ucs4_item_covering(const uint32_t *text, size_t len, size_t offset);

/* The answer of a conversion or of its length. */
typedef struct jk_conversion {
    uint32_t fault;  /* enum jk_fault; 0 where there is none */
    uint64_t offset; /* of a refusal, the offset of the item at fault (0 for faults 1 and 7); 0 otherwise */
    uint64_t units;  /* the code units written or needed; 0 of a refusal */
} jk_conversion;

/* Strict conversion. jk_F_to_G writes the text in the other form to the front of dst and leaves its rest untouched;
 * jk_F_to_G_length tells how many code units that takes, and gives no fault 7. A refusal (1; else the fault at the
 * lowest offset, 2 to 6, 10 or 12; else 7) leaves all of dst as it was. What the other calls give as a character is
 * converted, but for FFFE and FFFF (fault 12) and, to UTF-16, a value above 10FFFF (fault 6).
 *
 * JK_F_TO_G_ROOM(n) is the most code units that a text of n can take. It is a constant where n is one, it evaluates n
 * more than once, and from JK_MAX_UNITS on it stays the same, since longer texts are refused. */
#define JK_CAPPED(n) ((size_t)(n) < JK_MAX_UNITS ? (size_t)(n) : JK_MAX_UNITS)

/* FSS-UTF to UTF-EBCDIC. */
#define JK_FSS_UTF_TO_UTF_EBCDIC_ROOM(n) (3 * JK_CAPPED(n) / 2)
jk_conversion jk_fss_utf_to_utf_ebcdic(const uint8_t *src, size_t src_len, uint8_t *dst, size_t dst_len);
jk_conversion jk_fss_utf_to_utf_ebcdic_length(const uint8_t *src, size_t src_len);

/* FSS-UTF to UTF-16. */
#define JK_FSS_UTF_TO_UTF16_ROOM(n) JK_CAPPED(n)
jk_conversion jk_fss_utf_to_utf16(const uint8_t *src, size_t src_len, uint16_t *dst, size_t dst_len);
jk_conversion jk_fss_utf_to_utf16_length(const uint8_t *src, size_t src_len);

/* FSS-UTF to UCS-4. */
#define JK_FSS_UTF_TO_UCS4_ROOM(n) JK_CAPPED(n)
jk_conversion jk_fss_utf_to_ucs4(const uint8_t *src, size_t src_len, uint32_t *dst, size_t dst_len);
jk_conversion jk_fss_utf_to_ucs4_length(const uint8_t *src, size_t src_len);

/* UTF-EBCDIC to FSS-UTF. */
#define JK_UTF_EBCDIC_TO_FSS_UTF_ROOM(n) (2 * JK_CAPPED(n))
jk_conversion jk_utf_ebcdic_to_fss_utf(const uint8_t *src, size_t src_len, uint8_t *dst, size_t dst_len);
jk_conversion jk_utf_ebcdic_to_fss_utf_length(const uint8_t *src, size_t src_len);

/* UTF-EBCDIC to UTF-16. */
#define JK_UTF_EBCDIC_TO_UTF16_ROOM(n) JK_CAPPED(n)
jk_conversion jk_utf_ebcdic_to_utf16(const uint8_t *src, size_t src_len, uint16_t *dst, size_t dst_len);
jk_conversion jk_utf_ebcdic_to_utf16_length(const uint8_t *src, size_t src_len);

/* UTF-EBCDIC to UCS-4. */
#define JK_UTF_EBCDIC_TO_UCS4_ROOM(n) JK_CAPPED(n)
jk_conversion jk_utf_ebcdic_to_ucs4(const uint8_t *src, size_t src_len, uint32_t *dst, size_t dst_len);
jk_conversion jk_utf_ebcdic_to_ucs4_length(const uint8_t *src, size_t src_len);

/* UTF-16 to FSS-UTF. */
#define JK_UTF16_TO_FSS_UTF_ROOM(n) (3 * JK_CAPPED(n))
jk_conversion jk_utf16_to_fss_utf(const uint16_t *src, size_t src_len, uint8_t *dst, size_t dst_len);
jk_conversion jk_utf16_to_fss_utf_length(const uint16_t *src, size_t src_len);

/* UTF-16 to UTF-EBCDIC. */
#define JK_UTF16_TO_UTF_EBCDIC_ROOM(n) (4 * JK_CAPPED(n))
jk_conversion jk_utf16_to_utf_ebcdic(const uint16_t *src, size_t src_len, uint8_t *dst, size_t dst_len);
jk_conversion jk_utf16_to_utf_ebcdic_length(const uint16_t *src, size_t src_len);

/* UTF-16 to UCS-4. */
#define JK_UTF16_TO_UCS4_ROOM(n) JK_CAPPED(n)
jk_conversion jk_utf16_to_ucs4(const uint16_t *src, size_t src_len, uint32_t *dst, size_t dst_len);
jk_conversion jk_utf16_to_ucs4_length(const uint16_t *src, size_t src_len);

/* UCS-4 to FSS-UTF. */
#define JK_UCS4_TO_FSS_UTF_ROOM(n) (6 * JK_CAPPED(n))
jk_conversion jk_ucs4_to_fss_utf(const uint32_t *src, size_t src_len, uint8_t *dst, size_t dst_len);
jk_conversion jk_ucs4_to_fss_utf_length(const uint32_t *src, size_t src_len);

/* UCS-4 to UTF-EBCDIC. */
#define JK_UCS4_TO_UTF_EBCDIC_ROOM(n) (7 * JK_CAPPED(n))
jk_conversion jk_ucs4_to_utf_ebcdic(const uint32_t *src, size_t src_len, uint8_t *dst, size_t dst_len);
jk_conversion jk_ucs4_to_utf_ebcdic_length(const uint32_t *src, size_t src_len);

/* UCS-4 to UTF-16. */
#define JK_UCS4_TO_UTF16_ROOM(n) (2 * JK_CAPPED(n))
jk_conversion jk_ucs4_to_utf16(const uint32_t *src, size_t src_len, uint16_t *dst, size_t dst_len);
jk_conversion jk_ucs4_to_utf16_length(const uint32_t *src, size_t src_len);

/* The answer of a lossy decoding. */
typedef struct jk_decoding {
    uint32_t fault;  /* enum jk_fault: 1, 7, or 0 where there is none */
    uint64_t offset; /* always 0: faults 1 and 7 concern no item */
    uint64_t items;  /* how many items the text has; 0 of a refusal */
    uint64_t marks;  /* how many of them are marks; 0 of a refusal */
} jk_decoding;

/* The value that stands for a mark. */
#define JK_MARK_VALUE 0xFFFFFFFFu

/* Lossy decoding: for each item of the text, in order, its value (JK_MARK_VALUE for a mark) at the front of values and
 * its start at the front of starts; the rest of both is untouched. A text of n code units has at most n items, so n
 * cells each are room enough; fewer cells than items in either buffer is fault 7. A refusal leaves both buffers as they
 * were. The three must not overlap. FFFE and FFFF are characters here, so that a text without a mark may still be one
 * that strict conversion refuses. */
jk_decoding jk_fss_utf_decode_lossy(const uint8_t *text, size_t len, uint32_t *values, size_t values_len,
                                    uint32_t *starts, size_t starts_len);
jk_decoding jk_utf_ebcdic_decode_lossy(const uint8_t *text, size_t len, uint32_t *values, size_t values_len,
                                       uint32_t *starts, size_t starts_len);
jk_decoding jk_utf16_decode_lossy(const uint16_t *text, size_t len, uint32_t *values, size_t values_len,
                                  uint32_t *starts, size_t starts_len);
jk_decoding jk_ucs4_decode_lossy(const uint32_t *text, size_t len, uint32_t *values, size_t values_len,
                                 uint32_t *starts, size_t starts_len);

#ifdef __cplusplus
}
#endif

#endif
