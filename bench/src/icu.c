/* ICU's conversions as the benchmark calls them: each writes to a lent buffer and answers how many units, or -1 where ICU
 * refuses. With no buffer it answers how many units it would write. UTF-8 to and from UTF-32 goes through UTF-16, as
 * everything in ICU does. */
#include <stdint.h>
#include <unicode/ustring.h>
#include <unicode/uversion.h>

static int32_t answer(int32_t units, UErrorCode status, const void *dst) {
    if (!dst && status == U_BUFFER_OVERFLOW_ERROR) return units;
    return U_FAILURE(status) ? -1 : units;
}

int32_t bench_icu_utf8_to_utf16(const char *src, int32_t len, UChar *dst, int32_t room) {
    UErrorCode status = U_ZERO_ERROR;
    int32_t units = 0;
    u_strFromUTF8(dst, room, &units, src, len, &status);
    return answer(units, status, dst);
}

int32_t bench_icu_utf16_to_utf8(const UChar *src, int32_t len, char *dst, int32_t room) {
    UErrorCode status = U_ZERO_ERROR;
    int32_t units = 0;
    u_strToUTF8(dst, room, &units, src, len, &status);
    return answer(units, status, dst);
}

int32_t bench_icu_utf16_to_utf32(const UChar *src, int32_t len, UChar32 *dst, int32_t room) {
    UErrorCode status = U_ZERO_ERROR;
    int32_t units = 0;
    u_strToUTF32(dst, room, &units, src, len, &status);
    return answer(units, status, dst);
}

int32_t bench_icu_utf32_to_utf16(const UChar32 *src, int32_t len, UChar *dst, int32_t room) {
    UErrorCode status = U_ZERO_ERROR;
    int32_t units = 0;
    u_strFromUTF32(dst, room, &units, src, len, &status);
    return answer(units, status, dst);
}

int32_t bench_icu_utf8_to_utf32(const char *src, int32_t len, UChar32 *dst, int32_t room, UChar *between, int32_t between_room) {
    int32_t units = bench_icu_utf8_to_utf16(src, len, between, between_room);
    return units < 0 ? units : bench_icu_utf16_to_utf32(between, units, dst, room);
}

int32_t bench_icu_utf32_to_utf8(const UChar32 *src, int32_t len, char *dst, int32_t room, UChar *between, int32_t between_room) {
    int32_t units = bench_icu_utf32_to_utf16(src, len, between, between_room);
    return units < 0 ? units : bench_icu_utf16_to_utf8(between, units, dst, room);
}

const char *bench_icu_version(void) { return U_ICU_VERSION; }
