/* A gateway's job: alarm lines in FSS-UTF come in, damaged ones among them; the maintenance host takes UTF-EBCDIC and the
 * display panel a row of UTF-16. For each line this prints the bytes for the host and the units for the panel, cut where
 * the row is full, but not within a character. Where one of them refuses, it prints the fault with its place and, of a
 * line that the host refuses, what can still be shown.
 *
 *     gcc -I include examples/gateway.c target/staticlib/libjiskromet.a -o gateway
 *     ./gateway < examples/alarms.txt
 */
#include <stdio.h>

#include "jiskromet.h"

/* One byte more than a conversion takes: a line too long is refused by fault 1. */
enum { LONGEST_LINE = JK_MAX_UNITS + 1 };

/* The units in a row of the panel. */
enum { ROW = 40 };

/* The number of cells of an array. */
#define CELLS(array) (sizeof array / sizeof array[0])

static uint8_t line[LONGEST_LINE];
static uint8_t host[JK_FSS_UTF_TO_UTF_EBCDIC_ROOM(LONGEST_LINE)];
static uint16_t panel[JK_FSS_UTF_TO_UTF16_ROOM(LONGEST_LINE)];
static uint32_t values[JK_MAX_UNITS];
static uint32_t starts[JK_MAX_UNITS];

/* Reads a line without its line feed, and passes over what does not fit. Returns 0 at the end of the input. */
static int read_line(size_t *length) {
    int c = getchar();
    *length = 0;
    if (c == EOF) return 0;
    for (; c != EOF && c != '\n'; c = getchar())
        if (*length < LONGEST_LINE) line[(*length)++] = (uint8_t)c;
    return 1;
}

/* How many of the panel's units its row takes. A longer text is cut where the item at the cut starts: no pair is cut in two. */
static uint64_t row(uint64_t units) {
    return units <= ROW ? units : jk_utf16_item_covering(panel, units, ROW).offset;
}

static void print_fault(const char *who, jk_conversion answer) {
    printf("  %s: fault %u at byte %lu, %s\n", who, (unsigned)answer.fault, (unsigned long)answer.offset, jk_fault_text(answer.fault));
}

/* What can be shown of a refused line: characters as they are, or as their value outside ASCII; each mark with its place. */
static void show(size_t length) {
    jk_decoding answer = jk_fss_utf_decode_lossy(line, length, values, CELLS(values), starts, CELLS(starts));
    if (answer.fault != JK_NO_FAULT) return; /* fault 1: nothing is read */
    printf("  shown: ");
    for (uint64_t i = 0; i < answer.items; i++) {
        if (values[i] == JK_MARK_VALUE) printf("[damage at %lu]", (unsigned long)starts[i]);
        else if (values[i] >= 0x20 && values[i] < 0x7F) putchar((int)values[i]);
        else printf("<%lX>", (unsigned long)values[i]);
    }
    printf("\n");
}

int main(void) {
    size_t length;
    for (unsigned long number = 1; read_line(&length); number++) {
        printf("line %lu, %lu bytes\n", number, (unsigned long)length);

        jk_conversion to_host = jk_fss_utf_to_utf_ebcdic(line, length, host, CELLS(host));
        if (to_host.fault == JK_NO_FAULT) {
            printf("  host:");
            for (uint64_t i = 0; i < to_host.units; i++) printf(" %02X", (unsigned)host[i]);
            printf("\n");
        } else {
            print_fault("host", to_host);
        }

        jk_conversion to_panel = jk_fss_utf_to_utf16(line, length, panel, CELLS(panel));
        if (to_panel.fault == JK_NO_FAULT) {
            uint64_t shown = row(to_panel.units);
            printf("  panel:");
            for (uint64_t i = 0; i < shown; i++) printf(" %04X", (unsigned)panel[i]);
            puts(shown < to_panel.units ? " ..." : "");
        } else {
            print_fault("panel", to_panel);
        }

        if (to_host.fault != JK_NO_FAULT) show(length);
    }
    return 0;
}
