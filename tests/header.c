/* lane.h as a C program sees it: the functions by its declarations, document 01's M2 and M9, and lists of no slot, by a null
   pointer too. */
#include "../lane.h"

#include <stdio.h>
#include <string.h>

static int failures = 0;

static void expect(const char *what, uint32_t got, uint32_t right)
{
    if (got != right) {
        printf("%s: %08x, not %08x\n", what, (unsigned)got, (unsigned)right);
        failures++;
    }
}

static void widths(const char *what, const uint8_t *slots, const uint8_t *right, size_t len, uint32_t reply)
{
    uint8_t bytes[8];
    memcpy(bytes, slots, len);
    expect(what, lane_fsk_widths(bytes, len), reply);
    expect(what, memcmp(bytes, right, len) != 0, 0);
}

int main(void)
{
    const uint8_t one[8] = {64}, one_wide[8] = {1};
    const uint8_t two[8] = {128, 0, 0, 0, 192}, two_wide[8] = {2, 0, 0, 0, 1};
    uint8_t none[1] = {7};

    expect("root of 16", lane_sqrt(0x41800000), 0x40800000);
    expect("root of 2", lane_sqrt(0x40000000), 0x3fb504f3);
    expect("root of 00000001", lane_sqrt(1), 0x1a3504f3);
    expect("root of 0", lane_sqrt(0), 0);
    expect("root of -0", lane_sqrt(0x80000000), 0x80000000);
    expect("root of -1", lane_sqrt(0xbf800000), 0x7fc00000);
    widths("slots 64, 0", one, one_wide, 8, 0);
    widths("slots 128, 192", two, two_wide, 8, 0);
    widths("one slot", one, one, 4, 9);
    widths("no whole slot", one, one, 3, 9);
    expect("no slot", lane_fsk_widths(none, 0), 0);
    expect("the byte behind no slot", none[0], 7);
    expect("no slot, a null pointer", lane_fsk_widths(NULL, 0), 0);
    if (failures == 0)
        puts("lane.h: M2, M9, refusal 9, and no slot by a pointer and by NULL");
    return failures != 0;
}
