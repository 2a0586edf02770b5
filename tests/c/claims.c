/* claims SAMPLES: asks the archive which decoders of a port claim a target, and what a port makes of a configuration request, on
 * pictures that are built here, in either edition, and on those of a folder; looks at every byte that a call could write. Last
 * line: N passed, M failed. */
#include "common.h"

#define ROOT 0
#define UPSTREAM 1
#define DOWNSTREAM 2
#define NO_PARENT 255
#define MEMORY_SPACE 2
#define ALL_BUT_MEMORY_SPACE 0xFFFD
#define ARI (1 << 5)
#define VGA (1 << 3)
#define VGA_16_BIT (1 << 4)
#define ALL_BUT_VGA 0xFFF7

/* All three vectors of 256 entries each, enabled or not; Num Sec Dev. */
#define VECTORS 96
#define SUPPORTED 7
#define SEC_DEV(n) ((n) << 3)

/* No buses, and windows of which the base is above the limit. */
#define NO_BUSES {0, 0}
#define NO_MEMORY {0xFFF0, 0}
#define NO_PREF {0xFFF0, 0}, {0, 0}

/* The controls of a vector that is enabled: where it starts, and the code of its granularity. MEM High has two. */
#define RID_FROM(id, granularity) (1U | (granularity) << 4 | (uint32_t)(id) << 16)
#define LOW_FROM(address, granularity) (1U | (granularity) << 4 | (address))
#define HIGH_FROM(address, granularity) (1U | (granularity) << 4 | ((address) & 0xF0000000)), (uint64_t)(address) >> 32
#define SECONDARY(id) (id)
#define NO_HIGH 0, 0

/* Entry i of a vector, among all bits of the port's vectors and counted from 1; 0 is none. */
#define RID_ENTRY(i) (1 + (i))
#define LOW_ENTRY(i) (257 + (i))
#define HIGH_ENTRY(i) (513 + (i))
#define NO_ENTRIES {0, 0, 0, 0, 0, 0, 0, 0, 0, 0}

/* No vector is enabled, and no entry set. */
#define NO_VECTORS {0, 0, 0, NO_HIGH}, NO_ENTRIES

struct port {
    uint8_t kind, parent;
    uint16_t own, command;
    uint8_t buses[2];
    uint16_t memory[2], prefetchable[2];
    uint32_t upper[2];
    uint16_t device_control_2, bridge_control;
    uint32_t capabilities, controls[5];
    uint16_t entries[10];
};

/* The two calls; a conversion has no kind. */
enum call { CLAIM, CONVERT };

struct question {
    uint32_t port, kind;
    uint64_t target;
};

struct answered {
    struct question asked;
    uint32_t answer;
};

struct refused {
    const char *sample;
    uint32_t number;
};

/* What the ports claim, and why:
 * 0: buses 3 to 5; RID entries of 8 IDs from 0300h on; Memory E0000000h to E03FFFFFh; Prefetchable of type 0, whose upper words do
 *    not count, E0200000h to E05FFFFFh; MEM Low entries of 1 MiB from E0000000h on, MEM High entries of 256 MiB from 4 GiB on.
 * 1: RID entries from FFF8h on, of which the second is past the last ID; Prefetchable of type 1, FFF00000h to 1000FFFFFh; MEM Low
 *    entries from FF000000h on, of which 16 is not below 4 GiB; MEM High entries from 0 on, of which 15 is.
 * 2: bus FFh, with the own ID; RID entries from FF00h on; Prefetchable from 4 GiB to the last address; MEM High entries of 32 GiB
 *    from FFFFFFF800000000h on, of which the second is past 2^64.
 * 3: as 0, with all bits of Command but Memory Space Enable.
 * 4: Secondary above Subordinate; registers of zeros, which are the first MiB; entries set in vectors that are not enabled.
 * 5: buses 0 and 1, with the own ID; RID entries of a bus from 0200h on, of which the last is past the last ID; MEM Low entries of
 *    16 MiB from 10000000h on.
 * 6: the video range, A0000h to BFFFFh.
 * 7: nothing, since of VGA there is only the bit for 16-bit decode, which is about I/O.
 * 8: nothing, with all bits of Bridge Control but VGA Enable.
 * 9: nothing, with all bits of Bridge Control, and all of Command but Memory Space Enable.
 * 10: the first MiB by Memory registers of zeros, and the video range.
 * 11: the first MiB by both windows and by a MEM Low entry, the video range, and a MEM High entry from 4 GiB on. */
#define WINDOWS {0xE000, 0xE030}, {0xE020, 0xE050}, {1, 1}
#define CONTROLS {RID_FROM(0x0300, 0), 0, LOW_FROM(0xE0000000, 0), HIGH_FROM(0x100000000, 0)}
#define ENTRIES \
    {RID_ENTRY(0), RID_ENTRY(63), RID_ENTRY(255), LOW_ENTRY(1), LOW_ENTRY(3), LOW_ENTRY(5), LOW_ENTRY(7), LOW_ENTRY(255), \
     HIGH_ENTRY(0), HIGH_ENTRY(14)}

static const struct port claimers[] = {
    {ROOT, NO_PARENT, 0x0010, MEMORY_SPACE, {3, 5}, WINDOWS, 0, 0, SUPPORTED, CONTROLS, ENTRIES},
    {ROOT, NO_PARENT, 0x0018, MEMORY_SPACE, NO_BUSES, NO_MEMORY, {0xFFF1, 0x0001}, {0, 1}, 0, 0, SUPPORTED,
     {RID_FROM(0xFFF8, 0), 0, LOW_FROM(0xFF000000, 0), HIGH_FROM(0x000000000, 0)},
     {RID_ENTRY(0), RID_ENTRY(1), LOW_ENTRY(15), LOW_ENTRY(16), HIGH_ENTRY(15), HIGH_ENTRY(17), 0, 0, 0, 0}},
    {ROOT, NO_PARENT, 0xFFFF, MEMORY_SPACE, {0xFF, 0xFF}, NO_MEMORY, {0x0001, 0xFFF1}, {1, 0xFFFFFFFF}, 0, 0, SUPPORTED,
     {RID_FROM(0xFF00, 0), 0, 0, HIGH_FROM(0xFFFFFFF800000000, 7)},
     {RID_ENTRY(31), RID_ENTRY(32), HIGH_ENTRY(0), HIGH_ENTRY(1), 0, 0, 0, 0, 0, 0}},
    {ROOT, NO_PARENT, 0x0020, ALL_BUT_MEMORY_SPACE, {3, 5}, WINDOWS, 0, 0, SUPPORTED, CONTROLS, ENTRIES},
    {ROOT, NO_PARENT, 0x0400, MEMORY_SPACE, {5, 3}, {0, 0}, {0, 0}, {0, 0}, 0, 0, SUPPORTED, {0, 0, 0, NO_HIGH},
     {RID_ENTRY(0), RID_ENTRY(128), LOW_ENTRY(0), LOW_ENTRY(1), HIGH_ENTRY(16), 0, 0, 0, 0, 0}},
    {ROOT, NO_PARENT, 0x0028, MEMORY_SPACE, {0, 1}, NO_MEMORY, NO_PREF, 0, 0, SUPPORTED,
     {RID_FROM(0x0200, 5), 0, LOW_FROM(0x10000000, 4), NO_HIGH},
     {RID_ENTRY(0), RID_ENTRY(255), LOW_ENTRY(0), 0, 0, 0, 0, 0, 0, 0}},
    {ROOT, NO_PARENT, 0x0030, MEMORY_SPACE, NO_BUSES, NO_MEMORY, NO_PREF, 0, VGA, SUPPORTED, NO_VECTORS},
    {ROOT, NO_PARENT, 0x0038, MEMORY_SPACE, NO_BUSES, NO_MEMORY, NO_PREF, 0, VGA_16_BIT, SUPPORTED, NO_VECTORS},
    {ROOT, NO_PARENT, 0x0040, MEMORY_SPACE, NO_BUSES, NO_MEMORY, NO_PREF, 0, ALL_BUT_VGA, SUPPORTED, NO_VECTORS},
    {ROOT, NO_PARENT, 0x0048, ALL_BUT_MEMORY_SPACE, NO_BUSES, NO_MEMORY, NO_PREF, 0, 0xFFFF, SUPPORTED, NO_VECTORS},
    {ROOT, NO_PARENT, 0x0050, MEMORY_SPACE, NO_BUSES, {0, 0}, NO_PREF, 0, VGA, SUPPORTED, NO_VECTORS},
    {ROOT, NO_PARENT, 0x0058, MEMORY_SPACE, NO_BUSES, {0, 0}, {0, 0}, {0, 0}, 0, VGA, SUPPORTED,
     {0, 0, LOW_FROM(0x00000000, 0), HIGH_FROM(0x100000000, 0)}, {LOW_ENTRY(0), HIGH_ENTRY(0), 0, 0, 0, 0, 0, 0, 0, 0}},
};

static const struct answered claims[] = {
    {{0, FPB_ID, 0x02FF}, 0},
    {{0, FPB_ID, 0x0300}, FPB_BUS | FPB_RID},
    {{0, FPB_ID, 0x0307}, FPB_BUS | FPB_RID},
    {{0, FPB_ID, 0x0308}, FPB_BUS},
    {{0, FPB_ID, 0x04F7}, FPB_BUS},
    {{0, FPB_ID, 0x04F8}, FPB_BUS | FPB_RID},
    {{0, FPB_ID, 0x0500}, FPB_BUS},
    {{0, FPB_ID, 0x05FF}, FPB_BUS},
    {{0, FPB_ID, 0x0600}, 0},
    {{0, FPB_ID, 0x0AF7}, 0},
    {{0, FPB_ID, 0x0AF8}, FPB_RID},
    {{0, FPB_ID, 0x0AFF}, FPB_RID},
    {{0, FPB_ID, 0x0B00}, 0},
    {{0, FPB_ID, 0x0010}, 0},
    {{0, FPB_ADDRESS, 0x0300}, 0},
    {{0, FPB_ADDRESS, 0xDFFFFFFF}, 0},
    {{0, FPB_ADDRESS, 0xE0000000}, FPB_MEM},
    {{0, FPB_ADDRESS, 0xE0100000}, FPB_MEM | FPB_LOW},
    {{0, FPB_ADDRESS, 0xE0200000}, FPB_MEM | FPB_PREF},
    {{0, FPB_ADDRESS, 0xE0300000}, FPB_MEM | FPB_PREF | FPB_LOW},
    {{0, FPB_ADDRESS, 0xE03FFFFF}, FPB_MEM | FPB_PREF | FPB_LOW},
    {{0, FPB_ADDRESS, 0xE0400000}, FPB_PREF},
    {{0, FPB_ADDRESS, 0xE0500000}, FPB_PREF | FPB_LOW},
    {{0, FPB_ADDRESS, 0xE0600000}, 0},
    {{0, FPB_ADDRESS, 0xE0700000}, FPB_LOW},
    {{0, FPB_ADDRESS, 0xE07FFFFF}, FPB_LOW},
    {{0, FPB_ADDRESS, 0xE0800000}, 0},
    {{0, FPB_ADDRESS, 0xEFFFFFFF}, FPB_LOW},
    {{0, FPB_ADDRESS, 0xF0000000}, 0},
    {{0, FPB_ADDRESS, 0x100000000}, FPB_HIGH},
    {{0, FPB_ADDRESS, 0x10FFFFFFF}, FPB_HIGH},
    {{0, FPB_ADDRESS, 0x110000000}, 0},
    {{0, FPB_ADDRESS, 0x1E0300000}, FPB_HIGH},
    {{0, FPB_ADDRESS, 0x2E0300000}, 0},
    {{1, FPB_ID, 0x0000}, 0},
    {{1, FPB_ID, 0x0018}, 0},
    {{1, FPB_ID, 0xFFF7}, 0},
    {{1, FPB_ID, 0xFFF8}, FPB_RID},
    {{1, FPB_ID, 0xFFFF}, FPB_RID},
    {{1, FPB_ADDRESS, 0xF0000000}, 0},
    {{1, FPB_ADDRESS, 0xFFEFFFFF}, 0},
    {{1, FPB_ADDRESS, 0xFFF00000}, FPB_PREF | FPB_LOW},
    {{1, FPB_ADDRESS, 0xFFFFFFFF}, FPB_PREF | FPB_LOW},
    {{1, FPB_ADDRESS, 0x100000000}, FPB_PREF},
    {{1, FPB_ADDRESS, 0x1000FFFFF}, FPB_PREF},
    {{1, FPB_ADDRESS, 0x100100000}, 0},
    {{1, FPB_ADDRESS, 0x110000000}, FPB_HIGH},
    {{2, FPB_ID, 0x0000}, 0},
    {{2, FPB_ID, 0xFEFF}, 0},
    {{2, FPB_ID, 0xFF00}, FPB_BUS},
    {{2, FPB_ID, 0xFFFF}, FPB_BUS | FPB_RID},
    {{2, FPB_ADDRESS, 0}, 0},
    {{2, FPB_ADDRESS, 0xFFFFFFFF}, 0},
    {{2, FPB_ADDRESS, 0x100000000}, FPB_PREF},
    {{2, FPB_ADDRESS, 0xFFFFFFF7FFFFFFFF}, FPB_PREF},
    {{2, FPB_ADDRESS, 0xFFFFFFF800000000}, FPB_PREF | FPB_HIGH},
    {{2, FPB_ADDRESS, 0xFFFFFFFFFFFFFFFF}, FPB_PREF | FPB_HIGH},
    {{3, FPB_ID, 0x0300}, FPB_BUS | FPB_RID},
    {{3, FPB_ID, 0x0020}, 0},
    {{3, FPB_ADDRESS, 0xE0000000}, 0},
    {{3, FPB_ADDRESS, 0xE0300000}, 0},
    {{3, FPB_ADDRESS, 0xE0400000}, 0},
    {{3, FPB_ADDRESS, 0xE0700000}, 0},
    {{3, FPB_ADDRESS, 0x100000000}, 0},
    {{4, FPB_ID, 0x0000}, 0},
    {{4, FPB_ID, 0x0300}, 0},
    {{4, FPB_ID, 0x0400}, 0},
    {{4, FPB_ID, 0x0500}, 0},
    {{4, FPB_ADDRESS, 0}, FPB_MEM | FPB_PREF},
    {{4, FPB_ADDRESS, 0xFFFFF}, FPB_MEM | FPB_PREF},
    {{4, FPB_ADDRESS, 0x100000}, 0},
    {{4, FPB_ADDRESS, 0x100000000}, 0},
    {{5, FPB_ID, 0x0000}, FPB_BUS},
    {{5, FPB_ID, 0x0028}, FPB_BUS},
    {{5, FPB_ID, 0x01FF}, FPB_BUS},
    {{5, FPB_ID, 0x0200}, FPB_RID},
    {{5, FPB_ID, 0x02FF}, FPB_RID},
    {{5, FPB_ID, 0x0300}, 0},
    {{5, FPB_ADDRESS, 0}, 0},
    {{5, FPB_ADDRESS, 0x0FFFFFFF}, 0},
    {{5, FPB_ADDRESS, 0x10000000}, FPB_LOW},
    {{5, FPB_ADDRESS, 0x10FFFFFF}, FPB_LOW},
    {{5, FPB_ADDRESS, 0x11000000}, 0},
    {{6, FPB_ID, 0xA000}, 0},
    {{6, FPB_ID, 0xBFFF}, 0},
    {{6, FPB_ADDRESS, 0}, 0},
    {{6, FPB_ADDRESS, 0xA000}, 0},
    {{6, FPB_ADDRESS, 0x9FFFF}, 0},
    {{6, FPB_ADDRESS, 0xA0000}, FPB_VGA},
    {{6, FPB_ADDRESS, 0xAFFFF}, FPB_VGA},
    {{6, FPB_ADDRESS, 0xB0000}, FPB_VGA},
    {{6, FPB_ADDRESS, 0xBFFFF}, FPB_VGA},
    {{6, FPB_ADDRESS, 0xC0000}, 0},
    {{6, FPB_ADDRESS, 0xFFFFF}, 0},
    {{6, FPB_ADDRESS, 0x1A0000}, 0},
    {{6, FPB_ADDRESS, 0x1000A0000}, 0},
    {{6, FPB_ADDRESS, 0x80000000000A0000}, 0},
    {{7, FPB_ADDRESS, 0xA0000}, 0},
    {{7, FPB_ADDRESS, 0xBFFFF}, 0},
    {{8, FPB_ADDRESS, 0xA0000}, 0},
    {{8, FPB_ADDRESS, 0xBFFFF}, 0},
    {{9, FPB_ADDRESS, 0xA0000}, 0},
    {{9, FPB_ADDRESS, 0xBFFFF}, 0},
    {{10, FPB_ADDRESS, 0}, FPB_MEM},
    {{10, FPB_ADDRESS, 0x9FFFF}, FPB_MEM},
    {{10, FPB_ADDRESS, 0xA0000}, FPB_MEM | FPB_VGA},
    {{10, FPB_ADDRESS, 0xBFFFF}, FPB_MEM | FPB_VGA},
    {{10, FPB_ADDRESS, 0xC0000}, FPB_MEM},
    {{10, FPB_ADDRESS, 0xFFFFF}, FPB_MEM},
    {{10, FPB_ADDRESS, 0x100000}, 0},
    {{11, FPB_ADDRESS, 0x9FFFF}, FPB_MEM | FPB_PREF | FPB_LOW},
    {{11, FPB_ADDRESS, 0xA0000}, FPB_MEM | FPB_PREF | FPB_LOW | FPB_VGA},
    {{11, FPB_ADDRESS, 0xBFFFF}, FPB_MEM | FPB_PREF | FPB_LOW | FPB_VGA},
    {{11, FPB_ADDRESS, 0xC0000}, FPB_MEM | FPB_PREF | FPB_LOW},
    {{11, FPB_ADDRESS, 0x1000A0000}, FPB_HIGH},
};

/* How the ports convert, and why:
 * 0: buses 1 to 4, without ARI; a Secondary Start that does not count, since RID decoding is not enabled.
 * 1: an upstream port, buses 2 to 4.
 * 2: bus 3, with ARI.
 * 3: buses 4 and 5, without ARI; RID entry 0600h to 0607h; the Secondary range is 0508h to 050Fh.
 * 4: no buses, with ARI; RID entries 0708h to 070Fh and 0800h to 0807h; the Secondary range is bus 7.
 * 5: an upstream port, buses 8 and 9; RID decoding with no entry; the Secondary range is 0910h to 0927h, three devices.
 * 6: bus 20h.
 * 7: an upstream port, bus FFh; RID entry 0 to 7; the Secondary range is from FFF8h to the last ID and does not go on at 0. */
static const struct port converters[] = {
    {ROOT, NO_PARENT, 0x0008, 0, {1, 4}, NO_MEMORY, NO_PREF, 0, 0, SUPPORTED, {0, SECONDARY(0x0108), 0, NO_HIGH}, NO_ENTRIES},
    {UPSTREAM, 0, 0x0100, 0, {2, 4}, NO_MEMORY, NO_PREF, 0, 0, SUPPORTED, NO_VECTORS},
    {DOWNSTREAM, 1, 0x0200, 0, {3, 3}, NO_MEMORY, NO_PREF, ARI, 0, SUPPORTED, NO_VECTORS},
    {DOWNSTREAM, 1, 0x0208, 0, {4, 5}, NO_MEMORY, NO_PREF, 0, 0, SUPPORTED,
     {RID_FROM(0x0600, 0), SECONDARY(0x0508), 0, NO_HIGH}, {RID_ENTRY(0), 0, 0, 0, 0, 0, 0, 0, 0, 0}},
    {ROOT, NO_PARENT, 0x0010, 0, NO_BUSES, NO_MEMORY, NO_PREF, ARI, 0, SUPPORTED,
     {RID_FROM(0x0700, 0), SECONDARY(0x07A8), 0, NO_HIGH}, {RID_ENTRY(1), RID_ENTRY(32), 0, 0, 0, 0, 0, 0, 0, 0}},
    {UPSTREAM, 4, 0x0708, 0, {8, 9}, NO_MEMORY, NO_PREF, 0, 0, SUPPORTED | SEC_DEV(2),
     {RID_FROM(0x0900, 0), SECONDARY(0x0910), 0, NO_HIGH}, NO_ENTRIES},
    {ROOT, NO_PARENT, 0x0018, 0, {0x20, 0x20}, NO_MEMORY, NO_PREF, 0, 0, SUPPORTED, NO_VECTORS},
    {UPSTREAM, 6, 0x2000, 0, {0xFF, 0xFF}, NO_MEMORY, NO_PREF, 0, 0, SUPPORTED | SEC_DEV(31),
     {RID_FROM(0x0000, 0), SECONDARY(0xFFF8), 0, NO_HIGH}, {RID_ENTRY(0), 0, 0, 0, 0, 0, 0, 0, 0, 0}},
};

static const struct answered conversions[] = {
    {{0, 0, 0x0008}, FPB_NOT_CLAIMED},
    {{0, 0, 0x00FF}, FPB_NOT_CLAIMED},
    {{0, 0, 0x0100}, FPB_TYPE_0},
    {{0, 0, 0x0107}, FPB_TYPE_0},
    {{0, 0, 0x0108}, FPB_UNSUPPORTED_REQUEST},
    {{0, 0, 0x01FF}, FPB_UNSUPPORTED_REQUEST},
    {{0, 0, 0x0200}, FPB_TYPE_1},
    {{0, 0, 0x04FF}, FPB_TYPE_1},
    {{0, 0, 0x0500}, FPB_NOT_CLAIMED},
    {{0, 0, 0xFFFF}, FPB_NOT_CLAIMED},
    {{1, 0, 0x0100}, FPB_NOT_CLAIMED},
    {{1, 0, 0x0200}, FPB_TYPE_0},
    {{1, 0, 0x02FF}, FPB_TYPE_0},
    {{1, 0, 0x0300}, FPB_TYPE_1},
    {{1, 0, 0x0500}, FPB_NOT_CLAIMED},
    {{2, 0, 0x02FF}, FPB_NOT_CLAIMED},
    {{2, 0, 0x0300}, FPB_TYPE_0},
    {{2, 0, 0x03FF}, FPB_TYPE_0},
    {{2, 0, 0x0400}, FPB_NOT_CLAIMED},
    {{3, 0, 0x0208}, FPB_NOT_CLAIMED},
    {{3, 0, 0x0400}, FPB_TYPE_0},
    {{3, 0, 0x0408}, FPB_UNSUPPORTED_REQUEST},
    {{3, 0, 0x0507}, FPB_TYPE_1},
    {{3, 0, 0x0508}, FPB_TYPE_0},
    {{3, 0, 0x050F}, FPB_TYPE_0},
    {{3, 0, 0x0510}, FPB_TYPE_1},
    {{3, 0, 0x0600}, FPB_TYPE_1},
    {{3, 0, 0x0607}, FPB_TYPE_1},
    {{3, 0, 0x0608}, FPB_NOT_CLAIMED},
    {{4, 0, 0x0707}, FPB_NOT_CLAIMED},
    {{4, 0, 0x0708}, FPB_TYPE_0},
    {{4, 0, 0x070F}, FPB_TYPE_0},
    {{4, 0, 0x0710}, FPB_NOT_CLAIMED},
    {{4, 0, 0x0800}, FPB_TYPE_1},
    {{4, 0, 0x0807}, FPB_TYPE_1},
    {{4, 0, 0x0808}, FPB_NOT_CLAIMED},
    {{5, 0, 0x0708}, FPB_NOT_CLAIMED},
    {{5, 0, 0x0800}, FPB_TYPE_0},
    {{5, 0, 0x08FF}, FPB_TYPE_0},
    {{5, 0, 0x0900}, FPB_TYPE_1},
    {{5, 0, 0x090F}, FPB_TYPE_1},
    {{5, 0, 0x0910}, FPB_TYPE_0},
    {{5, 0, 0x0927}, FPB_TYPE_0},
    {{5, 0, 0x0928}, FPB_TYPE_1},
    {{5, 0, 0x0A00}, FPB_NOT_CLAIMED},
    {{6, 0, 0x2000}, FPB_TYPE_0},
    {{6, 0, 0x2008}, FPB_UNSUPPORTED_REQUEST},
    {{7, 0, 0x0000}, FPB_TYPE_1},
    {{7, 0, 0x0007}, FPB_TYPE_1},
    {{7, 0, 0x0008}, FPB_NOT_CLAIMED},
    {{7, 0, 0xFF00}, FPB_TYPE_0},
    {{7, 0, 0xFFFF}, FPB_TYPE_0},
};

/* Ports, kinds and IDs that there are not, in a picture of eight ports; cut to 8, 16 or 32 bits most would be there. */
static const uint32_t no_ports[] = {8, 63, 64, 255, 256, 257, 263, 0x10000, 0x10001, 0x1000000, 0x80000000, 0xFFFFFFFF};
static const uint32_t no_kinds[] = {2, 3, 4, 255, 256, 257, 0x10000, 0x10001, 0x80000000, 0x80000001, 0xFFFFFFFF};
static const uint64_t no_ids[] = {0x10000, 0x10300, 0x1FFFF, 0xFFFFFFFF, 0x100000000, 0x100000300, 0x10000FFFF,
                                  0x8000000000000300, 0xFFFFFFFFFFFFFFFF};

static const struct refused unreadable[] = {
    {"short", FPB_LENGTH},
    {"edition-2-short", FPB_LENGTH},
    {"edition-3", FPB_EDITION},
    {"no-port", FPB_COUNT},
    {"total-wrong", FPB_TOTAL},
    {"records-elsewhere", FPB_OFFSET},
    {"edition-2-offsets-of-1", FPB_OFFSET},
    {"later-child", FPB_TREE},
    {"chain-of-17", FPB_CHAIN},
    {"reserved-size", FPB_SETTINGS},
    {"acs-not-zero", FPB_SETTINGS},
    {"settings-all-wrong", FPB_SETTINGS},
    {"start-misaligned", FPB_START},
    {"vectors-past-the-end", FPB_VECTORS},
};

static uint32_t ask(enum call call, const struct question *q, uint32_t *into)
{
    return call == CLAIM ? fpb_claim(picture, picture_len, q->port, q->kind, q->target, into)
                         : fpb_convert(picture, picture_len, q->port, q->target, into);
}

/* One question: its number and, with 0, its answer. It is asked into each of the middle words of a room, whose bytes are all
 * alike before; afterwards all are as before but for an answer, and so is the picture. */
static void try_question(enum call call, const struct question *q, uint32_t number, uint32_t answer)
{
    uint32_t room[4], wanted[4];
    unsigned i;
    for (i = 0; i < 4; i++) {
        uint32_t got, place = 1 + i % 2;
        memset(room, i < 2 ? KEPT : ~KEPT, sizeof room);
        memcpy(wanted, room, sizeof room);
        wanted[place] = number == FPB_CLEAR ? answer : room[place];
        got = ask(call, q, &room[place]);
        if (!counted(got == number && memcmp(room, wanted, sizeof room) == 0 && picture_kept())) {
            printf("%s of port %u, kind %u, target %llx: number %u, word %x, and not %u, %x\n",
                   call == CLAIM ? "claim" : "conversion", q->port, q->kind, (unsigned long long)q->target, got, room[place],
                   number, wanted[place]);
        }
    }
}

static void try_all(enum call call, const struct answered *cases, size_t count)
{
    size_t i;
    for (i = 0; i < count; i++) {
        try_question(call, &cases[i].asked, FPB_CLEAR, cases[i].answer);
    }
}

/* Asks both calls one question that is refused. */
static void refuse_both(uint32_t port, uint32_t kind, uint64_t target, uint32_t number)
{
    struct question q;
    q.port = port;
    q.kind = kind;
    q.target = target;
    try_question(CLAIM, &q, number, 0);
    try_question(CONVERT, &q, number, 0);
}

/* Lays the record of a port. */
static void lay_record(uint8_t *record, const struct port *p, uint32_t vectors_at)
{
    size_t i;
    put_u32(record, p->kind | (uint32_t)p->parent << 8 | (uint32_t)p->own << 16);
    put_u32(record + 4, p->command | (uint32_t)p->buses[0] << 16 | (uint32_t)p->buses[1] << 24);
    put_u32(record + 8, p->memory[0] | (uint32_t)p->memory[1] << 16);
    put_u32(record + 12, p->prefetchable[0] | (uint32_t)p->prefetchable[1] << 16);
    put_u32(record + 16, p->upper[0]);
    put_u32(record + 20, p->upper[1]);
    put_u32(record + 24, p->device_control_2 | (uint32_t)p->bridge_control << 16);
    put_u32(record + 28, p->capabilities);
    for (i = 0; i < COUNT(p->controls); i++) {
        put_u32(record + 32 + 4 * i, p->controls[i]);
    }
    put_u32(record + 52, vectors_at);
}

static void set_entries(uint8_t *vectors, const struct port *p)
{
    size_t i;
    for (i = 0; i < COUNT(p->entries); i++) {
        if (p->entries[i] != 0) {
            vectors[(p->entries[i] - 1) / 8] |= (uint8_t)(1 << (p->entries[i] - 1) % 8);
        }
    }
}

/* ACS Control, which edition 2 has and which no claim and no conversion looks at, has all its bits set. */
static void build(uint32_t edition, const struct port *ports, uint32_t count)
{
    uint32_t i;
    lay_header(edition, count, VECTORS * count);
    for (i = 0; i < count; i++) {
        uint32_t vectors_at = record_at(count) + VECTORS * i;
        lay_record(picture + record_at(i), &ports[i], vectors_at);
        set_entries(picture + vectors_at, &ports[i]);
        if (edition == 2) {
            put_u32(picture + record_at(i) + 56, 0xFFFF);
        }
    }
    keep_picture();
}

static void try_no_ports(void)
{
    size_t i;
    for (i = 0; i < COUNT(no_ports); i++) {
        refuse_both(no_ports[i], FPB_ID, 0x0100, FPB_QUESTION);
    }
}

static void try_no_kinds(void)
{
    struct question q = {0, 0, 0x0100};
    size_t i;
    for (i = 0; i < COUNT(no_kinds); i++) {
        q.kind = no_kinds[i];
        try_question(CLAIM, &q, FPB_QUESTION, 0);
    }
}

/* An address may be as large as that. */
static void try_no_ids(void)
{
    struct question address = {0, FPB_ADDRESS, 0};
    size_t i;
    for (i = 0; i < COUNT(no_ids); i++) {
        refuse_both(0, FPB_ID, no_ids[i], FPB_QUESTION);
        address.target = no_ids[i];
        try_question(CLAIM, &address, FPB_CLEAR, 0);
    }
}

/* Root ports, as many as may be: port p has bus p, but port 0 none. */
static void build_64_ports(uint32_t edition)
{
    struct port ports[64];
    uint32_t p;
    for (p = 0; p < 64; p++) {
        ports[p] = converters[6];
        ports[p].buses[0] = ports[p].buses[1] = (uint8_t)p;
    }
    build(edition, ports, 64);
}

/* Each claims its own bus and not that of another, and what is beyond them is no port. */
static void try_64_ports(uint32_t edition)
{
    struct question q = {0, FPB_ID, 0};
    uint32_t p;
    build_64_ports(edition);
    for (p = 0; p < 64; p++) {
        q.port = p;
        q.target = p << 8;
        try_question(CLAIM, &q, FPB_CLEAR, p == 0 ? 0 : FPB_BUS);
        try_question(CONVERT, &q, FPB_CLEAR, p == 0 ? FPB_NOT_CLAIMED : FPB_TYPE_0);
        q.target = (p ^ 1) << 8;
        try_question(CLAIM, &q, FPB_CLEAR, 0);
        try_question(CONVERT, &q, FPB_CLEAR, FPB_NOT_CLAIMED);
        refuse_both(64 + p, FPB_ID, p << 8, FPB_QUESTION);
        refuse_both(p + 256, FPB_ID, p << 8, FPB_QUESTION);
    }
}

/* Pictures that do not read, for a question and for one that would be number 16. */
static void try_unreadable(const char *folder)
{
    size_t i;
    for (i = 0; i < COUNT(unreadable); i++) {
        load(folder, unreadable[i].sample);
        refuse_both(0, FPB_ID, 0x0100, unreadable[i].number);
        refuse_both(0xFFFFFFFF, 0xFFFFFFFF, 0xFFFFFFFFFFFFFFFF, unreadable[i].number);
    }
}

/* A picture that does not pass the check is asked all the same: ports 2 and 3 share a granule, or the video range. */
static void try_unsound(const char *folder)
{
    static const struct answered shared[] = {
        {{0, FPB_ADDRESS, 0xE0500000}, FPB_MEM},
        {{1, FPB_ADDRESS, 0xE0500000}, FPB_MEM},
        {{2, FPB_ADDRESS, 0xE0500000}, FPB_LOW},
        {{3, FPB_ADDRESS, 0xE0500000}, FPB_LOW},
        {{2, FPB_ADDRESS, 0xE0900000}, 0},
        {{3, FPB_ADDRESS, 0xE0900000}, FPB_LOW},
    };
    static const struct answered displays[] = {
        {{0, FPB_ADDRESS, 0xA0000}, FPB_VGA},
        {{1, FPB_ADDRESS, 0xA0000}, FPB_VGA},
        {{2, FPB_ADDRESS, 0xA0000}, FPB_VGA},
        {{3, FPB_ADDRESS, 0xA0000}, FPB_VGA},
        {{4, FPB_ADDRESS, 0xA0000}, 0},
    };
    load(folder, "shared-granule");
    try_all(CLAIM, shared, COUNT(shared));
    load(folder, "two-displays");
    try_all(CLAIM, displays, COUNT(displays));
}

/* A sample of edition 2: what its ports claim, and make of requests for bus 4, whose port 3 has ARI. */
static void try_edition_2(const char *folder)
{
    static const struct answered claimed[] = {
        {{0, FPB_ADDRESS, 0xE0500000}, FPB_MEM},
        {{1, FPB_ADDRESS, 0xE0500000}, FPB_MEM},
        {{2, FPB_ADDRESS, 0xE0500000}, FPB_LOW},
        {{2, FPB_ADDRESS, 0xE0600000}, 0},
        {{3, FPB_ADDRESS, 0xE0500000}, 0},
        {{3, FPB_ADDRESS, 0xE0600000}, FPB_MEM},
        {{4, FPB_ADDRESS, 0xE0900000}, FPB_LOW},
        {{5, FPB_ADDRESS, 0xD0000000}, FPB_MEM},
        {{5, FPB_ID, 0x0600}, FPB_BUS},
        {{5, FPB_ID, 0x0010}, 0},
    };
    static const struct answered made[] = {
        {{0, 0, 0x0408}, FPB_TYPE_1},
        {{1, 0, 0x0408}, FPB_TYPE_1},
        {{2, 0, 0x0408}, FPB_NOT_CLAIMED},
        {{2, 0, 0x0308}, FPB_UNSUPPORTED_REQUEST},
        {{3, 0, 0x0408}, FPB_TYPE_0},
        {{1, 0, 0x0208}, FPB_TYPE_0},
    };
    load(folder, "redirect");
    try_all(CLAIM, claimed, COUNT(claimed));
    try_all(CONVERT, made, COUNT(made));
    refuse_both(6, FPB_ID, 0x0300, FPB_QUESTION);
}

/* What the port above makes of an ID that the check gives with 18: port 1 takes 0300h, port 0 turns 0108h away. */
static void try_taken(const char *folder)
{
    static const struct answered taken[] = {
        {{0, 0, 0x0300}, FPB_TYPE_1},
        {{1, 0, 0x0300}, FPB_TYPE_0},
        {{1, 0, 0x0307}, FPB_TYPE_0},
        {{1, 0, 0x0308}, FPB_TYPE_1},
        {{2, 0, 0x0300}, FPB_TYPE_0},
    };
    static const struct answered turned_away[] = {
        {{0, 0, 0x0100}, FPB_TYPE_0},
        {{0, 0, 0x0108}, FPB_UNSUPPORTED_REQUEST},
        {{1, 0, 0x0108}, FPB_TYPE_0},
    };
    load(folder, "taken-id");
    try_all(CONVERT, taken, COUNT(taken));
    load(folder, "turned-away");
    try_all(CONVERT, turned_away, COUNT(turned_away));
}

/* No picture at all, and zeros: as many as a picture may have, and one more. */
static void try_nothing(void)
{
    uint32_t kept = KEPT;
    if (!counted(fpb_claim(NULL, 0, 9, 9, 9, &kept) == FPB_LENGTH && fpb_convert(NULL, 0, 9, 9, &kept) == FPB_LENGTH &&
                 kept == KEPT)) {
        printf("no picture: not number 1, or a word not kept\n");
    }
    memset(picture, 0, sizeof picture);
    keep_picture();
    picture_len = 65536;
    refuse_both(0, FPB_ID, 0, FPB_EDITION);
    picture_len = 65537;
    refuse_both(0, FPB_ID, 0, FPB_LENGTH);
}

/* The pictures that are built here; the answers are those of the registers, which both editions have. */
static void try_built(uint32_t edition)
{
    build(edition, claimers, COUNT(claimers));
    try_all(CLAIM, claims, COUNT(claims));
    build(edition, converters, COUNT(converters));
    try_all(CONVERT, conversions, COUNT(conversions));
    try_no_ports();
    try_no_kinds();
    try_no_ids();
    try_64_ports(edition);
}

int main(int argc, char **argv)
{
    if (argc != 2) {
        fprintf(stderr, "usage: claims SAMPLES\n");
        return 2;
    }
    try_built(1);
    try_built(2);
    try_edition_2(argv[1]);
    try_unreadable(argv[1]);
    try_unsound(argv[1]);
    try_taken(argv[1]);
    try_nothing();
    return told();
}
