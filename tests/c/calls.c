/* calls SAMPLES TEXTS: calls the archive on the pictures of a folder and compares every byte; holds the text of each number against
 * a file, one `K text` to a line. Last line: N passed, M failed. */
#include "common.h"

#define ROOM 100
#define UNUSED {0}
#define ROWS 3
#define SHIFTS 8

static uint8_t patch_room[70000 + SHIFTS];
static uint8_t patch_before[sizeof patch_room];
static const uint8_t *patch;
static size_t patch_len;

struct check_case {
    const char *sample;
    uint8_t head[8];
    uint64_t least_target;
};

struct walk_case {
    const char *sample;
    uint32_t kind, start;
    uint64_t target;
    uint8_t head[8];
    uint8_t path[FPB_PLACES];
};

/* A patch: the bytes lent of it, the count and total that its header says, its rows, and the entries set in its vectors. */
struct patch_case {
    size_t length;
    uint32_t count, total;
    struct {
        uint32_t port, offset;
    } rows[ROWS];
    uint32_t entries[4];
};

/* Entry i of a vector that begins at byte `at` of the patch; 0 is none. */
#define ENTRY(at, i) (8 * (at) + (i))

/* A sample, in which the byte `at`, as byte_of finds it, is changed first unless that is 0, and a patch. */
struct trial_case {
    size_t at;
    uint8_t byte;
    struct patch_case patch;
};

/* A sample in which the byte `at`, as byte_of finds it, is changed. */
struct changed_check {
    size_t at;
    uint8_t byte;
    struct check_case check;
};

struct changed_walk {
    size_t at;
    uint8_t byte;
    struct walk_case walk;
};

struct trial_check {
    struct trial_case trial;
    struct check_case check;
};

struct trial_walk {
    struct trial_case trial;
    struct walk_case walk;
};

struct refused_patch {
    uint8_t number;
    struct patch_case patch;
};

/* number, end, port, second port, crossings, Function number, two zeros */
static const struct check_case checks[] = {
    {"one-port", {0, 0, 255, 255, 0, 0, 0, 0}, 0},
    {"switch", {0, 0, 255, 255, 0, 0, 0, 0}, 0},
    {"two-chains", {0, 0, 255, 255, 0, 0, 0, 0}, 0},
    {"short", {1, 0, 255, 255, 0, 0, 0, 0}, 0},
    {"edition-3", {2, 0, 255, 255, 0, 0, 0, 0}, 0},
    {"no-port", {3, 0, 255, 255, 0, 0, 0, 0}, 0},
    {"total-wrong", {4, 0, 255, 255, 0, 0, 0, 0}, 0},
    {"records-elsewhere", {5, 0, 255, 255, 0, 0, 0, 0}, 0},
    {"later-child", {6, 0, 2, 255, 0, 0, 0, 0}, 0},
    {"chain-of-17", {7, 0, 16, 255, 0, 0, 0, 0}, 0},
    {"reserved-size", {8, 0, 1, 255, 0, 0, 0, 0}, 0},
    {"start-misaligned", {9, 0, 0, 255, 0, 0, 0, 0}, 0},
    {"vectors-past-the-end", {10, 0, 255, 255, 0, 0, 0, 0}, 0},
    {"own-id-claimed", {11, 0, 0, 0, 0, 0, 0, 0}, 0x0108},
    {"last-id", {11, 0, 0, 1, 0, 0, 0, 0}, 0xFFF8},
    {"shared-granule", {12, 0, 2, 3, 0, 0, 0, 0}, 0xE0500000},
    {"far-apart-at-the-top", {12, 0, 2, 9, 0, 0, 0, 0}, 0xFFFFFFFFF0000000},
    {"at-four-gib", {12, 0, 0, 1, 0, 0, 0, 0}, 0x100000000},
    {"every-decoder", {0, 0, 255, 255, 0, 0, 0, 0}, 0},
    {"display-card", {0, 0, 255, 255, 0, 0, 0, 0}, 0},
    {"two-displays", {12, 0, 2, 3, 0, 0, 0, 0}, 0xA0000},
    {"display-over-the-first-mib", {12, 0, 2, 3, 0, 0, 0, 0}, 0xA0000},
    {"four-decoders", {12, 0, 2, 3, 0, 0, 0, 0}, 0xA0000},
    {"stray-display", {14, 0, 2, 255, 0, 0, 0, 0}, 0xA0000},
    {"stray-id", {13, 0, 1, 255, 0, 0, 0, 0}, 0x0200},
    {"stray-address", {14, 0, 1, 255, 0, 0, 0, 0}, 0xE0100000},
    {"own-id-lost", {15, 0, 1, 255, 0, 0, 0, 0}, 0},
    {"waiting-card", {0, 0, 255, 255, 0, 0, 0, 0}, 0},
    {"flat-switch", {0, 0, 255, 255, 0, 0, 0, 0}, 0},
    {"range-off", {0, 0, 255, 255, 0, 0, 0, 0}, 0},
    {"taken-id", {18, 0, 2, 255, 0, 0, 0, 0}, 0x0300},
    {"taken-bus", {18, 0, 3, 255, 0, 0, 0, 0}, 0x0240},
    {"taken-unit", {18, 0, 3, 255, 0, 0, 0, 0}, 0x0308},
    {"taken-ari-bus", {18, 0, 3, 255, 0, 0, 0, 0}, 0x0300},
    {"taken-twice", {18, 0, 2, 255, 0, 0, 0, 0}, 0x0308},
    {"turned-away", {18, 0, 1, 255, 0, 0, 0, 0}, 0x0108},
    {"fifteen-before-eighteen", {15, 0, 2, 255, 0, 0, 0, 0}, 0},
    {"one-port-edition-2", {0, 0, 255, 255, 0, 0, 0, 0}, 0},
    {"redirect", {0, 0, 255, 255, 0, 0, 0, 0}, 0},
    {"redirect-two-chains", {0, 0, 255, 255, 0, 0, 0, 0}, 0},
    {"redirect-past-two-holders", {12, 0, 2, 3, 0, 0, 0, 0}, 0xE0500000},
    {"own-id-claimed-edition-2", {11, 0, 1, 1, 0, 0, 0, 0}, 0x0108},
    {"edition-2-short", {1, 0, 255, 255, 0, 0, 0, 0}, 0},
    {"edition-2-offsets-of-1", {5, 0, 255, 255, 0, 0, 0, 0}, 0},
    {"acs-not-zero", {8, 0, 1, 255, 0, 0, 0, 0}, 0},
    {"settings-all-wrong", {8, 0, 0, 255, 0, 0, 0, 0}, 0},
};

static const struct walk_case walks[] = {
    {"switch", FPB_ID, FPB_HOST, 0x0300, {0, 1, 2, 255, 3, 0, 0, 0}, {0, 1, 2}},
    {"switch", FPB_ID, FPB_HOST, 0x0200, {0, 2, 2, 255, 2, 0, 0, 0}, {0, 1}},
    {"switch", FPB_ID, FPB_HOST, 0x0500, {0, 3, 255, 255, 0, 0, 0, 0}, UNUSED},
    {"switch", FPB_ADDRESS, 3, 0x100000000, {0, 3, 255, 255, 3, 0, 0, 0}, {3, 1, 0}},
    {"switch", FPB_ID, 2, 0x0300, {0, 4, 2, 255, 0, 0, 0, 0}, UNUSED},
    {"switch", FPB_CONFIG, FPB_HOST, 0x0308, {0, 4, 2, 255, 2, 0, 0, 0}, {0, 1}},
    {"switch", FPB_CONFIG, FPB_HOST, 0x0305, {0, 1, 2, 255, 3, 5, 0, 0}, {0, 1, 2}},
    {"shared-granule", FPB_ADDRESS, FPB_HOST, 0xE0500000, {0, 5, 2, 3, 2, 0, 0, 0}, {0, 1}},
    {"far-apart-at-the-top", FPB_ADDRESS, FPB_HOST, 0xFFFFFFFFFFFFFFFF, {0, 5, 2, 9, 2, 0, 0, 0}, {0, 1}},
    {"display-card", FPB_ADDRESS, FPB_HOST, 0x9FFFF, {0, 3, 255, 255, 0, 0, 0, 0}, UNUSED},
    {"display-card", FPB_ADDRESS, FPB_HOST, 0xA0000, {0, 1, 2, 255, 3, 0, 0, 0}, {0, 1, 2}},
    {"display-card", FPB_ADDRESS, FPB_HOST, 0xBFFFF, {0, 1, 2, 255, 3, 0, 0, 0}, {0, 1, 2}},
    {"display-card", FPB_ADDRESS, FPB_HOST, 0xC0000, {0, 3, 255, 255, 0, 0, 0, 0}, UNUSED},
    {"display-card", FPB_ADDRESS, 2, 0xA0000, {0, 4, 2, 255, 0, 0, 0, 0}, UNUSED},
    {"display-card", FPB_ADDRESS, 3, 0x9FFFF, {0, 3, 255, 255, 3, 0, 0, 0}, {3, 1, 0}},
    {"display-card", FPB_ADDRESS, 3, 0xA0000, {0, 1, 2, 255, 2, 0, 0, 0}, {3, 2}},
    {"display-card", FPB_ID, FPB_HOST, 0xA0000, {16, 0, 255, 255, 0, 0, 0, 0}, UNUSED},
    {"two-displays", FPB_ADDRESS, FPB_HOST, 0xBFFFF, {0, 5, 2, 3, 2, 0, 0, 0}, {0, 1}},
    {"two-displays", FPB_ADDRESS, 4, 0xA0000, {0, 5, 2, 3, 1, 0, 0, 0}, {4}},
    {"stray-display", FPB_ADDRESS, FPB_HOST, 0xA0000, {0, 4, 0, 255, 1, 0, 0, 0}, {0}},
    {"two-chains",
     FPB_ID,
     14,
     0x2F08,
     {0, 4, 30, 255, 31, 0, 0, 0},
     {14, 13, 12, 11, 10, 9, 8, 7, 6, 5, 4, 3, 2, 1, 0, 15, 16, 17, 18, 19, 20, 21, 22, 23, 24, 25, 26, 27, 28, 29, 30}},
    {"taken-id", FPB_CONFIG, FPB_HOST, 0x0300, {0, 4, 1, 255, 2, 0, 0, 0}, {0, 1}},
    {"taken-id", FPB_CONFIG, FPB_HOST, 0x0307, {0, 4, 1, 255, 2, 0, 0, 0}, {0, 1}},
    {"taken-id", FPB_CONFIG, FPB_HOST, 0x0308, {0, 4, 2, 255, 2, 0, 0, 0}, {0, 1}},
    {"taken-id", FPB_CONFIG, FPB_HOST, 0x0400, {0, 2, 4, 255, 4, 0, 0, 0}, {0, 1, 2, 3}},
    {"taken-id", FPB_ID, FPB_HOST, 0x0300, {0, 2, 3, 255, 3, 0, 0, 0}, {0, 1, 2}},
    {"taken-id", FPB_ID, 5, 0x0300, {0, 2, 3, 255, 2, 0, 0, 0}, {5, 2}},
    {"range-off", FPB_CONFIG, FPB_HOST, 0x0300, {0, 2, 3, 255, 3, 0, 0, 0}, {0, 1, 2}},
    {"taken-bus", FPB_CONFIG, FPB_HOST, 0x0240, {0, 4, 1, 255, 2, 0, 0, 0}, {0, 1}},
    {"taken-bus", FPB_ID, FPB_HOST, 0x0240, {0, 1, 3, 255, 3, 0, 0, 0}, {0, 1, 3}},
    {"taken-unit", FPB_CONFIG, FPB_HOST, 0x0308, {0, 4, 2, 255, 1, 0, 0, 0}, {2}},
    {"taken-ari-bus", FPB_CONFIG, FPB_HOST, 0x0308, {0, 4, 2, 255, 1, 0, 0, 0}, {2}},
    {"taken-twice", FPB_CONFIG, FPB_HOST, 0x0308, {0, 4, 1, 255, 2, 0, 0, 0}, {0, 1}},
    {"turned-away", FPB_CONFIG, FPB_HOST, 0x0108, {0, 4, 0, 255, 0, 0, 0, 0}, UNUSED},
    {"turned-away", FPB_ID, FPB_HOST, 0x0108, {0, 2, 2, 255, 2, 0, 0, 0}, {0, 1}},
    {"fifteen-before-eighteen", FPB_CONFIG, FPB_HOST, 0x0300, {0, 4, 1, 255, 2, 0, 0, 0}, {0, 1}},
    {"fifteen-before-eighteen", FPB_CONFIG, FPB_HOST, 0x0108, {0, 4, 0, 255, 0, 0, 0, 0}, UNUSED},
    {"short", FPB_ID, FPB_HOST, 0, {1, 0, 255, 255, 0, 0, 0, 0}, UNUSED},
    {"edition-3", FPB_ID, FPB_HOST, 0, {2, 0, 255, 255, 0, 0, 0, 0}, UNUSED},
    {"no-port", FPB_ID, FPB_HOST, 0, {3, 0, 255, 255, 0, 0, 0, 0}, UNUSED},
    {"total-wrong", FPB_ID, FPB_HOST, 0, {4, 0, 255, 255, 0, 0, 0, 0}, UNUSED},
    {"records-elsewhere", FPB_ID, FPB_HOST, 0, {5, 0, 255, 255, 0, 0, 0, 0}, UNUSED},
    {"later-child", FPB_ID, FPB_HOST, 0, {6, 0, 2, 255, 0, 0, 0, 0}, UNUSED},
    {"chain-of-17", 3, 300, 0, {7, 0, 16, 255, 0, 0, 0, 0}, UNUSED},
    {"reserved-size", FPB_ID, FPB_HOST, 0, {8, 0, 1, 255, 0, 0, 0, 0}, UNUSED},
    {"start-misaligned", FPB_ID, FPB_HOST, 0, {9, 0, 0, 255, 0, 0, 0, 0}, UNUSED},
    {"vectors-past-the-end", FPB_ID, FPB_HOST, 0, {10, 0, 255, 255, 0, 0, 0, 0}, UNUSED},
    {"switch", 3, FPB_HOST, 0x0300, {16, 0, 255, 255, 0, 0, 0, 0}, UNUSED},
    {"switch", 256, FPB_HOST, 0x0300, {16, 0, 255, 255, 0, 0, 0, 0}, UNUSED},
    {"switch", FPB_ID, FPB_HOST, 0x10000, {16, 0, 255, 255, 0, 0, 0, 0}, UNUSED},
    {"switch", FPB_CONFIG, FPB_HOST, 0x100000300, {16, 0, 255, 255, 0, 0, 0, 0}, UNUSED},
    {"switch", FPB_ID, 1, 0x0300, {16, 0, 255, 255, 0, 0, 0, 0}, UNUSED},
    {"switch", FPB_ID, 4, 0x0300, {16, 0, 255, 255, 0, 0, 0, 0}, UNUSED},
    {"switch", FPB_ID, 511, 0x0300, {16, 0, 255, 255, 0, 0, 0, 0}, UNUSED},
};

/* Up from the device port 14 of redirect-two-chains to its root port. */
#define UP_FROM_14 14, 13, 12, 11, 10, 9, 8, 7, 6, 5, 4, 3, 2, 1, 0

/* Walks in edition 2. Of redirect, ports 2, 3 and 5 redirect and port 4 does not; of redirect-past-two-holders, port 4 does and
 * port 5 does not. */
static const struct walk_case redirected[] = {
    {"redirect", FPB_ADDRESS, 3, 0xE0500000, {0, 1, 2, 255, 6, 0, 0, 0}, {3, 1, 0, 0, 1, 2}},
    {"redirect", FPB_ADDRESS, 3, 0xE0900000, {0, 1, 4, 255, 6, 0, 0, 0}, {3, 1, 0, 0, 1, 4}},
    {"redirect", FPB_ADDRESS, 2, 0xE0600000, {0, 1, 3, 255, 6, 0, 0, 0}, {2, 1, 0, 0, 1, 3}},
    {"redirect", FPB_ADDRESS, 2, 0xE0800000, {0, 4, 1, 255, 5, 0, 0, 0}, {2, 1, 0, 0, 1}},
    {"redirect", FPB_ADDRESS, 3, 0x10000000, {0, 3, 255, 255, 3, 0, 0, 0}, {3, 1, 0}},
    {"redirect", FPB_ADDRESS, 3, 0xFFFFFFFFFFFFFFFF, {0, 3, 255, 255, 3, 0, 0, 0}, {3, 1, 0}},
    {"redirect", FPB_ADDRESS, 3, 0xD0000000, {0, 1, 5, 255, 4, 0, 0, 0}, {3, 1, 0, 5}},
    {"redirect", FPB_ADDRESS, 3, 0xE0600000, {0, 4, 3, 255, 0, 0, 0, 0}, UNUSED},
    {"redirect", FPB_ADDRESS, 2, 0xE0100000, {0, 4, 2, 255, 0, 0, 0, 0}, UNUSED},
    {"redirect", FPB_ADDRESS, 4, 0xE0500000, {0, 1, 2, 255, 2, 0, 0, 0}, {4, 2}},
    {"redirect", FPB_ADDRESS, 4, 0xE0800000, {0, 4, 1, 255, 1, 0, 0, 0}, {4}},
    {"redirect", FPB_ADDRESS, 5, 0xE0500000, {0, 1, 2, 255, 4, 0, 0, 0}, {5, 0, 1, 2}},
    {"redirect", FPB_ADDRESS, 5, 0xD0000000, {0, 4, 5, 255, 0, 0, 0, 0}, UNUSED},
    {"redirect", FPB_ADDRESS, FPB_HOST, 0xE0500000, {0, 1, 2, 255, 3, 0, 0, 0}, {0, 1, 2}},
    {"redirect", FPB_ADDRESS, 1, 0xE0500000, {16, 0, 255, 255, 0, 0, 0, 0}, UNUSED},
    {"redirect", FPB_ADDRESS, 0, 0xE0500000, {16, 0, 255, 255, 0, 0, 0, 0}, UNUSED},
    {"redirect", FPB_ID, 3, 0x0300, {0, 1, 2, 255, 2, 0, 0, 0}, {3, 2}},
    {"redirect", FPB_ID, 3, 0x0600, {0, 1, 5, 255, 4, 0, 0, 0}, {3, 1, 0, 5}},
    {"redirect", FPB_ID, 3, 0x0208, {0, 2, 3, 255, 1, 0, 0, 0}, {3}},
    {"redirect", FPB_CONFIG, 3, 0x0300, {0, 4, 3, 255, 0, 0, 0, 0}, UNUSED},
    {"redirect", FPB_CONFIG, FPB_HOST, 0x0408, {0, 1, 3, 255, 3, 8, 0, 0}, {0, 1, 3}},
    {"redirect-two-chains",
     FPB_ADDRESS,
     14,
     0xE0000000,
     {0, 4, 30, 255, 31, 0, 0, 0},
     {UP_FROM_14, 15, 16, 17, 18, 19, 20, 21, 22, 23, 24, 25, 26, 27, 28, 29, 30}},
    {"redirect-two-chains",
     FPB_ADDRESS,
     14,
     0xD0000000,
     {0, 4, 32, 255, 31, 0, 0, 0},
     {UP_FROM_14, 0, 1, 2, 3, 4, 5, 6, 7, 8, 9, 10, 11, 12, 13, 31, 32}},
    {"redirect-two-chains", FPB_ADDRESS, 14, 0, {0, 3, 255, 255, 15, 0, 0, 0}, {UP_FROM_14}},
    {"redirect-two-chains", FPB_ID, 14, 0x1000, {0, 2, 32, 255, 2, 0, 0, 0}, {14, 31}},
    {"redirect-past-two-holders", FPB_ADDRESS, 4, 0xE0500000, {0, 5, 2, 3, 5, 0, 0, 0}, {4, 1, 0, 0, 1}},
    {"redirect-past-two-holders", FPB_ADDRESS, 5, 0xE0500000, {0, 5, 2, 3, 1, 0, 0, 0}, {5}},
    {"redirect-past-two-holders", FPB_ADDRESS, 4, 0xE2000000, {0, 1, 6, 255, 4, 0, 0, 0}, {4, 1, 0, 6}},
    {"redirect-past-two-holders", FPB_ADDRESS, 5, 0xE2000000, {0, 5, 2, 3, 1, 0, 0, 0}, {5}},
    {"redirect-past-two-holders", FPB_ADDRESS, 4, 0xE0200000, {0, 4, 1, 255, 5, 0, 0, 0}, {4, 1, 0, 0, 1}},
    {"one-port-edition-2", FPB_ADDRESS, 0, 0xE0100000, {0, 3, 255, 255, 1, 0, 0, 0}, {0}},
    {"one-port-edition-2", FPB_ADDRESS, 0, 0xE0000000, {0, 4, 0, 255, 0, 0, 0, 0}, UNUSED},
    {"edition-2-short", FPB_ADDRESS, 0, 0, {1, 0, 255, 255, 0, 0, 0, 0}, UNUSED},
    {"edition-2-offsets-of-1", FPB_ADDRESS, 2, 0, {5, 0, 255, 255, 0, 0, 0, 0}, UNUSED},
    {"acs-not-zero", 9, 9, 0, {8, 0, 1, 255, 0, 0, 0, 0}, UNUSED},
};

/* A byte in the record of a port, whatever the edition: a number past all bytes of a picture, from which byte_of finds it. */
#define RECORDS 0x10000
#define ROOM_OF_RECORD 64
#define IN_RECORD(port, at) (RECORDS + ROOM_OF_RECORD * (port) + (at))

/* The low bytes of a port's own ID and registers, and Subordinate; one more is the next byte. */
#define OWN_ID(port) IN_RECORD(port, 2)
#define COMMAND(port) IN_RECORD(port, 4)
#define SUBORDINATE(port) IN_RECORD(port, 7)
#define DEVICE_CONTROL_2(port) IN_RECORD(port, 24)
#define BRIDGE_CONTROL(port) IN_RECORD(port, 26)
#define CAPABILITIES(port) IN_RECORD(port, 28)
#define RID_CONTROL_1(port) IN_RECORD(port, 32)
#define RID_CONTROL_2(port) IN_RECORD(port, 36)
#define ACS_CONTROL(port) IN_RECORD(port, 56)
#define MEMORY_SPACE 2
#define ARI (1 << 5)
#define VGA (1 << 3)
#define VGA_16_BIT (1 << 4)
#define RID_ON 1
#define RID_SUPPORTED 1
#define SEC_DEV(n) (RID_SUPPORTED | (n) << 3)
#define REDIRECT (1 << 2)

/* VGA Enable with and without Memory Space Enable, at ports with a display, beside and above them; in the last, nobody below the
 * switch has the video range by it, and port 2 has the first MiB. */
static const struct changed_check changed_checks[] = {
    {BRIDGE_CONTROL(0), 0, {"display-card", {14, 0, 1, 255, 0, 0, 0, 0}, 0xA0000}},
    {BRIDGE_CONTROL(0), VGA_16_BIT, {"display-card", {14, 0, 1, 255, 0, 0, 0, 0}, 0xA0000}},
    {BRIDGE_CONTROL(1), (uint8_t)~VGA, {"display-card", {14, 0, 2, 255, 0, 0, 0, 0}, 0xA0000}},
    {COMMAND(1), (uint8_t)~MEMORY_SPACE, {"display-card", {14, 0, 2, 255, 0, 0, 0, 0}, 0xA0000}},
    {BRIDGE_CONTROL(2), VGA_16_BIT, {"display-card", {0, 0, 255, 255, 0, 0, 0, 0}, 0}},
    {COMMAND(2), (uint8_t)~MEMORY_SPACE, {"display-card", {0, 0, 255, 255, 0, 0, 0, 0}, 0}},
    {BRIDGE_CONTROL(3), VGA, {"display-card", {12, 0, 2, 3, 0, 0, 0, 0}, 0xA0000}},
    {BRIDGE_CONTROL(3), (uint8_t)~VGA, {"display-card", {0, 0, 255, 255, 0, 0, 0, 0}, 0}},
    {BRIDGE_CONTROL(0), 0, {"two-displays", {12, 0, 2, 3, 0, 0, 0, 0}, 0xA0000}},
    {BRIDGE_CONTROL(2), VGA_16_BIT, {"two-displays", {0, 0, 255, 255, 0, 0, 0, 0}, 0}},
    {COMMAND(3), 0, {"two-displays", {0, 0, 255, 255, 0, 0, 0, 0}, 0}},
    {BRIDGE_CONTROL(4), VGA, {"two-displays", {12, 0, 2, 3, 0, 0, 0, 0}, 0xA0000}},
    {BRIDGE_CONTROL(1), VGA, {"stray-display", {0, 0, 255, 255, 0, 0, 0, 0}, 0}},
    {COMMAND(0), 0, {"every-decoder", {14, 0, 2, 255, 0, 0, 0, 0}, 0xA0000}},
    {COMMAND(1), MEMORY_SPACE, {"every-decoder", {12, 0, 0, 1, 0, 0, 0, 0}, 0xA0000}},
    {BRIDGE_CONTROL(4), VGA, {"every-decoder", {12, 0, 0, 4, 0, 0, 0, 0}, 0xA0000}},
    {BRIDGE_CONTROL(5), VGA, {"every-decoder", {12, 0, 3, 5, 0, 0, 0, 0}, 0xA0000}},
    {COMMAND(3), 0, {"display-over-the-first-mib", {14, 0, 2, 255, 0, 0, 0, 0}, 0}},
};

/* RID decoding, ARI and the Secondary range changed at the port that takes configuration requests, at its ends and one unit on; the
 * numbers that come before 18. Of the range of port 1 of taken-id, the start is 0208h and the last ID 0307h. */
static const struct changed_check changed_ranges[] = {
    {RID_CONTROL_1(1), 0, {"taken-id", {0, 0, 255, 255, 0, 0, 0, 0}, 0}},
    {RID_CONTROL_1(1), RID_ON, {"range-off", {18, 0, 2, 255, 0, 0, 0, 0}, 0x0300}},
    {RID_CONTROL_2(1), 0x00, {"taken-id", {0, 0, 255, 255, 0, 0, 0, 0}, 0}},
    {RID_CONTROL_2(1), 0x07, {"taken-id", {0, 0, 255, 255, 0, 0, 0, 0}, 0}},
    {RID_CONTROL_2(1), 0x0F, {"taken-id", {18, 0, 2, 255, 0, 0, 0, 0}, 0x0300}},
    {RID_CONTROL_2(1) + 1, 0x03, {"taken-id", {18, 0, 2, 255, 0, 0, 0, 0}, 0x0308}},
    {RID_CONTROL_2(1) + 1, 0x05, {"taken-id", {18, 0, 2, 255, 0, 0, 0, 0}, 0x0508}},
    {RID_CONTROL_2(1) + 1, 0x06, {"taken-id", {18, 0, 5, 255, 0, 0, 0, 0}, 0x0608}},
    {RID_CONTROL_2(1) + 1, 0x07, {"taken-id", {0, 0, 255, 255, 0, 0, 0, 0}, 0}},
    {CAPABILITIES(1), SEC_DEV(30), {"taken-id", {0, 0, 255, 255, 0, 0, 0, 0}, 0}},
    {DEVICE_CONTROL_2(1), ARI, {"taken-id", {18, 0, 2, 255, 0, 0, 0, 0}, 0x0300}},
    {OWN_ID(2), 0x10, {"taken-id", {11, 0, 2, 5, 0, 0, 0, 0}, 0x0210}},
    {SUBORDINATE(1), 5, {"taken-id", {13, 0, 5, 255, 0, 0, 0, 0}, 0x0600}},
    {BRIDGE_CONTROL(2), VGA, {"taken-id", {14, 0, 2, 255, 0, 0, 0, 0}, 0xA0000}},
    {RID_CONTROL_1(3), 0, {"taken-bus", {0, 0, 255, 255, 0, 0, 0, 0}, 0}},
    {RID_CONTROL_1(2), 0, {"taken-unit", {0, 0, 255, 255, 0, 0, 0, 0}, 0}},
    {RID_CONTROL_2(2), 0x00, {"taken-unit", {18, 0, 3, 255, 0, 0, 0, 0}, 0x0300}},
    {RID_CONTROL_2(2) + 1, 0x02, {"taken-unit", {0, 0, 255, 255, 0, 0, 0, 0}, 0}},
    {DEVICE_CONTROL_2(2), ARI, {"taken-unit", {18, 0, 3, 255, 0, 0, 0, 0}, 0x0300}},
    {DEVICE_CONTROL_2(2), (uint8_t)~ARI, {"taken-ari-bus", {18, 0, 3, 255, 0, 0, 0, 0}, 0x0308}},
    {RID_CONTROL_2(2) + 1, 0x04, {"taken-ari-bus", {18, 0, 3, 255, 0, 0, 0, 0}, 0x0400}},
    {RID_CONTROL_2(2) + 1, 0x02, {"taken-ari-bus", {0, 0, 255, 255, 0, 0, 0, 0}, 0}},
    {RID_CONTROL_1(1), 0, {"taken-twice", {18, 0, 3, 255, 0, 0, 0, 0}, 0x0308}},
    {RID_CONTROL_1(3), 0, {"taken-twice", {18, 0, 2, 255, 0, 0, 0, 0}, 0x0308}},
    {RID_CONTROL_2(0) + 1, 0x03, {"taken-twice", {18, 0, 1, 255, 0, 0, 0, 0}, 0x0300}},
    {DEVICE_CONTROL_2(0), ARI, {"turned-away", {18, 0, 1, 255, 0, 0, 0, 0}, 0x0108}},
    {RID_CONTROL_1(1), 0, {"turned-away", {13, 0, 2, 255, 0, 0, 0, 0}, 0x0108}},
    {OWN_ID(2) + 1, 0x02, {"fifteen-before-eighteen", {18, 0, 1, 255, 0, 0, 0, 0}, 0x0108}},
    {RID_CONTROL_1(1), 0, {"fifteen-before-eighteen", {15, 0, 2, 255, 0, 0, 0, 0}, 0}},
    {RID_CONTROL_2(0), 0x08, {"flat-switch", {15, 0, 1, 255, 0, 0, 0, 0}, 0}},
    {CAPABILITIES(1), SEC_DEV(0), {"flat-switch", {15, 0, 3, 255, 0, 0, 0, 0}, 0}},
    {CAPABILITIES(1), SEC_DEV(2), {"flat-switch", {18, 0, 2, 255, 0, 0, 0, 0}, 0x0118}},
    {CAPABILITIES(4), SEC_DEV(1), {"flat-switch", {18, 0, 5, 255, 0, 0, 0, 0}, 0x0308}},
    {DEVICE_CONTROL_2(0), ARI, {"flat-switch", {18, 0, 1, 255, 0, 0, 0, 0}, 0x0108}},
    {DEVICE_CONTROL_2(3), 0, {"flat-switch", {0, 0, 255, 255, 0, 0, 0, 0}, 0}},
};

/* With ARI set at port 2 of the switch, a configuration request for 0308h ends at the device's Function 8. With VGA Enable or
 * Memory Space Enable changed at a port, a packet to the video range ends elsewhere. With RID decoding or the Secondary range
 * changed, the host finds port 3 or loses it; with ARI the root port lets a request through, to what is right below it. ACS Control
 * counts at the starting port alone, and of it bit 2; with Memory Space Enable off, the starting port claims nothing and redirects,
 * and a port above lets the packet pass upward, but not down. */
static const struct changed_walk changed_walks[] = {
    {DEVICE_CONTROL_2(2), ARI, {"switch", FPB_CONFIG, FPB_HOST, 0x0308, {0, 1, 2, 255, 3, 8, 0, 0}, {0, 1, 2}}},
    {BRIDGE_CONTROL(0), 0, {"display-card", FPB_ADDRESS, FPB_HOST, 0xA0000, {0, 3, 255, 255, 0, 0, 0, 0}, UNUSED}},
    {COMMAND(1), 0, {"display-card", FPB_ADDRESS, FPB_HOST, 0xA0000, {0, 4, 0, 255, 1, 0, 0, 0}, {0}}},
    {BRIDGE_CONTROL(2), VGA_16_BIT, {"display-card", FPB_ADDRESS, FPB_HOST, 0xBFFFF, {0, 4, 1, 255, 2, 0, 0, 0}, {0, 1}}},
    {BRIDGE_CONTROL(2), VGA_16_BIT, {"display-card", FPB_ADDRESS, 3, 0xA0000, {0, 4, 1, 255, 1, 0, 0, 0}, {3}}},
    {COMMAND(3), 0, {"two-displays", FPB_ADDRESS, FPB_HOST, 0xA0000, {0, 1, 2, 255, 3, 0, 0, 0}, {0, 1, 2}}},
    {COMMAND(1), MEMORY_SPACE, {"every-decoder", FPB_ADDRESS, FPB_HOST, 0xA0000, {0, 5, 0, 1, 0, 0, 0, 0}, UNUSED}},
    {RID_CONTROL_1(1), 0, {"taken-id", FPB_CONFIG, FPB_HOST, 0x0300, {0, 2, 3, 255, 3, 0, 0, 0}, {0, 1, 2}}},
    {RID_CONTROL_1(1), RID_ON, {"range-off", FPB_CONFIG, FPB_HOST, 0x0300, {0, 4, 1, 255, 2, 0, 0, 0}, {0, 1}}},
    {CAPABILITIES(1), SEC_DEV(30), {"taken-id", FPB_CONFIG, FPB_HOST, 0x0300, {0, 2, 3, 255, 3, 0, 0, 0}, {0, 1, 2}}},
    {DEVICE_CONTROL_2(0), ARI, {"turned-away", FPB_CONFIG, FPB_HOST, 0x0108, {0, 4, 0, 255, 1, 0, 0, 0}, {0}}},
    {ACS_CONTROL(3), 0, {"redirect", FPB_ADDRESS, 3, 0xE0500000, {0, 1, 2, 255, 2, 0, 0, 0}, {3, 2}}},
    {ACS_CONTROL(3), (uint8_t)~REDIRECT, {"redirect", FPB_ADDRESS, 3, 0xE0500000, {0, 1, 2, 255, 2, 0, 0, 0}, {3, 2}}},
    {ACS_CONTROL(2), 0, {"redirect", FPB_ADDRESS, 3, 0xE0500000, {0, 1, 2, 255, 6, 0, 0, 0}, {3, 1, 0, 0, 1, 2}}},
    {ACS_CONTROL(1), 0, {"redirect", FPB_ADDRESS, 3, 0xE0500000, {0, 1, 2, 255, 6, 0, 0, 0}, {3, 1, 0, 0, 1, 2}}},
    {ACS_CONTROL(4), REDIRECT, {"redirect", FPB_ADDRESS, 4, 0xE0500000, {0, 1, 2, 255, 6, 0, 0, 0}, {4, 1, 0, 0, 1, 2}}},
    {ACS_CONTROL(4), REDIRECT, {"redirect", FPB_ID, 4, 0x0300, {0, 1, 2, 255, 2, 0, 0, 0}, {4, 2}}},
    {ACS_CONTROL(4) + 1, REDIRECT, {"redirect", FPB_ADDRESS, 4, 0xE0500000, {0, 1, 2, 255, 2, 0, 0, 0}, {4, 2}}},
    {COMMAND(3), 0, {"redirect", FPB_ADDRESS, 3, 0xE0600000, {0, 4, 1, 255, 5, 0, 0, 0}, {3, 1, 0, 0, 1}}},
    {COMMAND(1), 0, {"redirect", FPB_ADDRESS, 3, 0xE0500000, {0, 4, 0, 255, 4, 0, 0, 0}, {3, 1, 0, 0}}},
    {COMMAND(0), 0, {"redirect", FPB_ADDRESS, 3, 0xE0500000, {0, 3, 255, 255, 3, 0, 0, 0}, {3, 1, 0}}},
    {ACS_CONTROL(5), REDIRECT, {"redirect-past-two-holders", FPB_ADDRESS, 5, 0xE2000000, {0, 1, 6, 255, 4, 0, 0, 0}, {5, 1, 0, 6}}},
};

/* New vectors for these ports of shared-granule (ports 2 and 3), last-id (port 1), every-decoder (ports 3, 4 and 5), display-card
 * (port 3, by 16 MiB from 0 on), taken-id (port 1), taken-bus (port 3) and flat-switch (port 4), the last three by units from 0200h
 * on. Of shared-granule, port 2 has entries 1 and 5 set and port 3 entries 5 and 9. */
#define NO_ROW {0, 0}
#define PORT_2(...) {48, 1, 48, {{2, 16}, NO_ROW, NO_ROW}, {__VA_ARGS__}}
#define PORTS_2_4(...) {88, 2, 88, {{2, 24}, {4, 56}, NO_ROW}, {__VA_ARGS__}}
#define PORT_3(...) {48, 1, 48, {{3, 16}, NO_ROW, NO_ROW}, {__VA_ARGS__}}
#define PORT_3_APART PORT_3(ENTRY(16, 6), ENTRY(16, 9), 0, 0)
#define PORT_1(...) {48, 1, 48, {{1, 16}, NO_ROW, NO_ROW}, {__VA_ARGS__}}
#define PORT_4(...) {48, 1, 48, {{4, 16}, NO_ROW, NO_ROW}, {__VA_ARGS__}}
#define PORT_5(...) {112, 1, 112, {{5, 16}, NO_ROW, NO_ROW}, {__VA_ARGS__}}
#define PORTS_3_4_5(...) {224, 3, 224, {{3, 32}, {4, 64}, {5, 128}}, {__VA_ARGS__}}
#define NO_ENTRY {0, 0, 0, 0}
/* What port 4 of flat-switch has and needs for port 5, 0300h to 030Fh, and more. */
#define PORT_4_AND(entry) PORT_4(ENTRY(16, 32), ENTRY(16, 33), entry, 0)
/* With this byte port 3 has entry 6 set in place of entry 5, and shared-granule is sound. */
#define APART 272, 0x40

static const struct trial_check trial_checks[] = {
    {{0, 0, PORT_3_APART}, {"shared-granule", {0, 0, 255, 255, 0, 0, 0, 0}, 0}},
    {{0, 0, {88, 2, 88, {{2, 24}, {3, 56}, NO_ROW}, {ENTRY(24, 0), ENTRY(24, 255), ENTRY(56, 254), 0}}},
     {"shared-granule", {0, 0, 255, 255, 0, 0, 0, 0}, 0}},
    {{0, 0, {64, 3, 64, {{0, 32}, {1, 32}, {3, 32}}, {ENTRY(32, 6), 0, 0, 0}}},
     {"shared-granule", {0, 0, 255, 255, 0, 0, 0, 0}, 0}},
    {{0, 0, {32, 3, 32, {{0, 32}, {1, 32}, {3, 32}}, NO_ENTRY}}, {"switch", {0, 0, 255, 255, 0, 0, 0, 0}, 0}},
    {{APART, PORT_3(ENTRY(16, 5), ENTRY(16, 9), 0, 0)}, {"shared-granule", {12, 0, 2, 3, 0, 0, 0, 0}, 0xE0500000}},
    {{APART, PORT_3(ENTRY(16, 9), ENTRY(16, 1), 0, 0)}, {"shared-granule", {12, 0, 2, 3, 0, 0, 0, 0}, 0xE0100000}},
    {{APART, {88, 2, 88, {{2, 24}, {3, 56}, NO_ROW}, {ENTRY(24, 7), ENTRY(24, 255), ENTRY(56, 255), 0}}},
     {"shared-granule", {12, 0, 2, 3, 0, 0, 0, 0}, 0xEFF00000}},
    {{0, 0, PORT_1(0, 0, 0, 0)}, {"last-id", {0, 0, 255, 255, 0, 0, 0, 0}, 0}},
    {{128, 0, PORT_1(ENTRY(16, 0), ENTRY(16, 255), 0, 0)}, {"last-id", {11, 0, 0, 1, 0, 0, 0, 0}, 0xFFF8}},
    {{0, 0, PORTS_3_4_5(ENTRY(32, 0), ENTRY(64, 511), ENTRY(128, 31), 0)}, {"every-decoder", {0, 0, 255, 255, 0, 0, 0, 0}, 0}},
    {{0, 0, PORTS_3_4_5(ENTRY(32, 0), ENTRY(128, 33), ENTRY(128, 32), 0)},
     {"every-decoder", {13, 0, 5, 255, 0, 0, 0, 0}, 0x0500}},
    {{0, 0, PORT_5(ENTRY(48, 15), ENTRY(48, 16), 0, 0)}, {"every-decoder", {14, 0, 5, 255, 0, 0, 0, 0}, 0x200000000}},
    {{0, 0, PORT_3(ENTRY(16, 0xE2), ENTRY(16, 0xEF), 0, 0)}, {"display-card", {0, 0, 255, 255, 0, 0, 0, 0}, 0}},
    {{0, 0, PORT_3(ENTRY(16, 0), ENTRY(16, 0xE0), 0, 0)}, {"display-card", {12, 0, 2, 3, 0, 0, 0, 0}, 0xA0000}},
    {{0, 0, PORT_3(ENTRY(16, 1), ENTRY(16, 0xE0), 0, 0)}, {"display-card", {12, 0, 2, 3, 0, 0, 0, 0}, 0xE0000000}},
    {{BRIDGE_CONTROL(2), 0, PORT_3(ENTRY(16, 0), 0, 0, 0)}, {"display-card", {14, 0, 3, 255, 0, 0, 0, 0}, 0}},
    {{BRIDGE_CONTROL(3), VGA, PORT_3(0, 0, 0, 0)}, {"display-card", {12, 0, 2, 3, 0, 0, 0, 0}, 0xA0000}},
    {{0, 0, PORT_3(ENTRY(16, 64), 0, 0, 0)}, {"taken-bus", {0, 0, 255, 255, 0, 0, 0, 0}, 0}},
    {{0, 0, PORT_3(ENTRY(16, 64), ENTRY(16, 31), 0, 0)}, {"taken-bus", {18, 0, 3, 255, 0, 0, 0, 0}, 0x02F8}},
    {{0, 0, PORT_3(ENTRY(16, 8), ENTRY(16, 2), 0, 0)}, {"taken-bus", {18, 0, 3, 255, 0, 0, 0, 0}, 0x0210}},
    {{0, 0, PORT_3(ENTRY(16, 8), ENTRY(16, 32), 0, 0)}, {"taken-bus", {11, 0, 2, 3, 0, 0, 0, 0}, 0x0300}},
    {{0, 0, PORT_3(ENTRY(16, 8), ENTRY(16, 96), 0, 0)}, {"taken-bus", {13, 0, 3, 255, 0, 0, 0, 0}, 0x0500}},
    {{0, 0, PORT_4_AND(0)}, {"flat-switch", {0, 0, 255, 255, 0, 0, 0, 0}, 0}},
    {{0, 0, PORT_4_AND(ENTRY(16, 2))}, {"flat-switch", {18, 0, 4, 255, 0, 0, 0, 0}, 0x0210}},
    {{0, 0, PORT_4_AND(ENTRY(16, 31))}, {"flat-switch", {18, 0, 4, 255, 0, 0, 0, 0}, 0x02F8}},
    {{0, 0, PORT_4_AND(ENTRY(16, 34))}, {"flat-switch", {13, 0, 4, 255, 0, 0, 0, 0}, 0x0310}},
    {{DEVICE_CONTROL_2(3), 0, PORT_4_AND(ENTRY(16, 2))}, {"flat-switch", {0, 0, 255, 255, 0, 0, 0, 0}, 0}},
    {{0, 0, PORT_1(ENTRY(16, 0), 0, 0, 0)}, {"taken-id", {18, 0, 2, 255, 0, 0, 0, 0}, 0x0300}},
    {{RID_CONTROL_1(1), 0, PORT_1(0, 0, 0, 0)}, {"taken-id", {0, 0, 255, 255, 0, 0, 0, 0}, 0}},
    {{0, 0, PORTS_2_4(ENTRY(24, 9), ENTRY(56, 5), 0, 0)}, {"redirect", {0, 0, 255, 255, 0, 0, 0, 0}, 0}},
    {{0, 0, PORT_2(ENTRY(16, 9), 0, 0, 0)}, {"redirect", {12, 0, 2, 4, 0, 0, 0, 0}, 0xE0900000}},
    {{0, 0, PORT_2(ENTRY(16, 16), 0, 0, 0)}, {"redirect", {14, 0, 2, 255, 0, 0, 0, 0}, 0xE1000000}},
    {{ACS_CONTROL(2) + 2, 1, PORT_2(ENTRY(16, 9), 0, 0, 0)}, {"redirect", {8, 0, 2, 255, 0, 0, 0, 0}, 0}},
    {{0, 0, PORT_2(ENTRY(16, 1), 0, 0, 0)}, {"redirect-past-two-holders", {14, 0, 3, 255, 0, 0, 0, 0}, 0xE2000000}},
};

/* Of redirect, port 2 has entries 1 and 5 set and port 4 has entry 9; of redirect-past-two-holders, ports 2 and 3 have 5 and 32. A
 * port that claims the address by the patch does not redirect, and one that gives it up does. */
static const struct trial_walk redirected_on_trial[] = {
    {{0, 0, PORTS_2_4(ENTRY(24, 9), ENTRY(56, 5), 0, 0)},
     {"redirect", FPB_ADDRESS, 2, 0xE0900000, {0, 4, 2, 255, 0, 0, 0, 0}, UNUSED}},
    {{0, 0, PORTS_2_4(ENTRY(24, 9), ENTRY(56, 5), 0, 0)},
     {"redirect", FPB_ADDRESS, 2, 0xE0500000, {0, 1, 4, 255, 6, 0, 0, 0}, {2, 1, 0, 0, 1, 4}}},
    {{0, 0, PORTS_2_4(ENTRY(24, 9), ENTRY(56, 5), 0, 0)},
     {"redirect", FPB_ADDRESS, 2, 0xE0100000, {0, 4, 1, 255, 5, 0, 0, 0}, {2, 1, 0, 0, 1}}},
    {{0, 0, PORTS_2_4(ENTRY(24, 9), ENTRY(56, 5), 0, 0)},
     {"redirect", FPB_ADDRESS, 4, 0xE0900000, {0, 1, 2, 255, 2, 0, 0, 0}, {4, 2}}},
    {{ACS_CONTROL(2), 0, PORTS_2_4(ENTRY(24, 9), ENTRY(56, 5), 0, 0)},
     {"redirect", FPB_ADDRESS, 2, 0xE0500000, {0, 1, 4, 255, 2, 0, 0, 0}, {2, 4}}},
    {{0, 0, PORT_2(ENTRY(16, 9), 0, 0, 0)}, {"redirect", FPB_ADDRESS, 3, 0xE0900000, {0, 5, 2, 4, 5, 0, 0, 0}, {3, 1, 0, 0, 1}}},
    {{0, 0, PORT_2(ENTRY(16, 9), 0, 0, 0)}, {"redirect", FPB_ADDRESS, 2, 0xE0900000, {0, 4, 2, 255, 0, 0, 0, 0}, UNUSED}},
    {{0, 0, PORT_2(ENTRY(16, 9), 0, 0, 0)}, {"redirect", FPB_ADDRESS, 4, 0xE0500000, {0, 4, 1, 255, 1, 0, 0, 0}, {4}}},
    {{0, 0, PORT_2(ENTRY(16, 9), 0, 0, 0)}, {"redirect", FPB_ID, 2, 0x0500, {0, 1, 4, 255, 2, 0, 0, 0}, {2, 4}}},
    {{0, 0, PORT_3(0, 0, 0, 0)},
     {"redirect-past-two-holders", FPB_ADDRESS, 4, 0xE0500000, {0, 1, 2, 255, 6, 0, 0, 0}, {4, 1, 0, 0, 1, 2}}},
    {{0, 0, PORT_3(0, 0, 0, 0)},
     {"redirect-past-two-holders", FPB_ADDRESS, 5, 0xE0500000, {0, 1, 2, 255, 2, 0, 0, 0}, {5, 2}}},
    {{0, 0, PORT_2(0, 0, 0, 0)}, {"redirect", FPB_ADDRESS, 1, 0xE0500000, {16, 0, 255, 255, 0, 0, 0, 0}, UNUSED}},
};

static const struct trial_walk trial_walks[] = {
    {{0, 0, PORT_3_APART}, {"shared-granule", FPB_ADDRESS, FPB_HOST, 0xE0500000, {0, 1, 2, 255, 3, 0, 0, 0}, {0, 1, 2}}},
    {{0, 0, PORT_3_APART}, {"shared-granule", FPB_ADDRESS, FPB_HOST, 0xE0600000, {0, 1, 3, 255, 3, 0, 0, 0}, {0, 1, 3}}},
    {{0, 0, PORT_3_APART}, {"shared-granule", FPB_ADDRESS, FPB_HOST, 0xE0700000, {0, 4, 1, 255, 2, 0, 0, 0}, {0, 1}}},
    {{0, 0, PORT_3_APART}, {"shared-granule", FPB_ADDRESS, 3, 0xE0500000, {0, 1, 2, 255, 2, 0, 0, 0}, {3, 2}}},
    {{0, 0, PORT_3_APART}, {"shared-granule", FPB_ADDRESS, 3, 0xE0600000, {0, 4, 3, 255, 0, 0, 0, 0}, UNUSED}},
    {{APART, PORT_3(ENTRY(16, 5), 0, 0, 0)},
     {"shared-granule", FPB_ADDRESS, FPB_HOST, 0xE05FFFFF, {0, 5, 2, 3, 2, 0, 0, 0}, {0, 1}}},
    {{0, 0, PORT_3_APART}, {"shared-granule", FPB_CONFIG, FPB_HOST, 0x0305, {0, 1, 2, 255, 3, 5, 0, 0}, {0, 1, 2}}},
    {{0, 0, PORT_1(0, 0, 0, 0)}, {"last-id", FPB_ID, FPB_HOST, 0xFFFF, {0, 1, 0, 255, 1, 0, 0, 0}, {0}}},
    {{128, 0, PORT_1(ENTRY(16, 0), 0, 0, 0)}, {"last-id", FPB_ID, FPB_HOST, 0xFFFF, {0, 5, 0, 1, 0, 0, 0, 0}, UNUSED}},
    {{0, 0, PORT_5(ENTRY(16, 32), 0, 0, 0)}, {"every-decoder", FPB_ID, 3, 0x0500, {0, 1, 5, 255, 2, 0, 0, 0}, {3, 5}}},
    {{0, 0, PORT_5(0, 0, 0, 0)}, {"every-decoder", FPB_ID, 3, 0x0500, {0, 3, 255, 255, 3, 0, 0, 0}, {3, 2, 0}}},
    {{0, 0, PORT_3(ENTRY(16, 0xE2), 0, 0, 0)},
     {"display-card", FPB_ADDRESS, FPB_HOST, 0xA0000, {0, 1, 2, 255, 3, 0, 0, 0}, {0, 1, 2}}},
    {{0, 0, PORT_3(ENTRY(16, 0), 0, 0, 0)}, {"display-card", FPB_ADDRESS, FPB_HOST, 0xBFFFF, {0, 5, 2, 3, 2, 0, 0, 0}, {0, 1}}},
    {{0, 0, PORT_3(ENTRY(16, 0), 0, 0, 0)}, {"display-card", FPB_ADDRESS, FPB_HOST, 0xC0000, {0, 3, 255, 255, 0, 0, 0, 0}, UNUSED}},
    {{0, 0, PORT_3(ENTRY(16, 0), 0, 0, 0)}, {"display-card", FPB_ADDRESS, 2, 0xC0000, {0, 1, 3, 255, 2, 0, 0, 0}, {2, 3}}},
    {{0, 0, PORT_3(ENTRY(16, 64), 0, 0, 0)},
     {"taken-bus", FPB_ID, FPB_HOST, 0x0240, {0, 4, 1, 255, 2, 0, 0, 0}, {0, 1}}},
    {{0, 0, PORT_4_AND(ENTRY(16, 2))},
     {"flat-switch", FPB_CONFIG, FPB_HOST, 0x0210, {0, 4, 3, 255, 3, 0, 0, 0}, {0, 1, 3}}},
    {{0, 0, PORT_4_AND(ENTRY(16, 2))},
     {"flat-switch", FPB_ID, FPB_HOST, 0x0210, {0, 4, 4, 255, 4, 0, 0, 0}, {0, 1, 3, 4}}},
    {{0, 0, PORT_1(0, 0, 0, 0)}, {"taken-id", FPB_CONFIG, FPB_HOST, 0x0300, {0, 4, 1, 255, 2, 0, 0, 0}, {0, 1}}},
    {{0, 0, PORT_3_APART}, {"shared-granule", 3, FPB_HOST, 0x0300, {16, 0, 255, 255, 0, 0, 0, 0}, UNUSED}},
    {{0, 0, PORT_3_APART}, {"shared-granule", FPB_ID, FPB_HOST, 0x10000, {16, 0, 255, 255, 0, 0, 0, 0}, UNUSED}},
    {{0, 0, PORT_3_APART}, {"shared-granule", FPB_ID, 1, 0x0300, {16, 0, 255, 255, 0, 0, 0, 0}, UNUSED}},
    {{0, 0, PORT_3_APART}, {"shared-granule", FPB_ID, 258, 0x0300, {16, 0, 255, 255, 0, 0, 0, 0}, UNUSED}},
};

/* What is not right in a patch over shared-granule, which has 4 ports; 2 and 3 have 32 bytes of vectors each, 0 and 1 have none. */
#define NONE {NO_ROW, NO_ROW, NO_ROW}
#define ONE(port, offset) {{port, offset}, NO_ROW, NO_ROW}
#define TWO(port, offset, next, next_offset) {{port, offset}, {next, next_offset}, NO_ROW}

static const struct refused_patch refused_patches[] = {
    {30, {0, 0, 0, NONE, NO_ENTRY}},
    {30, {0, 0, 8, NONE, NO_ENTRY}},
    {30, {1, 0, 1, NONE, NO_ENTRY}},
    {30, {7, 0, 7, NONE, NO_ENTRY}},
    {30, {8, 0, 0, NONE, NO_ENTRY}},
    {30, {8, 0, 7, NONE, NO_ENTRY}},
    {30, {8, 0, 9, NONE, NO_ENTRY}},
    {30, {48, 1, 47, ONE(3, 16), NO_ENTRY}},
    {30, {48, 1, 49, ONE(3, 16), NO_ENTRY}},
    {30, {48, 1, 0x01000030, ONE(3, 16), NO_ENTRY}},
    {30, {65544, 0, 8, NONE, NO_ENTRY}},
    {30, {8, 1, 8, NONE, NO_ENTRY}},
    {30, {15, 1, 15, ONE(0, 16), NO_ENTRY}},
    {30, {23, 2, 23, TWO(0, 24, 1, 24), NO_ENTRY}},
    {30, {8, 0x1FFFFFFF, 8, NONE, NO_ENTRY}},
    {30, {8, 0x20000000, 8, NONE, NO_ENTRY}},
    {30, {48, 0x20000001, 48, ONE(3, 16), NO_ENTRY}},
    {30, {48, 0xFFFFFFFF, 48, ONE(3, 16), NO_ENTRY}},
    {30, {48, 0x01000001, 48, ONE(3, 16), NO_ENTRY}},
    {30, {70000, 8750, 70000, NONE, NO_ENTRY}},
    {31, {88, 2, 88, TWO(2, 24, 2, 56), NO_ENTRY}},
    {31, {24, 2, 24, TWO(0, 24, 0, 24), NO_ENTRY}},
    {31, {88, 2, 88, TWO(3, 24, 2, 56), NO_ENTRY}},
    {31, {56, 2, 56, TWO(3, 24, 0, 56), NO_ENTRY}},
    {31, {64, 3, 64, {{0, 32}, {3, 32}, {1, 64}}, NO_ENTRY}},
    {31, {48, 1, 48, ONE(4, 16), NO_ENTRY}},
    {31, {16, 1, 16, ONE(64, 16), NO_ENTRY}},
    {31, {48, 1, 48, ONE(255, 16), NO_ENTRY}},
    {31, {48, 1, 48, ONE(0x103, 16), NO_ENTRY}},
    {31, {48, 1, 48, ONE(0x10003, 16), NO_ENTRY}},
    {31, {48, 1, 48, ONE(0xFFFFFFFF, 16), NO_ENTRY}},
    {31, {88, 2, 88, TWO(2, 24, 4, 56), NO_ENTRY}},
    {31, {56, 2, 56, TWO(2, 24, 0xFFFFFFFF, 56), NO_ENTRY}},
    {31, {56, 2, 56, TWO(0xFFFFFFFF, 24, 0, 24), NO_ENTRY}},
    {31, {87, 2, 87, TWO(2, 0, 2, 99), NO_ENTRY}},
    {31, {65544, 8192, 65544, NONE, NO_ENTRY}},
    {31, {70000, 8749, 70000, NONE, NO_ENTRY}},
    {32, {9, 0, 9, NONE, NO_ENTRY}},
    {32, {16, 0, 16, NONE, NO_ENTRY}},
    {32, {65544, 0, 65544, NONE, NO_ENTRY}},
    {32, {70000, 0, 70000, NONE, NO_ENTRY}},
    {32, {48, 1, 48, ONE(3, 0), NO_ENTRY}},
    {32, {48, 1, 48, ONE(3, 15), NO_ENTRY}},
    {32, {48, 1, 48, ONE(3, 17), NO_ENTRY}},
    {32, {48, 1, 48, ONE(3, 0x10010), NO_ENTRY}},
    {32, {48, 1, 48, ONE(3, 0x80000010), NO_ENTRY}},
    {32, {88, 2, 88, TWO(2, 56, 3, 24), NO_ENTRY}},
    {32, {88, 2, 88, TWO(2, 24, 3, 24), NO_ENTRY}},
    {32, {88, 2, 88, TWO(2, 24, 3, 55), NO_ENTRY}},
    {32, {88, 2, 88, TWO(2, 24, 3, 57), NO_ENTRY}},
    {32, {89, 2, 89, TWO(2, 24, 3, 57), NO_ENTRY}},
    {32, {16, 1, 16, ONE(3, 16), NO_ENTRY}},
    {32, {47, 1, 47, ONE(3, 16), NO_ENTRY}},
    {32, {49, 1, 49, ONE(3, 16), NO_ENTRY}},
    {32, {80, 1, 80, ONE(3, 16), NO_ENTRY}},
    {32, {65584, 1, 65584, ONE(3, 16), NO_ENTRY}},
    {32, {16, 1, 16, ONE(0, 8), NO_ENTRY}},
    {32, {17, 1, 17, ONE(0, 16), NO_ENTRY}},
    {32, {48, 1, 48, ONE(1, 16), NO_ENTRY}},
};

static const struct patch_case empty_patch = {8, 0, 8, NONE, NO_ENTRY};

static const size_t lengths[] = {0, 39, 40, 41, 100};

static void expect(int holds, const char *what, const char *sample, size_t length)
{
    if (!counted(holds)) {
        printf("%s, %s, a buffer of %u bytes\n", sample, what, (unsigned)length);
    }
}

static uint32_t u32_at(const uint8_t *at)
{
    return at[0] | (uint32_t)at[1] << 8 | (uint32_t)at[2] << 16 | (uint32_t)at[3] << 24;
}

/* The byte of the picture that a number of a case stands for: counted from the first, or IN_RECORD. */
static uint8_t *byte_of(size_t at)
{
    uint32_t in_records = (uint32_t)at - RECORDS;
    return picture + (at < RECORDS ? at : record_at(in_records / ROOM_OF_RECORD) + in_records % ROOM_OF_RECORD);
}

/* Lends bytes of the room for a patch, from `shift` on. */
static void lend_patch(size_t shift, size_t length)
{
    patch = patch_room + shift;
    patch_len = length;
    memcpy(patch_before, patch_room, sizeof patch_room);
}

/* Lays a patch into the room; what is behind it there is not lent, and filled with a byte. */
static void lay_patch(const struct patch_case *c, size_t shift, uint8_t behind)
{
    uint8_t *bytes = patch_room + shift, head[8 + 8 * ROWS];
    size_t i;
    put_u32(head, c->count);
    put_u32(head + 4, c->total);
    for (i = 0; i < ROWS; i++) {
        put_u32(head + 8 + 8 * i, c->rows[i].port);
        put_u32(head + 12 + 8 * i, c->rows[i].offset);
    }
    memset(patch_room, behind, sizeof patch_room);
    memset(bytes, 0, c->length);
    memcpy(bytes, head, c->length < sizeof head ? c->length : sizeof head);
    for (i = 0; i < sizeof c->entries / sizeof c->entries[0]; i++) {
        if (c->entries[i] != 0) {
            bytes[c->entries[i] / 8] |= (uint8_t)(1 << c->entries[i] % 8);
        }
    }
    lend_patch(shift, c->length);
}

/* The check and the walk, of a picture alone or on trial. */
static uint32_t ask_check(int on_trial, uint8_t *answer, size_t length)
{
    return on_trial ? fpb_trial_check(picture, picture_len, patch, patch_len, answer, length)
                    : fpb_check(picture, picture_len, answer, length);
}

static uint32_t ask_walk(int on_trial, uint8_t *answer, size_t length, const struct walk_case *c)
{
    return on_trial ? fpb_trial_walk(picture, picture_len, patch, patch_len, answer, length, c->kind, c->start, c->target)
                    : fpb_walk(picture, picture_len, answer, length, c->kind, c->start, c->target);
}

/* The 40 bytes wanted at the front of a buffer that is otherwise kept, or all of it kept where it is too short. */
static void want(uint8_t *wanted, size_t length, const uint8_t *head, const uint8_t *places)
{
    memset(wanted, KEPT, ROOM);
    if (length >= FPB_ANSWER_LENGTH) {
        memcpy(wanted, head, 8);
        memcpy(wanted + 8, places, FPB_PLACES);
    }
}

static void compare(const char *sample, size_t length, uint32_t number, const uint8_t *answer, const uint8_t *wanted)
{
    expect(number == (length < FPB_ANSWER_LENGTH ? (uint32_t)FPB_BUFFER : wanted[FPB_AT_NUMBER]), "the number", sample, length);
    expect(memcmp(answer, wanted, ROOM) == 0, "the bytes", sample, length);
    expect(picture_kept(), "the picture unchanged", sample, length);
    expect(memcmp(patch_room, patch_before, sizeof patch_room) == 0, "the patch unchanged", sample, length);
}

/* Whether a number gives a least target. */
static int has_target(uint8_t number)
{
    return (number >= FPB_SHARED_ID && number <= FPB_STRAY_ADDRESS) || number == FPB_TAKEN_ID;
}

/* The ports above a port, from the root port down; how many. */
static size_t ports_above(size_t port, uint8_t *above)
{
    uint8_t parent = picture[record_at((uint32_t)port) + 1];
    size_t count = 0;
    if (parent != FPB_NO_PORT) {
        count = ports_above(parent, above);
        above[count++] = parent;
    }
    return count;
}

/* In a picture that gets 0, the host's configuration request for the own ID of a port crosses the ports above it and ends at it. */
static void try_found(const char *sample, int on_trial)
{
    struct walk_case walk = {sample, FPB_CONFIG, FPB_HOST, 0, UNUSED, UNUSED};
    uint8_t answer[FPB_ANSWER_LENGTH], wanted[FPB_ANSWER_LENGTH];
    size_t port;
    for (port = 0; port < picture[2]; port++) {
        const uint8_t *own = byte_of(OWN_ID(port));
        memset(wanted, FPB_NO_PORT, sizeof wanted);
        memset(wanted, 0, 8);
        wanted[FPB_AT_END] = FPB_END_FUNCTION;
        wanted[FPB_AT_PORT] = (uint8_t)port;
        wanted[FPB_AT_SECOND_PORT] = FPB_NO_PORT;
        wanted[FPB_AT_CROSSINGS] = (uint8_t)ports_above(port, wanted + FPB_AT_PATH);
        walk.target = own[0] + 256u * own[1];
        expect(ask_walk(on_trial, answer, sizeof answer, &walk) == FPB_CLEAR && memcmp(answer, wanted, sizeof wanted) == 0,
               "a port found", sample, sizeof answer);
    }
}

static void try_check(const struct check_case *c, int on_trial)
{
    uint8_t answer[ROOM], wanted[ROOM], places[FPB_PLACES];
    size_t i, k;
    memset(places, FPB_NO_PORT, sizeof places);
    for (i = 0; i < 8 && has_target(c->head[FPB_AT_NUMBER]); i++) {
        places[i] = (uint8_t)(c->least_target >> 8 * i & 255);
    }
    for (k = 0; k < COUNT(lengths); k++) {
        memset(answer, KEPT, sizeof answer);
        want(wanted, lengths[k], c->head, places);
        compare(c->sample, lengths[k], ask_check(on_trial, answer, lengths[k]), answer, wanted);
    }
    if (c->least_target != 0) {
        expect(fpb_least_target(answer) == c->least_target, "the least target read back", c->sample, ROOM);
    }
    if (c->head[FPB_AT_NUMBER] == FPB_CLEAR) {
        try_found(c->sample, on_trial);
    }
}

static void try_walk(const struct walk_case *c, int on_trial)
{
    uint8_t answer[ROOM], wanted[ROOM], places[FPB_PLACES];
    size_t i, k, crossings = c->head[FPB_AT_CROSSINGS];
    memset(places, FPB_NO_PORT, sizeof places);
    memcpy(places, c->path, crossings);
    for (k = 0; k < COUNT(lengths); k++) {
        memset(answer, KEPT, sizeof answer);
        want(wanted, lengths[k], c->head, places);
        compare(c->sample, lengths[k], ask_walk(on_trial, answer, lengths[k], c), answer, wanted);
    }
    for (i = 0; i < crossings; i++) {
        expect(fpb_crossed(answer, i) == c->path[i], "a port crossed read back", c->sample, ROOM);
    }
}

/* Whether a number comes before those of a patch. */
static int before_patch(uint8_t number)
{
    return number >= FPB_LENGTH && number <= FPB_VECTORS;
}

/* What is said of a patch that does not read. */
static void name_refused(uint8_t *head, uint8_t number)
{
    static const uint8_t nothing_named[] = {0, 0, 255, 255, 0, 0, 0, 0};
    memcpy(head, nothing_named, sizeof nothing_named);
    head[FPB_AT_NUMBER] = number;
}

/* A check of the picture alone; on trial with a patch of no port it is the same, and with no patch at all 30, after 1 to 10. */
static void try_check_alone(const struct check_case *c)
{
    struct check_case without = *c;
    try_check(c, 0);
    lay_patch(&empty_patch, 0, KEPT);
    try_check(c, 1);
    patch = NULL;
    patch_len = 0;
    if (!before_patch(c->head[FPB_AT_NUMBER])) {
        name_refused(without.head, FPB_PATCH_HEADER);
        without.least_target = 0;
    }
    try_check(&without, 1);
}

static void try_walk_alone(const struct walk_case *c)
{
    struct walk_case without = *c;
    try_walk(c, 0);
    lay_patch(&empty_patch, 0, KEPT);
    try_walk(c, 1);
    patch = NULL;
    patch_len = 0;
    if (!before_patch(c->head[FPB_AT_NUMBER])) {
        name_refused(without.head, FPB_PATCH_HEADER);
    }
    try_walk(&without, 1);
}

/* Loads a sample, and changes a byte of it unless that is byte 0. */
static void load_changed(const char *folder, const char *sample, size_t at, uint8_t byte)
{
    load(folder, sample);
    if (at != 0) {
        *byte_of(at) = byte;
    }
    keep_picture();
}

/* Patches that read, at addresses of every alignment. */
static void try_trial_checks(const char *folder)
{
    size_t i;
    for (i = 0; i < SHIFTS * COUNT(trial_checks); i++) {
        const struct trial_check *c = &trial_checks[i / SHIFTS];
        load_changed(folder, c->check.sample, c->trial.at, c->trial.byte);
        lay_patch(&c->trial.patch, i % SHIFTS, KEPT);
        try_check(&c->check, 1);
    }
}

static void try_trial_walks(const char *folder, const struct trial_walk *cases, size_t count)
{
    size_t i;
    for (i = 0; i < SHIFTS * count; i++) {
        const struct trial_walk *c = &cases[i / SHIFTS];
        load_changed(folder, c->walk.sample, c->trial.at, c->trial.byte);
        lay_patch(&c->trial.patch, i % SHIFTS, KEPT);
        try_walk(&c->walk, 1);
    }
}

/* Patches that do not read, for the check, and for a walk that would be number 16; whatever lies behind them. */
static void try_refused_patches(const char *folder)
{
    struct check_case check = {"shared-granule", UNUSED, 0};
    struct walk_case walk = {"shared-granule", 9, 9, 0, UNUSED, UNUSED};
    size_t i;
    load(folder, check.sample);
    for (i = 0; i < 2 * COUNT(refused_patches); i++) {
        const struct refused_patch *c = &refused_patches[i / 2];
        name_refused(check.head, c->number);
        name_refused(walk.head, c->number);
        lay_patch(&c->patch, i % SHIFTS, i % 2 == 0 ? KEPT : 0);
        try_check(&check, 1);
        try_walk(&walk, 1);
    }
}

/* Samples as they are. */
static void try_checks(const char *folder)
{
    size_t i;
    for (i = 0; i < COUNT(checks); i++) {
        load(folder, checks[i].sample);
        try_check_alone(&checks[i]);
    }
}

static void try_walks(const char *folder, const struct walk_case *cases, size_t count)
{
    size_t i;
    for (i = 0; i < count; i++) {
        load(folder, cases[i].sample);
        try_walk_alone(&cases[i]);
    }
}

/* Samples in which a byte is changed. */
static void try_changed_checks(const char *folder, const struct changed_check *cases, size_t count)
{
    size_t i;
    for (i = 0; i < count; i++) {
        load_changed(folder, cases[i].check.sample, cases[i].at, cases[i].byte);
        try_check_alone(&cases[i].check);
    }
}

static void try_changed_walks(const char *folder)
{
    size_t i;
    for (i = 0; i < COUNT(changed_walks); i++) {
        load_changed(folder, changed_walks[i].walk.sample, changed_walks[i].at, changed_walks[i].byte);
        try_walk_alone(&changed_walks[i].walk);
    }
}

/* All 40 bytes of an answer with 18, of the check and on trial: port 2 of taken-id at 0300h, and port 4 of flat-switch with an
 * entry at 0210h put in. */
#define EIGHT_PLACES 255, 255, 255, 255, 255, 255, 255, 255

static void try_taken(const char *folder)
{
    static const struct patch_case entry = PORT_4_AND(ENTRY(16, 2));
    static const uint8_t alone[FPB_ANSWER_LENGTH] = {18, 0, 2, 255, 0, 0, 0, 0, 0x00, 0x03, 0, 0, 0, 0, 0, 0,
                                                     EIGHT_PLACES, EIGHT_PLACES, EIGHT_PLACES};
    static const uint8_t tried[FPB_ANSWER_LENGTH] = {18, 0, 4, 255, 0, 0, 0, 0, 0x10, 0x02, 0, 0, 0, 0, 0, 0,
                                                     EIGHT_PLACES, EIGHT_PLACES, EIGHT_PLACES};
    uint8_t answer[FPB_ANSWER_LENGTH];
    load(folder, "taken-id");
    expect(fpb_check(picture, picture_len, answer, sizeof answer) == 18 && memcmp(answer, alone, sizeof answer) == 0,
           "all bytes", "taken-id", sizeof answer);
    load(folder, "flat-switch");
    lay_patch(&entry, 0, KEPT);
    expect(fpb_trial_check(picture, picture_len, patch, patch_len, answer, sizeof answer) == 18 &&
               memcmp(answer, tried, sizeof answer) == 0,
           "all bytes on trial", "flat-switch", sizeof answer);
}

/* Lays a patch whose ports are those of a set, bit p for port p; each has `bytes` of vectors, with no entry set. */
static void lay_set(uint64_t set, size_t bytes)
{
    size_t port, count = 0, row = 0;
    for (port = 0; port < 64; port++) {
        count += set >> port & 1;
    }
    memset(patch_room, 0, sizeof patch_room);
    put_u32(patch_room, (uint32_t)count);
    put_u32(patch_room + 4, (uint32_t)(8 + (8 + bytes) * count));
    for (port = 0; port < 64; port++) {
        if ((set >> port & 1) != 0) {
            put_u32(patch_room + 8 + 8 * row, (uint32_t)port);
            put_u32(patch_room + 12 + 8 * row, (uint32_t)(8 + 8 * count + bytes * row));
            row++;
        }
    }
    lend_patch(0, 8 + (8 + bytes) * count);
}

/* Sets some entries of the patch, by a seed. */
static void set_entries(uint32_t seed)
{
    size_t i;
    for (i = 8 + 8 * u32_at(patch); i < patch_len; i++) {
        seed = seed * 1103515245 + 12345;
        if (seed >> 28 == 0) {
            patch_room[i] = (uint8_t)(1 << (seed >> 16 & 7));
        }
    }
    lend_patch(0, patch_len);
}

/* Puts the vectors of such a patch into the picture itself. */
static void put_in(size_t bytes)
{
    size_t row, count = u32_at(patch);
    for (row = 0; row < count; row++) {
        const uint8_t *record = picture + record_at(u32_at(patch + 8 + 8 * row));
        memcpy(picture + u32_at(record + 52), patch + u32_at(patch + 12 + 8 * row), bytes);
    }
}

/* That check and walks on trial answer as those of the picture with the vectors put in, which is taken back afterwards. */
static void try_put_in(const char *what, size_t bytes, uint64_t target)
{
    struct walk_case walk = {what, FPB_ADDRESS, FPB_HOST, target, UNUSED, UNUSED};
    uint8_t tried[3][FPB_ANSWER_LENGTH], alone[3][FPB_ANSWER_LENGTH];
    int on_trial;
    for (on_trial = 1; on_trial >= 0; on_trial--) {
        uint8_t(*answers)[FPB_ANSWER_LENGTH] = on_trial ? tried : alone;
        if (!on_trial) {
            put_in(bytes);
        }
        ask_check(on_trial, answers[0], FPB_ANSWER_LENGTH);
        walk.start = FPB_HOST;
        ask_walk(on_trial, answers[1], FPB_ANSWER_LENGTH, &walk);
        walk.start = 2;
        ask_walk(on_trial, answers[2], FPB_ANSWER_LENGTH, &walk);
    }
    expect(memcmp(tried, alone, sizeof tried) == 0, "as with the vectors put in", what, FPB_ANSWER_LENGTH);
    memcpy(picture, picture_before, sizeof picture);
}

/* Every set of the eight ports with vectors. */
static void try_sets(const char *folder)
{
    uint64_t set;
    load(folder, "far-apart-at-the-top");
    for (set = 0; set < 256; set++) {
        lay_set(set << 2, 32);
        set_entries((uint32_t)set);
        try_put_in("a set of ports", 32, 0xFFFFFFFFFFFFFFFF);
        try_put_in("a set of ports", 32, 0xFFFFFFF800000000);
    }
}

/* A sound picture of root ports with `bytes` of vectors each, no entry set, and RID decoding enabled. */
static void build_roots(uint32_t edition, uint32_t count, uint32_t capabilities, uint32_t rid_control_1, uint32_t bytes)
{
    uint32_t port;
    lay_header(edition, count, bytes * count);
    for (port = 0; port < count; port++) {
        uint8_t *record = picture + record_at(port);
        put_u32(record, 255 << 8 | 8 * port << 16);
        put_u32(record + 28, capabilities);
        put_u32(record + 32, rid_control_1);
        put_u32(record + 52, record_at(count) + bytes * port);
    }
    keep_picture();
}

/* That two ports with one entry set are found, at ID 0700h, where all ports of the picture or these two stand in the patch. */
static void try_pair(uint64_t all, uint32_t bytes, uint32_t entry, uint32_t port, uint32_t other)
{
    uint64_t two = (uint64_t)1 << port | (uint64_t)1 << other;
    uint8_t answer[FPB_ANSWER_LENGTH];
    int whole;
    for (whole = 0; whole < 2; whole++) {
        lay_set(whole ? all : two, bytes);
        patch_room[u32_at(patch + 12 + (whole ? 8 * port : 0)) + entry / 8] |= (uint8_t)(1 << entry % 8);
        patch_room[u32_at(patch + 12 + (whole ? 8 * other : 8)) + entry / 8] |= (uint8_t)(1 << entry % 8);
        expect(fpb_trial_check(picture, picture_len, patch, patch_len, answer, sizeof answer) == FPB_SHARED_ID &&
                   answer[FPB_AT_PORT] == port && answer[FPB_AT_SECOND_PORT] == other && fpb_least_target(answer) == 0x0700,
               "a pair", "root ports", sizeof answer);
    }
}

/* Some pairs of 64 ports with the smallest vectors, and of 25 with all of the largest: a patch of 64,208 bytes. */
static void try_pairs(uint32_t edition)
{
    uint32_t port;
    build_roots(edition, 64, 1, 1 | 5 << 4, 32);
    for (port = 0; port < 63; port++) {
        try_pair(0xFFFFFFFFFFFFFFFF, 32, 7, port, port + 1);
        try_pair(0xFFFFFFFFFFFFFFFF, 32, 7, port, 63);
    }
    build_roots(edition, 25, 7 | 5 << 8 | 4 << 16 | 5 << 24, 1, 2560);
    for (port = 0; port < 24; port++) {
        try_pair(0x1FFFFFF, 2560, 0x0700 / 8, port, port + 1);
    }
}

/* No picture at all, the longest that may be and one byte more; and no buffer at all, which is found out before anything else. */
static void try_nothing(void)
{
    uint8_t answer[FPB_ANSWER_LENGTH];
    memset(picture, 0, sizeof picture);
    expect(fpb_check(NULL, 0, answer, sizeof answer) == FPB_LENGTH, "check", "no picture", sizeof answer);
    expect(fpb_walk(NULL, 0, answer, sizeof answer, 9, 9, 9) == FPB_LENGTH, "walk", "no picture", sizeof answer);
    expect(fpb_check(picture, 65536, answer, sizeof answer) == FPB_EDITION, "check", "65,536 zeros", sizeof answer);
    expect(fpb_check(picture, 65537, answer, sizeof answer) == FPB_LENGTH, "check", "65,537 zeros", sizeof answer);
    expect(fpb_check(picture, 65536, NULL, 0) == FPB_BUFFER, "check", "no buffer", 0);
    expect(fpb_walk(picture, 65536, NULL, 0, 9, 9, 9) == FPB_BUFFER, "walk", "no buffer", 0);
    expect(fpb_check(NULL, 0, NULL, 0) == FPB_BUFFER, "check", "nothing", 0);
    expect(fpb_walk(NULL, 0, NULL, 0, 9, 9, 9) == FPB_BUFFER, "walk", "nothing", 0);
}

/* The same with a patch that has no bytes. */
static void try_nothing_on_trial(void)
{
    uint8_t answer[FPB_ANSWER_LENGTH];
    size_t room = sizeof answer;
    expect(fpb_trial_check(NULL, 0, NULL, 0, answer, room) == FPB_LENGTH, "trial check", "no picture", room);
    expect(fpb_trial_walk(NULL, 0, NULL, 0, answer, room, 9, 9, 9) == FPB_LENGTH, "trial walk", "no picture", room);
    expect(fpb_trial_check(picture, 65537, NULL, 0, answer, room) == FPB_LENGTH, "trial check", "65,537 zeros", room);
    expect(fpb_trial_check(picture, 65536, NULL, 0, NULL, 0) == FPB_BUFFER, "trial check", "no buffer", 0);
    expect(fpb_trial_walk(picture, 65536, NULL, 0, NULL, 0, 9, 9, 9) == FPB_BUFFER, "trial walk", "no buffer", 0);
    expect(fpb_trial_check(NULL, 0, NULL, 0, NULL, 0) == FPB_BUFFER, "trial check", "nothing", 0);
    expect(fpb_trial_walk(NULL, 0, NULL, 0, NULL, 0, 9, 9, 9) == FPB_BUFFER, "trial walk", "nothing", 0);
}

/* 19 to 22, 24 to 29 and 33 to 36 are no numbers. */
static int is_number(uint32_t number)
{
    return number <= FPB_TAKEN_ID || number == FPB_BUFFER_SHORT || (number >= FPB_PATCH_HEADER && number <= FPB_PATCH_VECTORS) ||
           (number >= FPB_NO_SUCH_BYTE && number <= FPB_NO_SUCH_VERSION);
}

/* The file has a line for each number, in order, and no other. */
static void try_texts(const char *name)
{
    char line[256], wanted[256];
    FILE *file = fopen(name, "r");
    uint32_t number;
    if (!counted(file != NULL)) {
        printf("%s cannot be opened\n", name);
        return;
    }
    for (number = 0; number <= FPB_NO_SUCH_VERSION; number++) {
        snprintf(wanted, sizeof wanted, "%u %s\n", number, fpb_number_text(number));
        if (is_number(number) && !counted(fgets(line, sizeof line, file) != NULL && strcmp(line, wanted) == 0)) {
            printf("%s has not the line %s", name, wanted);
        }
    }
    if (!counted(fgets(line, sizeof line, file) == NULL)) {
        printf("%s has a line too many: %s", name, line);
    }
    fclose(file);
}

static void try_unknown_numbers(void)
{
    static const uint32_t unknown[] = {FPB_TAKEN_ID + 1,     FPB_BUFFER_SHORT - 1,  FPB_BUFFER_SHORT + 1,
                                       FPB_PATCH_HEADER - 1, FPB_PATCH_VECTORS + 1, FPB_NO_SUCH_BYTE - 1,
                                       FPB_NO_SUCH_VERSION + 1, 255, 4294967295U};
    size_t i;
    for (i = 0; i < COUNT(unknown); i++) {
        if (!counted(strcmp(fpb_number_text(unknown[i]), "not a number of this judge") == 0)) {
            printf("the text of %u is %s\n", unknown[i], fpb_number_text(unknown[i]));
        }
    }
}

static void try_version(void)
{
    char version[32];
    snprintf(version, sizeof version, "%d.%d.%d", FPB_VERSION_MAJOR, FPB_VERSION_MINOR, FPB_VERSION_PATCH);
    if (!counted(strcmp(version, FPB_VERSION) == 0)) {
        printf("the version is %s, and by its numbers %s\n", FPB_VERSION, version);
    }
}

int main(int argc, char **argv)
{
    if (argc != 3) {
        fprintf(stderr, "usage: calls SAMPLES TEXTS\n");
        return 2;
    }
    try_checks(argv[1]);
    try_walks(argv[1], walks, COUNT(walks));
    try_walks(argv[1], redirected, COUNT(redirected));
    try_changed_checks(argv[1], changed_checks, COUNT(changed_checks));
    try_changed_checks(argv[1], changed_ranges, COUNT(changed_ranges));
    try_changed_walks(argv[1]);
    try_taken(argv[1]);
    try_trial_checks(argv[1]);
    try_trial_walks(argv[1], trial_walks, COUNT(trial_walks));
    try_trial_walks(argv[1], redirected_on_trial, COUNT(redirected_on_trial));
    try_refused_patches(argv[1]);
    try_sets(argv[1]);
    try_pairs(1);
    try_pairs(2);
    try_nothing();
    try_nothing_on_trial();
    try_texts(argv[2]);
    try_unknown_numbers();
    try_version();
    return told();
}
