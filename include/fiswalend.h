/* fiswalend.h: the judge of FPB registers, for C and C++: C99 or later, C++11 or later.
 *
 * A picture is a chassis of 1 to 64 PCIe ports as bytes: a header, a record for each port, their vectors; docs/PICTURE.md of the
 * source has its format and the table of numbers. In a picture of edition 1 a record has 56 bytes, in one of edition 2 it has 60,
 * with the port's ACS Control register. fpb_check says whether a picture is sound, fpb_walk says where one packet goes in it.
 * In a sound picture a configuration request from the host for the own ID of any port ends at that port's Function.
 * fpb_trial_check and fpb_trial_walk say the same of a picture with the vectors of a patch put in, for some of its ports.
 * fpb_claim says which decoders of one port claim a target, fpb_convert what the port makes of a configuration request.
 * fpb_history_add, fpb_history_version and fpb_history_wind_back keep numbered versions of a picture as settings are changed.
 * What they return and write is proved, for every picture, every patch, every history, every buffer and every number.
 *
 * What the caller must see to, since no proof reaches this side of the call:
 *   - a pointer is valid for the length that comes with it: to read for a picture, a patch or a run of changes, to read and write
 *     for an answer, for the buffer of a version and, in fpb_history_add, for the room; a length of changes counts changes, and
 *     a pointer to them is aligned for struct fpb_change. At length 0 any pointer will do, NULL too;
 *   - the pointer to a uint32_t that a call writes, `decoders`, `decided` or `now_kept`, is valid to read and write its 4 bytes,
 *     and aligned for it; it is never NULL;
 *   - what a call writes, an answer, a buffer, a room or such a uint32_t, overlaps nothing else that is lent to it, and nobody else
 *     changes any of it during a call.
 *
 * The calls keep no state, so any number of threads may call at once. They do not allocate, block, print or stop the program,
 * and use under 4 KiB of stack. They fail in no way but by the numbers below.
 *
 * The archive is for x86-64 Linux. Link with -lfiswalend.
 */
#ifndef FISWALEND_H
#define FISWALEND_H

#include <stddef.h>
#include <stdint.h>

#ifdef __cplusplus
extern "C" {
#endif

/* The version of this header and of the archive that it comes with, as numbers and as text. */
#define FPB_VERSION_MAJOR 1
#define FPB_VERSION_MINOR 7
#define FPB_VERSION_PATCH 0
#define FPB_VERSION "1.7.0"

/* The bytes of an answer, and the places in its path. */
#define FPB_ANSWER_LENGTH 40
#define FPB_PLACES 32

/* In an answer: no port. As the start of a walk: the host. */
#define FPB_NO_PORT 255
#define FPB_HOST 255

/* The number that a call returns. 17 is looked for first, then 1 to 10, then 30 to 32, then 16, or 11 to 15 and after them 18; of a
 * history 37 to 39 follow on 1 to 10, or 40 and then 23. The first that applies is given, and of several ports the lowest. */
enum fpb_number {
    FPB_CLEAR = 0,          /* the check found nothing; the walk came to an end; the claim or the conversion is answered; the run is
                             * added, the history wound back, the version written */
    FPB_LENGTH = 1,         /* the picture has over 65,536 bytes, or under 76 if its edition is 2, and else under 72 */
    FPB_EDITION = 2,        /* its edition is neither 1 nor 2 */
    FPB_COUNT = 3,          /* it has no ports, or over 64 */
    FPB_TOTAL = 4,          /* its total length is not the length given */
    FPB_OFFSET = 5,         /* records or vectors do not start where they must, or records run past the end */
    FPB_TREE = 6,           /* kind, parent or child rule broken; names the port */
    FPB_CHAIN = 7,          /* over 16 ports on a chain; names the port */
    FPB_SETTINGS = 8,       /* vector settings, Memory or Prefetchable bits that may not be, or, in edition 2, a byte behind ACS
                             * Control that is not zero; names the port */
    FPB_START = 9,          /* an enabled vector's start breaks its rule; names the port */
    FPB_VECTORS = 10,       /* a port's vectors start elsewhere (names the port), or do not end at the total (names 255) */
    FPB_SHARED_ID = 11,     /* check: an ID held by two ports at one place, or claimed by its owner; names both, and the ID */
    FPB_SHARED_ADDRESS = 12, /* check: an address held by two ports at one place; names both, and the address */
    FPB_STRAY_ID = 13,      /* check: an ID held by a port and not claimed by its parent; names the port, and the ID */
    FPB_STRAY_ADDRESS = 14, /* check: an address held by a port and not claimed by its parent; names the port, and the address */
    FPB_OWN_ID_LOST = 15,   /* check: a port's own ID is not both claimed by its parent and Type 0 there; names the port */
    FPB_QUESTION = 16,      /* walk: packet kind over 2, an ID over FFFFh, or a start that is no device port and not the host;
                             * claim and conversion: a port that the picture does not have, a kind over 1, an ID over FFFFh */
    FPB_BUFFER = 17,        /* the answer buffer has under 40 bytes; nothing was looked at, nothing written */
    FPB_TAKEN_ID = 18,      /* check: an ID claimed by a port whose parent makes configuration requests for it Type 0, or answers
                             * them with Unsupported Request, and does not pass them on as Type 1; names the port, and the ID */
    FPB_BUFFER_SHORT = 23,  /* version: the buffer is shorter than the first picture */
    FPB_PATCH_HEADER = 30,  /* trial: a patch under 8 bytes, or without room for its ports, or whose total is not the length given */
    FPB_PATCH_PORTS = 31,   /* trial: a port of the patch stands twice, out of order, or is not in the picture */
    FPB_PATCH_VECTORS = 32, /* trial: an offset is not where the vectors before end, or the last do not end at the total */
    FPB_NO_SUCH_BYTE = 37,  /* add: a change of the run has a port, a part or a byte that the first picture does not have */
    FPB_OLD_BYTE_WRONG = 38, /* add: a change's old byte is not what the version just before it holds */
    FPB_ROOM_FULL = 39,     /* add: the changes kept and the run together are more than the room has records */
    FPB_NO_SUCH_VERSION = 40 /* wind back, version: k is above the number kept; version: more is kept than the room has records */
};

/* What is sent, and so what the target of a walk is; of a claim, which takes the first two alone, what its target is. */
enum fpb_kind {
    FPB_ID = 0,     /* a packet routed by ID; the target is an ID */
    FPB_ADDRESS = 1, /* a packet routed by address; the target is an address */
    FPB_CONFIG = 2  /* a configuration request; the target is an ID; no kind of a claim */
};

/* Where a packet ends. */
enum fpb_end {
    FPB_END_NONE = 0,        /* the check, or a refusal */
    FPB_END_DEVICE = 1,      /* the device below the port named */
    FPB_END_FUNCTION = 2,    /* the port named is the target itself */
    FPB_END_HOST = 3,        /* the host */
    FPB_END_UNSUPPORTED = 4, /* Unsupported Request at the port named */
    FPB_END_DOUBLED = 5      /* held twice, by the two ports named, the lower first */
};

/* The decoders of a port, a bit each: an ID is claimed by the first two, an address by the others, and by these only with Memory
 * Space Enable set. Behind each the word that `fpb report` and `fpb claims` print for it. */
enum fpb_decoder {
    FPB_BUS = 1,   /* Secondary and Subordinate Bus Number: bus */
    FPB_RID = 2,   /* the RID vector: rid */
    FPB_MEM = 4,   /* Memory Base and Limit: mem */
    FPB_PREF = 8,  /* Prefetchable Memory Base and Limit: pref */
    FPB_LOW = 16,  /* the MEM Low vector, below 4 GiB: low */
    FPB_HIGH = 32, /* the MEM High vector, from 4 GiB on: high */
    FPB_VGA = 64   /* VGA Enable of Bridge Control, A0000h to BFFFFh: vga */
};

/* What a port makes of a configuration request that would cross it downward. */
enum fpb_conversion {
    FPB_NOT_CLAIMED = 0,        /* the port does not claim the ID */
    FPB_TYPE_0 = 1,             /* it passes as Type 0: its target is right below the port */
    FPB_TYPE_1 = 2,             /* it passes as Type 1: its target is further down */
    FPB_UNSUPPORTED_REQUEST = 3 /* it does not pass */
};

/* The part of a port's bytes that a change is in. */
enum fpb_part {
    FPB_IN_RECORD = 0, /* the port's record: 56 bytes in a picture of edition 1, 60 in one of edition 2 */
    FPB_IN_VECTORS = 1 /* all its vectors, one behind the other: RID, MEM Low, MEM High, each that is supported; it may have none */
};

/* A change of one byte. 16 bytes with these fields at 0, 4, 8, 12 and 13; what is behind them does not count. */
struct fpb_change {
    uint32_t port; /* below the first picture's count */
    uint32_t part; /* enum fpb_part */
    uint32_t at;   /* counted from the first byte of that part of that port */
    uint8_t old_byte, new_byte;
};

/* Where the bytes of an answer are. */
enum fpb_offset {
    FPB_AT_NUMBER = 0,
    FPB_AT_END = 1,
    FPB_AT_PORT = 2,        /* FPB_NO_PORT where none is named */
    FPB_AT_SECOND_PORT = 3, /* FPB_NO_PORT where fewer than two are named */
    FPB_AT_CROSSINGS = 4,   /* how many ports the packet crossed, 0 to 32 */
    FPB_AT_FUNCTION = 5,    /* the Function number where a configuration request ends at a device, else 0 */
    FPB_AT_ZEROS = 6,       /* two zeros */
    FPB_AT_PATH = 8,        /* 32 places: the ports crossed, in crossing order, then FPB_NO_PORT in the places not used */
    FPB_AT_LEAST_TARGET = 8 /* numbers 11 to 14 and 18: the least such ID or address, little-endian in the first 8 places */
};

/* Whether a picture is sound. Returns a number, 0 to 15, 17 or 18. With a buffer of 40 bytes or more the first 40 are written and
 * the rest kept; with a shorter one nothing is written.
 *
 * With 0, a configuration request from the host for the own ID of any port ends at that port's Function: fpb_walk with FPB_CONFIG,
 * FPB_HOST and that ID gives FPB_END_FUNCTION at that port. */
uint32_t fpb_check(const uint8_t *picture, size_t picture_len, uint8_t *answer, size_t answer_len);

/* Where a packet goes: of a kind (enum fpb_kind), from the host (start FPB_HOST) or from the device below port `start`, to a
 * target. Returns 0 with the end and the path, or a number, 1 to 10, 16 or 17. The buffer as for fpb_check.
 *
 * Redirect: if port `start` has bit 2 of ACS Control set, P2P Request Redirect, and does not claim the address that a packet of
 * kind FPB_ADDRESS goes to, the packet crosses every port from `start` up to its root port, whatever the ports on the way hold, and
 * goes on from there as from the host. It may come down across the same ports, which then stand twice in the path. Packets of the
 * other kinds are not redirected, nor are those from the host; no other bit of ACS Control counts, and at no other port. In a
 * picture of edition 1 nothing is redirected. */
uint32_t fpb_walk(const uint8_t *picture, size_t picture_len, uint8_t *answer, size_t answer_len, uint32_t kind, uint32_t start,
                  uint64_t target);

/* The same two calls over a picture and a patch, which are only read: they answer as over the picture with the patch's vectors
 * put in. A patch has a whole new set of vectors for some ports, of the sizes that the picture's registers say; little-endian:
 *
 *     at 0             4 bytes   n, how many ports
 *     at 4             4 bytes   the patch's total length
 *     at 8 + 8i        4 bytes   for each i below n: the number of a port, above that of the one before it
 *     at 12 + 8i       4 bytes   where the vectors of that port begin, counted from the patch's first byte
 *     from 8 + 8n on             the vectors, in this order and without gaps to the patch's end; of one port as in a picture:
 *                                RID, MEM Low, MEM High, each that is supported, enabled or not
 *
 * A port without vectors may stand in it, with no bytes. The 8 bytes of no port change nothing.
 *
 * Refusals are looked for in this order: 17, then 1 to 10 of the picture, then 30, 31 and 32, each over the whole patch before
 * the next and naming no port, then 16 for the walk, or 11 to 15 and then 18 for the check. fpb_trial_check returns 0 to 15, 17, 18
 * or 30 to 32; fpb_trial_walk 0 to 10, 16, 17 or 30 to 32. The buffer as for fpb_check. With 0 from fpb_trial_check, every port
 * is found so by fpb_trial_walk with the same patch. */
uint32_t fpb_trial_check(const uint8_t *picture, size_t picture_len, const uint8_t *patch, size_t patch_len, uint8_t *answer,
                         size_t answer_len);
uint32_t fpb_trial_walk(const uint8_t *picture, size_t picture_len, const uint8_t *patch, size_t patch_len, uint8_t *answer,
                        size_t answer_len, uint32_t kind, uint32_t start, uint64_t target);

/* Which decoders of a port claim a target: an ID (kind FPB_ID) or an address (kind FPB_ADDRESS). Returns 0, and *decoders is then
 * the sum of those that do (enum fpb_decoder): 0 means that the port does not claim the target. Else a number, and *decoders is
 * kept: 1 to 10, then 16 for a port that the picture does not have, a kind over 1, or an ID over FFFFh.
 *
 * A port's own ID is no claim and no bit: a port that holds an ID, as those do that the check names with 11 and 13, holds it as its
 * own, by the decoders, or both; the port that 18 names claims the ID, and it is not its own. Its own ID stands in its record,
 * little-endian, at byte 16 + 56 * port + 2 of a picture of edition 1 and at byte 16 + 60 * port + 2 of one of edition 2; the
 * edition is the picture's first two bytes.
 *
 * This call and the next speak of the picture alone, also of a port that a trial call has named: the vectors of a patch are not
 * looked at. The picture must read, and need not be sound. */
uint32_t fpb_claim(const uint8_t *picture, size_t picture_len, uint32_t port, uint32_t kind, uint64_t target, uint32_t *decoders);

/* What a port makes of a configuration request for an ID. Returns 0, and *decided is then the conversion (enum fpb_conversion).
 * Else a number, and *decided is kept: 1 to 10, then 16 for a port that the picture does not have, or a target over FFFFh. */
uint32_t fpb_convert(const uint8_t *picture, size_t picture_len, uint32_t port, uint64_t target, uint32_t *decided);

/* A history of settings: a first picture, a room of changes, and how many of these are kept, all three in the caller's hands. A
 * history begins with 0 kept, whatever the room holds. Version k is the first picture with the first k changes made, one after the
 * other; version 0 is the first picture, and the number kept is the last version's. Which byte a change is of follows from the
 * first picture, whatever a later version says of itself. Only the first picture must read: fpb_check and fpb_walk over the bytes
 * of a version say what it is, and 1 to 10 where it does not read. The first picture, the run and, for a version, the room are
 * only read. A refusal writes nothing.
 *
 * Adds a run of changes, whole or not at all: returns 0, the run stands in the room behind the `kept` first ones, all other records
 * of the room are as they were, and *now_kept is kept + run_len. Else a number, looked for in this order, each over the whole run before the next: 1 to 10 of the first picture;
 * 37 for a change that names no byte of it, as one in the vectors of a port that has none; 38 for an old byte that is not what the
 * version just before that change holds, so that a change may build on another of the same run; 39 if kept + run_len is above
 * room_len. A run of no changes is added too. If kept is above room_len, 37 and 38 speak of all that the room holds, and then it is
 * 39. Since a version's number has 32 bits, a room counts as 4,294,967,295 records at most. */
uint32_t fpb_history_add(const uint8_t *first, size_t first_len, struct fpb_change *room, size_t room_len,
                         const struct fpb_change *run, size_t run_len, uint32_t kept, uint32_t *now_kept);

/* Writes version k to the beginning of `out`, first_len bytes, keeps the rest of it and returns 0. Else a number: 1 to 10 of the
 * first picture; 40 if k is above kept, or kept above room_len; 23 if out_len is under first_len.
 *
 * The history says what happened as long as the first picture stays as it is, the room is written by fpb_history_add alone, and
 * `kept` is what the last call that adds or winds back and returned 0 wrote, 0 at first. Anything else is answered all the same: a
 * record that names no byte changes nothing, and of any other the new byte is put in, whatever its old byte says. */
uint32_t fpb_history_version(const uint8_t *first, size_t first_len, const struct fpb_change *room, size_t room_len, uint8_t *out,
                             size_t out_len, uint32_t kept, uint32_t k);

/* Winds back to version k: returns 0, and *now_kept is k; 40 if k is above kept, and *now_kept keeps its value. The changes behind
 * k are dropped, and the next run that is added takes their place in the room: versions above k are then the new ones, and those up
 * to k what they were. */
uint32_t fpb_history_wind_back(uint32_t kept, uint32_t k, uint32_t *now_kept);

/* The port at place i of an answer's path, i under the number of crossings, in crossing order. */
static inline uint8_t fpb_crossed(const uint8_t *answer, size_t i)
{
    return answer[FPB_AT_PATH + i];
}

/* The least target of a check's answer with number 11 to 14 or 18. */
static inline uint64_t fpb_least_target(const uint8_t *answer)
{
    uint64_t target = 0;
    int i;
    for (i = 7; i >= 0; i--) {
        target = target << 8 | answer[FPB_AT_LEAST_TARGET + i];
    }
    return target;
}

/* A number in words: no capital at the front, no full stop, never NULL. The text is constant. */
static inline const char *fpb_number_text(uint32_t number)
{
    static const char *const texts[] = {
        "nothing was found wrong",
        "the picture is shorter than 72 bytes (76 in edition 2) or longer than 65,536",
        "the picture's edition is neither 1 nor 2",
        "the picture has no port, or more than 64",
        "the total length in the header is not the picture's length",
        "the records or the vectors do not begin where they must, or the records go past the picture's end",
        "a port breaks a rule of the tree, by its kind, its parent or as a later child",
        "a port has more than 15 ports above it in its chain",
        "a port has a vector enabled that it does not support, a size or granularity that may not be, wrong low bits in a memory register, or bytes after ACS Control that are not zero",
        "an enabled vector starts where it may not",
        "a port's vectors do not begin where they must, or the last ones do not end where the picture ends",
        "an ID has two holders at one place, or a port claims its own ID",
        "an address has two holders at one place",
        "a port holds an ID that its parent does not claim",
        "a port holds an address that its parent does not claim",
        "a port's own ID is not both claimed and made Type 0 by its parent",
        "a kind, an ID, a start or a port was asked for that there is not",
        "the answer buffer is shorter than 40 bytes",
        "a port claims an ID that its parent makes Type 0 or refuses and does not pass on as Type 1",
        NULL, NULL, NULL, NULL, /* 19 to 22 */
        "the buffer is too short for what is to be written",
        NULL, NULL, NULL, NULL, NULL, NULL, /* 24 to 29 */
        "the patch is too short for its header or its list of ports, or the total length in its header is not its length",
        "a port stands twice in the patch, out of order, or is not in the picture",
        "a port's new vectors do not begin where they must, or the last ones do not end where the patch ends",
        NULL, NULL, NULL, NULL, /* 33 to 36 */
        "a change names a port or a byte that is not in the first picture",
        "a change's old byte is not what the version before it holds",
        "the room has no place for the changes of the run",
        "a version was asked for that is not kept, or more changes are kept than the room has records",
    };
    return number < sizeof texts / sizeof texts[0] && texts[number] != NULL ? texts[number] : "not a number of this judge";
}

#ifdef __cplusplus
}
#endif

#endif
