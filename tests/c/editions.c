/* editions SAMPLES: both editions of a picture, built here: lengths, editions, offsets, the bytes behind ACS Control and its bits,
 * by every call of the archive; and two pictures of a folder, cut short. Looks at every byte that a call could write. Last line:
 * N passed, M failed. */
#include "common.h"

#define ROOM 60
#define ROOT 0
#define UPSTREAM 1
#define DOWNSTREAM 2
#define NO_PARENT 255
#define REDIRECT (1 << 2)

/* Where the fields of a record are. */
#define AT_KIND 0
#define AT_COMMAND 4
#define AT_MEMORY 8
#define AT_VECTORS 52
#define AT_ACS_CONTROL 56
#define AT_ZEROS 58

/* Base and limit of a Memory window: none, E0000000h to E0FFFFFFh, and E0100000h to E01FFFFFh. */
#define NO_MEMORY 0x0000FFF0
#define SIXTEEN_MIB 0xE0F0E000
#define ONE_MIB 0xE010E010

/* The calls that write an answer. */
enum call { CHECK, TRIAL_CHECK, WALK, TRIAL_WALK, CALLS };

struct packet {
    uint32_t kind, start;
    uint64_t target;
};

/* Numbers by the bytes that are lent, from 71 on. */
#define FIRST_LENGTH 71
#define LENGTHS 7

struct lengths_case {
    uint32_t edition;
    uint8_t numbers[LENGTHS];
};

struct header_case {
    uint32_t edition, count, length, records, vectors, number;
};

/* A patch of no port. */
static const uint8_t no_patch[] = {0, 0, 0, 0, 8, 0, 0, 0};

/* One port, and the total is the length that is lent. What reads and is too long has its end wrong. */
static const struct lengths_case lengths[] = {
    {0, {1, 2, 2, 2, 2, 2, 2}},
    {1, {1, 0, 10, 10, 10, 10, 10}},
    {2, {1, 1, 1, 1, 1, 0, 10}},
    {3, {1, 2, 2, 2, 2, 2, 2}},
    {0x0102, {1, 2, 2, 2, 2, 2, 2}},
    {0x0201, {1, 2, 2, 2, 2, 2, 2}},
    {0x0200, {1, 2, 2, 2, 2, 2, 2}},
    {0x0100, {1, 2, 2, 2, 2, 2, 2}},
    {0x8002, {1, 2, 2, 2, 2, 2, 2}},
    {0xFFFF, {1, 2, 2, 2, 2, 2, 2}},
};

/* The same with the total that one port needs, 72 or 76. */
static const struct lengths_case totals[] = {
    {1, {1, 0, 4, 4, 4, 4, 4}},
    {2, {1, 1, 1, 1, 1, 0, 4}},
};

/* Headers of root ports without vectors: how many, the bytes lent, which the total says too, and both offsets. */
static const struct header_case headers[] = {
    {1, 1, 72, 16, 72, 0},
    {1, 1, 76, 16, 76, 5},
    {2, 1, 76, 16, 76, 0},
    {2, 1, 76, 16, 72, 5},
    {2, 1, 76, 16, 75, 5},
    {2, 1, 76, 16, 77, 5},
    {2, 1, 76, 15, 76, 5},
    {2, 1, 76, 17, 76, 5},
    {2, 1, 76, 0, 76, 5},
    {2, 1, 76, 0x10010, 76, 5},
    {2, 1, 76, 16, 0x1004C, 5},
    {2, 1, 77, 16, 76, 10},
    {2, 0, 76, 16, 76, 3},
    {2, 0, 75, 16, 76, 1},
    {2, 65, 76, 16, 76, 3},
    {2, 65, 75, 16, 76, 1},
    {1, 2, 128, 16, 128, 0},
    {1, 2, 136, 16, 136, 5},
    {2, 2, 136, 16, 136, 0},
    {2, 2, 136, 16, 128, 5},
    {2, 2, 135, 16, 136, 5},
    {2, 2, 128, 16, 136, 5},
    {2, 2, 128, 16, 128, 5},
    {2, 2, 76, 16, 136, 5},
    {2, 2, 137, 16, 136, 10},
    {1, 64, 3600, 16, 3600, 0},
    {1, 64, 3856, 16, 3856, 5},
    {2, 64, 3856, 16, 3856, 0},
    {2, 64, 3856, 16, 3600, 5},
    {2, 64, 3855, 16, 3856, 5},
    {2, 64, 3600, 16, 3600, 5},
    {2, 0, 65536, 16, 16, 3},
    {2, 0, 65537, 16, 16, 1},
};

static uint32_t ask(int call, uint8_t *answer, size_t length, const struct packet *p)
{
    switch (call) {
    case CHECK:
        return fpb_check(picture, picture_len, answer, length);
    case TRIAL_CHECK:
        return fpb_trial_check(picture, picture_len, no_patch, sizeof no_patch, answer, length);
    case WALK:
        return fpb_walk(picture, picture_len, answer, length, p->kind, p->start, p->target);
    default:
        return fpb_trial_walk(picture, picture_len, no_patch, sizeof no_patch, answer, length, p->kind, p->start, p->target);
    }
}

/* Whether a call gives the 40 bytes wanted, keeps what is behind them, and with one byte too few keeps all; and the picture. */
static int answers(int call, const struct packet *p, const uint8_t *wanted)
{
    uint8_t room[ROOM], kept[ROOM];
    int good;
    memset(kept, KEPT, sizeof kept);
    memcpy(room, kept, sizeof room);
    good = ask(call, room, FPB_ANSWER_LENGTH, p) == wanted[FPB_AT_NUMBER] && memcmp(room, wanted, FPB_ANSWER_LENGTH) == 0 &&
           memcmp(room + FPB_ANSWER_LENGTH, kept, ROOM - FPB_ANSWER_LENGTH) == 0;
    memcpy(room, kept, sizeof room);
    return good && ask(call, room, FPB_ANSWER_LENGTH - 1, p) == FPB_BUFFER && memcmp(room, kept, sizeof room) == 0 &&
           picture_kept();
}

/* Whether the claim and the conversion give a number: with 0 that port 0 does not claim the target, else the word kept. */
static int asked_of_port_0(uint32_t number)
{
    uint32_t decoders = KEPT, decided = KEPT, wanted = number == FPB_CLEAR ? 0 : KEPT;
    return fpb_claim(picture, picture_len, 0, FPB_ID, 0x0500, &decoders) == number && decoders == wanted &&
           fpb_convert(picture, picture_len, 0, 0x0500, &decided) == number && decided == wanted && picture_kept();
}

/* The bytes of an answer with nothing crossed. */
static void want(uint8_t *wanted, uint32_t number, uint8_t end, uint8_t port)
{
    memset(wanted, FPB_NO_PORT, FPB_ANSWER_LENGTH);
    memset(wanted, 0, 8);
    wanted[FPB_AT_NUMBER] = (uint8_t)number;
    wanted[FPB_AT_END] = end;
    wanted[FPB_AT_PORT] = port;
    wanted[FPB_AT_SECOND_PORT] = FPB_NO_PORT;
}

/* All calls on a picture whose ports claim neither address 0 nor ID 0500h: a number of reading and the port that it names, or 0. */
static void expect_number(const char *what, uint32_t number, uint8_t port)
{
    static const struct packet to_host = {FPB_ADDRESS, FPB_HOST, 0};
    uint8_t wanted[FPB_ANSWER_LENGTH];
    int call;
    keep_picture();
    for (call = CHECK; call < CALLS; call++) {
        want(wanted, number, call >= WALK && number == FPB_CLEAR ? FPB_END_HOST : FPB_END_NONE, port);
        if (!counted(answers(call, &to_host, wanted))) {
            printf("%s, %u bytes, edition %u: call %d has not number %u with port %u\n", what, (unsigned)picture_len,
                   picture[0] + 256u * picture[1], call, number, port);
        }
    }
    if (!counted(asked_of_port_0(number))) {
        printf("%s, %u bytes: claim or conversion has not number %u\n", what, (unsigned)picture_len, number);
    }
}

/* A walk that ends with number 0, of the picture alone and on trial. */
static void expect_walk(const char *what, const struct packet *p, uint8_t end, uint8_t port, const uint8_t *path, size_t crossings)
{
    uint8_t wanted[FPB_ANSWER_LENGTH];
    int alone, tried;
    want(wanted, FPB_CLEAR, end, port);
    wanted[FPB_AT_CROSSINGS] = (uint8_t)crossings;
    memcpy(wanted + FPB_AT_PATH, path, crossings);
    keep_picture();
    alone = counted(answers(WALK, p, wanted));
    tried = counted(answers(TRIAL_WALK, p, wanted));
    if (!alone || !tried) {
        printf("%s: kind %u from %u to %llx is not end %u at port %u over %u ports\n", what, p->kind, p->start,
               (unsigned long long)p->target, end, port, (unsigned)crossings);
    }
}

/* A port without vectors, of `count` in all: kind, parent, own ID 8 for each port before it, and a Memory window. */
static void lay_port(uint32_t count, uint32_t port, uint32_t kind, uint32_t parent, uint32_t memory)
{
    uint8_t *record = picture + record_at(port);
    put_u32(record + AT_KIND, kind | parent << 8 | 8 * port << 16);
    put_u32(record + AT_COMMAND, 2);
    put_u32(record + AT_MEMORY, memory);
    put_u32(record + AT_MEMORY + 4, NO_MEMORY);
    put_u32(record + AT_VECTORS, record_at(count));
}

/* Root ports that claim nothing. */
static void lay_roots(uint32_t edition, uint32_t count)
{
    uint32_t port;
    lay_header(edition, count, 0);
    for (port = 0; port < count; port++) {
        lay_port(count, port, ROOT, NO_PARENT, NO_MEMORY);
    }
}

/* Numbers of the header, and that of the end, name no port. */
static void try_lengths(const struct lengths_case *cases, size_t count, int total_follows)
{
    size_t i;
    for (i = 0; i < LENGTHS * count; i++) {
        const struct lengths_case *c = &cases[i / LENGTHS];
        uint32_t length = (uint32_t)(FIRST_LENGTH + i % LENGTHS), number = c->numbers[i % LENGTHS];
        lay_roots(c->edition, 1);
        picture_len = length;
        if (total_follows) {
            put_u32(picture + 4, length);
        }
        expect_number("a length", number, FPB_NO_PORT);
    }
}

static void try_headers(void)
{
    size_t i;
    for (i = 0; i < COUNT(headers); i++) {
        const struct header_case *c = &headers[i];
        lay_roots(c->edition, c->count > 64 ? 64 : c->count);
        put_u32(picture, c->edition | c->count << 16);
        picture_len = c->length;
        put_u32(picture + 4, c->length);
        put_u32(picture + 8, c->records);
        put_u32(picture + 12, c->vectors);
        expect_number("a header", c->number, FPB_NO_PORT);
    }
}

/* Where the vectors of a port would begin, as in edition 1 or one byte off: 10 names the lowest such port. */
static void try_starts(void)
{
    uint32_t port;
    for (port = 0; port < 64; port++) {
        lay_roots(2, 64);
        put_u32(picture + record_at(port) + AT_VECTORS, port % 2 == 0 ? 16 + 56 * 64 : 16 + 60 * 64 + 1);
        put_u32(picture + record_at(63) + AT_VECTORS, 16 + 60 * 64 - 1);
        expect_number("a start", FPB_VECTORS, (uint8_t)port);
    }
}

/* Each bit of the bytes behind ACS Control, at each port and there and at the last; the bits of ACS Control itself are free. */
static void try_zeros(void)
{
    uint32_t port, bit;
    for (port = 0; port < 5; port++) {
        for (bit = 0; bit < 16; bit++) {
            lay_roots(2, 5);
            put_u32(picture + record_at(port) + AT_ACS_CONTROL, 1U << bit);
            expect_number("ACS Control", FPB_CLEAR, FPB_NO_PORT);
            put_u32(picture + record_at(port) + AT_ACS_CONTROL, 1U << (16 + bit));
            expect_number("a byte behind ACS Control", FPB_SETTINGS, (uint8_t)port);
            picture[record_at(4) + AT_ZEROS + 1] = 1;
            expect_number("a byte behind ACS Control at two ports", FPB_SETTINGS, (uint8_t)port);
        }
    }
}

/* Either of the bytes at each of as many ports as may be. */
static void try_zeros_of_64(void)
{
    uint32_t i;
    for (i = 0; i < 128; i++) {
        lay_roots(2, 64);
        picture[record_at(i / 2) + AT_ZEROS + i % 2] = (uint8_t)(1 + i);
        expect_number("a byte behind ACS Control, of 64 ports", FPB_SETTINGS, (uint8_t)(i / 2));
    }
}

/* 6 at the last port comes before 8 at the first, and 8 at the last before 10 at the first. */
static void try_order(void)
{
    lay_roots(2, 3);
    picture[record_at(0) + AT_ZEROS] = 1;
    picture[record_at(2) + AT_KIND] = 3;
    expect_number("6 before 8", FPB_TREE, 2);
    lay_roots(2, 3);
    picture[record_at(2) + AT_ZEROS] = 1;
    put_u32(picture + record_at(0) + AT_VECTORS, 0);
    expect_number("8 before 10", FPB_SETTINGS, 2);
}

/* A switch: ports 0 and 1 have 16 MiB, the device port 2 one of them, and the device port 3 none. */
static void lay_switch(uint32_t edition)
{
    lay_header(edition, 4, 0);
    lay_port(4, 0, ROOT, NO_PARENT, SIXTEEN_MIB);
    lay_port(4, 1, UPSTREAM, 0, SIXTEEN_MIB);
    lay_port(4, 2, DOWNSTREAM, 1, ONE_MIB);
    lay_port(4, 3, DOWNSTREAM, 1, NO_MEMORY);
}

/* What the device of port 3 sends to port 2: up to the root and down again, or across the switch. */
static void expect_way(const char *what, int redirected)
{
    static const struct packet across = {FPB_ADDRESS, 3, 0xE0100000};
    static const uint8_t over_root[] = {3, 1, 0, 0, 1, 2}, direct[] = {3, 2};
    if (redirected) {
        expect_walk(what, &across, FPB_END_DEVICE, 2, over_root, sizeof over_root);
    } else {
        expect_walk(what, &across, FPB_END_DEVICE, 2, direct, sizeof direct);
    }
}

/* Each bit of ACS Control at the starting port alone, with bit 2, and missing among all. */
static void try_bits(void)
{
    uint32_t bit;
    for (bit = 0; bit < 16; bit++) {
        lay_switch(2);
        put_u32(picture + record_at(3) + AT_ACS_CONTROL, 1U << bit);
        expect_way("one bit of ACS Control", bit == 2);
        put_u32(picture + record_at(3) + AT_ACS_CONTROL, 1U << bit | REDIRECT);
        expect_way("bit 2 of ACS Control and another", 1);
        put_u32(picture + record_at(3) + AT_ACS_CONTROL, 0xFFFF & ~(1U << bit));
        expect_way("all bits of ACS Control but one", bit != 2);
    }
}

/* All bits at all ports but the starting one; none in edition 1; and at all ports, for what is not redirected. */
static void try_not_redirected(void)
{
    static const struct packet by_id = {FPB_ID, 3, 0x0010}, config = {FPB_CONFIG, 3, 0x0010};
    static const struct packet from_host = {FPB_ADDRESS, FPB_HOST, 0xE0100000}, claimed = {FPB_ADDRESS, 2, 0xE0100000};
    static const uint8_t down[] = {0, 1, 2}, up[] = {3};
    uint32_t port;
    lay_switch(1);
    expect_way("edition 1", 0);
    lay_switch(2);
    expect_way("ACS Control 0", 0);
    for (port = 0; port < 3; port++) {
        put_u32(picture + record_at(port) + AT_ACS_CONTROL, 0xFFFF);
    }
    expect_way("ACS Control elsewhere", 0);
    put_u32(picture + record_at(3) + AT_ACS_CONTROL, 0xFFFF);
    expect_way("ACS Control everywhere", 1);
    expect_walk("an ID", &by_id, FPB_END_FUNCTION, 2, up, sizeof up);
    expect_walk("a configuration request", &config, FPB_END_UNSUPPORTED, 3, up, 0);
    expect_walk("from the host", &from_host, FPB_END_DEVICE, 2, down, sizeof down);
    expect_walk("an address that the port claims", &claimed, FPB_END_UNSUPPORTED, 2, up, 0);
}

/* Lays a chain in which all ports but the last, which is a device port, claim 16 MiB. */
static void lay_chain(uint32_t length)
{
    uint32_t port;
    lay_header(2, length, 0);
    for (port = 0; port < length; port++) {
        uint32_t kind = port == 0 ? ROOT : port % 2 == 1 ? UPSTREAM : DOWNSTREAM;
        lay_port(length, port, kind, port == 0 ? NO_PARENT : port - 1, port + 1 < length ? SIXTEEN_MIB : NO_MEMORY);
    }
}

/* From the end of chains of every length: the packet passes the ports that claim its address on the way up, and comes down as far
 * as they go; without redirect the first of them stops it. Of a chain of one port nobody claims it. */
static void try_depths(void)
{
    struct packet p = {FPB_ADDRESS, 0, 0xE0100000};
    uint8_t path[FPB_PLACES];
    uint32_t length, i;
    for (length = 1; length <= 15; length += 2) {
        uint8_t end = length == 1 ? FPB_END_HOST : FPB_END_UNSUPPORTED;
        uint8_t port = length == 1 ? FPB_NO_PORT : (uint8_t)(length - 2);
        p.start = length - 1;
        for (i = 0; i < length; i++) {
            path[i] = (uint8_t)(length - 1 - i);
            path[length + i] = (uint8_t)i;
        }
        lay_chain(length);
        expect_walk("a chain", &p, end, port, path, 1);
        put_u32(picture + record_at(length - 1) + AT_ACS_CONTROL, REDIRECT);
        expect_walk("a chain with redirect", &p, end, port, path, 2 * length - 1);
    }
}

/* Fewer bytes of a sample than its edition needs. */
static void try_cut_short(const char *folder, const char *sample, size_t needed)
{
    size_t length;
    load(folder, sample);
    for (length = 0; length < needed; length++) {
        picture_len = length;
        expect_number(sample, FPB_LENGTH, FPB_NO_PORT);
    }
    picture_len = needed;
    expect_number(sample, FPB_CLEAR, FPB_NO_PORT);
}

int main(int argc, char **argv)
{
    if (argc != 2) {
        fprintf(stderr, "usage: editions SAMPLES\n");
        return 2;
    }
    try_cut_short(argv[1], "one-port", 72);
    try_cut_short(argv[1], "one-port-edition-2", 76);
    try_lengths(lengths, COUNT(lengths), 1);
    try_lengths(totals, COUNT(totals), 0);
    try_headers();
    try_starts();
    try_zeros();
    try_zeros_of_64();
    try_order();
    try_bits();
    try_not_redirected();
    try_depths();
    return told();
}
