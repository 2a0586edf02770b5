/* history SAMPLES: the calls of a settings history over the pictures of a folder, by answers worked out by hand. Looks at every
 * byte that a call could write. Last line: N passed, M failed. */
#include "common.h"

#define ROOM 8
#define GUARD 3
#define NOT_SET 0xDEADBEEF
#define ABOVE_ALL 4294967295U
#define LONGEST 6000
#define MANY 600

/* A byte of a version that differs from the first picture's, counted from the picture's first byte. */
struct byte_at {
    size_t at;
    uint8_t byte;
};

/* One call to add, whose run stands for itself, and the number that it gives. */
struct refused_run {
    uint32_t number;
    size_t count;
    struct fpb_change run[4];
};

/* The lent room, with guards at both ends, and the history that the tests keep in it. */
static struct fpb_change store[GUARD + MANY + GUARD], store_before[COUNT(store)];
static struct fpb_change *const room = store + GUARD;
static size_t room_len;
static uint32_t kept;

static struct fpb_change lent[GUARD + MANY + GUARD], lent_before[COUNT(lent)];
static uint8_t buffer[GUARD + LONGEST + GUARD];
static const char *about;

static void expect(int holds, const char *what)
{
    if (!counted(holds)) {
        printf("%s: %s is not as it must be\n", about, what);
    }
}

/* A history of no changes over a sample, in a room of so many records, all with bytes of no meaning. */
static void begin(const char *folder, const char *sample, size_t records)
{
    about = sample;
    load(folder, sample);
    memset(store, KEPT, sizeof store);
    room_len = records;
    kept = 0;
}

static int same_change(const struct fpb_change *a, const struct fpb_change *b)
{
    return a->port == b->port && a->part == b->part && a->at == b->at && a->old_byte == b->old_byte && a->new_byte == b->new_byte;
}

/* Whether the store is as it was to the byte, but for `count` records from `from` on, which are the changes of the run. */
static int store_has(size_t from, const struct fpb_change *run, size_t count)
{
    size_t i;
    for (i = 0; i < COUNT(store); i++) {
        int added = i >= GUARD + from && i - GUARD - from < count;
        if (added ? !same_change(&store[i], &run[i - GUARD - from]) : memcmp(&store[i], &store_before[i], sizeof store[i]) != 0) {
            return 0;
        }
    }
    return 1;
}

/* Adds a run to what is kept, and looks at the number and at all that the call could write. */
static void add_to(uint32_t number, const struct fpb_change *run, size_t count)
{
    uint32_t now[3] = {NOT_SET, NOT_SET, NOT_SET}, got;
    int done = number == FPB_CLEAR;
    memset(lent, KEPT, sizeof lent);
    if (count != 0) {
        memcpy(lent + GUARD, run, count * sizeof run[0]);
    }
    memcpy(lent_before, lent, sizeof lent);
    memcpy(store_before, store, sizeof store);
    got = fpb_history_add(picture, picture_len, room, room_len, lent + GUARD, count, kept, &now[1]);
    if (!counted(got == number)) {
        printf("%s: add gives %u and not %u, for a run of %u from port %u part %u at %u on\n", about, got, number, (unsigned)count,
               lent[GUARD].port, lent[GUARD].part, lent[GUARD].at);
    }
    expect(now[1] == (done ? kept + (uint32_t)count : NOT_SET), "now_kept after add");
    expect(now[0] == NOT_SET && now[2] == NOT_SET, "what is beside now_kept");
    expect(store_has(kept, lent + GUARD, done ? count : 0), "the room after add");
    expect(memcmp(lent, lent_before, sizeof lent) == 0, "the run after add");
    expect(picture_kept(), "the first picture after add");
    kept = done ? now[1] : kept;
}

/* Adds one change. */
static void add_one(uint32_t number, uint32_t port, uint32_t part, uint32_t at, uint8_t old_byte, uint8_t new_byte)
{
    struct fpb_change change;
    change.port = port;
    change.part = part;
    change.at = at;
    change.old_byte = old_byte;
    change.new_byte = new_byte;
    add_to(number, &change, 1);
}

static void wind_back(uint32_t number, uint32_t k)
{
    uint32_t now[3] = {NOT_SET, NOT_SET, NOT_SET};
    expect(fpb_history_wind_back(kept, k, &now[1]) == number, "the number of a wind-back");
    expect(now[1] == (number == FPB_CLEAR ? k : NOT_SET), "now_kept after a wind-back");
    expect(now[0] == NOT_SET && now[2] == NOT_SET, "what is beside now_kept");
    kept = number == FPB_CLEAR ? now[1] : kept;
}

/* Asks for version k with so many bytes of the buffer lent: its number, and what the buffer must hold. */
static void version(uint32_t number, uint32_t k, size_t length, const uint8_t *wanted)
{
    uint32_t got;
    memset(buffer, KEPT, sizeof buffer);
    memcpy(store_before, store, sizeof store);
    got = fpb_history_version(picture, picture_len, room, room_len, buffer + GUARD, length, kept, k);
    if (!counted(got == number)) {
        printf("%s: version %u of %u gives %u and not %u\n", about, k, kept, got, number);
    }
    expect(memcmp(buffer, wanted, sizeof buffer) == 0, "the buffer of a version");
    expect(memcmp(store, store_before, sizeof store) == 0, "the room after a version");
    expect(picture_kept(), "the first picture after a version");
}

/* That version k is the first picture but for the bytes named, in a buffer that is as long as it or longer. */
static void version_has(uint32_t k, const struct byte_at *bytes, size_t count)
{
    static uint8_t wanted[sizeof buffer];
    size_t i;
    memset(wanted, KEPT, sizeof wanted);
    memcpy(wanted + GUARD, picture, picture_len);
    for (i = 0; i < count; i++) {
        wanted[GUARD + bytes[i].at] = bytes[i].byte;
    }
    version(FPB_CLEAR, k, LONGEST, wanted);
    version(FPB_CLEAR, k, picture_len, wanted);
}

static void version_has_one(uint32_t k, size_t at, uint8_t byte)
{
    struct byte_at one;
    one.at = at;
    one.byte = byte;
    version_has(k, &one, 1);
}

static void version_refused(uint32_t number, uint32_t k, size_t length)
{
    static uint8_t wanted[sizeof buffer];
    memset(wanted, KEPT, sizeof wanted);
    version(number, k, length, wanted);
}

/* What the check says of the version that was written last: number, ports and, for 11 to 14 and 18, the least target. */
static void check_says(uint32_t number, uint8_t port, uint8_t second, uint64_t target)
{
    uint8_t answer[FPB_ANSWER_LENGTH];
    uint32_t got = fpb_check(buffer + GUARD, picture_len, answer, sizeof answer);
    int targets = number >= FPB_SHARED_ID && number <= FPB_STRAY_ADDRESS;
    if (!counted(got == number)) {
        printf("%s: the check of a version gives %u and not %u\n", about, got, number);
    }
    expect(answer[FPB_AT_PORT] == port && answer[FPB_AT_SECOND_PORT] == second, "the ports that the check of a version names");
    expect(!targets || fpb_least_target(answer) == target, "the least target of a version");
}

/* What the walk says of that version, for an address or an ID: the end, the port, and how many are crossed. */
static void walk_says(uint32_t kind, uint32_t start, uint64_t target, uint8_t end, uint8_t port, uint8_t crossings)
{
    uint8_t answer[FPB_ANSWER_LENGTH];
    uint32_t got = fpb_walk(buffer + GUARD, picture_len, answer, sizeof answer, kind, start, target);
    expect(got == FPB_CLEAR && answer[FPB_AT_END] == end && answer[FPB_AT_PORT] == port && answer[FPB_AT_CROSSINGS] == crossings,
           "the walk in a version");
}

/* One change, then two: the buses of ports 2 and 3, whose records begin at 16 + 2 * 56 = 128 and at 16 + 3 * 56 = 184. */
static void try_adding(const char *folder)
{
    static const struct fpb_change two[] = {{3, FPB_IN_RECORD, 7, 4, 6}, {2, FPB_IN_RECORD, 7, 3, 5}};
    static const struct byte_at second[] = {{134, 5}, {191, 6}};
    static const struct byte_at third[] = {{134, 5}, {191, 6}, {135, 5}};
    begin(folder, "switch", ROOM);
    version_has(0, NULL, 0);
    check_says(FPB_CLEAR, 255, 255, 0);
    walk_says(FPB_ID, FPB_HOST, 0x0300, FPB_END_DEVICE, 2, 3);
    add_one(FPB_CLEAR, 2, FPB_IN_RECORD, 6, 3, 5);
    version_has(0, NULL, 0);
    version_has_one(1, 134, 5);
    check_says(FPB_CLEAR, 255, 255, 0);
    walk_says(FPB_ID, FPB_HOST, 0x0300, FPB_END_UNSUPPORTED, 1, 2);
    add_to(FPB_CLEAR, two, COUNT(two));
    expect(kept == 3, "the number kept");
    version_has(0, NULL, 0);
    version_has_one(1, 134, 5);
    version_has(2, second, COUNT(second));
    check_says(FPB_STRAY_ID, 3, 255, 0x0500);
    version_has(3, third, COUNT(third));
    check_says(FPB_SHARED_ID, 2, 3, 0x0500);
    add_to(FPB_CLEAR, NULL, 0);
    expect(kept == 3, "the number kept after a run of none");
}

/* One byte many times, in one run and across runs; a change to what is there already; versions that do not read, and do again. */
static void try_one_byte(const char *folder)
{
    static const struct fpb_change run[] = {{0, FPB_IN_RECORD, 0, 0, 9}, {0, FPB_IN_RECORD, 0, 9, 0}, {0, FPB_IN_RECORD, 0, 0, 7}};
    static const struct fpb_change broken[] = {{0, FPB_IN_RECORD, 0, 7, 1}, {0, FPB_IN_RECORD, 0, 7, 2}};
    static const struct fpb_change from_first[] = {{0, FPB_IN_RECORD, 0, 7, 1}, {0, FPB_IN_RECORD, 0, 0, 2}};
    begin(folder, "one-port", ROOM);
    add_to(FPB_CLEAR, run, COUNT(run));
    version_has_one(1, 16, 9);
    check_says(FPB_TREE, 0, 255, 0);
    version_has(2, NULL, 0);
    check_says(FPB_CLEAR, 255, 255, 0);
    version_has_one(3, 16, 7);
    check_says(FPB_TREE, 0, 255, 0);
    add_one(FPB_OLD_BYTE_WRONG, 0, FPB_IN_RECORD, 0, 0, 1);
    add_one(FPB_OLD_BYTE_WRONG, 0, FPB_IN_RECORD, 0, 9, 1);
    add_to(FPB_OLD_BYTE_WRONG, broken, COUNT(broken));
    add_to(FPB_OLD_BYTE_WRONG, from_first, COUNT(from_first));
    add_one(FPB_CLEAR, 0, FPB_IN_RECORD, 0, 7, 7);
    version_has_one(4, 16, 7);
    add_one(FPB_CLEAR, 0, FPB_IN_RECORD, 0, 7, 0);
    version_has(5, NULL, 0);
    check_says(FPB_CLEAR, 255, 255, 0);
}

/* Runs that are refused over one-port, which has one record of 56 bytes and no vectors, its first bytes 00 FF 08 00. */
static const struct refused_run over_one_port[] = {
    {37, 1, {{1, 0, 0, 0, 1}}},
    {37, 1, {{255, 0, 0, 0, 1}}},
    {37, 1, {{256, 0, 0, 0, 1}}},
    {37, 1, {{65536, 0, 0, 0, 1}}},
    {37, 1, {{ABOVE_ALL, 0, 0, 0, 1}}},
    {37, 1, {{0, 2, 0, 0, 1}}},
    {37, 1, {{0, 256, 0, 0, 1}}},
    {37, 1, {{0, ABOVE_ALL, 0, 0, 1}}},
    {37, 1, {{0, 0, 56, 0, 1}}},
    {37, 1, {{0, 0, 256, 0, 1}}},
    {37, 1, {{0, 0, 65536, 0, 1}}},
    {37, 1, {{0, 0, ABOVE_ALL, 0, 1}}},
    {37, 1, {{0, 0, ABOVE_ALL - 15, 1, 2}}},
    {37, 1, {{0, 1, 0, 0, 1}}},
    {37, 1, {{0, 1, ABOVE_ALL, 0, 1}}},
    {37, 2, {{0, 0, 0, 0, 1}, {0, 0, 56, 0, 1}}},
    {37, 3, {{0, 0, 0, 0, 1}, {0, 0, 1, 0, 1}, {1, 0, 0, 0, 1}}},
    {38, 1, {{0, 0, 0, 1, 0}}},
    {38, 1, {{0, 0, 1, 254, 255}}},
    {38, 1, {{0, 0, 1, 0, 255}}},
    {38, 2, {{0, 0, 0, 0, 1}, {0, 0, 0, 0, 1}}},
    {38, 3, {{0, 0, 0, 0, 1}, {0, 0, 1, 255, 1}, {0, 0, 2, 0, 1}}},
};

/* The same over redirect, of edition 2 with records of 60 bytes: ports 2 and 4 have 32 bytes of vectors, the others none. */
static const struct refused_run over_redirect[] = {
    {37, 1, {{6, 0, 0, 0, 1}}},
    {37, 1, {{0, 0, 60, 0, 1}}},
    {37, 1, {{5, 0, 60, 0, 1}}},
    {37, 1, {{2, 1, 32, 0, 1}}},
    {37, 1, {{3, 1, 0, 0, 1}}},
    {37, 1, {{4, 1, 32, 0, 1}}},
    {37, 1, {{5, 1, 0, 0, 1}}},
    {37, 1, {{2, 2, 0, 0x22, 1}}},
    {37, 1, {{2, 257, 0, 0x22, 1}}},
    {37, 1, {{2, 1, 256, 0x22, 1}}},
    {37, 1, {{2, 1, 65536, 0x22, 1}}},
    {37, 1, {{2, 1, ABOVE_ALL - 375, 2, 1}}},
    {37, 2, {{2, 1, 0, 0x22, 1}, {4, 1, 32, 0, 1}}},
    {37, 2, {{2, 1, 0, 0, 1}, {4, 1, 32, 0, 1}}},
    {38, 1, {{3, 0, 56, 0x1C, 0}}},
    {38, 1, {{2, 1, 0, 0x02, 0}}},
};

static void try_refused(const char *folder, const char *sample, const struct refused_run *cases, size_t count)
{
    size_t i;
    begin(folder, sample, ROOM);
    for (i = 0; i < count; i++) {
        add_to(cases[i].number, cases[i].run, cases[i].count);
        room_len = 0;
        add_to(cases[i].number, cases[i].run, cases[i].count);
        room_len = ROOM;
    }
    expect(kept == 0, "the number kept after refusals");
    version_has(0, NULL, 0);
}

/* 39 exactly where the kept ones and the run together are more than the room has records, and after 37 and 38. */
static void try_full(const char *folder)
{
    static const struct fpb_change two[] = {{0, FPB_IN_RECORD, 4, 3, 4}, {0, FPB_IN_RECORD, 4, 4, 5}};
    begin(folder, "one-port", 2);
    add_one(FPB_CLEAR, 0, FPB_IN_RECORD, 4, 2, 3);
    add_to(FPB_ROOM_FULL, two, 2);
    add_to(FPB_CLEAR, two, 1);
    add_to(FPB_ROOM_FULL, two + 1, 1);
    add_to(FPB_CLEAR, NULL, 0);
    add_to(FPB_OLD_BYTE_WRONG, two, 1);
    add_one(FPB_NO_SUCH_BYTE, 0, FPB_IN_RECORD, 56, 0, 0);
    version_has_one(2, 20, 4);
    wind_back(FPB_CLEAR, 1);
    add_to(FPB_ROOM_FULL, two, 2);
    wind_back(FPB_CLEAR, 0);
    add_one(FPB_CLEAR, 0, FPB_IN_RECORD, 4, 2, 3);
    add_to(FPB_CLEAR, two, 1);
    add_to(FPB_ROOM_FULL, two + 1, 1);
}

/* More kept than the room has records: 37 and 38 by all that the room holds, byte 4 of the record being 4 there, and then 39. */
static void try_kept_above_room(const char *folder)
{
    static const struct fpb_change two[] = {{0, FPB_IN_RECORD, 4, 2, 3}, {0, FPB_IN_RECORD, 4, 3, 4}};
    static const uint32_t numbers[] = {3, 4, ABOVE_ALL - 1, ABOVE_ALL};
    size_t i;
    begin(folder, "one-port", 2);
    add_to(FPB_CLEAR, two, COUNT(two));
    for (i = 0; i < COUNT(numbers); i++) {
        kept = numbers[i];
        add_one(FPB_NO_SUCH_BYTE, 0, FPB_IN_VECTORS, 0, 0, 0);
        add_one(FPB_OLD_BYTE_WRONG, 0, FPB_IN_RECORD, 4, 3, 5);
        add_one(FPB_ROOM_FULL, 0, FPB_IN_RECORD, 4, 4, 5);
        add_to(FPB_ROOM_FULL, NULL, 0);
        version_refused(FPB_NO_SUCH_VERSION, 0, LONGEST);
        version_refused(FPB_NO_SUCH_VERSION, 2, LONGEST);
        version_refused(FPB_NO_SUCH_VERSION, kept, LONGEST);
    }
    wind_back(FPB_CLEAR, ABOVE_ALL);
    wind_back(FPB_CLEAR, 2);
    version_has_one(2, 20, 4);
}

/* Wound back to version 1 of 3: the later changes are dropped, and the new ones take their room. */
static void try_winding(const char *folder)
{
    static const struct fpb_change three[] = {
        {2, FPB_IN_RECORD, 6, 3, 5}, {2, FPB_IN_RECORD, 7, 3, 5}, {3, FPB_IN_RECORD, 6, 4, 3}};
    static const struct byte_at anew[] = {{134, 5}, {191, 9}, {135, 4}};
    begin(folder, "switch", 3);
    add_to(FPB_CLEAR, three, COUNT(three));
    wind_back(FPB_NO_SUCH_VERSION, 4);
    wind_back(FPB_NO_SUCH_VERSION, ABOVE_ALL);
    wind_back(FPB_CLEAR, 3);
    wind_back(FPB_CLEAR, 1);
    wind_back(FPB_NO_SUCH_VERSION, 2);
    version_refused(FPB_NO_SUCH_VERSION, 2, LONGEST);
    version_has_one(1, 134, 5);
    add_one(FPB_OLD_BYTE_WRONG, 2, FPB_IN_RECORD, 7, 5, 6);
    add_one(FPB_CLEAR, 3, FPB_IN_RECORD, 7, 4, 9);
    expect(same_change(&room[2], &three[2]), "the change behind the last kept one");
    version_has(0, NULL, 0);
    version_has_one(1, 134, 5);
    version_has(2, anew, 2);
    version_refused(FPB_NO_SUCH_VERSION, 3, LONGEST);
    add_one(FPB_CLEAR, 2, FPB_IN_RECORD, 7, 3, 4);
    version_has(2, anew, 2);
    version_has(3, anew, 3);
    wind_back(FPB_CLEAR, 0);
    version_has(0, NULL, 0);
    wind_back(FPB_NO_SUCH_VERSION, 1);
    add_to(FPB_CLEAR, three, COUNT(three));
    version_has_one(1, 134, 5);
}

/* A first picture that does not read comes before all else. */
static void try_first_that_does_not_read(const char *folder)
{
    static const struct fpb_change none[] = {{ABOVE_ALL, ABOVE_ALL, ABOVE_ALL, 1, 2}};
    static const struct {
        const char *sample;
        uint32_t number;
    } firsts[] = {
        {"short", 1},         {"edition-3", 2},      {"no-port", 3},       {"total-wrong", 4},
        {"later-child", 6},   {"chain-of-17", 7},    {"reserved-size", 8}, {"records-elsewhere", 5},
        {"acs-not-zero", 8},  {"edition-2-short", 1}, {"start-misaligned", 9}, {"vectors-past-the-end", 10},
    };
    size_t i;
    for (i = 0; i < COUNT(firsts); i++) {
        begin(folder, firsts[i].sample, ROOM);
        add_to(firsts[i].number, none, 1);
        add_to(firsts[i].number, NULL, 0);
        version_refused(firsts[i].number, 0, LONGEST);
        version_refused(firsts[i].number, 1, 0);
        kept = ROOM + 1;
        add_to(firsts[i].number, NULL, 0);
        version_refused(firsts[i].number, 0, 0);
    }
}

/* 40 before 23, and 23 exactly where the buffer is shorter than the picture's 240 bytes. */
static void try_buffers(const char *folder)
{
    begin(folder, "switch", ROOM);
    add_one(FPB_CLEAR, 0, FPB_IN_RECORD, 55, 0, 1);
    version_refused(FPB_NO_SUCH_VERSION, 2, 0);
    version_refused(FPB_NO_SUCH_VERSION, 2, 239);
    version_refused(FPB_NO_SUCH_VERSION, 2, 240);
    version_refused(FPB_NO_SUCH_VERSION, ABOVE_ALL, 240);
    version_refused(FPB_BUFFER_SHORT, 1, 0);
    version_refused(FPB_BUFFER_SHORT, 0, 40);
    version_refused(FPB_BUFFER_SHORT, 1, 239);
    version_has_one(1, 71, 1);
}

/* shared-granule has the vectors of port 2 at 240 and those of port 3 at 272, also where later records say something else: port 3
 * that they start at 0130h; port 2 that they have 64 bytes, and that it has none; port 0 that it has some. */
static void try_layout(const char *folder)
{
    static const struct fpb_change run[] = {
        {3, FPB_IN_RECORD, 52, 0x10, 0x30}, {3, FPB_IN_VECTORS, 0, 0x20, 0x00},  {2, FPB_IN_RECORD, 30, 0, 1},
        {2, FPB_IN_VECTORS, 31, 0, 0x80},   {2, FPB_IN_RECORD, 28, 2, 0},        {2, FPB_IN_VECTORS, 0, 0x22, 0x02},
        {0, FPB_IN_RECORD, 28, 0, 2},       {3, FPB_IN_VECTORS, 31, 0x00, 0xFF}};
    static const struct byte_at bytes[] = {{236, 0x30}, {272, 0x00}, {158, 1}, {271, 0x80},
                                           {156, 0},    {240, 0x02}, {44, 2},  {303, 0xFF}};
    uint32_t k;
    begin(folder, "shared-granule", ROOM);
    add_to(FPB_CLEAR, run, COUNT(run));
    for (k = 0; k <= COUNT(run); k++) {
        version_has(k, bytes, k);
    }
    check_says(FPB_SETTINGS, 2, 255, 0);
    version_has(1, bytes, 1);
    check_says(FPB_VECTORS, 3, 255, 0);
    version_has(0, NULL, 0);
    check_says(FPB_SHARED_ADDRESS, 2, 3, 0xE0500000);
    add_one(FPB_NO_SUCH_BYTE, 2, FPB_IN_VECTORS, 32, 0x00, 1);
    add_one(FPB_NO_SUCH_BYTE, 3, FPB_IN_VECTORS, 32, 0x00, 1);
    add_one(FPB_NO_SUCH_BYTE, 0, FPB_IN_VECTORS, 0, 0x02, 1);
    add_one(FPB_NO_SUCH_BYTE, 1, FPB_IN_VECTORS, 0, 0x02, 1);
}

/* A room that add did not write: what names no byte changes nothing, and a new byte is put in whatever the old one says. */
static void try_foreign_room(const char *folder)
{
    static const struct fpb_change foreign[] = {{1, 0, 0, 0, 1}, {0, 2, 0, 0, 1},         {0, 1, 0, 0, 1}, {0, 0, 56, 0, 1},
                                                {0, 0, ABOVE_ALL, 0, 1}, {0, 0, 4, 99, 7}, {0, 0, 4, 99, 6}};
    begin(folder, "one-port", ROOM);
    memcpy(room, foreign, sizeof foreign);
    kept = 5;
    version_has(0, NULL, 0);
    version_has(5, NULL, 0);
    add_one(FPB_OLD_BYTE_WRONG, 0, FPB_IN_RECORD, 4, 7, 8);
    kept = 6;
    version_has(5, NULL, 0);
    version_has_one(6, 20, 7);
    add_one(FPB_OLD_BYTE_WRONG, 0, FPB_IN_RECORD, 4, 2, 8);
    add_one(FPB_CLEAR, 0, FPB_IN_RECORD, 4, 7, 8);
    version_has_one(6, 20, 7);
    version_has_one(7, 20, 8);
}

/* The records of edition 2: ACS Control of port 3 is at 16 + 3 * 60 + 56 = 252, the vectors of port 4 are at 408. */
static void try_edition_2(const char *folder)
{
    static const struct fpb_change spoilt[] = {{3, FPB_IN_RECORD, 58, 0, 1}, {3, FPB_IN_RECORD, 59, 0, 0xFF}};
    static const struct fpb_change entries[] = {{4, FPB_IN_VECTORS, 1, 0x02, 0x22}, {4, FPB_IN_VECTORS, 0, 0x00, 0x20}};
    static const struct byte_at before[] = {{252, 0x19}, {254, 1}, {255, 0xFF}}, after[] = {{252, 0x19}, {409, 0x22}, {408, 0x20}};
    begin(folder, "redirect", ROOM);
    add_one(FPB_CLEAR, 3, FPB_IN_RECORD, 56, 0x1D, 0x19);
    version_has(0, NULL, 0);
    walk_says(FPB_ADDRESS, 3, 0xE0500000, FPB_END_DEVICE, 2, 6);
    version_has(1, before, 1);
    check_says(FPB_CLEAR, 255, 255, 0);
    walk_says(FPB_ADDRESS, 3, 0xE0500000, FPB_END_DEVICE, 2, 2);
    add_to(FPB_CLEAR, spoilt, COUNT(spoilt));
    version_has(3, before, 3);
    version_has(2, before, 2);
    check_says(FPB_SETTINGS, 3, 255, 0);
    wind_back(FPB_CLEAR, 1);
    add_to(FPB_CLEAR, entries, COUNT(entries));
    version_has(1, before, 1);
    version_has(2, after, 2);
    check_says(FPB_CLEAR, 255, 255, 0);
    walk_says(FPB_ADDRESS, FPB_HOST, 0xE0D00000, FPB_END_DEVICE, 4, 3);
    version_has(3, after, 3);
    check_says(FPB_SHARED_ADDRESS, 2, 4, 0xE0500000);
}

/* Every byte behind the header is that of one change and no other: first those of the records, then those of the vectors. */
static void try_every_byte(const char *folder, const char *sample, uint32_t record, const uint32_t *vectors, uint32_t ports)
{
    uint32_t part, port, i;
    size_t at = 16;
    begin(folder, sample, 1);
    for (part = FPB_IN_RECORD; part <= FPB_IN_VECTORS; part++) {
        for (port = 0; port < ports; port++) {
            for (i = 0; i < (part == FPB_IN_RECORD ? record : vectors[port]); i++, at++) {
                kept = 0;
                add_one(FPB_CLEAR, port, part, i, picture[at], (uint8_t)~picture[at]);
                version_has_one(1, at, (uint8_t)~picture[at]);
            }
            add_one(FPB_NO_SUCH_BYTE, port, part, i, 0, 1);
        }
    }
    expect(at == picture_len, "how many bytes can be changed");
}

/* 64 root ports with an RID vector of 32 bytes each: the last has all bytes that a port of this edition can have, and no more. */
static void try_most_ports(uint32_t edition, uint32_t record)
{
    uint32_t port, vectors = 16 + 64 * record;
    about = "64 ports";
    lay_header(edition, 64, 64 * 32);
    for (port = 0; port < 64; port++) {
        put_u32(picture + record_at(port), FPB_NO_PORT << 8 | 8 * port << 16);
        put_u32(picture + record_at(port) + 28, 1);
        put_u32(picture + record_at(port) + 52, vectors + 32 * port);
    }
    keep_picture();
    kept = 0;
    room_len = ROOM;
    add_one(FPB_NO_SUCH_BYTE, 64, FPB_IN_RECORD, 0, 0, 1);
    add_one(FPB_NO_SUCH_BYTE, 64, FPB_IN_VECTORS, 0, 0, 1);
    add_one(FPB_NO_SUCH_BYTE, 63, FPB_IN_RECORD, record, 0, 1);
    add_one(FPB_NO_SUCH_BYTE, 63, FPB_IN_VECTORS, 32, 0, 1);
    add_one(FPB_CLEAR, 63, FPB_IN_VECTORS, 31, 0, 0xFF);
    version_has_one(1, picture_len - 1, 0xFF);
    wind_back(FPB_CLEAR, 0);
    add_one(FPB_CLEAR, 63, FPB_IN_RECORD, record - 1, 0, 0xFF);
    version_has_one(1, vectors - 1, 0xFF);
    check_says(edition == 1 ? FPB_VECTORS : FPB_SETTINGS, 63, FPB_NO_PORT, 0);
}

/* The run of a byte that counts up from 8, from version `from` on, or down again. */
static void count_on(uint32_t from, int down, size_t count)
{
    static struct fpb_change run[MANY];
    size_t i;
    for (i = 0; i < count; i++) {
        uint32_t byte = 8 + from + (down ? 0 - (uint32_t)i : (uint32_t)i);
        run[i].port = 0;
        run[i].part = FPB_IN_RECORD;
        run[i].at = 2;
        run[i].old_byte = (uint8_t)(byte & 255);
        run[i].new_byte = (uint8_t)((down ? byte - 1 : byte + 1) & 255);
    }
    add_to(FPB_CLEAR, run, count);
}

/* A run of 600 changes of one byte, byte 18 of the picture; then half of them again, downward. */
static void try_many(const char *folder)
{
    uint32_t k;
    begin(folder, "one-port", MANY);
    count_on(0, 0, MANY);
    for (k = 0; k <= MANY; k += 50) {
        version_has_one(k, 18, (uint8_t)((8 + k) & 255));
    }
    add_one(FPB_ROOM_FULL, 0, FPB_IN_RECORD, 2, (8 + MANY) & 255, 0);
    wind_back(FPB_CLEAR, MANY / 2);
    count_on(MANY / 2, 1, MANY / 2);
    for (k = 0; k <= MANY; k += 50) {
        version_has_one(k, 18, (uint8_t)((8 + (k <= MANY / 2 ? k : MANY - k)) & 255));
    }
}

/* No first picture, no room, no run and no buffer at all. */
static void try_nothing(const char *folder)
{
    static const struct fpb_change one = {0, FPB_IN_RECORD, 0, 0, 1};
    uint32_t now = NOT_SET;
    begin(folder, "one-port", 0);
    about = "nothing lent";
    expect(fpb_history_add(NULL, 0, NULL, 0, NULL, 0, 0, &now) == FPB_LENGTH && now == NOT_SET, "add to no picture");
    expect(fpb_history_version(NULL, 0, NULL, 0, NULL, 0, 0, 0) == FPB_LENGTH, "a version of no picture");
    expect(fpb_history_add(picture, picture_len, NULL, 0, &one, 1, 0, &now) == FPB_ROOM_FULL && now == NOT_SET, "add to no room");
    expect(fpb_history_version(picture, picture_len, NULL, 0, NULL, 0, 1, 0) == FPB_NO_SUCH_VERSION, "a version kept in no room");
    expect(fpb_history_version(picture, picture_len, NULL, 0, NULL, 0, 0, 0) == FPB_BUFFER_SHORT, "a version to no buffer");
    expect(fpb_history_add(picture, picture_len, NULL, 0, NULL, 0, 0, &now) == FPB_CLEAR && now == 0, "nothing added to no room");
    version_has(0, NULL, 0);
    expect(fpb_history_version(picture, picture_len, NULL, 0, buffer, picture_len, 0, 0) == FPB_CLEAR &&
               memcmp(buffer, picture, picture_len) == 0, "the first version of no room");
}

int main(int argc, char **argv)
{
    static const uint32_t card_vectors[] = {0, 0, 32, 96}, redirect_vectors[] = {0, 0, 32, 0, 32, 0};
    static const uint32_t decoder_vectors[] = {0, 0, 0, 32, 64, 96};
    if (argc != 2) {
        fprintf(stderr, "usage: history SAMPLES\n");
        return 2;
    }
    try_adding(argv[1]);
    try_one_byte(argv[1]);
    try_refused(argv[1], "one-port", over_one_port, COUNT(over_one_port));
    try_refused(argv[1], "redirect", over_redirect, COUNT(over_redirect));
    try_full(argv[1]);
    try_kept_above_room(argv[1]);
    try_winding(argv[1]);
    try_first_that_does_not_read(argv[1]);
    try_buffers(argv[1]);
    try_layout(argv[1]);
    try_foreign_room(argv[1]);
    try_edition_2(argv[1]);
    try_every_byte(argv[1], "waiting-card", 56, card_vectors, COUNT(card_vectors));
    try_every_byte(argv[1], "every-decoder", 56, decoder_vectors, COUNT(decoder_vectors));
    try_every_byte(argv[1], "redirect", 60, redirect_vectors, COUNT(redirect_vectors));
    try_most_ports(1, 56);
    try_most_ports(2, 60);
    try_many(argv[1]);
    try_nothing(argv[1]);
    return told();
}
