/* histories [LINE]: reads stories of settings histories from standard input, makes the calls, and prints a line for each step. With
 * LINE it makes no call: it tells what step that line is of, and which bytes of the input are its story.
 *
 * A story, all numbers little-endian: 4 bytes, the length of the first picture, and that picture; 4, the records of the room, and
 * those; 4, how many are kept; 4, how many steps follow, and those. A record has 16 bytes: port, part and at of 4 each, the old
 * byte, the new byte, two zeros. A step is one of these, and the line that it prints behind it:
 *     1, 4 bytes, so many records     add them                      add NUMBER NOW HASH      of all records of the room
 *     2, 4 bytes                      wind back to that version     back NUMBER NOW
 *     3, 4 bytes, 4 bytes             read that version back        version NUMBER HASH      of all so many bytes of the buffer
 *     4, 4 bytes                      so many are kept now          kept N
 * NOW is what stands in now_kept, 3735928559 before the call; HASH is FNV-1a of 64 bits, over records by port, part, at, old and
 * new byte. Where a version is written, its line goes on: ` check NUMBER HASH walk NUMBER HASH`, of its bytes and of the 40 bytes
 * of both answers. A call that writes what it may not gets a line before its own. Status: 0, or 1 for input that is no stories. */
#include <stdio.h>
#include <string.h>

#include "fiswalend.h"

#define KEPT 0xA5
#define NOT_SET 3735928559U
#define GUARD 64
#define MOST_BYTES 70000
#define MOST_RECORDS 4096
#define MOST_OUT 140000
#define RECORD 16

/* What is lent, with guards at both ends, and as it was before a call. */
static uint8_t first[GUARD + MOST_BYTES + GUARD], first_before[sizeof first];
static struct fpb_change room[GUARD + MOST_RECORDS + GUARD], room_before[GUARD + MOST_RECORDS + GUARD];
static struct fpb_change run[GUARD + MOST_RECORDS + GUARD], run_before[GUARD + MOST_RECORDS + GUARD];
static uint8_t out[GUARD + MOST_OUT + GUARD];

static uint32_t first_len, room_len, run_len, kept;

/* How many bytes of the input are read, lines printed, and the line to tell of, which is 0 where the calls are made. */
static unsigned long bytes_read, lines, told_line;

static uint64_t hashed(uint64_t hash, const uint8_t *bytes, size_t count)
{
    size_t i;
    for (i = 0; i < count; i++) {
        hash = (hash ^ bytes[i]) * 0x100000001B3;
    }
    return hash;
}

static unsigned long long hash_of(const uint8_t *bytes, size_t count)
{
    return hashed(0xCBF29CE484222325, bytes, count);
}

/* Over the fields of the records, 14 bytes each. */
static unsigned long long hash_of_room(void)
{
    uint64_t hash = 0xCBF29CE484222325;
    size_t i, k;
    for (i = 0; i < room_len; i++) {
        const struct fpb_change *change = &room[GUARD + i];
        const uint32_t words[] = {change->port, change->part, change->at};
        uint8_t bytes[14];
        for (k = 0; k < 12; k++) {
            bytes[k] = (uint8_t)(words[k / 4] >> 8 * (k % 4) & 255);
        }
        bytes[12] = change->old_byte;
        bytes[13] = change->new_byte;
        hash = hashed(hash, bytes, sizeof bytes);
    }
    return hash;
}

static int malformed(const char *what)
{
    fprintf(stderr, "histories: byte %lu of the input: %s\n", bytes_read, what);
    return 0;
}

static int take(void *into, size_t count)
{
    size_t got = fread(into, 1, count, stdin);
    bytes_read += got;
    return got == count || malformed("it ends within a story");
}

static uint32_t u32_of(const uint8_t *bytes)
{
    return bytes[0] | (uint32_t)bytes[1] << 8 | (uint32_t)bytes[2] << 16 | (uint32_t)bytes[3] << 24;
}

/* A number that is at most `most`. */
static int take_u32(uint32_t *number, uint32_t most)
{
    uint8_t bytes[4];
    if (!take(bytes, sizeof bytes)) {
        return 0;
    }
    *number = u32_of(bytes);
    return *number <= most || malformed("a length is above what this program can lend");
}

/* How many records, and these, with guards around them. */
static int take_records(struct fpb_change *all, size_t size, uint32_t *count)
{
    uint8_t bytes[RECORD];
    uint32_t i;
    memset(all, KEPT, size);
    if (!take_u32(count, MOST_RECORDS)) {
        return 0;
    }
    for (i = 0; i < *count; i++) {
        struct fpb_change *change = &all[GUARD + i];
        if (!take(bytes, sizeof bytes)) {
            return 0;
        }
        change->port = u32_of(bytes);
        change->part = u32_of(bytes + 4);
        change->at = u32_of(bytes + 8);
        change->old_byte = bytes[12];
        change->new_byte = bytes[13];
        if (bytes[14] != 0 || bytes[15] != 0) {
            return malformed("a record does not end in two zeros");
        }
    }
    return 1;
}

/* Notes all that is lent, for look_around. */
static void note(void)
{
    memcpy(first_before, first, sizeof first);
    memcpy(room_before, room, sizeof room);
    memcpy(run_before, run, sizeof run);
}

static void say_unless(int holds, const char *what)
{
    if (!holds) {
        printf("%s is changed\n", what);
    }
}

/* Says what is changed of all that no call may write; the room itself may be written by add. */
static void look_around(int adding, const uint32_t *now)
{
    size_t behind = GUARD + room_len;
    say_unless(memcmp(first, first_before, sizeof first) == 0, "the first picture, or what is beside it");
    say_unless(memcmp(run, run_before, sizeof run) == 0, "the run, or what is beside it");
    say_unless(adding || memcmp(room, room_before, sizeof room) == 0, "the room, or what is beside it");
    say_unless(!adding || (memcmp(room, room_before, GUARD * sizeof room[0]) == 0 &&
                           memcmp(room + behind, room_before + behind, sizeof room - behind * sizeof room[0]) == 0),
               "what is beside the room");
    say_unless(now[0] == NOT_SET && now[2] == NOT_SET, "what is beside now_kept");
}

static void add(void)
{
    uint32_t now[3] = {NOT_SET, NOT_SET, NOT_SET}, number;
    note();
    number = fpb_history_add(first + GUARD, first_len, room + GUARD, room_len, run + GUARD, run_len, kept, &now[1]);
    look_around(1, now);
    printf("add %u %u %016llx\n", number, now[1], hash_of_room());
    kept = number == FPB_CLEAR ? now[1] : kept;
}

static void wind_back(uint32_t k)
{
    uint32_t now[3] = {NOT_SET, NOT_SET, NOT_SET}, number;
    note();
    number = fpb_history_wind_back(kept, k, &now[1]);
    look_around(0, now);
    printf("back %u %u\n", number, now[1]);
    kept = number == FPB_CLEAR ? now[1] : kept;
}

/* What the check and a walk say of the version that is written. */
static void judge_version(void)
{
    uint8_t answer[FPB_ANSWER_LENGTH] = {0};
    uint32_t number = fpb_check(out + GUARD, first_len, answer, sizeof answer);
    printf(" check %u %016llx", number, hash_of(answer, sizeof answer));
    memset(answer, 0, sizeof answer);
    number = fpb_walk(out + GUARD, first_len, answer, sizeof answer, FPB_ID, FPB_HOST, 0x0108);
    printf(" walk %u %016llx", number, hash_of(answer, sizeof answer));
}

static void version(uint32_t k, uint32_t out_len)
{
    static const uint32_t now[3] = {NOT_SET, NOT_SET, NOT_SET};
    uint32_t number;
    size_t i;
    int around = 1;
    note();
    memset(out, KEPT, sizeof out);
    number = fpb_history_version(first + GUARD, first_len, room + GUARD, room_len, out + GUARD, out_len, kept, k);
    look_around(0, now);
    for (i = 0; i < sizeof out; i++) {
        around = around && (out[i] == KEPT || (i >= GUARD && i - GUARD < out_len));
    }
    say_unless(around, "what is beside the buffer");
    printf("version %u %016llx", number, hash_of(out + GUARD, out_len));
    if (number == FPB_CLEAR) {
        judge_version();
    }
    printf("\n");
}

/* What the step is, in words, for the line that is told of. */
static void tell_step(unsigned op, uint32_t k, uint32_t out_len)
{
    uint32_t i;
    printf(op == 1 ? "add %u changes\n" : op == 2 ? "wind back to %u\n" : op == 3 ? "version %u" : "kept is set to %u\n",
           op == 1 ? run_len : k);
    if (op == 3) {
        printf(" into %u bytes\n", out_len);
    }
    for (i = 0; op == 1 && i < run_len; i++) {
        const struct fpb_change *change = &run[GUARD + i];
        printf("port %u part %u at %u: %02x becomes %02x\n", change->port, change->part, change->at, change->old_byte,
               change->new_byte);
    }
}

/* Makes the call of a step, or tells of it. */
static void take_step(unsigned op, uint32_t k, uint32_t out_len)
{
    lines++;
    if (told_line != 0) {
        if (lines == told_line) {
            tell_step(op, k, out_len);
        }
    } else if (op == 1) {
        add();
    } else if (op == 2) {
        wind_back(k);
    } else if (op == 3) {
        version(k, out_len);
    } else {
        kept = k;
        printf("kept %u\n", kept);
    }
}

static int read_step(void)
{
    uint32_t k = 0, out_len = 0;
    uint8_t op;
    if (!take(&op, 1)) {
        return 0;
    }
    if (op < 1 || op > 4) {
        return malformed("there is no such step");
    }
    if (op == 1 ? !take_records(run, sizeof run, &run_len) : !take_u32(&k, UINT32_MAX)) {
        return 0;
    }
    if (op == 3 && !take_u32(&out_len, MOST_OUT)) {
        return 0;
    }
    take_step(op, k, out_len);
    return 1;
}

/* A story whose first byte is read already. */
static int read_story(uint8_t byte)
{
    uint8_t length[4] = {byte};
    uint32_t steps;
    memset(first, KEPT, sizeof first);
    memset(run, KEPT, sizeof run);
    if (!take(length + 1, 3)) {
        return 0;
    }
    first_len = u32_of(length);
    if (first_len > MOST_BYTES) {
        return malformed("a picture is longer than what this program can lend");
    }
    if (!take(first + GUARD, first_len) || !take_records(room, sizeof room, &room_len) || !take_u32(&kept, UINT32_MAX) ||
        !take_u32(&steps, UINT32_MAX)) {
        return 0;
    }
    while (steps > 0 && read_step()) {
        steps--;
    }
    return steps == 0;
}

/* Reads stories up to the end of the input, or to the one that has the line to tell of. */
static int read_stories(void)
{
    unsigned long story, from, before;
    uint8_t byte;
    for (story = 1; fread(&byte, 1, 1, stdin) == 1; story++) {
        from = bytes_read++;
        before = lines;
        if (!read_story(byte)) {
            return 0;
        }
        if (before < told_line && told_line <= lines) {
            printf("story %lu, step %lu; a first picture of %u bytes, a room of %u; bytes %lu to %lu of the input\n", story,
                   told_line - before, first_len, room_len, from, bytes_read - 1);
            return 1;
        }
    }
    return !ferror(stdin) || malformed("it cannot be read");
}

int main(int argc, char **argv)
{
    const char *at;
    for (at = argc == 2 ? argv[1] : ""; *at >= '0' && *at <= '9'; at++) {
        told_line = 10 * told_line + (unsigned long)(*at - '0');
    }
    if (argc > 2 || *at != '\0' || (argc == 2 && told_line == 0)) {
        fprintf(stderr, "usage: histories [LINE]\n");
        return 2;
    }
    if (!read_stories()) {
        return 1;
    }
    if (fflush(stdout) != 0 || ferror(stdout)) {
        fprintf(stderr, "histories: the output cannot be written\n");
        return 1;
    }
    return 0;
}
