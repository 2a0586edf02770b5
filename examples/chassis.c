/* chassis PICTURE [KIND START TARGET]: what the judge says of a picture file, and where one packet goes in it. For a target that is
 * held twice, astray, or taken by the port above, it says by what each port holds it.
 * KIND is id, address or config; START is host or a device port's number; TARGET is hexadecimal, with or without 0x.
 * Status: 0 clear, and the packet comes to its end; 1 refused, Unsupported Request or doubled; 2 an argument, the file or the
 * output will not do. */
#include <stdio.h>
#include <string.h>

#include "fiswalend.h"

#define WILL_NOT_DO 2

/* One byte more than the longest picture, so that a longer file is seen to be too long. */
static uint8_t picture[65537];

static const char *const kinds[] = {"id", "address", "config"};
static const char *const ends[] = {"none", "device", "function", "host", "unsupported request", "doubled"};
static const char *const decoders[] = {"bus", "rid", "mem", "pref", "low", "high", "vga"};

struct packet {
    uint32_t kind, start;
    uint64_t target;
};

static void print_ports(const uint8_t *answer, const char *before)
{
    if (answer[FPB_AT_PORT] != FPB_NO_PORT) {
        printf("%sport %u", before, answer[FPB_AT_PORT]);
    }
    if (answer[FPB_AT_SECOND_PORT] != FPB_NO_PORT) {
        printf(" and port %u", answer[FPB_AT_SECOND_PORT]);
    }
}

/* Whether the number gives a least target, which the ports that it names hold. */
static int has_target(uint32_t number)
{
    return (number >= FPB_SHARED_ID && number <= FPB_STRAY_ADDRESS) || number == FPB_TAKEN_ID;
}

static void print_number(uint32_t number, const uint8_t *answer)
{
    printf("number %u, %s", number, fpb_number_text(number));
    print_ports(answer, "; ");
    if (has_target(number)) {
        printf(", least target %llx", (unsigned long long)fpb_least_target(answer));
    }
    printf("\n");
}

/* The own ID of a port, which is in its record: of 56 bytes, or of 60 if the picture's edition is 2. */
static uint64_t own_id(uint32_t port)
{
    size_t record_length = picture[0] + 256u * picture[1] == 2 ? 60 : 56;
    const uint8_t *at = picture + 16 + record_length * port + 2;
    return at[0] + 256u * at[1];
}

/* Prints by what a port holds a target: as its own ID, by its decoders, or both. */
static void print_hold(size_t length, uint32_t port, uint32_t kind, uint64_t target)
{
    uint32_t claimed;
    size_t i;
    if (fpb_claim(picture, length, port, kind, target, &claimed) != FPB_CLEAR) {
        return;
    }
    printf("port %u holds it by%s", port, kind == FPB_ID && own_id(port) == target ? " own" : "");
    for (i = 0; i < sizeof decoders / sizeof decoders[0]; i++) {
        if ((claimed >> i & 1) != 0) {
            printf(" %s", decoders[i]);
        }
    }
    printf("\n");
}

/* Prints by what the ports hold the target that the check names with 11 to 14 or 18; one that claims its own ID is named twice. */
static void print_holds(size_t length, uint32_t number, const uint8_t *answer)
{
    uint8_t port = answer[FPB_AT_PORT], second = answer[FPB_AT_SECOND_PORT];
    uint32_t kind = number == FPB_SHARED_ADDRESS || number == FPB_STRAY_ADDRESS ? FPB_ADDRESS : FPB_ID;
    print_hold(length, port, kind, fpb_least_target(answer));
    if (second != FPB_NO_PORT && second != port) {
        print_hold(length, second, kind, fpb_least_target(answer));
    }
}

/* Prints the check, and says whether it is clear. */
static int print_check(size_t length)
{
    uint8_t answer[FPB_ANSWER_LENGTH];
    uint32_t number = fpb_check(picture, length, answer, sizeof answer);
    printf("check: ");
    if (number == FPB_CLEAR) {
        printf("clear\n");
        return 1;
    }
    print_number(number, answer);
    if (has_target(number)) {
        print_holds(length, number, answer);
    }
    return 0;
}

/* Prints the walk, and says whether it comes to a device, a Function or the host. */
static int print_walk(size_t length, const struct packet *packet)
{
    uint8_t answer[FPB_ANSWER_LENGTH];
    uint32_t number = fpb_walk(picture, length, answer, sizeof answer, packet->kind, packet->start, packet->target);
    size_t i;
    printf("walk: ");
    if (number != FPB_CLEAR) {
        print_number(number, answer);
        return 0;
    }
    printf("%s", ends[answer[FPB_AT_END]]);
    print_ports(answer, " ");
    if (packet->kind == FPB_CONFIG && answer[FPB_AT_END] == FPB_END_DEVICE) {
        printf(" Function %u", answer[FPB_AT_FUNCTION]);
    }
    printf(", crossing");
    for (i = 0; i < answer[FPB_AT_CROSSINGS]; i++) {
        printf(" %u", fpb_crossed(answer, i));
    }
    printf("%s\n", answer[FPB_AT_CROSSINGS] == 0 ? " nothing" : "");
    return answer[FPB_AT_END] != FPB_END_UNSUPPORTED && answer[FPB_AT_END] != FPB_END_DOUBLED;
}

/* The value of a digit, 16 for anything else. */
static unsigned digit_of(char c)
{
    if (c >= '0' && c <= '9') {
        return (unsigned)(c - '0');
    }
    if (c >= 'a' && c <= 'f') {
        return (unsigned)(c - 'a') + 10;
    }
    return c >= 'A' && c <= 'F' ? (unsigned)(c - 'A') + 10 : 16;
}

/* Whether a word is digits of a base and nothing else, and its value at most `most`; the value. */
static int number_of(const char *word, unsigned base, uint64_t most, uint64_t *value)
{
    const char *at;
    *value = 0;
    for (at = word; *at != '\0'; at++) {
        unsigned digit = digit_of(*at);
        if (digit >= base || *value > (most - digit) / base) {
            return 0;
        }
        *value = *value * base + digit;
    }
    return at != word;
}

static int kind_of(const char *word, uint32_t *kind)
{
    for (*kind = FPB_ID; *kind <= FPB_CONFIG; ++*kind) {
        if (strcmp(word, kinds[*kind]) == 0) {
            return 1;
        }
    }
    return 0;
}

/* The number that fpb_walk takes for the host is no port's, so that it is not taken from a word. */
static int start_of(const char *word, uint32_t *start)
{
    uint64_t port;
    if (strcmp(word, "host") == 0) {
        *start = FPB_HOST;
        return 1;
    }
    if (!number_of(word, 10, UINT32_MAX, &port) || port == FPB_HOST) {
        return 0;
    }
    *start = (uint32_t)port;
    return 1;
}

static int target_of(const char *word, uint64_t *target)
{
    return number_of(strncmp(word, "0x", 2) == 0 ? word + 2 : word, 16, UINT64_MAX, target);
}

/* Reads KIND START TARGET, and says which of them will not do. */
static int read_packet(char **words, struct packet *packet)
{
    if (!kind_of(words[0], &packet->kind)) {
        fprintf(stderr, "chassis: KIND is '%s': id, address or config is wanted\n", words[0]);
        return 0;
    }
    if (!start_of(words[1], &packet->start)) {
        fprintf(stderr, "chassis: START is '%s': host or a device port's number, in decimal digits, is wanted\n", words[1]);
        return 0;
    }
    if (!target_of(words[2], &packet->target)) {
        fprintf(stderr, "chassis: TARGET is '%s': a hexadecimal number of at most 64 bits is wanted\n", words[2]);
        return 0;
    }
    return 1;
}

static int read_picture(const char *name, size_t *length)
{
    FILE *file = fopen(name, "rb");
    int read;
    if (file == NULL) {
        fprintf(stderr, "chassis: %s cannot be opened\n", name);
        return 0;
    }
    *length = fread(picture, 1, sizeof picture, file);
    read = !ferror(file);
    fclose(file);
    if (!read) {
        fprintf(stderr, "chassis: %s cannot be read\n", name);
    }
    return read;
}

int main(int argc, char **argv)
{
    struct packet packet;
    size_t length;
    int good;
    if (argc != 2 && argc != 5) {
        fprintf(stderr, "usage: chassis PICTURE [id|address|config host|PORT TARGET]\n");
        return WILL_NOT_DO;
    }
    if ((argc == 5 && !read_packet(argv + 2, &packet)) || !read_picture(argv[1], &length)) {
        return WILL_NOT_DO;
    }
    good = print_check(length);
    if (argc == 5) {
        good = print_walk(length, &packet) && good;
    }
    if (fflush(stdout) != 0 || ferror(stdout)) {
        fprintf(stderr, "chassis: the output cannot be written\n");
        return WILL_NOT_DO;
    }
    return good ? 0 : 1;
}
