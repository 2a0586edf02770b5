/* history PICTURE: keeps the settings of a chassis as numbered versions: adds changes, winds back, adds others, and says what each
 * version is. The changes are for samples/shared-granule.picture, a switch with a device below each of its ports 2 and 3; with
 * another picture it says which run is refused, and why.
 * Status: 0 every step went as it should; 1 one did not; 2 the argument, the file or the output will not do. */
#include <stdio.h>

#include "fiswalend.h"

#define WILL_NOT_DO 2
#define COUNT(of) (sizeof(of) / sizeof((of)[0]))

/* A history: the first picture, the room for changes, and how many of these are kept. There is one byte more than the longest
 * picture has, so that a longer file is seen to be too long. */
static uint8_t first[65537];
static size_t first_len;
static struct fpb_change room[4];
static uint32_t kept;

static const char *const ends[] = {"none", "device", "function", "host", "unsupported request", "doubled"};

/* Entry 5 of its MEM Low vector, bit 5 of the first byte of its vectors. */
static const struct fpb_change give_up[] = {{3, FPB_IN_VECTORS, 0, 0x20, 0x00}};

/* Secondary and Subordinate Bus Number, at 6 and 7 of its record. */
static const struct fpb_change wrong_bus[] = {{3, FPB_IN_RECORD, 6, 4, 3}, {3, FPB_IN_RECORD, 7, 4, 3}};
static const struct fpb_change too_late[] = {{3, FPB_IN_RECORD, 7, 3, 4}};

/* Its kind: 2 is a switch downstream port, and 9 is nothing. */
static const struct fpb_change exchange[] = {{3, FPB_IN_RECORD, 0, 2, 9}, {3, FPB_IN_RECORD, 0, 9, 2}};

/* Adds a run, and says whether it was added; one that is refused leaves the history as it was. */
static int add(const char *what, const struct fpb_change *run, size_t count)
{
    uint32_t number = fpb_history_add(first, first_len, room, COUNT(room), run, count, kept, &kept);
    if (number != FPB_CLEAR) {
        printf("refused, %s: number %u, %s\n", what, number, fpb_number_text(number));
        return 0;
    }
    printf("added, %s: version %u is the last\n", what, kept);
    return 1;
}

static int wind_back(uint32_t k)
{
    uint32_t number = fpb_history_wind_back(kept, k, &kept);
    if (number != FPB_CLEAR) {
        printf("refused, to wind back to version %u: number %u, %s\n", k, number, fpb_number_text(number));
        return 0;
    }
    printf("wound back to version %u\n", k);
    return 1;
}

/* What the check and the walk say of the bytes of a version: whether it is sound, and where the host's packet for an ID goes. */
static void print_version(uint32_t k, const uint8_t *version, size_t length)
{
    uint8_t answer[FPB_ANSWER_LENGTH];
    uint32_t number = fpb_check(version, length, answer, sizeof answer);
    printf("  version %u: %s", k, fpb_number_text(number));
    if (answer[FPB_AT_PORT] != FPB_NO_PORT) {
        printf(" (port %u)", answer[FPB_AT_PORT]);
    }
    if (fpb_walk(version, length, answer, sizeof answer, FPB_ID, FPB_HOST, 0x0400) == FPB_CLEAR) {
        printf("; ID 0400 goes to %s", ends[answer[FPB_AT_END]]);
        if (answer[FPB_AT_PORT] != FPB_NO_PORT) {
            printf(" port %u", answer[FPB_AT_PORT]);
        }
    }
    printf("\n");
}

/* Reads every version back and prints it. */
static int print_versions(void)
{
    static uint8_t version[65536];
    uint32_t k, number;
    for (k = 0; k <= kept; k++) {
        number = fpb_history_version(first, first_len, room, COUNT(room), version, sizeof version, kept, k);
        if (number != FPB_CLEAR) {
            printf("refused, version %u: number %u, %s\n", k, number, fpb_number_text(number));
            return 0;
        }
        print_version(k, version, first_len);
    }
    return 1;
}

/* The history. The fourth run was made for version 3, which is gone by then, so that it must be refused. */
static int keep_history(void)
{
    return add("port 3 gives up the MiB that port 2 has too", give_up, COUNT(give_up)) &&
           add("port 3 gets bus 3, by mistake", wrong_bus, COUNT(wrong_bus)) && print_versions() && wind_back(1) &&
           !add("port 3 gets bus 4 back", too_late, COUNT(too_late)) &&
           add("the card of port 3 is exchanged", exchange, COUNT(exchange)) && print_versions();
}

static int read_first(const char *name)
{
    FILE *file = fopen(name, "rb");
    int read;
    if (file == NULL) {
        fprintf(stderr, "history: %s cannot be opened\n", name);
        return 0;
    }
    first_len = fread(first, 1, sizeof first, file);
    read = !ferror(file);
    fclose(file);
    if (!read) {
        fprintf(stderr, "history: %s cannot be read\n", name);
    }
    return read;
}

int main(int argc, char **argv)
{
    int good;
    if (argc != 2) {
        fprintf(stderr, "usage: history PICTURE\n");
        return WILL_NOT_DO;
    }
    if (!read_first(argv[1])) {
        return WILL_NOT_DO;
    }
    good = keep_history();
    if (fflush(stdout) != 0 || ferror(stdout)) {
        fprintf(stderr, "history: the output cannot be written\n");
        return WILL_NOT_DO;
    }
    return good ? 0 : 1;
}
