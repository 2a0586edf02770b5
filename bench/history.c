/* history PICTURE: what adding to a long history costs, and reading a version back, as native machine code. Ten thousand changes of one
 * port's record are added one by one; then runs of several lengths are added behind them, over and over, and the last version is read
 * back. A row for each, the best of some samples. */
#include <stdio.h>
#include <string.h>
#include <time.h>

#include "fiswalend.h"

#define KEPT 10000
#define RECORDS 20000
#define FROM 6
#define BYTES 40
#define SAMPLES 25

static uint8_t picture[65537], version[65537];
static size_t length;
static struct fpb_change room[RECORDS], run[1000];
static uint32_t kept;

static double microseconds(void)
{
    struct timespec t;
    clock_gettime(CLOCK_MONOTONIC, &t);
    return t.tv_sec * 1e6 + t.tv_nsec * 1e-3;
}

/* The next changes of the record's bytes, each one more than it was. */
static void draw(size_t count)
{
    size_t i;
    for (i = 0; i < count; i++) {
        uint8_t *byte = version + 16 + FROM + i % BYTES;
        run[i].port = 0;
        run[i].part = FPB_IN_RECORD;
        run[i].at = (uint32_t)(FROM + i % BYTES);
        run[i].old_byte = *byte;
        run[i].new_byte = ++*byte;
    }
}

/* Adds a run; the best time of some samples, the number kept being put back after each. */
static double best_add(size_t count)
{
    double best = 1e12;
    int i;
    for (i = 0; i < SAMPLES; i++) {
        uint32_t now;
        double begin = microseconds(), took;
        if (fpb_history_add(picture, length, room, RECORDS, run, count, kept, &now) != FPB_CLEAR) {
            return -1;
        }
        took = microseconds() - begin;
        best = took < best ? took : best;
    }
    return best;
}

static double best_version(void)
{
    double best = 1e12;
    int i;
    for (i = 0; i < SAMPLES; i++) {
        double begin = microseconds(), took;
        fpb_history_version(picture, length, room, RECORDS, version, sizeof version, kept, kept);
        took = microseconds() - begin;
        best = took < best ? took : best;
    }
    return best;
}

static void row(const char *what, size_t count)
{
    fpb_history_version(picture, length, room, RECORDS, version, sizeof version, kept, kept);
    draw(count);
    printf("| %s | %lu | %lu | %.2f µs |\n", what, (unsigned long)count, (unsigned long)kept, best_add(count));
}

int main(int count, char **words)
{
    FILE *file = count == 2 ? fopen(words[1], "rb") : NULL;
    if (file == NULL) {
        fprintf(stderr, "usage: history PICTURE\n");
        return 2;
    }
    length = fread(picture, 1, sizeof picture, file);
    fclose(file);
    printf("| call | changes of the run | kept before | best time |\n|---|---|---|---|\n");
    row("fpb_history_add", 1);
    while (kept < KEPT) {
        fpb_history_version(picture, length, room, RECORDS, version, sizeof version, kept, kept);
        draw(1000);
        if (fpb_history_add(picture, length, room, RECORDS, run, 1000, kept, &kept) != FPB_CLEAR) {
            fprintf(stderr, "history: the picture takes no history\n");
            return 1;
        }
    }
    row("fpb_history_add", 1);
    row("fpb_history_add", 10);
    row("fpb_history_add", 100);
    row("fpb_history_add", 1000);
    printf("| fpb_history_version | | %lu | %.2f µs |\n", (unsigned long)kept, best_version());
    return 0;
}
