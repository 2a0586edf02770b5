/* What the test programs share: the picture that is lent, and the count of tests. */
#ifndef COMMON_H
#define COMMON_H

#include <stdio.h>
#include <string.h>

#include "fiswalend.h"

#define KEPT 0xA5
#define COUNT(of) (sizeof(of) / sizeof((of)[0]))

static uint8_t picture[65537];
static uint8_t picture_before[65537];
static size_t picture_len;
static unsigned passed, failed;

/* Counts one test, and gives it back. */
static int counted(int holds)
{
    ++*(holds ? &passed : &failed);
    return holds;
}

/* The last line, and the status of the program. */
static int told(void)
{
    printf("%u passed, %u failed\n", passed, failed);
    return failed != 0;
}

/* Notes the picture as it is, for picture_kept. */
static void keep_picture(void)
{
    memcpy(picture_before, picture, sizeof picture);
}

static int picture_kept(void)
{
    return memcmp(picture, picture_before, sizeof picture) == 0;
}

static void load(const char *folder, const char *sample)
{
    char name[512];
    FILE *file;
    snprintf(name, sizeof name, "%s/%s.picture", folder, sample);
    file = fopen(name, "rb");
    picture_len = 0;
    if (!counted(file != NULL)) {
        printf("%s cannot be opened\n", name);
        return;
    }
    picture_len = fread(picture, 1, sizeof picture, file);
    fclose(file);
    keep_picture();
}

/* Little-endian, 4 bytes. */
static void put_u32(uint8_t *at, uint32_t number)
{
    int i;
    for (i = 0; i < 4; i++) {
        at[i] = (uint8_t)(number >> 8 * i & 255);
    }
}

/* Where the record of a port begins, by the edition of the picture that is lent. */
static uint32_t record_at(uint32_t port)
{
    uint32_t edition = picture[0] | (uint32_t)picture[1] << 8;
    return 16 + (edition == 2 ? 60 : 56) * port;
}

/* Begins a picture anew: the header for so many ports and bytes of vectors, and zeros behind it. */
static void lay_header(uint32_t edition, uint32_t count, uint32_t vectors)
{
    memset(picture, 0, sizeof picture);
    put_u32(picture, edition | count << 16);
    picture_len = record_at(count) + vectors;
    put_u32(picture + 4, (uint32_t)picture_len);
    put_u32(picture + 8, 16);
    put_u32(picture + 12, record_at(count));
}

#endif
