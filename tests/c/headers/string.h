/* What the C of this repository uses of string.h, for the kit's clang, which comes with no headers. */
#ifndef SHIM_STRING_H
#define SHIM_STRING_H
#include <stddef.h>
#ifdef __cplusplus
extern "C" {
#endif
void *memcpy(void *to, const void *from, size_t count);
void *memset(void *to, int byte, size_t count);
int memcmp(const void *a, const void *b, size_t count);
int strcmp(const char *a, const char *b);
int strncmp(const char *a, const char *b, size_t count);
#ifdef __cplusplus
}
#endif
#endif
