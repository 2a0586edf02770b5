/* What the C of this repository uses of stdio.h, for the kit's clang, which comes with no headers. */
#ifndef SHIM_STDIO_H
#define SHIM_STDIO_H
#include <stddef.h>
#ifdef __cplusplus
extern "C" {
#endif
typedef struct shim_file FILE;
extern FILE *stdin;
extern FILE *stdout;
extern FILE *stderr;
FILE *fopen(const char *name, const char *mode);
size_t fread(void *into, size_t size, size_t count, FILE *from);
char *fgets(char *into, int size, FILE *from);
int ferror(FILE *file);
int fflush(FILE *file);
int fclose(FILE *file);
int printf(const char *format, ...);
int fprintf(FILE *to, const char *format, ...);
int snprintf(char *into, size_t size, const char *format, ...);
#ifdef __cplusplus
}
#endif
#endif
