#include <stddef.h>
typedef struct pageoriole_stream FILE;
extern FILE *stderr;
int printf(const char *form, ...);
int fprintf(FILE *stream, const char *form, ...);
FILE *fopen(const char *name, const char *mode);
size_t fread(void *to, size_t size, size_t count, FILE *stream);
int fclose(FILE *stream);
