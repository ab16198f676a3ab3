#include <stddef.h>
typedef struct file FILE;
extern FILE *const stdin, *const stdout, *const stderr;
#define EOF (-1)
FILE *fopen(const char *name, const char *mode); /* to read alone */
int fclose(FILE *file);
size_t fread(void *into, size_t size, size_t count, FILE *file);
size_t fwrite(const void *from, size_t size, size_t count, FILE *file);
int fflush(FILE *file);
int ferror(FILE *file);
int getchar(void);
int printf(const char *form, ...); /* %d, %u, %zu, %s, %02x and %02X */
int fprintf(FILE *file, const char *form, ...);
