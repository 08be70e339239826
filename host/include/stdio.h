#ifndef BF_STDIO_H
#define BF_STDIO_H
typedef struct _IO_FILE FILE;
extern FILE *stdout;
int printf(const char *format, ...) __attribute__((format(printf, 1, 2)));
int fflush(FILE *stream);
#endif
