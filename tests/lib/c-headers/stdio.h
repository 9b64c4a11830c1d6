/* Of the C library's header, what host/ uses: the kit's compiler comes without headers. */
#ifndef KIT_STDIO_H
#define KIT_STDIO_H

typedef struct _IO_FILE FILE;

extern FILE *stderr;

int printf(const char *restrict format, ...);
int fprintf(FILE *restrict file, const char *restrict format, ...);
int sscanf(const char *restrict text, const char *restrict format, ...);

FILE *fopen(const char *restrict path, const char *restrict mode);
char *fgets(char *restrict line, int size, FILE *restrict file);
int fclose(FILE *file);

#endif
