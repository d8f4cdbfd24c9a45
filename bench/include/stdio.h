typedef __SIZE_TYPE__ size_t;
typedef struct FILE FILE;
extern FILE *stdin, *stdout;
#define NULL ((void *)0)
#define _IONBF 2
int setvbuf(FILE *, char *, int, size_t);
size_t fread(void *, size_t, size_t, FILE *);
size_t fwrite(const void *, size_t, size_t, FILE *);
