/* Stands in front of malloc and realloc: counts the requests, refuses one of them, and tells the count in the end. */
#define _GNU_SOURCE
#include <dlfcn.h>
#include <errno.h>
#include <stdio.h>
#include <stdlib.h>
static unsigned long count, refused;
static const char *told;
static void *(*give)(size_t), *(*regive)(void *, size_t);
__attribute__((constructor)) static void begin(void) {
    give = dlsym(RTLD_NEXT, "malloc");
    regive = dlsym(RTLD_NEXT, "realloc");
    told = getenv("REFUSE_COUNT");
    const char *word = getenv("REFUSE_AT");
    refused = word ? strtoul(word, 0, 10) : 0;
    count = 0;
}
__attribute__((destructor)) static void end(void) {
    if (!told) return;
    unsigned long all = count;
    refused = 0;
    FILE *file = fopen(told, "w");
    if (file) { fprintf(file, "%lu", all); fclose(file); }
}
void *malloc(size_t size) {
    if (++count == refused) { errno = ENOMEM; return 0; }
    if (!give) give = dlsym(RTLD_NEXT, "malloc");
    return give(size);
}
void *realloc(void *old, size_t size) {
    if (++count == refused) { errno = ENOMEM; return 0; }
    if (!regive) regive = dlsym(RTLD_NEXT, "realloc");
    return regive(old, size);
}
