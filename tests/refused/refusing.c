/* Refuses one request for memory of the program that it is loaded into, and grants all others.

   REFUSED says which, counted from 1. When it comes, a byte is written to the descriptor that TOLD names.
   tests/memory builds this and loads it. It needs no header, so that the kit's own compiler builds it. */

typedef __SIZE_TYPE__ size_t;

extern void *__libc_malloc(size_t size);
extern void *__libc_realloc(void *old, size_t size);
extern char *getenv(const char *name);
extern int atoi(const char *number);
extern long write(int to, const void *bytes, size_t count);

static int number_of(const char *name) {
    const char *number = getenv(name);
    return number ? atoi(number) : 0;
}

static int is_refused(void) {
    static int requests = 0;
    requests += 1;
    if (requests != number_of("REFUSED")) {
        return 0;
    }
    write(number_of("TOLD"), "!", 1);
    return 1;
}

void *malloc(size_t size) {
    return is_refused() ? 0 : __libc_malloc(size);
}

void *realloc(void *old, size_t size) {
    return is_refused() ? 0 : __libc_realloc(old, size);
}
