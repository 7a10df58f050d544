/* Refuses one allocation of the program that LD_PRELOAD loads it into. The variable `REFUSE` has the number of
   that allocation, counted from 1 after the program's start. Then it writes a byte to the descriptor whose number
   is in `REPORT`. It needs no header, only the C library's own names of the functions that it replaces. */
typedef __SIZE_TYPE__ size_t;

void *__libc_malloc(size_t);
void *__libc_calloc(size_t, size_t);
void *__libc_realloc(void *, size_t);
void *__libc_memalign(size_t, size_t);
char *getenv(const char *);
long strtol(const char *, char **, int);
long write(int, const void *, size_t);
void free(void *);

static long until;
static int says;

__attribute__((constructor)) static void start(void) {
    const char *number = getenv("REFUSE"), *descriptor = getenv("REPORT");
    until = number ? strtol(number, 0, 10) : 0;
    says = descriptor ? (int)strtol(descriptor, 0, 10) : -1;
}

static int is_refused(void) {
    if (until == 0 || --until > 0)
        return 0;
    return write(says, "", 1) == 1;
}

void *malloc(size_t size) { return is_refused() ? 0 : __libc_malloc(size); }

void *calloc(size_t count, size_t size) { return is_refused() ? 0 : __libc_calloc(count, size); }

void *realloc(void *old, size_t size) { return is_refused() ? 0 : __libc_realloc(old, size); }

void *aligned_alloc(size_t alignment, size_t size) { return is_refused() ? 0 : __libc_memalign(alignment, size); }

int posix_memalign(void **place, size_t alignment, size_t size) {
    void *found = aligned_alloc(alignment, size);
    if (!found)
        return 12; /* ENOMEM */
    *place = found;
    return 0;
}
