// Loaded before the C library: counts the calls of memcpy and memmove by size, and writes the counts to standard error at the end.
// The kit's compiler has no headers.
typedef __SIZE_TYPE__ size_t;

int dprintf(int file, const char *format, ...);

enum { LONGEST = 1 << 17 };

static unsigned long counts[LONGEST];

static void count(size_t n) {
    counts[n < LONGEST ? n : LONGEST - 1]++;
}

void *memcpy(void *restrict to, const void *restrict from, size_t n) {
    void *answer = to;
    count(n);
    __asm__ volatile("rep movsb" : "+D"(to), "+S"(from), "+c"(n) : : "memory");
    return answer;
}

void *memmove(void *to, const void *from, size_t n) {
    void *answer = to;
    count(n);
    if ((char *)to <= (const char *)from || (const char *)from + n <= (char *)to) {
        __asm__ volatile("rep movsb" : "+D"(to), "+S"(from), "+c"(n) : : "memory");
    } else {
        to = (char *)to + n - 1;
        from = (const char *)from + n - 1;
        __asm__ volatile("std\n\trep movsb\n\tcld" : "+D"(to), "+S"(from), "+c"(n) : : "memory");
    }
    return answer;
}

__attribute__((destructor)) static void print_counts(void) {
    for (size_t n = 0; n < LONGEST; n++) {
        if (counts[n]) {
            dprintf(2, "%zu %lu\n", n, counts[n]);
        }
    }
}
