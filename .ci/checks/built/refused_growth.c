// Loaded before a program, this refuses its growth of the number in REFUSED, counted from 1, and says so on standard error.
// A growth is a call of malloc or realloc, which are the only ones that the Rattle toolchain's programs take memory by.
extern void *__libc_malloc(unsigned long size);
extern void *__libc_realloc(void *held, unsigned long size);
extern char *getenv(const char *name);
extern long atol(const char *digits);
extern long write(int device, const void *bytes, unsigned long count);

static int is_refused(void) {
    static long wanted = -1, growths = 0;
    if (wanted < 0) {
        const char *number = getenv("REFUSED");
        wanted = number ? atol(number) : 0;
    }
    growths += 1;
    return growths == wanted && write(2, "growth refused\n", 15) == 15;
}

void *malloc(unsigned long size) {
    return is_refused() ? 0 : __libc_malloc(size);
}

void *realloc(void *held, unsigned long size) {
    return is_refused() ? 0 : __libc_realloc(held, size);
}
