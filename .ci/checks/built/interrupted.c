// Loaded before a program, this lets a signal interrupt each second call that reads or writes: it returns EINTR.
extern long __read(int device, void *bytes, unsigned long count);
extern long __write(int device, const void *bytes, unsigned long count);
extern int *__errno_location(void);

static int is_interrupted(void) {
    static long calls = 0;
    calls += 1;
    if (calls % 2 == 0)
        return 0;
    *__errno_location() = 4;
    return 1;
}

long read(int device, void *bytes, unsigned long count) {
    return is_interrupted() ? -1 : __read(device, bytes, count);
}

long write(int device, const void *bytes, unsigned long count) {
    return is_interrupted() ? -1 : __write(device, bytes, count);
}
