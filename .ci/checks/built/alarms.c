// Loaded before a program, this sends it SIGALRM every millisecond. The handler does nothing, and each call that waits for a pipe
// ends with EINTR.
extern void (*signal(int number, void (*handler)(int)))(int);
extern int siginterrupt(int number, int is_ended);
extern int setitimer(int clock, const long *every, long *before);

// The number of SIGALRM, and the clock of real time.
enum { ALARM = 14, REAL = 0 };

static void passed(int number) {
    (void)number;
}

__attribute__((constructor)) static void begin(void) {
    // (seconds and microseconds, of the time between two signals and of that until the first)
    static const long every[4] = {0, 1000, 0, 1000};
    signal(ALARM, passed);
    siginterrupt(ALARM, 1);
    setitimer(REAL, every, 0);
}
