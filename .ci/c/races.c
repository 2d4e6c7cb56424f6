/* The calls whose loops or tables go by pixels, while another process changes these pixels. Results are unspecified then, but no
 * call writes outside its buffers. Every buffer ends at a page that can't be touched, and each call is tried in a
 * process of its own, so that a write outside is told. Prints 'N passed, M failed' last. */
#define _DEFAULT_SOURCE
#include <imgref.h>
#include <signal.h>
#include <stdio.h>
#include <stdlib.h>
#include <string.h>
#include <sys/mman.h>
#include <sys/wait.h>
#include <time.h>
#include <unistd.h>

enum { SIDE = 64, PLACES = SIDE * SIDE, SECONDS = 1 };

/* So many bytes, shared with children, that end at a page which can't be touched. */
static void *guarded(size_t bytes) {
    const size_t page = (size_t)sysconf(_SC_PAGESIZE), room = (bytes + page - 1) / page * page;
    char *made = mmap(NULL, room + page, PROT_READ | PROT_WRITE, MAP_SHARED | MAP_ANONYMOUS, -1, 0);
    if (made == MAP_FAILED || mprotect(made + room, page, PROT_NONE)) exit(2);
    return made + room - bytes;
}

static uint8_t *bytes, *few, *copied;
static uint16_t *words;
static uint32_t *box_sums;
static uint64_t *labels, *counts;
static size_t *room;

static void floods(void) {
    (void)imgref_u8_flood_fill(bytes, PLACES, SIDE, SIDE, SIDE, SIDE / 2, SIDE / 2, 7, room, PLACES);
}

static void floods_of_words(void) {
    (void)imgref_u16_flood_fill(words, PLACES, SIDE, SIDE, SIDE, SIDE / 2, SIDE / 2, 7, room, PLACES);
}

static void regions(void) {
    uint64_t count;
    (void)imgref_u8_components(bytes, PLACES, SIDE, SIDE, SIDE, labels, PLACES, SIDE, room, PLACES, &count);
}

static void regions_of_words(void) {
    uint64_t count;
    (void)imgref_u16_components(words, PLACES, SIDE, SIDE, SIDE, labels, PLACES, SIDE, room, PLACES, &count);
}

/* Few places that change all the time: a place that is read twice may show two pixels, and the room is soon full. */
static void floods_of_four(void) {
    (void)imgref_u8_flood_fill(few, 4, 2, 2, 2, 0, 0, 7, room + PLACES - 4, 4);
}

static void regions_of_four(void) {
    uint64_t count;
    (void)imgref_u8_components(few, 4, 2, 2, 2, labels, 4, 2, room + PLACES - 4, 4, &count);
}

static void boxes(void) {
    imgref_rect around;
    (void)imgref_u8_bounding_box(bytes, PLACES, SIDE, SIDE, SIDE, 1, &around);
    if (around.left + around.width > SIDE || around.top + around.height > SIDE) abort();
}

static void histograms(void) { (void)imgref_u8_histogram(bytes, PLACES, SIDE, SIDE, SIDE, counts + 65536 - 256); }

static void histograms_of_words(void) { (void)imgref_u16_histogram(words, PLACES, SIDE, SIDE, SIDE, counts); }

static void equalized(void) { (void)imgref_u8_equalize(bytes, PLACES, SIDE, SIDE, SIDE); }

static void sums(void) { (void)imgref_u8_integral(bytes, PLACES, SIDE, SIDE, SIDE, labels, PLACES, SIDE); }

static void counted(void) {
    const imgref_rect all = {0, 0, SIDE, SIDE};
    const uint8_t one = 1;
    size_t found;
    (void)imgref_u8_count(bytes, PLACES, SIDE, SIDE, SIDE, all, &one, 1, &found);
    if (found > PLACES) abort();
}

static void means(void) {
    const imgref_rect all = {0, 0, SIDE, SIDE};
    (void)imgref_u8_mosaic_means(bytes, PLACES, SIDE, SIDE, SIDE, 1, all, 5, 7);
}

/* (the room ends at pages that can't be touched) */
static void blurs(void) {
    const imgref_rect all = {0, 0, SIDE, SIDE};
    (void)imgref_u8_blur(bytes, PLACES, SIDE, SIDE, SIDE, 1, all, 2, 5, copied, PLACES, box_sums, SIDE);
}

/* Another process: pixels become 0 again and again, or change one by one. */
static void others_zero(void) {
    for (;;) {
        memset(bytes, 0, PLACES);
        memset(words, 0, PLACES * sizeof *words);
    }
}

static void others_change(void) {
    for (unsigned k = 1;; k = k * 1664525u + 1013904223u) {
        volatile uint8_t *byte = bytes + k / 7 % PLACES;
        volatile uint16_t *word = words + k / 7 % PLACES;
        *byte ^= 1;
        *word ^= 1;
    }
}

static void others_change_four(void) {
    for (;;)
        for (size_t k = 0; k < 4; k++) ((volatile uint8_t *)few)[k] ^= 1;
}

static pid_t started(void (*work)(void)) {
    const pid_t made = fork();
    if (made < 0) exit(2);
    if (!made) work();
    return made;
}

/* Calls as often as there is time for. */
static void (*tried)(void);
static void calls(void) {
    const time_t end = time(NULL) + SECONDS;
    alarm(20 * SECONDS);
    while (time(NULL) <= end)
        for (int k = 0; k < 20; k++) tried();
    _exit(0);
}

int main(void) {
    static const struct {
        const char *name;
        void (*call)(void);
    } all[] = {
        {"flood_fill", floods},         {"flood_fill of words", floods_of_words},
        {"components", regions},        {"components of words", regions_of_words},
        {"flood_fill of four places", floods_of_four},
        {"components of four places", regions_of_four},
        {"bounding_box", boxes},        {"histogram", histograms},
        {"histogram of words", histograms_of_words},
        {"equalize", equalized},        {"integral", sums},
        {"count", counted},             {"mosaic_means", means},
        {"blur", blurs},
    };
    unsigned passed = 0, failed = 0;
    bytes = guarded(PLACES);
    words = guarded(PLACES * sizeof *words);
    labels = guarded(PLACES * sizeof *labels);
    few = guarded(4);
    copied = guarded(PLACES);
    box_sums = guarded(SIDE * sizeof *box_sums);
    counts = guarded(65536 * sizeof *counts);
    room = guarded(PLACES * sizeof *room);
    void (*const others[])(void) = {others_zero, others_change, others_change_four};
    const char *const what[] = {"become 0", "change", "change without a pause"};
    for (size_t k = 0; k < sizeof all / sizeof *all; k++)
        for (size_t n = strstr(all[k].name, "four") ? 2 : 0; n < (strstr(all[k].name, "four") ? 3 : 2); n++) {
            int status = 1;
            const pid_t other = started(others[n]);
            tried = all[k].call;
            const pid_t caller = started(calls);
            waitpid(caller, &status, 0);
            kill(other, SIGKILL);
            waitpid(other, NULL, 0);
            const bool is_well = WIFEXITED(status) && !WEXITSTATUS(status);
            is_well ? passed++ : failed++;
            printf("%s while pixels %s: %s%s\n", all[k].name, what[n], is_well ? "passed" : "FAILED: ", is_well ? "" : WIFSIGNALED(status) ? strsignal(WTERMSIG(status)) : "status");
            fflush(stdout);
        }
    printf("%u passed, %u failed\n", passed, failed);
    return failed || !passed;
}
