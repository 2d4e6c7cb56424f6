/* What a program has to do at the least with a script of one image: it reads the numbers of a line and writes them again.
 * It is compared with the script program in tools/bench.py. */
#include <stdio.h>
#include <stdlib.h>
#include <string.h>

static char *all_of_input(size_t *len) {
    size_t room = 1 << 16;
    char *text = malloc(room);
    *len = 0;
    while (text) {
        *len += fread(text + *len, 1, room - *len, stdin);
        if (*len < room) return text;
        char *more = realloc(text, room *= 2);
        if (!more) free(text);
        text = more;
    }
    return NULL;
}

int main(void) {
    size_t len, count = 0, out = 0;
    char *text = all_of_input(&len);
    unsigned *numbers = malloc((len / 2 + 1) * sizeof *numbers);
    char *written = malloc(len + 32);
    if (!text || !numbers || !written || len < 6 || memcmp(text, "image ", 6)) return 1;
    for (size_t at = 6; at < len; at++) {
        unsigned number = 0;
        for (; at < len && text[at] >= '0' && text[at] <= '9'; at++) number = 10 * number + (unsigned)(text[at] - '0');
        numbers[count++] = number;
    }
    memcpy(written, "image", 5), out = 5;
    for (size_t k = 0; k < count; k++) {
        char digits[10];
        int left = 10;
        unsigned number = numbers[k];
        do digits[--left] = (char)('0' + number % 10);
        while (number /= 10);
        written[out++] = ' ';
        memcpy(written + out, digits + left, (size_t)(10 - left)), out += (size_t)(10 - left);
    }
    written[out++] = '\n';
    return fwrite(written, 1, out, stdout) != out;
}
