/* Puts a picture into the middle of a larger frame, with black bars round it.
 *
 *     letterbox WIDTH HEIGHT < picture.ppm > frame.ppm
 *
 * The picture is a PGM or PPM file of one byte a sample (P5 or P6), as netpbm writes it; one that doesn't fit into the frame is
 * cut in its middle. A pixel of a PPM is three cells of one byte, so columns are counted in samples here.
 *
 *     cc -O2 letterbox.c $(pkg-config --cflags --libs imgref) -o letterbox */
#include <imgref.h>

#include <stdio.h>
#include <stdlib.h>

static void fail(const char *why) {
    fprintf(stderr, "letterbox: %s\n", why);
    exit(1);
}

/* A number of the picture's header, after white space and comments. */
static size_t number(void) {
    int c = getchar();
    while (c == ' ' || c == '\t' || c == '\r' || c == '\n' || c == '#') {
        if (c == '#')
            while (c != '\n' && c != EOF) c = getchar();
        c = getchar();
    }
    size_t read = 0;
    if (c < '0' || c > '9') fail("no number where the header has one");
    for (; c >= '0' && c <= '9' && read < 1000000; c = getchar()) read = 10 * read + (size_t)(c - '0');
    return read;
}

static uint8_t *room(size_t cells) {
    uint8_t *made = calloc(cells ? cells : 1, 1);
    if (!made) fail("out of memory");
    return made;
}

int main(int count, char **words) {
    if (count != 3) fail("usage: letterbox WIDTH HEIGHT < picture.ppm > frame.ppm");
    size_t wide = strtoul(words[1], NULL, 10), high = strtoul(words[2], NULL, 10);
    if (!wide || !high || wide > 100000 || high > 100000) fail("a frame has 1 to 100000 columns and rows");

    int magic = getchar() == 'P' ? getchar() : EOF;
    if (magic != '5' && magic != '6') fail("not a PGM or PPM file (P5 or P6)");
    size_t samples = magic == '6' ? 3 : 1, width = number(), height = number();
    if (number() != 255 || width > 100000 || height > 100000) fail("not of one byte a sample, or too large");

    size_t stride = samples * width, frame_stride = samples * wide;
    uint8_t *picture = room(stride * height), *frame = room(frame_stride * high);
    if (fread(picture, 1, stride * height, stdin) != stride * height) fail("the picture is cut off");

    /* The part of the picture that is shown, and the window of the frame that shows it: both in samples. */
    size_t columns = width < wide ? width : wide, rows = height < high ? height : high;
    imgref_rect shown = {samples * ((width - columns) / 2), (height - rows) / 2, samples * columns, rows};
    imgref_rect target = {samples * ((wide - columns) / 2), (high - rows) / 2, samples * columns, rows};
    imgref_rect all = {0, 0, frame_stride, high};

    /* A window of the picture is an image over the same memory: its cells begin at `start`, and its stride is the picture's.
     * A picture of no column has the stride 1, the least that there is. */
    size_t start, len;
    stride += !stride;
    if (imgref_u8_fill_window(frame, frame_stride * high, frame_stride, high, frame_stride, all, 0) != IMGREF_OK ||
        imgref_window(samples * width * height, samples * width, height, stride, shown, &start, &len) != IMGREF_OK ||
        imgref_u8_copy_window(frame, frame_stride * high, frame_stride, high, frame_stride, target, picture + start, len, shown.width,
                              shown.height, stride) != IMGREF_OK)
        fail("refused");

    printf("P%c\n%zu %zu\n255\n", magic, wide, high);
    if (fwrite(frame, 1, frame_stride * high, stdout) != frame_stride * high || fflush(stdout)) fail("not written");
    free(picture);
    free(frame);
    return 0;
}
