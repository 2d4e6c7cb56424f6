// The header from C++: a window by the name of its own, beside the call whose name its struct has.
// Ends with the line 'N passed, M failed'.
#include <imgref.h>

#include <cstdio>
#include <cstring>

static unsigned passed = 0, failed = 0;

static void count(const char *label, bool is_well) {
    ++(is_well ? passed : failed);
    std::printf("%s: %s\n", label, is_well ? "passed" : "FAILED");
}

int main() {
    uint8_t cells[9] = {1, 2, 3, 90, 4, 5, 6, 91, 92};
    const uint8_t filled[9] = {1, 0, 0, 90, 4, 0, 0, 91, 92};
    size_t start = 7, length = 7;

    imgref_rect right{1, 0, 2, 2};
    count("fill", imgref_u8_fill_window(cells, 9, 3, 2, 4, right, 0) == IMGREF_OK && !std::memcmp(cells, filled, 9));
    count("a window's cells", imgref_window(9, 3, 2, 4, right, &start, &length) == IMGREF_OK && start == 1 && length == 6);
    count("a window in braces", imgref_has_window(3, 2, {3, 2, 0, 0}) && !imgref_has_window(3, 2, {2, 0, 2, 2}));

    imgref_rect tile{};
    count("a tile", imgref_tile(3, 2, 2, 2, 1, &tile) == IMGREF_OK && tile.left == 2 && tile.top == 0 && tile.width == 1 && tile.height == 2);

    // (the name that C callers have is the same type)
    struct imgref_window old = right;
    imgref_rect *same = &old;
    count("the struct's name", imgref_has_window(3, 2, *same) && imgref_has_window(3, 2, old));

    char version[40];
    std::snprintf(version, sizeof version, "%d.%d.%d", IMGREF_VERSION_MAJOR, IMGREF_VERSION_MINOR, IMGREF_VERSION_PATCH);
    count("the version's text", !std::strcmp(version, IMGREF_VERSION));
    std::printf("%u passed, %u failed\n", passed, failed);
    return failed || !passed;
}
