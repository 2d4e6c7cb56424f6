// Hides a window of a grey picture: every pixel of it gets one value, and nothing of what was there
// is left.
//
//     hide LEFT TOP WIDTH HEIGHT [VALUE] < picture.pgm > hidden.pgm
//
// The picture is a PGM file of one byte a pixel (P5), as netpbm writes it. VALUE is 0, black, unless
// it is given. A window that isn't inside is refused by the library: the program says so, and writes
// nothing.
//
// Why no mosaic: `mosaic` leaves one pixel of each tile as it was, and `mosaic_means` leaves the mean
// of each tile. Text, a number plate or a face can be found again by such values: one renders what
// may have been there, and compares. A fill leaves only where the window is, and its size.
//
//     c++ -std=c++17 -O2 hide.cpp $(pkg-config --cflags --libs imgref) -o hide
#include <imgref.hpp>

#include <iostream>
#include <sstream>
#include <stdexcept>
#include <string>
#include <vector>

// A number of the picture's header, after white space and comments.
static std::size_t number(std::istream &in) {
    while (in >> std::ws && in.peek() == '#') in.ignore(1 << 20, '\n');
    std::size_t read = 0;
    if (!(in >> read) || read > 100000) throw std::invalid_argument("not a PGM file (P5) of one byte a pixel");
    return read;
}

static void hide(const imgref::rect &window, unsigned char value) {
    std::string magic(2, ' ');
    std::cin.read(&magic[0], 2);
    const std::size_t width = number(std::cin), height = number(std::cin), most = number(std::cin);
    if (magic != "P5" || most > 255) throw std::invalid_argument("not a PGM file (P5) of one byte a pixel");
    if (value > most) throw std::invalid_argument("the value is above the picture's greatest");
    std::cin.get();

    std::vector<unsigned char> pixels(width * height);
    std::cin.read(reinterpret_cast<char *>(pixels.data()), static_cast<std::streamsize>(pixels.size()));
    if (!std::cin) throw std::invalid_argument("the picture is cut off");

    imgref::view picture(pixels, width, height);
    picture.fill(window, value);

    std::cout << "P5\n" << width << ' ' << height << '\n' << most << '\n'; // the header of a PGM
    std::cout.write(reinterpret_cast<const char *>(pixels.data()), static_cast<std::streamsize>(pixels.size()));
    if (!std::cout.flush()) throw std::invalid_argument("not written");
}

int main(int count, char **words) {
    try {
        std::vector<std::size_t> numbers;
        for (int at = 1; at < count; ++at) {
            std::istringstream word(words[at]);
            word >> numbers.emplace_back();
            if (!word || !word.eof() || words[at][0] == '-') throw std::invalid_argument(std::string("no number: ") + words[at]);
        }
        if (numbers.size() == 4) numbers.push_back(0);
        if (numbers.size() != 5) throw std::invalid_argument("usage: hide LEFT TOP WIDTH HEIGHT [VALUE] < picture.pgm > hidden.pgm");
        if (numbers[4] > 255) throw std::invalid_argument("a value of one byte is at most 255");
        hide({numbers[0], numbers[1], numbers[2], numbers[3]}, static_cast<unsigned char>(numbers[4]));
    } catch (const std::exception &why) {
        std::cerr << "hide: " << why.what() << '\n';
        return 1;
    }
    return 0;
}
