// Plays the run text on standard input and prints its report, from C++.
//
// Build, where the library is installed:
//   c++ -std=c++17 -O2 -o play play.cpp $(pkg-config --cflags --libs funkenrille)
//
// Status: 0 the report was printed; 3 the text is too long (refusal 23); 4 something could not be read or written.
#include <iostream>
#include <iterator>
#include <optional>
#include <string>

#include <funkenrille.h>

// The report of a text, or nothing where the text is too long.
static std::optional<std::string> report(const std::string &text)
{
    std::string room(FUNKENRILLE_REPORT_MAX, '\0');
    const auto bytes = reinterpret_cast<const std::uint8_t *>(text.data());
    const auto place = reinterpret_cast<std::uint8_t *>(room.data());
    const std::size_t length = funkenrille_report(bytes, text.size(), place, room.size());
    if (length == 0)
        return std::nullopt;
    room.resize(length);
    return room;
}

int main()
{
    const std::string text{std::istreambuf_iterator<char>(std::cin), {}};
    if (std::cin.bad()) {
        std::cerr << "play: standard input cannot be read\n";
        return 4;
    }
    const auto made = report(text);
    if (!made) {
        std::cerr << "play: refusal 23: the text is longer than " << FUNKENRILLE_TEXT_MAX << " bytes\n";
        return 3;
    }
    if (!(std::cout << *made << std::flush)) {
        std::cerr << "play: standard output cannot be written\n";
        return 4;
    }
    return 0;
}
