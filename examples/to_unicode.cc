// Makes the ToUnicode CMap of a font that has some glyphs of another one.
//
//     to_unicode CODE=TEXT..
//
// It prints a CMap file by which each code of two bytes, in hexadecimal digits, has its text, such as for
// `to_unicode 1=R 2=é 3=s 4=ffi`. Texts are in UTF-8.
#include <hayro_cmap.hpp>
#include <iostream>
#include <stdexcept>
#include <string>
#include <vector>

// The declaration of a word, such as 2=é.
static hayro::Declaration text_of(const std::string &word) {
    std::size_t end = 0;
    unsigned long code = std::stoul(word, &end, 16);
    if (end == word.size() || word[end] != '=' || code > 0xFFFF) throw std::invalid_argument(word);
    auto number = static_cast<std::uint32_t>(code);
    return {hayro::Kind::text_range, 2, number, number, 0, word.substr(end + 1)};
}

int main(int count, char **words) try {
    std::vector<hayro::Declaration> declarations{{hayro::Kind::codespace_range, 2, 0, 0xFFFF, 0, ""}};
    for (int i = 1; i < count; i++) declarations.push_back(text_of(words[i]));
    auto file = hayro::make({"Adobe-Identity-UCS", "Adobe", "UCS", 0, {}}, declarations);
    if (!file) {
        std::cerr << "to_unicode: a text is empty or isn't UTF-8\n";
        return 1;
    }
    std::cout << *file;
} catch (const std::logic_error &) {
    std::cerr << "to_unicode: CODE=TEXT was expected\n";
    return 1;
}
