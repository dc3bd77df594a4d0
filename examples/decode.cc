// Prints the codes of a string by a CMap file of a folder, with their CIDs and texts.
//
//     decode FOLDER FILE HEX
//
// A line is a code, its CID or none, and its text if it has one, such as `<93FA> 3284 日`. Only the files that
// FILE uses are read. A CMap of a composite font mostly has only CIDs: the text of a code is then the text of
// its CID in the CMap from its character collection to Unicode, such as Adobe-Japan1-UCS2 (ISO 32000-1,
// 9.10.2), if the folder has this CMap.
#include <hayro_cmap.hpp>
#include <cerrno>
#include <fstream>
#include <iomanip>
#include <iostream>
#include <iterator>
#include <optional>
#include <stdexcept>
#include <string>
#include <system_error>

// The file of a name in a folder. A name may come from a file, and mustn't lead out of the folder.
static std::optional<std::string> read(const std::string &folder, const std::string &name) {
    if (name.find('/') != std::string::npos) return std::nullopt;
    std::ifstream in(folder + '/' + name, std::ios::binary);
    if (!in && errno != ENOENT) throw std::system_error(errno, std::generic_category(), name);
    std::string bytes{std::istreambuf_iterator<char>(in), {}};
    return in ? std::optional(bytes) : std::nullopt;
}

static int fail(const std::string &why) {
    std::cerr << why << '\n';
    return 1;
}

static std::string bytes_of(const std::string &hex) {
    std::string bytes;
    for (std::size_t at = 0; at < hex.size(); at += 2)
        bytes += static_cast<char>(std::stoul(hex.substr(at, 2), nullptr, 16));
    return bytes;
}

// The file at fault, and what is wrong with it.
static std::string message_of(const std::string &name, const hayro::Refusal &refusal) {
    const auto &names = refusal.names();
    return (names.empty() ? name : names.back()) + ": " + refusal.message();
}

// The map of a file of the folder, over the files that it uses; nothing if there is no such file.
static std::optional<hayro::Map> map_of(const std::string &folder, const std::string &name) {
    auto get = [&](const std::string &used) { return read(folder, used); };
    auto file = get(name);
    if (!file) return std::nullopt;
    auto map = hayro::Map::load(*file, get);
    if (!map) throw std::runtime_error(message_of(name, map.refusal()));
    return *std::move(map);
}

// The name of the CMap from the CIDs of a map's collection to Unicode.
static std::string texts_of(hayro::Map &map) {
    return map.registry().value_or("") + '-' + map.ordering().value_or("") + "-UCS2";
}

static void print(const hayro::Code &code, const std::optional<std::string> &text) {
    std::cout << '<' << std::hex << std::uppercase << std::setfill('0')
              << std::setw(2 * code.byte_len) << code.code << "> " << std::dec;
    if (code.has_cid) std::cout << code.cid;
    else std::cout << "none";
    if (text) std::cout << ' ' << *text;
    std::cout << '\n';
}

int main(int argc, char **argv) try {
    if (argc != 4) return fail("usage: decode FOLDER FILE HEX");
    const std::string folder = argv[1], name = argv[2], string = bytes_of(argv[3]);
    auto map = map_of(folder, name);
    if (!map) return fail(name + ": no such file");
    auto texts = map_of(folder, texts_of(*map)).value_or(hayro::Map());
    auto own = map->share();
    hayro::Extractor font(*std::move(map), std::move(own), std::move(texts));
    for (const auto &[code, text] : font.characters(string)) print(code, text);
    return 0;
} catch (const std::exception &fault) {
    return fail(fault.what());
}
