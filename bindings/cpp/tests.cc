// Tests of hayro_cmap.hpp. The program prints `ok`, or the lines of the checks that failed, with status 1.
#include "hayro_cmap.hpp"
#include <array>
#include <cerrno>
#include <cstdio>
#include <cstdlib>
#include <dirent.h>
#include <dlfcn.h>
#include <filesystem>
#include <fstream>
#include <stdexcept>
#include <thread>
#include <tuple>
#include <unistd.h>

static int failed = 0;

#define CHECK(holds)                                                                               \
    do {                                                                                           \
        if (!(holds)) {                                                                            \
            std::fprintf(stderr, "%s:%d: %s\n", __FILE__, __LINE__, #holds);                       \
            failed = 1;                                                                            \
        }                                                                                          \
    } while (false)

static_assert(!std::is_copy_constructible_v<hayro::Map> && !std::is_copy_assignable_v<hayro::Map>);
static_assert(!std::is_copy_constructible_v<hayro::Bundle>);
static_assert(std::is_nothrow_move_constructible_v<hayro::Map>);
static_assert(std::is_nothrow_move_assignable_v<hayro::Map>);
static_assert(std::is_nothrow_move_constructible_v<hayro::Bundle>);
static_assert(!std::is_copy_constructible_v<hayro::Loader> && std::is_nothrow_move_constructible_v<hayro::Loader>);
static_assert(std::is_nothrow_move_assignable_v<hayro::Loader>);
static_assert(!std::is_copy_constructible_v<hayro::SalvageLoader>);
static_assert(std::is_nothrow_move_constructible_v<hayro::SalvageLoader>);
static_assert(sizeof(hayro::Map) == sizeof(hayro_cmap));

using namespace std::string_literals;
using namespace std::string_view_literals;
using Names = std::vector<std::string>;

// Whether a call of a type compiles.
template <template <class> class Call, class Type, class = void> constexpr bool compiles = false;
template <template <class> class Call, class Type> constexpr bool compiles<Call, Type, std::void_t<Call<Type>>> = true;

template <class Text> using Decoded = decltype(std::declval<hayro::Map &>().decode(std::declval<Text>()));
template <class Text> using Characters = decltype(std::declval<hayro::Extractor &>().characters(std::declval<Text>()));
template <class Text> using Texts = decltype(std::declval<hayro::Extractor &>().text(std::declval<Text>()));
template <class Text>
constexpr bool is_string = compiles<Decoded, Text> && compiles<Characters, Text> && compiles<Texts, Text>;
template <class Text>
constexpr bool is_refused = !compiles<Decoded, Text> && !compiles<Characters, Text> && !compiles<Texts, Text>;

// A string of codes may have zero bytes: arrays and pointers of char are rejected.
static_assert(is_refused<char (&)[4]> && is_refused<const char (&)[2]>);
static_assert(is_refused<char *> && is_refused<const char *>);
static_assert(is_string<std::string> && is_string<std::string &> && is_string<std::string_view>);
static_assert(is_string<hayro::Bytes> && is_string<hayro::CodeString>);
static_assert(is_string<std::vector<char>> && is_string<std::array<char, 4> &> && is_string<std::vector<std::byte>>);
static_assert(is_string<std::uint8_t (&)[4]> && is_string<const std::uint8_t (&)[2]>);

static bool same(const hayro::Code &code, std::uint32_t number, int byte_len, std::optional<hayro::Cid> cid,
                 bool in_codespace, bool cut_short) {
    return code.code == number && code.byte_len == byte_len && code.has_cid == cid.has_value() &&
           code.cid == cid.value_or(0) && code.in_codespace == in_codespace && code.cut_short == cut_short;
}

static void maps_are_moved() {
    hayro::Map empty;
    CHECK(empty.empty() && !empty.cid(0x41, 1) && !empty.text(0x41) && !empty.name());
    CHECK(empty.layers() == 0 && empty.decode("A"s).empty() && empty.codespaces().empty());
    auto made = hayro::Map::identity(hayro::WritingMode::vertical);
    hayro::Map map = std::move(made);
    CHECK(made.empty() && map.cid(0x1234, 2) == 0x1234u && !map.cid(0x12, 1));
    made = std::move(map);
    CHECK(map.empty() && made.writing_mode() == hayro::WritingMode::vertical);
    made = hayro::Map::identity(hayro::WritingMode::horizontal);
    CHECK(made.writing_mode() == hayro::WritingMode::horizontal && made.name() == "Identity-H");
    auto &self = made;
    made = std::move(self);
    CHECK(made.cid(1, 2) == 1u);
}

static void files_use_files() {
    auto base = "begincidchar <01> 1 endcidchar beginbfchar <02> <00660066> endbfchar"s;
    auto map = hayro::Map::parse("/Base usecmap", {{"Base", base}});
    CHECK(map && map->cid(1, 1) == 1u && map->text(2) == "ff" && !map->text(3));
    CHECK(map->layers() == 2 && !map->metadata(1).name && !map->metadata(7).writing_mode);
    std::map<std::string, std::string> files{{"Top", "/Base usecmap"}, {"Base", base}};
    auto opened = hayro::Map::open("Top", files);
    CHECK(opened && *opened && (*opened)->cid(1, 1) == 1u);
    CHECK(!hayro::Map::open("Else", files));
    CHECK(hayro::Map::open("Identity-V") && hayro::Map::open("Identity-V").value()->name() == "Identity-V");
    auto used = hayro::Map::parse("/Identity-H usecmap");
    CHECK(used && used->cid(0x3042, 2) == 0x3042u);
    hayro::Map read;
    CHECK(read.read(base) == HAYRO_CMAP_OK && read.cid(1, 1) == 1u);
    CHECK(read.read("begincidchar") == HAYRO_CMAP_REFUSED && read.empty());
    CHECK(read.read(base, "no bundle") == HAYRO_CMAP_NOT_A_BUNDLE && read.empty());
    auto kept = *hayro::Map::parse(base);
    CHECK(kept.cid(1, 1) == 1u);
}

static void long_texts_are_whole() {
    std::string units;
    for (int count = 0; count < 200; count++) units += "0061";
    auto map = hayro::Map::parse("/CMapName /" + std::string(100, 'N') + " beginbfchar <01> <" + units + "> endbfchar");
    CHECK(map && map->text(1) == std::string(200, 'a') && map->name() == std::string(100, 'N'));
}

static void refusals_say_why() {
    auto map = hayro::Map::parse("begincidchar <01> x");
    CHECK(!map && map.refusal().cause() == hayro::Cause::malformed);
    CHECK(map.refusal().reason() == hayro::Reason::cid_expected);
    CHECK(map.refusal().segment() == hayro::Segment::none);
    CHECK(map.refusal().offset() == 19u && map.refusal().names().empty());
    CHECK(map.refusal().message() == "byte 19: a CID was expected");
    CHECK(map.refusal().line("begincidchar <01> x") == 1u && !map.refusal().line("bcmap\n"));
    auto lines = "% 1\r% 2\r\n% 3\nbegincidchar <> 5 endcidchar"s;
    CHECK(hayro::Map::parse(lines).refusal().line(lines) == 4u);

    auto missing = hayro::Map::parse("/A usecmap", {{"A", "/B usecmap"}});
    CHECK(!missing && missing.refusal().cause() == hayro::Cause::no_file);
    CHECK(missing.refusal().names() == (Names{"A", "B"}) && !missing.refusal().offset());

    auto endless = hayro::Map::parse("/A usecmap", {{"A", "/A usecmap"}});
    CHECK(!endless && endless.refusal().cause() == hayro::Cause::chain_length);
    CHECK(endless.refusal().names() == Names(16, "A"));

    std::string name(1000, 'N');
    CHECK(hayro::Map::parse('/' + name + " usecmap").refusal().names() == Names{name});

    hayro::Files files{{"B", "% only"}};
    CHECK(hayro::Map::parse("/B usecmap /B usecmap", files, 33));
    auto over = hayro::Map::parse("/B usecmap /B usecmap", files, 32);
    CHECK(!over && over.refusal().cause() == hayro::Cause::past_budget);

    auto opened = hayro::Map::open("Bad", {{"Bad", "begincidchar"}});
    CHECK(opened && !*opened && opened->refusal().offset() == 12u);
}

static void an_identity_passes_a_budget() {
    for (auto name : {"Identity-H", "Identity-V"}) {
        CHECK(hayro::Map::open(name, {}, 177).value()->name() == name);
        auto over = hayro::Map::open(name, {}, 176);
        CHECK(over && !*over && over->refusal().cause() == hayro::Cause::past_budget);
        CHECK(over->refusal().message() == "the files have more bytes than the budget");
        CHECK(over->refusal().names().empty() && !over->refusal().offset());
        CHECK(over->refusal().reason() == hayro::Reason::none && over->refusal().segment() == hayro::Segment::none);
    }
    CHECK(!hayro::Map::open("Else", {}, 0));
}

static void files_are_read_past_their_faults() {
    auto base = "begincidchar\n<> 8\n<44> 9\nendcidchar /C usecmap"s;
    auto found = hayro::Map::salvage("/AB usecmap begincidchar <41> 5 <42> /X <43> 7 endcidchar", {{"AB", base}});
    CHECK(found.map.cid(0x41, 1) == 5u && !found.map.cid(0x42, 1) && found.map.cid(0x43, 1) == 7u);
    CHECK(found.map.cid(0x44, 1) == 9u && found.map.layers() == 2 && found.faults.size() == 3);
    CHECK(found.faults[0].message() == "byte 39: a CID was expected" && found.faults[0].names().empty());
    CHECK(found.faults[1].reason() == hayro::Reason::code_length && found.faults[1].names() == Names{"AB"});
    CHECK(found.faults[2].cause() == hayro::Cause::no_file && found.faults[2].names() == (Names{"AB", "C"}));
    CHECK(hayro::Map::salvage(base, {{"C", ""}}).faults.size() == 1);
    CHECK(hayro::Map::salvage("begincidchar <44> 9 endcidchar").faults.empty());
    std::string many;
    for (int count = 0; count < 100; count++)
        many += " begincidchar <> endcidchar /" + std::to_string(100000000 + count) + " usecmap";
    auto faults = hayro::Map::salvage(many).faults;
    CHECK(faults.size() == 200 && faults[199].names() == Names{"100000099"});
    auto over = hayro::Map::salvage("/A usecmap", {{"A", "% bytes"}}, 10);
    CHECK(over.faults.size() == 1 && over.faults[0].cause() == hayro::Cause::past_budget);
}

static void parts_at_fault_are_read() {
    auto file = "begincodespacerange <00> <FFFF> <0000> <FF> endcodespacerange "
                "beginbfchar <41> <> <42> /x endbfchar"s;
    auto faults = hayro::Map::salvage(file).faults;
    std::vector<hayro::ReadAs> read;
    for (auto &fault : faults) read.push_back(fault.read_as(file));
    using hayro::ReadAs;
    CHECK(read == (std::vector{ReadAs::extended_code, ReadAs::nothing, ReadAs::empty_text, ReadAs::nothing}));
    CHECK(faults[0].read_as(""s) == ReadAs::nothing);
}

static void strings_are_cut() {
    auto map = hayro::Map::parse("begincodespacerange <00> <7F> <8140> <9FFC> endcodespacerange "
                                 "begincidrange <00> <7F> 1 <8140> <9FFC> 200 endcidrange");
    CHECK(bool(map));
    auto codes = map->decode("A\x81\x40\x82\xFF\x81"s);
    CHECK(codes.size() == 4);
    CHECK(same(codes[0], 0x41, 1, 66, true, false) && same(codes[1], 0x8140, 2, 200, true, false));
    CHECK(same(codes[2], 0x82FF, 2, 647, false, false) && same(codes[3], 0x81, 1, std::nullopt, false, true));
    CHECK(map->cid(0x82FF, 2) == 647u && !map->cid_strict(0x82FF, 2) && map->cid_strict(0x8140, 2) == 200u);

    std::array<hayro::Code, 2> room;
    auto part = map->decode("AAA"s, room);
    CHECK(part.made == 2 && part.taken == 2 && !part.whole);
    part = map->decode("A"s, room);
    CHECK(part.made == 1 && part.taken == 1 && part.whole);
    part = map->decode("A"s, hayro::Span<hayro::Code>());
    CHECK(part.made == 0 && part.taken == 0 && !part.whole);
    CHECK(map->decode(std::string_view()).empty() && map->decode(std::vector<std::uint8_t>()).empty());
    CHECK(map->decode(std::string(1000, 'A')).size() == 1000);

    std::array<hayro::Cid, 4> cids{};
    CHECK(map->cids(0x7E, 1, 7, cids) && cids == (std::array<hayro::Cid, 4>{127, 128, 7, 7}));
    CHECK(map->cids(0, 1, 7, {}));
    auto ranges = map->codespaces();
    CHECK(ranges.size() == 2 && ranges[1].low == 0x8140 && ranges[1].high == 0x9FFC && ranges[1].byte_len == 2);
    std::string many;
    for (int count = 0; count < 50; count++) many += "<00> <01> ";
    auto long_map = hayro::Map::parse("begincodespacerange " + many + "endcodespacerange");
    CHECK(long_map && long_map->codespaces().size() == 50 && long_map->codespaces(1).empty());
}

static hayro::Map map_of(const std::string &file) {
    auto map = hayro::Map::parse(file);
    CHECK(bool(map));
    return map ? *std::move(map) : hayro::Map();
}

static void strings_have_zeros() {
    auto map = hayro::Map::identity(hayro::WritingMode::horizontal);
    CHECK(same(map.decode("\x00\x41"sv).at(0), 0x41, 2, 0x41u, true, false) && map.decode({}).empty());
    char room[] = {0, 0x41, 0, 0x42};
    auto codes = map.decode({room, sizeof room});
    CHECK(codes.size() == 2 && same(codes[1], 0x42, 2, 0x42u, true, false));
    const std::uint8_t bytes[] = {0x30, 0};
    CHECK(map.decode(bytes).size() == 1 && same(map.decode(bytes)[0], 0x3000, 2, 0x3000u, true, false));
}

static void bytes_have_their_lengths() {
    CHECK(hayro::Bytes("a\0b").text() == "a\0b"sv && hayro::Bytes("").size() == 0);
    static const char bare[] = {'a', 0, 'b'};
    CHECK(hayro::Bytes(bare).size() == 3);
    char room[8] = "ab";
    const char *text = room;
    char *changing = room;
    CHECK(hayro::Bytes(room).size() == 2 && hayro::Bytes(text).size() == 2 && hayro::Bytes(changing).size() == 2);
}

template <class Map> using LayersOf = decltype(std::declval<Map>().layers());
static_assert(compiles<LayersOf, hayro::Map &> && !compiles<LayersOf, hayro::Map>);

static void layers_are_a_view() {
    auto base = "/CMapName /Base begincodespacerange <00> <80> endcodespacerange begincidchar <01> 1 endcidchar"s;
    auto map = hayro::Map::parse("/CMapName /Top /Base usecmap beginbfchar <02> <0041> endbfchar", {{"Base", base}});
    CHECK(map && map->layers().size() == 2 && map->layers() == 2u && !map->layers().empty());
    Names names;
    for (const auto &layer : map->layers()) names.push_back(layer.metadata().name.value_or("-"));
    CHECK(names == (Names{"Top", "Base"}));
    auto below = map->layers()[1];
    CHECK(below.codespaces().size() == 1 && below.cid_ranges(1).size() == 1 && below.text_ranges().empty());
    CHECK(map->layers()[0].text_ranges().size() == 1 && map->layers()[0].notdef_ranges(1).empty());
    hayro::Map none;
    CHECK(none.layers().begin() == none.layers().end());
}

static void strings_have_texts() {
    auto encoding = "begincodespacerange <00> <7F> endcodespacerange begincidrange <41> <43> 7 endcidrange"s;
    auto to_unicode = "beginbfchar <41> <00660066> <42> <D800> endbfchar"s;
    auto collection = "beginbfchar <0008> <65E5> <0043> <0078> endbfchar"s;
    hayro::Extractor font(map_of(encoding), map_of(to_unicode), map_of(collection));
    auto found = font.characters("ABC\x81"s);
    CHECK(found.size() == 4 && found[0].text == "ff" && found[1].text == "\u65E5");
    CHECK(same(found[1].code, 0x42, 1, 8, true, false) && !found[2].text && !found[3].text);
    CHECK(same(found[2].code, 0x43, 1, 9, true, false) && same(found[3].code, 0x81, 1, std::nullopt, false, false));
    CHECK(!hayro::Extractor(map_of(encoding)).characters("A"s).at(0).text);
    CHECK(hayro::Extractor(hayro::Map()).characters("A"s).empty() && font.characters(""s).empty());
    CHECK(font.text("ABC\x81"s) == "ff\u65E5\uFFFD\uFFFD" && font.text("AC"s, "?") == "ff?" && font.text(""s).empty());

    // The codes of a simple font are bytes, whatever the codespace ranges of its ToUnicode CMap are.
    auto simple = hayro::Extractor::simple(map_of("begincodespacerange <0000> <FFFF> endcodespacerange "
                                                  "beginbfchar <41> <0061> <00FF> <00660066> endbfchar"s));
    CHECK(simple.text("A\xFF\x00"s) == "aff\uFFFD");
    CHECK(same(simple.characters("\xFF"s).at(0).code, 0xFF, 1, std::nullopt, true, false));
    CHECK(hayro::Extractor::simple().text("A"s) == "\uFFFD");

    // Texts that together exceed the first buffer, and a text that exceeds it alone.
    std::string many, text;
    for (int count = 0; count < 500; count++) many += "0061", text += 'a';
    hayro::Extractor longer(map_of(encoding), map_of("beginbfchar <41> <" + many + "> <42> <0062> endbfchar"));
    found = longer.characters(std::string(100, 'B') + "AB");
    CHECK(found.size() == 102 && found[99].text == "b" && found[100].text == text && found[101].text == "b");
}

// Whether these maps of a collection were found, and no file was refused.
static bool is_found(const hayro::FoundCollection &found, bool to_unicode, bool from_unicode) {
    return found.to_unicode == to_unicode && found.from_unicode == from_unicode && !found.refusal;
}

static void collections_are_found() {
    auto encoding = "/Base usecmap begincodespacerange <00> <FF> endcodespacerange begincidchar <41> 7 endcidchar"s;
    auto font_of = [&](const std::string &registry) {
        auto base = "/CIDSystemInfo << /Registry (" + registry + ") /Ordering (One) /Supplement 0 >> def";
        auto map = hayro::Map::parse(encoding, {{"Base", base}});
        return hayro::Extractor(*std::move(map), {}, map_of("beginbfchar <0007> <0061> endbfchar"));
    };
    std::map<std::string, std::string> files = {{"Some-One-UCS2", "beginbfchar <0007> <0062> endbfchar"},
                                                {"Broken-One-UCS2", "beginbfchar <0007> x endbfchar"}};
    auto some = font_of("Some"), broken = font_of("Broken"), other = font_of("Other");
    CHECK(is_found(some.find_collection(files), true, false) && some.text("A"s) == "b");
    CHECK(is_found(other.find_collection(files), false, false) && other.text("A"s) == "a");
    auto refused = broken.find_collection(files);
    CHECK(!refused.to_unicode && refused.refusal->reason() == hayro::Reason::text_expected && broken.text("A"s) == "a");
    CHECK(is_found(hayro::Extractor::simple().find_collection(files), false, false));
    CHECK(is_found(other.find_predefined_collection(), false, false));
}

template <class Fault, class Call> static bool throws(Call call) {
    try {
        call();
    } catch (const Fault &) {
        return true;
    }
    return false;
}

static const auto any_two_bytes = "begincodespacerange <0000> <FFFF> endcodespacerange "s;

// The CIDs 1 and 2 have the same text. A map from Unicode chooses the second one, or for vertical writing the third.
static void glyphs_are_chosen_by_maps_from_unicode() {
    CHECK(hayro::unicode_name("Adobe-GB1") == "UniGB-UTF16-H" && !hayro::unicode_name("Adobe-Identity"));
    CHECK(hayro::unicode_name("Adobe-GB1", hayro::WritingMode::vertical) == "UniGB-UTF16-V");
    std::map<std::string, std::string> files = {
        {"Adobe-Japan1-UCS2", "beginbfchar <0001> <3042> <0002> <3042> <0003> <3042> endbfchar"},
        {"UniJIS-UTF16-H", any_two_bytes + "begincidchar <3042> 2 endcidchar"},
        {"UniJIS-UTF16-V", any_two_bytes + "begincidchar <3042> 3 endcidchar"},
        {"Broken-One-UCS2", "beginbfchar <0007> x endbfchar"},
        {"UniGB-UTF16-H", "begincidchar <00> x endcidchar"},
        {"UniCNS-UTF16-H", any_two_bytes + "begincidchar <3042> 2 endcidchar"}};
    auto string = [](hayro::Extractor &font) { return hayro::Encoder(font).encode("\u3042"); };

    hayro::Extractor font(hayro::Map::identity(hayro::WritingMode::horizontal));
    CHECK(is_found(font.find_collection(files), false, false) && !string(font));
    CHECK(is_found(font.find_collection(files, "Adobe-Japan1"), true, true) && *string(font) == "\0\2"s);
    CHECK(font.text("\0\1\0\2"s) == "\u3042\u3042");
    hayro::Extractor vertical(hayro::Map::identity(hayro::WritingMode::vertical));
    CHECK(is_found(vertical.find_collection(files, "Adobe-Japan1"), true, true) && *string(vertical) == "\0\3"s);
    hayro::Extractor given(hayro::Map::identity(hayro::WritingMode::horizontal), {}, map_of(files["Adobe-Japan1-UCS2"]));
    CHECK(*string(given) == "\0\1"s);
    // One of the two maps is enough.
    CHECK(is_found(given.find_collection(files, "Adobe-CNS1"), false, true) && *string(given) == "\0\2"s);
    auto refused = given.find_collection(files, "Adobe-GB1").refusal;
    CHECK(refused && refused->reason() == hayro::Reason::cid_expected && *string(given) == "\0\2"s);
    hayro::Bundle none;
    CHECK(given.find_collection(none, files, "Broken-One").refusal.has_value());
    CHECK(is_found(given.find_predefined_collection("Some-One"), false, false));

    // An encoding from Unicode is itself the map from Unicode.
    hayro::Extractor from(map_of("/CMapName /UniX-H def " + any_two_bytes + "begincidrange <3042> <3043> 7 endcidrange"));
    CHECK(!string(from) && is_found(from.find_collection(files), false, true) && *string(from) == "\x30\x42");
}

static void texts_are_folded() {
    CHECK(hayro::fold("o\uFB03ce\u2002\u8FBB\U000E0100 \uFE35\uFFE8") == "office \u8FBB \uFF08|");
    CHECK(hayro::fold("") == "" && !hayro::fold("a\xFF"s));
    auto font = hayro::Extractor::simple(map_of("beginbfchar <41> <FB01> <42> <2002> endbfchar"));
    CHECK(font.text("ABC"s) == "\uFB01\u2002\uFFFD" && font.folded_text("ABC"s) == "fi \uFFFD");
    CHECK(font.folded_text("AC"s, "\uFB02") == "fifl" && font.folded_text("C"s, "\xFF") == "\xFF");
}

static void pieces_have_grades() {
    auto encoding = "begincodespacerange <00> <7F> endcodespacerange begincidrange <41> <5C> 1 endcidrange"s;
    auto to_unicode = "beginbfchar <41> <00660069> endbfchar"s;
    auto collection = "beginbfchar <0002> <00E9> <0003> <2F47> <0004> <004B> <001C> <00A5> endbfchar"s;
    hayro::Extractor font(map_of(encoding), map_of(to_unicode), map_of(collection),
                          map_of(any_two_bytes + "begincidchar <65E5> 3 endcidchar"));
    hayro::Encoder encoder(font), exact(font, true);
    auto pieces = encoder.pieces("fi\u00E9\u65E5\uFE00\u212A\\");
    const std::tuple<std::size_t, std::uint32_t, hayro::Grade> expected[] = {
        {2, 1, hayro::Grade::stated}, {2, 1, hayro::Grade::collection}, {3, 1, hayro::Grade::canonical},
        {3, 0, hayro::Grade::alike},  {3, 1, hayro::Grade::alike},      {1, 1, hayro::Grade::national}};
    CHECK(pieces && std::equal(pieces->begin(), pieces->end(), std::begin(expected), std::end(expected),
                               [](const hayro::Piece &piece, const auto &it) {
                                   return std::tie(piece.text_len, piece.code_len, piece.grade) == it;
                               }));
    for (const auto &piece : *encoder.pieces("fifi")) CHECK(piece.text_len == 2);
    CHECK(encoder.pieces("")->empty() && !encoder.pieces("fix") && encoder.pieces("fix").offset() == 2);
    CHECK(encoder.pieces("fi\xFF"s).offset() == 2 && !hayro::Encoder().pieces("f"));
    CHECK(*exact.encode("fi\u00E9\u2F47") == "ABC" && !exact.encode("\u65E5") && !exact.encode("\\"));
    CHECK(*encoder.encode("\u65E5\\") == "C\\");

    CHECK(encoder.encode_lossy("xfi", "??"s) == "??A" && encoder.encode_lossy("xfi", ""s) == "A");
    CHECK(throws<std::invalid_argument>([&] { encoder.encode_lossy("fi", "?\x80"s); }));
    CHECK(throws<std::invalid_argument>([&] { encoder.encode_lossy("\xFF", "\x80"s); }));
    CHECK(!hayro::Encoder().encode_lossy("fi", "\x80"s));
}

static void texts_have_strings() {
    hayro::Extractor font(map_of("begincodespacerange <00> <7F> endcodespacerange begincidchar <44> 8 endcidchar"s),
                          map_of("beginbfchar <41> <0066> <42> <00660069> endbfchar"s),
                          map_of("beginbfchar <0008> <65E5> endbfchar"s));
    hayro::Encoder encoder(font);
    auto string = encoder.encode("ffi\u65E5");
    CHECK(string && *string == "ABD" && font.text(*string) == "ffi\u65E5");
    CHECK(encoder.encode("")->empty());
    auto refused = encoder.encode("\u65E5x");
    CHECK(!refused && refused.offset() == 3);
    CHECK(encoder.encode("f\xFF"s).offset() == 1);
    CHECK(encoder.encode_lossy("xffi", "\0??"s) == "\0??AB"s && !encoder.encode_lossy("\xFF", "?"s));

    auto simple = hayro::Extractor::simple(map_of("beginbfchar <00FF> <0061> endbfchar"s));
    CHECK(*hayro::Encoder(simple).encode("aa") == "\xFF\xFF");

    auto other = encoder.share();
    encoder = hayro::Encoder();
    CHECK(encoder.empty() && !encoder.encode("f") && *other.encode("f") == "A");

    // A string that exceeds the first buffer.
    hayro::Extractor wide(map_of("begincodespacerange <00000000> <00000001> endcodespacerange"s),
                          map_of("beginbfchar <00000001> <0061> endbfchar"s));
    CHECK(*hayro::Encoder(wide).encode("aa") == "\0\0\0\1\0\0\0\1"s);
}

static bool same(const hayro::CidRange &range, std::uint32_t first, std::uint32_t last, hayro::Cid cid) {
    return range.first == first && range.last == last && range.cid == cid;
}

static bool same(const hayro::TextRange &range, std::uint32_t first, std::uint32_t last,
                 const std::u16string &units) {
    return range.first == first && range.last == last && range.units == units;
}

static void layers_declare_cids_and_texts() {
    auto map = hayro::Map::parse("/Base usecmap begincidchar <41> 7 endcidchar",
                                 {{"Base", "begincidrange <20> <7E> 1 <8140> <817E> 633 endcidrange "
                                           "beginnotdefrange <00> <1F> 99 endnotdefrange "
                                           "beginbfrange <41> <42> <0061> endbfrange "
                                           "beginbfchar <43> <D83D> <44> <00660069> endbfchar"}});
    CHECK(bool(map));
    auto own = map->cid_ranges(1);
    CHECK(own.size() == 1 && same(own[0], 0x41, 0x41, 7));
    CHECK(map->cid_ranges(2).empty() && map->notdef_ranges(1).empty() && map->text_ranges().empty());
    auto below = map->cid_ranges(1, 1);
    CHECK(below.size() == 1 && same(below[0], 0x20, 0x7E, 1));
    auto two_bytes = map->cid_ranges(2, 1);
    CHECK(two_bytes.size() == 1 && same(two_bytes[0], 0x8140, 0x817E, 633));
    auto notdefs = map->notdef_ranges(1, 1);
    CHECK(notdefs.size() == 1 && same(notdefs[0], 0, 0x1F, 99));
    auto texts = map->text_ranges(1);
    CHECK(texts.size() == 3 && same(texts[0], 0x41, 0x42, u"a"));
    CHECK(same(texts[1], 0x43, 0x43, std::u16string(1, 0xD83D)) && same(texts[2], 0x44, 0x44, u"fi"));
    CHECK(map->cid_ranges(5).empty() && map->cid_ranges(1, 2).empty() && map->text_ranges(2).empty());

    auto codes = map->codes_of_cid(7, 1);
    CHECK(codes.size() == 2 && codes[0].first == 0x26 && codes[0].last == 0x26);
    CHECK(codes[1].first == 0x41 && codes[1].last == 0x41);
    CHECK(map->codes_of_cid(34, 1).empty() && hayro::Map().codes_of_cid(7, 1).empty());
}

static void warnings_are_found() {
    std::string text = "1 begincodespacerange <00> <FF> endcodespacerange "
                       "2 beginbfchar <01> <E000> <02> <20BB7> endbfchar";
    auto map = hayro::Map::parse(text);
    std::vector<std::uint32_t> shown = {1, 2, 4};
    auto found = map->lint(text, true, shown);
    CHECK(found.size() == 4);
    CHECK(hayro::warning_name(found[0].warning) == "private-use" && found[0].first == 1 && found[0].shown == 1);
    CHECK(found[1].warning == HAYRO_CMAP_WARNING_NO_MAPPING && found[1].count == 254 && found[1].first_shown == 4);
    CHECK(found[2].warning == HAYRO_CMAP_WARNING_ODD_DIGITS && found[2].offset == text.find("<20BB7>"));
    CHECK(found[3].warning == HAYRO_CMAP_WARNING_ODD_TEXT && found[3].first_shown == 2);
    CHECK(map->lint().empty() && hayro::Map().lint().empty());
    for (auto nothing : {"", "hello"}) {
        auto warnings = map_of(nothing).lint();
        CHECK(!warnings.empty() && hayro::warning_name(warnings[0].warning) == "nothing-declared");
    }
    CHECK(hayro::warning_name(HAYRO_CMAP_WARNING_ODD_TEXT + 1).empty());
}

static void many_declarations_are_whole() {
    std::string cids, texts;
    for (int count = 0; count < 50; count++) {
        cids += "<20> " + std::to_string(count) + ' ';
        texts += "<20> <" + std::string(4 * 30, '1') + "> ";
    }
    auto map = hayro::Map::parse("begincidchar " + cids + "endcidchar beginbfchar " + texts + "endbfchar");
    CHECK(map && map->cid_ranges(1).size() == 50 && same(map->cid_ranges(1)[49], 0x20, 0x20, 49));
    auto ranges = map->text_ranges();
    CHECK(ranges.size() == 50 && same(ranges[49], 0x20, 0x20, std::u16string(30, 0x1111)));
}

static void files_speak_of_themselves() {
    auto map = hayro::Map::parse("/Registry (Adobe) /Ordering (Japan1) /Supplement 6 /CMapName /Own /WMode 1");
    CHECK(map && map->registry() == "Adobe" && map->ordering() == "Japan1" && map->supplement() == 6);
    CHECK(map->name() == "Own" && map->writing_mode() == hayro::WritingMode::vertical);
    auto said = map->metadata();
    CHECK(said.registry == "Adobe" && said.ordering == "Japan1" && said.supplement == 6);
    CHECK(said.name == "Own" && said.writing_mode == hayro::WritingMode::vertical);
    auto silent = hayro::Map::parse("");
    CHECK(silent && !silent->registry() && !silent->supplement() && !silent->writing_mode());
}

// A bundle of one table of deltas, whose one symbol is 32, one of counts, and a file.
static const std::uint8_t tables[] = {0, 0, 0, 16, 0, 2, 1, 0, 2, 0, 0, 0, 32, 0, 0, 0, 0, 0, 0, 0};
// A binary file with the CID 5 for the code 0020 of two bytes and 6 for 0021.
static const std::uint8_t binary[] = {'b', 'c', 'm', 'a', 'p', 1, 0, 0, 0,    0x1A, 4, 0, 0,
                                      0,   16,  0,   2,   0,   0, 0, 1, 0x40, 0,    5, 0, 0};

static void bundles_have_files() {
    std::vector<std::uint8_t> bytes(std::begin(tables), std::end(tables));
    bytes.insert(bytes.end(), std::begin(binary), std::end(binary));
    auto bundle = hayro::Bundle::open(bytes);
    CHECK(bundle && !bundle->empty() && bundle->file("83pv-RKSJ-H").value_or("").size() == sizeof binary);
    CHECK(!bundle->file("H") && !hayro::Bundle::open("") && !hayro::Bundle().file("H"));
    auto map = hayro::Map::parse(binary, *bundle);
    CHECK(map && map->cid(0x20, 2) == 5u && map->cid(0x21, 2) == 6u);
    auto used = hayro::Map::parse("/83pv-RKSJ-H usecmap", *bundle);
    CHECK(used && used->cid(0x20, 2) == 5u);
    // A file of the bundle counts when it is opened.
    CHECK(hayro::Map::open("83pv-RKSJ-H", *bundle, {}, sizeof binary).value());
    auto large = hayro::Map::open("83pv-RKSJ-H", *bundle, {}, sizeof binary - 1);
    CHECK(large && !*large && large->refusal().cause() == hayro::Cause::past_budget);
    auto other = bundle->share();
    bundle->share();
    bundle.reset();
    auto opened = hayro::Map::open("83pv-RKSJ-H", other);
    CHECK(opened && *opened && (*opened)->cid(0x20, 2) == 5u);
    hayro::Map over;
    CHECK(over.read(binary, bytes) == HAYRO_CMAP_OK && over.cid(0x21, 2) == 6u);
    CHECK(over.read_over(binary, other) == HAYRO_CMAP_OK && over.cid(0x20, 2) == 5u);
    auto cut = hayro::Map::parse(hayro::Bytes(binary, 25), other);
    CHECK(!cut && cut.refusal().reason() == hayro::Reason::header && cut.refusal().offset() == 0u);
}

static void uses_are_named() {
    CHECK(hayro::uses("/B usecmap /A usecmap /B usecmap") == (Names{"B", "A", "B"}));
    CHECK(hayro::uses("") == Names{} && !hayro::uses("begincidchar"));
    std::string many;
    for (int count = 0; count < 100; count++) many += "/Some-Name usecmap\n";
    CHECK(hayro::uses(many) == Names(100, "Some-Name"));

    Names asked;
    auto get = [&](const std::string &name) -> std::optional<std::string> {
        asked.push_back(name);
        if (name == "A") return "/B usecmap /A usecmap";
        if (name == "B") return "";
        return std::nullopt;
    };
    auto files = hayro::used_files("/A usecmap /Missing usecmap", get);
    CHECK(asked == (Names{"A", "Missing", "B"}) && files.size() == 2 && files.count("A") == 1);
    // A chain without an end is cut off at the length where there can be no map.
    asked.clear();
    hayro::used_files("/N usecmap", [&](const std::string &name) {
        asked.push_back(name);
        return std::optional('/' + name + "N usecmap");
    });
    CHECK(asked.size() == 15 && asked.back() == std::string(15, 'N'));
}

// Files by their names, and the names that were asked for. A file of A to J uses the next one seven times, J has a CID,
// and M uses S, which is malformed. There are no others.
struct Recorded {
    Names asked;

    std::optional<std::string> operator()(const std::string &name) {
        asked.push_back(name);
        if (name == "J") return "begincidchar <41> 7 endcidchar";
        if (name == "M") return "/S usecmap";
        if (name == "S") return "begincidchar <41> x endcidchar";
        if (name < "A" || name > "J") return std::nullopt;
        std::string file;
        for (int use = 0; use < 7; use++) file += '/' + std::string(1, static_cast<char>(name[0] + 1)) + " usecmap ";
        return file;
    }
};

static void files_are_loaded() {
    Recorded files;
    auto get = [&](const std::string &name) { return files(name); };
    auto map = hayro::Map::load("/A usecmap /C usecmap /A usecmap", get);
    CHECK(map && map->cid(0x41, 1) == 7u && map->layers() == 11);
    CHECK(files.asked == (Names{"A", "B", "C", "D", "E", "F", "G", "H", "I", "J"}));
    // No name is asked for after a fault.
    files.asked.clear();
    auto malformed = hayro::Map::load("/M usecmap /A usecmap", get);
    CHECK(!malformed && malformed.refusal().cause() == hayro::Cause::malformed && malformed.refusal().offset() == 19u);
    CHECK(files.asked == (Names{"M", "S"}) && malformed.refusal().names() == files.asked);
    files.asked.clear();
    auto missing = hayro::Map::load("/Z usecmap /A usecmap", get);
    CHECK(!missing && missing.refusal().cause() == hayro::Cause::no_file);
    CHECK(files.asked == Names{"Z"} && missing.refusal().names() == files.asked);
    files.asked.clear();
    auto whole = hayro::Map::load("/A usecmap )", get);
    CHECK(!whole && whole.refusal().reason() == hayro::Reason::stray_delimiter && files.asked.empty());
    // 21 bytes, and 30 for each use.
    CHECK(hayro::Map::load("/J usecmap /J usecmap", get, 81));
    auto large = hayro::Map::load("/J usecmap /J usecmap", get, 80);
    CHECK(!large && large.refusal().cause() == hayro::Cause::past_budget && files.asked == (Names{"J", "J"}));
    // An endless chain ends at its sixteenth file, and names of any length are whole.
    auto endless = hayro::Map::load("/" + std::string(100, 'N') + " usecmap",
                                    [](const std::string &name) { return std::optional('/' + name + "N usecmap"); });
    CHECK(!endless && endless.refusal().cause() == hayro::Cause::chain_length);
    CHECK(endless.refusal().names().size() == 16 && endless.refusal().names().back() == std::string(115, 'N'));
}

static void a_use_of_an_identity_needs_no_file() {
    for (const std::string name : {"Identity-H", "Identity-V"}) {
        const std::string text = '/' + name + " usecmap";
        auto none = [](const std::string &) { return std::optional<hayro::Bytes>(); };
        auto map = hayro::Map::load(text, none, text.size() + 177);
        CHECK(map && map->cid(0x1234, 2) == 0x1234u && map->metadata(1).name == name);
        auto mode = name.back() == 'V' ? hayro::WritingMode::vertical : hayro::WritingMode::horizontal;
        CHECK(map->effective_writing_mode() == mode && map->metadata(1).supplement == 0);
        CHECK(map->metadata(1).registry == "Adobe" && map->metadata(1).ordering == "Identity");
        CHECK(!hayro::Map::load(text, none, text.size() + 176));
        // A file of the name goes before.
        auto file = [](const std::string &) { return std::optional("begincidchar <01> 1 endcidchar"s); };
        auto own = hayro::Map::load(text, file);
        CHECK(own && own->cid(1, 1) == 1u && !own->cid(0x1234, 2));
    }
}

static void a_loader_wants_files() {
    std::vector<std::uint8_t> bytes(std::begin(tables), std::end(tables));
    bytes.insert(bytes.end(), std::begin(binary), std::end(binary));
    auto bundle = *hayro::Bundle::open(bytes);
    const auto text = "/83pv-RKSJ-H usecmap /A usecmap"s;
    hayro::Loader loader(text, bundle);
    // The loader keeps the bundle, and none of the bytes.
    bundle = hayro::Bundle();
    CHECK(!loader.empty() && loader.wanted() == "83pv-RKSJ-H" && loader.wanted() == "83pv-RKSJ-H");
    loader.supply(std::nullopt);
    CHECK(loader.wanted() == "A");
    hayro::Loader moved(std::move(loader));
    CHECK(loader.empty() && !loader.wanted() && loader.finish()->empty());
    loader = std::move(moved);
    loader.supply(std::string("begincidchar <0021> 8 endcidchar"));
    CHECK(!loader.wanted());
    // No file is wanted.
    loader.supply(hayro::Bytes("("));
    auto map = loader.finish();
    CHECK(map && map->cid(0x21, 2) == 8u && map->layers() == 2 && loader.empty());

    // The caller has no file that is still wanted.
    bundle = *hayro::Bundle::open(bytes);
    hayro::Loader over("/83pv-RKSJ-H usecmap", bundle);
    CHECK(over.finish()->cid(0x20, 2) == 5u);
    hayro::Loader alone("/83pv-RKSJ-H usecmap");
    for (int count = 0; count < 2; count++) {
        auto refused = alone.finish();
        CHECK(!refused && refused.refusal().cause() == hayro::Cause::no_file && !alone.empty());
        CHECK(refused.refusal().names() == Names{"83pv-RKSJ-H"});
    }
    CHECK(hayro::Loader("/Identity-H usecmap").finish()->cid(0x41, 2) == 0x41u);
}

// What is told of faults: what is wrong, and the names that lead to the file at fault.
static Names told(const std::vector<hayro::Refusal> &faults) {
    Names lines;
    for (const auto &fault : faults) {
        std::string line;
        for (const auto &name : fault.names()) line += name + ": ";
        lines.push_back(line + fault.message());
    }
    return lines;
}

// What hayro_cmap_salvage tells of the faults of a file over files in memory.
static Names told_of_list(const std::string &data, const hayro::Files &files, std::uint64_t budget) {
    hayro::Map map;
    hayro::Bundle none;
    std::vector<hayro_cmap_fault> faults(16);
    std::string names(256, '\0');
    std::size_t found = 0, needed = 0;
    auto room = reinterpret_cast<std::uint8_t *>(names.data());
    auto bytes = reinterpret_cast<const std::uint8_t *>(data.data());
    CHECK(hayro_cmap_salvage(map.handle(), bytes, data.size(), none.handle(), files.data(), files.size(), budget,
                             faults.data(), faults.size(), &found, room, names.size(), &needed) == HAYRO_CMAP_OK);
    CHECK(found <= faults.size() && needed <= names.size());
    std::vector<hayro::Refusal> refusals;
    std::string_view left = names;
    for (std::size_t fault = 0; fault < found; fault++) {
        refusals.emplace_back(faults[fault], left);
        for (const auto &name : refusals.back().names()) left.remove_prefix(name.size());
    }
    return told(refusals);
}

static void files_are_loaded_past_faults() {
    std::map<std::string, std::string> all;
    for (std::string name : {"A", "B", "C", "D", "E", "F", "G", "H", "I", "J", "M", "S"}) all[name] = *Recorded()(name);
    all["L"] = "/L usecmap /A usecmap";
    // Each name is asked for once, a file before the files that it uses, and none after a chain that is too long.
    const std::vector<std::pair<std::string, Names>> cases = {
        {"/A usecmap ) /C usecmap", {"A", "B", "C", "D", "E", "F", "G", "H", "I", "J"}},
        {") /M usecmap /Z usecmap /S usecmap /M usecmap /J usecmap", {"M", "S", "Z", "J"}},
        {"/L usecmap /J usecmap", {"L"}},
        {"", {}},
    };
    for (const auto &[data, asked] : cases) {
        Recorded files;
        auto get = [&](const std::string &name) {
            auto file = files(name);
            return name == "L" ? std::optional(all["L"]) : file;
        };
        auto found = hayro::Map::salvage(data, get);
        CHECK(files.asked == asked && told(found.faults) == told_of_list(data, all, hayro::no_budget));
        CHECK(told(hayro::Map::salvage(data, all).faults) == told(found.faults));
    }
    // 21 bytes, 77 of A, which isn't read, and 30 of J.
    Recorded files;
    const auto text = "/A usecmap /J usecmap"s;
    auto found = hayro::Map::salvage(text, [&](const std::string &name) { return files(name); }, 60);
    CHECK(files.asked == (Names{"A", "J"}) && told(found.faults) == told_of_list(text, all, 60));
    CHECK(found.map.cid(0x41, 1) == 7u && found.faults.size() == 1);
}

static void a_loader_past_faults_wants_files() {
    std::vector<std::uint8_t> bytes(std::begin(tables), std::end(tables));
    bytes.insert(bytes.end(), std::begin(binary), std::end(binary));
    auto bundle = *hayro::Bundle::open(bytes);
    hayro::SalvageLoader loader(") /A usecmap /83pv-RKSJ-H usecmap"s, bundle);
    bundle = hayro::Bundle();
    CHECK(loader.handle()->full && loader.wanted() == "A");
    loader.supply(std::string("begincidchar <41> x endcidchar"));
    CHECK(loader.wanted() == "83pv-RKSJ-H");
    hayro::SalvageLoader moved(std::move(loader));
    CHECK(loader.empty() && !loader.wanted() && loader.finish().map.empty() && loader.finish().faults.empty());
    // The caller has no file that is still wanted.
    auto found = moved.finish();
    CHECK(moved.empty() && found.map.cid(0x20, 2) == 5u);
    CHECK(told(found.faults) == (Names{"byte 0: a ) or > stands alone", "A: byte 19: a CID was expected"}));
    // More faults than fit in the first buffers.
    std::string many;
    for (int count = 0; count < 100; count++) many += " ) /" + std::to_string(100000000 + count) + " usecmap";
    auto faults = hayro::SalvageLoader(many).finish().faults;
    CHECK(faults.size() == 200 && faults[199].names() == Names{"100000099"});
    CHECK(hayro::Map::salvage(many, hayro::Files(), 10).faults.size() == 1);
}

// Whether a predefined file of this name is there and can't be read.
static bool is_unreadable(const std::string &name) {
    try {
        hayro::predefined_file(name);
        return false;
    } catch (const std::filesystem::filesystem_error &) {
        return true;
    }
}

static void predefined_files_are_found() {
    namespace fs = std::filesystem;
    fs::path folder = fs::temp_directory_path() / ("cmap-" + std::to_string(getpid()));
    fs::create_directories(folder / "below");
    fs::create_directories(folder / ".hidden");
    std::ofstream(folder / "below" / "Top") << "/Base usecmap begincidchar <02> 2 endcidchar";
    std::ofstream(folder / "below" / "Base") << "begincidchar <01> 1 endcidchar";
    std::ofstream(folder / "Outside") << "begincidchar <01> 1 endcidchar";
    std::ofstream(folder / ".hidden" / "Hidden") << "begincidchar <01> 1 endcidchar";
    setenv("CMAP_PATH", ("/nowhere:" + folder.string()).c_str(), 1);
    auto opened = hayro::Map::open_predefined("Top");
    CHECK(opened && *opened && (*opened)->cid(1, 1) == 1u && (*opened)->cid(2, 1) == 2u);
    CHECK(!hayro::Map::open_predefined("Else") && hayro::Map::open_predefined("Identity-V"));
    CHECK(!hayro::predefined_file("below") && !hayro::predefined_file("") && !hayro::predefined_file(".."));
    CHECK(!hayro::predefined_file("Hidden"));
    setenv("CMAP_PATH", (folder / ".hidden").c_str(), 1);
    CHECK(hayro::predefined_file("Hidden"));
    setenv("CMAP_PATH", (folder / "below").c_str(), 1);
    CHECK(hayro::predefined_file("Top") && !hayro::predefined_file("../Outside"));
    std::ofstream(folder / "below" / "Some-One-UCS2") << "beginbfchar <0007> <0062> endbfchar";
    hayro::Extractor font(map_of("/CIDSystemInfo << /Registry (Some) /Ordering (One) /Supplement 0 >> def "
                                 "begincidchar <41> 7 endcidchar"));
    CHECK(is_found(font.find_predefined_collection(), true, false) && font.text("A"s) == "b");
    setenv("CMAP_PATH", "", 1);
    CHECK(!hayro::predefined_file("Top"));
    setenv("CMAP_PATH", "/proc/self", 1);
    CHECK(is_unreadable("mem"));
    unsetenv("CMAP_PATH");
    fs::remove_all(folder);
}

constexpr int all_entries = -1;
static int entries_left = all_entries;

// The name of readdir in the C library, which differs if a system of 32 bits has file offsets of 64 bits.
#if defined(_FILE_OFFSET_BITS) && _FILE_OFFSET_BITS == 64
constexpr const char *readdir_name = "readdir64";
#else
constexpr const char *readdir_name = "readdir";
#endif

// Replaces readdir of the C library in the whole program: an entry after those that are left can't be read.
extern "C" dirent *readdir(DIR *folder) {
    static const auto next = reinterpret_cast<dirent *(*)(DIR *)>(dlsym(RTLD_NEXT, readdir_name));
    if (entries_left == 0) {
        errno = EIO;
        return nullptr;
    }
    if (entries_left > 0) entries_left--;
    return next(folder);
}

static void folders_are_listed_as_far_as_they_can_be_read() {
    namespace fs = std::filesystem;
    fs::path folder = fs::temp_directory_path() / ("cmap-folders-" + std::to_string(getpid()));
    const Names names{"One", "Two", "Three"};
    for (const auto &name : names) {
        fs::create_directories(folder / ("with" + name));
        std::ofstream(folder / ("with" + name) / name) << "begincidchar <01> 1 endcidchar";
    }
    setenv("CMAP_PATH", folder.c_str(), 1);
    // The folder has five entries in any order; two of them are `.` and `..`.
    for (int entries : {3, 5, all_entries}) {
        int found = 0;
        for (const auto &name : names) {
            entries_left = entries;
            CHECK(!is_unreadable(name));
            entries_left = entries;
            found += hayro::predefined_file(name).has_value();
            entries_left = all_entries;
        }
        CHECK(entries == 3 ? found >= 1 : found == 3);
    }
    unsetenv("CMAP_PATH");
    fs::remove_all(folder);
}

static void files_are_made() {
    hayro::Metadata metadata{"Made-H", "Adobe", "Japan1", 6, hayro::WritingMode::horizontal};
    auto text = hayro::make(metadata, {{hayro::Kind::codespace_range, 2, 0, 0xFFFF, 0, ""},
                                       {hayro::Kind::cid_range, 2, 0x20, 0x7E, 1, ""},
                                       {hayro::Kind::notdef_range, 2, 0, 0x1F, 99, ""},
                                       {hayro::Kind::text_range, 2, 0x41, 0x42, 0, "fi"}});
    CHECK(text && text->substr(0, 14) == "%!PS-Adobe-3.0");
    auto map = hayro::Map::parse(*text);
    CHECK(map && map->cid(0x41, 2) == 0x22u && map->cid(1, 2) == 99u && map->cid_strict(0x20, 2) == 1u);
    CHECK(map->text(0x41) == "fi" && map->text(0x42) == "fj" && !map->text(0x43));
    auto said = map->metadata();
    CHECK(said.name == "Made-H" && said.registry == "Adobe" && said.ordering == "Japan1");
    CHECK(said.supplement == 6 && said.writing_mode == hayro::WritingMode::horizontal);
    auto nothing = hayro::make({}, {});
    CHECK(nothing && !hayro::Map::parse(*nothing)->name() && !hayro::Map::parse(*nothing)->registry());
    CHECK(!hayro::make({}, {{hayro::Kind::text_range, 2, 0x41, 0x41, 0, "\xC3"}}));
    CHECK(!hayro::make({"A B", {}, {}, {}, {}}, {}));
}

static void maps_are_written() {
    auto base = "begincodespacerange <0000> <FFFF> endcodespacerange begincidrange <0000> <00FF> 100 endcidrange"s;
    auto map = hayro::Map::parse("/Base usecmap begincidchar <0041> 7 endcidchar", {{"Base", base}});
    auto flat = hayro::Map::parse(hayro::write(*map).value_or("("));
    CHECK(flat && flat->layers() == 1 && flat->cid(0x41, 2) == 7u && flat->cid(0x42, 2) == 166u);
    auto some = hayro::Map::parse(hayro::write(*map, {{0x41, 0x41, 2}, {0, 1, 2}}).value_or("("));
    CHECK(some && some->cid(0x41, 2) == 7u && some->cid(1, 2) == 101u && !some->cid(0x42, 2));
    CHECK(!hayro::write(*map, {{0, 1, 5}}));
    hayro::Map empty;
    CHECK(!hayro::write(empty));
    auto torn = hayro::Map::parse("/Base usecmap beginbfchar <41> <0062> endbfchar",
                                  {{"Base", "begincidchar <41> 5 endcidchar"}});
    CHECK(torn && torn->cid(0x41, 1) == 0x62u && !hayro::write(*torn));
}

// The CIDs of codes of two bytes.
static std::vector<std::optional<hayro::Cid>> cids_of(hayro::Map &map, std::initializer_list<std::uint32_t> codes) {
    std::vector<std::optional<hayro::Cid>> cids;
    for (auto code : codes) cids.push_back(map.cid_strict(code, 2));
    return cids;
}

static void files_stand_on_a_base() {
    using Cids = std::vector<std::optional<hayro::Cid>>;
    auto base = map_of(any_two_bytes + "begincidrange <0040> <004F> 100 endcidrange");
    for (auto uses : {"/Identity-H usecmap ", "/A usecmap /B usecmap /A usecmap ", ""}) {
        auto map = hayro::Map::parse_with_base(uses + "begincidchar <0041> 7 endcidchar"s, base);
        CHECK(map && *map && cids_of(**map, {0x41, 0x42, 0x50}) == (Cids{7, 102, std::nullopt}));
    }
    auto second = *hayro::Map::parse_with_base("/Base usecmap begincidchar <0041> 7 endcidchar", base).value();
    auto third = *hayro::Map::parse_with_base("/Base usecmap begincidchar <0042> 8 endcidchar", second).value();
    CHECK(cids_of(third, {0x40, 0x41, 0x42, 0x43}) == (Cids{100, 7, 8, 103}));

    // The offset of a refusal is the offset in the text.
    const std::pair<const char *, std::size_t> refusals[] = {{"begincidchar <01> x", 19},
                                                             {"/A usecmap begincidchar <01> x", 30}};
    for (auto [text, offset] : refusals) {
        auto refused = hayro::Map::parse_with_base(text, base);
        CHECK(refused && !*refused && refused->refusal().offset() == offset && refused->refusal().names().empty());
    }
    auto torn = hayro::Map::parse("/Base usecmap beginbfchar <41> <0062> endbfchar",
                                  {{"Base", "begincidchar <41> 5 endcidchar"}});
    CHECK(!hayro::Map::parse_with_base("", *torn));

    const std::size_t of_base = hayro::write(base).value_or("").size();
    for (auto text : {"/A usecmap"s, "% nothing"s}) {
        auto within = [&](std::size_t bytes) { return hayro::Map::parse_with_base(text, base, bytes).value(); };
        CHECK(within(text.size() + of_base));
        auto over = within(text.size() + of_base - 1);
        CHECK(!over && over.refusal().cause() == hayro::Cause::past_budget);
    }
}

static void the_first_writing_mode_counts() {
    auto vertical = hayro::Map::identity(hayro::WritingMode::vertical);
    auto over = *hayro::Map::parse_with_base("", vertical).value();
    CHECK(!over.writing_mode() && over.effective_writing_mode() == hayro::WritingMode::vertical);
    auto other = *hayro::Map::parse_with_base("/WMode 0 def", vertical).value();
    CHECK(other.effective_writing_mode() == hayro::WritingMode::horizontal);
    CHECK(map_of("").effective_writing_mode() == hayro::WritingMode::horizontal);
    CHECK(hayro::Map().effective_writing_mode() == hayro::WritingMode::horizontal);
}

static void threads_share_a_map() {
    auto map = hayro::Map::parse("begincidrange <0000> <FFFF> 5 endcidrange");
    std::vector<std::thread> threads;
    std::array<bool, 4> right{};
    for (std::size_t at = 0; at < right.size(); at++)
        threads.emplace_back([&place = right[at], own = map->share()]() mutable {
            bool all = true;
            for (std::uint32_t code = 0; code < 10000; code++) all = all && own.cid(code, 2) == code + 5;
            place = all;
        });
    for (auto &thread : threads) thread.join();
    for (bool it : right) CHECK(it);
}

static void threads_share_an_extractor() {
    auto any_byte = "begincodespacerange <00> <7F> endcodespacerange "s;
    hayro::Extractor font(map_of(any_byte + "begincidrange <41> <44> 1 endcidrange"),
                          map_of("beginbfchar <41> <0061> endbfchar"), map_of("beginbfchar <0002> <0062> endbfchar"),
                          map_of(any_two_bytes + "begincidchar <0063> 4 endcidchar"));
    std::vector<std::thread> threads;
    std::array<bool, 4> right{};
    for (std::size_t at = 0; at < right.size(); at++)
        threads.emplace_back([&place = right[at], own = font.share()]() mutable {
            bool all = true;
            for (int count = 0; count < 1000; count++) all = all && own.text("AB\x81"s) == "ab\uFFFD";
            // The map from Unicode is shared too: it alone has c.
            place = all && *hayro::Encoder(own).encode("abc") == "ABD";
        });
    for (auto &thread : threads) thread.join();
    for (bool it : right) CHECK(it);
    CHECK(font.share().text("A"s) == "a" && font.text("B"s) == "b");
}

static void threads_share_an_encoder() {
    hayro::Extractor font(map_of("begincodespacerange <00> <7F> endcodespacerange"s),
                          map_of("beginbfrange <41> <43> <0061> endbfrange"s));
    hayro::Encoder encoder(font);
    std::vector<std::thread> threads;
    std::array<bool, 4> right{};
    for (std::size_t at = 0; at < right.size(); at++)
        threads.emplace_back([&place = right[at], own = encoder.share()]() mutable {
            bool all = true;
            for (int count = 0; count < 1000; count++) all = all && *own.encode("abc") == "ABC";
            place = all;
        });
    for (auto &thread : threads) thread.join();
    for (bool it : right) CHECK(it);
}

int main() {
    maps_are_moved();
    files_use_files();
    long_texts_are_whole();
    refusals_say_why();
    an_identity_passes_a_budget();
    files_are_read_past_their_faults();
    parts_at_fault_are_read();
    strings_are_cut();
    strings_have_texts();
    collections_are_found();
    glyphs_are_chosen_by_maps_from_unicode();
    pieces_have_grades();
    texts_are_folded();
    texts_have_strings();
    strings_have_zeros();
    bytes_have_their_lengths();
    layers_are_a_view();
    layers_declare_cids_and_texts();
    warnings_are_found();
    many_declarations_are_whole();
    files_speak_of_themselves();
    bundles_have_files();
    uses_are_named();
    files_are_loaded();
    a_use_of_an_identity_needs_no_file();
    a_loader_wants_files();
    files_are_loaded_past_faults();
    a_loader_past_faults_wants_files();
    predefined_files_are_found();
    folders_are_listed_as_far_as_they_can_be_read();
    files_are_made();
    maps_are_written();
    files_stand_on_a_base();
    the_first_writing_mode_counts();
    threads_share_a_map();
    threads_share_an_extractor();
    threads_share_an_encoder();
    CHECK(!hayro::version().empty());
    std::puts(failed ? "failed" : "ok");
    return failed;
}
