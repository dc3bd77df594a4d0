// CMap files in C++17: they map the character codes of a composite font to CIDs and to Unicode text.
//
//     auto map = hayro::Map::parse(data);
//     if (!map) std::cerr << map.refusal().message() << '\n';
//     else if (auto cid = map->cid(0x3042, 2)) std::cout << *cid << '\n';
//
// The classes wrap hayro_cmap.h and free what they own. A refused file is a value. If memory runs out,
// std::bad_alloc is thrown; predefined_file, open_predefined, find_predefined_collection and encode_lossy
// also throw other exceptions. Without exceptions, such as with -fno-exceptions, the program is aborted in
// these cases. Calls that are noexcept allocate nothing.
//
// - A Map, a Bundle, an Encoder or a Loader can be moved but not copied. A moved-from one is empty, and has no
//   answers.
// - One thread at a time uses one of these: even a lookup isn't const. Other threads use another object of
//   the same map, bundle or encoder, from share(), which copies nothing.
// - Bytes, Files and Span are views of their source, like std::string_view.
// - Texts of codes are std::string in UTF-8; names are std::string of any bytes.
#ifndef HAYRO_CMAP_HPP
#define HAYRO_CMAP_HPP

#include "hayro_cmap.h"

#include <algorithm>
#include <array>
#include <cerrno>
#include <cstddef>
#include <cstdint>
#include <cstdlib>
#include <filesystem>
#include <fstream>
#include <initializer_list>
#include <iterator>
#include <map>
#include <new>
#include <optional>
#include <sstream>
#include <stdexcept>
#include <string>
#include <string_view>
#include <system_error>
#include <type_traits>
#include <utility>
#include <variant>
#include <vector>

namespace hayro {

using Cid = std::uint32_t;
using Code = hayro_cmap_code;
using Codespace = hayro_cmap_codespace;
using CidRange = hayro_cmap_cid_range;
using CodeRange = hayro_cmap_code_range;
using Codes = hayro_cmap_codes;
using Finding = hayro_cmap_finding;
using Status = hayro_cmap_status;

// No budget.
inline constexpr std::uint64_t no_budget = HAYRO_CMAP_NO_BUDGET;

// The most files of a chain, including the top file.
inline constexpr int most_files = 16;

// What a declaration gives its codes.
enum class Kind : std::uint16_t {
    codespace_range = HAYRO_CMAP_CODESPACE_RANGE, // a codespace range, byte by byte
    cid_range = HAYRO_CMAP_CID_RANGE,             // CIDs that count on
    notdef_range = HAYRO_CMAP_NOTDEF_RANGE,       // one CID for all codes that have no other
    text_range = HAYRO_CMAP_TEXT_RANGE            // texts whose last unit of UTF-16 counts on
};

enum class WritingMode { horizontal = HAYRO_CMAP_HORIZONTAL, vertical = HAYRO_CMAP_VERTICAL };

// How well a code stands for a piece of a text, best first.
enum class Grade : std::uint32_t {
    stated = HAYRO_CMAP_GRADE_STATED,         // the ToUnicode CMap has the piece as the text of the code
    canonical = HAYRO_CMAP_GRADE_CANONICAL,   // the code has the CID that the map from Unicode gives
    collection = HAYRO_CMAP_GRADE_COLLECTION, // the map of the collection has the piece for the code's CID
    alike = HAYRO_CMAP_GRADE_ALIKE,           // the same look or meaning; or a variation selector without a code
    national = HAYRO_CMAP_GRADE_NATIONAL      // an ASCII byte that a version of ISO 646 shows as another character
};

// What is wrong with the file at fault.
enum class Cause : std::uint32_t {
    malformed = HAYRO_CMAP_MALFORMED,       // it is outside the grammar
    no_file = HAYRO_CMAP_NO_FILE,           // no file has its name
    chain_length = HAYRO_CMAP_CHAIN_LENGTH, // it would be the seventeenth of a chain
    past_budget = HAYRO_CMAP_PAST_BUDGET    // it has more bytes than are left of the budget
};

// What is wrong at the place where reading a malformed file stopped.
enum class Reason : std::uint16_t {
    none = HAYRO_CMAP_NO_REASON,
    end_within_section = HAYRO_CMAP_END_WITHIN_SECTION, // the file ends within a section
    code_expected = HAYRO_CMAP_CODE_EXPECTED,           // another token than a code
    code_length = HAYRO_CMAP_CODE_LENGTH,               // a code of no or of more than four bytes
    unequal_lengths = HAYRO_CMAP_UNEQUAL_LENGTHS,       // the ends of a codespace range differ in length
    cid_expected = HAYRO_CMAP_CID_EXPECTED,             // another token than a CID
    text_expected = HAYRO_CMAP_TEXT_EXPECTED,           // another token than the text of a code
    bracket_expected = HAYRO_CMAP_BRACKET_EXPECTED,     // another token than the ] after texts
    use_without_name = HAYRO_CMAP_USE_WITHOUT_NAME,     // usecmap without a name before it
    header = HAYRO_CMAP_HEADER,                         // no whole binary file of version 1
    segment_length = HAYRO_CMAP_SEGMENT_LENGTH,         // the last segment is cut short
    segment_type = HAYRO_CMAP_SEGMENT_TYPE,             // a segment of an unknown type
    field = HAYRO_CMAP_FIELD,                           // a field of a segment is cut short
    entry = HAYRO_CMAP_ENTRY,                           // an entry of a segment is cut short
    code_too_large = HAYRO_CMAP_CODE_TOO_LARGE,         // a code of a segment passes 32 bits
    cid_too_large = HAYRO_CMAP_CID_TOO_LARGE,           // a CID of a binary file passes 32 bits
    unclosed_string = HAYRO_CMAP_UNCLOSED_STRING,       // a string isn't closed
    wrong_digit = HAYRO_CMAP_WRONG_DIGIT,               // a hexadecimal string has a byte that is no digit
    stray_delimiter = HAYRO_CMAP_STRAY_DELIMITER        // a ) or > stands alone
};

// What a part at fault is read as, if a text is read past its faults.
enum class ReadAs : std::uint32_t {
    nothing = HAYRO_CMAP_READ_AS_NOTHING,             // it is lost, or the bytes before the fault don't show more
    empty_text = HAYRO_CMAP_READ_AS_EMPTY_TEXT,       // an empty string as the empty text
    extended_code = HAYRO_CMAP_READ_AS_EXTENDED_CODE, // a longer second code of a codespace range, whose first
                                                      // code gets leading bytes 0
};

// A segment of a binary file, by what it holds.
enum class Segment : std::uint16_t {
    none = HAYRO_CMAP_NO_SEGMENT,
    cids = HAYRO_CMAP_CIDS,
    texts = HAYRO_CMAP_TEXTS,
    notdefs = HAYRO_CMAP_NOTDEFS,
    writing_mode = HAYRO_CMAP_MODE,
    codespaces = HAYRO_CMAP_CODESPACES,
    collection = HAYRO_CMAP_COLLECTION
};

// An array of values that someone else owns.
template <class T> class Span {
public:
    constexpr Span() noexcept = default;
    constexpr Span(T *data, std::size_t size) noexcept : data_(data), size_(size) {}
    template <std::size_t Count> constexpr Span(T (&values)[Count]) noexcept : Span(values, Count) {}
    // The values of a container, such as std::vector<T> or std::array<T, N>.
    template <class Container, class = std::enable_if_t<std::is_convertible_v<
                                   decltype(std::declval<Container &>().data()), T *>>>
    constexpr Span(Container &values) noexcept : Span(values.data(), values.size()) {}

    constexpr T *data() const noexcept { return data_; }
    constexpr std::size_t size() const noexcept { return size_; }
    constexpr bool empty() const noexcept { return size_ == 0; }
    constexpr T *begin() const noexcept { return data_; }
    constexpr T *end() const noexcept { return data_ + size_; }
    constexpr T &operator[](std::size_t index) const noexcept { return data_[index]; }

private:
    T *data_ = nullptr;
    std::size_t size_ = 0;
};

// Bytes of a text, or of a container of char, unsigned char or std::byte.
class Bytes {
public:
    constexpr Bytes() noexcept = default;
    Bytes(const void *data, std::size_t size) noexcept : data_(data), size_(size) {}
    Bytes(std::string_view text) noexcept : Bytes(text.data(), text.size()) {}
    Bytes(const std::string &text) noexcept : Bytes(text.data(), text.size()) {}
    // A literal or another constant array, without a zero byte at its end.
    template <std::size_t Count>
    Bytes(const char (&text)[Count]) noexcept
        : Bytes(text, text[Count - 1] == '\0' ? Count - 1 : Count) {}
    // Up to the first zero byte.
    template <std::size_t Count> Bytes(char (&text)[Count]) noexcept : Bytes(std::string_view(text)) {}
    template <class Text, std::enable_if_t<std::is_same_v<Text, const char *> ||
                                               std::is_same_v<Text, char *>, int> = 0>
    Bytes(const Text &text) noexcept : Bytes(std::string_view(text)) {}
    template <std::size_t Count>
    Bytes(const std::uint8_t (&bytes)[Count]) noexcept : Bytes(bytes, Count) {}
    template <class Container,
              class = std::enable_if_t<
                  sizeof(*std::declval<const Container &>().data()) == 1 &&
                  std::is_trivially_copyable_v<
                      std::remove_reference_t<decltype(*std::declval<const Container &>().data())>>>>
    Bytes(const Container &bytes) noexcept : Bytes(bytes.data(), bytes.size()) {}

    // It is never null.
    const std::uint8_t *data() const noexcept { return hayro_cmap_bytes(data_); }
    std::size_t size() const noexcept { return size_; }
    std::string_view text() const noexcept {
        return {reinterpret_cast<const char *>(data()), size_};
    }

private:
    const void *data_ = nullptr;
    std::size_t size_ = 0;
};

// The bytes of a string of codes, among which zeros are common: a std::string, a std::string_view, a container
// of bytes, or a pointer with a length. An array or a pointer of char is rejected, since its length is uncertain:
// write a literal as "\0A"sv.
class CodeString {
public:
    CodeString() noexcept = default;
    CodeString(const void *data, std::size_t size) noexcept : bytes_(data, size) {}
    template <class Text, class = std::enable_if_t<std::is_convertible_v<const Text &, Bytes>>>
    CodeString(const Text &bytes) noexcept : bytes_(bytes) {}
    template <std::size_t Count> CodeString(const char (&text)[Count]) = delete;
    template <class Text, std::enable_if_t<std::is_same_v<Text, const char *> ||
                                               std::is_same_v<Text, char *>, int> = 0>
    CodeString(const Text &text) = delete;

    // It is never null.
    const std::uint8_t *data() const noexcept { return bytes_.data(); }
    std::size_t size() const noexcept { return bytes_.size(); }
    // The string without its first bytes.
    CodeString after(std::size_t count) const noexcept { return {data() + count, size() - count}; }

private:
    Bytes bytes_;
};

// Files by name, for files that use them. If several have one name, the first one counts.
class Files {
public:
    Files() noexcept = default;
    Files(std::initializer_list<std::pair<Bytes, Bytes>> files) {
        for (const auto &[name, bytes] : files) add(name, bytes);
    }
    // Files from pairs of a name and bytes, such as the entries of a std::map<std::string, std::string>.
    template <class Pairs, class = std::enable_if_t<std::is_convertible_v<
                               decltype(std::begin(std::declval<const Pairs &>())->first), Bytes>>>
    Files(const Pairs &files) {
        for (const auto &[name, bytes] : files) add(name, bytes);
    }

    // Adds a file.
    void add(Bytes name, Bytes bytes) {
        files_.push_back({name.data(), name.size(), bytes.data(), bytes.size()});
    }
    // The first file of this name.
    std::optional<Bytes> find(Bytes name) const noexcept {
        for (const auto &file : files_)
            if (Bytes(file.name, file.name_len).text() == name.text())
                return Bytes(file.bytes, file.bytes_len);
        return std::nullopt;
    }
    // It is never null.
    const hayro_cmap_file *data() const noexcept { return hayro_cmap_files(files_.data()); }
    std::size_t size() const noexcept { return files_.size(); }

private:
    std::vector<hayro_cmap_file> files_;
};

namespace detail {

// What finds files by their names.
template <class Get>
using Finds = std::enable_if_t<std::is_invocable_v<Get &, std::string &>>;

// A handle of the library, which is freed once.
template <class Handle, void (*free)(Handle *)> class Owned {
public:
    Owned() noexcept = default;
    Owned(Owned &&other) noexcept : handle_(std::exchange(other.handle_, Handle HAYRO_CMAP_EMPTY)) {}
    Owned &operator=(Owned &&other) noexcept {
        Owned taken(std::move(other));
        std::swap(handle_, taken.handle_);
        return *this;
    }
    ~Owned() { free(&handle_); }

    Handle *get() noexcept { return &handle_; }
    const Handle *get() const noexcept { return &handle_; }

private:
    Handle handle_ = HAYRO_CMAP_EMPTY;
};

// Throws a fault, or aborts the program if it is built without exceptions.
template <class Fault> [[noreturn]] void raise(const Fault &fault) {
#ifdef __cpp_exceptions
    throw fault;
#else
    static_cast<void>(fault);
    std::abort();
#endif
}

inline Status with_memory(Status status) {
    if (status == HAYRO_CMAP_NO_MEMORY) raise(std::bad_alloc());
    return status;
}

// A pointer that isn't null, even if a span has no values.
template <class T> T *room_of(Span<T> room) noexcept {
    static T none{};
    return room.data() ? room.data() : &none;
}

inline std::uint8_t *room_of(std::string &room) noexcept { return hayro_cmap_room(room.data()); }

// What a call writes to a buffer; it is called again if the first buffer is too short.
template <class Ask> std::optional<std::string> written_to(std::string room, Ask ask) {
    for (;;) {
        std::size_t needed = 0;
        Status status = with_memory(ask(room_of(room), room.size(), &needed));
        if (status != HAYRO_CMAP_OK && status != HAYRO_CMAP_NO_ROOM) return std::nullopt;
        room.resize(needed);
        if (status == HAYRO_CMAP_OK) return room;
    }
}

// The same for answers that are mostly short: the first buffer is on the stack.
template <class Ask> std::optional<std::string> written(Ask ask) {
    std::uint8_t first[64];
    std::size_t needed = 0;
    Status status = with_memory(ask(first, sizeof first, &needed));
    if (status == HAYRO_CMAP_OK) return std::string(reinterpret_cast<const char *>(first), needed);
    if (status != HAYRO_CMAP_NO_ROOM) return std::nullopt;
    return written_to(std::string(needed, '\0'), ask);
}

// The values that a call writes to a buffer; it is called again if the first buffer is too short. None if
// there is no answer.
template <class T, class Ask>
std::vector<T> listed(Ask ask, std::vector<T> values = std::vector<T>(8)) {
    for (;;) {
        std::size_t needed = 0;
        Status status = with_memory(ask(values.data(), values.size(), &needed));
        values.resize(needed);
        if (status != HAYRO_CMAP_NO_ROOM) return values;
    }
}

// Names, one after another.
inline std::vector<std::string> split(std::string_view room, Span<const std::size_t> lens) {
    std::vector<std::string> names;
    for (std::size_t len : lens) {
        names.emplace_back(room.substr(0, len));
        room.remove_prefix(len);
    }
    return names;
}

inline std::optional<WritingMode> mode_of(hayro_cmap_mode mode) noexcept {
    if (mode == HAYRO_CMAP_NO_MODE) return std::nullopt;
    return static_cast<WritingMode>(mode);
}

} // namespace detail

// Predefined CMap files, which other files use by name, and the tables of the binary form.
class Bundle {
public:
    // No bundle.
    Bundle() noexcept = default;

    // The bundle of these bytes, which are copied; nothing if they are invalid.
    static std::optional<Bundle> open(Bytes bytes) {
        Bundle bundle;
        Status status = hayro_cmap_bundle_open(bundle.handle(), bytes.data(), bytes.size());
        if (detail::with_memory(status) != HAYRO_CMAP_OK) return std::nullopt;
        return bundle;
    }

    // Another object of the same bundle, for another thread.
    Bundle share() {
        Bundle other;
        detail::with_memory(hayro_cmap_bundle_share(handle(), other.handle()));
        return other;
    }

    // The bytes of the file of a name.
    std::optional<std::string> file(Bytes name) {
        return detail::written([&](auto room, auto len, auto needed) {
            return hayro_cmap_bundle_file(handle(), name.data(), name.size(), room, len, needed);
        });
    }

    // Whether there is no bundle.
    bool empty() const noexcept { return !handle_.get()->full; }

    // The handle, for the calls of hayro_cmap.h. The bundle still owns it.
    hayro_cmap_bundle *handle() noexcept { return handle_.get(); }

private:
    detail::Owned<hayro_cmap_bundle, hayro_cmap_bundle_free> handle_;
};

// Why a file gives no map.
class Refusal {
public:
    Refusal(const hayro_cmap_fault &fault, std::string_view names)
        : fault_(fault), names_(detail::split(names, {fault.name_lens, fault.names})) {}

    // What is wrong with the file at fault.
    Cause cause() const noexcept { return static_cast<Cause>(fault_.cause); }

    // What is wrong with a malformed file; otherwise Reason::none.
    Reason reason() const noexcept { return static_cast<Reason>(fault_.reason); }

    // The segment of a malformed binary file, if the reason concerns one; otherwise Segment::none.
    Segment segment() const noexcept { return static_cast<Segment>(fault_.segment); }

    // Where reading a malformed file stopped, in bytes.
    std::optional<std::size_t> offset() const noexcept {
        return cause() == Cause::malformed ? std::optional(fault_.offset) : std::nullopt;
    }

    // The line of the offset in the text at fault: one more than the line ends (LF, CR or CRLF) before it.
    // Absent for a binary file.
    std::optional<std::size_t> line(Bytes file) const noexcept {
        std::string_view text(reinterpret_cast<const char *>(file.data()), file.size());
        if (!offset() || text.substr(0, 5) == "bcmap") return std::nullopt;
        std::size_t line = 1;
        char last = 0;
        for (char byte : text.substr(0, *offset())) {
            if (byte == '\r' || (byte == '\n' && last != '\r')) line++;
            last = byte;
        }
        return line;
    }

    // The names that lead to the file at fault, each used by the file before it; none if the fault is in
    // the file itself.
    const std::vector<std::string> &names() const noexcept { return names_; }

    // What is wrong, in English, such as "byte 27: a CID was expected", without the names.
    std::string message() const {
        auto text = detail::written([&](auto room, auto len, auto needed) {
            return hayro_cmap_message(&fault_, room, len, needed);
        });
        return std::move(text).value_or("");
    }

    // What the part at fault is read as, if `file`, the text at fault, is read past this fault.
    ReadAs read_as(Bytes file) const noexcept {
        return static_cast<ReadAs>(hayro_cmap_read_as(&fault_, file.data(), file.size()));
    }

private:
    hayro_cmap_fault fault_;
    std::vector<std::string> names_;
};

// The name of a hayro_cmap_warning, such as no-codespace; empty for a number that no warning has.
inline std::string warning_name(std::uint32_t warning) {
    auto name = detail::written([&](auto room, auto len, auto needed) {
        return hayro_cmap_warning_name(warning, room, len, needed);
    });
    return std::move(name).value_or("");
}

class Layers;
class Result;
struct Salvaged;

// How far a string is decoded.
struct Decoded {
    std::size_t made;  // how many codes are written
    std::size_t taken; // how many bytes of the string they have
    bool whole;        // whether that is the whole string
};

// The metadata of a file. Members that the file doesn't give are absent.
struct Metadata {
    std::optional<std::string> name;
    std::optional<std::string> registry;
    std::optional<std::string> ordering;
    std::optional<std::int32_t> supplement;
    std::optional<WritingMode> writing_mode;
};

// A declaration of texts for the codes from `first` to `last`; for none if `first` is greater.
struct TextRange {
    std::uint32_t first;
    std::uint32_t last;
    // The text of `first` as the file has it, so a surrogate may stand alone. From code to code the last
    // unit counts on.
    std::u16string units;
};

// A declaration of a file that is made, for the codes of `byte_len` bytes from `first` to `last`.
struct Declaration {
    Kind kind;
    std::uint16_t byte_len;
    std::uint32_t first;
    std::uint32_t last;
    Cid cid = 0;      // the CID of `first`, for a notdef of all codes
    std::string text; // the text of `first`, in UTF-8
};

// The map of a CMap file: CIDs and texts for the codes of a font.
class Map {
public:
    // An empty map, which has no answers.
    Map() noexcept = default;

    // Reads a CMap file over the files that it uses. A name stands for the first of `files` with this
    // name, otherwise for the file of the bundle; Identity-H and Identity-V need no file. The opened files
    // together may have at most `budget` bytes; each file counts as often as it is used. Files of the bundle
    // count only if they are used. If no file has their names, Identity-H and Identity-V count 177 bytes
    // each.
    static Result parse(Bytes data, const Files &files = {}, std::uint64_t budget = no_budget);
    // The same over an open bundle.
    static Result parse(Bytes data, Bundle &bundle, const Files &files = {},
                        std::uint64_t budget = no_budget);

    // Reads a CMap file as parse does, over files that are looked up when they are wanted. `get` takes a name, a
    // std::string, and returns a std::optional of the bytes of the file. It is called once for each name, in the
    // order in which files are opened, and not after a fault.
    template <class Get> static Result load(Bytes data, Get get, std::uint64_t budget = no_budget);
    // The same over an open bundle, whose file counts if `get` has none.
    template <class Get>
    static Result load(Bytes data, Bundle &bundle, Get get, std::uint64_t budget = no_budget);

    // Reads the file of a name, so that the map has its metadata. There is no answer if no file has the
    // name.
    static std::optional<Result> open(Bytes name, const Files &files = {},
                                      std::uint64_t budget = no_budget);
    // The same over an open bundle.
    static std::optional<Result> open(Bytes name, Bundle &bundle, const Files &files = {},
                                      std::uint64_t budget = no_budget);

    // Reads a CMap text over a base, such as the one that UseCMap of a stream in a PDF file names (ISO 32000-1,
    // 9.7.5.3). Each name that the text uses stands for the base, and a text that uses none is over it, too. The
    // base counts as the one file that write makes of it. There is no answer if write makes none.
    static std::optional<Result> parse_with_base(Bytes data, Map &base, std::uint64_t budget = no_budget);

    // Reads the predefined CMap file of a name and the files that it uses, as predefined_file finds them.
    static std::optional<Result> open_predefined(const std::string &name);

    // Reads a file and the files that it uses past their faults: the map of everything else, and each fault.
    // For a file that parse accepts, the map is the same, without a fault.
    static Salvaged salvage(Bytes data, const Files &files = {}, std::uint64_t budget = no_budget);
    // The same over an open bundle.
    static Salvaged salvage(Bytes data, Bundle &bundle, const Files &files = {},
                            std::uint64_t budget = no_budget);
    // The same over files that are looked up as by load. `get` is called after a fault, too, but not after a chain
    // of more than 16 files.
    template <class Get, class = detail::Finds<Get>>
    static Salvaged salvage(Bytes data, Get get, std::uint64_t budget = no_budget);
    // The same over an open bundle, whose file counts if `get` has none.
    template <class Get, class = detail::Finds<Get>>
    static Salvaged salvage(Bytes data, Bundle &bundle, Get get, std::uint64_t budget = no_budget);

    // Reads a file into this map, without a reason if there is none. The bytes of the bundle, or no bytes,
    // serve only for this file, and aren't copied.
    Status read(Bytes data, Bytes bundle = {}, const Files &files = {},
                std::uint64_t budget = no_budget) {
        return detail::with_memory(hayro_cmap_parse(handle(), data.data(), data.size(),
                                                    bundle.data(), bundle.size(), files.data(),
                                                    files.size(), budget));
    }
    // The same over an open bundle.
    Status read_over(Bytes data, Bundle &bundle, const Files &files = {},
                     std::uint64_t budget = no_budget) {
        return detail::with_memory(hayro_cmap_parse_over(handle(), data.data(), data.size(),
                                                         bundle.handle(), files.data(),
                                                         files.size(), budget));
    }

    // Identity-H, or Identity-V: codes of two bytes are CIDs.
    static Map identity(WritingMode mode) {
        Map map;
        detail::with_memory(hayro_cmap_identity(map.handle(), mode == WritingMode::vertical));
        return map;
    }

    // Another object of the same map, for another thread.
    Map share() {
        Map other;
        detail::with_memory(hayro_cmap_share(handle(), other.handle()));
        return other;
    }

    // Whether there is no map.
    bool empty() const noexcept { return !handle_.get()->full; }

    // The CID of a code of `byte_len` bytes. Codespace ranges are ignored.
    std::optional<Cid> cid(std::uint32_t code, std::uint8_t byte_len) noexcept {
        Cid cid;
        return hayro_cmap_cid(handle(), code, byte_len, &cid) ? std::optional(cid) : std::nullopt;
    }

    // The same for a code in a codespace range of its length; other codes have no CID.
    std::optional<Cid> cid_strict(std::uint32_t code, std::uint8_t byte_len) noexcept {
        Cid cid;
        return hayro_cmap_cid_strict(handle(), code, byte_len, &cid) ? std::optional(cid)
                                                                     : std::nullopt;
    }

    // Writes the CIDs of the codes from `first` on, and `absent` for codes without one. It returns whether
    // there is a map.
    bool cids(std::uint32_t first, std::uint8_t byte_len, Cid absent, Span<Cid> cids) noexcept {
        return hayro_cmap_cids(handle(), first, byte_len, absent, detail::room_of(cids),
                               cids.size());
    }

    // Cuts a string into as many codes as fit, each with its CID. To continue, pass the rest of the
    // string.
    Decoded decode(CodeString string, Span<Code> codes) noexcept {
        Decoded decoded{};
        Status status =
            hayro_cmap_decode(handle(), string.data(), string.size(), detail::room_of(codes),
                              codes.size(), &decoded.made, &decoded.taken);
        decoded.whole = status == HAYRO_CMAP_OK;
        return decoded;
    }

    // All codes of a string.
    std::vector<Code> decode(CodeString string) {
        std::vector<Code> codes;
        Code room[64];
        for (bool more = true; more;) {
            Decoded decoded = decode(string, room);
            codes.insert(codes.end(), room, room + decoded.made);
            more = !decoded.whole && decoded.taken > 0;
            string = string.after(decoded.taken);
        }
        return codes;
    }

    // The text of a code, in UTF-8.
    std::optional<std::string> text(std::uint32_t code) {
        return detail::written([&](auto room, auto len, auto needed) {
            return hayro_cmap_text(handle(), code, room, len, needed);
        });
    }

    // The name of the file.
    std::optional<std::string> name() { return text_of(hayro_cmap_name); }
    // The registry of the file's character collection, such as Adobe.
    std::optional<std::string> registry() { return text_of(hayro_cmap_registry); }
    // The ordering of the file's character collection, such as Japan1.
    std::optional<std::string> ordering() { return text_of(hayro_cmap_ordering); }
    // The supplement of the file's character collection.
    std::optional<std::int32_t> supplement() noexcept {
        std::int32_t number;
        return hayro_cmap_supplement(handle(), &number) ? std::optional(number) : std::nullopt;
    }
    // The writing mode of the file.
    std::optional<WritingMode> writing_mode() noexcept {
        return detail::mode_of(hayro_cmap_writing_mode(handle()));
    }
    // The writing mode of the first layer that gives one, otherwise horizontal.
    WritingMode effective_writing_mode() noexcept {
        auto mode = detail::mode_of(hayro_cmap_effective_writing_mode(handle()));
        return mode.value_or(WritingMode::horizontal);
    }

    // The layers: layer 0 is the file itself, layer 1 the file that it is based on, and so on. The result is a
    // view, and converts to the number of layers.
    Layers layers() & noexcept;
    Layers layers() && = delete;

    // The metadata of the file of a layer.
    Metadata metadata(std::size_t layer = 0) {
        std::int32_t number;
        bool numbered = hayro_cmap_layer_supplement(handle(), layer, &number);
        return {text_of(hayro_cmap_layer_name, layer), text_of(hayro_cmap_layer_registry, layer),
                text_of(hayro_cmap_layer_ordering, layer),
                numbered ? std::optional(number) : std::nullopt,
                detail::mode_of(hayro_cmap_layer_writing_mode(handle(), layer))};
    }

    // The codespace ranges of a layer, in order; none if there is no such layer.
    std::vector<Codespace> codespaces(std::size_t layer = 0) {
        return detail::listed<Codespace>([&](auto room, auto len, auto needed) {
            return hayro_cmap_codespaces(handle(), layer, room, len, needed);
        });
    }

    // The declarations of CIDs of a layer for codes of `byte_len` bytes, in the order of its file; none if
    // there is no such layer. The CIDs count on from code to code.
    std::vector<CidRange> cid_ranges(std::uint8_t byte_len, std::size_t layer = 0) {
        return detail::listed<CidRange>([&](auto room, auto len, auto needed) {
            return hayro_cmap_cid_ranges(handle(), layer, byte_len, room, len, needed);
        });
    }

    // The same for notdefs. All codes of one have the same CID.
    std::vector<CidRange> notdef_ranges(std::uint8_t byte_len, std::size_t layer = 0) {
        return detail::listed<CidRange>([&](auto room, auto len, auto needed) {
            return hayro_cmap_notdef_ranges(handle(), layer, byte_len, room, len, needed);
        });
    }

    // The declarations of texts of a layer, in the order of its file; none if there is no such layer.
    std::vector<TextRange> text_ranges(std::size_t layer = 0) {
        auto declared = detail::listed<hayro_cmap_text_range>([&](auto room, auto len, auto needed) {
            return hayro_cmap_text_ranges(handle(), layer, room, len, needed);
        });
        std::vector<TextRange> ranges;
        for (const auto &range : declared)
            ranges.push_back({range.first, range.last, text_units(layer, ranges.size())});
        return ranges;
    }

    // All codes that have this CID, as cid gives it for codes of `byte_len` bytes: ranges in order, each as
    // long as possible. They include declared codes that don't fit in `byte_len` bytes.
    std::vector<CodeRange> codes_of_cid(Cid cid, std::uint8_t byte_len) {
        return detail::listed<CodeRange>([&](auto room, auto len, auto needed) {
            return hayro_cmap_codes_of_cid(handle(), cid, byte_len, room, len, needed);
        });
    }

    // What looks wrong in the file: the warnings of `cmap check --lint`, each at most once. `text` is the
    // file, if it is a text: without it there is no warning about the spelling of a text. `shown` has the
    // codes that are shown with the font, in ascending order, each once.
    std::vector<Finding> lint(Bytes text = {}, bool to_unicode = false,
                              Span<const std::uint32_t> shown = {}) {
        return detail::listed<Finding>([&](auto room, auto len, auto needed) {
            return hayro_cmap_lint(handle(), text.data(), text.size(), to_unicode,
                                   hayro_cmap_shown(shown.data()), shown.size(), room, len, needed);
        });
    }

    // The handle, for the calls of hayro_cmap.h. The map still owns it.
    hayro_cmap *handle() noexcept { return handle_.get(); }

private:
    template <class Call, class... Layer>
    std::optional<std::string> text_of(Call call, Layer... layer) {
        return detail::written([&](auto room, auto len, auto needed) {
            return call(handle(), layer..., room, len, needed);
        });
    }

    std::u16string text_units(std::size_t layer, std::size_t index) {
        auto units = detail::listed<std::uint16_t>([&](auto room, auto len, auto needed) {
            return hayro_cmap_text_units(handle(), layer, index, room, len, needed);
        });
        return {units.begin(), units.end()};
    }

    detail::Owned<hayro_cmap, hayro_cmap_free> handle_;
};

// What one file of a map declares. It is a view of the map, and owns nothing.
class Layer {
public:
    Layer(Map &map, std::size_t index) noexcept : map_(&map), index_(index) {}

    // The metadata of the file.
    Metadata metadata() const { return map_->metadata(index_); }
    // The codespace ranges, in order.
    std::vector<Codespace> codespaces() const { return map_->codespaces(index_); }
    // The declarations of CIDs for codes of `byte_len` bytes.
    std::vector<CidRange> cid_ranges(std::uint8_t byte_len) const {
        return map_->cid_ranges(byte_len, index_);
    }
    // The declarations of notdefs for codes of `byte_len` bytes.
    std::vector<CidRange> notdef_ranges(std::uint8_t byte_len) const {
        return map_->notdef_ranges(byte_len, index_);
    }
    // The declarations of texts.
    std::vector<TextRange> text_ranges() const { return map_->text_ranges(index_); }

private:
    Map *map_;
    std::size_t index_;
};

// The layers of a map. It is a view: the map must stay.
class Layers {
public:
    explicit Layers(Map &map) noexcept : map_(&map), size_(hayro_cmap_layers(map.handle())) {}

    class iterator {
    public:
        using iterator_category = std::input_iterator_tag;
        using value_type = Layer;
        using difference_type = std::ptrdiff_t;
        using pointer = void;
        using reference = Layer;

        // An iterator of no map: ranges of C++20 need this constructor.
        iterator() noexcept = default;
        iterator(Map &map, std::size_t index) noexcept : map_(&map), index_(index) {}
        Layer operator*() const noexcept { return {*map_, index_}; }
        iterator &operator++() noexcept {
            ++index_;
            return *this;
        }
        iterator operator++(int) noexcept { return {*map_, index_++}; }
        bool operator==(const iterator &other) const noexcept { return index_ == other.index_; }
        bool operator!=(const iterator &other) const noexcept { return index_ != other.index_; }

    private:
        Map *map_ = nullptr;
        std::size_t index_ = 0;
    };

    iterator begin() const noexcept { return {*map_, 0}; }
    iterator end() const noexcept { return {*map_, size_}; }
    Layer operator[](std::size_t index) const noexcept { return {*map_, index}; }
    std::size_t size() const noexcept { return size_; }
    bool empty() const noexcept { return size_ == 0; }
    operator std::size_t() const noexcept { return size_; }

private:
    Map *map_;
    std::size_t size_;
};

inline Layers Map::layers() & noexcept { return Layers(*this); }

// The text of a CMap file with this metadata, and with the fewest declarations that give each code the same as the
// given ones. A registry without an ordering is left out, and so is an ordering without a registry. Nothing if no
// file can express it: a code length outside 1 to 4, a text that is empty or isn't UTF-8, a code that doesn't fit in
// its length, or a name with a byte that no name has.
inline std::optional<std::string> make(const Metadata &metadata,
                                       const std::vector<Declaration> &declarations) {
    const std::string none;
    const bool has_collection = metadata.registry && metadata.ordering;
    const Bytes name = metadata.name ? *metadata.name : none,
                registry = has_collection ? *metadata.registry : none,
                ordering = has_collection ? *metadata.ordering : none;
    const hayro_cmap_facts facts = {
        name.data(), name.size(), registry.data(), registry.size(), ordering.data(), ordering.size(),
        metadata.supplement.value_or(0), metadata.name.has_value(), has_collection,
        static_cast<std::uint16_t>(metadata.writing_mode
                                       ? static_cast<hayro_cmap_mode>(*metadata.writing_mode)
                                       : HAYRO_CMAP_NO_MODE)};
    std::vector<hayro_cmap_declaration> given;
    for (const auto &it : declarations) {
        Bytes text = it.text;
        given.push_back({static_cast<std::uint16_t>(it.kind), it.byte_len, it.first, it.last, it.cid,
                         text.data(), text.size()});
    }
    return detail::written([&](auto room, auto len, auto needed) {
        return hayro_cmap_make(&facts, hayro_cmap_declarations(given.data()), given.size(), room, len,
                               needed);
    });
}

// The text of one CMap file that has the answers of the map for each code, or only for `codes`, if these aren't
// empty. Nothing if no single file has these answers, or the map is empty.
inline std::optional<std::string> write(Map &map, const std::vector<Codes> &codes = {}) {
    return detail::written([&](auto room, auto len, auto needed) {
        return hayro_cmap_write(map.handle(), hayro_cmap_chosen(codes.data()), codes.size(), room, len,
                                needed);
    });
}

// A code of a string of a font.
struct Character {
    // The code, and the CID that the font's CMap declares for it, never a Unicode number.
    Code code;
    // Its text, in UTF-8.
    std::optional<std::string> text;
};

// The name of the map from Unicode, in UTF-16, to the CIDs of a character collection: for Adobe-Japan1
// UniJIS-UTF16-H, and UniJIS-UTF16-V for vertical writing. Nothing if the collection has none.
inline std::optional<std::string> unicode_name(Bytes collection,
                                               WritingMode mode = WritingMode::horizontal) {
    return detail::written([&](auto room, auto len, auto needed) {
        return hayro_cmap_unicode_name(collection.data(), collection.size(),
                                       static_cast<std::uint32_t>(mode), room, len, needed);
    });
}

// A text in the characters that are usually written for what it shows, as hayro_cmap_fold gives it, so that it can be
// searched and split: without variation selectors and presentation forms, with usual spaces and punctuation. Nothing if
// the text isn't UTF-8.
inline std::optional<std::string> fold(Bytes text) {
    std::size_t offset = 0;
    return detail::written_to(std::string(text.size(), '\0'), [&](auto room, auto len, auto needed) {
        return hayro_cmap_fold(text.data(), text.size(), room, len, needed, &offset);
    });
}

// Which maps of a character collection were found.
struct FoundCollection {
    bool to_unicode = false;        // the map to Unicode
    bool from_unicode = false;      // the map from Unicode
    std::optional<Refusal> refusal; // of the first file that is refused
};

// The maps of a font, which give the texts of its strings (ISO 32000-1, 9.10.2): its CMap, its ToUnicode CMap, and a
// map from the CIDs of its character collection to Unicode. The fourth map, from Unicode to CIDs, gives an Encoder
// the glyphs of characters. An empty map stands for a missing one. If one map serves twice, share() gives another
// object of it.
class Extractor {
public:
    // Takes these maps.
    explicit Extractor(Map encoding, Map to_unicode = {}, Map collection = {},
                       Map unicode = {}) noexcept
        : encoding_(std::move(encoding)), to_unicode_(std::move(to_unicode)),
          collection_(std::move(collection)), unicode_(std::move(unicode)) {}

    // For a simple font, which has no CMap: its codes are bytes (ISO 32000-1, 9.6).
    static Extractor simple(Map to_unicode = {});

    // Takes the two maps of a character collection, such as Adobe-Japan1, by default the one that the encoding
    // names: the map to Unicode, such as Adobe-Japan1-UCS2, and the map from Unicode that unicode_name names, or
    // the encoding itself if its name begins with Uni. Map::open reads each. If there is no such file, the
    // present map stays. The answer tells which maps were taken, and has the first refusal.
    FoundCollection find_collection(const Files &files, const std::string &collection = {});
    // The same over an open bundle.
    FoundCollection find_collection(Bundle &bundle, const Files &files = {},
                                    const std::string &collection = {});

    // The same with the predefined CMap files, as Map::open_predefined reads them.
    FoundCollection find_predefined_collection(const std::string &collection = {});

    // Another object of the same maps, for another thread.
    Extractor share() {
        return Extractor(encoding_.share(), to_unicode_.share(), collection_.share(), unicode_.share());
    }

    // All codes of a string. The text of a code comes from the ToUnicode CMap; if this has none for the code,
    // the map of the collection gives the text of the CID.
    std::vector<Character> characters(CodeString string) {
        std::vector<Character> characters;
        hayro_cmap_character room[64];
        std::string text(256, '\0');
        for (;;) {
            hayro_cmap_extracted extracted;
            Status status = hayro_cmap_extract(
                encoding_.handle(), to_unicode_.handle(), collection_.handle(), string.data(),
                string.size(), room, std::size(room), detail::room_of(text), text.size(), &extracted);
            for (const auto &it : Span<hayro_cmap_character>(room, extracted.made))
                characters.push_back({it.code, text_of(it, text)});
            if (detail::with_memory(status) != HAYRO_CMAP_NO_ROOM) return characters;
            if (extracted.made == 0) text.resize(2 * text.size());
            string = string.after(extracted.taken);
        }
    }

    // The text of a string in UTF-8: the texts of its codes, one after another, with `missing`, by default
    // U+FFFD, for each code that has none.
    std::string text(CodeString string, std::string_view missing = "\xEF\xBF\xBD") {
        std::string text;
        for (const auto &it : characters(string)) text += it.text ? std::string_view(*it.text) : missing;
        return text;
    }

    // The same text, folded by fold; `missing` is UTF-8.
    std::string folded_text(CodeString string, std::string_view missing = "\xEF\xBF\xBD") {
        std::string exact = text(string, missing);
        return fold(exact).value_or(exact);
    }

private:
    friend class Encoder;

    // This name of a character collection; if it is empty, the name from the first layer of the encoding that has one.
    std::optional<std::string> collection_of(const std::string &name) {
        if (!name.empty()) return name;
        for (const auto &layer : encoding_.layers())
            if (auto it = layer.metadata(); it.registry && it.ordering)
                return *it.registry + '-' + *it.ordering;
        return std::nullopt;
    }

    bool is_from_unicode() { return encoding_.name().value_or("").substr(0, 3) == "Uni"; }

    // Finds the maps of a collection by their names (ISO 32000-1, 9.10.2).
    template <class Open> FoundCollection find(const std::string &collection, Open open);

    static std::optional<std::string> text_of(const hayro_cmap_character &it,
                                              const std::string &text) {
        if (!it.has_text) return std::nullopt;
        return text.substr(it.text_start, it.text_len);
    }

    Map encoding_;
    Map to_unicode_;
    Map collection_;
    Map unicode_;
};

// A piece of a text, and its code in the string.
struct Piece {
    std::size_t text_len;   // how many bytes the piece has in UTF-8
    std::uint32_t code_len; // how many bytes its code has; 0 for a variation selector without a code
    Grade grade;            // how well the code stands for the piece
};

// The answer for a text, or the offset where the text is refused. As with std::optional, check before access.
template <class Value> class OfText {
public:
    OfText(Value value) noexcept : either_(std::move(value)) {}
    explicit OfText(std::size_t offset) noexcept : either_(offset) {}

    explicit operator bool() const noexcept { return std::holds_alternative<Value>(either_); }
    const Value &operator*() const & noexcept { return *std::get_if<Value>(&either_); }
    // By value, so that a range-based for loop may use a temporary object.
    Value operator*() && noexcept { return std::move(*std::get_if<Value>(&either_)); }
    const Value *operator->() const noexcept { return std::get_if<Value>(&either_); }

    // The end, in bytes, of the longest prefix of the text that can be encoded, or, if the text isn't UTF-8,
    // of the longest prefix that is UTF-8.
    std::size_t offset() const noexcept { return *std::get_if<std::size_t>(&either_); }

private:
    std::variant<Value, std::size_t> either_;
};

// The string of a text; and the pieces of a text.
using Encoded = OfText<std::string>;
using Pieces = OfText<std::vector<Piece>>;

// Finds the strings of texts in a font: the other direction of an Extractor. It keeps no maps of the font.
class Encoder {
public:
    // An empty encoder, which refuses all texts.
    Encoder() noexcept = default;

    // An encoder of a font. An exact one chooses only codes whose texts are the pieces for which they stand.
    explicit Encoder(Extractor &font, bool exact = false) {
        detail::with_memory(hayro_cmap_encoder_build_with(
            handle(), font.encoding_.handle(), font.to_unicode_.handle(), font.collection_.handle(),
            font.unicode_.handle(), exact));
    }

    // Another object of the same encoder, for another thread.
    Encoder share() {
        Encoder other;
        detail::with_memory(hayro_cmap_encoder_share(handle(), other.handle()));
        return other;
    }

    // The string of a text, piece by piece, as hayro_cmap_encode gives it.
    Encoded encode(Bytes text) {
        std::size_t offset = 0;
        auto string = detail::written_to(room_for(text), [&](auto room, auto len, auto needed) {
            return hayro_cmap_encode(handle(), text.data(), text.size(), room, len, needed, &offset);
        });
        if (!string) return Encoded(offset);
        return *std::move(string);
    }

    // The pieces of a text, whose codes encode gives one after another.
    Pieces pieces(Bytes text) {
        std::size_t offset = 0;
        Status status = HAYRO_CMAP_OK;
        auto ask = [&](auto room, auto len, auto needed) {
            status = hayro_cmap_encode_pieces(handle(), text.data(), text.size(), room, len, needed,
                                              &offset);
            return status;
        };
        auto found = detail::listed(ask, std::vector<hayro_cmap_piece>(text.size() + 1));
        if (status != HAYRO_CMAP_OK) return Pieces(offset);
        std::vector<Piece> pieces;
        for (const auto &it : found)
            pieces.push_back({it.text_len, it.code_len, static_cast<Grade>(it.grade)});
        return pieces;
    }

    // The same as far as the text can be encoded: the longest prefix that can be, `missing` for the
    // character after it, and so on for the rest. Nothing if the text isn't UTF-8. Throws
    // std::invalid_argument unless `missing` is empty or whole codes of the font.
    std::optional<std::string> encode_lossy(Bytes text, CodeString missing) {
        auto string = detail::written_to(room_for(text), [&](auto room, auto len, auto needed) {
            return lossy(text, missing, room, len, needed);
        });
        std::uint8_t none{};
        std::size_t needed = 0;
        if (!string && lossy("", missing, &none, 0, &needed) == HAYRO_CMAP_REFUSED)
            detail::raise(std::invalid_argument("missing isn't whole codes of the font"));
        return string;
    }

    // Whether there is no encoder.
    bool empty() const noexcept { return !handle_.get()->full; }

    // The handle, for the calls of hayro_cmap.h. The encoder still owns it.
    hayro_cmap_encoder *handle() noexcept { return handle_.get(); }

private:
    Status lossy(Bytes text, CodeString missing, std::uint8_t *room, std::size_t len, std::size_t *needed) {
        return hayro_cmap_encode_lossy(handle(), text.data(), text.size(), missing.data(),
                                       missing.size(), room, len, needed);
    }

    // Enough for codes of one or two bytes.
    static std::string room_for(Bytes text) { return std::string(2 * text.size(), '\0'); }

    detail::Owned<hayro_cmap_encoder, hayro_cmap_encoder_free> handle_;
};

// A map, or the reason why there is none. As with std::optional, check before access.
class Result {
public:
    Result(Map map) noexcept : either_(std::move(map)) {}
    Result(Refusal refusal) noexcept : either_(std::move(refusal)) {}

    explicit operator bool() const noexcept { return std::holds_alternative<Map>(either_); }
    Map &operator*() & noexcept { return *std::get_if<Map>(&either_); }
    Map &&operator*() && noexcept { return std::move(**this); }
    Map *operator->() noexcept { return std::get_if<Map>(&either_); }
    // Why there is no map.
    const Refusal &refusal() const noexcept { return *std::get_if<Refusal>(&either_); }

private:
    std::variant<Map, Refusal> either_;
};

namespace detail {

// The map that a call makes, or the refusal that it writes; the call is repeated if the buffer for names is too
// short.
template <class Ask> Result result_of(Ask ask) {
    Map map;
    hayro_cmap_fault fault{};
    for (std::string names(64, '\0');;) {
        std::size_t needed = 0;
        Status status = with_memory(ask(map.handle(), &fault, room_of(names), names.size(), &needed));
        if (status != HAYRO_CMAP_REFUSED && status != HAYRO_CMAP_OVER_BUDGET) return map;
        if (needed <= names.size()) return Refusal(fault, names);
        names.resize(needed);
    }
}

} // namespace detail

// Reads a CMap file as Map::parse does, over files that the caller looks up, such as over a network:
//
//     hayro::Loader loader(data);
//     while (auto name = loader.wanted()) loader.supply(look_up(*name));
//     auto map = loader.finish();
//
// Each name is wanted once, in the order in which files are opened, and no name after a fault. Each file is parsed
// once. The loader keeps no bytes of the caller.
class Loader {
public:
    explicit Loader(Bytes data, std::uint64_t budget = no_budget)
        : Loader(hayro_cmap_load, data, Bundle(), budget) {}
    // The same over an open bundle, whose file counts if the caller has none.
    Loader(Bytes data, Bundle &bundle, std::uint64_t budget = no_budget)
        : Loader(hayro_cmap_load, data, bundle.share(), budget) {}

    // The name of the file that is wanted next.
    std::optional<std::string> wanted() {
        return detail::written([&](auto room, auto len, auto needed) {
            return hayro_cmap_wanted(handle(), room, len, needed);
        });
    }

    // Supplies the wanted file. Without one, the file of the bundle counts, and Identity-H and Identity-V need no
    // file. Nothing changes if no file is wanted.
    void supply(std::optional<Bytes> file) {
        const Bytes bytes = file.value_or(Bytes());
        detail::with_memory(
            hayro_cmap_supply(handle(), bundle_.handle(), file.has_value(), bytes.data(), bytes.size()));
    }

    // The map, or why there is none. The caller has none of the files that are still wanted. A map leaves the
    // loader empty, and an empty loader gives an empty map.
    Result finish() {
        supply_nothing();
        return detail::result_of([&](auto map, auto fault, auto room, auto len, auto needed) {
            return hayro_cmap_finish(map, handle(), fault, room, len, needed);
        });
    }

    // Whether there is no loader.
    bool empty() const noexcept { return !handle_.get()->full; }

    // The handle, for the calls of hayro_cmap.h. The loader still owns it.
    hayro_cmap_loader *handle() noexcept { return handle_.get(); }

protected:
    Loader(decltype(&hayro_cmap_load) load, Bytes data, Bundle bundle, std::uint64_t budget)
        : bundle_(std::move(bundle)) {
        detail::with_memory(load(handle(), data.data(), data.size(), bundle_.handle(), budget));
    }

    void supply_nothing() {
        while (wanted()) supply(std::nullopt);
    }

private:
    Bundle bundle_;
    detail::Owned<hayro_cmap_loader, hayro_cmap_loader_free> handle_;
};

// A map, and the faults past which its files were read. The faults of a file are listed once, in the order of their
// offsets, before the faults of the files that it uses.
struct Salvaged {
    Map map;
    std::vector<Refusal> faults;
};

// Reads a CMap file past its faults as Map::salvage does, over files that the caller looks up as for a Loader. Names
// are wanted after a fault, too, but none after a chain of more than 16 files.
class SalvageLoader : private Loader {
public:
    explicit SalvageLoader(Bytes data, std::uint64_t budget = no_budget)
        : Loader(hayro_cmap_load_past_faults, data, Bundle(), budget) {}
    // The same over an open bundle, whose file counts if the caller has none.
    SalvageLoader(Bytes data, Bundle &bundle, std::uint64_t budget = no_budget)
        : Loader(hayro_cmap_load_past_faults, data, bundle.share(), budget) {}

    using Loader::empty, Loader::handle, Loader::supply, Loader::wanted;

    // The map and the faults, which leave the loader empty. The caller has none of the files that are still wanted. An
    // empty loader gives an empty map.
    Salvaged finish() {
        supply_nothing();
        std::vector<Refusal> faults = found_faults();
        return {*Loader::finish(), std::move(faults)};
    }

private:
    std::vector<Refusal> found_faults() {
        std::vector<hayro_cmap_fault> faults(8);
        std::string names(64, '\0');
        std::size_t found = 0, needed = 0;
        for (;;) {
            detail::with_memory(hayro_cmap_found_faults(handle(), faults.data(), faults.size(), &found,
                                                        detail::room_of(names), names.size(), &needed));
            if (found <= faults.size() && needed <= names.size()) break;
            faults.resize(std::max(found, faults.size()));
            names.resize(std::max(needed, names.size()));
        }
        faults.resize(found);
        std::vector<Refusal> refusals;
        std::string_view left = names;
        for (const auto &fault : faults) {
            refusals.emplace_back(fault, left);
            for (const auto &name : refusals.back().names()) left.remove_prefix(name.size());
        }
        return refusals;
    }
};

inline Extractor Extractor::simple(Map to_unicode) {
    auto bytes = Map::parse("begincodespacerange <00> <FF> endcodespacerange");
    return Extractor(*std::move(bytes), std::move(to_unicode));
}

template <class Open>
FoundCollection Extractor::find(const std::string &collection, Open open) {
    FoundCollection found;
    // Opens the file of a name, and moves its map to the place. It returns whether there is a map.
    auto take = [&](Map &place, const std::string &name) {
        std::optional<Result> opened = open(name);
        if (opened && !*opened && !found.refusal) found.refusal = opened->refusal();
        if (!opened || !*opened) return false;
        place = **std::move(opened);
        return true;
    };
    auto name = collection_of(collection);
    if (name) found.to_unicode = take(collection_, *name + "-UCS2");
    if (is_from_unicode()) {
        unicode_ = encoding_.share();
        found.from_unicode = true;
        return found;
    }
    auto mode = encoding_.writing_mode().value_or(WritingMode::horizontal);
    auto from = name ? unicode_name(*name, mode) : std::nullopt;
    if (from) found.from_unicode = take(unicode_, *from);
    return found;
}

inline FoundCollection Extractor::find_collection(Bundle &bundle, const Files &files,
                                                  const std::string &collection) {
    return find(collection, [&](const auto &name) { return Map::open(name, bundle, files); });
}

inline FoundCollection Extractor::find_collection(const Files &files, const std::string &collection) {
    Bundle none;
    return find_collection(none, files, collection);
}

inline FoundCollection Extractor::find_predefined_collection(const std::string &collection) {
    return find(collection, [](const auto &name) { return Map::open_predefined(name); });
}

inline Result Map::parse(Bytes data, Bundle &bundle, const Files &files, std::uint64_t budget) {
    return detail::result_of([&](auto map, auto fault, auto room, auto len, auto needed) {
        return hayro_cmap_explain(map, data.data(), data.size(), bundle.handle(), files.data(),
                                  files.size(), budget, fault, room, len, needed);
    });
}

inline Result Map::parse(Bytes data, const Files &files, std::uint64_t budget) {
    Bundle none;
    return parse(data, none, files, budget);
}

template <class Get>
Result Map::load(Bytes data, Bundle &bundle, Get get, std::uint64_t budget) {
    Loader loader(data, bundle, budget);
    while (auto name = loader.wanted()) loader.supply(get(*name));
    return loader.finish();
}

template <class Get> Result Map::load(Bytes data, Get get, std::uint64_t budget) {
    Bundle none;
    return load(data, none, std::move(get), budget);
}

template <class Get, class>
Salvaged Map::salvage(Bytes data, Bundle &bundle, Get get, std::uint64_t budget) {
    SalvageLoader loader(data, bundle, budget);
    while (auto name = loader.wanted()) loader.supply(get(*name));
    return loader.finish();
}

template <class Get, class> Salvaged Map::salvage(Bytes data, Get get, std::uint64_t budget) {
    Bundle none;
    return salvage(data, none, std::move(get), budget);
}

inline Salvaged Map::salvage(Bytes data, Bundle &bundle, const Files &files, std::uint64_t budget) {
    return salvage(data, bundle, [&](const std::string &name) { return files.find(name); }, budget);
}

inline Salvaged Map::salvage(Bytes data, const Files &files, std::uint64_t budget) {
    Bundle none;
    return salvage(data, none, files, budget);
}

inline std::optional<Result> Map::open(Bytes name, Bundle &bundle, const Files &files,
                                       std::uint64_t budget) {
    if (auto data = files.find(name)) return parse(*data, bundle, files, budget);
    if (auto data = bundle.file(name)) return parse(*data, bundle, files, budget);
    // Identity-H and Identity-V need no file. Only the budget refuses them.
    Map map;
    Status status = hayro_cmap_open(map.handle(), name.data(), name.size(), bundle.handle(),
                                    files.data(), files.size(), budget);
    if (detail::with_memory(status) == HAYRO_CMAP_OK) return map;
    if (status == HAYRO_CMAP_ABSENT) return std::nullopt;
    hayro_cmap_fault fault{};
    fault.cause = HAYRO_CMAP_PAST_BUDGET;
    return Refusal(fault, "");
}

inline std::optional<Result> Map::open(Bytes name, const Files &files, std::uint64_t budget) {
    Bundle none;
    return open(name, none, files, budget);
}

// The names of the files that a file uses, in the order of the uses; nothing if it is outside the grammar.
inline std::optional<std::vector<std::string>> uses(Bytes data, Bundle &bundle) {
    std::vector<std::size_t> lens(4);
    std::string room(64, '\0');
    for (;;) {
        std::size_t names = 0, needed = 0;
        Status status = hayro_cmap_uses(data.data(), data.size(), bundle.handle(),
                                        detail::room_of(Span<std::size_t>(lens)), lens.size(),
                                        &names, detail::room_of(room), room.size(), &needed);
        if (detail::with_memory(status) == HAYRO_CMAP_OK)
            return detail::split(room, {lens.data(), names});
        if (status != HAYRO_CMAP_NO_ROOM) return std::nullopt;
        lens.resize(names);
        room.resize(needed);
    }
}

// The same without a bundle.
inline std::optional<std::vector<std::string>> uses(Bytes data) {
    Bundle none;
    return uses(data, none);
}

inline std::optional<Result> Map::parse_with_base(Bytes data, Map &base, std::uint64_t budget) {
    const auto file = write(base);
    if (!file) return std::nullopt;
    bool is_used = false;
    const auto get = [&](const std::string &) {
        is_used = true;
        return std::optional<Bytes>(*file);
    };
    Result map = load(data, get, budget);
    if (!map || is_used) return map;
    const std::string use = "/UseCMap usecmap\n";
    const std::uint64_t left = no_budget - budget;
    return load(use + std::string(data.text()), get, budget + std::min<std::uint64_t>(use.size(), left));
}

// The files that a file uses, and the files that these use, each requested once: `get` takes a name, a
// std::string, and returns the bytes of its file as a std::optional<std::string>. Files that a file of the
// bundle uses are requested too, but no files that only a malformed file uses. Map::load and Map::salvage request the
// files that they need themselves, if they get a function, and parse each file once.
template <class Get>
std::map<std::string, std::string> used_files(Bytes data, Bundle &bundle, Get get) {
    std::map<std::string, std::string> found, of_bundle;
    std::vector<std::string> row = uses(data, bundle).value_or(std::vector<std::string>());
    // The files that the first file uses, then the files that these use, and so on, up to the length of a chain.
    for (int files = 1; files < most_files && !row.empty(); files++) {
        std::vector<std::string> next;
        for (const auto &name : row) {
            if (found.count(name) + of_bundle.count(name) > 0) continue;
            auto file = get(name);
            auto &place = file ? found : of_bundle;
            if (!file) file = bundle.file(name);
            const auto &bytes = place[name] = std::move(file).value_or("");
            auto names = uses(bytes, bundle).value_or(std::vector<std::string>());
            next.insert(next.end(), names.begin(), names.end());
        }
        row = std::move(next);
    }
    return found;
}

// The same without a bundle.
template <class Get> std::map<std::string, std::string> used_files(Bytes data, Get get) {
    Bundle none;
    return used_files(data, none, std::move(get));
}

namespace detail {

// The bytes of a file, if there is one.
inline std::optional<std::string> bytes_of(const std::filesystem::path &path) {
    std::error_code fault;
    if (!std::filesystem::is_regular_file(path, fault)) return std::nullopt;
    std::ifstream in(path, std::ios::binary);
    std::string bytes;
    std::array<char, 1 << 14> part;
    do {
        in.read(part.data(), part.size());
        bytes.append(part.data(), static_cast<std::size_t>(in.gcount()));
    } while (in);
    // Reading a file to its end sets eofbit; a file that can't be opened or read doesn't set it.
    if (!in.eof())
        raise(std::filesystem::filesystem_error("a CMap file can't be read", path,
                                                std::error_code(errno, std::generic_category())));
    return bytes;
}

// The visible folders in a folder, in order; none if it can't be read.
inline std::vector<std::filesystem::path> subfolders(const std::filesystem::path &folder) {
    std::vector<std::filesystem::path> found;
    std::error_code fault;
    std::filesystem::directory_iterator entry(folder, fault), end;
    for (; !fault && entry != end; entry.increment(fault))
        if (std::error_code none; entry->path().filename().native()[0] != '.' &&
                                  std::filesystem::is_directory(entry->symlink_status(none)))
            found.push_back(entry->path());
    std::sort(found.begin(), found.end());
    return found;
}

// The folders in which predefined CMap files are looked up.
inline std::vector<std::string> predefined_folders() {
    const char *asked = std::getenv("CMAP_PATH");
    if (!asked)
        return {"/usr/share/poppler/cMap", "/var/lib/ghostscript/CMap", "/usr/share/fonts/cmap"};
    std::vector<std::string> folders;
    std::istringstream path(asked);
    for (std::string folder; std::getline(path, folder, ':');)
        if (!folder.empty()) folders.push_back(folder);
    return folders;
}

} // namespace detail

// The predefined CMap file of a name, such as 90ms-RKSJ-H; nothing if the system has none. It is looked up
// in the folders of the environment variable CMAP_PATH, separated by colons, or without the variable where
// packages of Linux put these files; in each folder first, then in its subfolders. No name leads out of these
// folders, to a hidden file, or into a hidden subfolder. Throws std::filesystem::filesystem_error if a file
// can't be read.
inline std::optional<std::string> predefined_file(const std::string &name) {
    if (name.empty() || name[0] == '.' || name.find('/') != std::string::npos ||
        name.find('\0') != std::string::npos)
        return std::nullopt;
    for (const std::filesystem::path folder : detail::predefined_folders()) {
        if (auto bytes = detail::bytes_of(folder / name)) return bytes;
        for (const auto &subfolder : detail::subfolders(folder))
            if (auto bytes = detail::bytes_of(subfolder / name)) return bytes;
    }
    return std::nullopt;
}

inline std::optional<Result> Map::open_predefined(const std::string &name) {
    auto file = predefined_file(name);
    if (!file) return open(name);
    return load(*file, predefined_file);
}

// The version of the library.
inline std::string version() {
    return detail::written(hayro_cmap_version).value_or("");
}

} // namespace hayro

#endif
