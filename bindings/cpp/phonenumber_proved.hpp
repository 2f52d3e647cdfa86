/* Phone numbers for C++17, over phone.h: what is open closes itself, texts are std::string and
 * std::string_view, and a call that may fail gives a `result`. All texts are UTF-8, and all
 * lengths and places count bytes. Memory that the library lacks is the status PHONE_MEMORY;
 * memory that a std::string lacks throws std::bad_alloc.
 *
 *     using namespace phonenumber_proved;
 *     world phones = world::open().value();
 *     number it = phones.parse("03-331 6005", "NZ").value();
 *     std::string text = phones.format(it, mode::international).value();  // +64 3 331 6005
 */
#ifndef PHONENUMBER_PROVED_HPP
#define PHONENUMBER_PROVED_HPP
#include "phone.h"
#include <optional>
#include <stdexcept>
#include <string>
#include <string_view>
#include <utility>
#include <vector>

namespace phonenumber_proved {

/* By whose rules texts are parsed: those of libphonenumber, or of the Rust crate phonenumber 0.3.10. */
enum class rules : std::uint32_t { library = PHONE_LIBRARY, crate = PHONE_CRATE };

/* The format of a number. */
enum class mode : std::uint32_t {
    e164 = PHONE_MODE_E164,
    international = PHONE_MODE_INTERNATIONAL,
    national = PHONE_MODE_NATIONAL,
    rfc3966 = PHONE_MODE_RFC3966
};

/* How a calling code was found. */
enum class source : std::uint8_t {
    plus = PHONE_SOURCE_PLUS,
    idd = PHONE_SOURCE_IDD,
    number = PHONE_SOURCE_NUMBER,
    by_default = PHONE_SOURCE_DEFAULT
};

/* The kinds of numbers. */
enum class kind : std::uint32_t {
    fixed_line = PHONE_KIND_FIXED_LINE,
    mobile = PHONE_KIND_MOBILE,
    fixed_line_or_mobile = PHONE_KIND_FIXED_LINE_OR_MOBILE,
    toll_free = PHONE_KIND_TOLL_FREE,
    premium_rate = PHONE_KIND_PREMIUM_RATE,
    shared_cost = PHONE_KIND_SHARED_COST,
    personal_number = PHONE_KIND_PERSONAL_NUMBER,
    voip = PHONE_KIND_VOIP,
    pager = PHONE_KIND_PAGER,
    uan = PHONE_KIND_UAN,
    emergency = PHONE_KIND_EMERGENCY,
    voicemail = PHONE_KIND_VOICEMAIL,
    short_code = PHONE_KIND_SHORT_CODE,
    standard_rate = PHONE_KIND_STANDARD_RATE,
    carrier = PHONE_KIND_CARRIER,
    no_international = PHONE_KIND_NO_INTERNATIONAL,
    unknown = PHONE_KIND_UNKNOWN
};

/* Whether the count of a number's digits is possible, or why not. */
enum class possibility : std::uint32_t {
    possible = PHONE_LENGTH_POSSIBLE,
    possible_locally = PHONE_LENGTH_POSSIBLE_LOCALLY,
    too_short = PHONE_LENGTH_TOO_SHORT,
    too_long = PHONE_LENGTH_TOO_LONG,
    wrong_length = PHONE_LENGTH_WRONG_LENGTH,
    unknown_code = PHONE_LENGTH_UNKNOWN_CODE
};

/* How like two numbers are. */
enum class match : std::uint32_t {
    exact = PHONE_MATCH_EXACT,
    number = PHONE_MATCH_NUMBER,
    national = PHONE_MATCH_NATIONAL,
    end = PHONE_MATCH_END,
    different = PHONE_MATCH_DIFFERENT
};

/* What is found in a text: by `matches` alone also what has the groups of digits of a format. */
enum class leniency : std::uint32_t {
    possible = PHONE_IF_POSSIBLE,
    valid = PHONE_IF_VALID,
    strict_grouping = PHONE_IF_STRICT_GROUPING,
    exact_grouping = PHONE_IF_EXACT_GROUPING
};

/* The words of a status. */
inline std::string words(phone_status status) {
    std::uint8_t out[128] = {};
    std::size_t wrote = 0;
    phone_status_words(status, out, sizeof out, &wrote);
    return std::string(reinterpret_cast<const char *>(out), wrote < sizeof out ? wrote : 0);
}

/* What `value()` throws of a result that has none. */
class error : public std::runtime_error {
public:
    explicit error(phone_status status) : std::runtime_error(words(status)), status_(status) {}
    phone_status status() const noexcept { return status_; }

private:
    phone_status status_;
};

/* A value, or the status that says why there is none. */
template <typename T> class result {
public:
    result(T value) : value_(std::move(value)), status_(PHONE_OK) {}
    static result refused(phone_status status) { return result(status, nullptr); }

    bool has_value() const noexcept { return value_.has_value(); }
    explicit operator bool() const noexcept { return has_value(); }
    /* PHONE_OK, or why there is no value. */
    phone_status status() const noexcept { return status_; }

    /* The value; throws `error` where there is none. */
    T &value() & { return check(), *value_; }
    const T &value() const & { return check(), *value_; }
    T &&value() && { return check(), std::move(*value_); }
    T value_or(T other) const & { return value_ ? *value_ : std::move(other); }
    T value_or(T other) && { return value_ ? std::move(*value_) : std::move(other); }
    const T &operator*() const & { return *value_; }
    const T *operator->() const { return &*value_; }

private:
    result(phone_status status, std::nullptr_t) : status_(status) {}
    void check() const {
        if (!value_) throw error(status_);
    }
    std::optional<T> value_;
    phone_status status_;
};

namespace inside {
inline const std::uint8_t *bytes(std::string_view text) { return phone_text(text.data(), text.size()); }

/* The text that a call writes into a buffer, once more where the first was too short. */
template <typename Call> result<std::string> text_of(Call call) {
    std::string out(64, '\0');
    for (;;) {
        std::size_t wrote = 0;
        phone_status status = call(reinterpret_cast<std::uint8_t *>(&out[0]), out.size(), &wrote);
        if (status != PHONE_OK && status != PHONE_TOO_SMALL) return result<std::string>::refused(status);
        out.resize(wrote ? wrote : 1);
        if (status == PHONE_OK) return out.resize(wrote), result<std::string>(std::move(out));
    }
}

/* The same of items that are counted. */
template <typename T, typename Call> result<std::vector<T>> items_of(Call call) {
    std::vector<T> out(32);
    for (;;) {
        std::size_t wrote = 0;
        phone_status status = call(out.data(), out.size(), &wrote);
        if (status != PHONE_OK && status != PHONE_TOO_SMALL) return result<std::vector<T>>::refused(status);
        if (status == PHONE_OK) return out.resize(wrote), result<std::vector<T>>(std::move(out));
        out.resize(wrote);
    }
}
} // namespace inside

/* A phone number. */
class number {
public:
    std::uint16_t calling_code() const noexcept { return plain_.code; }
    phonenumber_proved::source source() const noexcept {
        return static_cast<phonenumber_proved::source>(plain_.source);
    }
    /* The national number with its leading zeros. */
    std::string national_number() const { return std::string(plain_.zeros, '0') + std::to_string(plain_.value); }
    std::optional<std::string_view> extension() const { return part(plain_.extension); }
    /* The carrier's selection code, where the text had one. */
    std::optional<std::string_view> carrier() const { return part(plain_.carrier); }

    /* The E.164 text, a key for tables: it has no extension. */
    result<std::string> e164() const {
        return inside::text_of([&](std::uint8_t *out, std::size_t room, std::size_t *wrote) {
            return phone_key(&plain_, out, room, wrote);
        });
    }

    /* One calling code, national number, extension or none. */
    friend bool operator==(const number &left, const number &right) {
        return left.plain_.code == right.plain_.code && left.plain_.value == right.plain_.value &&
               left.plain_.zeros == right.plain_.zeros && left.extension() == right.extension();
    }
    friend bool operator!=(const number &left, const number &right) { return !(left == right); }

    /* The number as phone.h has it, and the bytes in which its texts stand. */
    const phone_number &plain() const noexcept { return plain_; }
    std::string_view texts() const noexcept { return texts_; }

private:
    friend class world;
    number(const phone_number &plain, std::string texts) : plain_(plain), texts_(std::move(texts)) {}
    std::optional<std::string_view> part(const phone_part &it) const {
        if (!it.is_there) return std::nullopt;
        return std::string_view(texts_).substr(it.start, it.len);
    }
    phone_number plain_;
    std::string texts_;
};

/* Open metadata, by whose rules. One call at a time on it: `share` gives other threads theirs. */
class world {
public:
    /* The library's own metadata, of all regions. */
    static result<world> open(rules by = rules::library) {
        world it;
        return it.opened(phone_open_world(&it.handle_, static_cast<std::uint32_t>(by)));
    }
    /* The metadata that these bytes are: JSON, or the compact form. */
    static result<world> open(std::string_view bytes, rules by = rules::library) {
        world it;
        return it.opened(
            phone_open(inside::bytes(bytes), bytes.size(), static_cast<std::uint32_t>(by), &it.handle_));
    }
    /* The newest metadata, and their version: later ones of a folder, which is looked for where it is empty, or
     * the library's own (phone_open_newest). */
    static result<std::pair<world, std::string>> newest(std::string_view folder = {}, rules by = rules::library) {
        world it;
        auto version = inside::text_of([&](std::uint8_t *out, std::size_t room, std::size_t *wrote) {
            return phone_open_newest(&it.handle_, static_cast<std::uint32_t>(by), inside::bytes(folder), folder.size(),
                                     out, room, wrote);
        });
        if (!version) return result<std::pair<world, std::string>>::refused(version.status());
        return std::pair<world, std::string>(std::move(it), std::move(version).value());
    }
    /* A second handle on the same metadata, which copies nothing. */
    result<world> share() {
        world it;
        return it.opened(phone_share(&handle_, &it.handle_));
    }
    result<world> share(rules by) {
        world it;
        return it.opened(phone_share_by(&handle_, static_cast<std::uint32_t>(by), &it.handle_));
    }

    world(world &&other) noexcept : handle_(other.handle_) { other.handle_ = phone_closed(); }
    world &operator=(world &&other) noexcept {
        std::swap(handle_, other.handle_);
        return *this;
    }
    world(const world &) = delete;
    world &operator=(const world &) = delete;
    ~world() { phone_close(&handle_); }

    /* Reads a text as a phone number; `region` is the id of where it was written, as "NZ", or empty. */
    result<number> parse(std::string_view text, std::string_view region = {}) {
        return number_of(text.size(), [&](phone_number *it, std::uint8_t *out, std::size_t room, std::size_t *wrote) {
            return phone_parse(&handle_, inside::bytes(region), region.size(), inside::bytes(text), text.size(), it,
                               out, room, wrote);
        });
    }
    /* The example number of a region and a kind. */
    result<number> example(std::string_view region, kind of) {
        return number_of(32, [&](phone_number *it, std::uint8_t *out, std::size_t room, std::size_t *wrote) {
            return phone_example(&handle_, inside::bytes(region), region.size(), static_cast<std::uint32_t>(of), it,
                                 out, room, wrote);
        });
    }

    result<std::string> format(const number &it, mode how) {
        return inside::text_of([&](std::uint8_t *out, std::size_t room, std::size_t *wrote) {
            return phone_format(&handle_, &it.plain_, inside::bytes(it.texts_), it.texts_.size(),
                                static_cast<std::uint32_t>(how), out, room, wrote);
        });
    }
    /* How a number is dialled from a region. */
    result<std::string> dialled_from(std::string_view region, const number &it) {
        return inside::text_of([&](std::uint8_t *out, std::size_t room, std::size_t *wrote) {
            return phone_dialled_from(&handle_, inside::bytes(region), region.size(), &it.plain_,
                                      inside::bytes(it.texts_), it.texts_.size(), out, room, wrote);
        });
    }
    /* The report line of a line of text, its fields parted by tabs. */
    result<std::string> report(std::string_view line, std::string_view region = {}) {
        return inside::text_of([&](std::uint8_t *out, std::size_t room, std::size_t *wrote) {
            return phone_report(&handle_, inside::bytes(region), region.size(), inside::bytes(line), line.size(), out,
                                room, wrote);
        });
    }

    result<phonenumber_proved::kind> kind_of(const number &it) {
        return told<phonenumber_proved::kind>(
            [&](std::uint32_t *told) { return phone_kind(&handle_, &it.plain_, told); });
    }
    /* The id of a number's region; empty where it has none. */
    result<std::string> region_of(const number &it) {
        return inside::text_of([&](std::uint8_t *out, std::size_t room, std::size_t *wrote) {
            return phone_region(&handle_, &it.plain_, out, room, wrote);
        });
    }
    result<bool> is_valid(const number &it) {
        std::uint8_t told = 0;
        phone_status status = phone_is_valid(&handle_, &it.plain_, &told);
        if (status != PHONE_OK) return result<bool>::refused(status);
        return told != 0;
    }
    result<possibility> possibility_of(const number &it) {
        return told<possibility>([&](std::uint32_t *told) { return phone_possibility(&handle_, &it.plain_, told); });
    }
    /* The same of a text, which may not be whole yet. */
    result<possibility> possibility_of(std::string_view text, std::string_view region = {}) {
        return told<possibility>([&](std::uint32_t *told) {
            return phone_text_possibility(&handle_, inside::bytes(region), region.size(), inside::bytes(text),
                                          text.size(), told);
        });
    }
    /* How like the numbers of two texts are. */
    result<match> compare(std::string_view first, std::string_view second) {
        return told<match>([&](std::uint32_t *told) {
            return phone_compare(&handle_, inside::bytes(first), first.size(), inside::bytes(second), second.size(),
                                 told);
        });
    }

    /* Where numbers stand in a text, in bytes. */
    result<std::vector<phone_place>> find(std::string_view text, std::string_view region = {},
                                          leniency which = leniency::valid) {
        return inside::items_of<phone_place>([&](phone_place *out, std::size_t room, std::size_t *wrote) {
            return phone_find(&handle_, inside::bytes(region), region.size(), static_cast<std::uint32_t>(which),
                              inside::bytes(text), text.size(), out, room, wrote);
        });
    }
    /* Where numbers stand in a text as libphonenumber finds them, in bytes; `tries` is how many candidates and
     * pieces without a number are looked at. */
    result<std::vector<phone_place>> matches(std::string_view text, std::string_view region = {},
                                             leniency which = leniency::valid, std::uint64_t tries = 65535) {
        return inside::items_of<phone_place>([&](phone_place *out, std::size_t room, std::size_t *wrote) {
            return phone_matches(&handle_, inside::bytes(region), region.size(), static_cast<std::uint32_t>(which),
                                 tries, inside::bytes(text), text.size(), out, room, wrote);
        });
    }
    /* The same by alternate formats too, which are open in another world (data/alternates.json). */
    result<std::vector<phone_place>> matches(world &alternates, std::string_view text, std::string_view region = {},
                                             leniency which = leniency::valid, std::uint64_t tries = 65535) {
        return inside::items_of<phone_place>([&](phone_place *out, std::size_t room, std::size_t *wrote) {
            return phone_matches_by(&handle_, &alternates.handle_, inside::bytes(region), region.size(),
                                    static_cast<std::uint32_t>(which), tries, inside::bytes(text), text.size(), out,
                                    room, wrote);
        });
    }
    /* What is shown of a number while it is typed, of all keys so far. */
    result<std::string> typing_shown(std::string_view keys, std::string_view region = {}) {
        return inside::text_of([&](std::uint8_t *out, std::size_t room, std::size_t *wrote) {
            return phone_typing_shown(&handle_, inside::bytes(region), region.size(), inside::bytes(keys), keys.size(),
                                      out, room, wrote);
        });
    }

    /* What libphonenumber's formatter shows while it is typed, of all that was typed so far. */
    result<std::string> keyed_shown(std::string_view typed, std::string_view region = {}) {
        return inside::text_of([&](std::uint8_t *out, std::size_t room, std::size_t *wrote) {
            return phone_keyed_shown(&handle_, inside::bytes(region), region.size(), inside::bytes(typed),
                                     typed.size(), out, room, wrote);
        });
    }
    /* After how many characters of it the n-th character stands that was typed; 0 for none. */
    result<std::size_t> keyed_caret(std::string_view typed, std::size_t n, std::string_view region = {}) {
        std::size_t told = 0;
        phone_status status = phone_keyed_caret(&handle_, inside::bytes(region), region.size(), inside::bytes(typed),
                                                typed.size(), n, &told);
        if (status != PHONE_OK) return result<std::size_t>::refused(status);
        return told;
    }

    /* The ids of the metadata's regions, by the alphabet. */
    result<std::vector<std::string>> regions() {
        result<std::string> all = inside::text_of([&](std::uint8_t *out, std::size_t room, std::size_t *wrote) {
            return phone_regions(&handle_, out, room, wrote);
        });
        if (!all) return result<std::vector<std::string>>::refused(all.status());
        std::vector<std::string> ids;
        for (std::size_t at = 0; at + 1 < all->size(); at += 2) ids.push_back(all->substr(at, 2));
        return ids;
    }
    /* The metadata's calling codes, ascending. */
    result<std::vector<std::uint16_t>> calling_codes() {
        return inside::items_of<std::uint16_t>([&](std::uint16_t *out, std::size_t room, std::size_t *wrote) {
            return phone_codes(&handle_, out, room, wrote);
        });
    }

    /* The handle, for calls of phone.h. */
    phone_handle *handle() noexcept { return &handle_; }

private:
    world() : handle_(phone_closed()) {}
    result<world> opened(phone_status status) {
        if (status != PHONE_OK) return result<world>::refused(status);
        return std::move(*this);
    }
    template <typename Call> static result<number> number_of(std::size_t room, Call call) {
        std::string texts(room ? room : 1, '\0');
        for (;;) {
            phone_number plain = {};
            std::size_t wrote = 0;
            phone_status status = call(&plain, reinterpret_cast<std::uint8_t *>(&texts[0]), texts.size(), &wrote);
            if (status != PHONE_OK && status != PHONE_TOO_SMALL) return result<number>::refused(status);
            texts.resize(wrote);
            if (status == PHONE_OK) return number(plain, std::move(texts));
        }
    }
    template <typename T, typename Call> static result<T> told(Call call) {
        std::uint32_t told = 0;
        phone_status status = call(&told);
        if (status != PHONE_OK) return result<T>::refused(status);
        return static_cast<T>(told);
    }
    phone_handle handle_;
};

/* Whether a text may be a number at all. */
inline result<bool> is_viable(std::string_view text) {
    std::uint8_t told = 0;
    phone_status status = phone_is_viable(inside::bytes(text), text.size(), &told);
    if (status != PHONE_OK) return result<bool>::refused(status);
    return told != 0;
}

/* The name of a kind, as "FixedLine". */
inline std::string name(kind of) {
    return inside::text_of([&](std::uint8_t *out, std::size_t room, std::size_t *wrote) {
               return phone_word(PHONE_KIND_WORDS, static_cast<std::uint32_t>(of), out, room, wrote);
           })
        .value();
}

/* The version of the metadata in the library, as "libphonenumber 9.0.35". */
inline std::string table_version() {
    return inside::text_of([](std::uint8_t *out, std::size_t room, std::size_t *wrote) {
               return phone_table_version(out, room, wrote);
           })
        .value();
}

} // namespace phonenumber_proved
#endif
