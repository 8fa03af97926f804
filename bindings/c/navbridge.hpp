/**
 * @file navbridge.hpp
 * @brief The calls of navbridge.h for C++17: values in place of buffers, and states that release what they hold.
 *
 * A call that can fail returns a result: its value, or the nb_status with the reason why there is none. Nothing here throws but
 * std::bad_alloc, and what the caller's own functions throw; no exception passes through the library. States are moved, not
 * copied, and are for one thread at a time.
 */
#ifndef NAVBRIDGE_HPP
#define NAVBRIDGE_HPP

#include <cstddef>
#include <cstdint>
#include <memory>
#include <string>
#include <string_view>
#include <type_traits>
#include <utility>
#include <vector>

#include "navbridge.h"

namespace navbridge {

/** Bytes of the caller's, which are looked at during a call: of a vector, an array, a string or anything else with data(). */
class bytes {
public:
    bytes(const std::uint8_t *at, std::size_t size) noexcept : at_(at), size_(size) {}
    template <class Container, class = std::enable_if_t<sizeof(*std::declval<const Container &>().data()) == 1>>
    bytes(const Container &of) noexcept
        : at_(static_cast<const std::uint8_t *>(static_cast<const void *>(of.data()))), size_(of.size()) {}
    const std::uint8_t *data() const noexcept { return at_; }
    std::size_t size() const noexcept { return size_; }
    const std::uint8_t *begin() const noexcept { return at_; }
    const std::uint8_t *end() const noexcept { return at_ + size_; }

private:
    const std::uint8_t *at_;
    std::size_t size_;
};

/** A value, or why there is none. */
template <class Value> class result {
public:
    result(Value value) : value_(std::move(value)) {}
    result(nb_status reason) : status_(reason) {}
    explicit operator bool() const noexcept { return status_ == NB_OK; }
    /** NB_OK, or the reason. */
    nb_status status() const noexcept { return status_; }
    /** Its nb_status_text(). */
    const char *what() const noexcept { return nb_status_text(status_); }
    /** The value; one without meaning if there is a reason. */
    Value &operator*() noexcept { return value_; }
    const Value &operator*() const noexcept { return value_; }
    Value *operator->() noexcept { return &value_; }
    const Value *operator->() const noexcept { return &value_; }

private:
    nb_status status_ = NB_OK;
    Value value_{};
};

/** What a conversion wrote and reported. */
struct conversion {
    std::string output; /**< what the program would write */
    std::string report; /**< what it would report */
};

namespace detail {
inline std::uint8_t *room(std::string &text) noexcept { return static_cast<std::uint8_t *>(static_cast<void *>(text.data())); }
inline std::vector<nb_bytes> words(const std::vector<std::string_view> &of) {
    std::vector<nb_bytes> all;
    all.reserve(of.size());
    for (const bytes it : of) all.push_back({it.data(), it.size()});
    return all;
}
/** What a call sets, or the reason that it returns. */
template <class Value, class Call> result<Value> value(Call call) {
    Value it{};
    const nb_status status = call(&it);
    if (status != NB_OK) return status;
    return it;
}
/** What a call writes into a buffer that has room for it, or the reason that it returns. */
template <class Bytes, class Call> result<Bytes> written(Call call) {
    Bytes all(NB_FRAME_MOST, 0);
    std::size_t used = 0;
    const nb_status status = call(static_cast<std::uint8_t *>(static_cast<void *>(all.data())), all.size(), &used);
    if (status != NB_OK) return status;
    all.resize(used);
    return all;
}
} // namespace detail

/** @name Messages, subframes, pages and records; each as the call of navbridge.h with its name */
/**@{*/
inline std::uint32_t week_of_unix(std::uint64_t seconds) noexcept { return nb_week_of_unix(seconds); }

inline bool is_frame(bytes frame) noexcept { return nb_is_frame(frame.data(), frame.size()); }

/** The frame of a payload; empty if it has more than 1,023 bytes. */
inline std::vector<std::uint8_t> frame_make(bytes payload) {
    std::vector<std::uint8_t> frame(NB_FRAME_MOST);
    frame.resize(nb_frame_make(payload.data(), payload.size(), frame.data(), frame.size()));
    return frame;
}

inline result<nb_item> message_read(bytes payload, std::uint32_t week) {
    return detail::value<nb_item>([&](nb_item *it) { return nb_message_read(payload.data(), payload.size(), week, it); });
}

inline result<nb_item> frame_read(bytes frame, std::uint32_t week) {
    return detail::value<nb_item>([&](nb_item *it) { return nb_frame_read(frame.data(), frame.size(), week, it); });
}

inline result<std::vector<std::uint8_t>> message_write(const nb_item &item) {
    return detail::written<std::vector<std::uint8_t>>(
        [&](std::uint8_t *at, std::size_t room, std::size_t *used) { return nb_message_write(&item, at, room, used); });
}

inline result<nb_row> row_from_message(bytes payload, std::uint32_t week) {
    return detail::value<nb_row>([&](nb_row *it) { return nb_row_from_message(payload.data(), payload.size(), week, it); });
}

inline result<std::vector<std::uint8_t>> row_message(const nb_row &row) {
    return detail::written<std::vector<std::uint8_t>>(
        [&](std::uint8_t *at, std::size_t room, std::size_t *used) { return nb_row_message(&row, at, room, used); });
}

inline result<std::string> row_rinex(const nb_row &row) {
    return detail::written<std::string>(
        [&](std::uint8_t *at, std::size_t room, std::size_t *used) { return nb_row_rinex(&row, at, room, used); });
}

inline result<nb_column> row_column(const nb_row &row, std::uint32_t index) {
    return detail::value<nb_column>([&](nb_column *it) { return nb_row_column(&row, index, it); });
}

inline const char *row_name(const nb_row &row, std::uint32_t index) noexcept { return nb_row_name(&row, index); }

inline result<nb_subframe> subframe_read(const nb_subframe_bits &bits, std::uint32_t satellite) {
    return detail::value<nb_subframe>([&](nb_subframe *it) { return nb_subframe_read(&bits, satellite, it); });
}

inline result<nb_subframe_bits> subframe_write(const nb_subframe &subframe, std::uint32_t tow_count) {
    return detail::value<nb_subframe_bits>([&](nb_subframe_bits *it) { return nb_subframe_write(&subframe, tow_count, it); });
}

inline result<nb_item> subframes_join(const nb_subframe (&subframes)[3], std::uint32_t satellite, std::uint32_t week) {
    return detail::value<nb_item>([&](nb_item *it) { return nb_subframes_join(subframes, satellite, week, it); });
}

inline result<nb_word> page_read(const nb_page_bits &page, std::uint32_t satellite) {
    return detail::value<nb_word>([&](nb_word *it) { return nb_page_read(&page, satellite, it); });
}

inline result<nb_page_bits> page_write(const nb_word &word, std::uint32_t satellite) {
    return detail::value<nb_page_bits>([&](nb_page_bits *it) { return nb_page_write(&word, satellite, it); });
}

inline result<nb_item> words_join(const nb_word (&words)[5], std::uint32_t satellite, std::uint32_t week) {
    return detail::value<nb_item>([&](nb_item *it) { return nb_words_join(words, satellite, week, it); });
}

inline result<nb_item> record_read(bytes text, std::uint32_t version = 4) {
    return detail::value<nb_item>([&](nb_item *it) { return nb_record_read(text.data(), text.size(), version, it); });
}

inline result<std::string> record_write(const nb_item &item, std::uint32_t version = 4) {
    return detail::written<std::string>(
        [&](std::uint8_t *at, std::size_t room, std::size_t *used) { return nb_record_write(&item, version, at, room, used); });
}

inline result<std::string> header_write(const nb_header &header, std::uint32_t version = 4) {
    return detail::written<std::string>(
        [&](std::uint8_t *at, std::size_t room, std::size_t *used) { return nb_header_write(&header, version, at, room, used); });
}

inline std::size_t header_size(bytes text) noexcept { return nb_header_size(text.data(), text.size()); }

inline std::size_t record_size(bytes text, std::uint32_t version, bool is_end) noexcept {
    return nb_record_size(text.data(), text.size(), version, is_end);
}
/**@}*/

/** What navbridge does with these words and this input. What it wrote before a reason is dropped. */
inline result<conversion> convert(const std::vector<std::string_view> &words, bytes input) {
    const std::vector<nb_bytes> given = detail::words(words);
    conversion made;
    made.output.resize(65536);
    made.report.resize(65536);
    for (;;) {
        std::size_t used = 0, report_used = 0;
        const nb_status status =
            nb_convert(given.data(), given.size(), input.data(), input.size(), detail::room(made.output), made.output.size(), &used,
                       detail::room(made.report), made.report.size(), &report_used);
        const bool again = used > made.output.size() || report_used > made.report.size();
        if (!again && status != NB_OK) return status;
        if (!again || used > made.output.size()) made.output.resize(used);
        if (!again || report_used > made.report.size()) made.report.resize(report_used);
        if (!again) return made;
    }
}

/** Finds the frames of a stream that comes in pieces of any size. */
class deframer {
public:
    deframer() : state_(std::make_unique<nb_deframer>()) { nb_deframer_init(state_.get()); }

    /** Calls use(bytes) for each frame that these bytes decide, after those that were fed before; the bytes are of that call. */
    template <class Use> void feed(bytes piece, Use use) {
        std::size_t at = 0, taken = 1;
        decided(use);
        while (at < piece.size() && taken > 0) {
            taken = nb_deframer_feed(state_.get(), piece.data() + at, piece.size() - at);
            at += taken;
            decided(use);
        }
    }

    /** No byte follows: calls use(bytes) for each frame after an incomplete one. */
    template <class Use> void finish(Use use) {
        nb_deframer_finish(state_.get());
        decided(use);
    }

private:
    template <class Use> void decided(Use &use) {
        std::uint8_t frame[NB_FRAME_MOST];
        while (const std::size_t size = nb_deframer_next(state_.get(), frame, sizeof frame)) use(bytes(frame, size));
    }
    std::unique_ptr<nb_deframer> state_;
};

/** Parts of I/NAV pages, joined to pages as they come in any order. */
class pages {
public:
    /** @param window in seconds, 60 to 14,400 */
    explicit pages(std::uint32_t window = 60) : state_(new nb_pages) { nb_pages_init(state_.get(), window); }

    /** Takes a part of 15 bytes, and calls use(const nb_joined &) for each page that it makes with those that were taken. */
    template <class Use>
    nb_status take(const std::uint8_t (&part)[15], std::uint32_t stamp, std::uint32_t satellite, nb_signal signal, Use use) {
        const nb_status status = nb_pages_take(state_.get(), part, stamp, satellite, signal);
        nb_joined joined{};
        while (status == NB_OK && nb_pages_next(state_.get(), &joined) != 0) use(static_cast<const nb_joined &>(joined));
        return status;
    }

private:
    struct closed {
        void operator()(nb_pages *at) const noexcept {
            nb_pages_close(at);
            delete at;
        }
    };
    std::unique_ptr<nb_pages, closed> state_;
};

/** A conversion whose input is pushed in pieces of any size, and whose output is taken as it comes. */
class push {
public:
    /** Without meaning; for a result without one. */
    push() noexcept = default;

    static result<push> open(const std::vector<std::string_view> &words) {
        const std::vector<nb_bytes> given = detail::words(words);
        push it;
        it.state_.reset(new nb_push_state);
        const nb_status status = nb_push_open(it.state_.get(), given.data(), given.size());
        if (status != NB_OK) return status;
        return it;
    }

    nb_status feed(bytes piece) noexcept { return state_ ? nb_push(state_.get(), piece.data(), piece.size()) : NB_CLOSED; }
    nb_status finish() noexcept { return state_ ? nb_push_finish(state_.get()) : NB_CLOSED; }
    /** The output that was decided since it was last taken. */
    std::string take() { return taken(nb_push_take); }
    /** The same of the report. */
    std::string take_report() { return taken(nb_push_take_report); }

private:
    std::string taken(std::size_t (*call)(nb_push_state *, std::uint8_t *, std::size_t)) {
        std::string all;
        std::uint8_t room[4096];
        while (const std::size_t size = state_ ? call(state_.get(), room, sizeof room) : 0) all.append(room, room + size);
        return all;
    }
    struct closed {
        void operator()(nb_push_state *at) const noexcept {
            nb_push_close(at);
            delete at;
        }
    };
    std::unique_ptr<nb_push_state, closed> state_;
};

} // namespace navbridge

#endif
