// Frames for C++17 and later, over frames.h, whose head says what is promised: a receiver and a sender that own their state, events as a
// std::variant, messages as views of bytes. Tested, not proved. Link it as C does, or by CMake's find_package(frames).
#ifndef FRAMES_HPP
#define FRAMES_HPP

#if __cplusplus < 201703L
#error "frames.hpp: C++17 or later is needed: -std=c++17"
#endif

#include "frames.h"

#include <array>
#include <cstddef>
#include <cstdint>
#include <optional>
#include <type_traits>
#include <utility>
#include <variant>
#include <vector>

namespace frames {

// A view of bytes that others own: of a std::string, std::string_view, std::vector, std::array or std::span of elements of one byte. A
// std::span is made of it.
class bytes {
    const std::uint8_t *data_ = nullptr;
    std::size_t size_ = 0;

  public:
    bytes() = default;
    bytes(const std::uint8_t *data, std::size_t size) : data_(data), size_(size) {}
    template <class C, class E = std::remove_pointer_t<decltype(std::declval<const C &>().data())>,
              class = std::enable_if_t<sizeof(E) == 1 && !std::is_same_v<C, bytes>>>
    bytes(const C &c) : data_(reinterpret_cast<const std::uint8_t *>(c.data())), size_(c.size()) {}
    const std::uint8_t *data() const { return data_; }
    std::size_t size() const { return size_; }
    bool empty() const { return size_ == 0; }
    const std::uint8_t *begin() const { return data_; }
    const std::uint8_t *end() const { return data_ + size_; }
};

struct message {
    bytes content; // in the receiver's buffer, until the next push
};
struct damaged {
    std::size_t stretch; // so many bytes that are no frame, or whose message isn't counted but should be
};
struct too_long {}; // more bytes than the limit
using event = std::variant<message, damaged, too_long>;

enum class kind { counted, plain };

// Receives the messages of a stream that comes in chunks, with at most `limit` bytes between two sentinels. Moving it keeps what is
// begun, and leaves a receiver with a limit of 0. Two receivers of one line would be a mistake, so it isn't copied.
class receiver {
    struct rest;
    struct frames_receiver state_;
    std::vector<std::uint8_t> buffer_;
    kind kind_;
    rest *pushing_ = nullptr; // the push that is going on

    // Takes bytes from `at` on, up to the first event.
    struct frames_event step(bytes piece, std::size_t &at) {
        const auto call = kind_ == kind::plain ? frames_push_plain : frames_push;
        const struct frames_event e = call(&state_, buffer_.data(), buffer_.size(), piece.data() + at, piece.size() - at);
        at += e.used;
        return e;
    }
    static bool brought(const struct frames_event &e) { return e.kind != FRAMES_MORE && e.kind != FRAMES_MISUSED; }
    // What of a piece isn't taken yet: it is at the end, also if `hear` throws. Else the next push could begin inside a frame, and the end of
    // one be received as a message that nobody sent.
    struct rest {
        receiver *of; // the one that it was moved to, if `hear` moves it; null if `hear` destroyed it
        bytes piece;
        std::size_t at = 0;
        rest(receiver &r, bytes p) : of(&r), piece(p) { r.pushing_ = this; }
        rest(const rest &) = delete;
        rest &operator=(const rest &) = delete;
        ~rest() {
            while (of && at < piece.size() && brought(of->step(piece, at))) {
            }
            if (of)
                of->pushing_ = nullptr;
        }
    };
    // Takes over the push of a receiver that is moved to this one.
    void take_push(receiver &other) {
        if (!other.pushing_)
            return;
        if (pushing_)
            pushing_->of = nullptr;
        pushing_ = std::exchange(other.pushing_, nullptr);
        pushing_->of = this;
    }

  public:
    explicit receiver(std::size_t limit, kind k = kind::counted, std::uint8_t sentinel = 0)
        : state_(frames_receiver(sentinel)), buffer_(limit), kind_(k) {}
    receiver(const receiver &) = delete;
    receiver &operator=(const receiver &) = delete;
    receiver(receiver &&other) noexcept
        : state_(std::exchange(other.state_, frames_receiver(other.state_.sentinel))), buffer_(std::move(other.buffer_)), kind_(other.kind_) {
        other.buffer_.clear();
        take_push(other);
    }
    ~receiver() {
        if (pushing_)
            pushing_->of = nullptr;
    }
    receiver &operator=(receiver &&other) noexcept {
        if (this != &other) {
            // the callback of a push puts another one in this place: the rest of a frame that was too long is no frame for that either
            const bool is_inside = pushing_ && state_.past;
            state_ = std::exchange(other.state_, frames_receiver(other.state_.sentinel));
            if (is_inside && !other.pushing_) {
                state_.count = 0;
                state_.past = 1;
            }
            buffer_ = std::move(other.buffer_);
            other.buffer_.clear();
            kind_ = other.kind_;
            take_push(other);
        }
        return *this;
    }

    // Calls `hear` with each event of a chunk, in order, and returns true. If `hear` throws, the events of the rest of the chunk are dropped.
    // Inside `hear` a push to the same receiver takes nothing and returns false: its bytes would come before the rest of the chunk. If `hear`
    // moves the receiver, the new one takes the rest; if it destroys it, the rest is dropped and false returned.
    template <class Hear> bool push(bytes piece, Hear &&hear) {
        if (pushing_)
            return false;
        rest left(*this, piece);
        while (receiver *const it = left.of) {
            const struct frames_event e = it->step(piece, left.at);
            switch (e.kind) {
            case FRAMES_MESSAGE: hear(event{message{bytes(it->buffer_.data() + e.start, e.length)}}); break;
            case FRAMES_DAMAGED: hear(event{damaged{e.stretch}}); break;
            case FRAMES_TOO_LONG: hear(event{too_long{}}); break;
            default: return e.kind == FRAMES_MORE;
            }
        }
        return false;
    }

    // How many bytes are begun.
    std::size_t begun() const { return frames_begun(&state_); }

    // Ends the stream, and begins a new one: whether it ended inside a frame. Inside `hear` it changes nothing and returns false: the rest of
    // the chunk may be the end of a frame.
    bool finish() { return !pushing_ && frames_finish(&state_); }
};

// Sends messages over a line. Moving it keeps whether the last send went out, and leaves a new sender. Two senders of one line would be a
// mistake, so it isn't copied.
class sender {
    struct turn {
        sender *of; // null if `write` moved or destroyed it
        explicit turn(sender &s) : of(&s) { s.sending_ = this; }
        turn(const turn &) = delete;
        turn &operator=(const turn &) = delete;
        ~turn() {
            if (of)
                of->sending_ = nullptr;
        }
    };
    struct frames_sender state_;
    kind kind_;
    turn *sending_ = nullptr; // the send that is going on

    void leave() {
        if (sending_)
            std::exchange(sending_, nullptr)->of = nullptr;
    }

  public:
    explicit sender(kind k = kind::counted, std::uint8_t sentinel = 0) : state_(frames_sender(sentinel)), kind_(k) {}
    sender(const sender &) = delete;
    sender &operator=(const sender &) = delete;
    sender(sender &&other) noexcept : state_(std::exchange(other.state_, frames_sender(other.state_.sentinel))), kind_(other.kind_) {
        other.leave();
    }
    ~sender() { leave(); }
    sender &operator=(sender &&other) noexcept {
        if (this == &other) // else a send inside of its own write would go out
            return *this;
        state_ = std::exchange(other.state_, frames_sender(other.state_.sentinel));
        kind_ = other.kind_;
        leave();
        other.leave();
        return *this;
    }

    // Sends over a line: `write(bytes)` returns whether all of them went out, as a bool, or throws. After a failure the next send begins
    // with a sentinel, so that it is received. Inside `write` a send by the same sender writes nothing and returns false: its bytes would
    // come inside those of the first. What `hear` of a receiver sends is no such send, unless `write` led to it.
    template <class Write> bool send(bytes content, Write &&write) {
        static_assert(std::is_same_v<std::invoke_result_t<Write &, bytes>, bool>, "write returns a bool: a count, as -1, would mean success");
        if (sending_)
            return false;
        std::vector<std::uint8_t> out(frames_most_encoded_length(content.size()) + 14);
        const auto call = kind_ == kind::plain ? frames_send_plain : frames_send;
        const struct frames_written w = call(&state_, content.data(), content.size(), out.data(), out.size());
        if (w.status != FRAMES_OK)
            return false;
        const turn now(*this);
        if (!write(bytes(out.data(), w.length)))
            return false;
        if (now.of) // else `write` moved this sender away, and the next send begins with a sentinel; or destroyed it
            frames_sent(&state_);
        return true;
    }
};

// The shortest frame of a message, each byte XORed with the sentinel, without one after it. No bytes if the pointer is null and the size
// isn't 0, or if the size is that of a read that failed (-1).
inline std::vector<std::uint8_t> encode(bytes content, std::uint8_t sentinel = 0) {
    std::vector<std::uint8_t> out(frames_encoded_length(content.data(), content.size()));
    frames_encode_with_sentinel(content.data(), content.size(), out.data(), out.size(), sentinel);
    return out;
}

// The message of one frame, with or without the sentinel that ends it; nothing for all other bytes.
inline std::optional<std::vector<std::uint8_t>> decode(bytes frame, std::uint8_t sentinel = 0) {
    if (frame.empty() || !frames_is_read(frame.data(), frame.size()))
        return std::nullopt;
    for (std::size_t at = 0; at + 1 < frame.size() || at == 0; at++)
        if (frame.data()[at] == sentinel)
            return std::nullopt;
    std::vector<std::uint8_t> out(frame.size());
    const struct frames_written w = frames_decode_with_sentinel(frame.data(), frame.size(), out.data(), out.size(), sentinel);
    if (w.status != FRAMES_OK)
        return std::nullopt;
    out.resize(w.length);
    return out;
}

// The CRC-32 of bytes, as in Ethernet, gzip and PNG.
inline std::uint32_t crc32(bytes content) { return frames_crc32(content.data(), content.size()); }

// A message and its CRC-32, as four bytes, the lowest first. No bytes where `encode` returns none.
inline std::vector<std::uint8_t> seal(bytes content) {
    if (!frames_is_read(content.data(), content.size()))
        return {};
    std::vector<std::uint8_t> out(content.begin(), content.end());
    out.resize(content.size() + 4);
    frames_seal(out.data(), out.size(), content.size());
    return out;
}

// The message before its CRC-32, as a view of these bytes, whose owner has to stay; nothing if the last four bytes aren't that.
inline std::optional<bytes> unseal(bytes sealed) {
    const struct frames_written w = frames_unseal(sealed.data(), sealed.size());
    if (w.status != FRAMES_OK)
        return std::nullopt;
    return bytes(sealed.data(), w.length);
}
// isn't compiled: what owns these bytes, as seal(..) and a std::string that nobody keeps, is gone when the view is used
template <class C, class = std::enable_if_t<!std::is_reference_v<C> && !std::is_trivially_destructible_v<C>>>
std::optional<bytes> unseal(C &&) = delete;
template <class E, std::size_t N> std::optional<bytes> unseal(const std::array<E, N> &&) = delete;

} // namespace frames
#endif
