// frames.hpp: a send that is interrupted, one behind it, in pieces; moves; calls inside calls; callbacks that throw; one frame; sums.
#include <frames.hpp>

#include <array>
#include <cstdio>
#include <cstdlib>
#include <string>
#include <string_view>
#if __cplusplus >= 202002L
#include <span>
#endif

static void holds(bool it, int line) {
    if (!it) {
        std::printf("tests/hpp.cpp:%d: not so\n", line);
        std::exit(1);
    }
}
#define HOLDS(it) holds(it, __LINE__)

static std::string text(frames::bytes b) { return std::string(b.begin(), b.end()); }

// A send inside a send, and a push inside a push, change nothing of the outer one, and say so.
static void inside() {
    std::string line;
    frames::sender sender;
    const std::string outer = "outer", inner = "inner", last = "last";
    auto whole = [&](frames::bytes b) { return line.append(b.begin(), b.end()), true; };
    const bool sent = sender.send(outer, [&](frames::bytes b) {
        HOLDS(!sender.send(inner, whole) && line.empty()); // nothing of it goes out
        line.append(b.begin(), b.begin() + 4);
        HOLDS(!sender.send(inner, whole) && line.size() == 4);
        return false;
    });
    HOLDS(!sent && sender.send(last, whole) && sender.send(outer, [&](frames::bytes b) { return whole(b) && !sender.send(inner, whole); }));
    try {
        sender.send(outer, [](frames::bytes) -> bool { throw 1; });
        HOLDS(false);
    } catch (int) {
    }
    HOLDS(sender.send(last, whole)); // a throw ends the send
    std::vector<std::string> heard;
    frames::receiver receiver(32);
    auto note = [&](const frames::event &e) {
        if (auto *m = std::get_if<frames::message>(&e))
            heard.push_back(text(m->content));
        else
            heard.push_back("damaged");
        HOLDS(!receiver.push(std::string("\0\2\0", 3), [](const frames::event &) { HOLDS(false); }));
    };
    HOLDS(receiver.push(line, note));
    HOLDS((heard == std::vector<std::string>{"damaged", "last", "outer", "last"}));
    // the end of a frame that is too long is no message, whatever is done inside: a stream that ends, another receiver in its place
    for (const bool is_replaced : {false, true}) {
        frames::receiver small(4);
        heard.clear();
        HOLDS(small.push(std::string("\0\x09\7abc\4\2hi\0\4\2ok\0", 16), [&](const frames::event &e) {
            if (auto *m = std::get_if<frames::message>(&e))
                heard.push_back(text(m->content));
            else if (is_replaced)
                small = frames::receiver(32);
            else
                HOLDS(!small.finish());
        }));
        HOLDS((heard == std::vector<std::string>{"ok"}));
    }
    // a receiver answers by a sender, and a line that loops back finds it sending
    std::string answers;
    HOLDS(receiver.push(line, [&](const frames::event &) { HOLDS(sender.send(inner, [&](frames::bytes b) { return answers.append(b.begin(), b.end()), true; })); }));
    int refused = 0;
    HOLDS(sender.send(outer, [&](frames::bytes b) { return receiver.push(b, [&](const frames::event &) { refused += !sender.send(inner, whole); }); }));
    HOLDS(refused == 1);
    // one that its own write moves to itself stays inside of it
    HOLDS(sender.send(outer, [&](frames::bytes) {
        frames::sender &same = sender;
        sender = std::move(same);
        return !sender.send(inner, whole);
    }));
    // a sender that is moved away by its own write begins with a sentinel, and so does the one that it became
    frames::sender taker;
    HOLDS(sender.send(outer, [&](frames::bytes) { return taker = std::move(sender), true; }));
    auto begins = [](frames::bytes b) { return *b.begin() == 0; };
    HOLDS(sender.send(outer, begins) && taker.send(outer, begins));
    for (const bool goes : {false, true}) { // one that is destroyed by its own write, or fails by it
        std::optional<frames::sender> gone(std::in_place);
        HOLDS(gone->send(outer, [&](frames::bytes) { return gone.reset(), goes; }) == goes);
        gone.emplace();
        try {
            gone->send(outer, [&](frames::bytes) -> bool { gone.reset(), throw 1; });
            HOLDS(false);
        } catch (int) {
        }
    }
}

// A `hear` that throws loses the events of the rest of the piece, and no more: the end of a frame isn't received as a message.
static void throws() {
    frames::receiver receiver(32);
    std::string line;
    frames::sender sender;
    sender.send(std::string("\x09\x09\x03\x01X"), [&](frames::bytes b) { return line.append(b.begin(), b.end()), true; });
    const std::string hi("\0\4\2hi\0", 6);
    try {
        receiver.push(hi + hi + line.substr(0, 5), [](const frames::event &) { throw 1; });
        HOLDS(false);
    } catch (int) {
    }
    HOLDS(receiver.begun() == 4);
    std::vector<std::string> heard;
    HOLDS(receiver.push(line.substr(5), [&](const frames::event &e) { heard.push_back(text(std::get<frames::message>(e).content)); }));
    HOLDS((heard == std::vector<std::string>{"\x09\x09\x03\x01X"}));
}

// A `hear` that moves the receiver: the new one takes the rest of the piece. One that destroys it: the rest is dropped.
static void moves() {
    std::string line;
    frames::sender sender;
    for (const char *it : {"one", "two", "three", "four"})
        sender.send(std::string(it), [&](frames::bytes b) { return line.append(b.begin(), b.end()), true; });
    std::vector<std::string> heard;
    auto note = [&](const frames::event &e) { heard.push_back(text(std::get<frames::message>(e).content)); };
    frames::receiver first(32), assigned(8);
    std::optional<frames::receiver> second;
    HOLDS(first.push(line.substr(0, line.size() - 2), [&](const frames::event &e) {
        note(e);
        if (heard.size() == 1)
            second.emplace(std::move(first));
        if (heard.size() == 2)
            assigned = std::move(*second);
        HOLDS(heard.size() == 1 || !assigned.push(line, [](const auto &) { HOLDS(false); }));
    }));
    HOLDS(first.begun() == 0 && second->begun() == 0 && assigned.begun() == 5);
    HOLDS(assigned.push(line.substr(line.size() - 2), note));
    HOLDS((heard == std::vector<std::string>{"one", "two", "three", "four"}));
    std::optional<frames::receiver> gone(std::in_place, std::size_t(32));
    int events = 0;
    HOLDS(!gone->push(line, [&](const frames::event &) { events++, gone.reset(); }) && events == 1);
    frames::receiver other(32); // two that are swapped, each inside its own push
    events = 0;
    HOLDS(other.push(line, [&](const frames::event &) { events++, std::swap(other, assigned); }) && events == 4);
    HOLDS(other.push(line, note) && assigned.push(line, note) && heard.size() == 12);
}

int main() {
    inside();
    throws();
    moves();
    using vector = std::vector<std::uint8_t>;
    frames::sender sender;
    vector line;
    bool first = true;
    auto write = [&](frames::bytes b) {
        const std::size_t n = first ? 5 : b.size();
        line.insert(line.end(), b.begin(), b.begin() + n);
        return !std::exchange(first, false);
    };
    const std::string one = "breaks off", two = "behind it";
    HOLDS(!sender.send(one, write));
    HOLDS(sender.send(two, write));
    try {
        sender.send(one, [](frames::bytes) -> bool { throw 1; });
        HOLDS(false);
    } catch (int) {
    }
    HOLDS(sender.send(std::string_view(two), write));
#ifdef WRITE_RETURNS_A_COUNT // isn't compiled: -1 would mean success
    sender.send(one, [](frames::bytes) { return -1; });
#endif
    // one line has one sender: a copy wouldn't know what the other broke off
    static_assert(!std::is_copy_constructible_v<frames::sender> && !std::is_copy_assignable_v<frames::sender>);
    static_assert(std::is_nothrow_move_constructible_v<frames::sender> && std::is_nothrow_move_assignable_v<frames::sender>);
    auto begins_with = [](std::uint8_t byte) { return [byte](frames::bytes b) { return *b.begin() == byte; }; };
    frames::sender taken(frames::kind::plain, 10);
    HOLDS(taken.send(one, begins_with(10)));
    frames::sender taker(std::move(taken));
    HOLDS(taken.send(one, begins_with(10)) && taker.send(one, begins_with(10 ^ 11)));
    taken = frames::sender();
    taken = std::move(taker);
    frames::sender &same = taken;
    taken = std::move(same);
    HOLDS(taken.send(one, begins_with(10 ^ 11)) && taker.send(one, begins_with(10)));
    frames::receiver made(32), other(8);
    made.push(vector{9, 'x'}, [](const frames::event &) { HOLDS(false); });
    HOLDS(made.begun() == 2);
    frames::receiver moved(std::move(made));
    HOLDS(moved.begun() == 2 && made.begun() == 0 && moved.finish());
    made.push(vector{2, 0, 2, 2}, [](const frames::event &e) { HOLDS(std::holds_alternative<frames::too_long>(e)); });
    other = std::move(moved);
    int messages = 0, damages = 0;
    for (std::size_t at = 0; at < line.size(); at += 3)
        other.push(frames::bytes(line.data() + at, std::min<std::size_t>(3, line.size() - at)), [&](const frames::event &e) {
            if (auto *m = std::get_if<frames::message>(&e)) {
                HOLDS(text(m->content) == two);
                messages++;
            } else if (auto *d = std::get_if<frames::damaged>(&e)) {
                HOLDS(d->stretch == 4);
                damages++;
            } else {
                HOLDS(false);
            }
        });
    HOLDS(messages == 2 && damages == 1 && !other.finish());
    frames::receiver small(2, frames::kind::plain, 10);
    int too_long = 0;
    small.push(std::string("abc\n\x0bhi\n"), [&](const frames::event &e) { too_long += std::holds_alternative<frames::too_long>(e); });
    HOLDS(too_long == 2);

    HOLDS(frames::encode(two) == (vector{10, 'b', 'e', 'h', 'i', 'n', 'd', ' ', 'i', 't'}));
    HOLDS(text(*frames::decode(frames::encode(one))) == one && frames::decode(vector{3, 'h', 'i', 0}));
    HOLDS(text(*frames::decode(frames::encode(one, 10), 10)) == one);
    for (const vector &frame : {vector{}, vector{0}, vector{5, 1}, vector{0, 3, 'h', 'i'}, vector{3, 'h', 'i', 0, 0}, vector{3, 'h', 'i', 0, 1}})
        HOLDS(!frames::decode(frame));
    HOLDS(frames::encode({}) == vector{1} && frames::decode(vector{1})->empty());
    frames::receiver(0).push({}, [](const auto &) { HOLDS(false); });
    const std::array<char, 9> digits{'1', '2', '3', '4', '5', '6', '7', '8', '9'};
    HOLDS(frames::crc32(digits) == 0xCBF43926);
    vector sealed = frames::seal(one);
    HOLDS(text(*frames::unseal(sealed)) == one);
    sealed[0] ^= 1;
    const vector short_one{1};
    HOLDS(!frames::unseal(sealed) && !frames::unseal(short_one) && frames::unseal(frames::bytes(sealed)) == std::nullopt);
#ifdef UNSEAL_OF_A_TEMPORARY // isn't compiled: the view would be of bytes that are gone
    frames::unseal(frames::seal(one));
#endif
#ifdef UNSEAL_OF_AN_ARRAY // nor of an array that nobody keeps
    frames::unseal(std::array<std::uint8_t, 6>());
#endif
    const std::array<std::uint8_t, 4> no_bytes{};
    HOLDS(frames::unseal(no_bytes)->empty() && frames::unseal(std::string_view("\0\0\0\0", 4))->empty());
    // a null pointer, and the size of a read that failed, which is looked at before the bytes
    const std::vector<std::uint8_t> nonzero(1, 5);
    for (const frames::bytes &none : {frames::bytes(nullptr, 3), frames::bytes(nonzero.data(), std::size_t(-1))})
        HOLDS(frames::encode(none).empty() && frames::seal(none).empty() && !frames::decode(none) && !frames::unseal(none));
#if __cplusplus >= 202002L
    const std::span<const std::uint8_t> view = frames::bytes(one);
    HOLDS(frames::encode(view) == frames::encode(one));
#endif
    return 0;
}
