// A book as a class of C++11: its buffers go with it, and a refusal is an exception.
#include <cinttypes>
#include <cstdio>
#include <stdexcept>
#include <vector>

#include <reelbook.h>

using Words = std::vector<uint64_t>;

struct Lookup {
    bool held;
    uint64_t nodes; // on the frame's path, held or not: so many the lookup has read
};

class Refused : public std::runtime_error {
public:
    explicit Refused(uint64_t number) : std::runtime_error(reelbook_answer_text(number)), answer(number) {}
    uint64_t answer;
};

// In ordinary memory, where a barrier has nothing to do. docs/DRIVER.md has what it does elsewhere.
class Book {
public:
    // An empty table is none: then fingerprints go by the library's.
    Book(uint64_t reels, uint64_t nodes, const std::vector<uint8_t> &table = {})
        : image(reelbook_image_words(reels, nodes)), map(reelbook_map_words(nodes)), scratch(map.size()),
          heads(REELBOOK_HEADS_WORDS), script(REELBOOK_SCRIPT_WORDS) {
        done(reelbook_format(image.data(), image.size(), map.data(), map.size(), heads.data(), table.data(), table.size(), reels,
                             nodes));
    }

    void open(uint64_t reel) {
        carry_out(reelbook_open(image.data(), image.size(), map.data(), map.size(), script.data(), script.size(), reel, &used));
    }

    // A claim is refused or not; what follows an answered one is not refused. Hands back the places left in the frame's node.
    uint64_t add(uint64_t reel, uint64_t frame) {
        uint64_t left = 0;
        carry_out(reelbook_claim(image.data(), image.size(), map.data(), map.size(), heads.data(), script.data(), script.size(),
                                 0, reel, frame, &used, &left));
        carry_out(reelbook_fill(image.data(), image.size(), heads.data(), script.data(), script.size(), 0, &used));
        carry_out(reelbook_commit(image.data(), image.size(), heads.data(), script.data(), script.size(), 0, &used));
        return left;
    }

    Lookup has(uint64_t reel, uint64_t frame) const {
        uint64_t yes = 0, nodes = 0;
        done(reelbook_has(image.data(), image.size(), reel, frame, &yes, &nodes));
        return {yes != 0, nodes};
    }

    Words frames(uint64_t reel) {
        Words list(64 * image[REELBOOK_NODES_AT]);
        uint64_t count = 0;
        done(reelbook_list(image.data(), image.size(), scratch.data(), scratch.size(), list.data(), list.size(), reel, &count));
        list.resize(count);
        return list;
    }

private:
    static void done(uint64_t answer) {
        if (answer != REELBOOK_DONE)
            throw Refused(answer);
    }

    void carry_out(uint64_t answer) {
        done(answer);
        for (uint64_t at = 0; at < used; at += 2)
            if (script[at] != REELBOOK_BARRIER)
                image[script[at]] = script[at + 1];
    }

    Words image, map, scratch, heads, script;
    uint64_t used = 0;
};

int main() {
    Book book(4, 16);
    book.open(7);
    uint64_t left = 0;
    for (unsigned frame : {12u, 5u, 900u})
        left = book.add(7, frame);
    std::printf("reel 7:");
    for (uint64_t frame : book.frames(7))
        std::printf(" %" PRIu64, frame);
    std::printf("; places left: %" PRIu64 "\n", left);
    for (unsigned frame : {5u, 6u}) {
        Lookup found = book.has(7, frame);
        std::printf("frame %u: %s, nodes on its path: %" PRIu64 "\n", frame, found.held ? "held" : "not held", found.nodes);
    }
    try {
        book.add(7, 5);
    } catch (const Refused &refused) {
        std::printf("frame 5: %s (%" PRIu64 ")\n", refused.what(), refused.answer);
    }
}
