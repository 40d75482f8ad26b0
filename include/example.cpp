// A host in C++: lists are std::vector, an empty one too, whose data() may be null. Prints what is pending after each step.
#include <kofudile.h>

#include <cstdint>
#include <iostream>
#include <vector>

namespace {

class Window {
public:
    Window() : words_(KOFUDILE_WORDS), report_(KOFUDILE_PLACES) {
        std::vector<uint64_t> keys(KOFUDILE_SEATS);
        for (size_t seat = 0; seat < keys.size(); seat++) keys[seat] = seat;
        show("open", kofudile_open(words_.data(), words_.size(), kofudile_fast_sync_budget(600 * KOFUDILE_SECOND), keys.data(), keys.size(), 0));
    }

    void request(uint64_t seat, const std::vector<kofudile_hash> &hashes, uint32_t first) {
        std::vector<uint32_t> heights;
        for (const kofudile_hash &hash : hashes) {
            (void)hash;
            heights.push_back(first + static_cast<uint32_t>(heights.size()));
        }
        const uint32_t next = first + static_cast<uint32_t>(heights.size());
        show("request", kofudile_mark_requested(words_.data(), words_.size(), seat, hashes.data(), heights.data(), hashes.size(), next, UINT64_MAX,
                            UINT64_MAX, KOFUDILE_SECOND)
                            .refused);
    }

    void deliver(const kofudile_hash &hash, uint64_t seat) {
        const kofudile_received body = kofudile_mark_received_from(
            words_.data(), words_.size(), report_.data(), report_.size(), hash, 1000000, true, seat, 2 * KOFUDILE_SECOND);
        show("body", body.refused);
    }

private:
    void show(const char *what, uint64_t refused) const {
        std::cout << what << ": " << kofudile_refusal_text(refused) << "; " << kofudile_pending_len(words_.data(), words_.size()).value << " pending\n";
    }

    std::vector<uint64_t> words_;
    std::vector<kofudile_release> report_;
};

}

int main() {
    const kofudile_hash one = {1, 0, 0, 0}, two = {2, 0, 0, 0};
    Window window;
    window.request(3, {}, 1);
    window.request(3, {one, two}, 1);
    window.request(4, {two}, 2);
    window.deliver(one, 3);
}
