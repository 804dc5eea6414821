// Prints the id, the operation and the key of each Request on its standard input, and at the end how many octets
// are no whole message.
//
// Usage: requests <FILE     as in: requests <examples/omniorb_client.giop
//
// A handle of libgiop as a type of C++: it is freed when it goes out of scope, and is never copied or moved, since
// the library knows it by its address.
#include <giop.h>

#include <cstdio>
#include <optional>
#include <stdexcept>
#include <string>
#include <vector>

class Framer {
public:
    struct Message {
        giop_message head;
        std::vector<uint8_t> payload;
    };

    explicit Framer(uint32_t limit) { check(giop_framer_new(&handle, limit), {}); }
    ~Framer() { giop_framer_free(&handle); }
    Framer(const Framer &) = delete;
    Framer &operator=(const Framer &) = delete;

    void feed(const uint8_t *octets, size_t size) { check(giop_framer_feed(&handle, octets, size), {}); }

    // The next message, where one is whole.
    std::optional<Message> next() {
        Message message;
        giop_fault fault{};
        uint32_t status = giop_framer_next(&handle, &message.head, &fault);
        if (status == GIOP_WAITS) return std::nullopt;
        check(status, fault);
        message.payload.resize(message.head.size);
        size_t size;
        giop_framer_payload(&handle, message.payload.data(), message.payload.size(), &size);
        return message;
    }

    size_t rest() {
        size_t rest = 0;
        giop_framer_rest(&handle, &rest);
        return rest;
    }

private:
    static void check(uint32_t status, giop_fault fault) {
        if (status == GIOP_NO_MEMORY) throw std::bad_alloc();
        if (status == GIOP_FAULT)
            throw std::runtime_error("fault " + std::to_string(fault.number) + " at " + std::to_string(fault.at));
    }

    giop_framer handle = GIOP_FRAMER_CLOSED;
};

static void show(const Framer::Message &message) {
    // Neither is longer than the payload that it stands in.
    std::string operation(message.payload.size(), '\0'), key(message.payload.size(), '\0');
    giop_request request;
    giop_fault fault;
    uint32_t status = giop_request_head(&message.head, message.payload.data(), message.payload.size(), &request,
                                        reinterpret_cast<uint8_t *>(operation.data()), operation.size(),
                                        reinterpret_cast<uint8_t *>(key.data()), key.size(), &fault);
    if (status == GIOP_OK)
        std::printf("%u %.*s key %.*s\n", unsigned(request.id), int(request.operation), operation.data(),
                    int(request.key), key.data());
    else
        std::printf("head: fault %u at %zu\n", unsigned(fault.number), fault.at);
}

int main() {
    try {
        Framer framer(1048576);
        uint8_t octets[65536];
        while (size_t size = std::fread(octets, 1, sizeof octets, stdin)) {
            framer.feed(octets, size);
            while (auto message = framer.next())
                if (message->head.kind == GIOP_REQUEST && !message->head.more) show(*message);
        }
        std::printf("rest %zu\n", framer.rest());
        return framer.rest() > 0;
    } catch (const std::exception &why) {
        std::fprintf(stderr, "requests: %s\n", why.what());
        return 1;
    }
}
