// The floor: the document copied as it is.
#include "peer.h"
#include <cstring>

static std::string_view rewrite(const char *document, std::size_t length) {
    static char output[ROOM];
    std::memcpy(output, document, length);
    asm volatile("" : : "r"(output) : "memory");
    return {output, length};
}

Peer memcpy_peer() { return {"memcpy", "", rewrite}; }
