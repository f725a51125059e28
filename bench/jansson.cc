// jansson: loaded to a tree, names a second time refused, dumped compact into a buffer that is kept; numbers in 15 digits,
// since in its own 17 they come out as other numbers.
#include "peer.h"
#include <jansson.h>

static std::string_view rewrite(const char *document, std::size_t length) {
    static char output[2 * ROOM];
    json_t *tree = json_loadb(document, length, JSON_REJECT_DUPLICATES, nullptr);
    if (tree == nullptr) return {};
    std::size_t size = json_dumpb(tree, output, sizeof output, JSON_COMPACT | JSON_REAL_PRECISION(15));
    json_decref(tree);
    return {output, size};
}

Peer jansson_peer() { return {"jansson", JANSSON_VERSION, rewrite}; }
