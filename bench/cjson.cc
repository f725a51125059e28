// cJSON: parsed to a tree, printed unformatted into a buffer that is kept.
#include "peer.h"
#include <cjson/cJSON.h>

static std::string_view rewrite(const char *document, std::size_t length) {
    static char output[2 * ROOM];
    cJSON *tree = cJSON_ParseWithLength(document, length);
    if (tree == nullptr) return {};
    bool printed = cJSON_PrintPreallocated(tree, output, sizeof output, false);
    cJSON_Delete(tree);
    return printed ? std::string_view(output) : std::string_view();
}

Peer cjson_peer() { return {"cJSON", cJSON_Version(), rewrite}; }
