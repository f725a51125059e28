// simdjson: its DOM parser, kept from call to call, and minify of the DOM. It uses the widest vectors that the CPU has.
#include "peer.h"
#include <simdjson.h>

static std::string_view rewrite(const char *document, std::size_t length) {
    static simdjson::dom::parser parser;
    static std::string output;
    simdjson::dom::element root;
    // the document has its padding behind it, so it needn't be copied
    if (parser.parse(document, length, false).get(root) != simdjson::SUCCESS) return {};
    output = simdjson::minify(root);
    return output;
}

static std::string version() {
    using namespace simdjson;
    return std::to_string(SIMDJSON_VERSION_MAJOR) + "." + std::to_string(SIMDJSON_VERSION_MINOR) + "." +
           std::to_string(SIMDJSON_VERSION_REVISION);
}

Peer simdjson_peer() {
    return {"simdjson DOM, " + simdjson::get_active_implementation()->name(), version(), rewrite};
}
