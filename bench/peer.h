// What is measured: a way to rewrite a JSON document without white space.
#ifndef BENCH_PEER_H
#define BENCH_PEER_H

#include <cstddef>
#include <string>
#include <string_view>

struct Peer {
    std::string name;
    std::string version;
    // Lends a document of so many bytes; another 64 zero bytes can be read behind it. What it makes stays until the next
    // call; an empty text says that it refused the document.
    std::string_view (*rewrite)(const char *document, std::size_t length);
};

// The most bytes that a document has, and with it the most that a peer writes of one.
constexpr std::size_t ROOM = 16384;

Peer runvestol_peer();
Peer rapidjson_peer();
Peer rapidjson_second_peer();
Peer rapidjson_strings_peer();
Peer yajl_peer();
Peer cjson_peer();
Peer jansson_peer();
Peer simdjson_peer();
Peer memcpy_peer();

#endif
