// yajl, its parser feeding its generator; numbers are handed on as strings, as its own reformatter does. The generator is
// kept from call to call; a parser is made for each document, since it has no way to begin again.
#include "peer.h"
#include <yajl/yajl_gen.h>
#include <yajl/yajl_parse.h>
#include <yajl/yajl_version.h>

static int put_null(void *g) { return yajl_gen_null(static_cast<yajl_gen>(g)) == yajl_gen_status_ok; }
static int put_bool(void *g, int b) { return yajl_gen_bool(static_cast<yajl_gen>(g), b) == yajl_gen_status_ok; }
static int put_number(void *g, const char *s, size_t n) {
    return yajl_gen_number(static_cast<yajl_gen>(g), s, n) == yajl_gen_status_ok;
}
static int put_text(void *g, const unsigned char *s, size_t n) {
    return yajl_gen_string(static_cast<yajl_gen>(g), s, n) == yajl_gen_status_ok;
}
static int open_record(void *g) { return yajl_gen_map_open(static_cast<yajl_gen>(g)) == yajl_gen_status_ok; }
static int close_record(void *g) { return yajl_gen_map_close(static_cast<yajl_gen>(g)) == yajl_gen_status_ok; }
static int open_list(void *g) { return yajl_gen_array_open(static_cast<yajl_gen>(g)) == yajl_gen_status_ok; }
static int close_list(void *g) { return yajl_gen_array_close(static_cast<yajl_gen>(g)) == yajl_gen_status_ok; }

static const yajl_callbacks callbacks = {put_null,    put_bool, nullptr,      nullptr,   put_number, put_text,
                                         open_record, put_text, close_record, open_list, close_list};

static std::string_view rewrite(const char *document, std::size_t length) {
    static yajl_gen generator = yajl_gen_alloc(nullptr);
    yajl_gen_reset(generator, nullptr);
    yajl_gen_clear(generator);
    yajl_handle parser = yajl_alloc(&callbacks, nullptr, generator);
    bool read = yajl_parse(parser, reinterpret_cast<const unsigned char *>(document), length) == yajl_status_ok &&
                yajl_complete_parse(parser) == yajl_status_ok;
    yajl_free(parser);
    const unsigned char *written = nullptr;
    size_t size = 0;
    if (!read || yajl_gen_get_buf(generator, &written, &size) != yajl_gen_status_ok) return {};
    return {reinterpret_cast<const char *>(written), size};
}

Peer yajl_peer() {
    int v = yajl_version();
    return {"yajl", std::to_string(v / 10000) + "." + std::to_string(v / 100 % 100) + "." + std::to_string(v % 100), rewrite};
}
