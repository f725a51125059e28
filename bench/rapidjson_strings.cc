// RapidJSON as in rapidjson.cc, but numbers are handed on as the strings that they are, neither converted nor judged.
#include "peer.h"
#include <rapidjson/reader.h>
#include <rapidjson/stringbuffer.h>
#include <rapidjson/writer.h>

using namespace rapidjson;

namespace {

struct Copier : Writer<StringBuffer> {
    // the writer's own puts quotes around the number
    bool RawNumber(const char *digits, SizeType length, bool) { return RawValue(digits, length, kNumberType); }
};

std::string_view rewrite(const char *document, std::size_t) {
    static Reader reader;
    static StringBuffer buffer;
    static Copier writer;
    buffer.Clear();
    writer.Reset(buffer);
    StringStream stream(document);
    if (!reader.Parse<kParseValidateEncodingFlag | kParseNumbersAsStringsFlag>(stream, writer)) return {};
    return {buffer.GetString(), buffer.GetSize()};
}

}  // namespace

Peer rapidjson_strings_peer() { return {"RapidJSON SAX, numbers as strings", RAPIDJSON_VERSION_STRING, rewrite}; }
