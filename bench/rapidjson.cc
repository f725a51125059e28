// RapidJSON, its SAX reader feeding its writer; reader, writer and buffer are kept from call to call. It validates UTF-8, as
// runvestol_plain does, and reads numbers as integers and doubles in its default precision. A second build of this file, by
// the compiler that SECOND_BUILD names, has a namespace of its own, so that no template is shared between the two.
#include "peer.h"
#include <rapidjson/reader.h>
#include <rapidjson/stringbuffer.h>
#include <rapidjson/writer.h>

using namespace RAPIDJSON_NAMESPACE;

static std::string_view rewrite(const char *document, std::size_t) {
    static Reader reader;
    static StringBuffer buffer;
    static Writer<StringBuffer> writer;
    buffer.Clear();
    writer.Reset(buffer);
    StringStream stream(document);
    if (!reader.Parse<kParseValidateEncodingFlag>(stream, writer)) return {};
    return {buffer.GetString(), buffer.GetSize()};
}

#ifdef SECOND_BUILD
Peer rapidjson_second_peer() { return {"RapidJSON SAX by " SECOND_BUILD, RAPIDJSON_VERSION_STRING, rewrite}; }
#else
Peer rapidjson_peer() { return {"RapidJSON SAX", RAPIDJSON_VERSION_STRING, rewrite}; }
#endif
