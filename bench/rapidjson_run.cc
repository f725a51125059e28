// The three readers written by hand over RapidJSON's DOM and Writer, which validates UTF-8. The pool that a document is parsed
// into, writer and buffer are kept from call to call.
#include "transform.h"
#include <rapidjson/document.h>
#include <rapidjson/stringbuffer.h>
#include <rapidjson/writer.h>

using namespace rapidjson;

namespace {

using Pool = MemoryPoolAllocator<>;
using Parsed = GenericDocument<UTF8<>, Pool>;
using Out = Writer<StringBuffer>;

const Value null_value;

const Value &member(const Value &record, const char *name) {
    auto found = record.FindMember(name);
    return found == record.MemberEnd() ? null_value : found->value;
}

bool project(const Value &records, Out &out) {
    out.StartArray();
    for (const Value &record : records.GetArray()) {
        if (!record.IsObject()) return false;
        const Value &serial = member(record, "serial_number"), &bay = member(record, "bay");
        if (!serial.IsString() || !(bay.IsNull() || bay.IsNumber())) return false;
        out.StartObject();
        out.Key("serial");
        serial.Accept(out);
        out.Key("bay");
        if (bay.IsNull())
            out.Int(0);
        else
            bay.Accept(out);
        out.EndObject();
    }
    return out.EndArray();
}

bool branch(const Value &records, Out &out) {
    out.StartArray();
    for (const Value &record : records.GetArray()) {
        if (!record.IsObject()) return false;
        const Value &in_service = member(record, "in_service"), &bay = member(record, "bay");
        if (!in_service.IsBool()) return false;
        if (!in_service.GetBool())
            out.Null();
        else if (bay.IsNumber())
            bay.Accept(out);
        else
            out.Int(-1);
    }
    return out.EndArray();
}

bool copy(const Value &records, Out &out) {
    out.StartObject();
    out.Key("units");
    out.Uint(records.Size());
    out.Key("all");
    records.Accept(out);
    return out.EndObject();
}

std::string_view transform(Which reader, const char *text, std::size_t length) {
    static char room[1 << 20];
    static StringBuffer buffer;
    static Out out;
    static bool (*const readers[READERS])(const Value &, Out &) = {project, branch, copy};
    Pool pool(room, sizeof room);
    Parsed document(&pool);
    document.Parse<kParseValidateEncodingFlag>(text, length);
    buffer.Clear();
    out.Reset(buffer);
    if (document.HasParseError() || !document.IsArray() || !readers[reader](document, out)) return {};
    return {buffer.GetString(), buffer.GetSize()};
}

}  // namespace

Transformer rapidjson_transformer() { return {"by hand over RapidJSON's DOM and Writer", RAPIDJSON_VERSION_STRING, transform}; }
