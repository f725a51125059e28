// RapidJSON's SchemaValidator as the handler of its SAX reader, so that a document is validated while it is parsed. The
// schema is compiled beforehand; reader and validator are kept from call to call. It validates UTF-8 and reads numbers as in
// rapidjson.cc, and has a second build as there.
#include "task.h"
#include <rapidjson/document.h>
#include <rapidjson/reader.h>
#include <rapidjson/schema.h>
#include <stdexcept>

using namespace RAPIDJSON_NAMESPACE;

namespace {

Document parsed(const std::string &text) {
    Document document;
    document.Parse(text.c_str());
    if (document.HasParseError()) throw std::runtime_error("a schema is no JSON");
    return document;
}

struct Validation : Task {
    SchemaDocument schema;
    SchemaValidator validator;
    Reader reader;

    explicit Validation(const std::string &text) : schema(parsed(text)), validator(schema) {}
    bool run(const char *document, std::size_t) override {
        validator.Reset();
        StringStream stream(document);
        return reader.Parse<kParseValidateEncodingFlag>(stream, validator) && validator.IsValid();
    }
};

std::unique_ptr<Task> ready(const std::string &, const std::string &schema) { return std::make_unique<Validation>(schema); }

}  // namespace

#ifdef SECOND_BUILD
Caller validator_second_caller() { return {"RapidJSON SchemaValidator by " SECOND_BUILD, RAPIDJSON_VERSION_STRING, ready}; }
#else
Caller validator_caller() { return {"RapidJSON SchemaValidator", RAPIDJSON_VERSION_STRING, ready}; }
#endif
