// libjq with the equivalent programs, compiled beforehand.
#include "transform.h"
extern "C" {
#include <jq.h>
#include <jv.h>
}

static const char *const programs[READERS] = {
    "[.[]|{serial:.serial_number, bay:(if .bay==null then 0 else .bay end)}]",
    "[.[]|if .in_service then (if (.bay|type)==\"number\" then .bay else -1 end) else null end]",
    "{units: length, all: .}",
};

static jq_state *compiled(const char *program) {
    jq_state *state = jq_init();
    return state != nullptr && jq_compile(state, program) ? state : nullptr;
}

static std::string_view transform(Which reader, const char *document, std::size_t length) {
    static jq_state *const states[READERS] = {compiled(programs[PROJECT]), compiled(programs[BRANCH]), compiled(programs[COPY])};
    static jv written = jv_null();
    jv value = jv_parse_sized(document, static_cast<int>(length));
    if (states[reader] == nullptr || !jv_is_valid(value)) return {};
    jq_start(states[reader], value, 0);
    jv result = jq_next(states[reader]);
    if (!jv_is_valid(result)) return {};
    jv_free(written);
    written = jv_dump_string(result, 0);
    return {jv_string_value(written), static_cast<std::size_t>(jv_string_length_bytes(jv_copy(written)))};
}

Transformer jq_transformer() { return {"libjq, compiled beforehand", "", transform}; }
