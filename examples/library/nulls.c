/* nulls: stands in for the library, to see that the header hands it no NULL. As C99 and as C++11, it ends with 0 where it does not. */
#include "rdfconv.h"

static int nulls, calls;

/* Each slice of length 0 comes with the address of some byte, any other with its own. */
static void look(const uint8_t *at, size_t len, const uint8_t *given) {
    nulls += len ? at != given : !at;
    calls++;
}

static uint8_t some[4] = { 1, 2, 3, 4 }, output[4];

#undef rdfconv_convert
#undef rdfconv_check
#undef rdfconv_check_expecting

void rdfconv_convert(const rdfconv_request *request, const uint8_t *base, size_t base_len, const uint8_t *prefixes,
                     size_t prefixes_len, const uint8_t *word, size_t word_len, const uint8_t *input, size_t input_len, uint8_t *out,
                     size_t out_len, rdfconv_outcome *outcome) {
    look(base, base_len, some);
    look(prefixes, prefixes_len, some + 1);
    look(word, word_len, some + 2);
    look(input, input_len, some + 3);
    look(out, out_len, output);
    outcome->status = request->format;
}

void rdfconv_check(const rdfconv_request *request, const uint8_t *base, size_t base_len, const uint8_t *prefixes,
                   size_t prefixes_len, const uint8_t *input, size_t input_len, rdfconv_outcome *outcome) {
    look(base, base_len, some);
    look(prefixes, prefixes_len, some + 1);
    look(input, input_len, some + 3);
    outcome->status = request->format;
}

void rdfconv_check_expecting(const rdfconv_request *request, const uint8_t *base, size_t base_len, const uint8_t *prefixes,
                             size_t prefixes_len, const uint8_t *input, size_t input_len, rdfconv_outcome *outcome,
                             rdfconv_unexpected *unexpected) {
    rdfconv_check(request, base, base_len, prefixes, prefixes_len, input, input_len, outcome);
    unexpected->found = request->format;
}

int main(void) {
    rdfconv_request request = RDFCONV_REQUEST(RDFCONV_TRIG);
    rdfconv_outcome outcome;
    rdfconv_unexpected unexpected;
    rdfconv_convert_slices(&request, NULL, 0, NULL, 0, NULL, 0, NULL, 0, NULL, 0, &outcome);
    rdfconv_convert_slices(&request, some, 3, some + 1, 3, some + 2, 2, some + 3, 1, output, 4, &outcome);
    rdfconv_check_slices(&request, NULL, 0, NULL, 0, NULL, 0, &outcome);
    rdfconv_check_slices(&request, some, 3, some + 1, 3, some + 3, 1, &outcome);
    rdfconv_check_expecting_slices(&request, NULL, 0, NULL, 0, NULL, 0, &outcome, &unexpected);
    rdfconv_check_expecting_slices(&request, some, 3, some + 1, 3, some + 3, 1, &outcome, &unexpected);
    return nulls != 0 || calls != 22 || unexpected.found != RDFCONV_TRIG || outcome.status != RDFCONV_TRIG;
}
