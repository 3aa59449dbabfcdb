/* try_library FORMAT FILE: what rdfconv convert --base http://example.org/x does with the file, by the library. C and C++. */
#include <rdfconv.h>
#include <stdio.h>
#include <stdlib.h>
#include <string.h>

static const char *const reasons[] = RDFCONV_REASONS;
static const uint8_t none[1] = {0};
static uint8_t input[1 << 20], output[1 << 22];

int main(int argc, char **argv) {
    if (argc != 3) return 2;
    FILE *file = fopen(argv[2], "rb");
    if (!file) return 3;
    size_t len = fread(input, 1, sizeof input, file);
    fclose(file);
    const char *base = "http://example.org/x";
    rdfconv_request request = RDFCONV_REQUEST(strtoull(argv[1], NULL, 10));
    rdfconv_outcome outcome, counts;
    rdfconv_convert(&request, (const uint8_t *)base, strlen(base), none, 0, none, 0, input, len, output, sizeof output, &outcome);
    rdfconv_check(&request, (const uint8_t *)base, strlen(base), none, 0, input, len, &counts);
    if (counts.status != outcome.status || counts.quads != outcome.quads || counts.offset != outcome.offset) return 5;
    fwrite(output, 1, outcome.written, stdout);
    if (outcome.status == RDFCONV_REFUSED)
        fprintf(stderr, "rdfconv: %s at byte %llu, line %llu\n", reasons[outcome.reason], (unsigned long long)outcome.offset,
                (unsigned long long)outcome.line);
    return (int)outcome.status;
}
