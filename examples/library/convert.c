/* convert ACTION FORMAT FILE [BASE [PREFIXES [ASCII [WORD]]]]: what the program rdfconv does, over the library, with the same bytes,
   messages and statuses; of a request of no job it says only that. ACTION is convert or check, FORMAT is nt, nq, ttl or trig. A BASE or a
   WORD of no characters is none. PREFIXES is a file, - for none. ASCII is 0 or 1. */
#include "rdfconv.h"
#include <inttypes.h>
#include <stdio.h>
#include <stdlib.h>
#include <string.h>

static const char *const formats[] = { "nt", "nq", "ttl", "trig" };
static const char *const reasons[] = RDFCONV_REASONS;

/* bytes in memory; of no bytes NULL and 0 */
typedef struct {
    uint8_t *at;
    size_t len;
} bytes;

static int ended(const char *message, int status) {
    fprintf(stderr, "rdfconv: %s\n", message);
    return status;
}

/* The characters of an argument, or none where it is missing. */
static bytes argument(int argc, char **argv, int n) {
    bytes text = { NULL, 0 };
    if (n < argc && *argv[n]) {
        text.at = (uint8_t *)argv[n];
        text.len = strlen(argv[n]);
    }
    return text;
}

/* Reads a file to its end, also one whose size is not known before. Answers 0, or a status. */
static int read_file(const char *name, bytes *into) {
    FILE *file = fopen(name, "rb");
    size_t room = 0, got = 1;
    if (!file) return ended("cannot open file", 3);
    while (got) {
        if (into->len == room) {
            uint8_t *grown = realloc(into->at, room = room ? 2 * room : 1 << 16);
            if (!grown) {
                fclose(file);
                return ended("out of memory", 4);
            }
            into->at = grown;
        }
        into->len += got = fread(into->at + into->len, 1, room - into->len, file);
    }
    int failed = ferror(file);
    fclose(file);
    if (!into->len) {
        free(into->at);
        into->at = NULL;
    }
    return failed ? ended("read failed", 3) : 0;
}

/* Converts, and hands the lines to standard output. Answers 0, or the status of what failed there. */
static int convert(const rdfconv_request *request, bytes base, bytes prefixes, bytes word, bytes input, rdfconv_outcome *outcome) {
    size_t room = 2 * input.len + 4096;
    uint8_t *output;
    for (;;) {
        output = malloc(room);
        if (!output) return ended("out of memory", 4);
        rdfconv_convert(request, base.at, base.len, prefixes.at, prefixes.len, word.at, word.len, input.at, input.len, output, room,
                        outcome);
        if (outcome->needed <= room) break;
        room = outcome->needed; /* the lines have more bytes: once more, with room for all */
        free(output);
    }
    size_t put = fwrite(output, 1, outcome->written, stdout);
    free(output);
    return put != outcome->written || fflush(stdout) ? ended("write failed", 3) : 0;
}

/* What there is to say besides the lines, and the status. */
static int tell(const rdfconv_outcome *outcome, int is_check) {
    switch (outcome->status) {
    case RDFCONV_ACCEPTED:
        if (is_check) printf("accepted, %" PRIu64 " quads, %" PRIu64 " bytes\n", outcome->quads, outcome->bytes);
        return fflush(stdout) ? ended("write failed", 3) : 0;
    case RDFCONV_REFUSED:
        fprintf(stderr, "rdfconv: %s at byte %" PRIu64 ", line %" PRIu64 "\n", reasons[outcome->reason], outcome->offset, outcome->line);
        return 1;
    case RDFCONV_PREFIXES:
        fprintf(stderr, "rdfconv: bad prefixes at line %" PRIu64 "\n", outcome->line);
        return 2;
    case RDFCONV_MEMORY:
        return ended("out of memory", 4);
    default:
        return ended("no such format, base or word", 2);
    }
}

int main(int argc, char **argv) {
    if (argc < 4) return ended("convert or check, a format, and a file", 2);
    int is_check = !strcmp(argv[1], "check"), status;
    uint64_t format = 0;
    while (format < 4 && strcmp(argv[2], formats[format])) format++; /* 4 is the number of no format */
    rdfconv_request request = RDFCONV_REQUEST(format);
    request.ascii = argc > 6 ? strtoull(argv[6], NULL, 10) : 0;
    bytes base = argument(argc, argv, 4), word = argument(argc, argv, 7), input = { NULL, 0 }, prefixes = { NULL, 0 };
    rdfconv_outcome outcome;
    status = argc > 5 && strcmp(argv[5], "-") ? read_file(argv[5], &prefixes) : 0;
    if (!status) status = read_file(argv[3], &input);
    if (!status && is_check)
        rdfconv_check(&request, base.at, base.len, prefixes.at, prefixes.len, input.at, input.len, &outcome);
    else if (!status)
        status = convert(&request, base, prefixes, word, input, &outcome);
    if (!status) status = tell(&outcome, is_check);
    free(input.at);
    free(prefixes.at);
    return status;
}
