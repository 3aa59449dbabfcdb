/* The converter for C and C++: a document in memory is read, and its quads are written as lines of N-Quads to memory.

   To link, name the C library of the Rattle kit after ours, which takes rattle_alloc and its like from there:

       cc -o program program.c crates/rdf_c/out/librdf_c.a "$kit/c/liblibc_c.a"        (c++ in place of cc for C++)

   kit is the folder of the kit, kit=$(dirname "$(rt doc)"). build.sh beside this file proves and builds librdf_c.a, and links so. */
#ifndef RDFCONV_H
#define RDFCONV_H
#include <stddef.h>
#include <stdint.h>

enum { RDFCONV_NTRIPLES, RDFCONV_NQUADS, RDFCONV_TURTLE, RDFCONV_TRIG };

enum {
    RDFCONV_ACCEPTED = 0,
    RDFCONV_REFUSED = 1,
    RDFCONV_NO_JOB = 2, /* no such format, limit or form, the base is no IRI or longer than the limit, or the word is no word */
    RDFCONV_MEMORY = 4,
    RDFCONV_ROOM = 5,   /* accepted, but the lines have more bytes (`needed`) than the output */
    RDFCONV_PREFIXES = 6 /* a line of the prefixes is refused */
};

typedef struct {
    uint64_t format;
    uint64_t token;    /* characters of one token, 1 to 268435456 */
    uint64_t depth;    /* open brackets, 0 to 1048576 */
    uint64_t bindings; /* prefixes bound at one place, 0 to 16777216 */
    uint64_t iri;      /* bytes of one IRI, 1 to 268435456 */
    uint64_t ascii;    /* 0: lines with characters as they are; 1: in ASCII, but for labels */
} rdfconv_request;

/* a request with the limits and the form that the program has where none are given */
#define RDFCONV_REQUEST(format) { (format), 16777216, 1024, 65536, 1048576, 0 }

typedef struct {
    uint64_t status;
    uint64_t reason;          /* why a document, or a line of the prefixes, is refused: RDFCONV_REASONS has their texts */
    uint64_t offset;          /* the byte where it is refused, from 0 */
    uint64_t line;            /* the line of that byte, or that of the prefixes, from 1 */
    uint64_t quads;           /* what an accepted document has */
    uint64_t tokens;
    uint64_t bytes;
    uint64_t needed;          /* bytes of the lines */
    uint64_t written;         /* how many of them stand at the front of the output */
} rdfconv_outcome;

#define RDFCONV_REASONS { "", "bad UTF-8", "no token", "bad escape", "token too long", "document too long", "out of memory", \
    "ended", "unexpected token", "relative IRI", "IRI too long", "write failed", "unbound prefix", "no base", "too deep", \
    "too many bindings", "bad binding" }

/* what is known of an unexpected token (its reason is 8): sets of kinds, of which RDFCONV_KINDS has the names, that of the lowest bit first;
   and of each refusal how much stands at its place */
typedef struct {
    uint64_t found;           /* its kind alone, or 0 where no token was unexpected */
    uint64_t expected;        /* the kinds of which a token could have stood in its place, whatever it spells; limits, prefixes and bases aside */
    uint64_t length;          /* the bytes of the token there; where there is none, of what could begin one; 0 where that is not known */
} rdfconv_unexpected;

#define RDFCONV_KINDS { "IRI", "blank node label", "string", "string", "language tag", "\"^^\"", "\".\"", "line end", "number", \
    "number", "number", "\"true\"", "\"false\"", "\"a\"", "\"@prefix\"", "\"@base\"", "\"PREFIX\"", "\"BASE\"", "\"GRAPH\"", \
    "prefix", "prefixed name", "\";\"", "\",\"", "\"[\"", "\"]\"", "\"(\"", "\")\"", "\"{\"", "\"}\"", "end of document" }

#ifdef __cplusplus
extern "C" {
#endif

/* A slice is a pointer and a length in bytes; of length 0 its pointer may be NULL, or any other. A base of length 0 is none. The prefixes
   are lines of a prefix with its colon, a space and an IRI, or lines as in Turtle or SPARQL, or comments, as the program's --prefixes reads
   them; of length 0 they are none. The word, of ASCII letters and digits, stands in front of the name of each node that is written, as that
   of the program's --node-prefix; of length 0 it changes no name. With status 2, 4 and 6 nothing is written to the output. The request and the outcome are not NULL. The output and
   the outcome overlap nothing else, and no other thread writes to what a call reads. Calls may run side by side, but none from a signal
   handler, nor in a forked child of a process with threads. */
void rdfconv_convert(const rdfconv_request *request, const uint8_t *base, size_t base_len, const uint8_t *prefixes,
                     size_t prefixes_len, const uint8_t *word, size_t word_len, const uint8_t *input, size_t input_len, uint8_t *output,
                     size_t output_len, rdfconv_outcome *outcome);

void rdfconv_check(const rdfconv_request *request, const uint8_t *base, size_t base_len, const uint8_t *prefixes,
                   size_t prefixes_len, const uint8_t *input, size_t input_len, rdfconv_outcome *outcome);

/* What rdfconv_check does, and what is known of an unexpected token and of the place of a refusal, which is not NULL and overlaps nothing
   else. */
void rdfconv_check_expecting(const rdfconv_request *request, const uint8_t *base, size_t base_len, const uint8_t *prefixes,
                             size_t prefixes_len, const uint8_t *input, size_t input_len, rdfconv_outcome *outcome,
                             rdfconv_unexpected *unexpected);

#ifdef __cplusplus
}
#endif

/* The library itself, as whoever finds its calls by name has them (dlsym, ctypes, another language), takes no NULL: there a slice of length
   0 needs the address of some byte. Here the three names stand for these functions, which give it that. */
static inline void rdfconv_convert_slices(const rdfconv_request *request, const uint8_t *base, size_t base_len, const uint8_t *prefixes,
                                          size_t prefixes_len, const uint8_t *word, size_t word_len, const uint8_t *input,
                                          size_t input_len, uint8_t *output, size_t output_len, rdfconv_outcome *outcome) {
    uint8_t none = 0, no_room = 0;
    rdfconv_convert(request, base_len ? base : &none, base_len, prefixes_len ? prefixes : &none, prefixes_len, word_len ? word : &none,
                    word_len, input_len ? input : &none, input_len, output_len ? output : &no_room, output_len, outcome);
}

static inline void rdfconv_check_slices(const rdfconv_request *request, const uint8_t *base, size_t base_len, const uint8_t *prefixes,
                                        size_t prefixes_len, const uint8_t *input, size_t input_len, rdfconv_outcome *outcome) {
    uint8_t none = 0;
    rdfconv_check(request, base_len ? base : &none, base_len, prefixes_len ? prefixes : &none, prefixes_len, input_len ? input : &none,
                  input_len, outcome);
}

static inline void rdfconv_check_expecting_slices(const rdfconv_request *request, const uint8_t *base, size_t base_len,
                                                  const uint8_t *prefixes, size_t prefixes_len, const uint8_t *input, size_t input_len,
                                                  rdfconv_outcome *outcome, rdfconv_unexpected *unexpected) {
    uint8_t none = 0;
    rdfconv_check_expecting(request, base_len ? base : &none, base_len, prefixes_len ? prefixes : &none, prefixes_len,
                            input_len ? input : &none, input_len, outcome, unexpected);
}

#define rdfconv_convert rdfconv_convert_slices
#define rdfconv_check rdfconv_check_slices
#define rdfconv_check_expecting rdfconv_check_expecting_slices

#endif
