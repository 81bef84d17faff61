// The call that does what the words of a command line order, for JavaScript. Nothing here is proved.
#include "module.h"

// Texts one after another, and the length of each.
typedef struct {
    const unsigned char *text;
    size bytes;
    const size *lengths;
    size count;
} texts;

// What is handed in, as JavaScript writes it and the proved call reads it: the struct HandedIn of crates/sfq_web/src/handed_in.rt.
typedef struct {
    texts words, paths, files;
    const unsigned char *found;
    size found_count;
    const unsigned char *input;
    size input_bytes;
    unsigned char input_found;
    _Bool asks;
} given;

// As the proved call writes it: crates/sfq_web/src/serve_call.rt says what it is.
typedef struct {
    size bytes, out, err;
    unsigned char code;
} said;

unsigned sfq_proved_serve(const given *, char *, size, said *);

// Does what the words order. crates/sfq_web/src/serve_call.rt says what is written and returned.
EXPORTED(serve, (word given_at, word room, word room_bytes, word said_at),
         sfq_proved_serve(AS(const given *, given_at), AS(char *, room), room_bytes, AS(said *, said_at)))
