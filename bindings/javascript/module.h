// What the C of the modules shares. Each export is guarded as the kit guards one: once a call has trapped, all later ones trap,
// since memory may be half written. Nothing here is proved.
#pragma once

typedef __SIZE_TYPE__ size;

// An address, a count or a number of 32 bits, which JavaScript has as a number.
typedef unsigned word;

// What the proved code gets of heap.c: 1 and the address, or 0 where memory is short.
typedef struct {
    size is_there;
    void *at;
} handed;

_Bool __rattle_enter(void);
void __rattle_leave(void);
void __rattle_trap(void);

static inline void enter(void) {
    if (__rattle_enter())
        __rattle_trap();
}

// Exports a call under its name. In assembly, since the attribute of C adds a table of functions, which not every engine takes.
#define EXPORTED(name, parameters, call)                        \
    __asm__(".export_name exported_" #name ", " #name);         \
    word exported_##name parameters {                           \
        enter();                                                \
        word found = (word)(call);                              \
        __rattle_leave();                                       \
        return found;                                           \
    }

// What a parameter of this type gets of a word.
#define AS(type, it) ((type)(size)(it))

// Exports the call sfq_NAME, whose parameters have these types.
#define EXPORTED1(name, A) EXPORTED(name, (word a), sfq_##name(AS(A, a)))
#define EXPORTED2(name, A, B) EXPORTED(name, (word a, word b), sfq_##name(AS(A, a), AS(B, b)))
#define EXPORTED3(name, A, B, C) EXPORTED(name, (word a, word b, word c), sfq_##name(AS(A, a), AS(B, b), AS(C, c)))
#define EXPORTED4(name, A, B, C, D) \
    EXPORTED(name, (word a, word b, word c, word d), sfq_##name(AS(A, a), AS(B, b), AS(C, c), AS(D, d)))
#define EXPORTED5(name, A, B, C, D, E) \
    EXPORTED(name, (word a, word b, word c, word d, word e), sfq_##name(AS(A, a), AS(B, b), AS(C, c), AS(D, d), AS(E, e)))
#define EXPORTED6(name, A, B, C, D, E, F)                            \
    EXPORTED(name, (word a, word b, word c, word d, word e, word f), \
             sfq_##name(AS(A, a), AS(B, b), AS(C, c), AS(D, d), AS(E, e), AS(F, f)))
#define EXPORTED7(name, A, B, C, D, E, F, G)                                 \
    EXPORTED(name, (word a, word b, word c, word d, word e, word f, word g), \
             sfq_##name(AS(A, a), AS(B, b), AS(C, c), AS(D, d), AS(E, e), AS(F, f), AS(G, g)))
#define EXPORTED9(name, A, B, C, D, E, F, G, H, I)                                           \
    EXPORTED(name, (word a, word b, word c, word d, word e, word f, word g, word h, word i), \
             sfq_##name(AS(A, a), AS(B, b), AS(C, c), AS(D, d), AS(E, e), AS(F, f), AS(G, g), AS(H, h), AS(I, i)))
