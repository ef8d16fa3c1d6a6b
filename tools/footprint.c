/* footprint: makes each exported call on a stack of its own, filled with a pattern, on inputs that lead deep into it, and prints for each call the most bytes
   of that stack that were touched, and on what: a line `NAME ARGUMENTS BYTES INPUT`, with how many arguments the call has.

   Counted are the arguments that are handed over on the stack, the return address, and all below it down to the last byte that was changed; what a frame has
   room for at its lower end and never writes is not seen. memset is one that uses no stack. Each call is made over two patterns, so that a byte which happens
   to be the pattern's is not missed.

   Inputs: nests of 1, 31 and 32 containers of each kind and mixed, with keys and class names of some length, round each kind of value and round texts of each
   width, some broken, so that the innermost value stands at depth 2, 32 and 33; each as a value, a file, a packet, an entry and one that is measured; whole, a
   byte short, and into images with too little room. What was read is written, indexed, looked up, walked and built again. */
#include <stdio.h>
#include <stdlib.h>
#include <string.h>

#include "riddoskam.h"

enum { STACK = 1 << 15, BLOCK = 512, WORDS = 12, ROOM = 1 << 14, IMAGE = 3 * ROOM, INDEX = 2 * IMAGE };

/* ---- a call on the painted stack */

/* Calls a function of integers and addresses with the stack pointer at `top`: its words go into registers as far as they do in C, the last `pushed` onto the
   stack. */
uint64_t call_at(uint64_t (*call)(void), const uint64_t *words, size_t pushed, uint8_t *top);

#if defined __x86_64__
enum { IN_REGISTERS = 6 };
__asm__(".globl call_at\n"
        "call_at: push %rbp\n mov %rsp, %rbp\n mov %rcx, %rsp\n mov %rdi, %rax\n mov %rsi, %r11\n"
        "test %rdx, %rdx\n jz 2f\n"
        "1: push 40(%r11,%rdx,8)\n dec %rdx\n jnz 1b\n"
        "2: mov (%r11), %rdi\n mov 8(%r11), %rsi\n mov 16(%r11), %rdx\n mov 24(%r11), %rcx\n mov 32(%r11), %r8\n mov 40(%r11), %r9\n"
        "call *%rax\n mov %rbp, %rsp\n pop %rbp\n ret\n"
        ".globl memset\n"
        "memset: mov %rdi, %rax\n movzbl %sil, %esi\n movabs $0x0101010101010101, %rcx\n imul %rcx, %rsi\n jmp 2f\n"
        "1: mov %rsi, (%rdi)\n add $8, %rdi\n sub $8, %rdx\n"
        "2: cmp $8, %rdx\n jae 1b\n jmp 4f\n"
        "3: mov %sil, (%rdi)\n inc %rdi\n dec %rdx\n"
        "4: test %rdx, %rdx\n jnz 3b\n ret\n"
        ".section .note.GNU-stack,\"\",@progbits\n.text\n");
#elif defined __aarch64__
enum { IN_REGISTERS = 8 };
__asm__(".globl call_at\n"
        "call_at: stp x29, x30, [sp, #-16]!\n mov x29, sp\n mov x16, x0\n mov x17, x1\n lsl x9, x2, #3\n sub x10, x3, x9\n mov sp, x10\n"
        "cbz x2, 2f\n add x11, x17, #64\n mov x12, x10\n"
        "1: ldr x13, [x11], #8\n str x13, [x12], #8\n subs x2, x2, #1\n b.ne 1b\n"
        "2: ldp x0, x1, [x17]\n ldp x2, x3, [x17, #16]\n ldp x4, x5, [x17, #32]\n ldp x6, x7, [x17, #48]\n"
        "blr x16\n mov sp, x29\n ldp x29, x30, [sp], #16\n ret\n"
        ".globl memset\n"
        "memset: mov x9, x0\n cbz x2, 2f\n"
        "1: strb w1, [x9], #1\n subs x2, x2, #1\n b.ne 1b\n"
        "2: ret\n");
#elif defined __riscv && __riscv_xlen == 64
enum { IN_REGISTERS = 8 };
__asm__(".globl call_at\n"
        "call_at: addi sp, sp, -16\n sd ra, 8(sp)\n sd s0, 0(sp)\n mv s0, sp\n mv t0, a0\n mv t1, a1\n slli t2, a2, 3\n sub sp, a3, t2\n"
        "beqz a2, 2f\n addi t4, t1, 64\n mv t5, sp\n"
        "1: ld t6, 0(t4)\n sd t6, 0(t5)\n addi t4, t4, 8\n addi t5, t5, 8\n addi a2, a2, -1\n bnez a2, 1b\n"
        "2: ld a0, 0(t1)\n ld a1, 8(t1)\n ld a2, 16(t1)\n ld a3, 24(t1)\n ld a4, 32(t1)\n ld a5, 40(t1)\n ld a6, 48(t1)\n ld a7, 56(t1)\n"
        "jalr t0\n mv sp, s0\n ld ra, 8(sp)\n ld s0, 0(sp)\n addi sp, sp, 16\n ret\n"
        ".globl memset\n"
        "memset: mv t0, a0\n beqz a2, 2f\n"
        "1: sb a1, 0(t0)\n addi t0, t0, 1\n addi a2, a2, -1\n bnez a2, 1b\n"
        "2: ret\n");
#else
#error "there is no call_at for this processor"
#endif

enum {
    PARSE_SINGLE_ELEMENT, LSO_PARSE, LSO_PARSE_INCOMPLETE, PACKET_PARSE, PACKET_PARSE_INCOMPLETE, PACKET_PARSE_ENTRY, PACKET_PARSE_SPAN,
    WRITE_VALUE, LSO_WRITE, PACKET_WRITE, MAKE_INDEX, FIND, STEP, NTH, CUT, RECORD_AT, PUT, INSIDE, PART, CALLS
};

static struct {
    const char *name;
    void *function;
    size_t words, most;
    char input[96];
} call[CALLS] = {
    {"riddoskam_parse_single_element", riddoskam_parse_single_element, 6, 0, ""},
    {"riddoskam_lso_parse", riddoskam_lso_parse, 6, 0, ""},
    {"riddoskam_lso_parse_incomplete", riddoskam_lso_parse_incomplete, 6, 0, ""},
    {"riddoskam_packet_parse", riddoskam_packet_parse, 6, 0, ""},
    {"riddoskam_packet_parse_incomplete", riddoskam_packet_parse_incomplete, 6, 0, ""},
    {"riddoskam_packet_parse_entry", riddoskam_packet_parse_entry, 7, 0, ""},
    {"riddoskam_packet_parse_span", riddoskam_packet_parse_span, 8, 0, ""},
    {"riddoskam_write_value", riddoskam_write_value, 7, 0, ""},
    {"riddoskam_lso_write_to_bytes", riddoskam_lso_write_to_bytes, 7, 0, ""},
    {"riddoskam_packet_write_to_bytes", riddoskam_packet_write_to_bytes, 8, 0, ""},
    {"riddoskam_index", riddoskam_index, 7, 0, ""},
    {"riddoskam_find", riddoskam_find, 9, 0, ""},
    {"riddoskam_step", riddoskam_step, 10, 0, ""},
    {"riddoskam_packet_nth", riddoskam_packet_nth, 4, 0, ""},
    {"riddoskam_packet_cut", riddoskam_packet_cut, 6, 0, ""},
    {"riddoskam_record_at", riddoskam_record_at, 5, 0, ""},
    {"riddoskam_put", riddoskam_put, 4, 0, ""},
    {"riddoskam_inside", riddoskam_inside, 4, 0, ""},
    {"riddoskam_part", riddoskam_part, 5, 0, ""},
};

enum { PATTERNS = 2 };
static uint8_t stack[PATTERNS][STACK] __attribute__((aligned(64)));
static const uint8_t pattern[PATTERNS] = {0xA5, 0x5A};
static char now[96]; /* what the input is */

/* The first byte of a stack that is not its pattern's any more, looked for from the bottom. */
static size_t untouched(int p) {
    static uint8_t clean[PATTERNS][BLOCK];
    if (!clean[p][0]) memset(clean[p], pattern[p], BLOCK);
    size_t n = 0;
    while (n < STACK && memcmp(stack[p] + n, clean[p], BLOCK) == 0) n += BLOCK;
    while (n < STACK && stack[p][n] == pattern[p]) n++;
    return n;
}

/* Bytes of the stack that the call touches; it is painted anew behind it. On all of these processors its top is a multiple of 16 where the call is made. */
static size_t touched(int c, const uint64_t *words, int p, uint64_t *result) {
    size_t pushed = call[c].words > IN_REGISTERS ? call[c].words - IN_REGISTERS : 0;
    uint8_t *top = stack[p] + STACK - pushed % 2 * 8;
    *result = call_at((uint64_t(*)(void))call[c].function, words, pushed, top);
    size_t n = untouched(p);
    if (n < STACK / 8) {
        printf("%s: it left the stack that it was given\n", call[c].name);
        exit(1);
    }
    memset(stack[p] + n, pattern[p], STACK - n);
    return (size_t)(top - stack[p]) - n;
}

static uint64_t make(int c, const uint64_t *words) {
    uint64_t result = 0;
    for (int p = 0; p < PATTERNS; p++) {
        size_t n = touched(c, words, p, &result);
        if (n > call[c].most) {
            call[c].most = n;
            memcpy(call[c].input, now, sizeof now);
        }
    }
    return result;
}

#define MAKE(c, ...) make(c, (const uint64_t[WORDS]){__VA_ARGS__})
#define W(x) ((uint64_t)(uintptr_t)(x))

/* ---- the calls on an input */

static uint8_t input[ROOM], image[IMAGE], out[ROOM], made_index[INDEX], key[ROOM], built[IMAGE];
static size_t length;

static int answered(uint64_t result) { return (uint8_t)result == RIDDOSKAM_ACCEPTED; }

static void walk(size_t made) {
    uint64_t fields[5];
    size_t at = 0, next = 0, laid = 0;
    while (at < made && answered(MAKE(RECORD_AT, W(image), made, at, W(fields), W(&next)))) {
        MAKE(PUT, W(built), made, W(&laid), W(fields));
        at = next;
    }
    MAKE(RECORD_AT, W(image), made, made, W(fields), W(&next));
}

/* A path of the keys of a nest, each of `n` letters k. */
static size_t path(size_t keys, size_t n) {
    size_t at = 0;
    for (; keys > 0; keys--) {
        key[at++] = (uint8_t)(n >> 8);
        key[at++] = (uint8_t)n;
        memset(key + at, 'k', n);
        at += n;
    }
    return at;
}

static void look_up(size_t made, size_t n) {
    size_t count = 0, place = 0;
    for (size_t room = 0; room <= 2 * made; room += made + 1) MAKE(MAKE_INDEX, W(image), made, W(input), length, W(made_index), room, W(&count));
    MAKE(MAKE_INDEX, W(image), made, W(input), length, W(made_index), 2 * made, W(&count));
    for (size_t keys = 0; keys < 34; keys += keys < 2 ? 1 : 30)
        MAKE(FIND, W(image), made, W(input), length, W(made_index), 2 * made, W(key), path(keys, n), W(&place));
    path(1, n);
    MAKE(STEP, W(image), made, W(input), length, W(made_index), 2 * made, 0, W(key + 2), n, W(&place));
}

static void write_out(int writing, size_t made) {
    size_t count = 0;
    for (size_t room = 0; room <= ROOM; room += ROOM) {
        if (writing != PACKET_WRITE) {
            MAKE((int)writing, W(image), made, W(input), length, W(out), room, W(&count));
            continue;
        }
        for (int exact = 0; exact < 2; exact++) MAKE(PACKET_WRITE, W(image), made, W(input), length, (uint64_t)exact, W(out), room, W(&count));
    }
}

/* Reads the input into images with room enough and with too little, and does with the image all that is done with images. */
static void read_in(int reading, int writing, size_t n) {
    size_t used = 0, made = 0;
    for (size_t room = 0; room < 2 * length; room += length / 2 + 1) MAKE(reading, W(input), length, W(image), room, W(&used), W(&made));
    if (!answered(MAKE(reading, W(input), length, W(image), 3 * length, W(&used), W(&made)))) made = 1; /* a zero, which is no tree */
    for (int w = WRITE_VALUE; w <= PACKET_WRITE; w++)
        if (w == writing || made == 1) write_out(w, made);
    look_up(made, n);
    if (length < 1024) walk(made);
}

static void entries(void) {
    size_t numbers[8 * 8], used = 0, count = 0, made = 0;
    for (size_t room = 0; room <= 64; room += 8) MAKE(CUT, W(input), length, W(numbers), room, W(&used), W(&count));
    for (size_t number = 0; number < 3; number++) {
        MAKE(NTH, W(input), length, number, W(numbers));
        MAKE(PACKET_PARSE_ENTRY, W(input), length, number, W(image), 3 * length, W(&used), W(&made));
        MAKE(PACKET_PARSE_SPAN, W(input), length, numbers[RIDDOSKAM_ENTRY_PLACE], numbers[RIDDOSKAM_ENTRY_LENGTH], W(image), 3 * length, W(&used), W(&made));
    }
    MAKE(PACKET_PARSE_SPAN, W(input), length, length + 1, 1, W(image), 3 * length, W(&used), W(&made));
    MAKE(INSIDE, W(input), length, length / 2, length);
    MAKE(PART, W(input), length, length / 2, 1, W(&used));
}

/* ---- inputs */

static void put_bytes(const void *row, size_t n) {
    if (length + n > ROOM) {
        puts("an input has no room");
        exit(3);
    }
    memcpy(input + length, row, n);
    length += n;
}

static void put_number(size_t number, int width) {
    for (int i = width; i-- > 0;) put_bytes(&(uint8_t){(uint8_t)(number >> 8 * i)}, 1);
}

/* A short text of n letters k. */
static void put_letters(size_t n) {
    put_number(n, 2);
    for (; n > 0; n--) put_bytes("k", 1);
}

enum { CONTAINERS = 5 }; /* object, ECMA array, strict array, typed object, and all of them in turn */

static void open_nest(int container, size_t n) {
    static const uint8_t markers[] = {0x03, 0x08, 0x0A, 0x10};
    put_bytes(&markers[container], 1);
    if (container == 3) put_letters(n);
    if (container == 1 || container == 2) put_number(1, 4);
    if (container != 2) put_letters(n);
}

static void nest(int container, int levels, size_t n, const uint8_t *value, size_t value_length) {
    for (int i = 0; i < levels; i++) open_nest(container < 4 ? container : i % 4, n);
    put_bytes(value, value_length);
    for (int i = levels; i-- > 0;)
        if ((container < 4 ? container : i % 4) != 2) put_bytes("\0\0\x09", 3);
}

/* The values inside: one of each kind, and strings over texts of each width, whole and broken. */
enum { KINDS = 16, TEXTS = 48, VALUES = KINDS + TEXTS };

static size_t text_of(int t, uint8_t *value) {
    static const char *const characters[] = {"a", "\xC3\xA9", "\xE2\x82\xAC", "\xF0\x9F\x98\x80", "\xED\x9F\xBF", "\xF4\x8F\xBF\xBF"};
    size_t n = 3, most = 3 + (size_t)(8 << t / 8); /* 8 to 256 bytes */
    for (int i = t; n + 4 < most; i++) {
        const char *character = characters[t % 8 < 6 ? (t % 8 + (i % 7 == 0)) % 6 : i * 5 % 6];
        memcpy(value + n, character, strlen(character));
        n += strlen(character);
    }
    if (t % 8 == 7) value[n - 1] = 0xFF; /* broken at its end */
    value[0] = 0x02;
    value[1] = (uint8_t)((n - 3) >> 8);
    value[2] = (uint8_t)(n - 3);
    return n;
}

static size_t value_of(int v, uint8_t *value) {
    static const struct { size_t length; const char *bytes; } kinds[KINDS] = {
        {9, "\0\x40\x59\0\0\0\0\0\0"}, {2, "\1\1"}, {4, "\2\0\1a"}, {4, "\3\0\0\x09"}, {1, "\5"}, {1, "\6"}, {3, "\7\0\1"}, {8, "\x08\0\0\0\1\0\0\x09"},
        {5, "\x0A\0\0\0\0"}, {11, "\x0B\0\0\0\0\0\0\0\0\0\1"}, {6, "\x0C\0\0\0\1a"}, {1, "\x0D"}, {6, "\x0F\0\0\0\1a"}, {7, "\x10\0\1C\0\0\x09"},
        {1, "\x04"}, {2, "\x0A\1"},
    };
    if (v >= KINDS) return text_of(v - KINDS, value);
    memcpy(value, kinds[v].bytes, kinds[v].length);
    return kinds[v].length;
}

/* The nest as a value, a file, or a packet of a header and a message; a byte short where `less` is 1. */
static void as_value(int container, int levels, size_t n, const uint8_t *value, size_t value_length, size_t less) {
    length = 0;
    nest(container, levels, n, value, value_length);
    length -= less;
    read_in(PARSE_SINGLE_ELEMENT, WRITE_VALUE, n);
}

static void as_file(int container, int levels, size_t n, const uint8_t *value, size_t value_length, size_t less) {
    length = 0;
    put_bytes("\0\xBF\0\0\0\0TCSO\0\4\0\0\0\0", 16);
    put_letters(n);
    put_number(0, 4);
    for (int i = 0; i < 2; i++) {
        put_letters(n);
        nest(container, levels, n, value, value_length);
        put_number(0, 1);
    }
    length -= less;
    read_in(LSO_PARSE, LSO_WRITE, n);
    read_in(LSO_PARSE_INCOMPLETE, LSO_WRITE, n);
}

static void as_packet(int container, int levels, size_t n, const uint8_t *value, size_t value_length, size_t less) {
    size_t fields[2];
    length = 0;
    put_number(0, 2);
    for (int message = 0; message < 2; message++) {
        put_number(1, 2);
        put_letters(n);
        if (message) put_letters(n);
        else put_number(1, 1);
        size_t at = fields[message] = length;
        put_number(0, 4);
        nest(container, levels, n, value, value_length);
        size_t end = length;
        length = at;
        put_number(end - at - 4, 4);
        length = end;
    }
    length -= less;
    read_in(PACKET_PARSE, PACKET_WRITE, n);
    read_in(PACKET_PARSE_INCOMPLETE, PACKET_WRITE, n);
    entries();
    /* with lengths that are not known the cut reads the values */
    for (int message = 0; message < 2; message++) memset(input + fields[message], 0xFF, 4);
    entries();
}

static void try_nest(int container, int levels, size_t n, int v) {
    static const char *const names[CONTAINERS] = {"objects", "ECMA arrays", "strict arrays", "typed objects", "mixed containers"};
    uint8_t value[512];
    size_t value_length = value_of(v, value);
    for (size_t less = 0; less < 2; less++) {
        snprintf(now, sizeof now, "%d %s, keys of %zu bytes, round %02X and %zu bytes more%s", levels, names[container], n, value[0], value_length - 1,
                 less ? ", a byte short" : "");
        as_value(container, levels, n, value, value_length, less);
        as_file(container, levels, n, value, value_length, less);
        as_packet(container, levels, n, value, value_length, less);
    }
}

/* How far this is, for tools/common.sh, if that runs it. */
static void tell(int done, int of) {
    const char *descriptor = getenv("RIDDOSKAM_HOW_FAR");
    if (descriptor) dprintf(atoi(descriptor), "%d of %d\n", done, of);
}

int main(void) {
    for (int p = 0; p < PATTERNS; p++) memset(stack[p], pattern[p], STACK);
    for (int container = 0; container < CONTAINERS; container++) {
        tell(container, CONTAINERS);
        for (int v = 0; v < VALUES; v++) {
            try_nest(container, 31, v % 4 * 20, v);
            try_nest(container, 32, v % 4 * 20, v);
        }
        for (int v = 0; v < VALUES; v++) try_nest(container, 1, 1, v);
    }
    for (int c = 0; c < CALLS; c++) printf("%s %zu %zu %s\n", call[c].name, call[c].words, call[c].most, call[c].input);
    return 0;
}
