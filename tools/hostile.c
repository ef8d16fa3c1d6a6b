/* hostile SEED CASES [SHAM]: calls the compiled library through its C face on random and bent inputs, and looks at everything that a call may leave.

   Each call is made twice, on the same bytes: once with every buffer right behind a page that can't be touched, and once right before one; on the other
   side stand 256 bytes that must stay. So a byte that is read or written outside a buffer ends the program, or is seen. After each call:
   - the answer is one of the call's, and the same in both places, with the same counts and the same bytes;
   - what was only lent to be read is as it was;
   - a reading that is refused leaves zeros, a count of 0 and a place that its answer can have: 0 for 1 and 8, 1 for 7, else one in the input, or behind it for 2,
     and in the span for an entry; an accepted one has counts inside its buffers, zeros behind what is made, and an image that is records from its first byte to
     its last;
   - what stands before a place is whole and right: of the bytes up to it and the one there, the same call says the same, or 2 at the place or at a count or a
     length before it. A whole reading is refused as the other is, or at the first byte that the other leaves;
   - a writing that is refused leaves the output as it was; an accepted one changes no byte past its count, and what it wrote reads back as an image of the
     same length, in no more bytes than were read where the image was read;
   - an entry's places lie inside the packet, and its value, read alone, gives what reading the entry gives, with its place moved by the span's where it is
     refused; one whose length is not known is accepted, given room;
   - a cut that is refused leaves zeros and the place that reading an entry tells, 0 where the row is too short; an accepted one has the entries that they are by number, and zeros behind them, and the span of each reads as the
     entry does by its number, to the last byte of the image; any other span reads as its bytes alone;
   - an index that is refused is zero; an accepted one has a record for each key of the image, in order, and zeros behind them; it is refused where a writing
     of the image is, and for want of room;
   - a record put by its numbers is where they tell one and it has room, and lies as its kind's fields lie; nothing else of the image changes, and nothing at
     all where it is refused; read again it has the same numbers; and what is read at a place, put there again, leaves the image as it is;
   - a lookup that finds nothing leaves 0; in its image's index it finds what looking through the records one by one finds; in any other, a value's record
     behind a record of the key, or the first record.
   A call that doesn't end is ended by the clock after a minute. The same SEED gives the same cases. SHAM, a number from 1 to 18, plants a fault between the
   library and the checks, so that one sees them fail. */
#include <signal.h>
#include <stdio.h>
#include <stdlib.h>
#include <string.h>
#include <sys/mman.h>
#include <sys/wait.h>
#include <unistd.h>

#include "far.h"
#include "riddoskam.h"

enum { PAGE = 65536, LEFT = 256, MOST = RIDDOSKAM_LIMIT_BYTES + 1 };

/* ---- numbers */

static uint64_t state;

static uint64_t any(void) {
    uint64_t z = state += 0x9E3779B97F4A7C15u;
    z = (z ^ z >> 30) * 0xBF58476D1CE4E5B9u;
    z = (z ^ z >> 27) * 0x94D049BB133111EBu;
    return z ^ z >> 31;
}

static size_t below(size_t n) { return n ? any() % n : 0; }

/* ---- what is told */

static unsigned long long now_case;
static const char *now_call = "none";
static int sham, guard_tried;
static unsigned long long calls[19], accepted[19], answers[10];
static const char *names[19];

static void fail(const char *what) {
    printf("FAILED in case %llu, %s: %s\n", now_case, now_call, what);
    fflush(stdout);
    _exit(1);
}

#define MUST(fact, what)           \
    do {                           \
        if (!(fact)) fail(what);   \
    } while (0)

static void on_signal(int n) {
    if (guard_tried) _exit(7);
    fail(n == SIGALRM ? "it does not end" : "it touches what is not its own");
}

/* ---- buffers between pages that can't be touched */

struct area {
    uint8_t *base;
    size_t room;
};

static struct area lent[4]; /* input or image that is read, text, what is written or an index, and a path */

static struct area area(size_t most) {
    struct area a;
    a.room = (most + LEFT + PAGE - 1) / PAGE * PAGE;
    uint8_t *p = mmap(NULL, a.room + 3 * PAGE, PROT_NONE, MAP_PRIVATE | MAP_ANONYMOUS, -1, 0);
    if (p == MAP_FAILED) fail("no memory");
    p += PAGE - (uintptr_t)p % PAGE;
    a.base = p + PAGE;
    a.base -= (uintptr_t)a.base % PAGE;
    if (mprotect(a.base, a.room, PROT_READ | PROT_WRITE) != 0) fail("no memory");
    return a;
}

/* n bytes right behind the page before (side 0) or right before the page behind (side 1). */
static uint8_t *lend(int which, int side, size_t n) {
    struct area a = lent[which];
    if (side == 0) {
        memset(a.base + n, 0xC3, LEFT);
        return a.base;
    }
    memset(a.base + a.room - n - LEFT, 0xC3, LEFT);
    return a.base + a.room - n;
}

static void left_alone(int which, int side, size_t n) {
    struct area a = lent[which];
    uint8_t *p = side == 0 ? a.base + n : a.base + a.room - n - LEFT;
    for (int i = 0; i < LEFT; i++) MUST(p[i] == 0xC3, "a byte beside a buffer changed");
}

static int all(const uint8_t *p, size_t n, uint8_t b) {
    return n == 0 || (p[0] == b && memcmp(p, p + 1, n - 1) == 0);
}

/* ---- calls */

enum {
    VALUE, FILE_WHOLE, FILE_START, PACKET_WHOLE, PACKET_FRONT, ENTRY, SPAN, WRITE_VALUE, WRITE_FILE, WRITE_PACKET, WRITE_OPEN, NTH, CUT, RECORD, PUT,
    INDEX, FIND, STEP, TEXTS
};

/* What is asked of a packet: an entry by its number, or a span. */
struct asked {
    size_t number, place, length;
};

static const struct asked nothing;

static uint8_t call_reading(int call, const uint8_t *s, size_t n, struct asked a, uint8_t *image, size_t room, size_t *used, size_t *made) {
    switch (call) {
    case VALUE: return riddoskam_parse_single_element(s, n, image, room, used, made);
    case FILE_WHOLE: return riddoskam_lso_parse(s, n, image, room, used, made);
    case FILE_START: return riddoskam_lso_parse_incomplete(s, n, image, room, used, made);
    case PACKET_WHOLE: return riddoskam_packet_parse(s, n, image, room, used, made);
    case PACKET_FRONT: return riddoskam_packet_parse_incomplete(s, n, image, room, used, made);
    case SPAN: return riddoskam_packet_parse_span(s, n, a.place, a.length, image, room, used, made);
    default: return riddoskam_packet_parse_entry(s, n, a.number, image, room, used, made);
    }
}

static uint8_t call_writing(int call, const uint8_t *image, size_t n, const uint8_t *text, size_t m, uint8_t *out, size_t room, size_t *count) {
    switch (call) {
    case WRITE_VALUE: return riddoskam_write_value(image, n, text, m, out, room, count);
    case WRITE_FILE: return riddoskam_lso_write_to_bytes(image, n, text, m, out, room, count);
    case WRITE_PACKET: return riddoskam_packet_write_to_bytes(image, n, text, m, true, out, room, count);
    default: return riddoskam_packet_write_to_bytes(image, n, text, m, false, out, room, count);
    }
}

static void told(int call, uint8_t answer) {
    calls[call]++;
    answers[answer]++;
    if (answer == 0) accepted[call]++;
}

static void records(const uint8_t *image, size_t made) {
    uint64_t f[5];
    size_t at = 0, next;
    while (at < made) {
        MUST(riddoskam_record_at(image, made, at, f, &next) == 0, "the image isn't records");
        MUST(next > at && next <= made, "a record leads out of the image");
        at = next;
    }
    MUST(at == made, "the image isn't whole records");
}

struct result {
    uint8_t answer;
    size_t used, made;
};

/* Whether a refused reading of n bytes can have a place. The least that 32 levels take is 96 bytes: objects with empty keys. */
static int can_be(int call, const uint8_t *s, size_t n, struct asked a, struct result r) {
    size_t from = call == SPAN ? a.place : 0, to = call == SPAN ? a.place + a.length : n;
    switch (r.answer) {
    case 1: case 8: return r.used == 0;
    case 7: return r.used == 1;
    case 2: case 9: return from <= r.used && r.used <= to;
    case 5: return from + 96 <= r.used && r.used < to && !memchr("\x04\x09\x0E", s[r.used], 3);
    default: return from <= r.used && r.used < to;
    }
}

/* A reading of the bytes s, in both places. The image is left in `image` where it is accepted. */
static struct result reading(int call, const uint8_t *s, size_t n, struct asked a, size_t room, uint8_t *image) {
    static const char *const right[] = {"012345", "012345", "012345", "0123457", "0123457", "012345789", "014589"};
    struct result first = {0, 0, 0};
    now_call = names[call];
    for (int side = 0; side < 2; side++) {
        struct result r = {0, 77, 77};
        uint8_t *in = lend(0, side, n), *im = lend(2, side, room);
        memcpy(in, s, n);
        memset(im, 0xA5, room);
        r.answer = call_reading(call, in, n, a, im, room, &r.used, &r.made);
        if (sham == 1) im[room] = 0;
        if (sham == 2) im[-1] = 0;
        if (sham == 3 && r.answer != 0 && room > 0) im[room - 1] = 1;
        if (sham == 4 && r.answer == 0) r.used = n + 1;
        if (sham == 5 && now_case == 100)
            for (;;) pause();
        if (sham == 6 && n > 0) in[n - 1] ^= 1;
        if (sham == 10 && call == SPAN && r.answer == 9) r.answer = 8;
        if (sham == 14 && r.answer == 3) r.used = 0;
        if (sham == 15 && (call == SPAN || call == ENTRY) && r.answer == 9 && r.used > 0) r.used--;
        left_alone(0, side, n);
        left_alone(2, side, room);
        MUST(memcmp(in, s, n) == 0, "the input changed");
        MUST(r.answer <= 9 && strchr(right[call], '0' + r.answer), "it has no such answer");
        MUST((n > RIDDOSKAM_LIMIT_BYTES) == (r.answer == 1), "1 is for inputs over the limit");
        if (r.answer == 0) {
            MUST(r.used <= n && r.made <= room, "counts lead out of the buffers");
            MUST(all(im + r.made, room - r.made, 0), "the image isn't zero past what is made");
            MUST((call != FILE_WHOLE && call != PACKET_WHOLE) || r.used == n, "a whole reading left bytes over");
            MUST(r.made > 0 && r.made <= 3 * n, "three times the input is too little");
            if (side == 0) records(im, r.made);
        } else {
            MUST(r.made == 0, "a count on a refusal");
            MUST(can_be(call, s, n, a, r), "a place that no such refusal has");
            MUST(all(im, room, 0), "a refused reading left something");
        }
        MUST(r.answer != 4 || room < 3 * n, "4 with three times the input");
        if (side == 0) {
            first = r;
            memcpy(image, im, room);
        } else {
            MUST(r.answer == first.answer && r.used == first.used && r.made == first.made, "another result in another place");
            MUST(memcmp(im, image, room) == 0, "another image in another place");
        }
    }
    told(call, first.answer);
    return first;
}

/* A writing, in both places: the count, and what was written in `out`. */
static struct result writing(int call, const uint8_t *image, size_t n, const uint8_t *text, size_t m, size_t room, uint8_t *out) {
    struct result first = {0, 0, 0};
    now_call = names[call];
    for (int side = 0; side < 2; side++) {
        struct result r = {0, 0, 77};
        uint8_t *im = lend(0, side, n), *tx = lend(1, side, m), *o = lend(2, side, room);
        memcpy(im, image, n);
        memcpy(tx, text, m);
        memset(o, 0x5A, room);
        r.answer = call_writing(call, im, n, tx, m, o, room, &r.made);
        if (sham == 7 && r.answer != 0 && room > 0) o[0] = 0;
        left_alone(0, side, n);
        left_alone(1, side, m);
        left_alone(2, side, room);
        MUST(memcmp(im, image, n) == 0 && memcmp(tx, text, m) == 0, "the image or the text changed");
        MUST(r.answer <= 9 && strchr("01456", '0' + r.answer), "it has no such answer");
        if (r.answer == 0)
            MUST(r.made <= room && r.made <= RIDDOSKAM_LIMIT_BYTES, "the count leads out of the output");
        else
            MUST(r.made == 0, "a count on a refusal");
        MUST(all(o + r.made, room - r.made, 0x5A), "a byte past the count changed");
        if (side == 0) {
            first = r;
            memcpy(out, o, room);
        } else {
            MUST(r.answer == first.answer && r.made == first.made, "another result in another place");
            MUST(memcmp(o, out, room) == 0, "another output in another place");
        }
    }
    told(call, first.answer);
    return first;
}

/* ---- records by their numbers */

/* The fields of each kind: the bytes of a number, `f` for a flag, `z` for the zone behind it. */
static const struct form {
    uint8_t kind;
    const char *fields;
} forms[] = {
    {0x00, "8"}, {0x01, "f"}, {0x02, "33"}, {0x03, ""}, {0x05, ""}, {0x06, ""}, {0x07, "2"}, {0x08, "4"}, {0x09, ""}, {0x0A, "4"}, {0x0B, "8fz"},
    {0x0D, ""}, {0x0F, "33"}, {0x10, "32"}, {0x20, "32"}, {0x30, "22"}, {0x31, "32f"}, {0x32, "3232"}, {0x33, "432"},
};

enum { FORMS = sizeof forms / sizeof *forms, SMALL = 64 };

static int width(char field) { return field == 'f' ? 1 : field == 'z' ? 2 : field - '0'; }

static uint64_t largest(char field) { return field == 'f' ? 1 : UINT64_MAX >> (64 - 8 * width(field)); }

/* The bytes of the record that the numbers tell, and how many; 0 where they tell none. */
static size_t lay(const uint64_t f[5], uint8_t record[12]) {
    int k = 0;
    while (k < FORMS && forms[k].kind != f[0]) k++;
    if (k == FORMS) return 0;
    const char *fields = forms[k].fields;
    size_t n = 0, count = strlen(fields);
    record[n++] = f[0];
    for (size_t i = 0; i < 4; i++) {
        if (f[i + 1] > (i < count ? largest(fields[i]) : 0)) return 0;
        if (i < count && fields[i] == 'z' && f[i] == 0 && f[i + 1] != 0) return 0;
        for (int j = i < count ? width(fields[i]) : 0; j > 0; j--) record[n++] = f[i + 1] >> 8 * (j - 1);
    }
    return n;
}

/* A record put behind the made bytes of an image of at most SMALL bytes, in both places. What is made then is left in `*made`, and the image in `image`. */
static uint8_t putting(const uint64_t f[5], size_t *made, uint8_t *image, size_t room) {
    static uint8_t due[SMALL];
    uint8_t record[12], answer = 0;
    size_t size = lay(f, record), end = *made + size;
    int fits = *made <= room && size <= room - *made;
    now_call = names[PUT];
    memcpy(due, image, room);
    if (size && fits) memcpy(due + *made, record, size);
    for (int side = 0; side < 2; side++) {
        uint8_t *im = lend(2, side, room), *fields = lend(1, side, 5 * sizeof *f), *count = lend(3, side, sizeof *made);
        memcpy(im, image, room);
        memcpy(fields, f, 5 * sizeof *f);
        memcpy(count, made, sizeof *made);
        answer = riddoskam_put(im, room, (size_t *)count, (const uint64_t *)fields);
        if (sham == 17 && answer == 0) im[end - 1] ^= 1;
        if (sham == 18 && answer != 0) count[0] ^= 1;
        left_alone(1, side, 5 * sizeof *f);
        left_alone(2, side, room);
        left_alone(3, side, sizeof *made);
        MUST(memcmp(fields, f, 5 * sizeof *f) == 0, "the numbers changed");
        MUST(answer == (!size ? 6 : !fits ? 4 : 0), "it has no such answer");
        MUST(memcmp(count, answer == 0 ? &end : made, sizeof *made) == 0, "another count than is made");
        MUST(memcmp(im, due, room) == 0, "another image than is due");
    }
    told(PUT, answer);
    memcpy(image, due, room);
    if (answer == 0) *made = end;
    return answer;
}

/* The same, and what stands there then. */
static void put_and_read(const uint64_t f[5], size_t made, uint8_t *image, size_t room) {
    uint64_t g[5];
    size_t next = made, end;
    if (putting(f, &next, image, room) != 0) return;
    MUST(riddoskam_record_at(image, room, made, g, &end) == 0 && end == next && memcmp(f, g, sizeof g) == 0, "it is not read as it was put");
    size_t again = made;
    static uint8_t copy[SMALL];
    memcpy(copy, image, room);
    MUST(putting(g, &again, copy, room) == 0 && again == next && memcmp(copy, image, room) == 0, "what was read is not put back");
}

/* Numbers of a record; now and then one is at its edge, past it, where there is no field, or another kind's. */
static void random_put(void) {
    static uint8_t image[SMALL];
    const struct form *k = &forms[below(FORMS)];
    size_t count = strlen(k->fields), room = below(sizeof image), made = below(8) ? below(room + 2) : any();
    uint64_t f[5] = {k->kind};
    for (size_t i = 0; i < count; i++) {
        uint64_t most = largest(k->fields[i]);
        f[i + 1] = below(3) == 0 ? most : below(3) == 0 ? 0 : most == UINT64_MAX ? any() : any() % (most + 1);
    }
    if (k->kind == RIDDOSKAM_DATE && f[2] == 0 && below(8)) f[3] = 0;
    if (below(4) == 0) {
        size_t i = below(4);
        f[i + 1] = below(2) ? any() : i < count ? largest(k->fields[i]) + 1 : 1;
    }
    if (below(16) == 0) f[0] = below(2) ? below(64) : below(2) ? f[0] + 256 : any();
    for (size_t i = 0; i < room; i++) image[i] = any();
    put_and_read(f, made, image, room);
}

/* ---- indexes */

struct mark {
    size_t depth, container, key, value;
};

static size_t number4(const uint8_t *p) { return (size_t)p[0] << 24 | p[1] << 16 | p[2] << 8 | p[3]; }

static struct mark mark(const uint8_t *index, size_t k) {
    const uint8_t *p = index + RIDDOSKAM_INDEX_RECORD * k;
    return (struct mark){p[0], number4(p + 1), number4(p + 5), number4(p + 9)};
}

/* An image and its text, where a call reads them. */
struct lent {
    const uint8_t *image;
    size_t n;
    const uint8_t *text;
    size_t m;
};

/* The order of a key and the text of the key record at a place; `*next` is the place behind that record. */
static int order(struct lent t, const uint8_t *key, size_t n, size_t at, size_t *next) {
    uint64_t f[5];
    MUST(riddoskam_record_at(t.image, t.n, at, f, next) == 0 && f[0] == RIDDOSKAM_KEY, "no key where one is named");
    MUST(riddoskam_inside(t.text, t.m, f[1], f[2]), "a key leads out of the text");
    int c = memcmp(key, t.text + f[1], n < f[2] ? n : f[2]);
    return c ? c : n < f[2] ? -1 : n > f[2];
}

static int is_value(struct lent t, size_t at) {
    uint64_t f[5];
    size_t next;
    return riddoskam_record_at(t.image, t.n, at, f, &next) == 0 && f[0] <= RIDDOSKAM_TYPED_OBJECT && f[0] != RIDDOSKAM_OBJECT_END;
}

/* The index of an image, in both places: the count, and the index in `index`. */
static struct result indexing(struct lent t, size_t room, uint8_t *index) {
    struct result first = {0, 0, 0};
    now_call = names[INDEX];
    for (int side = 0; side < 2; side++) {
        struct result r = {0, 0, 77};
        uint8_t *im = lend(0, side, t.n), *tx = lend(1, side, t.m), *ix = lend(2, side, room);
        memcpy(im, t.image, t.n);
        memcpy(tx, t.text, t.m);
        memset(ix, 0xA5, room);
        r.answer = riddoskam_index(im, t.n, tx, t.m, ix, room, &r.made);
        if (sham == 11 && r.made > 1) memcpy(ix, ix + 13, 13);
        if (sham == 12 && r.answer != 0 && room > 0) ix[room - 1] = 1;
        left_alone(0, side, t.n);
        left_alone(1, side, t.m);
        left_alone(2, side, room);
        MUST(memcmp(im, t.image, t.n) == 0 && memcmp(tx, t.text, t.m) == 0, "the image or the text changed");
        MUST(r.answer <= 9 && strchr("01456", '0' + r.answer), "it has no such answer");
        MUST((t.n > RIDDOSKAM_LIMIT_IMAGE || t.m > RIDDOSKAM_LIMIT_BYTES) == (r.answer == 1), "1 is for images and texts over the limit");
        MUST(r.answer == 0 ? 13 * r.made <= room : r.made == 0, "the count leads out of the index, or there is one on a refusal");
        MUST(r.answer != 4 || room < 2 * t.n, "4 with twice the image");
        MUST(all(ix + 13 * r.made, room - 13 * r.made, 0), "the index isn't zero behind its records");
        if (side == 0) {
            first = r;
            memcpy(index, ix, room);
        } else {
            MUST(r.answer == first.answer && r.made == first.made, "another result in another place");
            MUST(memcmp(ix, index, room) == 0, "another index in another place");
        }
    }
    for (size_t k = 0; k < first.made; k++) {
        struct mark a = mark(index, k), b = mark(index, k + 1 < first.made ? k + 1 : k);
        uint64_t f[5];
        size_t next;
        MUST(riddoskam_record_at(t.image, t.n, a.key, f, &next) == 0 && f[0] == RIDDOSKAM_KEY, "a record of no key");
        MUST(next == a.value && is_value(t, next) && a.container < a.key && a.depth - 1 < RIDDOSKAM_LIMIT_LEVELS, "a record isn't its key's");
        MUST(riddoskam_inside(t.text, t.m, f[1], f[2]), "a key leads out of the text");
        int c = order(t, t.text + f[1], f[2], b.key, &next);
        MUST(k + 1 == first.made || a.container < b.container || (a.container == b.container && (c < 0 || (c == 0 && a.key < b.key))), "no order");
    }
    told(INDEX, first.answer);
    return first;
}

/* A lookup by a path, or by a key from a container, in both places. */
static bool lookup(int call, struct lent t, const uint8_t *index, size_t room, size_t container, const uint8_t *path, size_t n, size_t *place) {
    bool first = false;
    now_call = names[call];
    for (int side = 0; side < 2; side++) {
        size_t p = 77;
        uint8_t *im = lend(0, side, t.n), *tx = lend(1, side, t.m), *ix = lend(2, side, room), *pa = lend(3, side, n);
        memcpy(im, t.image, t.n);
        memcpy(tx, t.text, t.m);
        memcpy(ix, index, room);
        memcpy(pa, path, n);
        bool found = call == FIND ? riddoskam_find(im, t.n, tx, t.m, ix, room, pa, n, &p) : riddoskam_step(im, t.n, tx, t.m, ix, room, container, pa, n, &p);
        if (sham == 13 && !found) p = 1;
        left_alone(0, side, t.n);
        left_alone(1, side, t.m);
        left_alone(2, side, room);
        left_alone(3, side, n);
        MUST(memcmp(im, t.image, t.n) == 0 && memcmp(tx, t.text, t.m) == 0, "the image or the text changed");
        MUST(memcmp(ix, index, room) == 0 && memcmp(pa, path, n) == 0, "the index or the path changed");
        MUST(found || p == 0, "nothing is found, and a place");
        MUST(side == 0 || (found == first && p == *place), "another result in another place");
        first = found;
        *place = p;
    }
    calls[call]++;
    if (!first) return false;
    accepted[call]++;
    /* what is found: the first record, or a value right behind the six bytes of a record of the last key */
    size_t from = 0, size = n, next;
    if (call == FIND)
        for (size_t i = 0; i < n; i = from + size) {
            MUST(n - i >= 2 && (size = path[i] << 8 | path[i + 1]) <= n - i - 2, "a row that isn't whole keys finds something");
            from = i + 2;
        }
    if (call == FIND && n == 0)
        MUST(*place == 0, "no keys lead elsewhere than to the first record");
    else
        MUST(*place >= 6 && order(t, path + from, size, *place - 6, &next) == 0 && next == *place && is_value(t, next), "what is found isn't its key's");
    return true;
}

/* ---- inputs */

static uint8_t input[MOST + 65536];
static size_t length;

static void put(uint8_t b) {
    if (length < MOST) input[length++] = b;
}

static void put_number(int width, uint64_t n) {
    while (width-- > 0) put(n >> (8 * width));
}

static void put_text(int width, size_t n) {
    put_number(width, n);
    int wide = below(4) == 0;
    for (size_t i = 0; i < n;) {
        if (wide && n - i >= 2 && below(2)) {
            put(0xC2 + below(30));
            put(0x80 + below(64));
            i += 2;
        } else if (wide && n - i >= 4 && below(4) == 0) {
            put(0xF1);
            for (int k = 0; k < 3; k++) put(0x80 + below(64));
            i += 4;
        } else {
            put(' ' + below(95));
            i++;
        }
    }
}

static size_t some_length(void) { return below(20) == 0 ? below(700) : below(12); }

static void put_value(int left);

/* Some keys are there twice. */
static void put_key(void) {
    if (below(4)) {
        put_text(2, some_length());
    } else {
        put_number(2, 1);
        put('a' + below(2));
    }
}

static void put_pairs(int left) {
    for (size_t n = below(5); n > 0; n--) {
        put_key();
        put_value(left);
    }
    put_text(2, below(8) == 0 ? below(5) : 0);
    put(9);
}

static void put_value(int left) {
    static const uint8_t plain[] = {0, 1, 2, 5, 6, 7, 0x0B, 0x0C, 0x0D, 0x0F, 0x11, 0x12, 0xFF, 0, 2, 2};
    static const uint8_t nest[] = {3, 8, 0x0A, 0x10};
    uint8_t m = left > 0 && below(3) ? nest[below(sizeof nest)] : plain[below(sizeof plain)];
    put(m);
    switch (m) {
    case 0: put_number(8, any()); break;
    case 1: put(below(3)); break;
    case 2: put_text(2, some_length()); break;
    case 7: put_number(2, any()); break;
    case 0x0B: put_number(8, any()); put_number(2, below(3)); break;
    case 0x0C: case 0x0F: put_text(4, some_length()); break;
    case 3: put_pairs(left - 1); break;
    case 8: put_number(4, below(9)); put_pairs(left - 1); break;
    case 0x10: put_text(2, some_length()); put_pairs(left - 1); break;
    case 0x0A: {
        size_t n = below(5);
        put_number(4, n);
        while (n-- > 0) put_value(left - 1);
        break;
    }
    }
}

/* A value under `levels` arrays of one value. */
static void put_deep(size_t levels) {
    while (levels-- > 0) {
        put(0x0A);
        put_number(4, 1);
    }
    put_value(1);
}

static void put_file(void) {
    static const uint8_t signature[] = {'T', 'C', 'S', 'O', 0, 4, 0, 0, 0, 0};
    put_number(2, 0xBF);
    put_number(4, any());
    for (size_t i = 0; i < sizeof signature; i++) put(signature[i]);
    put_text(2, some_length());
    put_number(4, 0);
    for (size_t n = below(6); n > 0; n--) {
        put_key();
        put_value(below(4));
        put(0);
    }
}

static void put_entries(int header) {
    size_t n = below(4);
    put_number(2, n);
    while (n-- > 0) {
        put_text(2, some_length());
        if (header)
            put(below(3));
        else
            put_text(2, some_length());
        size_t at = length;
        put_number(4, 0xFFFFFFFF);
        put_value(below(4));
        size_t end = length;
        if (below(5)) {
            length = at;
            put_number(4, end - at - 4);
            length = end;
        }
    }
}

static void put_packet(void) {
    put(0);
    put(below(40) == 0 ? 3 : 0);
    put_entries(1);
    put_entries(0);
}

/* Bytes that say much in these formats. */
static uint8_t telling(void) {
    static const uint8_t bytes[] = {
        0, 0, 0, 0, 1, 1, 2, 3, 4, 5, 6, 7, 8, 9, 9, 0x0A, 0x0B,
        0x0C, 0x0D, 0x0E, 0x0F, 0x10, 0x11, 0x12, 0x7F, 0x80, 0xBF, 0xC2, 0xE0, 0xF4, 0xFF,
    };
    return below(4) ? bytes[below(sizeof bytes)] : any();
}

static void bend(uint8_t *s, size_t *n, size_t most) {
    for (size_t times = 1 + below(4); times > 0; times--) {
        size_t at = below(*n);
        switch (below(7)) {
        case 0: if (*n) s[at] ^= 1 << below(8); break;
        case 1: if (*n) s[at] = telling(); break;
        case 2: *n = at; break;
        case 3: if (*n < most) { memmove(s + at + 1, s + at, *n - at); s[at] = telling(); ++*n; } break;
        case 4: if (*n) { memmove(s + at, s + at + 1, *n - at - 1); --*n; } break;
        case 5: for (size_t k = 0; k < 4 && at + k < *n; k++) s[at + k] = below(2) ? 0xFF : 0; break;
        case 6: { size_t from = below(*n), k = below(20); if (from + k <= *n && at + k <= *n) memmove(s + at, s + from, k); break; }
        }
    }
}

static void make_input(void) {
    length = 0;
    size_t kind = below(32);
    if (kind < 9)
        put_value(below(6));
    else if (kind < 16)
        put_file();
    else if (kind < 26)
        put_packet();
    else if (kind < 27)
        put_deep(28 + below(8));
    else
        for (size_t n = below(40); n > 0; n--) put(telling());
    if (below(400) == 0) {
        /* one that is long: up to the limit and just over it */
        size_t n = below(3) ? below(100000) : RIDDOSKAM_LIMIT_BYTES - 1 + below(3);
        uint8_t b = telling();
        while (length < n) put(below(64) ? b : telling());
    } else if (below(5) < 3)
        bend(input, &length, MOST);
    if (below(6) == 0)
        for (size_t n = below(4); n > 0; n--) put(telling());
}

static size_t some_room(size_t n) {
    switch (below(8)) {
    case 0: return below(4);
    case 1: return below(n + 1);
    case 2: return below(3 * n + 1);
    default: return 3 * n;
    }
}

/* ---- a case */

static uint8_t tree[4 * MOST], again[4 * MOST], written[2 * MOST], bent[4 * MOST];

/* An image that was read of `input`, written and read again. */
static void round_trip(int read, int write, struct result r, size_t n) {
    struct result w = writing(write, tree, r.made, input, n, n + 40, written);
    MUST(w.answer == 0, "what was read can't be written");
    MUST(w.made <= r.used, "more bytes than were read");
    struct result b = reading(read, written, w.made, nothing, 3 * w.made, again);
    MUST(b.answer == 0 && b.used == w.made && b.made == r.made, "what was written doesn't read back");
    /* exactly enough room, and one byte less */
    if (w.made > 0) {
        MUST(writing(write, tree, r.made, input, n, w.made, written).answer == 0, "its own length is too little room");
        MUST(writing(write, tree, r.made, input, n, w.made - 1, written).answer == 4, "a byte too little is room enough");
    }
    /* the last element of a file that is read so far needs room too, and is dropped */
    if (read != FILE_START) MUST(reading(read, input, n, nothing, r.made, again).answer == 0, "its own image is too little room");
}

/* The index of an image of at most 15,000 bytes, and lookups in it; and first in the last one, which was of another image, and bent. */
static void lookups(const uint8_t *image, size_t made, size_t n) {
    static uint8_t index[65536], path[32768];
    static size_t room, size;
    struct lent t = {image, made, input, n};
    uint64_t f[5];
    size_t at = 0, place, next;
    lookup(FIND, t, index, room, 0, path, size, &place);
    room = below(4) ? 2 * made + below(20) : below(2 * made + 1);
    size = 0;
    struct result r = indexing(t, room, index);
    /* an output of no room: 4, or what the image is refused for */
    uint8_t refused = writing(made > 0 && image[0] == RIDDOSKAM_LSO ? WRITE_FILE : WRITE_VALUE, image, made, input, n, 0, written).answer;
    if (refused == 5 || refused == 6)
        MUST(r.answer == refused, "an index is refused otherwise than a writing");
    else
        MUST(r.answer == 0 || r.answer == 4, "an image that can be written has no index");
    bool way = is_value(t, 0) || (riddoskam_record_at(image, made, 0, f, &next) == 0 && f[0] == RIDDOSKAM_LSO);
    for (size_t steps = r.made > 0 ? 1 + below(4) : below(2); way && steps > 0; steps--) {
        /* a key of this container, from a record on, or of any, or none; and its last value, one by one */
        size_t from = 0, key = n < 3 ? n : below(4), k = below(r.made), want = 0;
        for (size_t i = 0; below(8) && i < r.made && mark(index, k).container != at; i++) k = (k + 1) % r.made;
        if (r.made > 0 && riddoskam_record_at(image, made, mark(index, k).key, f, &next) == 0) from = f[1], key = f[2];
        for (k = 0; k < r.made; k++)
            if (mark(index, k).container == at && order(t, input + from, key, mark(index, k).key, &next) == 0) want = mark(index, k).value;
        way = lookup(STEP, t, index, room, at, input + from, key, &place);
        MUST(way ? place == want : want == 0, "another value than one by one");
        path[size] = key >> 8;
        path[size + 1] = key;
        memcpy(path + size + 2, input + from, key);
        size += key + 2;
        at = place;
    }
    MUST(lookup(FIND, t, index, room, 0, path, size, &place) == way && place == (way ? at : 0), "a path leads elsewhere than its keys");
    /* the path bent, and the index: whatever they are, there is a value or nothing */
    bend(path, &size, sizeof path);
    lookup(FIND, t, index, room, 0, path, size, &place);
    bend(index, &room, sizeof index);
    lookup(FIND, t, index, room, 0, path, size, &place);
    lookup(STEP, t, index, room, below(4) ? at : any(), path + 2, size > 2 ? size - 2 : 0, &place);
}

static int same(struct result a, struct result b) { return a.answer == b.answer && a.used == b.used && a.made == b.made; }

/* The place of a refusal of `input`, by what the same call says of the bytes up to it and the one there: the same, or 2 there or earlier. Where the record of a
   value has no room, and where a fault is an entry's, its first byte may be read past. In a file an element that is cut short is dropped, and 4 and 5 with it. */
static void nearby(int call, struct asked a, struct result r, size_t room) {
    if (r.answer == 0 || r.answer == 1 || r.answer == 8 || r.used >= length || length > 5000) return;
    if ((call == FILE_WHOLE || call == FILE_START) && (r.answer == 4 || r.answer == 5)) return;
    size_t past = r.answer == 4 || r.answer == 9 || (call == ENTRY && r.answer == 5);
    struct result q = reading(call, input, r.used + 1, a, room, again);
    MUST(same(q, r) || (q.answer == 2 && q.used <= r.used + past), "what stands before a place is refused otherwise");
}

static void read_and_write(int read, int write) {
    size_t room = some_room(length);
    struct result r = reading(read, input, length, nothing, room, tree);
    nearby(read, nothing, r, room);
    if (read == FILE_WHOLE || read == PACKET_WHOLE) {
        struct result f = reading(read == FILE_WHOLE ? FILE_START : PACKET_FRONT, input, length, nothing, room, again);
        MUST(same(r, f) || (r.answer == 3 && f.answer == 0 && r.used == f.used), "a whole reading is refused otherwise, or elsewhere");
    }
    if (r.answer == 0 && length < 5000) {
        round_trip(read, write, r, length);
        lookups(tree, r.made, length);
        /* the image bent: whatever it is, the writer answers */
        size_t n = r.made;
        memcpy(bent, tree, n);
        bend(bent, &n, sizeof bent);
        writing(write, bent, n, input, length, below(3) ? 2 * length + 40 : below(length + 1), written);
        lookups(bent, n, length);
    }
}

/* What the bytes of a value answer by themselves, with room for all: 2, 3 and unused bytes are damage, and places count from the packet's start. The image is left
   in `again`. */
static struct result alone(size_t place, size_t n) {
    const char *call = now_call;
    struct result v = reading(VALUE, input + place, n, nothing, 3 * length, again);
    now_call = call;
    if (v.answer == 0 && v.used < n) return (struct result){9, place + v.used, 0};
    if (v.answer == 2 || v.answer == 3) v.answer = 9;
    if (v.answer != 0) v.used += place;
    return v;
}

static void entries(void) {
    size_t e[8];
    for (size_t k = 0; k < 9; k++) {
        now_call = names[NTH];
        uint8_t answer = 0;
        for (int side = 0; side < 2; side++) {
            uint8_t *p = lend(0, side, length);
            memcpy(p, input, length);
            memset(e, 0xEE, sizeof e);
            answer = riddoskam_packet_nth(p, length, k, e);
            left_alone(0, side, length);
        }
        MUST(strchr("0123578", '0' + answer), "it has no such answer");
        told(NTH, answer);
        struct asked entry = {.number = k};
        size_t room = some_room(length);
        struct result r = reading(ENTRY, input, length, entry, room, tree);
        nearby(ENTRY, entry, r, room);
        if (answer != 0) {
            MUST(r.answer == answer, "an entry that is not there is read");
            for (int i = 0; i < 8; i++) MUST(e[i] == 0, "a refused entry left something");
            return;
        }
        MUST(e[0] == RIDDOSKAM_HEADER || e[0] == RIDDOSKAM_MESSAGE, "an entry's kind");
        MUST(e[1] <= 1 && (e[0] == RIDDOSKAM_HEADER || e[1] == 0), "an entry's flag");
        for (int i = 2; i < 8; i += 2) MUST(riddoskam_inside(input, length, e[i], e[i + 1]), "an entry leads out of the packet");
        if (r.answer == 0) MUST(r.used == e[7], "an entry that is not used to its end");
        r = reading(ENTRY, input, length, entry, 3 * length, tree);
        MUST(same(r, alone(e[6], e[7])), "an entry answers otherwise than its value alone");
        if (memcmp(input + e[6] - 4, "\xFF\xFF\xFF\xFF", 4) == 0) MUST(r.answer == 0, "an entry that was measured is refused");
    }
}

/* The cut, in both places; then each of its entries by number and by its span. */
static void cut(void) {
    static size_t row[96];
    size_t room = below(4) ? 80 + below(16) : below(40), count = 0, place = 0;
    uint8_t answer = 0;
    now_call = names[CUT];
    for (int side = 0; side < 2; side++) {
        size_t used = 77, n = 77;
        uint8_t *p = lend(0, side, length);
        size_t *numbers = (size_t *)lend(2, side, room * sizeof *row);
        memcpy(p, input, length);
        memset(numbers, 0xEE, room * sizeof *row);
        uint8_t a = riddoskam_packet_cut(p, length, numbers, room, &used, &n);
        if (sham == 8 && a == 0 && n > 0) numbers[8 * n - 1] ^= 1;
        if (sham == 9) numbers[room] = 0;
        if (sham == 16 && a == 4) used = length;
        left_alone(0, side, length);
        left_alone(2, side, room * sizeof *row);
        MUST(memcmp(p, input, length) == 0, "the packet changed");
        MUST(a <= 9 && strchr("0123457", '0' + a), "it has no such answer");
        MUST((length > RIDDOSKAM_LIMIT_BYTES) == (a == 1), "1 is for inputs over the limit");
        if (a == 0)
            MUST(used == length && n <= room / 8, "counts lead out of the buffers");
        else
            MUST(n == 0 && (a != 4 || used == 0), "a count on a refusal, or a place of a row too short");
        MUST(all((uint8_t *)(numbers + 8 * n), (room - 8 * n) * sizeof *row, 0), "the row isn't zero behind the entries");
        if (side == 0) {
            answer = a;
            count = n;
            place = used;
            memcpy(row, numbers, room * sizeof *row);
        } else {
            MUST(a == answer && n == count && used == place, "another result in another place");
            MUST(memcmp(numbers, row, room * sizeof *row) == 0, "another row in another place");
        }
    }
    told(CUT, answer);
    /* behind the last entry there is none; where the row is too short there is one more; else the refusal is the same */
    size_t e[8];
    uint8_t behind = riddoskam_packet_nth(input, length, answer == 4 ? room / 8 : count, e);
    MUST(behind == (answer == 0 ? 8 : answer == 4 ? 0 : answer), "the cut ends elsewhere than the numbers");
    if (answer != 0 && answer != 4) {
        struct result r = reading(ENTRY, input, length, (struct asked){.number = 0}, 0, again);
        now_call = names[CUT];
        MUST(r.answer == answer && r.used == place, "the cut is refused elsewhere than an entry");
    }
    for (size_t k = 0; k < count; k++) {
        now_call = names[CUT];
        MUST(riddoskam_packet_nth(input, length, k, e) == 0 && memcmp(e, row + 8 * k, sizeof e) == 0, "an entry is another by its number");
        size_t image = some_room(length);
        struct result r = reading(SPAN, input, length, (struct asked){.place = e[6], .length = e[7]}, image, tree);
        struct result q = reading(ENTRY, input, length, (struct asked){.number = k}, image, again);
        MUST(same(r, q), "a span answers otherwise than its entry");
        MUST(memcmp(tree, again, image) == 0, "a span has another image than its entry");
    }
}

static void span(void) {
    struct asked a = {.place = below(8) ? below(length + 1) : any()};
    a.length = below(8) ? below(below(2) ? length + 3 : 40) : any();
    struct result r = reading(SPAN, input, length, a, 3 * length, tree);
    if (length > RIDDOSKAM_LIMIT_BYTES) return;
    if (a.place > length || a.length > length - a.place)
        MUST(r.answer == 8, "a span that is not inside is read");
    else
        MUST(same(r, alone(a.place, a.length)), "a span answers otherwise than its bytes alone");
}

/* The numbers of a record that was read at a place, put there. */
static void put_back(const uint8_t *image, size_t n, size_t at, const uint64_t f[5], size_t next) {
    static uint8_t copy[SMALL];
    memcpy(copy, image, n);
    MUST(putting(f, &at, copy, n) == 0 && at == next && memcmp(copy, image, n) == 0, "what was read is not put back");
    now_call = names[RECORD];
}

static void random_image(void) {
    static const uint8_t kinds[] = {0, 1, 2, 3, 5, 6, 7, 8, 9, 9, 0x0A, 0x0B, 0x0D, 0x0F, 0x10, 0x20, 0x20, 0x30, 0x31, 0x32, 0x33};
    size_t n = 0, most = below(60);
    while (n < most) {
        bent[n++] = kinds[below(sizeof kinds)];
        for (size_t k = below(12); k > 0 && n < most; k--) bent[n++] = below(3) ? 0 : telling();
    }
    for (int call = WRITE_VALUE; call <= WRITE_OPEN; call++) writing(call, bent, n, input, length < 3000 ? length : 3000, below(200), written);
    lookups(bent, n, length < 3000 ? length : 3000);
    now_call = names[RECORD];
    uint64_t f[5];
    for (int side = 0; side < 2; side++) {
        uint8_t *p = lend(0, side, n);
        memcpy(p, bent, n);
        for (size_t at = 0; at < n + 3; at++) {
            size_t next = 77;
            memset(f, 0xEE, sizeof f);
            uint8_t answer = riddoskam_record_at(p, n, at, f, &next);
            told(RECORD, answer);
            if (answer == 0) {
                MUST(next > at && next <= n && next - at <= 12 && f[0] == p[at], "a record leads out of the image");
                if (side == 0) put_back(p, n, at, f, next);
            } else {
                MUST(answer == 6 && next == 0, "it has no such answer");
                for (int i = 0; i < 5; i++) MUST(f[i] == 0, "a refused record left something");
            }
        }
        left_alone(0, side, n);
    }
}

static void texts(void) {
    now_call = names[TEXTS];
    size_t place = below(4) ? below(length + 3) : any(), n = below(4) ? below(length + 3) : any(), from = 77;
    int in = place <= length && n <= length - place;
    MUST(riddoskam_inside(input, length, place, n) == in, "inside");
    size_t got = riddoskam_part(input, length, place, n, &from);
    MUST(in ? got == n && from == place : got == 0 && from == 0, "part");
    told(TEXTS, 0);
}

int main(int count, char **words) {
    static const char *const all_names[] = {
        "value read", "file read whole", "file read so far", "packet read whole",
        "packet read at the front", "entry read", "span read", "value written",
        "file written", "packet written, exact lengths", "packet written, FFFFFFFF", "entry by number",
        "packet cut", "record", "record put", "index made",
        "looked up by a path", "looked up by a key", "inside and part",
    };
    if (count < 3) return 2;
    memcpy(names, all_names, sizeof all_names);
    state = strtoull(words[1], NULL, 10);
    unsigned long long most = strtoull(words[2], NULL, 10);
    sham = count > 3 ? atoi(words[3]) : 0;
    lent[0] = area(4 * MOST);
    lent[1] = area(MOST);
    lent[2] = area(4 * MOST);
    lent[3] = area(MOST);
    signal(SIGSEGV, on_signal);
    signal(SIGBUS, on_signal);
    signal(SIGALRM, on_signal);
    /* the pages around a buffer can't be touched */
    for (int i = 0; i < 4; i++)
        for (int side = 0; side < 2; side++) {
            pid_t child = fork();
            if (child == 0) {
                guard_tried = 1;
                *(volatile uint8_t *)(side ? lent[i].base + lent[i].room : lent[i].base - 1) = 1;
                _exit(0);
            }
            int status = 0;
            if (child < 0 || waitpid(child, &status, 0) != child || !WIFEXITED(status) || WEXITSTATUS(status) != 7)
                fail("a page that must not be touched can be");
        }
    for (now_case = 0; now_case < most; now_case++) {
        tell(now_case, most);
        if (now_case % 64 == 0) alarm(sham == 5 ? 2 : 60);
        make_input();
        read_and_write(VALUE, WRITE_VALUE);
        read_and_write(below(2) ? FILE_WHOLE : FILE_START, WRITE_FILE);
        read_and_write(below(2) ? PACKET_WHOLE : PACKET_FRONT, below(2) ? WRITE_PACKET : WRITE_OPEN);
        entries();
        cut();
        span();
        texts();
        random_put();
        if (below(4) == 0) random_image();
    }
    unsigned long long sum = 0;
    for (int i = 0; i <= TEXTS; i++) {
        printf("%-30s %10llu calls, %9llu accepted\n", names[i], calls[i], accepted[i]);
        sum += calls[i];
    }
    printf("answers");
    for (int i = 0; i < 10; i++) printf(" %d: %llu", i, answers[i]);
    printf("\n%llu inputs, %llu calls, each in both places: nothing touched outside, nothing left that must not be\n", most, sum);
    return 0;
}
