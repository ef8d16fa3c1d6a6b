/* walk SEED CASES: holds the inline functions of include/riddoskam_tree.h and include/riddoskam_build.h against a second walk, on random and bent images.

   A case is a random tree that is built, written by the library and read back, the same image bent, and a row of random records. The second walk has its own
   table of records, goes by recursion and looks at every byte itself; it has no call of the library in it. Each image stands once right behind a page that
   can't be touched and once right before one, and so do its text and its index, so a byte that is looked at outside ends the program. Of each image:
   - from every place, or some of a long image: the place behind the value, the children, how many, and each by its number;
   - the whole tree from the root down, each node with its kind, place, depth and name;
   - what every node holds, asked for as every kind;
   - in every container each key and one more: the last pair of it; and the same by the index where the library makes one;
   - by an index of other bytes: nothing, or a value behind a record of that key;
   - with a node of any numbers, and with a tree that lacks its image or its text: that it ends;
   - how often a record is looked at: a walk over the children of a node takes each record in it twice at most, whatever an array counts.
   Of a tree that was read also: what `skip` says is where the library's writing of that value ends; and it is built anew, value by value, with texts copied and
   with texts named in place, and written as it was; with less room it is refused by 4, stays so, and nothing is written.
   A call that doesn't end is ended by the clock. The same SEED gives the same cases. */
#include <signal.h>
#include <stdio.h>
#include <stdlib.h>
#include <string.h>
#include <sys/mman.h>
#include <unistd.h>

#include "far.h"
#include "riddoskam_build.h"

enum { PAGE = 65536, MOST = 1 << 14, SECONDS = 60, EVERY_PLACE = 150, SOME_PLACES = 12, LEVELS = 32 };
#define NONE SIZE_MAX

/* ---- numbers */

static uint64_t state;

static uint64_t any(void) {
    uint64_t z = state += 0x9E3779B97F4A7C15u;
    z = (z ^ z >> 30) * 0xBF58476D1CE4E5B9u;
    z = (z ^ z >> 27) * 0x94D049BB133111EBu;
    return z ^ z >> 31;
}

static size_t below(size_t n) { return n ? (size_t)(any() % n) : 0; }

/* ---- what is told */

static unsigned long long now_case, images, walks, nodes, keys_asked, by_index, built, refused_builds;
static const char *now_part = "none";

static void fail(const char *what) {
    printf("FAILED in case %llu, %s: %s\n", now_case, now_part, what);
    fflush(stdout);
    _exit(1);
}

#define MUST(fact, what)         \
    do {                         \
        if (!(fact)) fail(what); \
    } while (0)

static void on_signal(int n) { fail(n == SIGALRM ? "it does not end" : "it touches what is not its own"); }

/* ---- how often a record is looked at: the linker hands each call of riddoskam_record_at to this */

static size_t looks;

uint8_t __real_riddoskam_record_at(const uint8_t *image, size_t n, size_t at, uint64_t *fields, size_t *next);
uint8_t __wrap_riddoskam_record_at(const uint8_t *image, size_t n, size_t at, uint64_t *fields, size_t *next);

uint8_t __wrap_riddoskam_record_at(const uint8_t *image, size_t n, size_t at, uint64_t *fields, size_t *next) {
    looks++;
    return __real_riddoskam_record_at(image, n, at, fields, next);
}

/* Of so many records no more than so many looks each, and at most one that fails, for one walk over siblings. */
static void few_looks(size_t records, size_t each) {
    MUST(looks <= each * (records + 1), "it looks at records too often");
    looks = 0;
}

/* ---- buffers between pages that can't be touched */

enum { IMAGE, TEXT, INDEX, BUILT, LAID, AREAS };

static uint8_t *area[AREAS];

static uint8_t *new_area(void) {
    uint8_t *p = mmap(NULL, 4 * PAGE + 4 * MOST, PROT_NONE, MAP_PRIVATE | MAP_ANONYMOUS, -1, 0);
    if (p == MAP_FAILED) fail("no memory");
    p += 2 * PAGE - (uintptr_t)p % PAGE;
    if (mprotect(p, 4 * MOST, PROT_READ | PROT_WRITE) != 0) fail("no memory");
    return p;
}

/* n bytes of room, right behind the page before (side 0) or right before the page behind (side 1). */
static uint8_t *lend(int which, int side, size_t n) {
    MUST(n <= 4 * MOST, "a buffer of the test is too short");
    return side == 0 ? area[which] : area[which] + 4 * MOST - n;
}

static uint8_t *lend_bytes(int which, int side, const uint8_t *bytes, size_t n) {
    uint8_t *p = lend(which, side, n);
    memcpy(p, bytes, n);
    return p;
}

/* ---- the second walk */

struct seen {
    const uint8_t *image;
    size_t n;
    const uint8_t *text;
    size_t m;
};

/* The widths of the numbers in a record. */
static const struct {
    uint8_t kind, width[4];
} forms[] = {
    {0x00, {8}}, {0x01, {1}}, {0x02, {3, 3}}, {0x03, {0}}, {0x05, {0}}, {0x06, {0}}, {0x07, {2}}, {0x08, {4}}, {0x09, {0}}, {0x0A, {4}},
    {0x0B, {8, 1, 2}}, {0x0D, {0}}, {0x0F, {3, 3}}, {0x10, {3, 2}}, {0x20, {3, 2}}, {0x30, {2, 2}}, {0x31, {3, 2, 1}}, {0x32, {3, 2, 3, 2}}, {0x33, {4, 3, 2}},
};

/* The record at a place: the place behind it, or NONE. */
static size_t second_record(struct seen s, size_t at, uint64_t f[5]) {
    size_t k = 0, next = at + 1;
    memset(f, 0, 5 * sizeof *f);
    if (at >= s.n) return NONE;
    while (k < sizeof forms / sizeof *forms && forms[k].kind != s.image[at]) k++;
    if (k == sizeof forms / sizeof *forms) return NONE;
    f[0] = s.image[at];
    for (int i = 0; i < 4; i++)
        for (int w = forms[k].width[i]; w > 0; w--) {
            if (next == s.n) return NONE;
            f[i + 1] = f[i + 1] << 8 | s.image[next++];
        }
    if (f[0] == 0x01 && f[1] > 1) return NONE;
    if (f[0] == 0x31 && f[3] > 1) return NONE;
    if (f[0] == 0x0B && (f[2] > 1 || (f[2] == 0 && f[3] != 0))) return NONE;
    return next;
}

static int second_is_value(uint64_t kind) { return kind < 0x20 && kind != 0x09; }

static int second_value_at(struct seen s, size_t at) {
    uint64_t f[5];
    return second_record(s, at, f) != NONE && second_is_value(f[0]);
}

/* The place behind the value at a place, with so many levels left; or NONE. */
static size_t second_behind(struct seen s, size_t at, int levels) {
    uint64_t f[5];
    size_t next = second_record(s, at, f);
    if (levels == 0 || next == NONE || !second_is_value(f[0])) return NONE;
    if (f[0] == 0x0A)
        for (uint64_t k = f[1]; k > 0 && next != NONE; k--) next = second_behind(s, next, levels - 1);
    if (f[0] == 0x08)
        while (next != NONE && second_value_at(s, next)) next = second_behind(s, next, levels - 1);
    if (f[0] == 0x03 || f[0] == 0x08 || f[0] == 0x10)
        for (;;) {
            uint64_t g[5];
            if (next != NONE) next = second_record(s, next, g);
            if (next == NONE || g[0] != 0x20) return next != NONE && g[0] == 0x09 ? next : NONE;
            next = second_behind(s, next, levels - 1);
        }
    return next;
}

/* A child: where it begins, where its value does, and what names it. */
struct child {
    size_t head, place;
    uint8_t named;
};

/* The kind of record that must stand before child k of a container of the record f; 0 where none must. NONE where there is no such child. */
static size_t second_named(const uint64_t f[5], size_t k) {
    switch (f[0]) {
    case 0x03: case 0x08: case 0x10: case 0x33: return 0x20;
    case 0x0A: return k < f[1] ? 0 : NONE;
    case 0x30: return k < f[1] ? 0x31 : k < f[1] + f[2] ? 0x32 : NONE;
    default: return NONE;
    }
}

/* The children of what stands at a place; a file or a packet only at the front. Those of an ECMA array have no key up to the first that has one. */
static size_t second_children(struct seen s, size_t at, struct child *list) {
    uint64_t f[5], g[5];
    size_t count = 0, next = second_record(s, at, f);
    bool dense = f[0] == 0x08;
    if (next == NONE || (f[0] >= 0x20 && at > 0)) return 0;
    for (;;) {
        size_t named = second_named(f, count), place = next;
        if (named == NONE || next == NONE) return count;
        dense = dense && second_value_at(s, next);
        if (dense) named = 0;
        if (named != 0) {
            place = second_record(s, next, g);
            if (place == NONE || g[0] != named) return count;
        }
        if (!second_value_at(s, place)) return count;
        list[count++] = (struct child){next, place, named == 0 ? RIDDOSKAM_NOTHING : (uint8_t)named};
        next = second_behind(s, place, LEVELS);
    }
}

/* The text that two numbers name: its bytes, or NULL. */
static const uint8_t *second_text(struct seen s, uint64_t place, uint64_t length) {
    return place <= s.m && length <= s.m - place ? s.text + place : NULL;
}

static size_t second_count(struct seen s) {
    uint64_t f[5];
    size_t count = 0;
    for (size_t at = 0; at != NONE && at < s.n; at = second_record(s, at, f)) count++;
    return count;
}

/* ---- comparisons */

static void same_text(struct riddoskam_text t, const uint8_t *bytes, uint64_t length, const char *what) {
    MUST(t.bytes != NULL, "a text without a pointer");
    if (bytes == NULL)
        MUST(!t.there && t.length == 0, what);
    else
        MUST(t.there && (const uint8_t *)t.bytes == bytes && t.length == length, what);
}

/* The node that is not there. */
static void is_nothing(struct riddoskam_node node, const char *what) {
    double number;
    MUST(!node.there && node.tree == NULL && node.kind == RIDDOSKAM_NOTHING && node.named == RIDDOSKAM_NOTHING, what);
    MUST(node.place == 0 && node.head == 0 && node.left == 0 && node.depth == 0, "it is not there and has a place");
    MUST(!riddoskam_number(node, &number) && !riddoskam_key(node).there && !riddoskam_first(node).there && !riddoskam_next(node).there, "it has something");
}

static void same_node(struct riddoskam_node node, struct seen s, struct child c, unsigned depth) {
    uint64_t f[5], g[5];
    nodes++;
    MUST(node.there, "a node is missing");
    second_record(s, c.place, f);
    MUST(node.place == c.place && node.head == c.head, "a node stands elsewhere");
    MUST(node.kind == f[0] && node.named == c.named && node.depth == depth, "a node is of another kind, name or depth");
    MUST(c.named != RIDDOSKAM_KEY || node.left == 0, "something is left behind a pair");
    if (c.named == RIDDOSKAM_NOTHING) {
        same_text(riddoskam_key(node), NULL, 0, "a key where none is");
    } else {
        second_record(s, c.head, g);
        same_text(riddoskam_key(node), second_text(s, g[1], g[2]), g[2], "another key");
    }
    MUST(riddoskam_must_understand(node) == (c.named == 0x31 && g[3] == 1), "another flag");
    same_text(riddoskam_response(node), c.named == 0x32 ? second_text(s, g[3], g[4]) : NULL, c.named == 0x32 ? g[4] : 0, "another response");
}

/* A whole number by its bits: the mantissa shifted by the exponent. */
static int second_whole(uint64_t bits, int64_t *whole) {
    int power = (int)(bits >> 52 & 0x7FF) - 1075;
    uint64_t size = (bits & (((uint64_t)1 << 52) - 1)) | (uint64_t)1 << 52;
    if (bits << 1 == 0) power = 0, size = 0;
    if (power > 1 || (power == 1 && size != (uint64_t)1 << 52) || power < -52) return 0;
    if (power == 1) size <<= 1;
    if (power < 0 && (size & (((uint64_t)1 << -power) - 1)) != 0) return 0;
    if (power < 0) size >>= -power;
    *whole = bits >> 63 ? -(int64_t)size : (int64_t)size;
    return 1;
}

/* What a node holds, asked for as every kind. */
static void same_value(struct riddoskam_node node, struct seen s) {
    uint64_t f[5], bits;
    double number = 77, time = 77;
    int64_t whole = 77, second = 77;
    bool boolean = false;
    int zone = 77;
    uint16_t reference = 77;
    now_part = "what a node holds";
    second_record(s, node.place, f);
    MUST(riddoskam_number(node, &number) == (f[0] == 0), "a number that is none, or none that is one");
    memcpy(&bits, &number, sizeof bits);
    MUST(f[0] == 0 ? bits == f[1] : number == 77, "another number");
    MUST(riddoskam_whole_number(node, &whole) == (f[0] == 0 && second_whole(f[1], &second)) && whole == second, "another whole number");
    MUST(riddoskam_boolean(node, &boolean) == (f[0] == 1) && boolean == (f[0] == 1 && f[1] == 1), "another boolean");
    MUST(riddoskam_date(node, &time, &zone) == (f[0] == 0x0B), "a date that is none, or none that is one");
    memcpy(&bits, &time, sizeof bits);
    MUST(f[0] == 0x0B ? bits == f[1] && (uint16_t)zone == f[3] && zone < 32768 && zone >= -32768 : time == 77 && zone == 77, "another date");
    MUST(riddoskam_reference(node, &reference) == (f[0] == 7) && reference == (f[0] == 7 ? f[1] : 77), "another reference");
    same_text(riddoskam_string(node), f[0] == 2 ? second_text(s, f[1], f[2]) : NULL, f[2], "another string");
    same_text(riddoskam_xml(node), f[0] == 0x0F ? second_text(s, f[1], f[2]) : NULL, f[2], "another XML");
    same_text(riddoskam_class_name(node), f[0] == 0x10 ? second_text(s, f[1], f[2]) : NULL, f[2], "another class");
    same_text(riddoskam_file_name(node), f[0] == 0x33 ? second_text(s, f[2], f[3]) : NULL, f[3], "another file name");
}

/* The children of a node. */
static void same_children(struct riddoskam_node node, struct seen s, size_t records) {
    static struct child list[MOST];
    size_t count = node.depth < LEVELS ? second_children(s, node.place, list) : 0, k = 0;
    struct riddoskam_node child;
    now_part = "children";
    walks++;
    looks = 0;
    for (child = riddoskam_first(node); child.there; child = riddoskam_next(child)) {
        size_t before = looks;
        MUST(k < count, "a child too many");
        same_node(child, s, list[k++], node.depth + 1u);
        looks = before;
    }
    MUST(k == count, "a child too few");
    few_looks(records, 2);
    MUST(riddoskam_count(node) == count, "another count");
    few_looks(records, 2);
    k = below(count + 2);
    child = riddoskam_nth(node, k);
    few_looks(records, 2);
    if (k < count)
        same_node(child, s, list[k], node.depth + 1u);
    else
        is_nothing(child, "a child by a number that none has");
}

static void same_skip(const struct riddoskam_tree *t, struct seen s, size_t at, size_t records) {
    size_t behind = 77, second = second_behind(s, at, LEVELS);
    now_part = "skip";
    looks = 0;
    MUST(riddoskam_skip(t, at, &behind) == (second != NONE) && behind == (second == NONE ? 0 : second), "another place behind a value");
    few_looks(records, 1);
}

/* ---- keys */

static int same_place(struct riddoskam_node a, struct riddoskam_node b) {
    return a.there == b.there && a.place == b.place && a.head == b.head && a.left == b.left && a.kind == b.kind && a.named == b.named && a.depth == b.depth;
}

/* One key in a container: the last of its children under it, and the same by the index. */
static void same_get(struct riddoskam_node node, const struct riddoskam_tree *indexed, struct seen s, const struct child *list, size_t count,
                     struct riddoskam_text key, size_t records) {
    struct riddoskam_node got, again;
    size_t last = NONE;
    uint64_t f[5];
    now_part = "get";
    keys_asked++;
    for (size_t k = 0; k < count; k++) {
        second_record(s, list[k].head, f);
        const uint8_t *bytes = list[k].named == RIDDOSKAM_KEY ? second_text(s, f[1], f[2]) : NULL;
        if (bytes != NULL && f[2] == key.length && memcmp(bytes, key.bytes, key.length) == 0) last = k;
    }
    looks = 0;
    got = riddoskam_get_text(node, key);
    few_looks(records, 2);
    if (last == NONE)
        is_nothing(got, "it is found where it isn't");
    else
        same_node(got, s, list[last], node.depth + 1u);
    if (indexed == NULL) return;
    by_index++;
    node.tree = indexed;
    looks = 0;
    again = riddoskam_get_text(node, key);
    MUST(looks <= 2, "by the index it walks");
    again.tree = got.tree;
    MUST(same_place(got, again), "by the index it is another");
    MUST(!again.there || same_place(riddoskam_next(got), riddoskam_next(again)), "by the index another is next");
}

/* Some keys of a container, and one that is perhaps in it. */
static void same_keys(struct riddoskam_node node, const struct riddoskam_tree *indexed, struct seen s, size_t records) {
    static struct child list[MOST];
    static const char *const words[] = {"", "a", "b", "ab", "cents", "abc", "z"};
    bool pairs = node.kind == 0x03 || node.kind == 0x08 || node.kind == 0x10 || node.kind == 0x33;
    size_t count = pairs && node.depth < LEVELS ? second_children(s, node.place, list) : 0;
    for (size_t k = 0; k < count; k = k + 1 + count / 8) {
        uint64_t f[5];
        second_record(s, list[k].head, f);
        const uint8_t *bytes = list[k].named == RIDDOSKAM_KEY ? second_text(s, f[1], f[2]) : NULL;
        if (bytes != NULL) same_get(node, indexed, s, list, count, riddoskam_text_of_bytes(bytes, (size_t)f[2]), records);
    }
    same_get(node, indexed, s, list, count, riddoskam_text_of(words[below(7)]), records);
}

/* A path of up to three keys, down some children of the root: where its keys lead one by one. */
static void same_path(struct riddoskam_node root) {
    char words[3][40];
    const char *path[4] = {NULL, NULL, NULL, NULL};
    struct riddoskam_node way = root;
    now_part = "a path";
    for (size_t k = 0; k < 3; k++) {
        MUST(same_place(riddoskam_get_path(root, path), way), "a path leads elsewhere");
        struct riddoskam_node child = riddoskam_nth(way, below(3));
        if (!riddoskam_text_copy(riddoskam_key(child), words[k], sizeof words[k])) return;
        path[k] = words[k];
        way = riddoskam_get(way, words[k]);
    }
    MUST(same_place(riddoskam_get_path(root, path), way), "a path leads elsewhere");
    MUST(same_place(riddoskam_get_path(root, RIDDOSKAM_KEYS(words[0], words[1], words[2])), way), "the keys of a path lead elsewhere");
}

/* By bytes that are no index of this image: nothing, or a value behind that key. */
static void other_index(struct riddoskam_tree t, struct seen s, int side) {
    static const char *const words[] = {"", "a", "b", "ab"};
    static uint8_t bytes[RIDDOSKAM_INDEX_RECORD * 8];
    size_t n = RIDDOSKAM_INDEX_RECORD * below(9);
    now_part = "another index";
    for (size_t i = 0; i < n; i++) bytes[i] = (uint8_t)(below(3) ? 0 : below(4) ? below(s.n + 1) : any());
    t.index = lend_bytes(INDEX, side, bytes, n);
    t.index_length = n;
    for (size_t i = 0; i < 4; i++) {
        struct riddoskam_node got = riddoskam_get(riddoskam_root(&t), words[i]);
        MUST(!got.there || riddoskam_text_is(riddoskam_key(got), words[i]), "a value of another key");
    }
}

/* ---- texts and trees without an image */

/* Texts against what C's own functions say of them. */
static void same_words(const char *one, const char *other) {
    struct riddoskam_text a = riddoskam_text_of(one), b = riddoskam_text_of(other);
    bool same = strcmp(one, other) == 0;
    now_part = "texts";
    MUST(a.there && a.bytes == one && a.length == strlen(one), "a word is another text");
    MUST(riddoskam_text_same(a, b) == same && riddoskam_text_is(a, other) == same, "texts are compared otherwise");
    MUST(!riddoskam_text_of(NULL).there && !riddoskam_text_is(a, NULL) && !riddoskam_text_same(riddoskam_no_text(), riddoskam_no_text()), "a text of nothing");
}

/* A text of n bytes, behind which none can be touched, as a word. */
static void as_word(const char *bytes, size_t n) {
    char word[40];
    struct riddoskam_text text = riddoskam_text_of_bytes(lend_bytes(TEXT, 1, (const uint8_t *)bytes, n), n);
    size_t room = below(sizeof word + 1);
    bool fits = n < room && memchr(bytes, 0, n) == NULL;
    now_part = "a text as a word";
    memset(word, 'x', sizeof word);
    MUST(riddoskam_text_copy(text, word, room) == fits, "a word that fits and doesn't");
    MUST(room == 0 ? word[0] == 'x' : memcmp(word, fits ? bytes : "", fits ? n : 0) == 0 && word[fits ? n : 0] == 0, "another word");
    for (size_t i = fits ? n + 1 : 1; i < sizeof word; i++) MUST(word[i] == 'x', "a byte behind a word is changed");
    MUST(!riddoskam_text_copy(riddoskam_no_text(), word, sizeof word) && word[0] == 0, "no text as a word");
}

/* Trees with no image, no text, or neither. */
static void no_image(const uint8_t *image, size_t n, const uint8_t *text, size_t m) {
    uint8_t table[2 * RIDDOSKAM_INDEX_RECORD];
    size_t behind;
    struct riddoskam_tree none = riddoskam_tree_of(NULL, 0, NULL, 0), bare = riddoskam_tree_of(image, n, NULL, 0), empty = riddoskam_tree_of(image, 0, text, m);
    struct riddoskam_node child;
    now_part = "a tree that lacks something";
    MUST(riddoskam_tree_index(&none, table, sizeof table) == RIDDOSKAM_NO_TREE && none.index == NULL, "an index of nothing");
    MUST(riddoskam_tree_index(&bare, table, sizeof table) == RIDDOSKAM_NO_TREE && bare.index == NULL, "an index without text");
    is_nothing(riddoskam_root(NULL), "a root of no tree");
    is_nothing(riddoskam_root(&none), "a root of nothing");
    is_nothing(riddoskam_root(&empty), "a root in an image of no bytes");
    MUST(!riddoskam_skip(&none, 0, &behind) && !riddoskam_skip(&empty, 0, &behind) && !riddoskam_skip(NULL, 0, &behind), "something to skip in nothing");
    for (child = riddoskam_first(riddoskam_root(&bare)); child.there; child = riddoskam_next(child)) MUST(!riddoskam_key(child).there, "a key without text");
    is_nothing(riddoskam_get(riddoskam_root(&bare), ""), "a key that no text has");
    bare.index = table;
    bare.index_length = 0;
    is_nothing(riddoskam_get(riddoskam_root(&bare), ""), "a key that no text has, by an index");
    is_nothing(riddoskam_get(riddoskam_root(&bare), NULL), "a key that is none");
}

/* ---- one image, whatever it is */

static void whole_tree(struct riddoskam_node node, const struct riddoskam_tree *indexed, struct seen s, size_t records) {
    struct riddoskam_node child;
    same_value(node, s);
    same_children(node, s, records);
    same_keys(node, indexed, s, records);
    for (child = riddoskam_first(node); child.there; child = riddoskam_next(child)) whole_tree(child, indexed, s, records);
}

static void some_places(const struct riddoskam_tree *t, struct seen s, size_t records) {
    for (size_t k = 0; k < (s.n < EVERY_PLACE ? s.n + 2 : SOME_PLACES); k++) {
        uint64_t f[5];
        size_t at = s.n < EVERY_PLACE ? k : below(8) ? below(s.n + 1) : (size_t)any();
        struct riddoskam_node node = riddoskam_node_at(t, at);
        bool value = second_record(s, at, f) != NONE && second_is_value(f[0]);
        same_skip(t, s, at, records);
        now_part = "node";
        if (!value) {
            is_nothing(node, "a node where none is");
            continue;
        }
        same_node(node, s, (struct child){at, at, RIDDOSKAM_NOTHING}, 1);
        same_children(node, s, records);
        same_value(node, s);
    }
}

/* A node of any numbers: nothing is asked of what it tells, but that it ends and reads nothing outside. */
static void any_node(const struct riddoskam_tree *t, size_t n) {
    static const uint8_t named[] = {0x20, 0x31, 0x32, 0xFF, 0};
    struct riddoskam_node node = riddoskam_no_node();
    uint64_t f[5];
    double number;
    now_part = "a node of any numbers";
    node.tree = below(16) ? t : NULL;
    node.place = below(4) ? below(n + 2) : (size_t)any();
    node.head = below(4) ? below(n + 2) : (size_t)any();
    node.left = (uint32_t)any();
    node.kind = (uint8_t)(below(2) ? any() : below(0x34));
    node.named = named[below(5)];
    node.depth = (uint8_t)below(40);
    node.there = below(8) > 0;
    riddoskam_count(node);
    riddoskam_next(node);
    riddoskam_nth(node, (size_t)any());
    riddoskam_get(node, "a");
    riddoskam_key(node);
    riddoskam_response(node);
    riddoskam_string(node);
    riddoskam_class_name(node);
    riddoskam_file_name(node);
    riddoskam_number(node, &number);
    riddoskam_fields(node, f);
}

static void same_root(struct riddoskam_node root, struct seen s) {
    uint64_t f[5];
    bool whole = second_record(s, 0, f) != NONE && (f[0] == 0x30 || f[0] == 0x33);
    bool there = whole || (second_record(s, 0, f) != NONE && second_is_value(f[0]));
    now_part = "root";
    if (there)
        same_node(root, s, (struct child){0, 0, RIDDOSKAM_NOTHING}, whole ? 0 : 1);
    else
        is_nothing(root, "a root where none is");
    is_nothing(riddoskam_next(root), "something beside the root");
}

/* An image and a text, on both sides. */
static void look(const uint8_t *image, size_t n, const uint8_t *text, size_t m) {
    static uint8_t table[4 * MOST];
    images++;
    for (int side = 0; side < 2; side++) {
        uint8_t *im = lend_bytes(IMAGE, side, image, n), *tx = lend_bytes(TEXT, side, text, m);
        struct seen s = {im, n, tx, m};
        struct riddoskam_tree t = riddoskam_tree_of(im, n, tx, m), indexed = t;
        MUST(t.image == im && t.made == n && t.text == tx && t.text_length == m && t.index == NULL && t.index_length == 0, "a tree of something else");
        size_t records = n;
        bool has = riddoskam_tree_index(&indexed, table, sizeof table) == RIDDOSKAM_ACCEPTED;
        if (has) {
            records = second_count(s);
            indexed.index = lend_bytes(INDEX, side, table, indexed.index_length);
        }
        MUST(has || (indexed.index == NULL && indexed.index_length == 0), "an index that was refused");
        same_root(riddoskam_root(&t), s);
        some_places(&t, s, n); /* from a place inside a record there may be more than are counted from the front */
        if (riddoskam_root(&t).there) whole_tree(riddoskam_root(&t), has ? &indexed : NULL, s, records);
        for (int k = 0; k < 4; k++) same_path(riddoskam_root(has ? &indexed : &t));
        is_nothing(riddoskam_get(riddoskam_root(has ? &indexed : &t), NULL), "a key that is none is found");
        for (int k = 0; k < 4; k++) any_node(&t, n);
        other_index(t, s, side);
        no_image(im, n, tx, m);
        MUST(memcmp(im, image, n) == 0 && memcmp(tx, text, m) == 0, "the image or the text changed");
    }
}

/* ---- random trees, built */

static const char *const some_texts[] = {"", "a", "b", "ab", "cents", "A-01", "Stra\xC3\x9F\145 7", "/1", "<x/>", "abcdefghijklmnopqrstuvwxyz"};

static const char *word(void) { return some_texts[below(sizeof some_texts / sizeof *some_texts)]; }

static double some_number(void) {
    static const double some[] = {0, -0.0, 1, -1, 0.5, 129, 9007199254740992.0, -9007199254740992.0, 9007199254740994.0, 4503599627370497.5, 1e300, 5e-324};
    uint64_t bits = any();
    double number;
    if (below(3)) return some[below(sizeof some / sizeof *some)];
    memcpy(&number, &bits, sizeof number);
    return number;
}

static void add_value(struct riddoskam_build *b, int levels);

static void add_pairs(struct riddoskam_build *b, int levels) {
    for (size_t k = below(levels > 28 ? 6 : 3); k > 0; k--) {
        riddoskam_add_key(b, word());
        add_value(b, levels);
    }
    riddoskam_add_end(b);
}

/* An ECMA array; one in eight has values without a key. */
static bool dense_made;

static void add_ecma(struct riddoskam_build *b, int levels) {
    riddoskam_add_ecma_array(b, (uint32_t)any());
    for (size_t k = below(8) ? 0 : below(4); k > 0; k--) {
        dense_made = true;
        add_value(b, levels);
    }
    add_pairs(b, levels);
}

static void add_array(struct riddoskam_build *b, int levels) {
    uint32_t count = (uint32_t)below(levels > 28 ? 5 : 3);
    riddoskam_add_strict_array(b, count);
    for (; count > 0; count--) add_value(b, levels);
}

static void add_leaf(struct riddoskam_build *b) {
    static const int16_t zones[] = {0, -60, 120, 32767, -32768};
    int16_t zone = below(2) ? zones[below(5)] : (int16_t)any();
    switch (below(9)) {
    case 0: case 1: riddoskam_add_number(b, some_number()); break;
    case 2: riddoskam_add_boolean(b, below(2) == 0); break;
    case 3: riddoskam_add_string(b, word()); break;
    case 4: riddoskam_add_null(b); break;
    case 5: riddoskam_add_undefined(b); break;
    case 6: riddoskam_add_reference(b, (uint16_t)any()); break;
    case 7: riddoskam_add_date(b, some_number(), zone); break;
    default: below(2) ? riddoskam_add_xml(b, word()) : riddoskam_add_unsupported(b); break;
    }
}

/* A value; one in a hundred goes as deep as may be, or a level deeper. */
static void add_value(struct riddoskam_build *b, int levels) {
    static bool deep;
    if (levels == LEVELS) deep = below(100) == 0;
    size_t choice = levels < -1 ? 9 : deep ? below(4) : below(b->made > 300 ? 12 : 7);
    switch (choice) {
    case 0: riddoskam_add_object(b), add_pairs(b, levels - 1); break;
    case 1: add_ecma(b, levels - 1); break;
    case 2: riddoskam_add_typed_object(b, word()), add_pairs(b, levels - 1); break;
    case 3: add_array(b, levels - 1); break;
    default: add_leaf(b); break;
    }
}

enum { VALUE, FILE_, PACKET, FORMS };

static void add_tree(struct riddoskam_build *b, int form) {
    size_t headers = below(3), messages = below(4);
    if (form == VALUE) add_value(b, LEVELS);
    if (form == FILE_) {
        riddoskam_add_file(b, word());
        for (size_t k = below(6); k > 0; k--) riddoskam_add_key(b, word()), add_value(b, LEVELS);
    }
    if (form != PACKET) return;
    riddoskam_add_packet(b, (uint16_t)headers, (uint16_t)messages);
    for (; headers > 0; headers--) {
        const char *name = word();
        riddoskam_add_header(b, name, below(2) == 0);
        add_value(b, LEVELS);
    }
    for (; messages > 0; messages--) {
        const char *target = word();
        riddoskam_add_message(b, target, word());
        add_value(b, LEVELS);
    }
}

static uint8_t write_built(const struct riddoskam_build *b, int form, uint8_t *out, size_t room, size_t *count) {
    if (form == VALUE) return riddoskam_build_value(b, out, room, count);
    if (form == FILE_) return riddoskam_build_file(b, out, room, count);
    return riddoskam_build_packet(b, true, out, room, count);
}

static uint8_t read_tree(struct riddoskam_tree *t, int form, const uint8_t *input, size_t n, uint8_t *image, size_t room, size_t *used) {
    if (form == VALUE) return riddoskam_tree_of_value(t, input, n, image, room, used);
    if (form == FILE_) return below(2) ? riddoskam_tree_of_file(t, input, n, image, room, used) : riddoskam_tree_of_file_start(t, input, n, image, room, used);
    return riddoskam_tree_of_packet(t, input, n, image, room, used);
}

/* ---- what was read, built anew */

static void add_again(struct riddoskam_build *b, struct riddoskam_node root) {
    struct riddoskam_node child;
    uint64_t f[5];
    riddoskam_fields(root, f);
    if (root.kind == RIDDOSKAM_LSO) riddoskam_add_file_text(b, riddoskam_file_name(root));
    if (root.kind == RIDDOSKAM_PACKET) riddoskam_add_packet(b, (uint16_t)f[1], (uint16_t)f[2]);
    if (root.kind != RIDDOSKAM_LSO && root.kind != RIDDOSKAM_PACKET) {
        riddoskam_add_node(b, root);
        return;
    }
    for (child = riddoskam_first(root); child.there; child = riddoskam_next(child)) {
        if (child.named == RIDDOSKAM_KEY) riddoskam_add_key_text(b, riddoskam_key(child));
        if (child.named == RIDDOSKAM_HEADER) riddoskam_add_header_text(b, riddoskam_key(child), riddoskam_must_understand(child));
        if (child.named == RIDDOSKAM_MESSAGE) riddoskam_add_message_text(b, riddoskam_key(child), riddoskam_response(child));
        riddoskam_add_node(b, child);
    }
}

/* With so much room in the image and in the text. */
static void build_again(struct riddoskam_node root, int form, int side, size_t room, size_t text_room, bool enough, const uint8_t *wire, size_t n) {
    static uint8_t out[4 * MOST];
    struct riddoskam_build b = riddoskam_build_in(lend(BUILT, side, room), room, lend(LAID, side, text_room), text_room);
    size_t count = 77, made;
    uint8_t answer;
    now_part = enough ? "built anew" : "built with too little room";
    memset(b.image, 0xC3, room);
    add_again(&b, root);
    MUST(b.made <= room && b.text_length <= text_room, "more is built than there is room for");
    for (size_t i = b.made; i < room; i++) MUST(b.image[i] == 0xC3, "a byte behind what is built is changed");
    made = b.made;
    answer = b.answer;
    MUST(answer == (enough ? 0 : RIDDOSKAM_NO_ROOM), "another answer to the building");
    memset(out, 0x5A, n + 1);
    if (!enough) {
        riddoskam_add_string_text(&b, riddoskam_no_text());
        riddoskam_add_null(&b);
        riddoskam_add_node(&b, riddoskam_no_node());
        MUST(b.answer == answer && b.made == made, "something is added behind a refusal");
        MUST(!riddoskam_root(&(struct riddoskam_tree){.made = 0}).there, "an empty tree has a root");
    }
    answer = write_built(&b, form, out, sizeof out, &count);
    if (enough) {
        built++;
        MUST(answer == 0 && count == n && memcmp(out, wire, n) == 0 && out[n] == 0x5A, "it is written otherwise");
    } else {
        refused_builds++;
        MUST(answer == RIDDOSKAM_NO_ROOM && count == 0 && out[0] == 0x5A, "what was refused is written");
    }
}

/* Two texts as one, with room for both and with less. */
static void joined(void) {
    static uint8_t image[1];
    struct riddoskam_text one = riddoskam_text_of(word()), other = riddoskam_text_of(word());
    for (int side = 0; side < 2; side++) {
        size_t both = one.length + other.length, room = below(3) ? both : below(both + 1);
        struct riddoskam_build b = riddoskam_build_in(image, 0, lend(LAID, side, room), room);
        struct riddoskam_text text = riddoskam_build_join(&b, one, other);
        now_part = "two texts as one";
        MUST(text.there == (room == both) && b.answer == (room == both ? 0 : RIDDOSKAM_NO_ROOM), "another answer to the joining");
        if (room != both) continue;
        MUST((const uint8_t *)text.bytes == b.text && text.length == both && b.text_length == both, "it stands elsewhere");
        MUST(memcmp(text.bytes, one.bytes, one.length) == 0 && memcmp(text.bytes + one.length, other.bytes, other.length) == 0, "it has other bytes");
    }
}

/* What each function lays, byte by byte; the text that it copies is "ab", and "c" behind it. */
#define LAYS(add, bytes)                                                                                                            \
    do {                                                                                                                            \
        uint8_t image[16], text[4] = {0};                                                                                           \
        struct riddoskam_build build = riddoskam_build_in(image, sizeof image, text, sizeof text), *b = &build;                     \
        add;                                                                                                                        \
        now_part = #add;                                                                                                            \
        MUST(b->answer == 0 && b->made == sizeof bytes - 1 && memcmp(image, bytes, sizeof bytes - 1) == 0, "it lays another record"); \
        MUST(memcmp(text, "abc", b->text_length) == 0, "it copies another text");                                                   \
    } while (0)

static void each_record(void) {
    LAYS(riddoskam_add_number(b, 1.5), "\x00\x3F\xF8\0\0\0\0\0\0");
    LAYS(riddoskam_add_number(b, 0.1), "\x00\x3F\xB9\x99\x99\x99\x99\x99\x9A");
    LAYS(riddoskam_add_boolean(b, true), "\x01\x01");
    LAYS(riddoskam_add_boolean(b, false), "\x01\x00");
    LAYS(riddoskam_add_string(b, "ab"), "\x02\0\0\0\0\0\2");
    LAYS(riddoskam_add_xml(b, "ab"), "\x0F\0\0\0\0\0\2");
    LAYS(riddoskam_add_null(b), "\x05");
    LAYS(riddoskam_add_undefined(b), "\x06");
    LAYS(riddoskam_add_unsupported(b), "\x0D");
    LAYS(riddoskam_add_reference(b, 0x0102), "\x07\1\2");
    LAYS(riddoskam_add_date(b, 1.5, -2), "\x0B\x3F\xF8\0\0\0\0\0\0\1\xFF\xFE");
    LAYS(riddoskam_add_object(b), "\x03");
    LAYS(riddoskam_add_typed_object(b, "ab"), "\x10\0\0\0\0\2");
    LAYS(riddoskam_add_ecma_array(b, 0x01020304), "\x08\1\2\3\4");
    LAYS(riddoskam_add_key(b, "ab"), "\x20\0\0\0\0\2");
    LAYS(riddoskam_add_end(b), "\x09");
    LAYS(riddoskam_add_strict_array(b, 0x01020304), "\x0A\1\2\3\4");
    LAYS(riddoskam_add_file(b, "ab"), "\x33\0\0\0\0\0\0\0\0\2");
    LAYS(riddoskam_add_packet(b, 0x0102, 0x0304), "\x30\1\2\3\4");
    LAYS(riddoskam_add_header(b, "ab", true), "\x31\0\0\0\0\2\1");
    LAYS(riddoskam_add_header(b, "ab", false), "\x31\0\0\0\0\2\0");
    LAYS(riddoskam_add_message(b, "ab", "c"), "\x32\0\0\0\0\2\0\0\2\0\1");
}

/* Builds that lack their image or their text, or have more text than room. */
static void bare_builds(void) {
    uint8_t image[16], text[4] = {0}, out[16];
    size_t count = 77;
    struct riddoskam_build none = riddoskam_build_in(NULL, 0, NULL, 0), bare = riddoskam_build_in(image, sizeof image, NULL, 0);
    struct riddoskam_build over = riddoskam_build_in(image, sizeof image, text, 2);
    now_part = "a build that lacks something";
    riddoskam_add_null(&none);
    MUST(none.answer == RIDDOSKAM_NO_ROOM && none.made == 0, "a record in no image");
    MUST(riddoskam_build_value(&none, out, sizeof out, &count) == RIDDOSKAM_NO_ROOM && count == 0, "no image is written");
    riddoskam_add_string(&bare, "");
    MUST(bare.answer == 0 && riddoskam_build_value(&bare, out, sizeof out, &count) == 0 && count == 3, "an empty text needs a buffer");
    riddoskam_add_string(&bare, "a");
    MUST(bare.answer == RIDDOSKAM_NO_ROOM, "a text in no buffer");
    over.text_length = 3;
    riddoskam_add_string(&over, "a");
    MUST(over.answer == RIDDOSKAM_NO_ROOM && over.made == 0 && text[3] == 0, "a text behind its buffer");
    over = riddoskam_build_in(image, sizeof image, text, sizeof text);
    riddoskam_add_key(&over, NULL);
    MUST(over.answer == RIDDOSKAM_NO_TREE && over.made == 0, "a key that is none");
    over = riddoskam_build_in(image, sizeof image, text, sizeof text);
    riddoskam_add_node(&over, riddoskam_no_node());
    MUST(over.answer == RIDDOSKAM_NO_TREE && over.made == 0, "a node that is none");
    over = riddoskam_build_in(image, sizeof image, text, sizeof text);
    riddoskam_add_record(&over, RIDDOSKAM_BOOLEAN, 2, 0, 0, 0);
    MUST(over.answer == RIDDOSKAM_NO_TREE && over.made == 0, "a boolean that is none");
}

/* Texts copied, texts named in place, and too little room for each. */
static void again(const struct riddoskam_tree *t, int form, const uint8_t *wire, size_t n) {
    static uint8_t image[4 * MOST], text[4 * MOST], out[4 * MOST];
    struct riddoskam_node root = riddoskam_root(t);
    struct riddoskam_build b = riddoskam_build_in(image, sizeof image, text, sizeof text);
    size_t count, texts;
    add_again(&b, root);
    texts = b.text_length;
    MUST(b.answer == 0 && b.made == t->made, "what was read is built as another");
    for (int side = 0; side < 2; side++) {
        build_again(root, form, side, t->made, texts, true, wire, n);
        build_again(root, form, side, below(t->made), texts, false, wire, n);
        if (texts > 0) build_again(root, form, side, t->made, below(texts), false, wire, n);
    }
    now_part = "built in place";
    memcpy(text, t->text, t->text_length);
    struct riddoskam_tree moved = *t;
    moved.text = text;
    b = riddoskam_build_in(image, sizeof image, text, sizeof text);
    b.text_length = t->text_length;
    add_again(&b, riddoskam_root(&moved));
    MUST(b.answer == 0 && b.text_length == t->text_length, "a text that is in the buffer is copied");
    MUST(write_built(&b, form, out, sizeof out, &count) == 0 && count == n && memcmp(out, wire, n) == 0, "in place it is written otherwise");
}

/* Where `skip` says that a value ends, its writing does. */
static void ends_there(const struct riddoskam_tree *t, struct riddoskam_node node) {
    static uint8_t out[4 * MOST];
    size_t behind, count, at = node.place;
    struct riddoskam_node child;
    now_part = "a value written alone";
    if (riddoskam_is_value(node.kind)) {
        MUST(riddoskam_skip(t, at, &behind), "a value without an end");
        MUST(riddoskam_write_value(t->image + at, behind - at, t->text, t->text_length, out, sizeof out, &count) == 0, "a value that can't be written");
        MUST(riddoskam_write_value(t->image + at, behind - at - 1, t->text, t->text_length, out, sizeof out, &count) == 6, "a value longer than it need be");
    }
    for (child = riddoskam_first(node); child.there; child = riddoskam_next(child)) ends_there(t, child);
}

/* ---- images that nothing made */

static void bend(uint8_t *image, size_t *n) {
    static const uint8_t telling[] = {0, 1, 2, 3, 8, 9, 0x0A, 0x10, 0x20, 0x30, 0x31, 0x32, 0x33, 0xFF};
    for (size_t k = 1 + below(3); k > 0 && *n > 0; k--) {
        size_t at = below(*n);
        switch (below(5)) {
        case 0: *n = at; break;
        case 1: image[at] = (uint8_t)any(); break;
        case 2: image[at] = telling[below(sizeof telling)]; break;
        case 3: memmove(image + at, image + at + 1, *n - at - 1), *n -= 1; break;
        default: memmove(image + at + 1, image + at, *n - at), *n += 1; break;
        }
    }
}

/* Records of any kind in any order, with arrays that count more than there is. */
static size_t random_records(uint8_t *image, size_t room, size_t m) {
    static const uint8_t kinds[] = {0, 1, 2, 3, 3, 5, 6, 7, 8, 9, 9, 9, 0x0A, 0x0A, 0x0B, 0x0F, 0x10, 0x20, 0x20, 0x20, 0x30, 0x31, 0x32, 0x33};
    struct riddoskam_build b = riddoskam_build_in(image, room, NULL, 0);
    for (size_t k = below(below(8) ? 40 : 400); k > 0; k--) {
        uint8_t kind = kinds[below(sizeof kinds)];
        bool text = kind == 2 || kind == 0x0F || kind == 0x10 || kind == 0x20 || kind == 0x31 || kind == 0x32;
        uint64_t one = text ? below(m + 1) : kind == 1 ? below(2) : kind == 0x0A ? (below(3) ? below(5) : 0xFFFFFFFF - below(2)) : below(3);
        uint64_t two = text ? below(3) : kind == 0x30 ? below(4) : 0;
        uint64_t place = below(m + 1), length = below(3);
        if (kind == 0x33)
            riddoskam_add_record(&b, kind, any() >> 32, place, length, 0);
        else
            riddoskam_add_record(&b, kind, one, two, kind == 0x32 ? place : 0, kind == 0x32 ? length : 0);
        if (b.answer != 0) break;
    }
    return b.made;
}

/* A packet that counts more or fewer entries than follow, in any order. */
static size_t random_packet(uint8_t *image, size_t room) {
    struct riddoskam_build b = riddoskam_build_in(image, room, NULL, 0);
    uint16_t headers = (uint16_t)below(3), messages = (uint16_t)below(3);
    riddoskam_add_packet(&b, headers, messages);
    for (size_t k = below(7); k > 0; k--) {
        below(2) ? riddoskam_add_header(&b, "", below(2) == 0) : riddoskam_add_message(&b, "", "");
        below(8) ? riddoskam_add_null(&b) : riddoskam_add_strict_array(&b, (uint32_t)below(2));
    }
    return b.made;
}

/* Objects or arrays in each other, deeper than any reading goes. */
static size_t nest(uint8_t *image) {
    size_t n = 0, levels = LEVELS - 2 + below(6);
    if (below(4) == 0) memcpy(image, "\x33\0\0\0\0\0\0\0\0\0\x20\0\0\0\0\0", n = 16);
    for (size_t k = 0; k < levels; k++) {
        bool array = below(2) == 0;
        memcpy(image + n, array ? "\x0A\0\0\0\1" : "\x03\x20\0\0\0\0\0", array ? 5 : 7);
        n += array ? 5 : 7;
    }
    image[n++] = 5;
    for (size_t k = below(levels + 2); k > 0; k--) image[n++] = 9;
    return n;
}

/* Every answer and every kind has words of its own; what is none has some too. */
static void all_words(void) {
    now_part = "words";
    for (unsigned i = 0; i < 256; i++) {
        MUST(riddoskam_answer_text((uint8_t)i) != NULL && riddoskam_kind_text((uint8_t)i) != NULL, "no words");
        for (unsigned k = 0; k < i; k++) {
            uint64_t f[5];
            uint8_t record[12] = {(uint8_t)k};
            bool kind = second_record((struct seen){record, sizeof record, record, 0}, 0, f) != NONE;
            MUST(k > RIDDOSKAM_DAMAGED || strcmp(riddoskam_answer_text((uint8_t)i), riddoskam_answer_text((uint8_t)k)) != 0, "an answer has another's words");
            MUST(!kind || strcmp(riddoskam_kind_text((uint8_t)i), riddoskam_kind_text((uint8_t)k)) != 0, "a kind has another's words");
        }
    }
}

/* ---- cases */

static void one_case(void) {
    static uint8_t image[4 * MOST], text[4 * MOST], wire[4 * MOST], read[4 * MOST];
    struct riddoskam_build b = riddoskam_build_in(image, MOST, text, MOST);
    struct riddoskam_tree t;
    const char *some = word();
    int form = (int)below(FORMS);
    size_t n, used;
    joined();
    same_words(some, word());
    as_word(some, strlen(some));
    as_word("\0ab", below(3));
    now_part = "a tree built";
    dense_made = false;
    add_tree(&b, form);
    uint8_t answer = write_built(&b, form, wire, MOST, &n);
    MUST(answer == 0 || answer == RIDDOSKAM_TOO_DEEP || answer == RIDDOSKAM_NO_ROOM, "what is built is no tree");
    look(image, b.made, text, b.text_length);
    if (answer == 0) {
        t = riddoskam_build_tree(&b);
        again(&t, form, wire, n);
        ends_there(&t, riddoskam_root(&t));
        MUST(read_tree(&t, form, wire, n, read, sizeof read, &used) == 0 && used == n, "what was written can't be read");
        MUST(dense_made ? t.made > b.made : t.made == b.made, "what was written is read as another");
        look(read, t.made, wire, n);
        again(&t, form, wire, n);
        ends_there(&t, riddoskam_root(&t));
        MUST(read_tree(&t, form, wire, n - 1, image, sizeof image, &used) != 0 || form == FILE_, "what isn't whole is read");
        MUST(t.made != 0 || !riddoskam_root(&t).there, "a refused reading has a root");
        read_tree(&t, form, wire, n, image, sizeof image, &used);
        size_t made = t.made;
        bend(image, &made);
        look(image, made, wire, n);
    }
    look(image, random_records(image, MOST, n), wire, n);
    look(image, random_packet(image, MOST), wire, n);
    if (below(2) == 0) look(image, nest(image), wire, n);
}

int main(int count, char **words) {
    if (count != 3) return 2;
    state = strtoull(words[1], NULL, 10);
    unsigned long long most = strtoull(words[2], NULL, 10);
    for (int i = 0; i < AREAS; i++) area[i] = new_area();
    signal(SIGSEGV, on_signal);
    signal(SIGBUS, on_signal);
    signal(SIGILL, on_signal);
    signal(SIGTRAP, on_signal);
    signal(SIGALRM, on_signal);
    all_words();
    each_record();
    bare_builds();
    for (now_case = 0; now_case < most; now_case++) {
        tell(now_case, most);
        if (now_case % 64 == 0) alarm(SECONDS);
        one_case();
    }
    printf("%llu cases, %llu images on both sides: %llu walks over children, %llu nodes, %llu keys, %llu of them also by an index;\n", most, images, walks,
           nodes, keys_asked, by_index);
    printf("%llu trees built anew, %llu refused for want of room; nothing differs, nothing touched outside\n", built, refused_builds);
    MUST(images > 0 && walks > 0 && nodes > 0 && by_index > 0 && built > 0 && refused_builds > 0, "nothing was looked at");
    return 0;
}
