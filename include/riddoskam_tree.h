/* Walking a tree: the values of an image one by one, by key or by number, with no record taken apart by hand. All of it is inline functions over the calls of
   riddoskam.h; they take no memory and, beyond those calls, link nothing. The calls are proved. These functions are not: they are tried against a second walk
   (tools/walk).

       static uint8_t input[8192], image[RIDDOSKAM_ROOM_IMAGE(sizeof input)];
       struct riddoskam_tree tree;
       struct riddoskam_node root, shelf;
       double cents;
       size_t used;
       uint8_t answer = riddoskam_tree_of_file(&tree, input, length, image, sizeof image, &used);
       if (answer != RIDDOSKAM_ACCEPTED) printf("%s, at byte %zu\n", riddoskam_answer_text(answer), used);
       root = riddoskam_root(&tree);
       if (riddoskam_number(riddoskam_get(riddoskam_get(root, "A-01"), "cents"), &cents)) printf("A-01 costs %.0f\n", cents);
       for (shelf = riddoskam_first(root); shelf.there; shelf = riddoskam_next(shelf)) {
           struct riddoskam_text key = riddoskam_key(shelf);
           printf("%.*s\n", RIDDOSKAM_PRINTED(key));
       }

   Trees: riddoskam_tree_of_value, _of_file, _of_file_start, _of_packet, _of_entry and riddoskam_tree_of make one, riddoskam_tree_index gives it an index.
   Nodes: riddoskam_root, first, next, nth and count go over the tree; get, get_text and get_path find by keys.
   Values: riddoskam_number, whole_number, boolean, date, reference, string and xml tell what a node holds; `node.kind` is its kind, riddoskam_fields all of it.
   Names: riddoskam_key, response, must_understand, class_name and file_name. Texts: riddoskam_text_is, text_same, text_copy and text_of.

   A tree is an image's first `made` bytes and the text that they name, so the zeros behind them are never walked, and a tree that was refused is empty. A node
   is a value in a tree: it is handed about by value, and is good as long as the tree, the image and the text stay as they are. Where there is no such value a
   function gives a node that is not there; of it nothing is found, and it has no number, no text and no children. So a way of several steps is asked for once,
   at its end.

   No image does harm. Of an image that a call of the library made everything here is what the tree has; of any other bytes (and of any node) each function ends
   as well, reads nothing outside, and a walk ends where the records are no tree's, at the latest at the image's end: a count that lies makes no turn more. No
   walk goes deeper than 32 levels, so whoever follows children by recursion has a bound too.

   What it costs: `first` looks at three records at most. `next` goes over all records of the value that it leaves, once. So to go over all children of a node
   looks at each record under it twice at most, and to go over a whole tree does so once for each level above it. `get` is by the index where the tree has one,
   in time that grows with the logarithm of the keys; else it goes over all children of the node. */
#ifndef RIDDOSKAM_TREE_H
#define RIDDOSKAM_TREE_H

#include "riddoskam.h"

#ifdef __cplusplus
#include <initializer_list>
extern "C" {
#endif

/* ---- Trees */

/* An image, the text that it names, and its index, NULL and 0 where none was made. */
struct riddoskam_tree {
    const uint8_t *image;
    size_t made;
    const uint8_t *text;
    size_t text_length;
    const uint8_t *index;
    size_t index_length;
};

/* The tree of the first `made` bytes of an image, without an index. */
static inline struct riddoskam_tree riddoskam_tree_of(const uint8_t *image, size_t made, const uint8_t *text, size_t text_length) {
    struct riddoskam_tree tree = {image, made, text, text_length, NULL, 0};
    return tree;
}

/* Each of these reads, as the call of riddoskam.h that it names does, with its answer and its `*used`, and makes the tree. Refused, the tree is empty. */

/* riddoskam_parse_single_element */
static inline uint8_t riddoskam_tree_of_value(struct riddoskam_tree *tree, const uint8_t *input, size_t input_length, uint8_t *image, size_t image_length,
                                              size_t *used) {
    size_t made;
    uint8_t answer = riddoskam_parse_single_element(input, input_length, image, image_length, used, &made);
    *tree = riddoskam_tree_of(image, made, input, input_length);
    return answer;
}

/* riddoskam_lso_parse */
static inline uint8_t riddoskam_tree_of_file(struct riddoskam_tree *tree, const uint8_t *input, size_t input_length, uint8_t *image, size_t image_length,
                                             size_t *used) {
    size_t made;
    uint8_t answer = riddoskam_lso_parse(input, input_length, image, image_length, used, &made);
    *tree = riddoskam_tree_of(image, made, input, input_length);
    return answer;
}

/* riddoskam_lso_parse_incomplete */
static inline uint8_t riddoskam_tree_of_file_start(struct riddoskam_tree *tree, const uint8_t *input, size_t input_length, uint8_t *image, size_t image_length,
                                                   size_t *used) {
    size_t made;
    uint8_t answer = riddoskam_lso_parse_incomplete(input, input_length, image, image_length, used, &made);
    *tree = riddoskam_tree_of(image, made, input, input_length);
    return answer;
}

/* riddoskam_packet_parse */
static inline uint8_t riddoskam_tree_of_packet(struct riddoskam_tree *tree, const uint8_t *input, size_t input_length, uint8_t *image, size_t image_length,
                                               size_t *used) {
    size_t made;
    uint8_t answer = riddoskam_packet_parse(input, input_length, image, image_length, used, &made);
    *tree = riddoskam_tree_of(image, made, input, input_length);
    return answer;
}

/* riddoskam_packet_parse_span: the value of an entry, the numbers of which are from riddoskam_packet_cut or riddoskam_packet_nth. */
static inline uint8_t riddoskam_tree_of_entry(struct riddoskam_tree *tree, const uint8_t *packet, size_t packet_length,
                                              const size_t entry RIDDOSKAM_ARRAY(RIDDOSKAM_ENTRY_NUMBERS), uint8_t *image, size_t image_length, size_t *used) {
    size_t made;
    uint8_t answer = riddoskam_packet_parse_span(packet, packet_length, entry[RIDDOSKAM_ENTRY_PLACE], entry[RIDDOSKAM_ENTRY_LENGTH], image, image_length, used,
                                                 &made);
    *tree = riddoskam_tree_of(image, made, packet, packet_length);
    return answer;
}

/* riddoskam_index: makes the index of a tree that is a value or a file, and gives it to the tree. Refused, the tree has none; its keys are found without it. */
static inline uint8_t riddoskam_tree_index(struct riddoskam_tree *tree, uint8_t *index, size_t index_length) {
    size_t count;
    uint8_t answer = RIDDOSKAM_NO_TREE;
    tree->index = NULL;
    tree->index_length = 0;
    if (tree->image == NULL || tree->text == NULL) return answer;
    answer = riddoskam_index(tree->image, tree->made, tree->text, tree->text_length, index, index_length, &count);
    if (answer != RIDDOSKAM_ACCEPTED) return answer;
    tree->index = index;
    tree->index_length = count * RIDDOSKAM_INDEX_RECORD;
    return answer;
}

/* The record at a place of a tree, as riddoskam_record_at tells it; false where none stands there. Everything else here looks at images by this alone. */
static inline bool riddoskam_tree_record(const struct riddoskam_tree *tree, size_t at, uint64_t fields RIDDOSKAM_ARRAY(RIDDOSKAM_FIELDS), size_t *next) {
    return tree != NULL && tree->image != NULL && riddoskam_record_at(tree->image, tree->made, at, fields, next) == RIDDOSKAM_ACCEPTED;
}

/* ---- Texts */

/* A text where it stands; its bytes end with no zero. One that is not there is empty, and `bytes` is not NULL either. */
struct riddoskam_text {
    const char *bytes;
    size_t length;
    bool there;
};

/* What printf's %.*s takes of a text: two words, in which the text stands twice. */
#define RIDDOSKAM_PRINTED(text) (int)(text).length, (text).bytes

static inline struct riddoskam_text riddoskam_no_text(void) {
    struct riddoskam_text none = {"", 0, false};
    return none;
}

/* A row of bytes as a text. */
static inline struct riddoskam_text riddoskam_text_of_bytes(const void *bytes, size_t length) {
    struct riddoskam_text text = {(const char *)bytes, length, true};
    return bytes != NULL ? text : riddoskam_no_text();
}

/* A word that ends with a zero as a text. */
static inline struct riddoskam_text riddoskam_text_of(const char *word) {
    size_t length = 0;
    while (word != NULL && word[length] != 0) length++;
    return riddoskam_text_of_bytes(word, length);
}

/* The text at a place of a row of bytes; not there where it isn't inside. */
static inline struct riddoskam_text riddoskam_text_at(const uint8_t *input, size_t input_length, uint64_t place, uint64_t length) {
    if (input == NULL || !riddoskam_inside(input, input_length, (size_t)place, (size_t)length)) return riddoskam_no_text();
    return riddoskam_text_of_bytes(input + place, (size_t)length);
}

/* Whether two texts are there and have the same bytes. */
static inline bool riddoskam_text_same(struct riddoskam_text one, struct riddoskam_text other) {
    size_t i = 0;
    if (!one.there || !other.there || one.length != other.length) return false;
    while (i < one.length && one.bytes[i] == other.bytes[i]) i++;
    return i == one.length;
}

/* Whether a text is this word. */
static inline bool riddoskam_text_is(struct riddoskam_text text, const char *word) { return riddoskam_text_same(text, riddoskam_text_of(word)); }

/* Copies a text into a buffer, with a zero behind it, for what takes words of C alone. False where it is not there, has a zero in it or doesn't fit; then the
   buffer has the empty word, where it has room for that. */
static inline bool riddoskam_text_copy(struct riddoskam_text text, char *word, size_t room) {
    size_t i = 0;
    if (room > 0) word[0] = 0;
    if (!text.there || text.length >= room) return false;
    while (i < text.length && text.bytes[i] != 0) i++;
    if (i < text.length) return false;
    for (i = 0; i < text.length; i++) word[i] = text.bytes[i];
    word[text.length] = 0;
    return true;
}

/* The first and the second text of an entry, the numbers of which are from a cut of the packet: a header's name and an empty text, a message's target and
   response. */
static inline struct riddoskam_text riddoskam_entry_key(const uint8_t *packet, size_t packet_length,
                                                        const size_t entry RIDDOSKAM_ARRAY(RIDDOSKAM_ENTRY_NUMBERS)) {
    return riddoskam_text_at(packet, packet_length, entry[RIDDOSKAM_ENTRY_PLACE1], entry[RIDDOSKAM_ENTRY_LENGTH1]);
}

static inline struct riddoskam_text riddoskam_entry_response(const uint8_t *packet, size_t packet_length,
                                                             const size_t entry RIDDOSKAM_ARRAY(RIDDOSKAM_ENTRY_NUMBERS)) {
    return riddoskam_text_at(packet, packet_length, entry[RIDDOSKAM_ENTRY_PLACE2], entry[RIDDOSKAM_ENTRY_LENGTH2]);
}

/* ---- Nodes */

/* A value of a tree, or its file or packet, and how it stands there. */
struct riddoskam_node {
    const struct riddoskam_tree *tree;
    size_t place;  /* of its record */
    size_t head;   /* of the record before it that names it: a key's, a header's or a message's; else of its own */
    uint32_t left; /* how many values or entries are behind it in its strict array or packet; RIDDOSKAM_DENSE in an ECMA array's dense part */
    uint8_t kind;  /* of its record; RIDDOSKAM_NOTHING where it is not there */
    uint8_t named; /* the kind of the record that names it: RIDDOSKAM_KEY, RIDDOSKAM_HEADER or RIDDOSKAM_MESSAGE; else RIDDOSKAM_NOTHING */
    uint8_t depth; /* 1 at the top, in a file's body and in a packet's entry; 0 for the file and the packet */
    bool there;
};

/* So many are never left: an array counts at most this many. */
#define RIDDOSKAM_DENSE UINT32_MAX

/* The node that is not there. */
static inline struct riddoskam_node riddoskam_no_node(void) {
    struct riddoskam_node none = {NULL, 0, 0, 0, RIDDOSKAM_NOTHING, RIDDOSKAM_NOTHING, 0, false};
    return none;
}

/* Whether records of this kind begin a value. */
static inline bool riddoskam_is_value(uint64_t kind) { return kind <= RIDDOSKAM_TYPED_OBJECT && kind != RIDDOSKAM_OBJECT_END; }

/* Whether pairs follow a record of this kind, then an end; a file's have no end. */
static inline bool riddoskam_has_pairs(uint64_t kind) {
    return kind == RIDDOSKAM_OBJECT || kind == RIDDOSKAM_ECMA_ARRAY || kind == RIDDOSKAM_TYPED_OBJECT;
}

/* The value at a place, which a record of the kind `named` stands before; none does where that is RIDDOSKAM_NOTHING. */
static inline struct riddoskam_node riddoskam_child(const struct riddoskam_tree *tree, size_t at, uint8_t named, uint64_t left, unsigned depth) {
    uint64_t fields[RIDDOSKAM_FIELDS];
    struct riddoskam_node node = {tree, at, at, (uint32_t)left, RIDDOSKAM_NOTHING, named, (uint8_t)depth, true};
    size_t next;
    if (depth > RIDDOSKAM_LIMIT_LEVELS) return riddoskam_no_node();
    if (named != RIDDOSKAM_NOTHING && (!riddoskam_tree_record(tree, at, fields, &node.place) || fields[0] != named)) return riddoskam_no_node();
    if (!riddoskam_tree_record(tree, node.place, fields, &next) || !riddoskam_is_value(fields[0])) return riddoskam_no_node();
    node.kind = (uint8_t)fields[0];
    return node;
}

/* The value whose record stands at a place that was found by riddoskam_find or riddoskam_step: with nothing that names it, and nothing behind it. Levels count
   from it. */
static inline struct riddoskam_node riddoskam_node_at(const struct riddoskam_tree *tree, size_t place) {
    return riddoskam_child(tree, place, RIDDOSKAM_NOTHING, 0, 1);
}

/* The whole tree: the value, the file or the packet that its first record begins. */
static inline struct riddoskam_node riddoskam_root(const struct riddoskam_tree *tree) {
    uint64_t fields[RIDDOSKAM_FIELDS];
    struct riddoskam_node whole = {tree, 0, 0, 0, RIDDOSKAM_NOTHING, RIDDOSKAM_NOTHING, 0, true};
    size_t next;
    if (!riddoskam_tree_record(tree, 0, fields, &next)) return riddoskam_no_node();
    if (fields[0] != RIDDOSKAM_LSO && fields[0] != RIDDOSKAM_PACKET) return riddoskam_node_at(tree, 0);
    whole.kind = (uint8_t)fields[0];
    return whole;
}

/* The record of a node; false, and nothing is said of the fields, where it is not there. */
static inline bool riddoskam_fields(struct riddoskam_node node, uint64_t fields RIDDOSKAM_ARRAY(RIDDOSKAM_FIELDS)) {
    size_t next;
    return node.there && riddoskam_tree_record(node.tree, node.place, fields, &next) && fields[0] == node.kind;
}

/* ---- Walking */

/* The place behind the value whose record stands at a place of the tree. False, and `*behind` is 0, where no whole value stands there, or one of more than 32
   levels. It goes over the value's records once; a turn takes one, or leaves a strict array. */
static inline bool riddoskam_skip(const struct riddoskam_tree *tree, size_t at, size_t *behind) {
    const uint64_t pairs = UINT64_MAX, dense = UINT64_MAX - 1;
    uint64_t due[RIDDOSKAM_LIMIT_LEVELS + 1]; /* of each level that is open: so many values, pairs up to an end, or a dense part and pairs; first this value */
    uint64_t fields[RIDDOSKAM_FIELDS];
    unsigned open = 1;
    due[0] = 1;
    *behind = 0;
    while (open > 0) {
        uint64_t *level = &due[open - 1];
        if (*level == 0) {
            open--;
            continue;
        }
        if (!riddoskam_tree_record(tree, at, fields, &at)) return false;
        if (*level == dense && !riddoskam_is_value(fields[0])) *level = pairs;
        if (*level == pairs) {
            if (fields[0] == RIDDOSKAM_OBJECT_END) {
                open--;
                continue;
            }
            if (fields[0] != RIDDOSKAM_KEY || !riddoskam_tree_record(tree, at, fields, &at)) return false;
        }
        if (*level < dense) *level -= 1;
        if (!riddoskam_is_value(fields[0]) || open > RIDDOSKAM_LIMIT_LEVELS) return false;
        if (fields[0] == RIDDOSKAM_STRICT_ARRAY) due[open++] = fields[1];
        if (riddoskam_has_pairs(fields[0])) due[open++] = fields[0] == RIDDOSKAM_ECMA_ARRAY ? dense : pairs;
    }
    *behind = at;
    return true;
}

/* The child at a place of an ECMA array in which no pair has come yet: of its dense part, else its first pair's. */
static inline struct riddoskam_node riddoskam_dense_child(const struct riddoskam_tree *tree, size_t at, unsigned depth) {
    struct riddoskam_node child = riddoskam_child(tree, at, RIDDOSKAM_NOTHING, RIDDOSKAM_DENSE, depth);
    return child.there ? child : riddoskam_child(tree, at, RIDDOSKAM_KEY, 0, depth);
}

/* The first child of a node: of an object, an array or a file its first value, of a packet the value of its first entry, headers first. */
static inline struct riddoskam_node riddoskam_first(struct riddoskam_node node) {
    uint64_t fields[RIDDOSKAM_FIELDS];
    size_t next;
    unsigned depth = node.depth + 1u;
    if (!node.there || !riddoskam_tree_record(node.tree, node.place, fields, &next)) return riddoskam_no_node();
    if (fields[0] == RIDDOSKAM_ECMA_ARRAY) return riddoskam_dense_child(node.tree, next, depth);
    if (riddoskam_has_pairs(fields[0]) || fields[0] == RIDDOSKAM_LSO) return riddoskam_child(node.tree, next, RIDDOSKAM_KEY, 0, depth);
    if (fields[0] == RIDDOSKAM_STRICT_ARRAY && fields[1] > 0) return riddoskam_child(node.tree, next, RIDDOSKAM_NOTHING, fields[1] - 1, depth);
    if (fields[0] == RIDDOSKAM_PACKET && fields[1] + fields[2] > 0)
        return riddoskam_child(node.tree, next, fields[1] > 0 ? RIDDOSKAM_HEADER : RIDDOSKAM_MESSAGE, fields[1] + fields[2] - 1, depth);
    return riddoskam_no_node();
}

/* What names the entry behind one of a packet, as the packet's record counts them: so many messages are last. */
static inline uint8_t riddoskam_named_next(struct riddoskam_node entry) {
    uint64_t fields[RIDDOSKAM_FIELDS];
    size_t next;
    if (!riddoskam_tree_record(entry.tree, 0, fields, &next)) return RIDDOSKAM_MESSAGE;
    return entry.left > fields[2] ? RIDDOSKAM_HEADER : RIDDOSKAM_MESSAGE;
}

/* The next child of the same parent. The root has none beside it, nor has a node by riddoskam_node_at. */
static inline struct riddoskam_node riddoskam_next(struct riddoskam_node node) {
    size_t behind;
    bool pair = node.named == RIDDOSKAM_KEY, entry = node.named == RIDDOSKAM_HEADER || node.named == RIDDOSKAM_MESSAGE;
    if (!node.there || (!pair && node.left == 0) || !riddoskam_skip(node.tree, node.place, &behind)) return riddoskam_no_node();
    if (pair) return riddoskam_child(node.tree, behind, RIDDOSKAM_KEY, 0, node.depth);
    if (entry) return riddoskam_child(node.tree, behind, riddoskam_named_next(node), node.left - 1u, node.depth);
    if (node.left == RIDDOSKAM_DENSE) return riddoskam_dense_child(node.tree, behind, node.depth);
    return riddoskam_child(node.tree, behind, RIDDOSKAM_NOTHING, node.left - 1u, node.depth);
}

/* How many children a node has: they are gone over and counted, whatever a record says. */
static inline size_t riddoskam_count(struct riddoskam_node node) {
    size_t count = 0;
    struct riddoskam_node child = riddoskam_first(node);
    for (; child.there; child = riddoskam_next(child)) count++;
    return count;
}

/* The child of that number, from 0. It is gone to from the first, so whoever wants all of them takes `first` and `next`. */
static inline struct riddoskam_node riddoskam_nth(struct riddoskam_node node, size_t number) {
    struct riddoskam_node child = riddoskam_first(node);
    for (; child.there && number > 0; number--) child = riddoskam_next(child);
    return child;
}

/* ---- Names */

/* The record that names a node; false where none does. */
static inline bool riddoskam_head(struct riddoskam_node node, uint64_t fields RIDDOSKAM_ARRAY(RIDDOSKAM_FIELDS)) {
    size_t next;
    return node.named != RIDDOSKAM_NOTHING && riddoskam_tree_record(node.tree, node.head, fields, &next) && fields[0] == node.named;
}

/* The key of a node, a header's name or a message's target; not there where nothing names it, as in a strict array. */
static inline struct riddoskam_text riddoskam_key(struct riddoskam_node node) {
    uint64_t fields[RIDDOSKAM_FIELDS];
    if (!riddoskam_head(node, fields)) return riddoskam_no_text();
    return riddoskam_text_at(node.tree->text, node.tree->text_length, fields[1], fields[2]);
}

/* The response of a message. */
static inline struct riddoskam_text riddoskam_response(struct riddoskam_node node) {
    uint64_t fields[RIDDOSKAM_FIELDS];
    if (node.named != RIDDOSKAM_MESSAGE || !riddoskam_head(node, fields)) return riddoskam_no_text();
    return riddoskam_text_at(node.tree->text, node.tree->text_length, fields[3], fields[4]);
}

/* Whether a node is in a header that must be understood. */
static inline bool riddoskam_must_understand(struct riddoskam_node node) {
    uint64_t fields[RIDDOSKAM_FIELDS];
    return node.named == RIDDOSKAM_HEADER && riddoskam_head(node, fields) && fields[3] == 1;
}

/* The class name of a typed object. */
static inline struct riddoskam_text riddoskam_class_name(struct riddoskam_node node) {
    uint64_t fields[RIDDOSKAM_FIELDS];
    if (node.kind != RIDDOSKAM_TYPED_OBJECT || !riddoskam_fields(node, fields)) return riddoskam_no_text();
    return riddoskam_text_at(node.tree->text, node.tree->text_length, fields[1], fields[2]);
}

/* The name of a file. */
static inline struct riddoskam_text riddoskam_file_name(struct riddoskam_node node) {
    uint64_t fields[RIDDOSKAM_FIELDS];
    if (node.kind != RIDDOSKAM_LSO || !riddoskam_fields(node, fields)) return riddoskam_no_text();
    return riddoskam_text_at(node.tree->text, node.tree->text_length, fields[2], fields[3]);
}

/* ---- Finding by keys */

/* The child that an index has under a key. The key's record stands right before the value's. */
static inline struct riddoskam_node riddoskam_get_by_index(struct riddoskam_node node, struct riddoskam_text key) {
    enum { KEY_RECORD = 6 };
    const struct riddoskam_tree *t = node.tree;
    size_t place;
    if (!riddoskam_step(t->image, t->made, t->text, t->text_length, t->index, t->index_length, node.place, (const uint8_t *)key.bytes, key.length, &place))
        return riddoskam_no_node();
    return place < KEY_RECORD ? riddoskam_no_node() : riddoskam_child(t, place - KEY_RECORD, RIDDOSKAM_KEY, 0, node.depth + 1u);
}

/* The last child under a key, by going over all of them. */
static inline struct riddoskam_node riddoskam_get_by_walk(struct riddoskam_node node, struct riddoskam_text key) {
    struct riddoskam_node found = riddoskam_no_node();
    struct riddoskam_node child = riddoskam_first(node);
    for (; child.there; child = riddoskam_next(child))
        if (riddoskam_text_same(riddoskam_key(child), key)) found = child;
    return found;
}

/* The child of an object, an ECMA array, a typed object or a file under a key; where it has more pairs of that key, the last. By the index, where the tree has
   one: that must be the one of this image and this text, else what is found may stand elsewhere in the tree, but always behind a record of that key. */
static inline struct riddoskam_node riddoskam_get_text(struct riddoskam_node node, struct riddoskam_text key) {
    const struct riddoskam_tree *t = node.tree;
    if (!node.there || !key.there || t == NULL) return riddoskam_no_node();
    if (!riddoskam_has_pairs(node.kind) && node.kind != RIDDOSKAM_LSO) return riddoskam_no_node();
    return t->index != NULL && t->image != NULL && t->text != NULL ? riddoskam_get_by_index(node, key) : riddoskam_get_by_walk(node, key);
}

/* The same for a key that is a word. */
static inline struct riddoskam_node riddoskam_get(struct riddoskam_node node, const char *key) {
    return riddoskam_get_text(node, riddoskam_text_of(key));
}

/* The same for a path of keys, of which the last is NULL: riddoskam_get_path(root, RIDDOSKAM_KEYS("A-01", "cents")). */
static inline struct riddoskam_node riddoskam_get_path(struct riddoskam_node node, const char *const *keys) {
    for (; *keys != NULL; keys++) node = riddoskam_get(node, *keys);
    return node;
}

#ifdef __cplusplus
#define RIDDOSKAM_KEYS(...) (std::initializer_list<const char *>{__VA_ARGS__, nullptr}.begin())
#else
#define RIDDOSKAM_KEYS(...) ((const char *const[]){__VA_ARGS__, NULL})
#endif

/* ---- What a value holds

   Each is true, and tells it, where the value is of that kind; else it is false, and what it would tell is left as it was. No kind is taken for another. */

/* The double of its bits. */
static inline double riddoskam_double(uint64_t bits) {
    double number;
    unsigned char *to = (unsigned char *)&number;
    const unsigned char *from = (const unsigned char *)&bits;
    size_t i;
    for (i = 0; i < sizeof number; i++) to[i] = from[i];
    return number;
}

static inline bool riddoskam_number(struct riddoskam_node node, double *number) {
    uint64_t fields[RIDDOSKAM_FIELDS];
    if (node.kind != RIDDOSKAM_NUMBER || !riddoskam_fields(node, fields)) return false;
    *number = riddoskam_double(fields[1]);
    return true;
}

/* A number that is whole and at most 2 ^ 53 in size, so that it is exact; false for fractions, infinities and NaN as well. */
static inline bool riddoskam_whole_number(struct riddoskam_node node, int64_t *whole) {
    const double most = 9007199254740992.0;
    double number;
    int64_t part;
    if (!riddoskam_number(node, &number) || !(-most <= number && number <= most)) return false;
    part = (int64_t)number;
    if ((double)part < number || (double)part > number) return false;
    *whole = part;
    return true;
}

static inline bool riddoskam_boolean(struct riddoskam_node node, bool *boolean) {
    uint64_t fields[RIDDOSKAM_FIELDS];
    if (node.kind != RIDDOSKAM_BOOLEAN || !riddoskam_fields(node, fields)) return false;
    *boolean = fields[1] == 1;
    return true;
}

/* Milliseconds since 1970 in UTC, and the zone in minutes, 0 where there is none; `zone` may be NULL. */
static inline bool riddoskam_date(struct riddoskam_node node, double *milliseconds, int *zone) {
    uint64_t fields[RIDDOSKAM_FIELDS];
    if (node.kind != RIDDOSKAM_DATE || !riddoskam_fields(node, fields)) return false;
    *milliseconds = riddoskam_double(fields[1]);
    if (zone != NULL) *zone = fields[3] < 0x8000 ? (int)fields[3] : (int)fields[3] - 0x10000;
    return true;
}

static inline bool riddoskam_reference(struct riddoskam_node node, uint16_t *number) {
    uint64_t fields[RIDDOSKAM_FIELDS];
    if (node.kind != RIDDOSKAM_REFERENCE || !riddoskam_fields(node, fields)) return false;
    *number = (uint16_t)fields[1];
    return true;
}

/* The text of a string, and that of an XML document, where it stands in the input. */
static inline struct riddoskam_text riddoskam_string(struct riddoskam_node node) {
    uint64_t fields[RIDDOSKAM_FIELDS];
    if (node.kind != RIDDOSKAM_STRING || !riddoskam_fields(node, fields)) return riddoskam_no_text();
    return riddoskam_text_at(node.tree->text, node.tree->text_length, fields[1], fields[2]);
}

static inline struct riddoskam_text riddoskam_xml(struct riddoskam_node node) {
    uint64_t fields[RIDDOSKAM_FIELDS];
    if (node.kind != RIDDOSKAM_XML || !riddoskam_fields(node, fields)) return riddoskam_no_text();
    return riddoskam_text_at(node.tree->text, node.tree->text_length, fields[1], fields[2]);
}

#ifdef __cplusplus
}
#endif

#endif
