/* Building a tree: the records of an image laid one behind the other, and the texts that they name. All of it is inline functions over riddoskam_put and the
   writings of riddoskam.h; they take no memory and, beyond those calls, link nothing. The calls are proved. These functions are not: they are tried
   (tools/walk). Whatever they lay, a writing judges it whole before it changes a byte.

       static uint8_t image[256], text[256], out[256];
       size_t count;
       struct riddoskam_build build = riddoskam_build_in(image, sizeof image, text, sizeof text);
       riddoskam_add_object(&build);
       riddoskam_add_key(&build, "cents");
       riddoskam_add_number(&build, 129);
       riddoskam_add_end(&build);
       uint8_t answer = riddoskam_build_value(&build, out, sizeof out, &count);
       if (answer != RIDDOSKAM_ACCEPTED) printf("%s\n", riddoskam_answer_text(answer));

   What is added follows the table of riddoskam.h: behind an object, a typed object or an ECMA array pairs, each a key and a value, and then an end; behind a
   strict array as many values as it counts; behind a file pairs, and no end; behind a packet its headers and its messages, each with a value. Nothing of that
   is judged before the writing, which answers 6 where it is no tree. No record takes more than 12 bytes of the image.

   The first refusal stays: what is added behind it changes nothing, and the writing gives that answer and writes nothing. So one looks at the answer once, at
   the end. 4 is said where the image or the text has no room, 6 where a text is not there or too long for its field, or a number too large.

   A text is copied behind the ones that are in the text buffer. One that stands in the first `text_length` bytes of that buffer is named where it is: so a
   packet can be answered with the packet as the front of the text buffer, and what was read in it is not copied. */
#ifndef RIDDOSKAM_BUILD_H
#define RIDDOSKAM_BUILD_H

#include "riddoskam_tree.h"

#ifdef __cplusplus
extern "C" {
#endif

/* What was built: the first `made` bytes of an image, the first `text_length` of a text, and the first refusal, or 0. */
struct riddoskam_build {
    uint8_t *image;
    size_t image_length;
    size_t made;
    uint8_t *text;
    size_t text_room;
    size_t text_length;
    uint8_t answer;
};

/* Nothing, in an image and a text buffer. `text_length` can be set to what is in that buffer already. */
static inline struct riddoskam_build riddoskam_build_in(uint8_t *image, size_t image_length, uint8_t *text, size_t text_room) {
    struct riddoskam_build build = {image, image_length, 0, text, text_room, 0, RIDDOSKAM_ACCEPTED};
    return build;
}

/* The first refusal stays. */
static inline void riddoskam_build_refuse(struct riddoskam_build *build, uint8_t answer) {
    if (build->answer == RIDDOSKAM_ACCEPTED) build->answer = answer;
}

/* ---- Texts */

/* Whether a text stands in the first `text_length` bytes of the text buffer; `*place` is where. */
static inline bool riddoskam_build_has(const struct riddoskam_build *build, struct riddoskam_text text, size_t *place) {
    uintptr_t from = (uintptr_t)build->text, at = (uintptr_t)text.bytes;
    *place = (size_t)(at - from);
    return build->text != NULL && at >= from && riddoskam_inside(build->text, build->text_length, *place, text.length);
}

/* Copies a text behind the others; it is given where it stands now. Where there is no room it is not there. */
static inline struct riddoskam_text riddoskam_build_copy(struct riddoskam_build *build, struct riddoskam_text text) {
    size_t i;
    uint8_t *to = build->text;
    if (!text.there) riddoskam_build_refuse(build, RIDDOSKAM_NO_TREE);
    if (to == NULL || build->text_length > build->text_room || text.length > build->text_room - build->text_length)
        riddoskam_build_refuse(build, RIDDOSKAM_NO_ROOM);
    if (build->answer != RIDDOSKAM_ACCEPTED) return riddoskam_no_text();
    to += build->text_length;
    for (i = 0; i < text.length; i++) to[i] = (uint8_t)text.bytes[i];
    build->text_length += text.length;
    return riddoskam_text_of_bytes(to, text.length);
}

/* Two texts as one, copied behind the others. */
static inline struct riddoskam_text riddoskam_build_join(struct riddoskam_build *build, struct riddoskam_text one, struct riddoskam_text other) {
    struct riddoskam_text front = riddoskam_build_copy(build, one), back = riddoskam_build_copy(build, other);
    if (!front.there || !back.there) return riddoskam_no_text();
    front.length += back.length;
    return front;
}

/* The place of a text in the text buffer, into which it is copied where it isn't in it. An empty one has place 0, and needs no buffer. */
static inline uint64_t riddoskam_build_place(struct riddoskam_build *build, struct riddoskam_text text) {
    size_t place;
    if (text.there && text.length == 0) return 0;
    if (text.there && riddoskam_build_has(build, text, &place)) return place;
    text = riddoskam_build_copy(build, text);
    return build->text_length - text.length;
}

/* ---- Records */

/* Lays a record: its kind, and its numbers in the order of riddoskam.h. */
static inline void riddoskam_add_record(struct riddoskam_build *build, uint8_t kind, uint64_t one, uint64_t two, uint64_t three, uint64_t four) {
    uint64_t fields[RIDDOSKAM_FIELDS];
    fields[0] = kind;
    fields[1] = one;
    fields[2] = two;
    fields[3] = three;
    fields[4] = four;
    if (build->image == NULL) riddoskam_build_refuse(build, RIDDOSKAM_NO_ROOM);
    if (build->answer == RIDDOSKAM_ACCEPTED) build->answer = riddoskam_put(build->image, build->image_length, &build->made, fields);
}

/* A record of a text, and of one more number behind it. */
static inline void riddoskam_add_named(struct riddoskam_build *build, uint8_t kind, struct riddoskam_text text, uint64_t flag) {
    uint64_t place = riddoskam_build_place(build, text);
    riddoskam_add_record(build, kind, place, text.length, flag, 0);
}

/* The bits of a double. */
static inline uint64_t riddoskam_bits(double number) {
    uint64_t bits;
    unsigned char *to = (unsigned char *)&bits;
    const unsigned char *from = (const unsigned char *)&number;
    size_t i;
    for (i = 0; i < sizeof bits; i++) to[i] = from[i];
    return bits;
}

/* ---- Values. Those with a text take a word that ends with a zero, or, by the name with _text, any text. */

static inline void riddoskam_add_number(struct riddoskam_build *build, double number) {
    riddoskam_add_record(build, RIDDOSKAM_NUMBER, riddoskam_bits(number), 0, 0, 0);
}

static inline void riddoskam_add_boolean(struct riddoskam_build *build, bool boolean) {
    riddoskam_add_record(build, RIDDOSKAM_BOOLEAN, boolean ? 1 : 0, 0, 0, 0);
}

static inline void riddoskam_add_string_text(struct riddoskam_build *build, struct riddoskam_text text) {
    riddoskam_add_named(build, RIDDOSKAM_STRING, text, 0);
}

static inline void riddoskam_add_string(struct riddoskam_build *build, const char *text) { riddoskam_add_string_text(build, riddoskam_text_of(text)); }

static inline void riddoskam_add_xml_text(struct riddoskam_build *build, struct riddoskam_text text) {
    riddoskam_add_named(build, RIDDOSKAM_XML, text, 0);
}

static inline void riddoskam_add_xml(struct riddoskam_build *build, const char *text) { riddoskam_add_xml_text(build, riddoskam_text_of(text)); }

static inline void riddoskam_add_null(struct riddoskam_build *build) { riddoskam_add_record(build, RIDDOSKAM_NULL, 0, 0, 0, 0); }

static inline void riddoskam_add_undefined(struct riddoskam_build *build) { riddoskam_add_record(build, RIDDOSKAM_UNDEFINED, 0, 0, 0, 0); }

static inline void riddoskam_add_unsupported(struct riddoskam_build *build) { riddoskam_add_record(build, RIDDOSKAM_UNSUPPORTED, 0, 0, 0, 0); }

static inline void riddoskam_add_reference(struct riddoskam_build *build, uint16_t number) {
    riddoskam_add_record(build, RIDDOSKAM_REFERENCE, number, 0, 0, 0);
}

/* Milliseconds since 1970 in UTC, and a zone in minutes, which goes out as it is; most writers have 0. */
static inline void riddoskam_add_date(struct riddoskam_build *build, double milliseconds, int16_t zone) {
    riddoskam_add_record(build, RIDDOSKAM_DATE, riddoskam_bits(milliseconds), 1, (uint16_t)zone, 0);
}

/* ---- Containers, and what stands in them */

/* Pairs follow, and an end. */
static inline void riddoskam_add_object(struct riddoskam_build *build) { riddoskam_add_record(build, RIDDOSKAM_OBJECT, 0, 0, 0, 0); }

static inline void riddoskam_add_typed_object_text(struct riddoskam_build *build, struct riddoskam_text class_name) {
    riddoskam_add_named(build, RIDDOSKAM_TYPED_OBJECT, class_name, 0);
}

static inline void riddoskam_add_typed_object(struct riddoskam_build *build, const char *class_name) {
    riddoskam_add_typed_object_text(build, riddoskam_text_of(class_name));
}

/* The length goes out as it is: most writers have the number of pairs. Values without a key may come first; they go out under the keys "0", "1" and so on. */
static inline void riddoskam_add_ecma_array(struct riddoskam_build *build, uint32_t length) {
    riddoskam_add_record(build, RIDDOSKAM_ECMA_ARRAY, length, 0, 0, 0);
}

/* The key of a pair; its value follows. */
static inline void riddoskam_add_key_text(struct riddoskam_build *build, struct riddoskam_text key) { riddoskam_add_named(build, RIDDOSKAM_KEY, key, 0); }

static inline void riddoskam_add_key(struct riddoskam_build *build, const char *key) { riddoskam_add_key_text(build, riddoskam_text_of(key)); }

static inline void riddoskam_add_end(struct riddoskam_build *build) { riddoskam_add_record(build, RIDDOSKAM_OBJECT_END, 0, 0, 0, 0); }

/* So many values follow, and no end. */
static inline void riddoskam_add_strict_array(struct riddoskam_build *build, uint32_t count) {
    riddoskam_add_record(build, RIDDOSKAM_STRICT_ARRAY, count, 0, 0, 0);
}

/* A file, as the first record; pairs follow, and no end. The writing sets its length. */
static inline void riddoskam_add_file_text(struct riddoskam_build *build, struct riddoskam_text name) {
    uint64_t place = riddoskam_build_place(build, name);
    riddoskam_add_record(build, RIDDOSKAM_LSO, 0, place, name.length, 0);
}

static inline void riddoskam_add_file(struct riddoskam_build *build, const char *name) { riddoskam_add_file_text(build, riddoskam_text_of(name)); }

/* A packet, as the first record; so many headers follow, and then so many messages. */
static inline void riddoskam_add_packet(struct riddoskam_build *build, uint16_t headers, uint16_t messages) {
    riddoskam_add_record(build, RIDDOSKAM_PACKET, headers, messages, 0, 0);
}

/* A header of a packet; its value follows. */
static inline void riddoskam_add_header_text(struct riddoskam_build *build, struct riddoskam_text name, bool must_understand) {
    riddoskam_add_named(build, RIDDOSKAM_HEADER, name, must_understand ? 1 : 0);
}

static inline void riddoskam_add_header(struct riddoskam_build *build, const char *name, bool must_understand) {
    riddoskam_add_header_text(build, riddoskam_text_of(name), must_understand);
}

/* A message of a packet; its value follows. */
static inline void riddoskam_add_message_text(struct riddoskam_build *build, struct riddoskam_text target, struct riddoskam_text response) {
    uint64_t to = riddoskam_build_place(build, target), back = riddoskam_build_place(build, response);
    riddoskam_add_record(build, RIDDOSKAM_MESSAGE, to, target.length, back, response.length);
}

static inline void riddoskam_add_message(struct riddoskam_build *build, const char *target, const char *response) {
    riddoskam_add_message_text(build, riddoskam_text_of(target), riddoskam_text_of(response));
}

/* A value of a tree, with all that is in it and without what names it. 6 where the node is not there, or is a file or a packet. */
static inline void riddoskam_add_node(struct riddoskam_build *build, struct riddoskam_node node) {
    uint64_t f[RIDDOSKAM_FIELDS];
    size_t at = node.place, behind = 0;
    if (!node.there || !riddoskam_skip(node.tree, at, &behind)) riddoskam_build_refuse(build, RIDDOSKAM_NO_TREE);
    while (build->answer == RIDDOSKAM_ACCEPTED && at < behind && riddoskam_tree_record(node.tree, at, f, &at)) {
        if (f[0] == RIDDOSKAM_STRING || f[0] == RIDDOSKAM_XML || f[0] == RIDDOSKAM_KEY || f[0] == RIDDOSKAM_TYPED_OBJECT)
            riddoskam_add_named(build, (uint8_t)f[0], riddoskam_text_at(node.tree->text, node.tree->text_length, f[1], f[2]), 0);
        else
            riddoskam_add_record(build, (uint8_t)f[0], f[1], f[2], f[3], f[4]);
    }
}

/* ---- Writing */

/* The tree that was built, to walk it; empty where something was refused. */
static inline struct riddoskam_tree riddoskam_build_tree(const struct riddoskam_build *build) {
    static const uint8_t none[1] = {0};
    size_t made = build->answer == RIDDOSKAM_ACCEPTED && build->image != NULL ? build->made : 0;
    return riddoskam_tree_of(build->image != NULL ? build->image : none, made, build->text != NULL ? build->text : none, build->text_length);
}

/* Each of these writes what was built, as the call of riddoskam.h that it names does, with its answer and its `*count`. Where something was refused before, the
   first refusal is the answer, `*count` is 0 and no byte of the output is changed. */

/* riddoskam_write_value */
static inline uint8_t riddoskam_build_value(const struct riddoskam_build *build, uint8_t *out, size_t out_length, size_t *count) {
    struct riddoskam_tree tree = riddoskam_build_tree(build);
    uint8_t answer = riddoskam_write_value(tree.image, tree.made, tree.text, tree.text_length, out, out_length, count);
    return build->answer != RIDDOSKAM_ACCEPTED ? build->answer : answer;
}

/* riddoskam_lso_write_to_bytes */
static inline uint8_t riddoskam_build_file(const struct riddoskam_build *build, uint8_t *out, size_t out_length, size_t *count) {
    struct riddoskam_tree tree = riddoskam_build_tree(build);
    uint8_t answer = riddoskam_lso_write_to_bytes(tree.image, tree.made, tree.text, tree.text_length, out, out_length, count);
    return build->answer != RIDDOSKAM_ACCEPTED ? build->answer : answer;
}

/* riddoskam_packet_write_to_bytes */
static inline uint8_t riddoskam_build_packet(const struct riddoskam_build *build, bool exact_lengths, uint8_t *out, size_t out_length, size_t *count) {
    struct riddoskam_tree tree = riddoskam_build_tree(build);
    uint8_t answer = riddoskam_packet_write_to_bytes(tree.image, tree.made, tree.text, tree.text_length, exact_lengths, out, out_length, count);
    return build->answer != RIDDOSKAM_ACCEPTED ? build->answer : answer;
}

#ifdef __cplusplus
}
#endif

#endif
