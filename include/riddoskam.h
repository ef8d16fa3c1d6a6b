/* Riddoskam: AMF0 values, LSO files and AMF packets, read and written over lent buffers. The library is target/staticlib/libriddoskam.a, made by
   tools/library, for x86-64 Linux; of the C library it uses memset alone. It has no state, takes no memory and keeps no pointer, so calls may run
   beside each other.

   A row of bytes, or of numbers, is a pointer and a length. What a C caller owes is what C itself can't check:
   - every pointer is good: it is not NULL, even where a row's length is 0, it is aligned for what it points to, and what is said of it stands behind it, as many
     bytes or numbers as the row's length, as many as are declared where an array is, or one number (used, made, count, place, next, from);
   - what a call writes (image, out, entry, numbers, fields, index, counts and places: what is declared RIDDOSKAM_RESTRICT) overlaps no other argument, and
     nobody else touches it during the call;
   - what it reads (input, image, text, packet, index, path, key) isn't written by anybody during the call.
   Nothing else is owed: whatever the bytes and the numbers are, each call ends, and its answer, its counts and every byte that it leaves are proved to be what
   is said here (crates/riddoskam_c/src/lib.rt).

   What firmware asks before it links (tools/footprint computes and measures it, and `tools/footprint check` holds the library to these figures):
   - code 34,580 bytes, constants 1,418; no data that is written, nothing thread-local, no constructor, no unwinding;
   - it links memset; its instructions are those of every x86-64 processor, SSE2 among them, and none of floating point;
   - as the ABI of x86-64 Linux allows, functions keep bytes below the stack pointer (the red zone, 128 bytes): an interrupt that runs on the stack of a
     call must leave them alone;
   - the most stack that a call takes, on any input, with its return address and its arguments and without what memset takes; and the code and constants that
     a program takes which makes this call alone, in bytes:
       riddoskam_parse_single_element         9,160   6,790
       riddoskam_lso_parse                    9,352   8,591
       riddoskam_lso_parse_incomplete         9,336   8,573
       riddoskam_packet_parse                 9,624   9,007
       riddoskam_packet_parse_incomplete      9,608   8,947
       riddoskam_packet_parse_entry           9,360  11,573
       riddoskam_packet_parse_span            9,272   7,119
       riddoskam_write_value                  8,672   6,624
       riddoskam_lso_write_to_bytes           8,896   9,785
       riddoskam_packet_write_to_bytes        9,144  10,534
       riddoskam_index                       11,072   8,674
       riddoskam_find                           472   4,265
       riddoskam_step                           336   4,033
       riddoskam_packet_nth                   5,032   6,151
       riddoskam_packet_cut                   5,016   6,260
       riddoskam_record_at                      144   2,649
       riddoskam_put                            256   3,161
       riddoskam_inside                           8      15
       riddoskam_part                             8      31

   This header declares the calls. Over them stand two more, which only have inline functions: riddoskam_tree.h, to walk what was read and to find values in it,
   and riddoskam_build.h, to build what is to be written. Most programs include one of those and read and write by them. */
#ifndef RIDDOSKAM_H
#define RIDDOSKAM_H

#include <stdbool.h>
#include <stddef.h>
#include <stdint.h>

/* The version of the repository that this header is of. */
#define RIDDOSKAM_VERSION "0.3.0"
#define RIDDOSKAM_VERSION_MAJOR 0
#define RIDDOSKAM_VERSION_MINOR 3
#define RIDDOSKAM_VERSION_PATCH 0

/* What is written overlaps no other argument: C's `restrict`, which C++ has not. RIDDOSKAM_ARRAY is the brackets of a parameter that is n numbers in a row, and
   which overlaps none either. */
#if !defined(__cplusplus)
#define RIDDOSKAM_RESTRICT restrict
#define RIDDOSKAM_ARRAY(n) [restrict static n]
#elif defined(__GNUC__)
#define RIDDOSKAM_RESTRICT __restrict__
#define RIDDOSKAM_ARRAY(n) [n]
#else
#define RIDDOSKAM_RESTRICT
#define RIDDOSKAM_ARRAY(n) [n]
#endif

#ifdef __cplusplus
extern "C" {
#endif

/* Answers. */
enum {
    RIDDOSKAM_ACCEPTED = 0,
    RIDDOSKAM_OVER_LIMIT = 1,    /* input, text, image or output over its limit */
    RIDDOSKAM_NOT_WHOLE = 2,     /* a field isn't whole, or a count or a declared length exceeds the bytes left; FFFFFFFF doesn't */
    RIDDOSKAM_NOT_RIGHT = 3,     /* a fixed byte is wrong, text isn't UTF-8, no value has this marker, or bytes are left over */
    RIDDOSKAM_NO_ROOM = 4,       /* the image, the output, the index or the row of entries doesn't fit */
    RIDDOSKAM_TOO_DEEP = 5,      /* a value at depth 33 */
    RIDDOSKAM_NO_TREE = 6,       /* the image isn't a tree of the asked kind, or names bad text */
    RIDDOSKAM_OTHER_VERSION = 7, /* packet version byte 3 */
    RIDDOSKAM_NO_ENTRY = 8,      /* no entry of that number, or no such part of the packet */
    RIDDOSKAM_DAMAGED = 9        /* the entry's value is short, malformed or not used to the end */
};

/* What an answer means, in words; never NULL. */
static inline const char *riddoskam_answer_text(uint8_t answer) {
    switch (answer) {
    case RIDDOSKAM_ACCEPTED: return "accepted";
    case RIDDOSKAM_OVER_LIMIT: return "an input, a text, an image or the output is over its limit";
    case RIDDOSKAM_NOT_WHOLE: return "a field is not whole, or a count or a length exceeds the bytes that are left";
    case RIDDOSKAM_NOT_RIGHT: return "a fixed byte is wrong, a text is not UTF-8, a value's marker is 04, 09 or 0E, or bytes are left over";
    case RIDDOSKAM_NO_ROOM: return "there is no room in the image, the output, the index or the list of entries";
    case RIDDOSKAM_TOO_DEEP: return "a value stands at depth 33";
    case RIDDOSKAM_NO_TREE: return "the image is no tree of the kind that the call takes, or names a text that isn't inside or isn't UTF-8";
    case RIDDOSKAM_OTHER_VERSION: return "the version byte of the packet is 03";
    case RIDDOSKAM_NO_ENTRY: return "the packet has no such entry, or no such part";
    case RIDDOSKAM_DAMAGED: return "the entry is damaged: its value is short, malformed or not used to the end";
    default: return "no answer of the library";
    }
}

/* Places. A refused reading tells where it broke: in `*used`, in place of the bytes used, is the place of the first byte of the field that caused the refusal,
   counted from the first byte of the input. A text's length and its bytes are two fields.
   - 1: 0.
   - 2: where the field that isn't whole begins, also where some of its bytes are there: this may be the input's length. For a strict array's count that is too
     large the count, for a declared length that is too large that length.
   - 3: the first byte of the field that is wrong, whichever of its bytes is: a marker, a fixed row of bytes, the bytes of a text. For bytes left over the first of
     them; in a file that is where the first element begins that could not be read, whatever broke inside it.
   - 4: the marker of the value whose record doesn't fit; for a key's record the first byte of its length, for an end's the end marker, for a header's or a
     message's the first byte of its first text's length; for the record of the file or of the packet, and for a row of entries too short, 0.
   - 5: the marker of the value.
   - 7: the version byte, 1.
   - 8: 0.
   - 9: the place inside the packet of what broke in the entry's value, or of the first byte that the value left unused; an empty value's own place.
   In an entry all places count from the packet's start. Where a place is 0, the answer and the input tell what it means. */

/* Limits: bytes of an input, a text or an output; bytes of an image that is written or indexed; levels. */
#define RIDDOSKAM_LIMIT_BYTES 1048576
#define RIDDOSKAM_LIMIT_IMAGE 3145728
#define RIDDOSKAM_LIMIT_LEVELS 32

/* Room that is always enough: for the image of an input of so many bytes, and for the index of an image of so many. */
#define RIDDOSKAM_ROOM_IMAGE(input_length) (3 * (input_length))
#define RIDDOSKAM_ROOM_INDEX(image_length) (2 * (image_length))

/* How many numbers tell a record, how many an entry of a packet, and how many bytes a record of an index has. */
#define RIDDOSKAM_FIELDS 5
#define RIDDOSKAM_ENTRY_NUMBERS 8
#define RIDDOSKAM_INDEX_RECORD 13

/* Kinds of records, with what stands in fields[1] and the ones behind it. A text is its place in the input and its length. */
enum {
    RIDDOSKAM_NUMBER = 0x00,       /* the bits of a double */
    RIDDOSKAM_BOOLEAN = 0x01,      /* 0 or 1 */
    RIDDOSKAM_STRING = 0x02,       /* text */
    RIDDOSKAM_OBJECT = 0x03,       /* pairs follow, then an end */
    RIDDOSKAM_NULL = 0x05,
    RIDDOSKAM_UNDEFINED = 0x06,
    RIDDOSKAM_REFERENCE = 0x07,    /* index */
    RIDDOSKAM_ECMA_ARRAY = 0x08,   /* length as read; pairs follow, then an end; see below */
    RIDDOSKAM_OBJECT_END = 0x09,
    RIDDOSKAM_STRICT_ARRAY = 0x0A, /* count; that many values follow */
    RIDDOSKAM_DATE = 0x0B,         /* the bits of a double, 1 where there is a zone, the zone */
    RIDDOSKAM_UNSUPPORTED = 0x0D,
    RIDDOSKAM_XML = 0x0F,          /* text */
    RIDDOSKAM_TYPED_OBJECT = 0x10, /* text of the class name; pairs follow, then an end */
    RIDDOSKAM_KEY = 0x20,          /* text; its value follows */
    RIDDOSKAM_PACKET = 0x30,       /* how many headers, how many messages */
    RIDDOSKAM_HEADER = 0x31,       /* text of the name, flag; its value follows */
    RIDDOSKAM_MESSAGE = 0x32,      /* text of the target, text of the response; its value follows */
    RIDDOSKAM_LSO = 0x33,          /* stored length, text of the name; pairs follow to the image's end */
    RIDDOSKAM_NOTHING = 0xFF       /* no record's kind: what has none is said to have this */
};

/* Behind an ECMA array's record values without a key may stand before the pairs, its dense part. No reading makes such; they are written as pairs, under the keys
   "0", "1" and so on. */

/* The name of a kind; never NULL. */
static inline const char *riddoskam_kind_text(uint8_t kind) {
    switch (kind) {
    case RIDDOSKAM_NUMBER: return "number";
    case RIDDOSKAM_BOOLEAN: return "boolean";
    case RIDDOSKAM_STRING: return "string";
    case RIDDOSKAM_OBJECT: return "object";
    case RIDDOSKAM_NULL: return "null";
    case RIDDOSKAM_UNDEFINED: return "undefined";
    case RIDDOSKAM_REFERENCE: return "reference";
    case RIDDOSKAM_ECMA_ARRAY: return "ECMA array";
    case RIDDOSKAM_OBJECT_END: return "end";
    case RIDDOSKAM_STRICT_ARRAY: return "strict array";
    case RIDDOSKAM_DATE: return "date";
    case RIDDOSKAM_UNSUPPORTED: return "unsupported";
    case RIDDOSKAM_XML: return "XML document";
    case RIDDOSKAM_TYPED_OBJECT: return "typed object";
    case RIDDOSKAM_KEY: return "key";
    case RIDDOSKAM_PACKET: return "AMF packet";
    case RIDDOSKAM_HEADER: return "header";
    case RIDDOSKAM_MESSAGE: return "message";
    case RIDDOSKAM_LSO: return "LSO file";
    default: return "nothing";
    }
}

/* ---- Readings

   Each reads `input` into `image`. Accepted: `*used` bytes of the input were used and `*made` bytes of the image made; the image past them is zero.
   Refused: `*used` is the place of the refusal (see "Places"), `*made` is 0, and the whole image is zero. */

/* One value at the front of the input. Answers 0 to 5; refused, `*used` is the place. */
uint8_t riddoskam_parse_single_element(const uint8_t *input, size_t input_length, uint8_t *RIDDOSKAM_RESTRICT image, size_t image_length,
                                       size_t *RIDDOSKAM_RESTRICT used, size_t *RIDDOSKAM_RESTRICT made);

/* A file that is the whole input; a file as far as it can be read. Answers 0 to 5; refused, `*used` is the place. Where the first gives 3 for bytes left over, its
   place is the number of bytes that the second uses. */
uint8_t riddoskam_lso_parse(const uint8_t *input, size_t input_length, uint8_t *RIDDOSKAM_RESTRICT image, size_t image_length, size_t *RIDDOSKAM_RESTRICT used,
                            size_t *RIDDOSKAM_RESTRICT made);
uint8_t riddoskam_lso_parse_incomplete(const uint8_t *input, size_t input_length, uint8_t *RIDDOSKAM_RESTRICT image, size_t image_length,
                                       size_t *RIDDOSKAM_RESTRICT used, size_t *RIDDOSKAM_RESTRICT made);

/* A packet that is the whole input; a packet at the front of the input. Declared lengths are not looked at. Answers 0 to 5 and 7; refused,
   `*used` is the place. */
uint8_t riddoskam_packet_parse(const uint8_t *input, size_t input_length, uint8_t *RIDDOSKAM_RESTRICT image, size_t image_length,
                               size_t *RIDDOSKAM_RESTRICT used, size_t *RIDDOSKAM_RESTRICT made);
uint8_t riddoskam_packet_parse_incomplete(const uint8_t *input, size_t input_length, uint8_t *RIDDOSKAM_RESTRICT image, size_t image_length,
                                          size_t *RIDDOSKAM_RESTRICT used, size_t *RIDDOSKAM_RESTRICT made);

/* The value of entry `number`, from 0, headers first, of a packet that its lengths cut exactly (see riddoskam_packet_cut): read as that part of the packet alone,
   so no other entry's value has a say, but for one whose length isn't known and which can't be read: that refuses the cut. Places count from the packet's
   start. Accepted, `*used` is the value's length. Answers 0 to 5 and 7 to 9; refused, `*used` is the place. */
uint8_t riddoskam_packet_parse_entry(const uint8_t *packet, size_t packet_length, size_t number, uint8_t *RIDDOSKAM_RESTRICT image, size_t image_length,
                                     size_t *RIDDOSKAM_RESTRICT used, size_t *RIDDOSKAM_RESTRICT made);

/* The value that is the part of a packet at `place` with `length` bytes, read and answered for as the value of an entry whose place and length are these:
   for an entry of a cut this is riddoskam_packet_parse_entry by its number, without cutting again. 8 where the part isn't inside the packet. The entries of
   the packet have no say. Answers 0, 1, 4, 5, 8, 9; refused, `*used` is the place, counted from the packet's start. */
uint8_t riddoskam_packet_parse_span(const uint8_t *packet, size_t packet_length, size_t place, size_t length, uint8_t *RIDDOSKAM_RESTRICT image,
                                    size_t image_length, size_t *RIDDOSKAM_RESTRICT used, size_t *RIDDOSKAM_RESTRICT made);

/* ---- Writings

   Each writes the tree of `image`, whose texts stand in `text` at the places that the image names, into `out`. Accepted: the first `*count` bytes of the
   output are written and no other. Refused: `*count` is 0 and no byte of the output is changed. The image is a tree's bytes alone: of a buffer that was read
   into, its first `made` bytes. Answers 0, 1, 4, 5, 6. */

uint8_t riddoskam_write_value(const uint8_t *image, size_t image_length, const uint8_t *text, size_t text_length, uint8_t *RIDDOSKAM_RESTRICT out,
                              size_t out_length, size_t *RIDDOSKAM_RESTRICT count);

/* The file; its length field is set anew. */
uint8_t riddoskam_lso_write_to_bytes(const uint8_t *image, size_t image_length, const uint8_t *text, size_t text_length, uint8_t *RIDDOSKAM_RESTRICT out,
                                     size_t out_length, size_t *RIDDOSKAM_RESTRICT count);

/* The packet; each declared length is exact, or FFFFFFFF, not known, where `exact_lengths` is false. Both can be cut. */
uint8_t riddoskam_packet_write_to_bytes(const uint8_t *image, size_t image_length, const uint8_t *text, size_t text_length, bool exact_lengths,
                                        uint8_t *RIDDOSKAM_RESTRICT out, size_t out_length, size_t *RIDDOSKAM_RESTRICT count);

/* ---- Indexes

   An index has a record for each key of a value's or a file's image: the value's depth in one byte (1 in a file's body, 2 in an object at the top), then, in
   four bytes each, big-endian, the image places of the container's record (a file's is at 0), of the key's and of the value's. They are in order by container,
   then by the key's bytes (a prefix comes first), then by place. A value without a key, an array's, has no record; the keys inside it have theirs.
   Index, image and text go together: whoever reads anew makes the index anew. In an index that is all zero nothing is found but the first record, so it is
   safe to clear it before a reading. */

/* Makes the index of an image, whose texts stand in `text`. Accepted: `*count` records stand at the front of the index, and every byte behind them is zero.
   Refused: `*count` is 0, and the whole index is zero. The image is a tree's bytes alone, as for a writing, and is refused as it is there, but no output is
   over its limit. 4 comes last, where the records of all keys don't fit: twice the image's length is always room enough. Answers 0, 1, 4, 5, 6. */
uint8_t riddoskam_index(const uint8_t *image, size_t image_length, const uint8_t *text, size_t text_length, uint8_t *RIDDOSKAM_RESTRICT index,
                        size_t index_length, size_t *RIDDOSKAM_RESTRICT count);

/* Each of these finds the place of a value's record: the result is true and the place stands in `*place`. Where there is no such way, the result is false and
   `*place` is 0. The index may be handed over whole, with the zeros behind its records; so may the image. With an index that is this image's and this text's,
   what is found is what the tree has there. With any other bytes for an index each call ends too and reads nothing outside; what it finds by a key is then a
   whole value record right behind a key record whose text, in `text`, is that key, but perhaps in another container. */

/* By a path of keys: from the image's first record on, at each key to the last pair of that key. A path goes into objects, ECMA arrays, typed objects and, as
   the first record, a file; never into a value without a key. It is its keys in a row, each its length in two bytes, big-endian, and its bytes; the empty
   row is no keys and finds the first record, where that is a value's or a file's. A row that isn't whole keys finds nothing. */
bool riddoskam_find(const uint8_t *image, size_t image_length, const uint8_t *text, size_t text_length, const uint8_t *index, size_t index_length,
                    const uint8_t *path, size_t path_length, size_t *RIDDOSKAM_RESTRICT place);

/* By one key, its bytes alone, from the container whose record stands at the place `container`: 0, or one that was found. */
bool riddoskam_step(const uint8_t *image, size_t image_length, const uint8_t *text, size_t text_length, const uint8_t *index, size_t index_length,
                    size_t container, const uint8_t *key, size_t key_length, size_t *RIDDOSKAM_RESTRICT place);

/* ---- Entries, records, texts */

/* Where the numbers of an entry stand. A header's texts are its name and an empty one at 0, a message's are its target and its response. */
enum {
    RIDDOSKAM_ENTRY_KIND, /* RIDDOSKAM_HEADER or RIDDOSKAM_MESSAGE */
    RIDDOSKAM_ENTRY_FLAG, /* 0 or 1; 0 for a message */
    RIDDOSKAM_ENTRY_PLACE1,
    RIDDOSKAM_ENTRY_LENGTH1,
    RIDDOSKAM_ENTRY_PLACE2,
    RIDDOSKAM_ENTRY_LENGTH2,
    RIDDOSKAM_ENTRY_PLACE, /* of the value */
    RIDDOSKAM_ENTRY_LENGTH
};

/* Entry `number` of a packet that its lengths cut exactly (see riddoskam_packet_cut). Refused, all its numbers are 0; no place is told, but where the cut is
   refused riddoskam_packet_cut tells it. Answers 0 to 3, 5, 7, 8. */
uint8_t riddoskam_packet_nth(const uint8_t *packet, size_t packet_length, size_t number, size_t entry RIDDOSKAM_ARRAY(RIDDOSKAM_ENTRY_NUMBERS));

/* All entries of a packet that its declared lengths cut exactly, in one walk: eight numbers each (RIDDOSKAM_ENTRY_NUMBERS), in a row that has room for
   numbers_length / 8 of them. Values are not looked into, but for those whose declared length is FFFFFFFF, which says that it isn't known: such a value is read
   where it stands, without an image, and the entry has the length that was found. Where it can't be read, its 2, 3 or 5 refuses the cut, at its place.
   Accepted: `*used` is the packet's length and `*count` the number of its entries, which stand at the front of the row; every number behind them is 0. 4 where
   the packet is cut, but into more entries than there is room for. Refused: `*used` is the place of the refusal (see "Places"), 0 where there is no room;
   `*count` and all numbers are 0. Answers 0 to 5 and 7. */
uint8_t riddoskam_packet_cut(const uint8_t *packet, size_t packet_length, size_t *RIDDOSKAM_RESTRICT numbers, size_t numbers_length,
                             size_t *RIDDOSKAM_RESTRICT used, size_t *RIDDOSKAM_RESTRICT count);

/* The record at a place of an image: fields[0] is its kind, the others are its body, field by field, and 0 where it has none. `*next` is the place behind it.
   Where no whole and right record stands there, the answer is 6 and all are 0.
   An image is its first `made` bytes, and that is the length to hand over: the zeros behind them would be taken for numbers, 0.0 each, since 00 is the kind of
   one. A walk ends where `at` is that length. */
uint8_t riddoskam_record_at(const uint8_t *image, size_t image_length, size_t at, uint64_t fields RIDDOSKAM_ARRAY(RIDDOSKAM_FIELDS),
                            size_t *RIDDOSKAM_RESTRICT next);

/* Lays the record that `fields` tells, kind and body as riddoskam_record_at tells them, behind the `*made` bytes of an image. Accepted: `*made` is the place
   behind it. Refused: neither the image nor `*made` is changed. 6 where the fields are no record's: no such kind, a number that its field can't hold, a flag
   that is neither 0 nor 1, a zone without its flag, or a number other than 0 where the kind has no field; else 4 where there is no room. Answers 0, 4, 6. */
uint8_t riddoskam_put(uint8_t *RIDDOSKAM_RESTRICT image, size_t image_length, size_t *RIDDOSKAM_RESTRICT made,
                      const uint64_t fields RIDDOSKAM_ARRAY(RIDDOSKAM_FIELDS));

/* Whether `place + length` (in whole numbers, never wrapped) is at most the input's length. */
bool riddoskam_inside(const uint8_t *input, size_t input_length, size_t place, size_t length);

/* The text of a place and length: it begins at `input + *from` and its length is the result. Where the two are not inside, both are 0. */
size_t riddoskam_part(const uint8_t *input, size_t input_length, size_t place, size_t length, size_t *RIDDOSKAM_RESTRICT from);

#ifdef __cplusplus
}
#endif

#endif
