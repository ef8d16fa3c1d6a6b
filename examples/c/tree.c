/* tree values|file|packet FILE: prints what a file has, a value a line, with what names it; `values` is for AMF0 values one behind the other. It goes over a
   tree by `first` and `next`, without recursion: a way down has at most 32 levels. */
#include <stdio.h>
#include <string.h>

#include "riddoskam_tree.h"

enum { INPUT = 65536 };

static uint8_t input[INPUT];
static uint8_t image[RIDDOSKAM_ROOM_IMAGE(INPUT)];

/* Whether byte i of a text is of a control character (U+0000 to U+001F, U+007F to U+009F), a quote or a backslash. */
static bool is_special(struct riddoskam_text text, size_t i) {
    unsigned char byte = (unsigned char)text.bytes[i];
    unsigned char before = i > 0 ? (unsigned char)text.bytes[i - 1] : 0, behind = i + 1 < text.length ? (unsigned char)text.bytes[i + 1] : 0xFF;
    return byte < 0x20 || byte == 0x7F || byte == '"' || byte == '\\' || (byte == 0xC2 && behind < 0xA0) || (before == 0xC2 && byte < 0xA0);
}

/* A text in quotes, the bytes of special characters as numbers. */
static void print_text(struct riddoskam_text text) {
    size_t i;
    putchar('"');
    for (i = 0; i < text.length; i++)
        if (is_special(text, i))
            printf("\\x%02X", (unsigned)(unsigned char)text.bytes[i]);
        else
            putchar(text.bytes[i]);
    putchar('"');
}

/* What stands before a value in its line. */
static void print_name(struct riddoskam_node node) {
    if (node.named == RIDDOSKAM_NOTHING) return;
    if (node.named != RIDDOSKAM_KEY) printf("%s ", riddoskam_kind_text(node.named));
    print_text(riddoskam_key(node));
    if (node.named == RIDDOSKAM_MESSAGE) {
        printf(" response ");
        print_text(riddoskam_response(node));
    }
    if (riddoskam_must_understand(node)) printf(" must be understood");
    printf(": ");
}

static void print_value(struct riddoskam_node node) {
    double number;
    bool boolean;
    int zone;
    uint16_t reference;
    printf("%s", riddoskam_kind_text(node.kind));
    if (riddoskam_number(node, &number)) printf(" %.17g", number);
    if (riddoskam_boolean(node, &boolean)) printf(" %s", boolean ? "true" : "false");
    if (riddoskam_date(node, &number, &zone)) printf(" %.0f, zone %d minutes", number, zone);
    if (riddoskam_reference(node, &reference)) printf(" %u", reference);
    if (node.kind == RIDDOSKAM_STRICT_ARRAY) printf(" of %zu", riddoskam_count(node));
    if (node.kind == RIDDOSKAM_STRING) putchar(' '), print_text(riddoskam_string(node));
    if (node.kind == RIDDOSKAM_XML) putchar(' '), print_text(riddoskam_xml(node));
    if (node.kind == RIDDOSKAM_TYPED_OBJECT) putchar(' '), print_text(riddoskam_class_name(node));
    if (node.kind == RIDDOSKAM_LSO) putchar(' '), print_text(riddoskam_file_name(node));
    putchar('\n');
}

static void print_line(struct riddoskam_node node, size_t level) {
    printf("%*s", (int)(2 * level), "");
    print_name(node);
    print_value(node);
}

/* Keeps the nodes from the root down to the one that is printed. Behind it comes its first child, else the next one beside it or beside the nearest above. */
static void print_tree(struct riddoskam_node root) {
    struct riddoskam_node way[RIDDOSKAM_LIMIT_LEVELS + 1];
    size_t level = 0;
    way[0] = root;
    while (way[level].there) {
        struct riddoskam_node child = riddoskam_first(way[level]);
        print_line(way[level], level);
        if (child.there) {
            way[++level] = child;
            continue;
        }
        way[level] = riddoskam_next(way[level]);
        while (!way[level].there && level > 0) {
            level--;
            way[level] = riddoskam_next(way[level]);
        }
    }
}

/* Prints what was read, or at which byte of the file it was refused, and why. */
static bool print_read(uint8_t answer, const struct riddoskam_tree *tree, size_t place) {
    if (answer != RIDDOSKAM_ACCEPTED) printf("refused at byte %zu: %s\n", place, riddoskam_answer_text(answer));
    print_tree(riddoskam_root(tree));
    return answer == RIDDOSKAM_ACCEPTED;
}

/* Each value is read from where the one before it ends. */
static bool print_values(size_t length) {
    struct riddoskam_tree tree;
    size_t at, used;
    bool right = true;
    for (at = 0; right && at < length; at += used) {
        uint8_t answer = riddoskam_tree_of_value(&tree, input + at, length - at, image, sizeof image, &used);
        right = print_read(answer, &tree, at + used);
    }
    return right;
}

static bool print_file(size_t length) {
    struct riddoskam_tree tree;
    size_t used;
    uint8_t answer = riddoskam_tree_of_file(&tree, input, length, image, sizeof image, &used);
    return print_read(answer, &tree, used);
}

static bool print_packet(size_t length) {
    struct riddoskam_tree tree;
    size_t used;
    uint8_t answer = riddoskam_tree_of_packet(&tree, input, length, image, sizeof image, &used);
    return print_read(answer, &tree, used);
}

int main(int count, char **words) {
    bool values = count == 3 && strcmp(words[1], "values") == 0, packet = count == 3 && strcmp(words[1], "packet") == 0;
    size_t length;
    FILE *file;
    if (!values && !packet && (count != 3 || strcmp(words[1], "file") != 0)) {
        fprintf(stderr, "usage: tree values|file|packet FILE\n");
        return 2;
    }
    file = fopen(words[2], "rb");
    if (!file) {
        perror(words[2]);
        return 2;
    }
    length = fread(input, 1, sizeof input, file);
    fclose(file);
    return (values ? print_values(length) : packet ? print_packet(length) : print_file(length)) ? 0 : 1;
}
