/* reply PACKET.amf: answers a packet. Each message that names a response gets a packet of its own, with one message to that response and "/onResult", which
   holds an object: the shelf that was meant, whether a price in cents came for it, and the value that came. What is written is printed, and read back.

   The packet that came is the front of the text buffer: so the texts in it are named where they stand, and only new ones are laid behind them. */
#include <stdio.h>

#include "riddoskam_build.h"

enum { INPUT = 8192, ENTRIES = 64, REPLY = 1024, LINE = 16 };

static uint8_t text[INPUT + REPLY];
static uint8_t came[RIDDOSKAM_ROOM_IMAGE(INPUT)];
static uint8_t image[RIDDOSKAM_ROOM_IMAGE(INPUT)];
static uint8_t out[INPUT + REPLY];

/* Lays the reply to a message: its target, its response and its value. */
static void lay_reply(struct riddoskam_build *build, struct riddoskam_text target, struct riddoskam_text response, struct riddoskam_node value) {
    int64_t cents;
    riddoskam_add_packet(build, 0, 1);
    riddoskam_add_message_text(build, riddoskam_build_join(build, response, riddoskam_text_of("/onResult")), riddoskam_text_of("null"));
    riddoskam_add_object(build);
    riddoskam_add_key(build, "shelf");
    riddoskam_add_string_text(build, target);
    riddoskam_add_key(build, "priced");
    riddoskam_add_boolean(build, riddoskam_whole_number(riddoskam_get(value, "cents"), &cents) && cents >= 0);
    riddoskam_add_key(build, "got");
    riddoskam_add_node(build, value);
    riddoskam_add_end(build);
}

static void print_bytes(const uint8_t *bytes, size_t count) {
    size_t i;
    for (i = 0; i < count; i++) printf("%s%02X%s", i % LINE == 0 ? "  " : " ", bytes[i], i % LINE == LINE - 1 || i == count - 1 ? "\n" : "");
}

/* Reads a reply back, and prints whom it is for and what its object has under each key. */
static void read_back(size_t count) {
    struct riddoskam_tree tree;
    struct riddoskam_node message, pair;
    size_t used;
    uint8_t answer = riddoskam_tree_of_packet(&tree, out, count, came, sizeof came, &used);
    if (answer != RIDDOSKAM_ACCEPTED) printf("  refused at byte %zu: %s\n", used, riddoskam_answer_text(answer));
    for (message = riddoskam_first(riddoskam_root(&tree)); message.there; message = riddoskam_next(message)) {
        struct riddoskam_text to = riddoskam_key(message), back = riddoskam_response(message);
        printf("  to %.*s, response %.*s\n", RIDDOSKAM_PRINTED(to), RIDDOSKAM_PRINTED(back));
        for (pair = riddoskam_first(message); pair.there; pair = riddoskam_next(pair)) {
            struct riddoskam_text key = riddoskam_key(pair), word = riddoskam_string(pair);
            bool priced;
            printf("    %.*s: %s", RIDDOSKAM_PRINTED(key), riddoskam_kind_text(pair.kind));
            if (word.there) printf(" %.*s", RIDDOSKAM_PRINTED(word));
            if (riddoskam_boolean(pair, &priced)) printf(" %s", priced ? "true" : "false");
            if (riddoskam_first(pair).there) printf(" of %zu", riddoskam_count(pair));
            putchar('\n');
        }
    }
}

/* Answers one message of the packet, which is the first `length` bytes of the text. */
static void answer_message(size_t length, const size_t *entry) {
    struct riddoskam_text target = riddoskam_entry_key(text, length, entry), response = riddoskam_entry_response(text, length, entry);
    struct riddoskam_build build = riddoskam_build_in(image, sizeof image, text, sizeof text);
    struct riddoskam_tree tree;
    size_t used, count;
    uint8_t answer = riddoskam_tree_of_entry(&tree, text, length, entry, came, sizeof came, &used);
    printf("%.*s: ", RIDDOSKAM_PRINTED(target));
    if (answer != RIDDOSKAM_ACCEPTED) {
        printf("refused at byte %zu: %s\n", used, riddoskam_answer_text(answer));
        return;
    }
    build.text_length = length;
    lay_reply(&build, target, response, riddoskam_root(&tree));
    answer = riddoskam_build_packet(&build, true, out, sizeof out, &count);
    if (answer != RIDDOSKAM_ACCEPTED) {
        printf("no reply: %s\n", riddoskam_answer_text(answer));
        return;
    }
    printf("a reply of %zu bytes\n", count);
    print_bytes(out, count);
    read_back(count);
}

int main(int count, char **words) {
    static size_t numbers[ENTRIES * RIDDOSKAM_ENTRY_NUMBERS];
    size_t length, used, entries, k;
    uint8_t answer;
    FILE *file;
    if (count != 2) {
        fprintf(stderr, "usage: reply PACKET.amf\n");
        return 2;
    }
    file = fopen(words[1], "rb");
    if (!file) {
        perror(words[1]);
        return 2;
    }
    length = fread(text, 1, INPUT, file);
    fclose(file);
    answer = riddoskam_packet_cut(text, length, numbers, sizeof numbers / sizeof *numbers, &used, &entries);
    if (answer != RIDDOSKAM_ACCEPTED) {
        printf("refused at byte %zu: %s\n", used, riddoskam_answer_text(answer));
        return 1;
    }
    for (k = 0; k < entries; k++) {
        const size_t *entry = numbers + k * RIDDOSKAM_ENTRY_NUMBERS;
        if (entry[RIDDOSKAM_ENTRY_KIND] == RIDDOSKAM_MESSAGE && entry[RIDDOSKAM_ENTRY_LENGTH2] > 0) answer_message(length, entry);
    }
    return 0;
}
