/* price FILE.sol SHELF: the price of a shelf, in cents, out of an LSO of prices, and then out of a packet of new prices, one message a shelf. Between them the
   file is read once more without its last bytes, to show what is told of a refusal: the answer, and the place where the reading broke.

   The price in the file, where there are many keys, is looked up by an index; the few values of a message are walked. Texts are nowhere copied, and nothing
   here takes memory. */
#include <stdio.h>

#include "riddoskam_tree.h"

enum { INPUT = 8192, ENTRIES = 64 };

static uint8_t input[INPUT];
static uint8_t image[RIDDOSKAM_ROOM_IMAGE(INPUT)];
static uint8_t keys[RIDDOSKAM_ROOM_INDEX(sizeof image)];

/* A file is read and its index made once; any number of prices can then be looked up, each by halving the index a few times. */
static void from_file(const char *name, size_t length, const char *shelf) {
    struct riddoskam_tree tree;
    size_t used;
    double price;
    uint8_t answer = riddoskam_tree_of_file(&tree, input, length, image, sizeof image, &used);
    if (answer != RIDDOSKAM_ACCEPTED) {
        printf("%s: answer %u at byte %zu: %s\n", name, answer, used, riddoskam_answer_text(answer));
        return;
    }
    riddoskam_tree_index(&tree, keys, sizeof keys);
    if (riddoskam_number(riddoskam_get_path(riddoskam_root(&tree), RIDDOSKAM_KEYS(shelf, "cents")), &price))
        printf("%s: shelf %s costs %.0f\n", name, shelf, price);
    else
        printf("%s: no price for shelf %s\n", name, shelf);
}

/* One cut finds all entries, and then each is read by itself: a damaged one costs its own shelf the new price and no other. */
static void from_packet(const uint8_t *packet, size_t length) {
    static size_t numbers[ENTRIES * RIDDOSKAM_ENTRY_NUMBERS];
    size_t used, count, k;
    uint8_t answer = riddoskam_packet_cut(packet, length, numbers, sizeof numbers / sizeof *numbers, &used, &count);
    if (answer != RIDDOSKAM_ACCEPTED) printf("packet: answer %u at byte %zu: %s\n", answer, used, riddoskam_answer_text(answer));
    for (k = 0; k < count; k++) {
        const size_t *entry = numbers + k * RIDDOSKAM_ENTRY_NUMBERS;
        struct riddoskam_text shelf = riddoskam_entry_key(packet, length, entry);
        struct riddoskam_tree tree;
        double price;
        answer = riddoskam_tree_of_entry(&tree, packet, length, entry, image, sizeof image, &used);
        if (answer != RIDDOSKAM_ACCEPTED)
            printf("packet: shelf %.*s: answer %u at byte %zu: %s\n", RIDDOSKAM_PRINTED(shelf), answer, used, riddoskam_answer_text(answer));
        else if (riddoskam_number(riddoskam_get(riddoskam_root(&tree), "cents"), &price))
            printf("packet: shelf %.*s costs %.0f\n", RIDDOSKAM_PRINTED(shelf), price);
        else
            printf("packet: shelf %.*s has no price\n", RIDDOSKAM_PRINTED(shelf));
    }
}

/* Three messages, each an object with "cents" in it. In the second a byte is bent: the object's marker 03 is a 04, which no value has. */
#define MESSAGE(shelf, marker, high, low)                                                                                                                     \
    0, 4, 'A', '-', '0', shelf, 0, 0, 0, 0, 0, 20, marker, 0, 5, 'c', 'e', 'n', 't', 's', 0x00, 0x40, high, low, 0, 0, 0, 0, 0, 0, 0, 9
static const uint8_t packet[] = {0, 0, 0, 0, 0, 3, MESSAGE('1', 0x03, 0x5F, 0xC0), MESSAGE('2', 0x04, 0x72, 0xB0), MESSAGE('3', 0x03, 0x54, 0xC0)};

int main(int count, char **words) {
    size_t length;
    FILE *file;
    if (count != 3) {
        fprintf(stderr, "usage: price FILE.sol SHELF\n");
        return 2;
    }
    file = fopen(words[1], "rb");
    if (!file) {
        perror(words[1]);
        return 2;
    }
    length = fread(input, 1, sizeof input, file);
    fclose(file);
    from_file("file", length, words[2]);
    /* What is left is refused by 3, and the place is where the element begins that isn't whole: what stands before it could be read. */
    from_file("file broken off", length - length / 10, words[2]);
    from_packet(packet, sizeof packet);
    return 0;
}
