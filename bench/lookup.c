/* lookup CALL TIMES FILE [PATHS]: does CALL so many times, for bench/index to count. FILE is an LSO file, or a lone AMF0 value. PATHS has a path a line, its
   keys divided by tabs; each is looked up once a time.

       read     reads the file
       index    makes the index of its image
       find     looks the paths up by the index
       first    walks the image for them, record by record, to the first pair of each key: what a caller does who knows that no key comes twice
       last     the same to the last pair of each key, which is what the index finds

   Where there are paths, the index and the walk must agree on each. Prints how many keys there are. */
#include <stdio.h>
#include <stdlib.h>
#include <string.h>

#include "riddoskam.h"

enum { PATHS = 64 };

static uint8_t text[RIDDOSKAM_LIMIT_BYTES + 1], image[RIDDOSKAM_LIMIT_IMAGE], table[2 * RIDDOSKAM_LIMIT_IMAGE], paths[PATHS][256];
static size_t length, made, room, path_length[PATHS], path_count;

static void die(const char *what) {
    fprintf(stderr, "lookup: %s\n", what);
    exit(3);
}

static uint64_t field[5];

static uint64_t record(size_t at, size_t *next) {
    if (riddoskam_record_at(image, made, at, field, next) != RIDDOSKAM_ACCEPTED) die("the image is not whole");
    return field[0];
}

static size_t behind(size_t at);

/* The place behind the pairs that begin there, and behind their end, if they have one. The value of a pair of the key is put into *value. */
static size_t pairs(size_t at, const uint8_t *key, size_t size, bool first, size_t *value) {
    size_t next;
    while (at < made && record(at, &next) == RIDDOSKAM_KEY) {
        if (key && field[2] == size && memcmp(text + field[1], key, size) == 0) {
            *value = next;
            if (first) return 0;
        }
        at = behind(next);
    }
    return at < made ? next : at;
}

/* The place behind the value there. */
static size_t behind(size_t at) {
    size_t next;
    switch (record(at, &next)) {
    case RIDDOSKAM_OBJECT:
    case RIDDOSKAM_ECMA_ARRAY:
    case RIDDOSKAM_TYPED_OBJECT: return pairs(next, NULL, 0, false, NULL);
    case RIDDOSKAM_STRICT_ARRAY:
        for (uint64_t n = field[1]; n > 0; n--) next = behind(next);
    }
    return next;
}

static bool walk(const uint8_t *path, size_t size, bool first, size_t *place) {
    size_t at = 0;
    for (size_t i = 0; i < size;) {
        size_t next, value = 0, n = (size_t)path[i] << 8 | path[i + 1];
        switch (record(at, &next)) {
        case RIDDOSKAM_LSO:
        case RIDDOSKAM_OBJECT:
        case RIDDOSKAM_ECMA_ARRAY:
        case RIDDOSKAM_TYPED_OBJECT: pairs(next, path + i + 2, n, first, &value);
        }
        if (value == 0) return false;
        at = value;
        i += 2 + n;
    }
    *place = at;
    return true;
}

static void read_paths(const char *name) {
    char line[256];
    FILE *file = fopen(name, "r");
    if (!file) die("the paths can't be read");
    for (; path_count < PATHS && fgets(line, sizeof line, file); path_count++) {
        uint8_t *path = paths[path_count];
        size_t n = 0;
        for (char *key = strtok(line, "\t\n"); key; key = strtok(NULL, "\t\n")) {
            size_t size = strlen(key);
            path[n] = 0, path[n + 1] = (uint8_t)size;
            memcpy(path + n + 2, key, size);
            n += 2 + size;
        }
        path_length[path_count] = n;
    }
    fclose(file);
}

static bool found(char call, size_t i, size_t *place) {
    if (call == 'f') return riddoskam_find(image, made, text, length, table, room, paths[i], path_length[i], place);
    return walk(paths[i], path_length[i], call == '1', place);
}

static void parse(void) {
    size_t used;
    bool file = length > 1 && text[0] == 0 && text[1] == 0xBF;
    uint8_t answer = (file ? riddoskam_lso_parse : riddoskam_parse_single_element)(text, length, image, 3 * length, &used, &made);
    if (answer != RIDDOSKAM_ACCEPTED) die("the file is refused");
}

int main(int words, char **word) {
    size_t keys = 0, place = 0, other = 0;
    if (words < 4) die("a word is missing");
    FILE *file = fopen(word[3], "rb");
    if (!file) die("the file can't be read");
    length = fread(text, 1, sizeof text, file);
    if (length > RIDDOSKAM_LIMIT_BYTES) die("the file is too long");
    fclose(file);
    if (words > 4) read_paths(word[4]);
    char call = strcmp(word[1], "first") == 0 ? '1' : word[1][0];
    parse();
    room = 2 * made;
    if (riddoskam_index(image, made, text, length, table, room, &keys) != RIDDOSKAM_ACCEPTED) die("there is no index");
    for (size_t i = 0; i < path_count; i++)
        if (!found('f', i, &place) || !found('l', i, &other) || place != other) die("the index and the walk differ");
    for (int times = atoi(word[2]); times > 0; times--) {
        if (call == 'r') parse();
        else if (call == 'i') riddoskam_index(image, made, text, length, table, room, &keys);
        else
            for (size_t i = 0; i < path_count; i++) found(call, i, &place);
    }
    printf("%zu\n", keys);
}
