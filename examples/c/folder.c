// folder TODAY FILE: goes through an order's folder, which is one file of containers, and prints its summary under the date
// TODAY, or `refused N`. examples/rust/folder.rs prints the same text.
//
// The folder is read twice, as the header says of its calls: in pieces, to see that it is one, and then container by container.
// So it is no pipe, and has to stay as it is meanwhile. It may be of any size: what is kept of it is one container at a time,
// and the text, which is printed only when it is whole.
//
// Exit status: 0 for a summary, whatever stands in it; 1 for `refused N`; 2 for bad words, a file that cannot be read twice, or
// text that cannot be written.
#include <inttypes.h>
#include <stdio.h>
#include <stdlib.h>
#include <string.h>

#include "prosianek.h"

// The bytes of the count, and those of a kind with a length.
enum { COUNT_BYTES = 2, HEAD_BYTES = 5 };

// A piece of the folder, or a container; and the summary, where each row gets a room behind the rows before it, and so do the
// last lines.
static uint8_t bytes[PROSIANEK_LARGEST_CONTAINER];
static uint8_t summary[(PROSIANEK_MOST_CONTAINERS + 1) * PROSIANEK_ROW_ROOM];

// How far the second time through is: the offset of the next container's first byte, the length of the text so far, and the
// state that goes from row to row. Its FASC-N is personal, and is not printed.
struct going {
    uint64_t offset, length, good, agreement;
    uint8_t fascn[PROSIANEK_FASCN_BYTES];
};

// A word of digits. strtoull alone would take signs and spaces too.
static int number_of(const char *word, uint64_t *number) {
    size_t digits = strspn(word, "0123456789");
    if (digits == 0 || digits > 19 || word[digits] != '\0') return 0;
    *number = strtoull(word, NULL, 10);
    return 1;
}

static void stop(const char *name) {
    fprintf(stderr, "the file '%s' cannot be read, or not twice\n", name);
    exit(2);
}

// The number that stands in so many bytes, the high byte first.
static uint64_t number_in(const uint8_t *from, size_t size) {
    uint64_t number = 0;
    for (size_t i = 0; i < size; i++) number = number * 256 + from[i];
    return number;
}

// The first time: over the folder, in pieces. 0 if it is one, or the number of the refusal.
static uint64_t go_over(FILE *file, uint64_t today) {
    uint64_t state[3] = {0, 0, 0};
    size_t got;
    while ((got = fread(bytes, 1, sizeof bytes, file)) > 0) prosianek_folder_step(state, bytes, got);
    return prosianek_folder_end(today, state);
}

// The next container and its row: 0, or the number of a refusal. One that is too long to be looked at is not read, and nothing
// of it is lent. Where the file has become shorter meanwhile, fewer bytes are lent than the folder says, which is refused.
static uint64_t add_row(FILE *file, const char *name, uint64_t today, struct going *g) {
    uint8_t head[HEAD_BYTES];
    uint64_t length;
    size_t lent = 0;
    if (fread(head, 1, sizeof head, file) != sizeof head) return PROSIANEK_TORN_FOLDER;
    const uint64_t size = number_in(head + 1, HEAD_BYTES - 1);
    if (size <= sizeof bytes)
        lent = fread(bytes, 1, size, file);
    else if (fseek(file, (long)size, SEEK_CUR) != 0)
        stop(name);
    uint64_t number = prosianek_row(today, head[0], g->offset, size, bytes, lent, &g->good, &g->agreement, g->fascn,
                                    summary + g->length, PROSIANEK_ROW_ROOM, &length);
    g->offset += size + HEAD_BYTES;
    g->length += length;
    return number;
}

// The second time: a row for each container, and the last lines. 0, or the number of a refusal. The count is tested again,
// since there is no room for more rows, whatever became of the file.
static uint64_t go_through(FILE *file, const char *name, uint64_t today, struct going *g) {
    uint8_t head[COUNT_BYTES];
    uint64_t length;
    if (fseek(file, 0, SEEK_SET) != 0) stop(name);
    if (fread(head, 1, sizeof head, file) != sizeof head) return PROSIANEK_TORN_FOLDER;
    const uint64_t count = number_in(head, sizeof head);
    if (count > PROSIANEK_MOST_CONTAINERS) return PROSIANEK_TORN_FOLDER;
    for (uint64_t i = 0; i < count; i++) {
        uint64_t number = add_row(file, name, today, g);
        if (number != PROSIANEK_DONE) return number;
    }
    uint64_t number = prosianek_last(g->good, g->agreement, summary + g->length, PROSIANEK_ROW_ROOM, &length);
    g->length += length;
    return number;
}

int main(int count, char **words) {
    uint64_t today;
    if (count != 3 || !number_of(words[1], &today)) {
        fprintf(stderr, "folder TODAY FILE\n");
        return 2;
    }
    FILE *file = fopen(words[2], "rb");
    if (file == NULL) stop(words[2]);
    // the state is zeros before the first row
    struct going g = {.offset = COUNT_BYTES + HEAD_BYTES};
    uint64_t number = go_over(file, today);
    if (number == PROSIANEK_DONE && !ferror(file)) number = go_through(file, words[2], today, &g);
    // what was read of a file with an error in it is no folder, and no summary
    if (ferror(file)) stop(words[2]);
    fclose(file);
    if (number == PROSIANEK_DONE)
        fwrite(summary, 1, g.length, stdout);
    else
        printf("refused %" PRIu64 "\n", number);
    if (fflush(stdout) != 0 || ferror(stdout)) {
        fprintf(stderr, "not all could be written\n");
        return 2;
    }
    return number != PROSIANEK_DONE;
}
