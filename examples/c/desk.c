// desk KIND TODAY FILE [CHUID]: all calls on the container in a file. It prints the desk report, an empty line, and then what
// each of the other calls says. With the file of the CHUID of the same card it also looks for the certificate of who signed the
// container, which has to be a biometric: kind 6, 7 or 12. examples/rust/desk.rs prints the same text.
//
// What it prints of a card is open by the desk's rules: tags, lengths, agency and system. The sheet, the other seven numbers of
// a FASC-N, and the points of a FINGERS container are personal, so it only says that they came back. It does not say how many
// points there are either: no length in the report tells that, since the signature behind them may have any length.
//
// The line `signer`, which only stands there where a CHUID is named, is the exception. It has nothing of the certificate, nor
// where it starts or how long it is; but it tells which of the two containers holds it, or why there is none, and no report
// tells that much of a card. This is an example for an engineer, and not the desk, which never makes that call.
//
// Exit status, as that of the desk: 0 if the container conforms; 1 if it breaks a rule, the report or the certificate is
// refused, or the calls disagree; 2 for bad words, a file that cannot be read whole, or text that cannot be written.
#include <inttypes.h>
#include <stdio.h>
#include <stdlib.h>
#include <string.h>

#include "prosianek.h"

// The tag of the element of each kind that is viewed.
static const uint64_t tags[] = {
    [PROSIANEK_CCC] = 0xF5,      [PROSIANEK_CHUID] = 0x30,    [PROSIANEK_DISCOVERY] = 0x5F2F, [PROSIANEK_PRINTED] = 0x06,
    [PROSIANEK_SECURITY] = 0xBA, [PROSIANEK_FINGERS] = 0xBC,  [PROSIANEK_FACE] = 0xBC,        [PROSIANEK_PIVAUTH] = 0x70,
    [PROSIANEK_DIGSIG] = 0x70,   [PROSIANEK_KEYMGMT] = 0x70,  [PROSIANEK_CARDAUTH] = 0x70,    [PROSIANEK_IRIS] = 0xBC,
};

// The element of a CHUID with its signature. That of a biometric is the end of BC, which is viewed.
enum { CHUID_SIGNATURE = 0x3E };

// The rooms are as large as any answer, so that no call here is refused for its room. That of a file has one byte more: one
// that is too large is then refused by the calls, and not cut here.
enum { FILE_ROOM = PROSIANEK_LARGEST_CONTAINER + 1 };
static uint8_t container[FILE_ROOM], chuid[FILE_ROOM];
static uint8_t sheet[PROSIANEK_SHEET_ROOM];
static uint8_t written[PROSIANEK_LARGEST_CONTAINER];
static uint8_t again[PROSIANEK_SHEET_ROOM];
static uint8_t report[PROSIANEK_REPORT_ROOM];

// The lists are as long as any answer, too. Entry i of each is a number of point i.
static uint64_t types[PROSIANEK_MOST_POINTS], xs[PROSIANEK_MOST_POINTS], ys[PROSIANEK_MOST_POINTS];
static uint64_t angles[PROSIANEK_MOST_POINTS], qualities[PROSIANEK_MOST_POINTS];

// Where the views stand in the value of BC: the byte with the first one's count is there, and its points follow. Between a
// view's last point and the next view's count are five bytes.
enum { FIRST_COUNT = 117, POINT_BYTES = 6, BETWEEN_VIEWS = 5 };

// A word of digits. strtoull alone would take signs and spaces too.
static int number_of(const char *word, uint64_t *number) {
    size_t digits = strspn(word, "0123456789");
    if (digits == 0 || digits > 19 || word[digits] != '\0') return 0;
    *number = strtoull(word, NULL, 10);
    return 1;
}

struct verdict {
    uint64_t number, place, tag;
};

static int same(struct verdict one, struct verdict other) {
    return one.number == other.number && one.place == other.place && one.tag == other.tag;
}

// Two hyphens stand for no tag, as in the report.
static void print_verdict(const char *call, struct verdict v) {
    printf("%s: number %" PRIu64 ", place %" PRIu64 ", tag ", call, v.number, v.place);
    if (v.tag == PROSIANEK_NO_TAG)
        printf("--");
    else
        printf("%02" PRIX64, v.tag);
}

static void refused(const char *call, struct verdict v) {
    print_verdict(call, v);
    printf("\n");
}

// Decodes a FASC-N by the second reader, which is for many of them and is handed this one alone; whether it reads the numbers
// that the first one did.
static int by_table(const uint8_t *fascn, size_t size, const uint64_t numbers[9]) {
    struct prosianek_decoded list[1];
    uint64_t number = prosianek_fascn_decode_by_table(fascn, size, list, 1);
    if (number != PROSIANEK_DONE) {
        refused("decode by table", (struct verdict){number, 0, PROSIANEK_NO_TAG});
        return 0;
    }
    int alike = list[0].number == PROSIANEK_DONE && memcmp(list[0].numbers, numbers, sizeof list[0].numbers) == 0;
    printf("decode by table: %s numbers\n", alike ? "the same" : "other");
    return alike;
}

// Decodes a FASC-N, by both readers, and encodes it again; whether they say the same and it came back.
static int there_and_back(const uint8_t *fascn, size_t size) {
    uint64_t numbers[9];
    uint8_t room[PROSIANEK_FASCN_BYTES];
    uint64_t number = prosianek_fascn_decode(fascn, size, numbers);
    if (number != PROSIANEK_DONE) {
        refused("decode", (struct verdict){number, 0, PROSIANEK_NO_TAG});
        return 0;
    }
    printf("decode: agency %04" PRIu64 ", system %04" PRIu64 "\n", numbers[0], numbers[1]);
    int alike = by_table(fascn, size, numbers);
    number = prosianek_fascn_encode(numbers, room, sizeof room);
    if (number != PROSIANEK_DONE) {
        refused("encode", (struct verdict){number, 0, PROSIANEK_NO_TAG});
        return 0;
    }
    if (size != sizeof room || memcmp(room, fascn, sizeof room) != 0) {
        printf("encode: the FASC-N did not come back\n");
        return 0;
    }
    printf("encode: the FASC-N came back byte for byte\n");
    return alike;
}

// Whether the container that was written has the sheet that it was written from.
static int same_sheet(uint64_t kind, uint64_t today, size_t sheet_length, size_t size) {
    uint64_t place, tag, room, length;
    uint64_t number = prosianek_check(kind, today, written, size, again, sizeof again, &place, &tag, &room, &length);
    return number == PROSIANEK_DONE && length == sheet_length && memcmp(again, sheet, sheet_length) == 0;
}

// Writes the container of the sheet; whether it is the one that the sheet was read from. A container with a length in a longer
// form than it needs comes back in fewer bytes: each length is written in the fewest.
static int written_back(uint64_t kind, uint64_t today, size_t sheet_length, size_t size) {
    struct verdict v;
    uint64_t length;
    v.number = prosianek_write(kind, today, sheet, sheet_length, written, sizeof written, &v.place, &v.tag, &length);
    if (v.number != PROSIANEK_DONE) {
        refused("write", v);
        return 0;
    }
    if (length == size && memcmp(written, container, size) == 0) {
        printf("write: the container came back byte for byte\n");
        return 1;
    }
    if (length < size && same_sheet(kind, today, sheet_length, length)) {
        printf("write: the container came back in %" PRIu64 " bytes, the fewest\n", length);
        return 1;
    }
    printf("write: the container did not come back\n");
    return 0;
}

// The file's bytes, as many as there is room for; whether all were read that there are. Where not, it says so.
static int read_file(const char *name, uint8_t room[FILE_ROOM], size_t *size) {
    FILE *file = fopen(name, "rb");
    int whole = 0;
    if (file != NULL) {
        *size = fread(room, 1, FILE_ROOM, file);
        whole = !ferror(file);
        fclose(file);
    }
    if (!whole) fprintf(stderr, "the file '%s' cannot be read\n", name);
    return whole;
}

// Views an element; whether the answer fits the check's. A container that breaks a rule has no values to view: the view then
// answers as the check does.
static int viewed(uint64_t kind, uint64_t today, size_t size, struct verdict said) {
    struct verdict v;
    uint64_t offset, length;
    // The kind is one of the twelve here, or the report would have been refused.
    v.number = prosianek_view(kind, today, container, size, tags[kind], &v.place, &v.tag, &offset, &length);
    if (v.number != PROSIANEK_DONE) {
        refused("view", v);
        return same(v, said);
    }
    printf("view: tag %02" PRIX64 " has %" PRIu64 " bytes at %" PRIu64 "\n", tags[kind], length, offset);
    if (kind == PROSIANEK_CHUID && !there_and_back(container + offset, length)) return 0;
    return same(v, said);
}

// Whether point i, put back, is these six bytes. Whole numbers are compared, so that none is cut to a byte.
static int same_point(const uint8_t *bytes, size_t i) {
    return bytes[0] * 256u + bytes[1] == types[i] * 16384 + xs[i] && bytes[2] * 256u + bytes[3] == ys[i] &&
           bytes[4] == angles[i] && bytes[5] == qualities[i];
}

// Whether so many points, from entry `from` on, put back, are the view whose count is the first of these bytes.
static int same_view(const uint8_t *view, size_t from, uint64_t count) {
    if (view[0] != count) return 0;
    for (size_t i = 0; i < count; i++)
        if (!same_point(view + 1 + POINT_BYTES * i, from + i)) return 0;
    return 1;
}

// Whether the points, put back, are the bytes of the container that they were read from.
static int put_back(uint64_t today, size_t size, uint64_t first, uint64_t second) {
    const uint64_t kind = PROSIANEK_FINGERS;
    uint64_t place, tag, offset, length;
    uint64_t number = prosianek_view(kind, today, container, size, tags[kind], &place, &tag, &offset, &length);
    if (number != PROSIANEK_DONE) return 0;
    const uint8_t *view = container + offset + FIRST_COUNT;
    return same_view(view, 0, first) && same_view(view + 1 + POINT_BYTES * first + BETWEEN_VIEWS, first, second);
}

// Lists the points of a FINGERS container; whether they came back and the answer fits the check's. The call takes no kind: it
// answers as the check of this kind does, where a rule is broken.
static int listed(uint64_t today, size_t size, struct verdict said) {
    const size_t most = PROSIANEK_MOST_POINTS;
    struct verdict v;
    uint64_t first, second;
    v.number = prosianek_lists(today, container, size, types, most, xs, most, ys, most, angles, most, qualities, most, &v.place,
                               &v.tag, &first, &second);
    if (v.number != PROSIANEK_DONE) {
        refused("lists", v);
        return same(v, said);
    }
    if (!put_back(today, size, first, second)) {
        printf("lists: the points did not come back\n");
        return 0;
    }
    printf("lists: the points came back byte for byte\n");
    return same(v, said);
}

// Whether so many bytes from that offset on lie within the value of an element, as a view of it tells.
static int lies_in(uint64_t kind, uint64_t today, const uint8_t *bytes, size_t size, uint64_t element, uint64_t offset,
                   uint64_t length) {
    uint64_t place, tag, start, whole;
    uint64_t number = prosianek_view(kind, today, bytes, size, element, &place, &tag, &start, &whole);
    return number == PROSIANEK_DONE && offset >= start && length <= whole && offset - start <= whole - length;
}

// Whether a refusal of the signer fits the checks of the CHUID and of the biometric: the first of them that refuses is handed
// on, and of two that conform neither is named. 1 comes before both.
static int fits(struct verdict v, uint64_t which, struct verdict of_chuid, struct verdict of_biometric) {
    if (which == PROSIANEK_IN_CHUID) return same(v, of_chuid);
    if (which == PROSIANEK_IN_BIOMETRIC) return of_chuid.number == PROSIANEK_DONE && same(v, of_biometric);
    return v.number == PROSIANEK_UNKNOWN_KIND || (of_chuid.number == PROSIANEK_DONE && of_biometric.number == PROSIANEK_DONE);
}

static const char *name_of(uint64_t which) {
    return which == PROSIANEK_IN_CHUID ? "the CHUID" : which == PROSIANEK_IN_BIOMETRIC ? "the biometric" : "neither";
}

// Looks for the certificate of who signed the biometric; whether there is one, and it lies in the element with the signature.
// `said` is what the check says of the biometric.
static int signer(uint64_t kind, uint64_t today, size_t size, size_t chuid_size, struct verdict said) {
    struct verdict v, of_chuid;
    uint64_t which, offset, length, room;
    v.number = prosianek_signer(kind, today, chuid, chuid_size, container, size, &v.place, &v.tag, &which, &offset, &length);
    if (v.number != PROSIANEK_DONE) {
        print_verdict("signer", v);
        printf(", of %s\n", name_of(which));
        of_chuid.number = prosianek_check(PROSIANEK_CHUID, today, chuid, chuid_size, sheet, 0, &of_chuid.place, &of_chuid.tag,
                                          &room, &length);
        if (!fits(v, which, of_chuid, said)) printf("signer: the checks say otherwise\n");
        return 0;
    }
    // the certificate itself would be the `length` bytes at `offset` of that container
    int found = which == PROSIANEK_IN_CHUID
                    ? lies_in(PROSIANEK_CHUID, today, chuid, chuid_size, CHUID_SIGNATURE, offset, length)
                    : which == PROSIANEK_IN_BIOMETRIC && lies_in(kind, today, container, size, tags[kind], offset, length);
    if (found)
        printf("signer: the certificate is in %s\n", name_of(which));
    else
        printf("signer: the certificate is not in the element with the signature\n");
    return found && same(v, said);
}

// Prints what the calls say of the container; 0 if it conforms, else 1. The signer is looked for where there is a CHUID.
static int tell(uint64_t kind, uint64_t today, size_t size, const size_t *chuid_size) {
    uint64_t length;
    uint64_t number = prosianek_report(kind, today, container, size, report, sizeof report, &length);
    if (number != PROSIANEK_DONE) {
        printf("refused %" PRIu64 "\n", number);
        return 1;
    }
    fwrite(report, 1, length, stdout);
    printf("\n");

    // One call gives the verdict and the sheet, whose room is large enough for any.
    int off = 0;
    struct verdict said, again;
    uint64_t room;
    said.number = prosianek_check(kind, today, container, size, sheet, sizeof sheet, &said.place, &said.tag, &room, &length);
    if (said.number != PROSIANEK_DONE) {
        refused("check", said);
    } else if (room != PROSIANEK_DONE) {
        printf("check: conforms, without room for its sheet\n");
        off = 1;
    } else {
        printf("check: conforms, with a sheet of %" PRIu64 " bytes\n", length);
        if (!written_back(kind, today, length, size)) off = 1;
    }

    // With an empty room, whose pointer is not null either, the same call gives the verdict alone: 3 beside a 0.
    again.number = prosianek_check(kind, today, container, size, sheet, 0, &again.place, &again.tag, &room, &length);
    if (!same(again, said) || (room == PROSIANEK_SMALL_ROOM) != (said.number == PROSIANEK_DONE)) off = 1;
    if (!viewed(kind, today, size, said)) off = 1;
    if (kind == PROSIANEK_FINGERS && !listed(today, size, said)) off = 1;
    if (chuid_size != NULL && !signer(kind, today, size, *chuid_size, said)) off = 1;
    return off || said.number != PROSIANEK_DONE;
}

int main(int count, char **words) {
    uint64_t kind, today;
    size_t size, chuid_size;
    if ((count != 4 && count != 5) || !number_of(words[1], &kind) || !number_of(words[2], &today)) {
        fprintf(stderr, "desk KIND TODAY FILE [CHUID]\n");
        return 2;
    }
    // a report of half a file would be wrong
    if (!read_file(words[3], container, &size)) return 2;
    if (count == 5 && !read_file(words[4], chuid, &chuid_size)) return 2;
    int status = tell(kind, today, size, count == 5 ? &chuid_size : NULL);
    if (fflush(stdout) != 0 || ferror(stdout)) {
        fprintf(stderr, "not all could be written\n");
        return 2;
    }
    return status;
}
