// The refusals, across the border: each call answers its number, its place and its tag, and leaves the room or the lists that
// it was lent all zeros, whatever stood there before. The signer, which names a container as well, is also tried where it finds
// a certificate, the call for many FASC-N where it fills its list, and the calls of a folder where they are done: what they are
// lent as a state, a refusal leaves as it was.
// tests/linking runs it. It prints a line for each answer that is not as it should be, and then the count of calls; the exit
// status is 0 only if all are right.
#include <inttypes.h>
#include <stdio.h>
#include <string.h>

#include "prosianek.h"

enum { TODAY = 20260301, STALE = 0xAA };

// What is no date.
enum { NO_DATES = 4 };
static const uint64_t no_dates[NO_DATES] = {0, 20260229, 100000101, UINT64_MAX};

// A card holder identifier that conforms: the desk's case R, samples/chuid.bin.
static const uint8_t chuid[61] = {
    0x53, 0x3B, 0x30, 0x19, 0xD4, 0x11, 0x92, 0x58, 0x21, 0x0C, 0x2C, 0x10, 0x84, 0x21, 0xAD, 0xA1,
    0x68, 0x58, 0x21, 0x08, 0x42, 0x10, 0x84, 0x3C, 0x84, 0x11, 0x92, 0x43, 0xEB, 0x34, 0x10, 0x01,
    0x01, 0x01, 0x01, 0x01, 0x01, 0x40, 0x00, 0x80, 0x01, 0x01, 0x01, 0x01, 0x01, 0x01, 0x01, 0x35,
    0x08, 0x32, 0x30, 0x33, 0x30, 0x30, 0x31, 0x33, 0x31, 0x3E, 0x00, 0xFE, 0x00,
};
enum { FASCN_AT = 4, SHEET_BYTES = 67 };

// The least certificate as the containers of kinds 8 to 11 hold it: a SEQUENCE of three empty items. The same with an item at
// level 9.
static const uint8_t certificate[17] = {
    0x53, 0x0F, 0x70, 0x08, 0x30, 0x06, 0x05, 0x00, 0x05, 0x00, 0x05, 0x00, 0x71, 0x01, 0x00, 0xFE, 0x00,
};
static const uint8_t too_deep[31] = {
    0x53, 0x1D, 0x70, 0x16, 0x30, 0x14, 0x30, 0x0E, 0x30, 0x0C, 0x30, 0x0A, 0x30, 0x08, 0x30, 0x06,
    0x30, 0x04, 0x30, 0x02, 0x05, 0x00, 0x05, 0x00, 0x05, 0x00, 0x71, 0x01, 0x00, 0xFE, 0x00,
};

// A discovery object that conforms. Its second tag, at 15, has two bytes.
static const uint8_t discovery[20] = {
    0x7E, 0x12, 0x4F, 0x0B, 0xA0, 0x00, 0x00, 0x03, 0x08, 0x00, 0x00, 0x10, 0x00, 0x01, 0x00, 0x5F, 0x2F, 0x02, 0x40, 0x00,
};

// Printed information that conforms: the date 2030JAN31 in 04, which stands at 6, and an issuer of fifteen bytes. The same with
// the date in eight digits.
static const uint8_t printed[38] = {
    0x53, 0x24, 0x01, 0x00, 0x02, 0x00, 0x04, 0x09, '2', '0', '3', '0', 'J', 'A', 'N', '3', '1', 0x05, 0x00, 0x06, 0x0F, 'I',
    'S', 'S', 'U', 'E', 'R', '-', 'A', 'B', 'C', 'D', 'E', 'F', 'G', 'H', 0xFE, 0x00,
};
static const uint8_t eight_digits[37] = {
    0x53, 0x23, 0x01, 0x00, 0x02, 0x00, 0x04, 0x08, '2', '0', '3', '0', '0', '1', '3', '1', 0x05, 0x00, 0x06, 0x0F, 'I', 'S',
    'S', 'U', 'E', 'R', '-', 'A', 'B', 'C', 'D', 'E', 'F', 'G', 'H', 0xFE, 0x00,
};

// Two fingers that conform, with three points: two in the first view, which stand at 124 and 130, and one in the second, at
// 142. No two numbers of a list are the same, so that a point in another's place shows, and none of the last point's but its
// type is 0, so that one which is lost shows.
static const uint8_t fingers[155] = {
    0x53, 0x81, 0x98, 0xBC, 0x81, 0x93, 0x03, 0x0D, 0x00, 0x00, 0x00, 0x38, 0x00, 0x03, 0x00, 0x1B,
    0x02, 0x01, 0x14, 0x1A, 0x03, 0x01, 0x0A, 0x1E, 0x3B, 0x5A, 0x14, 0x1A, 0x03, 0x01, 0x0A, 0x1E,
    0x3B, 0x5A, 0x14, 0x1A, 0x03, 0x01, 0x0A, 0x1E, 0x3B, 0x5A, 0x00, 0x00, 0x08, 0x80, 0xFE, 0x4D,
    0x41, 0x4B, 0x45, 0x52, 0x00, 0x00, 0x00, 0x00, 0x00, 0x00, 0x00, 0x00, 0x00, 0x00, 0x00, 0x00,
    0x00, 0xD4, 0x11, 0x92, 0x58, 0x21, 0x0C, 0x2C, 0x10, 0x84, 0x21, 0xAD, 0xA1, 0x68, 0x58, 0x21,
    0x08, 0x42, 0x10, 0x84, 0x3C, 0x84, 0x11, 0x92, 0x43, 0xEB, 0x00, 0x00, 0x00, 0x00, 0x46, 0x4D,
    0x52, 0x00, 0x20, 0x32, 0x30, 0x30, 0x00, 0x38, 0xEE, 0xEE, 0xEE, 0xEE, 0xEE, 0xEE, 0xEE, 0xEE,
    0xEE, 0xEE, 0x00, 0xC5, 0x00, 0xC5, 0x02, 0x00, 0x02, 0x00, 0x28, 0x02, 0x40, 0x10, 0x3F, 0x22,
    0x50, 0x32, 0xBF, 0xFF, 0x3F, 0xFF, 0xB3, 0x64, 0x00, 0x00, 0x07, 0x02, 0xFE, 0x01, 0x1F, 0xFF,
    0x12, 0x34, 0x01, 0x07, 0x00, 0x00, 0x53, 0x49, 0x47, 0xFE, 0x00,
};
// The same without points.
static const uint8_t no_points[137] = {
    0x53, 0x81, 0x86, 0xBC, 0x81, 0x81, 0x03, 0x0D, 0x00, 0x00, 0x00, 0x26, 0x00, 0x03, 0x00, 0x1B,
    0x02, 0x01, 0x14, 0x1A, 0x03, 0x01, 0x0A, 0x1E, 0x3B, 0x5A, 0x14, 0x1A, 0x03, 0x01, 0x0A, 0x1E,
    0x3B, 0x5A, 0x14, 0x1A, 0x03, 0x01, 0x0A, 0x1E, 0x3B, 0x5A, 0x00, 0x00, 0x08, 0x80, 0xFE, 0x4D,
    0x41, 0x4B, 0x45, 0x52, 0x00, 0x00, 0x00, 0x00, 0x00, 0x00, 0x00, 0x00, 0x00, 0x00, 0x00, 0x00,
    0x00, 0xD4, 0x11, 0x92, 0x58, 0x21, 0x0C, 0x2C, 0x10, 0x84, 0x21, 0xAD, 0xA1, 0x68, 0x58, 0x21,
    0x08, 0x42, 0x10, 0x84, 0x3C, 0x84, 0x11, 0x92, 0x43, 0xEB, 0x00, 0x00, 0x00, 0x00, 0x46, 0x4D,
    0x52, 0x00, 0x20, 0x32, 0x30, 0x30, 0x00, 0x26, 0xEE, 0xEE, 0xEE, 0xEE, 0xEE, 0xEE, 0xEE, 0xEE,
    0xEE, 0xEE, 0x00, 0xC5, 0x00, 0xC5, 0x02, 0x00, 0x02, 0x00, 0x28, 0x00, 0x00, 0x00, 0x07, 0x02,
    0xFE, 0x00, 0x00, 0x00, 0x53, 0x49, 0x47, 0xFE, 0x00,
};

// A face that conforms, with the smallest record: its header stands at 94, the block of its one image at 108 and the image's
// information at 128. The FASC-N ends at 89, and the reserved bytes at 93.
static const uint8_t face[143] = {
    0x53, 0x81, 0x8C, 0xBC, 0x81, 0x87, 0x03, 0x0D, 0x00, 0x00, 0x00, 0x2E, 0x00, 0x01, 0x00, 0x1B,
    0x05, 0x01, 0x14, 0x1A, 0x03, 0x01, 0x0A, 0x1E, 0x3B, 0x5A, 0x14, 0x1A, 0x03, 0x01, 0x0A, 0x1E,
    0x3B, 0x5A, 0x14, 0x1A, 0x03, 0x01, 0x0A, 0x1E, 0x3B, 0x5A, 0x00, 0x00, 0x02, 0x20, 0x64, 0x00,
    0x00, 0x00, 0x00, 0x00, 0x00, 0x00, 0x00, 0x00, 0x00, 0x00, 0x00, 0x00, 0x00, 0x00, 0x00, 0x00,
    0x00, 0xD4, 0x11, 0x92, 0x58, 0x21, 0x0C, 0x2C, 0x10, 0x84, 0x21, 0xAD, 0xA1, 0x68, 0x58, 0x21,
    0x08, 0x42, 0x10, 0x84, 0x3C, 0x84, 0x11, 0x92, 0x43, 0xEB, 0x00, 0x00, 0x00, 0x00, 0x46, 0x41,
    0x43, 0x00, 0x30, 0x31, 0x30, 0x00, 0x00, 0x00, 0x00, 0x2E, 0x00, 0x01, 0x00, 0x00, 0x00, 0x20,
    0x00, 0x00, 0x00, 0x00, 0x00, 0x00, 0x00, 0x00, 0x00, 0x00, 0x00, 0x00, 0x00, 0x00, 0x00, 0x00,
    0x01, 0x01, 0x01, 0x00, 0x01, 0x40, 0x01, 0x02, 0x00, 0x00, 0x00, 0x00, 0x30, 0xFE, 0x00,
};

// An iris that conforms, with the smallest record: its header stands at 94, its one representation at 110, and the fields of
// the image, which is empty, at 129.
static const uint8_t iris[165] = {
    0x53, 0x81, 0xA2, 0xBC, 0x81, 0x9D, 0x03, 0x0D, 0x00, 0x00, 0x00, 0x44, 0x00, 0x01, 0x01, 0x01,
    0x00, 0x09, 0x14, 0x1A, 0x03, 0x01, 0x0A, 0x1E, 0x3B, 0x5A, 0x14, 0x1A, 0x03, 0x01, 0x0A, 0x1E,
    0x3B, 0x5A, 0x14, 0x1A, 0x03, 0x01, 0x0A, 0x1E, 0x3B, 0x5A, 0x00, 0x00, 0x10, 0x40, 0x64, 0x00,
    0x00, 0x00, 0x00, 0x00, 0x00, 0x00, 0x00, 0x00, 0x00, 0x00, 0x00, 0x00, 0x00, 0x00, 0x00, 0x00,
    0x00, 0xD4, 0x11, 0x92, 0x58, 0x21, 0x0C, 0x2C, 0x10, 0x84, 0x21, 0xAD, 0xA1, 0x68, 0x58, 0x21,
    0x08, 0x42, 0x10, 0x84, 0x3C, 0x84, 0x11, 0x92, 0x43, 0xEB, 0x00, 0x00, 0x00, 0x00, 0x49, 0x49,
    0x52, 0x00, 0x30, 0x32, 0x30, 0x00, 0x00, 0x00, 0x00, 0x44, 0x00, 0x01, 0x00, 0x01, 0x00, 0x00,
    0x00, 0x34, 0x07, 0xEA, 0x03, 0x01, 0x0A, 0x1E, 0x3B, 0x01, 0xF4, 0x00, 0x00, 0x00, 0x00, 0x00,
    0x00, 0x00, 0x01, 0x01, 0x07, 0x0A, 0x55, 0x01, 0x20, 0x00, 0xD8, 0x08, 0x00, 0x00, 0x00, 0x00,
    0x00, 0x00, 0x00, 0x90, 0x00, 0x91, 0x00, 0x6C, 0x00, 0x6D, 0x00, 0xA0, 0x01, 0x18, 0x00, 0x00,
    0x00, 0x00, 0x30, 0xFE, 0x00,
};

// Signature blocks that the containers above get in place of their own: CMS SignedData with two certificates, with one, and
// with an item at level 16, the first certificate always at 29; then without a field of certificates, and with an empty one and
// an empty field of revocation lists behind it.
#define ID_PKCS7 0x06, 0x09, 0x2A, 0x86, 0x48, 0x86, 0xF7, 0x0D, 0x01, 0x07
#define ID_SIGNED_DATA ID_PKCS7, 0x02
#define THREE_PARTS 0x02, 0x01, 0x03, 0x31, 0x00, 0x30, 0x03, 0x06, 0x01, 0x2A
#define EIGHT_BYTES 0x30, 0x06, 0x05, 0x00, 0x05, 0x00, 0x05, 0x00
#define NINE_BYTES 0x30, 0x07, 0x02, 0x01, 0x01, 0x05, 0x00, 0x05, 0x00
static const uint8_t two_certificates[48] = {
    0x30, 0x2E, ID_SIGNED_DATA, 0xA0, 0x21, 0x30, 0x1F, THREE_PARTS, 0xA0, 0x11, NINE_BYTES, EIGHT_BYTES, 0x31, 0x00,
};
static const uint8_t one_certificate[39] = {
    0x30, 0x25, ID_SIGNED_DATA, 0xA0, 0x18, 0x30, 0x16, THREE_PARTS, 0xA0, 0x08, EIGHT_BYTES, 0x31, 0x00,
};
static const uint8_t level_16[63] = {
    0x30, 0x3D, ID_SIGNED_DATA, 0xA0, 0x30, 0x30, 0x2E, THREE_PARTS, 0xA0, 0x08, EIGHT_BYTES, 0x31, 0x18, 0x30, 0x16,
    0x30, 0x14, 0x30, 0x12, 0x30, 0x10, 0x30, 0x0E, 0x30, 0x0C, 0x30, 0x0A, 0x30, 0x08, 0x30, 0x06, 0x30, 0x04,
    0x30, 0x02, 0x05, 0x00,
};
static const uint8_t no_certificates[29] = {
    0x30, 0x1B, ID_SIGNED_DATA, 0xA0, 0x0E, 0x30, 0x0C, THREE_PARTS, 0x31, 0x00,
};
static const uint8_t empty_field[33] = {
    0x30, 0x1F, ID_SIGNED_DATA, 0xA0, 0x12, 0x30, 0x10, THREE_PARTS, 0xA0, 0x00, 0xA1, 0x00, 0x31, 0x00,
};
enum { CERTIFICATE_AT = 29 };

// No such SignedData: an item at level 17, an indefinite length, a byte behind, no SET of signers, and another type of content.
static const uint8_t level_17[65] = {
    0x30, 0x3F, ID_SIGNED_DATA, 0xA0, 0x32, 0x30, 0x30, THREE_PARTS, 0xA0, 0x08, EIGHT_BYTES, 0x31, 0x1A, 0x30, 0x18,
    0x30, 0x16, 0x30, 0x14, 0x30, 0x12, 0x30, 0x10, 0x30, 0x0E, 0x30, 0x0C, 0x30, 0x0A, 0x30, 0x08, 0x30, 0x06,
    0x30, 0x04, 0x30, 0x02, 0x05, 0x00,
};
static const uint8_t indefinite[41] = {
    0x30, 0x80, ID_SIGNED_DATA, 0xA0, 0x18, 0x30, 0x16, THREE_PARTS, 0xA0, 0x08, EIGHT_BYTES, 0x31, 0x00, 0x00, 0x00,
};
static const uint8_t byte_behind[40] = {
    0x30, 0x25, ID_SIGNED_DATA, 0xA0, 0x18, 0x30, 0x16, THREE_PARTS, 0xA0, 0x08, EIGHT_BYTES, 0x31, 0x00, 0x00,
};
static const uint8_t no_signers[37] = {
    0x30, 0x23, ID_SIGNED_DATA, 0xA0, 0x16, 0x30, 0x14, THREE_PARTS, 0xA0, 0x08, EIGHT_BYTES,
};
static const uint8_t another_type[39] = {
    0x30, 0x25, ID_PKCS7, 0x03, 0xA0, 0x18, 0x30, 0x16, THREE_PARTS, 0xA0, 0x08, EIGHT_BYTES, 0x31, 0x00,
};

static const uint8_t too_large[PROSIANEK_LARGEST_CONTAINER + 1];

// What the calls are lent. The room is longer than any size that is lent of it, so that a byte written behind it shows. The
// holder is the container, CHUID or biometric, that the signer names.
static uint8_t room[1024];
static uint64_t place, tag, beside, holder, offset, length, numbers[9];

// The five lists, which are lent as the room is, so many numbers of each: types, x, y, angles and qualities. And what they hold
// of `fingers`.
enum { LISTS = 5, ENTRIES = PROSIANEK_MOST_POINTS + 1 };
static uint64_t list[LISTS][ENTRIES], first, second;
static const uint64_t points[LISTS][3] = {{1, 2, 0}, {16, 16383, 8191}, {16162, 16383, 4660}, {80, 179, 1}, {50, 100, 7}};

// The sizes that are lent: just enough for these points, and no entries.
static const size_t enough[LISTS] = {3, 3, 3, 3, 3}, empty[LISTS];

// The list that many FASC-N are decoded into, which is lent as the room is, so many entries of it. The strings are three: the
// first and the last are good, and no two alike.
enum { STRINGS = 3, DECODED = STRINGS + 3 };
static struct prosianek_decoded decoded[DECODED];
static uint8_t strings[STRINGS * PROSIANEK_FASCN_BYTES];

static int calls, bad;

// Before each call: something stale in everything that is lent.
static void stale(void) {
    memset(room, STALE, sizeof room);
    place = tag = beside = holder = offset = length = first = second = STALE;
    for (int i = 0; i < 9; i++) numbers[i] = STALE;
    memset(decoded, STALE, sizeof decoded);
    for (int k = 0; k < LISTS; k++)
        for (int i = 0; i < ENTRIES; i++) list[k][i] = STALE;
}

static void wrong(const char *what, const char *how) {
    printf("%s: %s\n", what, how);
    bad = 1;
}

static void answers(const char *what, uint64_t number, uint64_t expected) {
    calls++;
    if (number == expected) return;
    printf("%s: number %" PRIu64 ", expected %" PRIu64 "\n", what, number, expected);
    bad = 1;
}

// What the call's verdict names: a place and a tag. Most refusals name neither.
static void names(const char *what, uint64_t where, uint64_t which) {
    if (place == where && tag == which) return;
    printf("%s: place %" PRIu64 ", tag %" PRIX64 ", expected %" PRIu64 ", %" PRIX64 "\n", what, place, tag, where, which);
    bad = 1;
}

// After a call that was lent `size` bytes: `used` bytes of output, zeros up to the size, and nothing touched behind it.
static void leaves(const char *what, size_t used, size_t size) {
    for (size_t i = used; i < size; i++)
        if (room[i] != 0) {
            wrong(what, "the room has something else than zeros");
            break;
        }
    for (size_t i = size; i < sizeof room; i++)
        if (room[i] != STALE) {
            wrong(what, "a byte behind the room was written");
            break;
        }
}

// A check that writes no sheet: a refusal, with 0 beside it, or 3 beside 0.
static void check(const char *what, uint64_t kind, uint64_t today, const uint8_t *c, size_t size, size_t lent,
                  uint64_t expected) {
    uint64_t room_number = expected == PROSIANEK_DONE ? PROSIANEK_SMALL_ROOM : PROSIANEK_DONE;
    stale();
    answers(what, prosianek_check(kind, today, c, size, room, lent, &place, &tag, &beside, &length), expected);
    names(what, 0, PROSIANEK_NO_TAG);
    if (length != 0) wrong(what, "a length");
    if (beside != room_number) wrong(what, "another number beside the verdict");
    leaves(what, 0, lent);
}

// A refusal is the same with a room that would do, and with none.
static void refuses(const char *what, uint64_t kind, uint64_t today, const uint8_t *c, size_t size, uint64_t expected) {
    check(what, kind, today, c, size, 100, expected);
    check(what, kind, today, c, size, 0, expected);
}

static void write(const char *what, uint64_t kind, uint64_t today, const uint8_t *s, size_t size, size_t lent,
                  uint64_t expected) {
    stale();
    answers(what, prosianek_write(kind, today, s, size, room, lent, &place, &tag, &length), expected);
    names(what, 0, PROSIANEK_NO_TAG);
    if (length != 0) wrong(what, "a length");
    leaves(what, 0, lent);
}

static void view(const char *what, uint64_t kind, uint64_t today, const uint8_t *c, size_t size, uint64_t element,
                 uint64_t expected) {
    stale();
    answers(what, prosianek_view(kind, today, c, size, element, &place, &tag, &offset, &length), expected);
    names(what, 0, PROSIANEK_NO_TAG);
    if (offset != 0 || length != 0) wrong(what, "an offset or a length");
}

static void report(const char *what, uint64_t kind, uint64_t today, const uint8_t *c, size_t size, size_t lent,
                   uint64_t expected) {
    stale();
    answers(what, prosianek_report(kind, today, c, size, room, lent, &length), expected);
    if (length != 0) wrong(what, "a length");
    leaves(what, 0, lent);
}

static uint64_t call_lists(uint64_t today, const uint8_t *c, size_t size, const size_t lent[LISTS]) {
    return prosianek_lists(today, c, size, list[0], lent[0], list[1], lent[1], list[2], lent[2], list[3], lent[3], list[4],
                           lent[4], &place, &tag, &first, &second);
}

// After a call that was lent so many numbers of a list: those of `count` points, zeros up to the list's own end, and nothing
// touched behind it.
static void leaves_list(const char *what, int k, size_t count, size_t size) {
    for (size_t i = 0; i < ENTRIES; i++) {
        uint64_t expected = i < count ? points[k][i] : i < size ? 0 : STALE;
        if (list[k][i] == expected) continue;
        printf("%s: entry %d of list %d is %" PRIu64 ", expected %" PRIu64 "\n", what, (int)i, k, list[k][i], expected);
        bad = 1;
        break;
    }
}

// After a call: so many points in each view, and the lists.
static void leaves_lists(const char *what, uint64_t one, uint64_t two, const size_t lent[LISTS]) {
    if (first != one || second != two) wrong(what, "other counts");
    for (int k = 0; k < LISTS; k++) leaves_list(what, k, one + two, lent[k]);
}

// Lists that are refused, with the verdict's place and tag.
static void no_lists(const char *what, uint64_t today, const uint8_t *c, size_t size, const size_t lent[LISTS],
                     uint64_t expected, uint64_t where, uint64_t which) {
    stale();
    answers(what, call_lists(today, c, size, lent), expected);
    names(what, where, which);
    leaves_lists(what, 0, 0, lent);
}

// Lists of a container that has so many points in each view.
static void lists(const char *what, const uint8_t *c, size_t size, const size_t lent[LISTS], uint64_t one, uint64_t two) {
    stale();
    answers(what, call_lists(TODAY, c, size, lent), PROSIANEK_DONE);
    names(what, 0, PROSIANEK_NO_TAG);
    leaves_lists(what, one, two, lent);
}

// Two containers for the signer: a CHUID, and a biometric with its kind.
struct pair {
    const uint8_t *chuid;
    size_t chuid_size;
    uint64_t kind;
    const uint8_t *biometric;
    size_t size;
};

static uint64_t call_signer(uint64_t today, struct pair p) {
    stale();
    return prosianek_signer(p.kind, today, p.chuid, p.chuid_size, p.biometric, p.size, &place, &tag, &holder, &offset, &length);
}

// After a call: the container that is named, and the part of it; the signer is lent no room.
static void leaves_part(const char *what, uint64_t in, uint64_t at, uint64_t bytes) {
    if (holder != in) wrong(what, "another container is named");
    if (offset != at || length != bytes) wrong(what, "another offset or length");
    leaves(what, 0, 0);
}

// A signer that is refused, with the verdict's place and tag and the container that it is about.
static void no_signer(const char *what, uint64_t today, struct pair p, uint64_t expected, uint64_t where, uint64_t which,
                      uint64_t in) {
    answers(what, call_signer(today, p), expected);
    names(what, where, which);
    leaves_part(what, in, 0, 0);
}

// A refusal that is no check's.
static void refuses_signer(const char *what, struct pair p, uint64_t expected) {
    no_signer(what, TODAY, p, expected, 0, PROSIANEK_NO_TAG, PROSIANEK_NEITHER);
}

// A certificate that is found: in which container, where, and how long.
static void finds(const char *what, struct pair p, uint64_t in, uint64_t at, uint64_t bytes) {
    answers(what, call_signer(TODAY, p), PROSIANEK_DONE);
    names(what, 0, PROSIANEK_NO_TAG);
    leaves_part(what, in, at, bytes);
}

static int is_biometric(uint64_t kind) {
    return kind == PROSIANEK_FINGERS || kind == PROSIANEK_FACE || kind == PROSIANEK_IRIS;
}

// The signer names a container that breaks a rule, too: a CHUID whatever the biometric is, and a biometric beside a CHUID that
// conforms.
static void breaks_signer(const char *what, uint64_t kind, const uint8_t *c, size_t size, uint64_t expected, uint64_t where,
                          uint64_t which) {
    const struct pair as_chuid = {c, size, PROSIANEK_FACE, face, sizeof face};
    const struct pair both_broken = {c, size, PROSIANEK_IRIS, face, sizeof face};
    const struct pair as_biometric = {chuid, sizeof chuid, kind, c, size};
    if (kind == PROSIANEK_CHUID) {
        no_signer(what, TODAY, as_chuid, expected, where, which, PROSIANEK_IN_CHUID);
        no_signer(what, TODAY, both_broken, expected, where, which, PROSIANEK_IN_CHUID);
    }
    if (is_biometric(kind)) no_signer(what, TODAY, as_biometric, expected, where, which, PROSIANEK_IN_BIOMETRIC);
}

// A container that breaks a rule: check, with a room and without one, and view all answer its number, its place and its tag.
// The view asks for an element that no container here has: what it names is not that. The lists, of FINGERS alone, are refused
// alike, those that would do and those without entries: a broken rule comes before the 3. And so is the signer.
static void breaks(const char *what, uint64_t kind, const uint8_t *c, size_t size, uint64_t expected, uint64_t where,
                   uint64_t which) {
    for (size_t lent = 0; lent <= 100; lent += 100) {
        stale();
        answers(what, prosianek_check(kind, TODAY, c, size, room, lent, &place, &tag, &beside, &length), expected);
        names(what, where, which);
        if (length != 0) wrong(what, "a length");
        if (beside != PROSIANEK_DONE) wrong(what, "a number beside a broken rule");
        leaves(what, 0, lent);
    }
    stale();
    answers(what, prosianek_view(kind, TODAY, c, size, 0x08, &place, &tag, &offset, &length), expected);
    names(what, where, which);
    if (offset != 0 || length != 0) wrong(what, "an offset or a length");
    breaks_signer(what, kind, c, size, expected, where, which);
    if (kind != PROSIANEK_FINGERS) return;
    no_lists(what, TODAY, c, size, enough, expected, where, which);
    no_lists(what, TODAY, c, size, empty, expected, where, which);
}

// The same of a container in which one byte is another.
static void breaks_at(const char *what, uint64_t kind, const uint8_t *c, size_t size, size_t at, uint8_t byte,
                      uint64_t expected, uint64_t where, uint64_t which) {
    uint8_t changed[sizeof iris];
    memcpy(changed, c, size);
    changed[at] = byte;
    breaks(what, kind, changed, size, expected, where, which);
}

// A verdict names the tag that was found, whatever should be there: 30 stands at 2, 34 at 29, 35 at 47, 3E at 57 and FE at 59.
static void elements(void) {
    const uint64_t kind = PROSIANEK_CHUID, two = PROSIANEK_DISCOVERY;
    breaks_at("a check character", kind, chuid, sizeof chuid, 28, 0xEA, PROSIANEK_BAD_FASCN, 2, 0x30);
    breaks_at("a tag 00", kind, chuid, sizeof chuid, 29, 0x00, PROSIANEK_UNKNOWN_TAG, 29, 0x00);
    breaks_at("30 twice", kind, chuid, sizeof chuid, 29, 0x30, PROSIANEK_TAG_ORDER, 29, 0x30);
    breaks_at("35 for 34", kind, chuid, sizeof chuid, 29, 0x35, PROSIANEK_MISSING_ROW, 29, 0x35);
    breaks_at("34 with 17 bytes", kind, chuid, sizeof chuid, 30, 0x11, PROSIANEK_ELEMENT_LENGTH, 29, 0x34);
    breaks_at("34 with a length of 80", kind, chuid, sizeof chuid, 30, 0x80, PROSIANEK_LENGTH_FORM, 29, 0x34);
    breaks_at("34 with a length of 85", kind, chuid, sizeof chuid, 30, 0x85, PROSIANEK_LENGTH_FORM, 29, 0x34);
    breaks_at("34 with a length of 84 01 01 01 01", kind, chuid, sizeof chuid, 30, 0x84, PROSIANEK_OVERRUN, 29, 0x34);
    breaks_at("3E past the end", kind, chuid, sizeof chuid, 58, 0x03, PROSIANEK_OVERRUN, 57, 0x3E);
    breaks_at("no FE", kind, chuid, sizeof chuid - 2, 1, 0x39, PROSIANEK_MISSING_ROW, 59, PROSIANEK_NO_TAG);
    breaks_at("another outer tag", kind, chuid, sizeof chuid, 0, 0x30, PROSIANEK_OUTER_TAG, 0, PROSIANEK_NO_TAG);
    breaks_at("an outer length of 80", kind, chuid, sizeof chuid, 1, 0x80, PROSIANEK_LENGTH_FORM, 0, PROSIANEK_NO_TAG);
    breaks_at("another outer length", kind, chuid, sizeof chuid, 1, 0x3A, PROSIANEK_OVERRUN, 0, PROSIANEK_NO_TAG);
    breaks_at("a policy", two, discovery, sizeof discovery, 18, 0x60, PROSIANEK_BAD_FIXED, 15, 0x5F2F);
    breaks_at("5F without 2F", two, discovery, sizeof discovery, 16, 0x2E, PROSIANEK_UNKNOWN_TAG, 15, 0x5F);
}

// A sheet in which one count is another one, so that its row breaks a rule: the verdict names the row.
static void row(const char *what, const uint8_t *s, size_t size, size_t at, uint8_t count, uint64_t expected, uint64_t which) {
    uint8_t changed[100];
    memcpy(changed, s, size);
    changed[at + 1] = count;
    for (size_t lent = 0; lent <= 100; lent += 100) {
        stale();
        answers(what, prosianek_write(PROSIANEK_CHUID, TODAY, changed, size, room, lent, &place, &tag, &length), expected);
        names(what, at, which);
        if (length != 0) wrong(what, "a length");
        leaves(what, 0, lent);
    }
}

// Of a sheet with all counts 0 every mandatory row is missing, and the first is named; FE's count stands at 65 of a whole one.
static void rows(const uint8_t *sheet) {
    static const uint8_t none[18];
    row("write, no rows", none, sizeof none, 2, 0, PROSIANEK_MISSING_ROW, 0x30);
    row("write, an empty 30", none, sizeof none, 2, 1, PROSIANEK_ELEMENT_LENGTH, 0x30);
    row("write, an empty EE", none, sizeof none, 0, 1, PROSIANEK_ELEMENT_LENGTH, 0xEE);
    row("write, no FE", sheet, SHEET_BYTES, 65, 0, PROSIANEK_MISSING_ROW, 0xFE);
}

// A certificate that conforms, and the same with a byte changed.
static void certificates(uint64_t kind) {
    const size_t size = sizeof certificate;
    check("check, a certificate, no room", kind, TODAY, certificate, sizeof certificate, 0, PROSIANEK_DONE);
    breaks("an item at level 9", kind, too_deep, sizeof too_deep, PROSIANEK_TOO_DEEP, 2, 0x70);
    breaks_at("a SET for a certificate", kind, certificate, size, 4, 0x31, PROSIANEK_BAD_DER, 2, 0x70);
    breaks_at("a tag of number 31", kind, certificate, size, 6, 0x1F, PROSIANEK_BAD_DER, 2, 0x70);
    breaks_at("71 of 01", kind, certificate, size, 14, 0x01, PROSIANEK_BAD_FIXED, 12, 0x71);
    view("view, no 72", kind, TODAY, certificate, sizeof certificate, 0x72, PROSIANEK_NO_ELEMENT);
}

// A printed date that conforms, and the same with a byte changed; and one of another length.
static void printed_dates(void) {
    const uint64_t kind = PROSIANEK_PRINTED;
    const size_t size = sizeof printed;
    check("check, a printed date, no room", kind, TODAY, printed, size, 0, PROSIANEK_DONE);
    breaks_at("a month jAN", kind, printed, size, 12, 'j', PROSIANEK_BAD_DATE, 6, 0x04);
    breaks_at("a month JUN with 31 days", kind, printed, size, 13, 'U', PROSIANEK_BAD_DATE, 6, 0x04);
    breaks_at("a year 2O30", kind, printed, size, 9, 'O', PROSIANEK_BAD_DATE, 6, 0x04);
    breaks("a printed date of eight digits", kind, eight_digits, sizeof eight_digits, PROSIANEK_ELEMENT_LENGTH, 6, 0x04);
}

// Two fingers that conform, and the same with a byte changed.
static void fingers_records(void) {
    const uint64_t kind = PROSIANEK_FINGERS;
    const size_t size = sizeof fingers;
    check("check, fingers, no room", kind, TODAY, fingers, size, 0, PROSIANEK_DONE);
    breaks_at("a type 3", kind, fingers, size, 124, 0xC0, PROSIANEK_BAD_MINUTIAE, 3, 0xBC);
    breaks_at("a bit before y", kind, fingers, size, 126, 0x7F, PROSIANEK_BAD_MINUTIAE, 3, 0xBC);
    breaks_at("an angle of 180", kind, fingers, size, 134, 180, PROSIANEK_BAD_MINUTIAE, 3, 0xBC);
    breaks_at("a quality of 101 in the second view", kind, fingers, size, 147, 101, PROSIANEK_BAD_MINUTIAE, 3, 0xBC);
    breaks_at("a point more than there is", kind, fingers, size, 141, 2, PROSIANEK_BAD_MINUTIAE, 3, 0xBC);
    breaks_at("a check character of fingers", kind, fingers, size, 89, 0xEA, PROSIANEK_BAD_FASCN, 3, 0xBC);
    breaks_at("no FE of fingers", kind, fingers, size - 2, 2, 0x96, PROSIANEK_MISSING_ROW, 153, PROSIANEK_NO_TAG);
    breaks("a CHUID for fingers", kind, chuid, sizeof chuid, PROSIANEK_UNKNOWN_TAG, 2, 0x30);
    breaks("a face for fingers", kind, face, sizeof face, PROSIANEK_BAD_HEADER, 3, 0xBC);
}

// Of lists that would do one is too short, whichever of the five it is.
static void one_too_short(const char *what, const size_t sizes[LISTS]) {
    for (int k = 0; k < LISTS; k++) {
        size_t lent[LISTS];
        memcpy(lent, sizes, sizeof lent);
        lent[k] = 2;
        no_lists(what, TODAY, fingers, sizeof fingers, lent, PROSIANEK_SMALL_ROOM, 0, PROSIANEK_NO_TAG);
    }
}

// The points of two fingers, in lists that are long enough, also of different lengths, and in lists that are not. Where there
// are no points, lists without entries are long enough; their pointers are not null either.
static void lists_of_points(void) {
    static const size_t different[LISTS] = {7, 3, 5, PROSIANEK_MOST_POINTS, 4}, few[LISTS] = {0, 1, 0, 2, 1};
    lists("lists, just enough", fingers, sizeof fingers, enough, 2, 1);
    lists("lists of different lengths", fingers, sizeof fingers, different, 2, 1);
    lists("lists of no points, no entries", no_points, sizeof no_points, empty, 0, 0);
    lists("lists of no points, a few entries", no_points, sizeof no_points, few, 0, 0);
    no_lists("lists, no entries", TODAY, fingers, sizeof fingers, empty, PROSIANEK_SMALL_ROOM, 0, PROSIANEK_NO_TAG);
    one_too_short("lists, one too short", enough);
    one_too_short("lists of different lengths, one too short", different);
}

// A face record that conforms, and the same with a byte changed; what is wrong in the header comes before.
static void face_records(void) {
    const uint64_t kind = PROSIANEK_FACE;
    const size_t size = sizeof face;
    check("check, a face record, no room", kind, TODAY, face, size, 0, PROSIANEK_DONE);
    breaks_at("another format of record", kind, face, size, 97, 0x20, PROSIANEK_BAD_FACE, 3, 0xBC);
    breaks_at("another version of record", kind, face, size, 101, 0x30, PROSIANEK_BAD_FACE, 3, 0xBC);
    breaks_at("a record length of one more", kind, face, size, 105, 47, PROSIANEK_BAD_FACE, 3, 0xBC);
    breaks_at("no image", kind, face, size, 107, 0, PROSIANEK_BAD_FACE, 3, 0xBC);
    breaks_at("a block of one byte less", kind, face, size, 111, 31, PROSIANEK_BAD_FACE, 3, 0xBC);
    breaks_at("a block of one byte more", kind, face, size, 111, 33, PROSIANEK_BAD_FACE, 3, 0xBC);
    breaks_at("a point without room", kind, face, size, 113, 1, PROSIANEK_BAD_FACE, 3, 0xBC);
    breaks_at("an image type 2", kind, face, size, 128, 2, PROSIANEK_BAD_FACE, 3, 0xBC);
    breaks_at("a data type 2", kind, face, size, 129, 2, PROSIANEK_BAD_FACE, 3, 0xBC);
    breaks_at("a colour space 0", kind, face, size, 134, 0, PROSIANEK_BAD_FACE, 3, 0xBC);
    breaks_at("a source type 3", kind, face, size, 135, 3, PROSIANEK_BAD_FACE, 3, 0xBC);

    uint8_t both[sizeof face];
    memcpy(both, face, size);
    both[135] = 3;
    breaks_at("a check character and a source type", kind, both, size, 89, 0xEA, PROSIANEK_BAD_FASCN, 3, 0xBC);
    breaks_at("reserved bytes and a source type", kind, both, size, 93, 1, PROSIANEK_BAD_HEADER, 3, 0xBC);
}

// The same of an iris record. Its header has an owner of its own, and knows a quality of -1.
static void iris_records(void) {
    const uint64_t kind = PROSIANEK_IRIS;
    const size_t size = sizeof iris;
    check("check, an iris record, no room", kind, TODAY, iris, size, 0, PROSIANEK_DONE);
    breaks_at("another owner of the format", kind, iris, size, 14, 0x00, PROSIANEK_BAD_HEADER, 3, 0xBC);
    breaks_at("a quality of -3", kind, iris, size, 46, 0xFD, PROSIANEK_BAD_HEADER, 3, 0xBC);
    breaks_at("another format of iris record", kind, iris, size, 97, 0x20, PROSIANEK_BAD_IRIS, 3, 0xBC);
    breaks_at("another version of iris record", kind, iris, size, 101, 0x30, PROSIANEK_BAD_IRIS, 3, 0xBC);
    breaks_at("an iris record's length of one more", kind, iris, size, 105, 69, PROSIANEK_BAD_IRIS, 3, 0xBC);
    breaks_at("no representation", kind, iris, size, 107, 0, PROSIANEK_BAD_IRIS, 3, 0xBC);
    breaks_at("a representation more than there is", kind, iris, size, 107, 2, PROSIANEK_BAD_IRIS, 3, 0xBC);
    breaks_at("a certification flag", kind, iris, size, 108, 1, PROSIANEK_BAD_IRIS, 3, 0xBC);
    breaks_at("three eyes", kind, iris, size, 109, 3, PROSIANEK_BAD_IRIS, 3, 0xBC);
    breaks_at("a representation of one byte less", kind, iris, size, 113, 51, PROSIANEK_BAD_IRIS, 3, 0xBC);
    breaks_at("captured in 2010", kind, iris, size, 115, 0xDA, PROSIANEK_BAD_IRIS, 3, 0xBC);
    breaks_at("captured in a month 13", kind, iris, size, 116, 13, PROSIANEK_BAD_IRIS, 3, 0xBC);
    breaks_at("a quality block without room", kind, iris, size, 128, 1, PROSIANEK_BAD_IRIS, 3, 0xBC);
    breaks_at("number 2 alone", kind, iris, size, 130, 2, PROSIANEK_BAD_IRIS, 3, 0xBC);
    breaks_at("an eye label 3", kind, iris, size, 131, 3, PROSIANEK_BAD_IRIS, 3, 0xBC);
    breaks_at("properties 65", kind, iris, size, 134, 0x65, PROSIANEK_BAD_IRIS, 3, 0xBC);
    breaks_at("a width of 289 with the centre of 288", kind, iris, size, 136, 0x21, PROSIANEK_BAD_IRIS, 3, 0xBC);
    breaks_at("a diameter of 281", kind, iris, size, 157, 0x19, PROSIANEK_BAD_IRIS, 3, 0xBC);

    uint8_t both[sizeof iris];
    memcpy(both, iris, size);
    both[46] = 0xFF;
    check("check, an iris of quality -1, no room", kind, TODAY, both, size, 0, PROSIANEK_DONE);
    both[134] = 0x65;
    breaks_at("a check character and properties", kind, both, size, 89, 0xEA, PROSIANEK_BAD_FASCN, 3, 0xBC);
    breaks_at("reserved bytes and properties", kind, both, size, 93, 1, PROSIANEK_BAD_HEADER, 3, 0xBC);
}

struct block {
    const uint8_t *bytes;
    size_t size;
};
// Where a CHUID's block stands: in 3E, its element before the last. That of a biometric stands before the last element, too.
enum { CHUID_BLOCK_AT = 59, LARGEST = 256 };

static size_t block_at(struct pair p) { return p.size - 2 - p.biometric[13]; }

static size_t put_block(uint8_t *to, const uint8_t *from, size_t at, struct block block) {
    memcpy(to, from, at);
    memcpy(to + at, block.bytes, block.size);
    memcpy(to + at + block.size, "\xFE\0", 2);
    return at + block.size + 2;
}

// The CHUID and the biometric of a pair with other blocks. Each length that changes has one byte: those of the CHUID and of 3E,
// at 1 and 58, and those of the biometric, of BC and of the block, at 2, 5 and 13.
static struct pair with_blocks(struct pair p, struct block of_chuid, struct block of_biometric) {
    static uint8_t c[LARGEST], b[LARGEST];
    const size_t old = p.biometric[13];
    p.chuid_size = put_block(c, chuid, CHUID_BLOCK_AT, of_chuid);
    p.size = put_block(b, p.biometric, block_at(p), of_biometric);
    c[1] = (uint8_t)(c[1] + of_chuid.size);
    c[58] = (uint8_t)of_chuid.size;
    b[2] = (uint8_t)(b[2] + of_biometric.size - old);
    b[5] = (uint8_t)(b[5] + of_biometric.size - old);
    b[13] = (uint8_t)of_biometric.size;
    p.chuid = c;
    p.biometric = b;
    return p;
}

// A pair with this or that block in each: where the certificate is found, and why not. The CHUID's block is read only where the
// biometric's has no certificate, and 29 comes before 30.
static void blocks(struct pair p) {
    const struct block two = {two_certificates, sizeof two_certificates}, one = {one_certificate, sizeof one_certificate};
    const struct block none = {no_certificates, sizeof no_certificates}, bare = {empty_field, sizeof empty_field};
    const struct block deep = {level_16, sizeof level_16};
    // the last three: cut by a byte, another SEQUENCE, and no item at all
    const struct block bad_ones[] = {
        {level_17, sizeof level_17},     {indefinite, sizeof indefinite},     {byte_behind, sizeof byte_behind},
        {no_signers, sizeof no_signers}, {another_type, sizeof another_type}, {one.bytes, one.size - 1},
        {certificate + 4, 8},            {chuid, 3},
    };
    const uint64_t here = block_at(p) + CERTIFICATE_AT, there = CHUID_BLOCK_AT + CERTIFICATE_AT;
    finds("signer, both have one", with_blocks(p, one, two), PROSIANEK_IN_BIOMETRIC, here, 9);
    finds("signer, the biometric has one", with_blocks(p, none, one), PROSIANEK_IN_BIOMETRIC, here, 8);
    finds("signer, the CHUID has one", with_blocks(p, one, none), PROSIANEK_IN_CHUID, there, 8);
    finds("signer, sixteen levels in the biometric", with_blocks(p, none, deep), PROSIANEK_IN_BIOMETRIC, here, 8);
    finds("signer, sixteen levels in the CHUID", with_blocks(p, deep, none), PROSIANEK_IN_CHUID, there, 8);
    finds("signer, an empty field", with_blocks(p, two, bare), PROSIANEK_IN_CHUID, there, 9);
    refuses_signer("signer, neither has one", with_blocks(p, none, none), PROSIANEK_NEITHER_HOLDS);
    refuses_signer("signer, two empty fields", with_blocks(p, bare, bare), PROSIANEK_NEITHER_HOLDS);
    // a biometric that conforms has no empty block, but a CHUID may
    refuses_signer("signer, an empty 3E", with_blocks(p, (struct block){chuid, 0}, none), PROSIANEK_CHUID_BLOCK);
    for (size_t i = 0; i < sizeof bad_ones / sizeof bad_ones[0]; i++) {
        const struct block no = bad_ones[i];
        finds("signer, no need of the CHUID's block", with_blocks(p, no, one), PROSIANEK_IN_BIOMETRIC, here, 8);
        refuses_signer("signer, the CHUID's block is none", with_blocks(p, no, none), PROSIANEK_CHUID_BLOCK);
        refuses_signer("signer, the biometric's block is none", with_blocks(p, one, no), PROSIANEK_BIOMETRIC_BLOCK);
        refuses_signer("signer, both blocks are none", with_blocks(p, no, no), PROSIANEK_BIOMETRIC_BLOCK);
    }

    // Another digit in the biometric's FASC-N, with the check character that it needs. That comes before the blocks.
    uint8_t changed[LARGEST];
    memcpy(changed, p.biometric, p.size);
    changed[84] = 0x22;
    changed[89] = 0xF5;
    p.biometric = changed;
    refuses_signer("signer, FASC-N differ", with_blocks(p, one, two), PROSIANEK_FASCN_DIFFER);
    refuses_signer("signer, FASC-N differ, no blocks", with_blocks(p, bad_ones[0], bad_ones[0]), PROSIANEK_FASCN_DIFFER);
}

// What the signer refuses before it looks at a block, in its order: the kind, the date, the CHUID, the biometric. A container
// of no bytes has a pointer that is not null, and both may be the same bytes.
static void no_pairs(struct pair p) {
    static const uint64_t kinds[] = {0, 1, 2, 3, 4, 5, 8, 9, 10, 11, 13, UINT64_MAX}, dates[] = {0, 20260229, UINT64_MAX};
    const uint64_t none = PROSIANEK_NO_TAG, in_chuid = PROSIANEK_IN_CHUID, in_biometric = PROSIANEK_IN_BIOMETRIC;
    const struct pair large = {too_large, sizeof too_large, p.kind, too_large, sizeof too_large};
    struct pair q;
    for (int i = 0; i < 12; i++) {
        q = p;
        q.kind = kinds[i];
        refuses_signer("signer, bad kind", q, PROSIANEK_UNKNOWN_KIND);
        q = large;
        q.kind = kinds[i];
        no_signer("signer, all wrong", 0, q, PROSIANEK_UNKNOWN_KIND, 0, none, PROSIANEK_NEITHER);
    }
    for (int i = 0; i < 3; i++) no_signer("signer, bad date", dates[i], large, PROSIANEK_NO_DATE, 0, none, in_chuid);
    no_signer("signer, both of 32,769 bytes", TODAY, large, PROSIANEK_LARGE_CONTAINER, 0, none, in_chuid);
    q = large;
    q.chuid_size = q.size = 0;
    no_signer("signer, no bytes at all", TODAY, q, PROSIANEK_OUTER_TAG, 0, none, in_chuid);
    q.chuid = chuid;
    q.chuid_size = sizeof chuid;
    no_signer("signer, a biometric of no bytes", TODAY, q, PROSIANEK_OUTER_TAG, 0, none, in_biometric);
    q.size = sizeof too_large;
    no_signer("signer, a biometric of 32,769 bytes", TODAY, q, PROSIANEK_LARGE_CONTAINER, 0, none, in_biometric);
    q = p;
    q.chuid = q.biometric;
    q.chuid_size = q.size;
    no_signer("signer, the biometric twice", TODAY, q, PROSIANEK_UNKNOWN_TAG, 3, 0xBC, in_chuid);
    q = p;
    q.biometric = q.chuid;
    q.size = q.chuid_size;
    no_signer("signer, the CHUID twice", TODAY, q, PROSIANEK_UNKNOWN_TAG, 2, 0x30, in_biometric);
}

static void signers(uint64_t kind, const uint8_t *c, size_t size) {
    const struct pair p = {chuid, sizeof chuid, kind, c, size};
    no_pairs(p);
    blocks(p);
}

// A piece more of a folder. This call answers nothing.
static void piece(uint64_t state[3], const uint8_t *bytes, size_t size) {
    prosianek_folder_step(state, bytes, size);
    calls++;
}

// The end of a folder whose pieces led to this state: under a date, and under what is none, which comes first.
static void ends(const char *what, const uint64_t state[3], uint64_t expected) {
    const uint64_t before[3] = {state[0], state[1], state[2]};
    answers(what, prosianek_folder_end(TODAY, state), expected);
    for (int i = 0; i < NO_DATES; i++) answers(what, prosianek_folder_end(no_dates[i], state), PROSIANEK_NO_DATE);
    if (memcmp(before, state, sizeof before) != 0) wrong(what, "the end changed the state");
}

// A folder that is gone over at once, byte by byte, and in pieces of seven with an empty one behind each.
static void folder(const char *what, const uint8_t *bytes, size_t size, uint64_t expected) {
    const size_t sizes[] = {size, 1, 7};
    for (int i = 0; i < 3; i++) {
        // a number behind the state, so that one that is written there shows
        uint64_t state[4] = {0, 0, 0, STALE};
        for (size_t at = 0; at < size; at += sizes[i]) {
            piece(state, bytes + at, size - at < sizes[i] ? size - at : sizes[i]);
            if (sizes[i] == 7) piece(state, bytes, 0);
        }
        ends(what, state, expected);
        if (state[3] != STALE) wrong(what, "a number behind the state was written");
    }
}

// What is a folder and what is none. Nothing of a container is looked at, and no kind.
static void folders(void) {
    // a count of 256 and 257 containers of kind 0, all empty; a CHUID, and a byte behind it
    enum { MOST_EMPTY = 2 + 5 * PROSIANEK_MOST_CONTAINERS };
    static uint8_t empty_ones[MOST_EMPTY + 5] = {1, 0}, order[2 + 5 + sizeof chuid + 1] = {0, 1, PROSIANEK_CHUID};
    const size_t whole = sizeof order - 1;
    const uint64_t torn = PROSIANEK_TORN_FOLDER, mad[3] = {UINT64_MAX, UINT64_MAX, UINT64_MAX};
    uint64_t state[3] = {0, 0, 0};

    folder("a folder of no bytes", empty_ones, 0, torn);
    ends("a folder of no pieces", state, torn);
    piece(state, empty_ones, 0);
    ends("a folder of an empty piece", state, torn);
    folder("a folder of one byte", empty_ones, 1, torn);
    folder("a folder of a count alone", empty_ones, 2, torn);
    folder("256 empty containers", empty_ones, MOST_EMPTY, PROSIANEK_DONE);
    folder("256 empty containers, cut", empty_ones, MOST_EMPTY - 1, torn);
    folder("256 empty containers, a byte left over", empty_ones, MOST_EMPTY + 1, torn);
    empty_ones[1] = 1;
    folder("a count of 257 alone", empty_ones, 2, torn);
    folder("a count of 257 and 256 containers", empty_ones, MOST_EMPTY, torn);
    folder("a count of 257 and as many containers", empty_ones, MOST_EMPTY + 5, torn);
    empty_ones[0] = empty_ones[1] = 0;
    folder("a count of 0", empty_ones, 2, PROSIANEK_DONE);
    folder("a count of 0, a byte left over", empty_ones, 3, torn);

    order[6] = sizeof chuid;
    memcpy(order + 7, chuid, sizeof chuid);
    folder("a CHUID", order, whole, PROSIANEK_DONE);
    for (size_t size = 0; size < whole; size++) folder("a CHUID, cut", order, size, torn);
    folder("a CHUID, a byte left over", order, sizeof order, torn);
    order[1] = 2;
    folder("a count of 2 and one CHUID", order, whole, torn);
    order[1] = 1;
    order[3] = order[4] = order[5] = order[6] = 0xFF;
    folder("a length of FFFFFFFF", order, whole, torn);

    // a state that no folder leads to
    ends("a state of large numbers", mad, torn);
    memcpy(state, mad, sizeof state);
    piece(state, order, whole);
    ends("a state of large numbers, a folder behind", state, torn);
}

// What a row is lent besides its room: the state of the summary.
struct tally {
    uint64_t good, agreement;
    uint8_t fascn[PROSIANEK_FASCN_BYTES];
};

// A state with other bytes than zeros in it.
static struct tally some_tally(void) {
    struct tally t = {STALE, 1, {0}};
    memset(t.fascn, STALE, sizeof t.fascn);
    return t;
}

static int same_tally(struct tally one, struct tally other) {
    return one.good == other.good && one.agreement == other.agreement && memcmp(one.fascn, other.fascn, sizeof one.fascn) == 0;
}

// A container of a folder: its kind, the offset of its first byte, its length as the folder has it, and what is lent of it.
struct entry {
    uint8_t kind;
    uint64_t offset, size;
    const uint8_t *bytes;
    size_t lent;
};

static uint64_t call_row(uint64_t today, struct entry e, struct tally *t, size_t lent) {
    stale();
    return prosianek_row(today, e.kind, e.offset, e.size, e.bytes, e.lent, &t->good, &t->agreement, t->fascn, room, lent,
                         &length);
}

// After a call that was lent so many bytes: this text, zeros, and nothing touched behind.
static void leaves_text(const char *what, const char *text, size_t lent) {
    const size_t used = strlen(text);
    if (length != used || memcmp(room, text, used) != 0) wrong(what, "another text, or another length");
    leaves(what, used, lent);
}

// A row that is refused: the state is as it was.
static void no_row(const char *what, uint64_t today, struct entry e, size_t lent, uint64_t expected) {
    struct tally t = some_tally();
    answers(what, call_row(today, e, &t, lent), expected);
    leaves_text(what, "", lent);
    if (!same_tally(t, some_tally())) wrong(what, "the state is another one");
}

// A row in just enough room, and in more; the state that it is lent, and the one that it leaves.
static void has_row(const char *what, struct entry e, const char *text, struct tally before, struct tally after) {
    for (size_t lent = PROSIANEK_ROW_ROOM; lent <= 100; lent += 36) {
        struct tally t = before;
        answers(what, call_row(TODAY, e, &t, lent), PROSIANEK_DONE);
        leaves_text(what, text, lent);
        if (!same_tally(t, after)) wrong(what, "the state is another one");
    }
}

// A row about a container that does not conform: the state is as it was.
static void bad_row(const char *what, struct entry e, const char *text) { has_row(what, e, text, some_tally(), some_tally()); }

// A row is refused, in this order, under what is no date, in a room under 64 bytes, and where nothing is lent of a container; of
// one that is told by its length alone nothing need be lent.
static void refused_rows(struct entry e) {
    static const size_t rooms[] = {0, PROSIANEK_ROW_ROOM - 1, PROSIANEK_ROW_ROOM};
    struct entry cut = e;
    cut.lent = 0;
    for (int k = 0; k < 3; k++)
        for (int i = 0; i < NO_DATES; i++) {
            no_row("row, bad date", no_dates[i], e, rooms[k], PROSIANEK_NO_DATE);
            no_row("row, bad date, nothing lent", no_dates[i], cut, rooms[k], PROSIANEK_NO_DATE);
        }
    for (int k = 0; k < 2; k++) {
        no_row("row, a small room", TODAY, e, rooms[k], PROSIANEK_SMALL_ROOM);
        no_row("row, a small room, nothing lent", TODAY, cut, rooms[k], PROSIANEK_SMALL_ROOM);
    }
    if (e.size <= PROSIANEK_LARGEST_CONTAINER) no_row("row, nothing lent", TODAY, cut, rooms[2], PROSIANEK_TORN_FOLDER);
}

// Up to 32,768 bytes all of the container is lent, and nothing else; above that it does not matter.
static void lent_rows(void) {
    const uint64_t largest = PROSIANEK_LARGEST_CONTAINER, torn = PROSIANEK_TORN_FOLDER;
    no_row("row, a byte less", TODAY, (struct entry){PROSIANEK_CHUID, 7, 61, chuid, 60}, 64, torn);
    no_row("row, a byte more", TODAY, (struct entry){PROSIANEK_CHUID, 7, 60, chuid, 61}, 64, torn);
    no_row("row, a byte for none", TODAY, (struct entry){PROSIANEK_CHUID, 7, 0, chuid, 1}, 64, torn);
    no_row("row, a byte less, bad kind", TODAY, (struct entry){13, 7, 61, chuid, 60}, 64, torn);
    no_row("row, 32,767 for 32,768", TODAY, (struct entry){PROSIANEK_CHUID, 7, largest, too_large, largest - 1}, 64, torn);
    no_row("row, 32,769 for 32,768", TODAY, (struct entry){PROSIANEK_CHUID, 7, largest, too_large, largest + 1}, 64, torn);
    bad_row("row, no bytes", (struct entry){PROSIANEK_CHUID, 7, 0, chuid, 0}, "2 7 0 10 0 --\n");
    bad_row("row, 32,768 bytes", (struct entry){PROSIANEK_CHUID, 7, largest, too_large, largest}, "2 7 32768 10 0 --\n");
    for (size_t lent = 0; lent <= largest + 1; lent += largest + 1) {
        const struct entry large = {PROSIANEK_CHUID, 7, largest + 1, too_large, lent};
        const struct entry no_kind = {13, 7, largest + 1, too_large, lent};
        bad_row("row, 32,769 bytes", large, "2 7 32769 4 0 --\n");
        bad_row("row, 32,769 bytes, bad kind", no_kind, "13 7 32769 1 0 --\n");
        refused_rows(large);
    }
    bad_row("row, a CHUID for 32,769 bytes", (struct entry){PROSIANEK_CHUID, 7, largest + 1, chuid, 61}, "2 7 32769 4 0 --\n");
    bad_row("row, the largest numbers", (struct entry){255, UINT64_MAX, UINT64_MAX, chuid, 0},
            "255 18446744073709551615 18446744073709551615 1 0 --\n");
    bad_row("row, kind 0", (struct entry){0, 7, 61, chuid, 61}, "0 7 61 1 0 --\n");
    bad_row("row, kind 13", (struct entry){13, 7, 61, chuid, 61}, "13 7 61 1 0 --\n");
    bad_row("row, a CHUID for fingers", (struct entry){PROSIANEK_FINGERS, 7, 61, chuid, 61}, "6 7 61 13 2 30\n");
}

// What the row of a container that conforms leaves of a state: where no FASC-N was seen before, where the same was, where another
// was, and where it is known that they differ; and where the count cannot grow.
static void tallied_rows(void) {
    const struct entry carriers[] = {
        {PROSIANEK_CHUID, 7, 61, chuid, 61},
        {PROSIANEK_FINGERS, 7, 155, fingers, 155},
        {PROSIANEK_FACE, 7, 143, face, 143},
        {PROSIANEK_IRIS, 7, 165, iris, 165},
    };
    static const char *const texts[] = {"2 7 61 0 0 --\n", "6 7 155 0 0 --\n", "7 7 143 0 0 --\n", "12 7 165 0 0 --\n"};
    const struct entry plain = {PROSIANEK_DISCOVERY, 7, 20, discovery, 20};
    const struct tally none = {0, 0, {0}}, some = some_tally();
    struct tally one = {1, 1, {0}}, after, full;
    memcpy(one.fascn, chuid + FASCN_AT, sizeof one.fascn);
    for (int i = 0; i < 4; i++) {
        has_row("row, the first FASC-N", carriers[i], texts[i], none, one);
        after = one;
        after.good = 2;
        has_row("row, the same FASC-N", carriers[i], texts[i], one, after);
        after = some;
        after.good++;
        after.agreement = 2;
        has_row("row, another FASC-N", carriers[i], texts[i], some, after);
        // any number above 1 says that they differ
        full = some;
        full.good = full.agreement = UINT64_MAX;
        has_row("row, a full count", carriers[i], texts[i], full, full);
        full.agreement = 2;
        after = full;
        full.good--;
        has_row("row, a count that is nearly full", carriers[i], texts[i], full, after);
        refused_rows(carriers[i]);
    }
    after = some;
    after.good++;
    has_row("row, no FASC-N", plain, "3 7 20 0 0 --\n", some, after);
    after = none;
    after.good = 1;
    has_row("row, no FASC-N yet", plain, "3 7 20 0 0 --\n", none, after);

    // the FASC-N of a container that breaks a rule is not looked at
    uint8_t broken[sizeof chuid];
    memcpy(broken, chuid, sizeof chuid);
    broken[sizeof chuid - 1] = 1;
    bad_row("row, a broken CHUID", (struct entry){PROSIANEK_CHUID, 7, 61, broken, 61}, "2 7 61 12 59 FE\n");
}

static void no_last(const char *what, uint64_t good, uint64_t agreement, size_t lent) {
    stale();
    answers(what, prosianek_last(good, agreement, room, lent, &length), PROSIANEK_SMALL_ROOM);
    leaves_text(what, "", lent);
}

static void has_last(const char *what, uint64_t good, uint64_t agreement, const char *text) {
    for (size_t lent = PROSIANEK_ROW_ROOM; lent <= 100; lent += 36) {
        stale();
        answers(what, prosianek_last(good, agreement, room, lent, &length), PROSIANEK_DONE);
        leaves_text(what, text, lent);
    }
}

static void last_lines(void) {
    no_last("last, no room", 3, 1, 0);
    no_last("last, a room of 63", 3, 1, PROSIANEK_ROW_ROOM - 1);
    no_last("last, a room of 63, large numbers", UINT64_MAX, UINT64_MAX, PROSIANEK_ROW_ROOM - 1);
    has_last("last, nothing seen", 0, 0, "good 0\nagree yes\n");
    has_last("last, all alike", 256, 1, "good 256\nagree yes\n");
    has_last("last, two differ", 2, 2, "good 2\nagree no\n");
    has_last("last, large numbers", UINT64_MAX, UINT64_MAX, "good 18446744073709551615\nagree no\n");
}

static void decode(const char *what, const uint8_t *bytes, size_t size) {
    stale();
    answers(what, prosianek_fascn_decode(bytes, size, numbers), PROSIANEK_BAD_FASCN);
    for (int i = 0; i < 9; i++)
        if (numbers[i] != 0) wrong(what, "a number that is not 0");
}

// The first `size` bytes of the strings into a list of so many entries. What is filled holds what the first reader answers of each
// string alone, then come zeros up to the list's end, and nothing is touched behind it; a refusal fills nothing.
static void by_table(const char *what, size_t size, size_t lent, uint64_t expected) {
    const size_t bytes = PROSIANEK_FASCN_BYTES, filled = expected == PROSIANEK_DONE ? size / bytes : 0;
    stale();
    answers(what, prosianek_fascn_decode_by_table(strings, size, decoded, lent), expected);
    for (size_t i = 0; i < DECODED; i++) {
        struct prosianek_decoded entry;
        memset(&entry, i < lent ? 0 : STALE, sizeof entry);
        if (i < filled) entry.number = prosianek_fascn_decode(strings + bytes * i, bytes, entry.numbers);
        if (memcmp(&decoded[i], &entry, sizeof entry) == 0) continue;
        printf("%s: entry %d is not as it should be\n", what, (int)i);
        bad = 1;
    }
}

// Lists for no strings, for one and for more: the strings that are filled in, and all that is refused, with lists that would do
// and with shorter ones. Bytes left over come before a short list.
static void many_at_once(void) {
    const size_t bytes = PROSIANEK_FASCN_BYTES;
    static const uint64_t last[9] = {9999, 9999, 999999, 9, 9, 9999999999, 9, 9999, 9};
    memcpy(strings, chuid + FASCN_AT, bytes);
    memcpy(strings + bytes, chuid + FASCN_AT, bytes);
    strings[bytes + 7] ^= 0x10;
    answers("encode", prosianek_fascn_encode(last, strings + 2 * bytes, bytes), PROSIANEK_DONE);
    decode("decode, the second string", strings + bytes, bytes);

    for (size_t n = 0; n <= STRINGS; n++) {
        for (size_t more = 0; more < 3; more++) by_table("decode by table", bytes * n, n + more, PROSIANEK_DONE);
        for (size_t lent = 0; lent < n; lent++) by_table("decode by table, a short list", bytes * n, lent, PROSIANEK_SMALL_ROOM);
    }
    for (size_t n = 0; n < STRINGS; n++)
        for (size_t over = 1; over < bytes; over++)
            for (size_t lent = 0; lent < DECODED; lent++)
                by_table("decode by table, bytes left over", bytes * n + over, lent, PROSIANEK_BAD_FASCN);
}

static void encode(const char *what, const uint64_t n[9], size_t lent, uint64_t expected) {
    stale();
    answers(what, prosianek_fascn_encode(n, room, lent), expected);
    leaves(what, 0, lent);
}

int main(void) {
    // A sheet to write from. This call succeeds, and leaves zeros after the sheet.
    static uint8_t sheet[SHEET_BYTES + 1];
    stale();
    answers("check", prosianek_check(PROSIANEK_CHUID, TODAY, chuid, sizeof chuid, room, 100, &place, &tag, &beside, &length),
            PROSIANEK_DONE);
    names("check", 0, PROSIANEK_NO_TAG);
    if (beside != PROSIANEK_DONE || length != SHEET_BYTES) wrong("check", "not the sheet's length");
    leaves("check", SHEET_BYTES, 100);
    memcpy(sheet, room, SHEET_BYTES);

    static const uint64_t kinds[] = {0, 13, UINT64_MAX};
    for (int i = 0; i < 3; i++) {
        refuses("check, bad kind", kinds[i], TODAY, chuid, sizeof chuid, PROSIANEK_UNKNOWN_KIND);
        write("write, bad kind", kinds[i], TODAY, sheet, SHEET_BYTES, 100, PROSIANEK_UNKNOWN_KIND);
        view("view, bad kind", kinds[i], TODAY, chuid, sizeof chuid, 0x30, PROSIANEK_UNKNOWN_KIND);
        report("report, bad kind", kinds[i], TODAY, chuid, sizeof chuid, 512, PROSIANEK_UNKNOWN_KIND);
    }

    for (int i = 0; i < NO_DATES; i++) {
        refuses("check, bad date", PROSIANEK_CHUID, no_dates[i], chuid, sizeof chuid, PROSIANEK_NO_DATE);
        write("write, bad date", PROSIANEK_CHUID, no_dates[i], sheet, SHEET_BYTES, 100, PROSIANEK_NO_DATE);
        view("view, bad date", PROSIANEK_CHUID, no_dates[i], chuid, sizeof chuid, 0x30, PROSIANEK_NO_DATE);
        report("report, bad date", PROSIANEK_CHUID, no_dates[i], chuid, sizeof chuid, 512, PROSIANEK_NO_DATE);
        no_lists("lists, bad date", no_dates[i], fingers, sizeof fingers, enough, PROSIANEK_NO_DATE, 0, PROSIANEK_NO_TAG);
        no_lists("lists, bad date, empty", no_dates[i], fingers, sizeof fingers, empty, PROSIANEK_NO_DATE, 0, PROSIANEK_NO_TAG);
    }

    // Rooms one byte too small, and of no bytes at all: the pointer is not null there either. A check's 3 stands beside its 0.
    report("report, a room of 511", PROSIANEK_CHUID, TODAY, chuid, sizeof chuid, 511, PROSIANEK_SMALL_ROOM);
    report("report, no room", PROSIANEK_CHUID, TODAY, chuid, sizeof chuid, 0, PROSIANEK_SMALL_ROOM);
    check("check, a small room", PROSIANEK_CHUID, TODAY, chuid, sizeof chuid, SHEET_BYTES - 1, PROSIANEK_DONE);
    check("check, no room", PROSIANEK_CHUID, TODAY, chuid, sizeof chuid, 0, PROSIANEK_DONE);
    write("write, a small room", PROSIANEK_CHUID, TODAY, sheet, SHEET_BYTES, sizeof chuid - 1, PROSIANEK_SMALL_ROOM);
    write("write, no room", PROSIANEK_CHUID, TODAY, sheet, SHEET_BYTES, 0, PROSIANEK_SMALL_ROOM);

    // A container of no bytes has no outer tag; one of 32,769 is too large.
    refuses("check, no bytes", PROSIANEK_CHUID, TODAY, chuid, 0, PROSIANEK_OUTER_TAG);
    no_lists("lists, no bytes", TODAY, fingers, 0, enough, PROSIANEK_OUTER_TAG, 0, PROSIANEK_NO_TAG);
    refuses("check, 32,769 bytes", PROSIANEK_CHUID, TODAY, too_large, sizeof too_large, PROSIANEK_LARGE_CONTAINER);
    view("view, 32,769 bytes", PROSIANEK_CHUID, TODAY, too_large, sizeof too_large, 0x30, PROSIANEK_LARGE_CONTAINER);
    report("report, 32,769 bytes", PROSIANEK_CHUID, TODAY, too_large, sizeof too_large, 512, PROSIANEK_LARGE_CONTAINER);
    no_lists("lists, 32,769 bytes", TODAY, too_large, sizeof too_large, empty, PROSIANEK_LARGE_CONTAINER, 0, PROSIANEK_NO_TAG);

    // A report's refusals in their order: the kind, the date, the room, the container.
    report("report, all four wrong", 13, 0, too_large, sizeof too_large, 511, PROSIANEK_UNKNOWN_KIND);
    report("report, all but the kind wrong", PROSIANEK_CHUID, 0, too_large, sizeof too_large, 511, PROSIANEK_NO_DATE);
    report("report, room and size wrong", PROSIANEK_CHUID, TODAY, too_large, sizeof too_large, 511, PROSIANEK_SMALL_ROOM);

    write("write, a sheet cut short", PROSIANEK_CHUID, TODAY, sheet, SHEET_BYTES - 1, 100, PROSIANEK_TORN_SHEET);
    write("write, a byte left over", PROSIANEK_CHUID, TODAY, sheet, SHEET_BYTES + 1, 100, PROSIANEK_TORN_SHEET);
    write("write, no sheet", PROSIANEK_CHUID, TODAY, sheet, 0, 100, PROSIANEK_TORN_SHEET);

    // EE is optional and absent here; BC is of another kind.
    view("view, absent", PROSIANEK_CHUID, TODAY, chuid, sizeof chuid, 0xEE, PROSIANEK_NO_ELEMENT);
    view("view, of another kind", PROSIANEK_CHUID, TODAY, chuid, sizeof chuid, 0xBC, PROSIANEK_NO_ELEMENT);
    view("view, no tag at all", PROSIANEK_CHUID, TODAY, chuid, sizeof chuid, UINT64_MAX, PROSIANEK_NO_ELEMENT);

    elements();
    rows(sheet);
    printed_dates();
    fingers_records();
    lists_of_points();
    face_records();
    iris_records();
    signers(PROSIANEK_FINGERS, no_points, sizeof no_points);
    signers(PROSIANEK_FACE, face, sizeof face);
    signers(PROSIANEK_IRIS, iris, sizeof iris);
    for (uint64_t kind = PROSIANEK_PIVAUTH; kind <= PROSIANEK_CARDAUTH; kind++) certificates(kind);
    folders();
    lent_rows();
    tallied_rows();
    last_lines();

    // Each of the nine numbers with one digit too many; that comes before the room.
    static const uint64_t limits[9] = {10000, 10000, 1000000, 10, 10, 10000000000, 10, 10000, 10};
    for (int i = 0; i < 9; i++) {
        uint64_t n[9] = {1234, 1, 5, 1, 1, 7, 1, 1234, 1};
        n[i] = limits[i];
        encode("encode, too large a number", n, 25, PROSIANEK_LONG_NUMBER);
        encode("encode, too large a number, a small room", n, 24, PROSIANEK_LONG_NUMBER);
        n[i] = limits[i] - 1;
        encode("encode, a room of 24", n, 24, PROSIANEK_SMALL_ROOM);
        stale();
        answers("encode", prosianek_fascn_encode(n, room, 30), PROSIANEK_DONE);
        leaves("encode", PROSIANEK_FASCN_BYTES, 30);
        answers("decode", prosianek_fascn_decode(room, PROSIANEK_FASCN_BYTES, numbers), PROSIANEK_DONE);
        if (memcmp(n, numbers, sizeof n) != 0) wrong("decode", "not the numbers that were encoded");
    }

    decode("decode, 24 bytes", chuid + FASCN_AT, 24);
    decode("decode, 26 bytes", chuid + FASCN_AT, 26);
    decode("decode, other bytes", chuid, 25);
    decode("decode, no bytes", chuid, 0);
    many_at_once();

    printf("%d calls\n", calls);
    return bad;
}
