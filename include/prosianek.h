// The thirteen calls of Prosianek for C and C++: PIV card data containers (SP 800-73-4) checked and read, written, viewed and
// reported, the points of a FINGERS container as lists, the certificate of a biometric's signer, FASC-N numbers alone, one or
// many at once, and the summary of an order's folder, a file of containers.
// crates/capi/src/lib.rt of the repository has the functions with their contracts. They are in libprosianek.a, which links into
// x86-64 programs and needs only the C library's memory functions:
//     cc program.c $(pkg-config --cflags --libs prosianek)
//
// What is proved: every call ends and answers, whatever the bytes, dates, tags, sizes and states are; number, place, tag, offset,
// length, counts and which container, each byte of a lent room, each number of a lent list and all of a lent state are what the
// contract says. The caller need not have checked anything. The calls keep nothing from one call to the next: what a folder needs
// from one call to the next is a state that the caller lends.
//
// What a C caller owes, because nothing on this side of the border can check it:
//   - a pointer is not null, also where its size is 0: lend any byte there, or any number or entry for a list;
//   - a uint8_t pointer with a size, in the calls of a folder with a length, is valid for so many bytes, and a list, a uint64_t
//     pointer or one to struct prosianek_decoded with a size, for so many numbers or entries: to read where it is const, else to
//     read and write. The earlier contents of a room or a list do not matter, but they have to be there to be cleared;
//   - any other uint64_t pointer is valid for one number, or for as many as the parameter says, [9] or [3], and fascn[25] for 25
//     bytes;
//   - every pointer to uint64_t or to struct prosianek_decoded is aligned as usual, that of a list of size 0 too;
//   - the rooms, the lists, the lent numbers and the states of one call do not overlap each other, nor the call's input.
// If one of these fails, no promise holds.
//
// The number that each call answers is one of enum prosianek_number; prosianek_folder_step alone answers none. A call writes each
// of its lent numbers on every answer, but a refusal leaves the state of a folder as it was. A refusal (any number but 0) leaves
// the lent room, or each lent list, all zeros; a success leaves zeros after the last byte of output, after the last point, or
// after the entry of the last FASC-N. So the rest of a room or a list never shows what an earlier call left there.
#ifndef PROSIANEK_H
#define PROSIANEK_H

#include <stddef.h>
#include <stdint.h>

#ifdef __cplusplus
extern "C" {
#endif

enum {
    // The smallest room for a report, which holds every one: the longest there is has 171 bytes.
    PROSIANEK_REPORT_ROOM = 512,
    // The bytes of a FASC-N.
    PROSIANEK_FASCN_BYTES = 25,
    // The bytes of the largest container.
    PROSIANEK_LARGEST_CONTAINER = 32768,
    // A room of this size holds the sheet of any container: a sheet has at most 6 bytes more than its container, which is
    // proved (`room_for_sheet` in crates/promises/specs/Demands.antt).
    PROSIANEK_SHEET_ROOM = 32774,
    // Lists of this many numbers hold the points of any container: two views have at most 128 each, which is proved
    // (`most_points` in crates/promises/specs/Demands.antt).
    PROSIANEK_MOST_POINTS = 256,
    // The most containers that a folder has.
    PROSIANEK_MOST_CONTAINERS = 256,
    // The smallest room for a row of a folder's summary and for its two last lines, which holds any of them.
    PROSIANEK_ROW_ROOM = 64,
    // What stands for no tag in a verdict. No tag can be it, since a tag has one byte or two; 0 is the tag 00.
    PROSIANEK_NO_TAG = 65536
};

// The kinds of container. Every other number is refused.
enum prosianek_kind {
    PROSIANEK_CCC = 1,
    PROSIANEK_CHUID = 2,
    PROSIANEK_DISCOVERY = 3,
    PROSIANEK_PRINTED = 4,
    PROSIANEK_SECURITY = 5,
    PROSIANEK_FINGERS = 6,
    PROSIANEK_FACE = 7,
    PROSIANEK_PIVAUTH = 8,
    PROSIANEK_DIGSIG = 9,
    PROSIANEK_KEYMGMT = 10,
    PROSIANEK_CARDAUTH = 11,
    PROSIANEK_IRIS = 12
};

// What a call answers.
enum prosianek_number {
    PROSIANEK_DONE = 0,             // conforms, or done
    PROSIANEK_UNKNOWN_KIND = 1,     // the kind is not 1 to 12
    PROSIANEK_NO_DATE = 2,          // today is no date
    PROSIANEK_SMALL_ROOM = 3,       // the room is too small, or a list
    PROSIANEK_LARGE_CONTAINER = 4,  // the container has over 32,768 bytes, given or to be written
    PROSIANEK_TORN_SHEET = 5,       // the sheet is cut short or has bytes left over
    PROSIANEK_NO_ELEMENT = 6,       // view: the element is absent, or the tag is not of the kind
    PROSIANEK_LONG_NUMBER = 7,      // FASC-N encoding: a number has too many digits
    // 8 is withdrawn, and 9 never was given: neither is used again
    PROSIANEK_OUTER_TAG = 10,       // the outer tag is missing or wrong
    PROSIANEK_LENGTH_FORM = 11,     // a length is cut short or in no permitted form
    PROSIANEK_OVERRUN = 12,         // a value runs past its enclosure, or the outer end is not the container's end
    PROSIANEK_UNKNOWN_TAG = 13,     // the tag is not in the kind's table
    PROSIANEK_TAG_ORDER = 14,       // the row is that of the element before, or an earlier one
    PROSIANEK_MISSING_ROW = 15,     // a mandatory row is passed over, or missing at the end
    PROSIANEK_ELEMENT_LENGTH = 16,  // the length of an element
    PROSIANEK_BAD_FASCN = 17,       // FASC-N, or of many: bytes left over
    PROSIANEK_BAD_UUID = 18,        // UUID
    PROSIANEK_BAD_DATE = 19,        // a date in text (35: 20300131, 04: 2030JAN31), or an expiry outside its window
    PROSIANEK_BAD_FIXED = 20,       // another fixed value, or the policy
    PROSIANEK_BAD_HEADER = 21,      // CBEFF header
    PROSIANEK_BAD_MINUTIAE = 22,    // minutiae
    PROSIANEK_BAD_TEXT = 23,        // a byte that is no text
    PROSIANEK_BAD_DER = 24,         // DER item: the certificate is none, or no SEQUENCE of three parts
    PROSIANEK_TOO_DEEP = 25,        // an item of the certificate is too deep, below level 8
    PROSIANEK_BAD_FACE = 26,        // face record: its header, an image's information, or the length of a block
    PROSIANEK_BAD_IRIS = 27,        // iris record: its header, a representation's fields, or the length of a part
    PROSIANEK_FASCN_DIFFER = 28,    // signer: the two containers carry different FASC-N
    PROSIANEK_BIOMETRIC_BLOCK = 29, // signer: the biometric's signature block is no SignedData
    PROSIANEK_CHUID_BLOCK = 30,     // signer: the CHUID's is needed, and is none
    PROSIANEK_NEITHER_HOLDS = 31,   // signer: neither holds a certificate
    PROSIANEK_TORN_FOLDER = 32      // folder: cut short, bytes left over, or a count above 256
};

// Which of the two containers of prosianek_signer is meant.
enum prosianek_which {
    PROSIANEK_NEITHER = 0,
    PROSIANEK_IN_CHUID = 1,
    PROSIANEK_IN_BIOMETRIC = 2
};

// In all calls: kind is one of enum prosianek_kind; today is a date as an eight-digit number, such as 20260301; container
// and size are the container's bytes and how many there are, from the outer tag on.
//
// A verdict is a number, a place and a tag. The tag says which element is meant, as a number such as 0x30, or 0x5F2F for the
// tag of two bytes; where none is meant it is PROSIANEK_NO_TAG. By the verdict's number:
//   - 0, 1 to 7, and 28 to 31: no tag;
//   - 10, and 11 and 12 of the outer length: no tag;
//   - 15 of a container: the tag found in the place of the missing one; no tag at the container's end, where nothing is found;
//   - 13: the byte at the place, whatever the card has there, such as 0x00, or 0x5F where no 2F follows;
//   - every other number of a container: the tag at the place;
//   - every number of a sheet from 15 on: the tag of the row at the place, also of one that is missing.
// In a report the tag is the last word of the line `verdict`: two hex digits, four for the tag of two bytes, or `--`.

// Whether a container conforms under the date, and the value sheet of one that does: for each row of the kind's table, in
// order, a two-byte count, high byte first, which is 0 for an absent element and n + 1 for a value of n bytes, and then the n
// bytes.
//   sheet    the lent room, sheet_size its size. PROSIANEK_SHEET_ROOM bytes are always enough, and so are size + 6. With a size
//            of 0 the verdict alone is asked for: it does not depend on the room.
//   place    where the first broken rule is: the offset of the element's tag in the container; for 15 of the tag found
//            instead, or the container's end; 0 for 1, 2, 4, for a broken outer tag or length, and when it conforms.
//   tag      that of the verdict, as listed above: PROSIANEK_NO_TAG where the place is 0 or the container's end, else the tag
//            that stands at the place.
//   room     3 if it conforms and the room is under the sheet's length, as one of size 0 always is; else 0.
//   length   the sheet's length; 0 where none is written.
// Answers the verdict: 0 if it conforms; else 1, 2, 4, or the first broken rule, 10 to 27. Where it is 0 and *room is 0 too,
// the room then holds the sheet and zeros; else all zeros.
uint64_t prosianek_check(uint64_t kind, uint64_t today, const uint8_t *container, size_t size, uint8_t *sheet,
                         size_t sheet_size, uint64_t *place, uint64_t *tag, uint64_t *room, uint64_t *length);

// The container of a value sheet, each length in the fewest bytes. Of a sheet that prosianek_check gave it is the container
// that was checked, byte for byte, where that was in the fewest bytes too; else a shorter one, with the same elements.
//   sheet    the sheet, size its bytes.
//   container  the lent room, room its size.
//   place    where the first broken rule is: the offset in the sheet of the row's count; 0 for 1 to 5 and on a success.
//   tag      that of the verdict, as listed above: the row's tag for 15 to 27; PROSIANEK_NO_TAG for 1 to 5 and on a success.
//   length   the container's length; 0 on a refusal.
// Answers 0 if the container is written; else 1, 2, 5, then row by row 15, 16 or the value's rule, 17 to 27, then 4, then 3
// if the room is under the container's length. The room then holds the container and zeros; on a refusal all zeros.
uint64_t prosianek_write(uint64_t kind, uint64_t today, const uint8_t *sheet, size_t size, uint8_t *container, size_t room,
                         uint64_t *place, uint64_t *tag, uint64_t *length);

// Where the value of one element stands in a container that conforms.
//   element  the tag of the element that is wanted, as a number, such as 0x30; 0x5F2F for the tag of two bytes.
//   place    as prosianek_check gives it; 0 for 6.
//   tag      as prosianek_check gives it, whichever element is wanted; PROSIANEK_NO_TAG for 6 and on a success.
//   offset   where the value starts in the container; 0 on a refusal.
//   length   its length, which may be 0; 0 on a refusal.
// Answers 0 if the element is there; else what prosianek_check answers, or 6 if the element is absent or its tag not of the
// kind. offset + length is at most size.
uint64_t prosianek_view(uint64_t kind, uint64_t today, const uint8_t *container, size_t size, uint64_t element,
                        uint64_t *place, uint64_t *tag, uint64_t *offset, uint64_t *length);

// The desk report of a container, as text, each line ended by a line feed, with no zero byte at its end. It has no personal
// value.
//   room     the lent room, room_size its size, at least PROSIANEK_REPORT_ROOM.
//   length   the report's length; 0 on a refusal.
// Answers 0 if a report is written, also about a container that breaks a rule: the report's line `verdict` tells that. Else
// 1, 2, 3 for a room under 512 bytes, 4. The room then holds the report and zeros; on a refusal all zeros.
uint64_t prosianek_report(uint64_t kind, uint64_t today, const uint8_t *container, size_t size, uint8_t *room,
                          size_t room_size, uint64_t *length);

// The points (minutiae) of a FINGERS container that conforms, the first view's and then the second's, as five lists: entry i of
// each list is a number of point i. A point, put back, is six bytes, the high byte first: type * 16384 + x in two, y in two,
// angle, quality. The points are personal, and no report has them.
//   types    lent: the type of each point, 0 to 2. Its size, as that of each list, says how many numbers it has room for.
//   xs, ys   lent: where it is, 0 to 16383 each.
//   angles   lent: its angle, 0 to 179, as the card has it.
//   qualities  lent: its quality, 0 to 100.
//   place    as prosianek_check gives it; 0 for 3.
//   tag      as prosianek_check gives it; PROSIANEK_NO_TAG for 3 and on a success.
//   first    how many points the first view has, 0 to 128; 0 on a refusal.
//   second   how many the second has, likewise.
// Answers 0 if the lists are filled; else what prosianek_check answers of kind 6 (PROSIANEK_FINGERS), or 3 if the container
// conforms and a list has room for fewer numbers than there are points. The lists need not be equally long: room for
// PROSIANEK_MOST_POINTS is always enough, and where there are no points, none is needed. Each list then holds a number of each
// point, and zeros up to its own end; on a refusal all zeros.
uint64_t prosianek_lists(uint64_t today, const uint8_t *container, size_t size, uint64_t *types, size_t types_size,
                         uint64_t *xs, size_t xs_size, uint64_t *ys, size_t ys_size, uint64_t *angles, size_t angles_size,
                         uint64_t *qualities, size_t qualities_size, uint64_t *place, uint64_t *tag, uint64_t *first,
                         uint64_t *second);

// The certificate of who signed a biometric: it stands in the biometric's own signature block or, where that holds none, in the
// CHUID's, element 3E. A block has to be a CMS SignedData (RFC 5652) in DER, of at most sixteen levels; the first item of its
// certificates field is meant, with its tag and length. Nothing is said of whose certificate it is where there are several, and
// no signature is verified.
//   kind     the biometric's: PROSIANEK_FINGERS, PROSIANEK_FACE or PROSIANEK_IRIS.
//   chuid, biometric  the two containers, each with its size. They are only read, and may be the same bytes.
//   place    as prosianek_check gives it of the container that it refuses; else 0.
//   tag      likewise; PROSIANEK_NO_TAG where no check refuses, and on a success.
//   which    one of enum prosianek_which: the container that the certificate lies in, or the one that its check refuses; else 0.
//   offset   where the certificate starts in that container; 0 on a refusal.
//   length   its length, with its tag and length; 0 on a refusal.
// Answers 0 if there is one; else, in this order, 1 if the kind is not one of the three; what prosianek_check answers of the
// CHUID as kind 2, then what it answers of the biometric; 28 if the FASC-N of the two differ; 29 if the biometric's block is no
// SignedData; and where that holds no certificate, 30 if the CHUID's is none, 31 if it holds none either. offset + length is at
// most the size of the container that is named. Nothing of it goes into a report.
uint64_t prosianek_signer(uint64_t kind, uint64_t today, const uint8_t *chuid, size_t chuid_size, const uint8_t *biometric,
                          size_t biometric_size, uint64_t *place, uint64_t *tag, uint64_t *which, uint64_t *offset,
                          uint64_t *length);

// The nine numbers of a FASC-N.
//   bytes    the FASC-N, size its bytes: 25, or it is refused.
//   numbers  lent: agency, system, credential, series, issue, person, category, organisation, association. All nine are 0 on
//            a refusal.
// Answers 0, or 17 for anything but 25 conforming bytes. A FASC-N in which one or more bits were changed, all within six
// neighbouring bits of the 200, is always 17; within seven it may be another good one.
uint64_t prosianek_fascn_decode(const uint8_t *bytes, size_t size, uint64_t numbers[9]);

// What prosianek_fascn_decode_by_table says of one FASC-N: number is 0 or 17, and numbers are the nine, as prosianek_fascn_decode
// answers. The nine are 0 where number is 17.
struct prosianek_decoded {
    uint64_t number;
    uint64_t numbers[9];
};

// The nine numbers of each of many FASC-N, by a second reader, which takes ten bits at once through a table. What it says of each
// is what prosianek_fascn_decode, the plain engine, answers of that one alone, which is proved: two readers, one meaning.
//   strings  the FASC-N, PROSIANEK_FASCN_BYTES each, one behind the other; strings_size the bytes of all of them, which may be 0.
//   list     lent: entry i is of string i, counted from 0. list_size is how many entries it has room for; the next call may be lent
//            the same list.
// Answers 0 if each string has its entry, also one that is no FASC-N: its entry's number tells that. Else 17 if strings_size is
// no multiple of 25, so that bytes are left over, then 3 if the list has room for fewer entries than there are strings. The list
// then holds the entries and zeros; on a refusal all zeros. There is a FASC-N whose nine numbers are 0: its entry is all zeros,
// too, so that only the answer and how many strings there are tell which entries mean something.
uint64_t prosianek_fascn_decode_by_table(const uint8_t *strings, size_t strings_size, struct prosianek_decoded *list,
                                         size_t list_size);

// The FASC-N of nine numbers.
//   numbers  in the order of prosianek_fascn_decode, of at most 4, 4, 6, 1, 1, 10, 1, 4 and 1 digits.
//   room     the lent room, size its size, at least PROSIANEK_FASCN_BYTES.
// Answers 0; else 7 if a number has too many digits, then 3 for a room under 25 bytes. The room then holds the 25 bytes and
// zeros; on a refusal all zeros.
uint64_t prosianek_fascn_encode(const uint64_t numbers[9], uint8_t *room, size_t size);

// A folder is a file of containers: a count in two bytes, at most PROSIANEK_MOST_CONTAINERS, then for each container its kind in
// one byte, its length in four, and its bytes. The numbers have the high byte first, and nothing follows the last container. Its
// summary is a line for each container, the row, and two last lines. A caller goes through a folder so:
//   1. Over it, in pieces of any size and in their order: prosianek_folder_step for each piece, then prosianek_folder_end. A
//      folder that is refused here has no summary.
//   2. From its start again, container by container: prosianek_row for each, in their order. One over
//      PROSIANEK_LARGEST_CONTAINER bytes is told by its length alone: it need not be read, and nothing need be lent of it.
//   3. prosianek_last for the two last lines.
// The rows and the last lines, one behind the other, are the summary; after a refusal nothing follows.
// That the file holds the same bytes both times is the caller's to see to, since nothing on this side of the border can: what is
// proved of a folder is said of the one list of kinds and containers that its bytes spell.

// A piece more of a folder that is gone over.
//   state    lent: three numbers that are zeros before the first piece, and are then handed from piece to piece as they are left.
//   piece    the piece's bytes, piece_length how many there are, which may be 0.
void prosianek_folder_step(uint64_t state[3], const uint8_t *piece, size_t piece_length);

// The end of a folder that was gone over.
//   state    as the last piece left it, or zeros where there was none. It is only read.
// Answers 0 if the pieces, joined, are a folder; else 2 if today is no date, then 32 if the folder is cut short, has bytes left
// over or a count above 256. Nothing is said here of the containers.
uint64_t prosianek_folder_end(uint64_t today, const uint64_t state[3]);

// The row of one container: its kind, the offset of its first byte in the folder, its length, and the number, place and tag of
// the verdict, with a space between and a line feed at the end, such as `2 7 61 0 0 --`. The numbers are decimal, and the tag is
// as in a report. It has no personal value.
//   kind     the byte that stands in the folder: one that is no kind gives a row with the number 1.
//   offset   that of the container's first byte in the folder: 7 for the first one.
//   size     the container's length, as the folder says it: one over 32,768 gives a row with the number 4, or with 1.
//   container  the container's bytes, container_length how many there are: as many as size says. Where that is over 32,768
//            nothing of it is looked at, and any bytes will do, or none.
//   good, agreement, fascn  lent: the state of the summary, which is zeros before the first row, and is then handed from row to
//            row as it is left. good is how many containers conform; agreement is 0 where no FASC-N was seen in them, 1 where all
//            that were seen are alike, and any other number where they differ; fascn is the first that was seen. A row with the
//            number 0 makes good one more, as far as 2^64 - 1, and looks at the FASC-N of a CHUID, FINGERS, FACE or IRIS: where
//            agreement is 0, fascn becomes that one and agreement 1; where it is 1, it becomes 2 if fascn is another. Any other
//            row and any refusal leave all three as they were. No row depends on them. The FASC-N is personal.
//   room     the lent room, room_length its size, at least PROSIANEK_ROW_ROOM.
//   length   the row's length with its line feed; 0 on a refusal.
// Answers 0 if a row is written, also about a container that breaks a rule. Else 2 if today is no date, then 3 for a room under
// 64 bytes, then 32 if size is at most 32,768 and container_length is another: the folder was cut short since it was gone over.
// The room then holds the row and zeros; on a refusal all zeros.
uint64_t prosianek_row(uint64_t today, uint8_t kind, uint64_t offset, uint64_t size, const uint8_t *container,
                       size_t container_length, uint64_t *good, uint64_t *agreement, uint8_t fascn[25], uint8_t *room,
                       size_t room_length, uint64_t *length);

// The two last lines of a summary: `good N`, how many containers conform, and `agree yes` or `agree no`, whether all FASC-N in
// conforming CHUID, FINGERS, FACE and IRIS containers are alike, as fewer than two are. Each is ended by a line feed.
//   good, agreement  as the last row left them, or 0 where there was none: `agree yes` for an agreement of 0 or 1.
//   room     the lent room, room_length its size, at least PROSIANEK_ROW_ROOM.
//   length   the length of both lines; 0 on a refusal.
// Answers 0, or 3 for a room under 64 bytes. The room then holds the lines and zeros; on a refusal all zeros.
uint64_t prosianek_last(uint64_t good, uint64_t agreement, uint8_t *room, size_t room_length, uint64_t *length);

#ifdef __cplusplus
}
#endif

#endif
