/*
 * Ashthulgo: the policing core of an AFDX switch and the receiving end of an end system, as a static library.
 *
 * `rt lib`, in crates/exports, writes crates/exports/out/libexports.a; link that file. It is for x86-64-v2 only (Linux, System V
 * calls), needs nothing but the C library, and allocates nothing. Each function is proved to meet its contract for every
 * input, as long as its caller keeps the rules of the section "Memory". The contracts are in crates/exports/src.
 *
 * Memory
 *   - A run is lent as a pointer to its first element and the number of its elements; an output, as `offset`, as a pointer.
 *   - No pointer is NULL: not that of an output, and not that of a run with 0 elements. For an empty run pass the address of
 *     any object of the element's type; nothing is read or written there.
 *   - Every pointer is aligned for its type. A run lies within one object.
 *   - What is lent without `const` overlaps nothing else that is lent to the same call.
 *   - While a call runs, nobody else (a thread, an interrupt, a device) reads or writes what the call was lent without `const`,
 *     and nobody else writes what it was lent with `const`. The library keeps no pointer after the call.
 *   - Every output is written, whichever code comes back. It needs no value before, unless the function is said to read it.
 *   - Any octets, rows, credits, counts, ports, networks, modes and times are allowed, and get an answer.
 *
 * Threads
 *   The library has no state of its own. Calls on separate runs may run side by side: what is lent to one without `const` is
 *   lent to no other meanwhile. What is lent with `const` may be shared.
 *
 * Counts
 *   - `.._octets` counts octets, also where the run is made of rows: n accounts take n * ASHTHULGO_ACCOUNT_ROW_OCTETS. Octets
 *     at the end that don't make up a whole row are not used.
 *   - `credit_count` and `last_count` count elements, one an account. `record_words` counts 64-bit words.
 *   - `account_count` and `link_count` count rows. Accounts in use are the least of `account_count`, the account rows lent,
 *     the credits lent and the last times lent; links in use are the lesser of `link_count` and the link rows lent.
 *
 * Numbers
 *   In frames, rows and images a number of several octets has its high octet first. Credits, last times and records are
 *   the machine's own numbers. Time is in microseconds.
 *
 * Frames
 *   A frame runs from the destination address to the frame check sequence. Octets 0 to 3 are the constant field, octets 4 and 5
 *   the virtual link. The sequence number is the fifth octet from the end; the four octets after it, the frame check sequence,
 *   are never judged. The payload is the octets from ASHTHULGO_PAYLOAD_START up to the sequence number.
 *
 * Rows and their rules
 *   An account's row: Smax (2 octets), k (1), jitter in microseconds (2), mode (1).
 *     - 64 <= Smax <= 1,518; k <= 7; jitter <= 10,000; mode <= 3.
 *   A link's row: number (2 octets), input port (1), mask of output ports (4, bit p for port p), smallest frame (2), largest
 *   frame (2), account (2). Accounts are numbered from 0, and several links may share one.
 *     - The input port is at most 31. The mask is not 0 and does not have the input port's bit.
 *     - The account's number is below the number of accounts in use.
 *     - 64 <= smallest <= largest <= Smax of the account.
 *   An image has two rules more:
 *     - The two low bits of the constant field's first octet are set (ASHTHULGO_CONSTANT_BITS).
 *     - Each link's number is above the one before it; the first may be any.
 *
 * Credit
 *   BAG is 1,000 * 2^k microseconds. The rate is Smax in modes 0 and 1, Smax + 20 in modes 2 and 3. The capacity is
 *   rate * (BAG + jitter). A frame costs octets * BAG in mode 0, (octets + 20) * BAG in mode 2, and rate * BAG in modes 1 and 3.
 *   A frame at time t, not before the last time, first tops up the account: the credit grows by rate * (t - last time), up to
 *   the capacity, and t becomes the last time. If the credit is then at least the cost, the frame is forwarded and the cost
 *   taken; otherwise it is dropped and the credit stays.
 *
 * Images
 *   An image is made of fields: tag (1 octet), length of the data (2), data. First comes the head (tag 1: edition, which is 1,
 *   and the constant field), then the accounts (tag 2: a row each), the links (tag 3: a row each), the end (tag 9: no data),
 *   and nothing after it. There is at least one account and one link. ashthulgo_write makes an image from rows. These runs
 *   hold what any image needs:
 *     uint8_t  accounts[ASHTHULGO_ACCOUNTS_MAX * ASHTHULGO_ACCOUNT_ROW_OCTETS];
 *     uint8_t  links[ASHTHULGO_LINKS_MAX * ASHTHULGO_LINK_ROW_OCTETS];
 *     uint32_t credits[ASHTHULGO_ACCOUNTS_MAX];
 *     uint64_t lasts[ASHTHULGO_ACCOUNTS_MAX];
 *
 * The receiving end
 *   A link's row: number (2 octets), SkewMax in microseconds (4). Row i has record i, the ASHTHULGO_RECORD_WORDS words from word
 *   ASHTHULGO_RECORD_WORDS * i on. Set all words to 0 before the first call. A row is in use where row and record are lent
 *   whole. ashthulgo_read_frame gives the link and the sequence number of a frame.
 *     - A frame whose time is before the link's last one, on either network, is late.
 *     - Sequence numbers run 0, 1, 2 .. 255, then 1 again; 0 follows a reset of the sender only. A frame is in sequence if it
 *       is the first on its network, if its number is 0, or if its number is one or two steps on from the last one received
 *       on its network: 255 and 1 after 254, 1 and 2 after 255.
 *     - A frame in sequence is a copy if the other network's latest delivery of its number is at most SkewMax old and has not
 *       met a copy yet. Any other frame in sequence is delivered. Frames are not put in order.
 *   A record's word 0 is the link's last time. Words 1 and 2 are the last number on networks A and B with 1 added, or 0 for
 *   none. From word 3 on there are two words for each network, A first, and each number from 0 to 255: whether the latest
 *   delivery of that number awaits its copy (0: no), and the time of that delivery.
 */
#ifndef ASHTHULGO_H
#define ASHTHULGO_H

#if !defined(__x86_64__) || !defined(__LP64__)
#error "ashthulgo.h: the library is built for x86-64 with 64-bit pointers and longs only"
#endif

#include <stddef.h>
#include <stdint.h>

#ifdef __cplusplus
extern "C" {
#endif

/* Octets of a row, and words of a record. */
#define ASHTHULGO_ACCOUNT_ROW_OCTETS 6
#define ASHTHULGO_LINK_ROW_OCTETS 13
#define ASHTHULGO_RECEIVE_ROW_OCTETS 6
#define ASHTHULGO_RECORD_WORDS 1027

/* Limits of an image. No longer image is accepted. */
#define ASHTHULGO_ACCOUNTS_MAX 64
#define ASHTHULGO_LINKS_MAX 256
#define ASHTHULGO_IMAGE_OCTETS_MAX 4683

/* Octets of a frame, and the offset of its payload. */
#define ASHTHULGO_FRAME_OCTETS_MIN 64
#define ASHTHULGO_FRAME_OCTETS_MAX 1518
#define ASHTHULGO_PAYLOAD_START 14

/* Limits of values. Smax has those of a frame's octets. */
#define ASHTHULGO_K_MAX 7
#define ASHTHULGO_JITTER_MAX 10000
#define ASHTHULGO_PORT_MAX 31
#define ASHTHULGO_CONSTANT_BITS 0x03000000u

/* The modes of an account, and the octets that the last two add to a frame and to Smax. */
#define ASHTHULGO_MODE_BYTE 0
#define ASHTHULGO_MODE_FRAME 1
#define ASHTHULGO_MODE_BYTE_LINE 2
#define ASHTHULGO_MODE_FRAME_LINE 3
#define ASHTHULGO_LINE_OCTETS 20

/*
 * The networks, for ashthulgo_receive. Warning: these are not the Interface_IDs of ARINC 664P7, which are 1 for network A and
 * 2 for network B. Never pass an Interface_ID. Here 0 is A and every other number is B, so both Interface_IDs would be B,
 * and no copy would be found. Translate first: 1 to ASHTHULGO_NETWORK_A, 2 to ASHTHULGO_NETWORK_B.
 */
#define ASHTHULGO_NETWORK_A 0
#define ASHTHULGO_NETWORK_B 1

/* Codes of frames and policing steps, in the order in which they are checked. The first that fits is answered. */
enum {
    ASHTHULGO_TOO_SHORT = 1,      /* fewer than 64 octets */
    ASHTHULGO_TOO_LONG = 2,       /* more than 1,518 octets */
    ASHTHULGO_OTHER_CONSTANT = 3, /* wrong constant field */
    ASHTHULGO_UNKNOWN_LINK = 4,   /* unknown virtual link: no row in use has its number */
    ASHTHULGO_UNSOUND = 10,       /* invalid table entry: see below */
    ASHTHULGO_OTHER_PORT = 5,     /* wrong input port; a port from 32 on is always wrong */
    ASHTHULGO_TOO_SMALL = 6,      /* below the link's smallest size */
    ASHTHULGO_TOO_LARGE = 7,      /* above the link's largest size */
    ASHTHULGO_LATE = 8,           /* time before the account's last time; reports the credit held */
    ASHTHULGO_SHORT = 9,          /* credit short; reports the credit held; the account is topped up */
    ASHTHULGO_FORWARDED = 0       /* none of these; reports the credit left */
};

/*
 * What gives 10 (ASHTHULGO_UNSOUND). In a policing step: a value of the account breaks a rule of "Rows and their rules", or the
 * credit is above the capacity. In a frame call: a value of the link's row or of its account breaks a rule, or the account's
 * credit is above its capacity. Of the links in use only the first with the number is judged. The order of the rows and the
 * constant field are not judged. Tables that ashthulgo_load filled and that only frame calls changed never give 10, where they
 * are lent whole and with the counts that loading answered.
 */

/* Codes of images. 0 is success. For each field they are checked in the order 20, 21, 22, 20 (data), 24, 23. */
enum {
    ASHTHULGO_IMAGE_CUT = 20,    /* fewer than 3 octets left for a field, or its data cut */
    ASHTHULGO_IMAGE_TAG = 21,    /* tag unknown or out of order */
    ASHTHULGO_IMAGE_LENGTH = 22, /* length not the tag's */
    ASHTHULGO_IMAGE_VALUE = 23,  /* a value breaks a rule of "Rows and their rules", or the edition isn't 1 */
    ASHTHULGO_IMAGE_COUNT = 24,  /* an account or a link too many; for the writer also a count of 0 or over the rows lent */
    ASHTHULGO_IMAGE_MORE = 25,   /* octets after the end */
    ASHTHULGO_IMAGE_ROOM = 26    /* a lent run or room too short */
};

/* Answers of the receiving end, besides ASHTHULGO_UNKNOWN_LINK and ASHTHULGO_LATE. */
enum {
    ASHTHULGO_DELIVERED = 0,
    ASHTHULGO_COPY = 30,
    ASHTHULGO_OUT_OF_SEQUENCE = 31
};

/*
 * Reads a frame: answers 0, 1 or 2. link, sequence: its virtual link and sequence number. payload: the octets of its payload,
 * from frame + ASHTHULGO_PAYLOAD_START on. All three are 0 after 1 and 2.
 */
uint8_t ashthulgo_read_frame(const uint8_t *frame, size_t frame_octets, uint16_t *link, uint8_t *sequence, size_t *payload);

/* Returns the capacity of an account; 0 where a policing step would refuse it with 10. */
uint32_t ashthulgo_capacity(uint16_t smax, uint8_t k, uint16_t jitter, uint8_t mode, uint32_t credit);

/* Returns the cost of a frame of so many octets; 0 where a policing step would refuse it with 1, 2 or 10. */
uint32_t ashthulgo_cost(uint16_t smax, uint8_t k, uint16_t jitter, uint8_t mode, uint32_t credit, size_t octets);

/*
 * Brings an account to a time, without a frame. credit, last: the account's, read and changed; unchanged where a policing
 * step would refuse with 10 or 8.
 */
void ashthulgo_top_up(uint16_t smax, uint8_t k, uint16_t jitter, uint8_t mode, uint32_t *credit, uint64_t *last, uint64_t time);

/*
 * The policing step, for a frame of so many octets: answers 0, 1, 2, 8, 9 or 10. credit, last: the account's, read, and
 * changed by 0 and 9 only. reported: the credit that 0, 8 and 9 report; 0 with any other code.
 */
uint8_t ashthulgo_police(uint16_t smax, uint8_t k, uint16_t jitter, uint8_t mode, uint32_t *credit, uint64_t *last,
                         size_t octets, uint64_t time, uint32_t *reported);

/* The policing step through an account that is changed in place: answers and changes the same as ashthulgo_police. */
uint8_t ashthulgo_police_in_place(uint16_t smax, uint8_t k, uint16_t jitter, uint8_t mode, uint32_t *credit, uint64_t *last,
                                  size_t octets, uint64_t time, uint32_t *reported);

/*
 * The frame call: answers 0 to 10. constant, account_count, link_count: as loading answered them. credits, lasts: read; only
 * the elements of the frame's account change, and only with 0 and 9. mask: the output ports with 0, else 0. credit: what 0, 8
 * and 9 report, else 0.
 */
uint8_t ashthulgo_frame_call(const uint8_t *frame, size_t frame_octets, uint32_t port, uint64_t time, uint32_t constant,
                             const uint8_t *accounts, size_t account_octets, uint32_t *credits, size_t credit_count,
                             uint64_t *lasts, size_t last_count, const uint8_t *links, size_t link_octets,
                             size_t account_count, size_t link_count, uint32_t *mask, uint32_t *credit);

/*
 * Reads an image and loads nothing: answers 0 or 20 to 25. offset: the image's length with 0, the first octet after the end
 * with 25, else the first octet of the field that the code is about. constant, account_count, link_count: what the image has;
 * 0 with any code but 0.
 */
uint8_t ashthulgo_check(const uint8_t *image, size_t image_octets, size_t *offset, uint32_t *constant, size_t *account_count,
                        size_t *link_count);

/*
 * Loads an image into tables: answers what ashthulgo_check answers, but 26 where that is 0 and one of the four runs is too
 * short; the offset is then the image's length, and the other three are 0. After 0 the rows that the image names are filled,
 * each credit is its account's capacity and each last time 0; rows beyond are unchanged. After any other code all runs are
 * unchanged.
 */
uint8_t ashthulgo_load(const uint8_t *image, size_t image_octets, uint8_t *accounts, size_t account_octets, uint32_t *credits,
                       size_t credit_count, uint64_t *lasts, size_t last_count, uint8_t *links, size_t link_octets,
                       size_t *offset, uint32_t *constant, size_t *account_count, size_t *link_count);

/*
 * Loads an image through a reader: answers and fills the same as ashthulgo_load. place: the reader's place in the image, read,
 * and changed to the offset answered. The whole image is loaded, whatever the place was.
 */
uint8_t ashthulgo_reader_load(const uint8_t *image, size_t image_octets, size_t *place, uint8_t *accounts,
                              size_t account_octets, uint32_t *credits, size_t credit_count, uint64_t *lasts,
                              size_t last_count, uint8_t *links, size_t link_octets, size_t *offset, uint32_t *constant,
                              size_t *account_count, size_t *link_count);

/*
 * Writes the image of the first account_count and link_count rows of two tables: answers 0, 24, 23 or 26, checked in the order
 * 24, 23, 26. offset: the image's length with 0; with 23 the offset that the first bad field would have had, the head's for
 * the constant field; else 0. Only 0 writes to the room, and only the octets of the image.
 */
uint8_t ashthulgo_write(uint32_t constant, const uint8_t *accounts, size_t account_octets, size_t account_count,
                        const uint8_t *links, size_t link_octets, size_t link_count, uint8_t *room, size_t room_octets,
                        size_t *offset);

/*
 * The receiving end's call, for a frame that came in on a link and a network with a sequence number and a time: answers 4, 8,
 * 31, 30 or 0, checked in this order. network: ASHTHULGO_NETWORK_A or ASHTHULGO_NETWORK_B. The first row in use with the link's
 * number counts. 4 and 8 change nothing; any other answer changes only that row's record.
 */
uint8_t ashthulgo_receive(uint16_t link, uint8_t network, uint8_t number, uint64_t time, const uint8_t *rows, size_t row_octets,
                          uint64_t *records, size_t record_words);

#ifdef __cplusplus
}
#endif

#endif
