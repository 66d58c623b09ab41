/* Calls every function of the header once or more, as C and as C++; the test beside it knows what must come out. */
#include "ashthulgo.h"

#include <inttypes.h>
#include <stdio.h>
#include <string.h>

/* The bench sheet's image P: Smax 200, BAG 1,000, jitter 500, byte mode; link 7 on port 2. */
static const uint8_t image[36] = {
    1, 0, 5, 1, 3, 0, 0, 0,                                             /* head */
    2, 0, 6, 0, 0xc8, 0, 1, 0xf4, 0,                                    /* account */
    3, 0, 13, 0, 7, 2, 0, 0, 0, 8, 0, 0x40, 0, 0xc8, 0, 0,              /* link */
    9, 0, 0,                                                            /* end */
};

/* Runs that hold what any image needs. */
static uint8_t accounts[ASHTHULGO_ACCOUNTS_MAX * ASHTHULGO_ACCOUNT_ROW_OCTETS];
static uint8_t links[ASHTHULGO_LINKS_MAX * ASHTHULGO_LINK_ROW_OCTETS];
static uint32_t credits[ASHTHULGO_ACCOUNTS_MAX];
static uint64_t lasts[ASHTHULGO_ACCOUNTS_MAX];
static uint32_t constant;
static size_t account_count, link_count;

/* The runs as they are, with so many credits lent. */
static uint8_t load(size_t credit_count, size_t *offset)
{
    return ashthulgo_load(image, sizeof image, accounts, sizeof accounts, credits, credit_count, lasts,
                          ASHTHULGO_ACCOUNTS_MAX, links, sizeof links, offset, &constant, &account_count, &link_count);
}

static void check_and_load(void)
{
    /* An empty run has a pointer that isn't NULL. */
    size_t offset;
    uint8_t code = ashthulgo_check(image, 0, &offset, &constant, &account_count, &link_count);
    printf("check %u %zu %" PRIu32 " %zu %zu\n", code, offset, constant, account_count, link_count);
    code = ashthulgo_check(image, sizeof image - 3, &offset, &constant, &account_count, &link_count);
    printf("check %u %zu %" PRIu32 " %zu %zu\n", code, offset, constant, account_count, link_count);
    code = load(ASHTHULGO_ACCOUNTS_MAX, &offset);
    printf("load %u %zu %" PRIx32 " %zu %zu %" PRIu32 " %" PRIu64 "\n", code, offset, constant, account_count, link_count,
           credits[0], lasts[0]);
    code = load(0, &offset);
    printf("load %u %zu %" PRIx32 " %zu %zu %" PRIu32 " %" PRIu64 "\n", code, offset, constant, account_count, link_count,
           credits[0], lasts[0]);
    size_t place = SIZE_MAX;
    code = ashthulgo_reader_load(image, sizeof image - 3, &place, accounts, sizeof accounts, credits, 1, lasts, 1, links,
                                 sizeof links, &offset, &constant, &account_count, &link_count);
    printf("reader %u %zu %zu\n", code, offset, place);
    code = ashthulgo_reader_load(image, sizeof image, &place, accounts, sizeof accounts, credits, 1, lasts, 1, links,
                                 sizeof links, &offset, &constant, &account_count, &link_count);
    printf("reader %u %zu %zu %" PRIx32 " %zu %zu\n", code, offset, place, constant, account_count, link_count);
}

static const uint8_t frame[200] = {3, 0, 0, 0, 0, 7};

static void call(size_t octets, uint64_t time)
{
    uint32_t mask, credit;
    uint8_t code = ashthulgo_frame_call(frame, octets, 2, time, constant, accounts, sizeof accounts, credits,
                                        ASHTHULGO_ACCOUNTS_MAX, lasts, ASHTHULGO_ACCOUNTS_MAX, links, sizeof links,
                                        account_count, link_count, &mask, &credit);
    printf("call %u %" PRIu32 " %" PRIu32 " | %" PRIu32 " %" PRIu64 "\n", code, mask, credit, credits[0], lasts[0]);
}

/* Lent with no account in use, a frame on the wrong port is 10; with 12 octets of link rows, no row is lent whole. */
static void invalid(void)
{
    uint32_t mask, credit;
    uint8_t code = ashthulgo_frame_call(frame, 200, 3, 600, constant, accounts, sizeof accounts, credits, 1, lasts, 1, links,
                                        sizeof links, 0, link_count, &mask, &credit);
    printf("invalid %u ", code);
    code = ashthulgo_frame_call(frame, 200, 3, 600, constant, accounts, sizeof accounts, credits, 1, lasts, 1, links,
                                ASHTHULGO_LINK_ROW_OCTETS - 1, account_count, link_count, &mask, &credit);
    printf("%u\n", code);
}

static void account(void)
{
    uint32_t credit = 100000, reported;
    uint64_t last = 0;
    printf("capacity %" PRIu32 "\n", ashthulgo_capacity(200, 0, 500, ASHTHULGO_MODE_BYTE, 0));
    printf("cost %" PRIu32 " %" PRIu32 "\n", ashthulgo_cost(200, 0, 500, ASHTHULGO_MODE_BYTE, 0, 64),
           ashthulgo_cost(200, 0, 500, ASHTHULGO_MODE_FRAME, 0, 64));
    printf("line octets %" PRIu32 " %" PRIu32 " %" PRIu32 "\n", ashthulgo_capacity(200, 0, 500, ASHTHULGO_MODE_BYTE_LINE, 0),
           ashthulgo_cost(200, 0, 500, ASHTHULGO_MODE_BYTE_LINE, 0, 64),
           ashthulgo_cost(200, 0, 500, ASHTHULGO_MODE_FRAME_LINE, 0, 64));
    ashthulgo_top_up(200, 0, 500, 0, &credit, &last, 499);
    printf("top up %" PRIu32 " %" PRIu64 "\n", credit, last);
    uint8_t code = ashthulgo_police(200, 0, 500, 0, &credit, &last, 200, 500, &reported);
    printf("police %u %" PRIu32 " | %" PRIu32 " %" PRIu64 "\n", code, reported, credit, last);
    code = ashthulgo_police_in_place(200, 0, 500, 0, &credit, &last, 64, 820, &reported);
    printf("in place %u %" PRIu32 " | %" PRIu32 " %" PRIu64 "\n", code, reported, credit, last);
    code = ashthulgo_police(200, 0, 500, 4, &credit, &last, 200, 500, &reported);
    printf("police %u %" PRIu32 " | %" PRIu32 " %" PRIu64 "\n", code, reported, credit, last);
}

static void read_and_write(void)
{
    uint8_t small[ASHTHULGO_FRAME_OCTETS_MIN] = {3, 0, 0, 0, 1, 2}, room[ASHTHULGO_IMAGE_OCTETS_MAX];
    uint16_t link;
    uint8_t sequence;
    size_t payload, offset;
    small[59] = 77;
    uint8_t code = ashthulgo_read_frame(small, sizeof small, &link, &sequence, &payload);
    printf("read %u %u %u %zu\n", code, link, sequence, payload);
    memset(room, 0xee, sizeof room);
    code = ashthulgo_write(constant, accounts, sizeof accounts, 1, links, sizeof links, 1, room, sizeof room, &offset);
    printf("write %u %zu %d %x\n", code, offset, memcmp(room, image, sizeof image), room[36]);
    /* Octets where rows are to be counted. */
    code = ashthulgo_write(constant, accounts, sizeof accounts, sizeof accounts, links, sizeof links, 1, room, sizeof room,
                           &offset);
    printf("write %u %zu %d\n", code, offset, memcmp(room, image, sizeof image));
}

/* Link 7 with a SkewMax of 5,000. */
static const uint8_t rows[ASHTHULGO_RECEIVE_ROW_OCTETS] = {0, 7, 0, 0, 0x13, 0x88};

static void receive(uint16_t link, uint8_t network, uint8_t number, uint64_t time)
{
    static uint64_t records[ASHTHULGO_RECORD_WORDS];
    uint8_t code = ashthulgo_receive(link, network, number, time, rows, sizeof rows, records, ASHTHULGO_RECORD_WORDS);
    printf("receive %u | %" PRIu64 " %" PRIu64 " %" PRIu64 "\n", code, records[0], records[1], records[2]);
}

/* What the header warns of: Interface_IDs, 1 for A and 2 for B, both count as B here, and the copy is out of sequence. */
static void interface_ids(void)
{
    static uint64_t records[ASHTHULGO_RECORD_WORDS];
    uint8_t first = ashthulgo_receive(7, 1, 1, 100, rows, sizeof rows, records, ASHTHULGO_RECORD_WORDS);
    uint8_t copy = ashthulgo_receive(7, 2, 1, 100, rows, sizeof rows, records, ASHTHULGO_RECORD_WORDS);
    printf("interface %u %u\n", first, copy);
}

int main(void)
{
    check_and_load();
    call(200, 0);
    call(200, 499);
    call(200, 500);
    call(200, 499);
    call(63, 600);
    call(200, UINT64_MAX);
    invalid();
    account();
    read_and_write();
    receive(7, ASHTHULGO_NETWORK_A, 1, 100);
    receive(7, ASHTHULGO_NETWORK_B, 1, 5100);
    receive(7, ASHTHULGO_NETWORK_B, 9, 5200);
    receive(7, ASHTHULGO_NETWORK_A, 2, 5199);
    receive(8, ASHTHULGO_NETWORK_A, 2, 5200);
    /* 255 is followed by 1. */
    receive(7, ASHTHULGO_NETWORK_A, 255, 5300);
    receive(7, ASHTHULGO_NETWORK_A, 1, 5400);
    interface_ids();
    return 0;
}
