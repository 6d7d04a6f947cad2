/* The reader and writer of document 01, with requests 01 to 11, 13 and 14 of document 02, in plain C: the measure for the library's calls. */
#ifndef PLAIN_H
#define PLAIN_H

#include <stddef.h>
#include <stdint.h>

/* What a lookup answers. */
enum { PLAIN_ABSENT, PLAIN_UNKNOWN, PLAIN_REFUSED, PLAIN_NUMBER, PLAIN_PART, PLAIN_BROKEN };

/* The field that holds an option's code byte. */
enum { PLAIN_NO_FIELD, PLAIN_OPTIONS, PLAIN_FILE, PLAIN_SNAME };

/* The kinds in the order of 01's table; 0: the code has no row. */
enum {
    PLAIN_NO_ROW,
    PLAIN_ADDRESS,
    PLAIN_ADDRESSES,
    PLAIN_PAIRS,
    PLAIN_FLAG,
    PLAIN_OCTET,
    PLAIN_NUMBER16,
    PLAIN_NUMBERS16,
    PLAIN_UNSIGNED32,
    PLAIN_SIGNED32,
    PLAIN_TEXT,
    PLAIN_OPAQUE,
    PLAIN_RELAY,
    PLAIN_ROUTES
};

/* What a call does not give is 0. A refusal is 01's number, 0 if there is none. */
typedef struct {
    uint32_t status, kind, refusal, field;
    int64_t number;
    size_t place, offset, start, length, whole;
    uint32_t several;
} plain_answer;

/* A piece of an option. */
typedef struct {
    uint8_t code;
    uint32_t field;
    size_t offset, start, length;
} plain_piece;

typedef struct {
    size_t start, length;
} plain_extent;

typedef struct {
    uint64_t words[4];
    uint32_t count, lowest, refusal;
    size_t place;
} plain_codes;

typedef struct {
    uint32_t refusal;
    size_t size, place;
} plain_filled;

/* Request 09: the records of sub-options; start and length of the data of circuit id and remote id, a start of 0 where there is none. */
typedef struct {
    uint32_t refusal;
    size_t size, place, circuit_start, circuit_length, remote_start, remote_length;
} plain_relay;

/* Request 14: a route of an option 121, and the place behind it. given 0: done, and next is the place asked for. */
typedef struct {
    uint32_t given, destination, width, router;
    size_t next;
} plain_route;

/* Whether options 3 and 33 are ignored; or a refusal. */
typedef struct {
    uint32_t refusal, ignored;
    size_t place;
} plain_ignored;

/* refusal 0: written, by that plan. */
typedef struct {
    uint32_t refusal, plan;
    size_t place;
} plain_wrote;

/* refusal 0: no fault. */
typedef struct {
    uint32_t refusal;
    size_t place;
} plain_checked;

plain_answer plain_lookup(const uint8_t *m, size_t n, const uint64_t known[4], uint8_t code);
plain_extent plain_data(const uint8_t *m, size_t n, uint8_t code);
plain_filled plain_copy(const uint8_t *m, size_t n, uint8_t code, uint8_t *out, size_t room);
plain_codes plain_present(const uint8_t *m, size_t n);
plain_filled plain_records(const uint8_t *m, size_t n, uint8_t *out, size_t room);
size_t plain_list(const uint8_t *m, size_t n, plain_piece *out); /* the pieces of an accepted message, for check.c; how many */
plain_filled plain_index_build(const uint8_t *m, size_t n, uint16_t *index, size_t count);
plain_answer plain_index_lookup(const uint8_t *m, size_t n, const uint16_t *index, size_t count, const uint64_t known[4], uint8_t code);
plain_wrote plain_write(const uint8_t *sheet, size_t n, uint8_t *m, size_t room, uint8_t permission);
plain_filled plain_vendor_records(const uint8_t *bytes, size_t n, uint8_t *out, size_t room);
plain_filled plain_vendor_write(const uint8_t *sheet, size_t n, uint8_t *out, size_t room);

plain_relay plain_relay_records(const uint8_t *bytes, size_t n, uint8_t *out, size_t room);
plain_filled plain_relay_write(const uint8_t *sheet, size_t n, uint8_t *out, size_t room);

plain_route plain_route_step(const uint8_t *bytes, size_t n, size_t at);
plain_filled plain_routes_write(const uint8_t *routes, size_t n, uint8_t *out, size_t room);
plain_ignored plain_routes_ignored(const uint8_t *m, size_t n, const uint64_t known[4]);

/* Grouped sheets, request 08. */
plain_checked plain_check_grouped(const uint8_t *f, size_t n);
plain_filled plain_choose(const uint8_t *f, size_t n, const uint8_t *class, size_t letters, uint8_t *out, size_t room);
plain_filled plain_group(const uint8_t *sheet, size_t n, uint8_t *out, size_t room);
plain_filled plain_ungroup(const uint8_t *f, size_t n, uint8_t *out, size_t room);

/* The reply profile, request 13: the rules broken, bits 0 to 7; or a refusal. */
typedef struct {
    uint32_t broken, refusal;
    size_t place;
} plain_profiled;

plain_profiled plain_profile(const uint8_t *m, size_t n);

/* A file of captures (request 11): where reading is, and the lease times met. place: of the record's first byte; got: how many bytes of the record were read. */
typedef struct {
    uint64_t place, messages;
    uint32_t got, size, stopped, leases, smallest, largest;
} plain_captures;

plain_captures plain_captures_begin(void);

/* verdicts: 8 numbers, the messages accepted and refused by 1 to 7; held and bytes: 256, by code; message: 1,472 bytes. */
plain_captures plain_captures_feed(plain_captures p, const uint8_t *part, size_t n, uint8_t *message, uint64_t *verdicts,
                                   uint64_t *held, uint64_t *bytes);
size_t plain_captures_report(plain_captures p, const uint64_t *verdicts, const uint64_t *held, const uint64_t *bytes, char out[16384]);

#endif
