/*
 * driver plain|rust|library CALL FILE [NUMBER...]   makes one call, for `run` to count
 * driver time CALL FILE [NUMBER...]                 prints the nanoseconds of a call: plain C's, plain Rust's and the library's
 *
 * FILE is the routes of an option 121 for route_walk, which steps to their end, and nine bytes a route for routes_write; else a message (for captures_feed one that fills a part of 64 KiB, again and again), the sheet to write or to group, for vendor_records and relay_records the data of an option 43 or 82, or a grouped file, from which is chosen for
 * the class "meter".
 * The numbers: the code for lookup, data, copy and index_lookup; the buffer's size and the permission for write.
 * The library's side is left out unless LIBRARY is defined, Rust's unless RUST is.
 */
#define _POSIX_C_SOURCE 199309L

#include "input.h"
#include "dhcpopt.h"
#include "plain.h"

#include <stdbool.h>
#include <string.h>
#include <time.h>

enum { ROOM = 4100, CALLS = 2000, REPETITIONS = 500 };

static uint8_t in[ROOM], out[ROOM];
static size_t size, room;
static uint8_t code, permission;
static uint16_t numbers[256];

/* A part of a file of captures: records of the one message, and where the tally is kept. */
enum { PART = 65536 };
static uint8_t part[PART], kept[1472];
static size_t part_size;
static uint64_t verdicts[8], held[256], held_bytes[256];

/* The codes that a service asks for: ten that an offer has, and twenty more. */
static const uint8_t thirty[] = {1,  2,  3,  4,  6,  7,  12, 13, 15, 16, 17, 23, 26, 28, 33,
                                 40, 42, 43, 44, 50, 51, 53, 54, 55, 57, 58, 59, 60, 61, 66};

static const uint64_t every[4] = {UINT64_MAX, UINT64_MAX, UINT64_MAX, UINT64_MAX};

/* Each makes the call and says whether it was answered. */
static bool lookup_plain(void) { return plain_lookup(in, size, every, code).refusal == 0; }
static bool data_plain(void) { return plain_data(in, size, code).length > 0; }
static bool copy_plain(void) { return plain_copy(in, size, code, out, ROOM).refusal == 0; }
static bool present_plain(void) { return plain_present(in, size).refusal == 0; }
static bool records_plain(void) { return plain_records(in, size, out, ROOM).refusal == 0; }
static bool profile_plain(void) { return plain_profile(in, size).refusal == 0; }
static bool index_build_plain(void) { return plain_index_build(in, size, numbers, 256).refusal == 0; }
static bool index_lookup_plain(void) { return plain_index_lookup(in, size, numbers, 256, every, code).refusal == 0; }
/* A loop of its own for each side, of which the calls are counted too. */
__attribute__((noinline)) static bool plain_thirty(void)
{
    bool good = index_build_plain();
    for (size_t i = 0; i < sizeof thirty; i++)
        good &= plain_index_lookup(in, size, numbers, 256, every, thirty[i]).refusal == 0;
    return good;
}
static bool thirty_plain(void) { return plain_thirty(); }
static const uint8_t meter[5] = "meter";

static bool choose_plain(void) { return plain_choose(in, size, meter, sizeof meter, out, ROOM).refusal == 0; }
static bool check_grouped_plain(void) { return plain_check_grouped(in, size).refusal == 0; }
static bool group_plain(void) { return plain_group(in, size, out, ROOM).refusal == 0; }
static bool ungroup_plain(void) { return plain_ungroup(in, size, out, ROOM).refusal == 0; }
static bool write_plain(void) { return plain_write(in, size, out, room, permission).refusal == 0; }
static bool vendor_records_plain(void) { return plain_vendor_records(in, size, out, ROOM).refusal == 0; }
static bool vendor_write_plain(void) { return plain_vendor_write(in, size, out, ROOM).refusal == 0; }
static bool relay_records_plain(void) { return plain_relay_records(in, size, out, ROOM).refusal == 0; }
static bool relay_write_plain(void) { return plain_relay_write(in, size, out, ROOM).refusal == 0; }
static bool routes_write_plain(void) { return plain_routes_write(in, size, out, ROOM).refusal == 0; }
static bool routes_ignored_plain(void) { return plain_routes_ignored(in, size, every).ignored == 1; }
/* To the end, as a service does: a loop of its own for each side, of which the calls are counted too. */
__attribute__((noinline)) static bool plain_route_walk(void)
{
    uint32_t all = 0;
    size_t at = 0;
    for (plain_route r; r = plain_route_step(in, size, at), r.given; at = r.next)
        all |= r.destination ^ r.router ^ r.width;
    return at == size && all != 0;
}
static bool route_walk_plain(void) { return plain_route_walk(); }
static bool captures_feed_plain(void)
{
    return plain_captures_feed(plain_captures_begin(), part, part_size, kept, verdicts, held, held_bytes).messages != 0;
}

#ifdef LIBRARY
#define LIBRARY_SIDE(call) call##_library
static bool lookup_library(void) { return dhcpopt_lookup(in, size, every[0], every[1], every[2], every[3], code).refusal == 0; }
static bool data_library(void) { return dhcpopt_data(in, size, code).length > 0; }
static bool copy_library(void) { return dhcpopt_copy(in, size, code, out, ROOM).refusal == 0; }
static bool present_library(void) { return dhcpopt_present(in, size).refusal == 0; }
static bool records_library(void) { return dhcpopt_records(in, size, out, ROOM).refusal == 0; }
static bool profile_library(void) { return dhcpopt_profile(in, size).refusal == 0; }
static bool index_build_library(void) { return dhcpopt_index_build(in, size, numbers, 256).refusal == 0; }
static bool index_lookup_library(void)
{
    return dhcpopt_index_lookup(in, size, numbers, 256, every[0], every[1], every[2], every[3], code).refusal == 0;
}
__attribute__((noinline)) static bool dhcpopt_thirty(void)
{
    bool good = index_build_library();
    for (size_t i = 0; i < sizeof thirty; i++)
        good &= dhcpopt_index_lookup(in, size, numbers, 256, every[0], every[1], every[2], every[3], thirty[i]).refusal == 0;
    return good;
}
static bool thirty_library(void) { return dhcpopt_thirty(); }
static bool choose_library(void) { return dhcpopt_choose(in, size, meter, sizeof meter, out, ROOM).refusal == 0; }
static bool check_grouped_library(void) { return dhcpopt_check_grouped(in, size).refusal == 0; }
static bool group_library(void) { return dhcpopt_group(in, size, out, ROOM).refusal == 0; }
static bool ungroup_library(void) { return dhcpopt_ungroup(in, size, out, ROOM).refusal == 0; }
static bool write_library(void) { return dhcpopt_write(in, size, out, room, permission).refusal == 0; }
static bool vendor_records_library(void) { return dhcpopt_vendor_records(in, size, out, ROOM).refusal == 0; }
static bool vendor_write_library(void) { return dhcpopt_vendor_write(in, size, out, ROOM).refusal == 0; }
static bool relay_records_library(void) { return dhcpopt_relay_records(in, size, out, ROOM).refusal == 0; }
static bool relay_write_library(void) { return dhcpopt_relay_write(in, size, out, ROOM).refusal == 0; }
static bool routes_write_library(void) { return dhcpopt_routes_write(in, size, out, ROOM).refusal == 0; }
static bool routes_ignored_library(void)
{
    return dhcpopt_routes_ignored(in, size, every[0], every[1], every[2], every[3]).ignored == 1;
}
__attribute__((noinline)) static bool dhcpopt_route_walk(void)
{
    uint32_t all = 0;
    size_t at = 0;
    for (dhcpopt_route r; r = dhcpopt_route_step(in, size, at), r.given; at = r.next)
        all |= r.destination ^ r.router ^ r.width;
    return at == size && all != 0;
}
static bool route_walk_library(void) { return dhcpopt_route_walk(); }
static bool captures_feed_library(void)
{
    static const dhcpopt_captures begun;
    return dhcpopt_captures_feed(part, part_size, begun, kept, verdicts, held, held_bytes).messages != 0;
}
#else
#define LIBRARY_SIDE(call) NULL
#endif

#ifdef RUST
#define RUST_SIDE(call) call##_rust
dhcpopt_answer independent_lookup(const uint8_t *m, size_t n, uint64_t k0, uint64_t k1, uint64_t k2, uint64_t k3, uint8_t code);
dhcpopt_extent independent_data(const uint8_t *m, size_t n, uint8_t code);
dhcpopt_filled independent_copy(const uint8_t *m, size_t n, uint8_t code, uint8_t *out, size_t room);
dhcpopt_codes independent_present(const uint8_t *m, size_t n);
dhcpopt_filled independent_records(const uint8_t *m, size_t n, uint8_t *out, size_t room);
dhcpopt_filled independent_index_build(const uint8_t *m, size_t n, uint16_t *index, size_t count);
dhcpopt_answer independent_index_lookup(const uint8_t *m, size_t n, const uint16_t *index, size_t count, uint64_t k0, uint64_t k1,
                                        uint64_t k2, uint64_t k3, uint8_t code);
dhcpopt_profile_answer independent_profile(const uint8_t *m, size_t n);
dhcpopt_filled independent_choose(const uint8_t *f, size_t n, const uint8_t *class, size_t letters, uint8_t *out, size_t room);
dhcpopt_checked independent_check_grouped(const uint8_t *f, size_t n);
dhcpopt_filled independent_group(const uint8_t *s, size_t n, uint8_t *out, size_t room);
dhcpopt_filled independent_ungroup(const uint8_t *f, size_t n, uint8_t *out, size_t room);
dhcpopt_wrote independent_write(const uint8_t *sheet, size_t n, uint8_t *m, size_t room, uint8_t permission);
dhcpopt_filled independent_vendor_records(const uint8_t *bytes, size_t n, uint8_t *out, size_t room);
dhcpopt_filled independent_vendor_write(const uint8_t *sheet, size_t n, uint8_t *out, size_t room);
dhcpopt_relay independent_relay_records(const uint8_t *bytes, size_t n, uint8_t *out, size_t room);
dhcpopt_filled independent_relay_write(const uint8_t *sheet, size_t n, uint8_t *out, size_t room);
dhcpopt_route independent_route_step(const uint8_t *bytes, size_t n, size_t at);
dhcpopt_filled independent_routes_write(const uint8_t *routes, size_t n, uint8_t *out, size_t room);
dhcpopt_ignored independent_routes_ignored(const uint8_t *m, size_t n, uint64_t k0, uint64_t k1, uint64_t k2, uint64_t k3);
void *independent_captures_begin(void);
void independent_captures_feed(void *tally, const uint8_t *part, size_t n);
static bool captures_feed_rust(void)
{
    static void *tally;
    /* A tally takes 1,000,000 messages. */
    static size_t fed;
    if (fed++ % 1000 == 0) {
        free(tally);
        tally = independent_captures_begin();
    }
    independent_captures_feed(tally, part, part_size);
    return true;
}
static bool lookup_rust(void) { return independent_lookup(in, size, every[0], every[1], every[2], every[3], code).refusal == 0; }
static bool data_rust(void) { return independent_data(in, size, code).length > 0; }
static bool copy_rust(void) { return independent_copy(in, size, code, out, ROOM).refusal == 0; }
static bool present_rust(void) { return independent_present(in, size).refusal == 0; }
static bool records_rust(void) { return independent_records(in, size, out, ROOM).refusal == 0; }
static bool profile_rust(void) { return independent_profile(in, size).refusal == 0; }
static bool index_build_rust(void) { return independent_index_build(in, size, numbers, 256).refusal == 0; }
static bool index_lookup_rust(void)
{
    return independent_index_lookup(in, size, numbers, 256, every[0], every[1], every[2], every[3], code).refusal == 0;
}
__attribute__((noinline)) static bool independent_thirty(void)
{
    bool good = index_build_rust();
    for (size_t i = 0; i < sizeof thirty; i++)
        good &= independent_index_lookup(in, size, numbers, 256, every[0], every[1], every[2], every[3], thirty[i]).refusal == 0;
    return good;
}
static bool thirty_rust(void) { return independent_thirty(); }
static bool choose_rust(void) { return independent_choose(in, size, meter, sizeof meter, out, ROOM).refusal == 0; }
static bool check_grouped_rust(void) { return independent_check_grouped(in, size).refusal == 0; }
static bool group_rust(void) { return independent_group(in, size, out, ROOM).refusal == 0; }
static bool ungroup_rust(void) { return independent_ungroup(in, size, out, ROOM).refusal == 0; }
static bool write_rust(void) { return independent_write(in, size, out, room, permission).refusal == 0; }
static bool vendor_records_rust(void) { return independent_vendor_records(in, size, out, ROOM).refusal == 0; }
static bool vendor_write_rust(void) { return independent_vendor_write(in, size, out, ROOM).refusal == 0; }
static bool relay_records_rust(void) { return independent_relay_records(in, size, out, ROOM).refusal == 0; }
static bool relay_write_rust(void) { return independent_relay_write(in, size, out, ROOM).refusal == 0; }
static bool routes_write_rust(void) { return independent_routes_write(in, size, out, ROOM).refusal == 0; }
static bool routes_ignored_rust(void)
{
    return independent_routes_ignored(in, size, every[0], every[1], every[2], every[3]).ignored == 1;
}
__attribute__((noinline)) static bool independent_route_walk(void)
{
    uint32_t all = 0;
    size_t at = 0;
    for (dhcpopt_route r; r = independent_route_step(in, size, at), r.given; at = r.next)
        all |= r.destination ^ r.router ^ r.width;
    return at == size && all != 0;
}
static bool route_walk_rust(void) { return independent_route_walk(); }
#else
#define RUST_SIDE(call) NULL
#endif

#define SIDES(call) {#call, {call##_plain, RUST_SIDE(call), LIBRARY_SIDE(call)}}

typedef struct {
    const char *name;
    bool (*side[3])(void);
} call_sides;

static const char *const names[3] = {"plain", "rust", "library"};
static const call_sides calls[] = {SIDES(lookup), SIDES(data), SIDES(copy), SIDES(present), SIDES(records), SIDES(write),
                                   SIDES(vendor_records), SIDES(vendor_write), SIDES(relay_records), SIDES(relay_write), SIDES(route_walk), SIDES(routes_write), SIDES(routes_ignored), SIDES(index_build), SIDES(index_lookup), SIDES(thirty), SIDES(profile),
                                   SIDES(choose), SIDES(check_grouped), SIDES(group), SIDES(ungroup), SIDES(captures_feed)};

static const call_sides *find(const char *name)
{
    for (size_t i = 0; i < sizeof calls / sizeof calls[0]; i++)
        if (strcmp(calls[i].name, name) == 0)
            return &calls[i];
    fail("no such call", name);
    return NULL;
}

static double nanoseconds(bool (*call)(void))
{
    struct timespec a, b;
    clock_gettime(CLOCK_MONOTONIC, &a);
    for (int i = 0; i < CALLS; i++)
        call();
    clock_gettime(CLOCK_MONOTONIC, &b);
    return ((double)(b.tv_sec - a.tv_sec) * 1e9 + (double)(b.tv_nsec - a.tv_nsec)) / CALLS;
}

/* The sides take turns, so that what else the machine does meets all. */
static void time_all(const call_sides *c)
{
    double best[3] = {1e9, 1e9, 1e9};
    for (int i = 0; i < REPETITIONS; i++)
        for (int k = 0; k < 3; k++) {
            double t = c->side[k] == NULL ? 0 : nanoseconds(c->side[k]);
            best[k] = t < best[k] ? t : best[k];
        }
    printf("%.0f %.0f %.0f\n", best[0], best[1], best[2]);
}

int main(int argc, char **argv)
{
    if (argc < 4)
        fail("usage", "driver plain|rust|library|time CALL FILE [NUMBER...]");
    const call_sides *c = find(argv[2]);
    size = take(argv[3], in, sizeof in);
    if (argc == 5)
        code = (uint8_t)atoi(argv[4]);
    if (argc == 6) {
        room = strtoul(argv[4], NULL, 10);
        permission = (uint8_t)atoi(argv[5]);
    }
    if (room > sizeof out)
        fail("no such buffer", argv[4]);
    /* An index for index_lookup, built by the side that is not counted. */
    if (strcmp(argv[2], "index_lookup") == 0)
        plain_index_build(in, size, numbers, 256);
    for (part_size = 0; part_size + 3 + size <= PART; part_size += 3 + size) {
        part[part_size] = 1;
        part[part_size + 1] = (uint8_t)(size >> 8);
        part[part_size + 2] = (uint8_t)size;
        memcpy(part + part_size + 3, in, size);
    }
    if (strcmp(argv[1], "time") == 0) {
        time_all(c);
        return 0;
    }
    bool (*call)(void) = NULL;
    for (int k = 0; k < 3; k++)
        if (strcmp(argv[1], names[k]) == 0)
            call = c->side[k];
    if (call == NULL)
        fail("built without this side", argv[1]);
    if (!call())
        fail("refused", argv[2]);
    return 0;
}
