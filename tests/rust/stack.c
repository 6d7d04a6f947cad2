/*
 * The deepest stack of each call, on messages given as files: each call is made on a stack of its own, filled with a pattern, of which the part
 * that was written is counted. That of a function that makes no call is taken off.
 */
#define _GNU_SOURCE
#include "dhcpopt.h"
#ifdef PLAIN /* of plain C, by the same messages */
#include "plain.h"
#define OF(library, plain) (plain)
#else
#define OF(library, plain) (library)
#endif

#include <stdio.h>
#include <stdlib.h>
#include <ucontext.h>

enum { STACK = 1 << 17, PATTERN = 0xA5 };
static uint8_t stack[STACK] __attribute__((aligned(64)));
static uint8_t message[1473], sheet[8192], out[32768], grouped[8192];
static size_t size, sheet_size, grouped_size;
static uint16_t entries[256];
static uint64_t verdicts[8], held[256], bytes[256];
static uint8_t code;
static ucontext_t back, there;
static volatile uint64_t sink;
#ifdef PLAIN
static const uint64_t all[4] = {UINT64_MAX, UINT64_MAX, UINT64_MAX, UINT64_MAX};
#endif

static void nothing(void) {}
static void lookup(void) { sink += OF(dhcpopt_lookup_known(message, size, dhcpopt_known_all(), code).status, plain_lookup(message, size, all, code).status); }
static void data(void) { sink += OF(dhcpopt_data(message, size, code).start, plain_data(message, size, code).start); }
static void text(void) { sink += OF(dhcpopt_text_known(message, size, dhcpopt_known_all(), code).start, 0); }
static void copy(void) { sink += OF(dhcpopt_copy(message, size, code, out, sizeof out).size, plain_copy(message, size, code, out, sizeof out).size); }
static void present(void) { sink += OF(dhcpopt_present(message, size).count, plain_present(message, size).count); }
static void records(void) { sink += OF(dhcpopt_records(message, size, out, sizeof out).size, plain_records(message, size, out, sizeof out).size); }
static void vendor(void) { sink += OF(dhcpopt_vendor_records(message + 240, size > 240 ? size - 240 : 0, out, sizeof out).size, plain_vendor_records(message + 240, size > 240 ? size - 240 : 0, out, sizeof out).size); }
static void relay(void) { sink += OF(dhcpopt_relay_records(message + 240, size > 240 ? size - 240 : 0, out, sizeof out).size, plain_relay_records(message + 240, size > 240 ? size - 240 : 0, out, sizeof out).size); }
static void address(void) { sink += OF(dhcpopt_address_step(message, size, code).next, 0); }
static void build(void) { sink += OF(dhcpopt_index_build(message, size, entries, 256).size, plain_index_build(message, size, entries, 256).size); }
static void by_index(void) { sink += OF(dhcpopt_index_lookup_known(message, size, entries, 256, dhcpopt_known_all(), code).status, plain_index_lookup(message, size, entries, 256, all, code).status); }
static void index_copy(void) { sink += OF(dhcpopt_index_copy(message, size, entries, 256, code, out, sizeof out).size, 0); }
static void list(void) { sink += OF(dhcpopt_list(message, size, out, sizeof out).size, 0); }
static void end(void) { sink += OF(dhcpopt_options_end(message, size).place, 0); }
static void profile(void) { sink += OF(dhcpopt_profile(message, size).broken, plain_profile(message, size).broken); }
static void written(void) { sink += OF(dhcpopt_write(sheet, sheet_size, out, size, 3).plan, plain_write(sheet, sheet_size, out, size, 3).plan); }
static void vendor_write(void) { sink += OF(dhcpopt_vendor_write(sheet, sheet_size, out, sizeof out).size, plain_vendor_write(sheet, sheet_size, out, sizeof out).size); }
static void relay_write(void) { sink += OF(dhcpopt_relay_write(sheet, sheet_size, out, sizeof out).size, plain_relay_write(sheet, sheet_size, out, sizeof out).size); }
static void check(void) { sink += OF(dhcpopt_check_grouped(grouped, grouped_size).refusal, plain_check_grouped(grouped, grouped_size).refusal); }
static void choose(void) { sink += OF(dhcpopt_choose(grouped, grouped_size, (const uint8_t *)"meter", 5, out, sizeof out).size, plain_choose(grouped, grouped_size, (const uint8_t *)"meter", 5, out, sizeof out).size); }
static void group(void) { sink += OF(dhcpopt_group(sheet, sheet_size, out, sizeof out).size, plain_group(sheet, sheet_size, out, sizeof out).size); }
static void ungroup(void) { sink += OF(dhcpopt_ungroup(grouped, grouped_size, out, sizeof out).size, plain_ungroup(grouped, grouped_size, out, sizeof out).size); }
static void captures(void)
{
    uint8_t head[3] = {1, (uint8_t)(size >> 8), (uint8_t)size};
#ifdef PLAIN
    plain_captures p = plain_captures_feed(plain_captures_begin(), head, 3, out, verdicts, held, bytes);
    p = plain_captures_feed(p, message, size, out, verdicts, held, bytes);
    sink += plain_captures_report(p, verdicts, held, bytes, (char *)out);
#else
    dhcpopt_captures p = dhcpopt_captures_begin(verdicts, held, bytes);
    p = dhcpopt_captures_feed(head, 3, p, out, verdicts, held, bytes);
    p = dhcpopt_captures_feed(message, size, p, out, verdicts, held, bytes);
    sink += dhcpopt_captures_report(p, verdicts, held, bytes, out);
#endif
}

static struct {
    const char *name;
    void (*run)(void);
    int reader;
    size_t deepest;
} calls[] = {
    {"nothing", nothing, 0, 0}, {"lookup", lookup, 1, 0}, {"data", data, 1, 0}, {"text", text, 1, 0}, {"copy", copy, 1, 0}, {"present", present, 1, 0}, {"records", records, 1, 0},
    {"vendor_records", vendor, 1, 0}, {"relay_records", relay, 1, 0}, {"address_step", address, 1, 0}, {"index_build", build, 0, 0}, {"index_lookup", by_index, 0, 0},
    {"index_copy", index_copy, 0, 0}, {"list", list, 0, 0}, {"options_end", end, 0, 0}, {"profile", profile, 0, 0}, {"write", written, 0, 0}, {"vendor_write", vendor_write, 0, 0},
    {"relay_write", relay_write, 0, 0}, {"check_grouped", check, 0, 0}, {"choose", choose, 0, 0}, {"group", group, 0, 0}, {"ungroup", ungroup, 0, 0}, {"captures", captures, 0, 0},
};
enum { CALLS = sizeof calls / sizeof *calls };

static void (*chosen)(void);
static size_t found;

/* Made on the stack that is looked at: from here down to the lowest byte that was written. Looking calls nothing. */
static void made(void)
{
    uint8_t *here = __builtin_frame_address(0);
    chosen();
    uint8_t *at = stack;
    while (at < here && *at == PATTERN)
        at++;
    found = (size_t)(here - at);
}

static size_t depth(void (*run)(void))
{
    memset(stack, PATTERN, STACK);
    getcontext(&there);
    there.uc_stack.ss_sp = stack;
    there.uc_stack.ss_size = STACK;
    there.uc_link = &back;
    chosen = run;
    makecontext(&there, made, 0);
    swapcontext(&back, &there);
    return found;
}

int main(int count, char **names)
{
    static const uint8_t codes[] = {1, 3, 6, 25, 33, 43, 51, 53, 66, 82};
    FILE *f = fopen(names[1], "rb"); /* a grouped file first, then messages */
    grouped_size = f ? fread(grouped, 1, sizeof grouped, f) : 0;
    for (int i = 2; i < count; i++) {
        f = fopen(names[i], "rb");
        if (!f)
            return 2;
        size = fread(message, 1, sizeof message, f);
        fclose(f);
        uint32_t refused = OF(dhcpopt_records(message, size, sheet, sizeof sheet).refusal, plain_records(message, size, sheet, sizeof sheet).refusal);
        sheet_size = refused ? 0 : OF(dhcpopt_records(message, size, sheet, sizeof sheet).size, plain_records(message, size, sheet, sizeof sheet).size);
        if (OF(dhcpopt_index_build(message, size, entries, 256).refusal, plain_index_build(message, size, entries, 256).refusal))
            memset(entries, 0, sizeof entries);
        for (size_t k = 0; k < sizeof codes; k++) {
            code = codes[k];
            for (int c = 0; c < CALLS; c++) {
                size_t d = depth(calls[c].run);
                if (d > calls[c].deepest)
                    calls[c].deepest = d;
            }
        }
    }
    for (int c = 1; c < CALLS; c++)
        printf("%s %s %zu\n", calls[c].name, calls[c].reader ? "reader" : "other", calls[c].deepest - calls[0].deepest);
    return 0;
}
