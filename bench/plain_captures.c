/* A month of captures (request 11 of document 02), in plain C: its tally, kept part by part, and the report of it. */
#include "plain.h"

#include <inttypes.h>
#include <stdbool.h>
#include <stdio.h>
#include <string.h>

enum { SNAME = 44, FILE_FIELD = 108, COOKIE = 236, OPTIONS = 240, LONGEST = 1472 };
enum { PAD = 0, OVERLOAD = 52, END = 255 };
enum { MESSAGE_TAG = 1, MOST_MESSAGES = 1000000, LEASE = 51, HEAD = 3 };

/* The options of a message, noted while it is judged: they count only if it is accepted. */
typedef struct {
    uint8_t code, size;
} piece;

typedef struct {
    piece pieces[LONGEST / 2];
    size_t count;
    uint32_t over;
    uint32_t time;  /* the last four bytes of 51's pieces */
    size_t lease;   /* how many bytes these have */
} noted;

/* Notes the options of the field from i to end; gives the number of the refusal, or 0. */
static inline uint32_t note_field(noted *w, const uint8_t *m, size_t i, size_t end)
{
    bool options = i == OPTIONS;
    size_t count = w->count;
    while (i < end) {
        uint8_t c = m[i];
        if (c == END) {
            w->count = count;
            return 0;
        }
        if (c == PAD) {
            i++;
            continue;
        }
        if (end - i < 2 || end - i - 2 < m[i + 1])
            return 4;
        size_t n = m[i + 1];
        if (c == OVERLOAD) {
            if (!options || n != 1 || m[i + 2] < 1 || m[i + 2] > 3)
                return 6;
            if (w->over != 0)
                return 7;
            w->over = m[i + 2];
        }
        if (c == LEASE) {
            for (size_t k = 0; k < n; k++)
                w->time = w->time << 8 | m[i + 2 + k];
            w->lease += n;
        }
        w->pieces[count++] = (piece){c, (uint8_t)n};
        i += 2 + n;
    }
    return 5;
}

static uint32_t note_message(noted *w, const uint8_t *m, size_t n)
{
    w->count = 0;
    w->over = w->time = 0;
    w->lease = 0;
    if (n < OPTIONS)
        return 1;
    if (n > LONGEST)
        return 2;
    if (m[COOKIE] != 99 || m[COOKIE + 1] != 130 || m[COOKIE + 2] != 83 || m[COOKIE + 3] != 99)
        return 3;
    uint32_t refusal = note_field(w, m, OPTIONS, n);
    if (refusal == 0 && (w->over & 1))
        refusal = note_field(w, m, FILE_FIELD, COOKIE);
    if (refusal == 0 && (w->over & 2))
        refusal = note_field(w, m, SNAME, FILE_FIELD);
    return refusal;
}

/* One message more. */
static void count_message(plain_captures *p, const uint8_t *m, size_t n, uint64_t *verdicts, uint64_t *held, uint64_t *bytes)
{
    noted w;
    uint32_t refusal = note_message(&w, m, n);
    verdicts[refusal]++;
    p->messages++;
    if (refusal != 0)
        return;
    uint64_t met[4] = {0};
    for (size_t k = 0; k < w.count; k++) {
        uint8_t c = w.pieces[k].code;
        uint64_t bit = (uint64_t)1 << (c % 64);
        bytes[c] += w.pieces[k].size;
        if (!(met[c / 64] & bit)) {
            met[c / 64] |= bit;
            held[c]++;
        }
    }
    if (w.lease != 4)
        return;
    if (!p->leases || w.time < p->smallest)
        p->smallest = w.time;
    if (!p->leases || w.time > p->largest)
        p->largest = w.time;
    p->leases = 1;
}

plain_captures plain_captures_begin(void)
{
    return (plain_captures){0};
}

/* The bytes of the record that is read, as many as are known to come: its head, then its message too. */
static size_t wanted(const plain_captures *p)
{
    return p->got < HEAD ? HEAD : HEAD + p->size;
}

/* Takes bytes of a record that no part holds whole: up to its head's end, or its message's. */
static size_t take_some(plain_captures *p, const uint8_t *part, size_t n, uint8_t *message, uint64_t *verdicts, uint64_t *held,
                        uint64_t *bytes)
{
    size_t k = 0;
    if (p->got < HEAD) {
        uint8_t b = part[k++];
        if (p->got == 0 && (b != MESSAGE_TAG || p->messages == MOST_MESSAGES)) {
            p->stopped = 1;
            return k;
        }
        if (p->got > 0)
            p->size = p->size << 8 | b;
        p->got++;
    } else {
        size_t left = wanted(p) - p->got;
        k = left < n ? left : n;
        if (p->size <= LONGEST)
            memcpy(message + (p->got - HEAD), part, k);
        p->got += (uint32_t)k;
    }
    if (p->got >= HEAD && p->got == wanted(p)) {
        count_message(p, message, p->size, verdicts, held, bytes);
        p->place += p->got;
        p->got = p->size = 0;
    }
    return k;
}

plain_captures plain_captures_feed(plain_captures p, const uint8_t *part, size_t n, uint8_t *message, uint64_t *verdicts,
                                   uint64_t *held, uint64_t *bytes)
{
    size_t i = 0;
    while (i < n && !p.stopped) {
        if (p.got == 0 && n - i >= HEAD && part[i] == MESSAGE_TAG && p.messages < MOST_MESSAGES) {
            size_t size = (size_t)part[i + 1] << 8 | part[i + 2];
            if (size <= n - i - HEAD) {
                count_message(&p, part + i + HEAD, size, verdicts, held, bytes);
                i += HEAD + size;
                p.place += HEAD + size;
                continue;
            }
        }
        i += take_some(&p, part + i, n - i, message, verdicts, held, bytes);
    }
    return p;
}

/* No report is longer: 256 lines of a code, 25 others. */
size_t plain_captures_report(plain_captures p, const uint64_t *verdicts, const uint64_t *held, const uint64_t *bytes, char out[16384])
{
    char *o = out;
    o += sprintf(o, "messages %" PRIu64 "\naccepted %" PRIu64 "\n", p.messages, verdicts[0]);
    for (int r = 1; r <= 7; r++)
        o += sprintf(o, "refusals %d %" PRIu64 "\n", r, verdicts[r]);
    for (int c = 0; c < 256; c++)
        if (held[c] != 0)
            o += sprintf(o, "code %d %" PRIu64 " %" PRIu64 "\n", c, held[c], bytes[c]);
    if (p.leases)
        o += sprintf(o, "lease %" PRIu32 " %" PRIu32 "\n", p.smallest, p.largest);
    else
        o += sprintf(o, "lease none\n");
    if (p.stopped || p.got > 0)
        o += sprintf(o, "refused 24 %" PRIu64 "\n", p.place);
    return (size_t)(o - out);
}
