/* Compares the compiled functions `replay_digits::read` and `replay_output::put` with the rule: bench/digits. */
#include <inttypes.h>
#include <signal.h>
#include <stdio.h>
#include <stdlib.h>
#include <string.h>
#include <sys/mman.h>
#include <time.h>
#include <unistd.h>

typedef unsigned char byte;

/* As the module passes them: a slice as where it is and its length, an Option as its tag and its value. */
struct slice { byte *at; uint64_t length; };
struct digits { byte tag; uint64_t number; };
enum { BAD, NUMBER, UNTOUCHED = 0x5a }; /* None, Some */
struct digits compiled_read(const byte *s, uint64_t length, uint64_t at);
uint64_t compiled_put(const byte *key, uint64_t key_length, uint64_t v, byte *out, uint64_t length, uint64_t at);

static void bench_read(struct digits *to, const struct slice *s, uint64_t at) { *to = compiled_read(s->at, s->length, at); }

static uint64_t bench_put(const struct slice *key, uint64_t v, const struct slice *out, uint64_t at) {
    return compiled_put(key->at, key->length, v, out->at, out->length, at);
}

/* The rule of the reader: sixteen bytes, each of '0' to '9' or 'a' to 'f', the first digit in front. All else is no number. */
__attribute__((noinline)) static void rule(struct digits *to, const struct slice *s, uint64_t at) {
    uint64_t number = 0;
    to->tag = BAD;
    if (s->length < at || s->length - at < 16) return;
    for (int i = 0; i < 16; i++) {
        byte b = s->at[at + i];
        if ('0' <= b && b <= '9') number = number * 16 + (b - '0');
        else if ('a' <= b && b <= 'f') number = number * 16 + (b - 'a' + 10);
        else return;
    }
    to->tag = NUMBER;
    to->number = number;
}

/* A number with commas; up to four in one printf. */
static const char *commas(uint64_t number) {
    static char texts[4][32];
    static int turn;
    char *to = texts[turn = (turn + 1) % 4] + 31;
    for (int places = 0; number || !places; number /= 10) {
        if (places && places % 3 == 0) *--to = ',';
        *--to = '0' + number % 10;
        places++;
    }
    return to;
}

/* ---- what is compared now, for the message */
static uint64_t strings, numbers, lines;
static struct slice now_in;
static uint64_t now_at, now_number;
static const struct slice *now_key;

static void show(void) {
    if (now_key) {
        printf("put: the number %016" PRIx64 " behind a key of %" PRIu64 " bytes", now_number, now_key->length);
        printf(" at %" PRIu64 " of %" PRIu64 " bytes\n", now_at, now_in.length);
        return;
    }
    printf("read: at %" PRIu64 " of %" PRIu64 " bytes", now_at, now_in.length);
    for (uint64_t i = now_at; i < now_in.length && i - now_at < 16; i++) printf(i == now_at ? ": %02x" : " %02x", now_in.at[i]);
    printf("  \"");
    for (uint64_t i = now_at; i < now_in.length && i - now_at < 16; i++) putchar(' ' <= now_in.at[i] && now_in.at[i] <= '~' ? now_in.at[i] : '.');
    printf("\"\n");
}

/* A place beyond a slice, or one that the compiler took for one that is never reached. */
static void fault(int number) {
    show();
    printf("    signal %d: %s\n", number, strsignal(number));
    printf("%s strings, 1 differs\n", commas(strings + lines));
    fflush(stdout);
    _exit(1);
}

static void tell(const char *who, struct digits d) {
    if (d.tag == NUMBER) printf("    %s: the number %016" PRIx64 "\n", who, d.number);
    else if (d.tag == BAD) printf("    %s: no number\n", who);
    else printf("    %s: neither, with %02x where the case stands\n", who, d.tag);
}

static void compare(byte *s, uint64_t length, uint64_t at) {
    now_in = (struct slice){s, length}, now_at = at;
    struct slice in = now_in;
    struct digits got = {UNTOUCHED, 0}, expected;
    bench_read(&got, &in, at);
    rule(&expected, &now_in, at);
    strings++;
    numbers += expected.tag == NUMBER;
    if (got.tag == expected.tag && (got.tag == BAD || got.number == expected.number)) return;
    show();
    tell("the compiled reader", got);
    tell("byte by byte", expected);
    printf("%s strings, 1 differs\n", commas(strings));
    exit(1);
}

/* ---- memory that ends where a page does, with none beyond, on either side */
static size_t page;

static byte *pages(size_t size) {
    byte *all = mmap(NULL, size + 2 * page, PROT_NONE, MAP_PRIVATE | MAP_ANONYMOUS, -1, 0);
    if (all == MAP_FAILED || mprotect(all + page, size, PROT_READ | PROT_WRITE)) {
        perror("bench/digits");
        exit(2);
    }
    return all + page;
}

/* ---- numbers by a seed: splitmix64 */
static uint64_t state;

static uint64_t next(void) {
    uint64_t z = state += 0x9e3779b97f4a7c15;
    z = (z ^ z >> 30) * 0xbf58476d1ce4e5b9;
    z = (z ^ z >> 27) * 0x94d049bb133111eb;
    return z ^ z >> 31;
}

static void any(byte *to, int count) {
    for (int i = 0; i < count; i++) to[i] = next() >> 32;
}

static void good(byte *to, int count) {
    for (int i = 0; i < count; i++) to[i] = "0123456789abcdef"[next() >> 60];
}

static void said(const char *what, uint64_t before, uint64_t numbers_before) {
    printf("%-32s%12s strings, %11s of them numbers\n", what, commas(strings - before), commas(numbers - numbers_before));
    fflush(stdout);
}

/* ---- the reader */
static void one_byte(byte *first, byte *last) {
    for (int n = 0; n < 300; n++) {
        byte number[16];
        good(number, 16);
        for (int around = 0; around < 3; around++) {
            static const int places[] = {0, 1, 7, 8, 24, 48};
            for (int p = 0; p < 6; p++) {
                byte *s = places[p] ? last : first;
                if (around == 2) good(s, 64);
                else memset(s, around ? 0xff : 0x00, 64);
                byte *at = s + places[p];
                memcpy(at, number, 16);
                for (int i = 0; i < 16; i++) {
                    for (int b = 0; b < 256; b++) {
                        at[i] = b;
                        compare(s, 64, places[p]);
                    }
                    at[i] = number[i];
                }
            }
        }
    }
}

static void two_bytes(byte *last) {
    good(last, 64);
    byte *at = last + 48;
    for (int i = 0; i < 15; i++) {
        byte kept[2] = {at[i], at[i + 1]};
        for (int b = 0; b < 65536; b++) {
            at[i] = b >> 8, at[i + 1] = b;
            compare(last, 64, 48);
        }
        memcpy(at + i, kept, 2);
    }
}

static byte near(void) {
    static const byte limits[] = {'/', '0', '9', ':', '@', 'A', 'F', 'G', '`', 'a', 'f', 'g', 0x00, 0x7f, 0x80, 0xff};
    uint64_t r = next() >> 59;
    return r < 16 ? limits[r] : "0123456789abcdef"[r - 16] | 0x80;
}

static void random_strings(byte *last, uint64_t count) {
    any(last, 64);
    for (uint64_t n = 0; n < count; n++) {
        int place = next() % 49;
        byte *at = last + place;
        if (n % 2) {
            any(at, 16);
        } else {
            good(at, 16);
            for (int more = next() % 3; more; more--) {
                int i = next() % 16;
                at[i] = near();
            }
        }
        compare(last, 64, place);
    }
}

static void short_slices(byte *last) {
    static const uint64_t far[] = {17, 64, 1ull << 32, 1ull << 63, -16ull, -15ull, -2ull, -1ull};
    good(last, 64);
    for (int length = 0; length <= 40; length++) {
        byte *s = last + 64 - length;
        for (int at = 0; at <= length + 16; at++) compare(s, length, at);
        for (int i = 0; i < 8; i++) compare(s, length, far[i]), compare(s, length, far[i] + length);
        /* the digits go on where the slice does not */
        for (int at = 0; at <= 40 && length < 24; at++) compare(last, length, at);
    }
}

/* ---- the writer */
enum { ROOM = 160 };

static void compare_put(byte *room, const struct slice *key, uint64_t v, int length, uint64_t at) {
    byte *out = room + ROOM - length, before[ROOM];
    memcpy(before, room, ROOM);
    now_key = key, now_number = v, now_in = (struct slice){out, length}, now_at = at;
    struct slice k = *key, o = now_in;
    uint64_t end = bench_put(&k, v, &o, at), expected = at;
    if (at <= (uint64_t)length && length - at >= key->length + 17) {
        byte *line = before + ROOM - length + at;
        char digits[17];
        memcpy(line, key->at, key->length);
        snprintf(digits, sizeof digits, "%016" PRIx64, v);
        memcpy(line + key->length, digits, 16);
        line[key->length + 16] = '\n';
        expected = at + key->length + 17;
    }
    lines++;
    if (end == expected && !memcmp(before, room, ROOM)) {
        now_key = NULL;
        return;
    }
    show();
    if (end != expected) printf("    it gives the place %" PRIu64 " and not %" PRIu64 "\n", end, expected);
    for (int i = 0; i < ROOM; i++)
        if (before[i] != room[i]) printf("    byte %d of the slice is %02x and not %02x\n", i - (ROOM - length), room[i], before[i]);
    printf("%s strings, 1 differs\n", commas(strings + lines));
    exit(1);
}

static void writes(byte *room, byte *key_room, uint64_t count) {
    static const char *keys[] = {"exit=", "sepc=", "a0=", "a1=", "bad=", ""};
    for (uint64_t n = 0; n < count + 130; n++) {
        uint64_t v = n < 64 ? 1ull << n : n < 128 ? ~(1ull << (n - 64)) : n < 130 ? -(n % 2) : next();
        int length = 40 + next() % (ROOM - 40 + 1), known = next() % 8;
        uint64_t size = known < 6 ? strlen(keys[known]) : next() % 13;
        struct slice key = {key_room + page - size, size};
        if (known < 6) memcpy(key.at, keys[known], size);
        else any(key.at, size);
        /* the last room is as good as any */
        uint64_t at = n % 4 ? next() % (length - size - 16) : length - size - 17;
        if (n % 3 == 2) any(room, ROOM);
        else memset(room, n % 3 ? 0xff : 0x00, ROOM);
        compare_put(room, &key, v, length, at);
    }
}

static void no_room(byte *room, byte *key_room) {
    static const uint64_t far[] = {64, 1ull << 32, 1ull << 63, -34ull, -33ull, -18ull, -17ull, -16ull, -1ull};
    any(room, ROOM);
    for (uint64_t size = 0; size <= 12; size++) {
        struct slice key = {key_room + page - size, size};
        good(key.at, size);
        for (int length = 0; length <= 48; length++) {
            for (int at = 0; at <= length + 2; at++) compare_put(room, &key, next(), length, at);
            for (int i = 0; i < 9; i++) compare_put(room, &key, next(), length, far[i]);
        }
    }
}

/* ---- the time of a call, beside the same byte by byte and eight digits at a time */
static uint64_t each(byte b) { return b * 0x0101010101010101ull; }
static uint64_t values(uint64_t glyphs) { return ((glyphs & each(15)) + (glyphs >> 6 & each(1)) * 9) & each(15); }
static uint64_t glyphs(uint64_t values) { return values + each('0') + ((values + each(6)) >> 4 & each(1)) * ('a' - '9' - 1); }

static uint64_t fold(uint64_t values) {
    uint64_t twos = (values | values >> 4) & 0x00ff00ff00ff00ff, fours = (twos | twos >> 8) & 0x0000ffff0000ffff;
    return (fours | fours >> 16) & 0xffffffff;
}

static uint64_t spread(uint64_t number) {
    uint64_t fours = (number | number << 16) & 0x0000ffff0000ffff, twos = (fours | fours << 8) & 0x00ff00ff00ff00ff;
    return (twos | twos << 4) & each(15);
}

/* the first byte is the highest: both processors keep it lowest */
static uint64_t load(const byte *from) {
    uint64_t word;
    memcpy(&word, from, 8);
    return __builtin_bswap64(word);
}

static void store(byte *to, uint64_t word) {
    word = __builtin_bswap64(word);
    memcpy(to, &word, 8);
}

__attribute__((noinline)) static void eight(struct digits *to, const struct slice *s, uint64_t at) {
    to->tag = BAD;
    if (s->length < at || s->length - at < 16) return;
    uint64_t high = load(s->at + at), low = load(s->at + at + 8), h = values(high), l = values(low);
    if ((glyphs(h) ^ high) | (glyphs(l) ^ low)) return;
    to->tag = NUMBER;
    to->number = fold(h) << 32 | fold(l);
}

__attribute__((noinline)) static uint64_t put_rule(const struct slice *key, uint64_t v, const struct slice *out, uint64_t at) {
    if (out->length < at || out->length - at < key->length + 17) return at;
    byte *to = out->at + at;
    for (uint64_t i = 0; i < key->length; i++) *to++ = key->at[i];
    for (int shift = 60; shift >= 0; shift -= 4) *to++ = "0123456789abcdef"[v >> shift & 15];
    *to = '\n';
    return at + key->length + 17;
}

__attribute__((noinline)) static uint64_t put_eight(const struct slice *key, uint64_t v, const struct slice *out, uint64_t at) {
    if (out->length < at || out->length - at < key->length + 17) return at;
    byte *to = out->at + at;
    memcpy(to, key->at, key->length);
    store(to + key->length, glyphs(spread(v >> 32)));
    store(to + key->length + 8, glyphs(spread(v & 0xffffffff)));
    to[key->length + 16] = '\n';
    return at + key->length + 17;
}

static double seconds(void) {
    struct timespec t;
    clock_gettime(CLOCK_MONOTONIC, &t);
    return t.tv_sec + t.tv_nsec / 1e9;
}

enum { CALLS = 1024, ROUNDS = 1000 };
static volatile uint64_t kept;

static double read_time(void (*reader)(struct digits *, const struct slice *, uint64_t), const struct slice *s) {
    struct digits d;
    double least = 1;
    for (int round = 0; round < ROUNDS; round++) {
        uint64_t sum = 0;
        double begun = seconds();
        for (int i = 0; i < CALLS; i++) reader(&d, s, 16 * i), sum += d.number;
        double taken = seconds() - begun;
        kept = sum;
        if (taken < least) least = taken;
    }
    return least / CALLS * 1e9;
}

static double put_time(uint64_t (*writer)(const struct slice *, uint64_t, const struct slice *, uint64_t), const uint64_t *v,
                       const struct slice *out) {
    struct slice key = {(byte *)"sepc=", 5};
    double least = 1;
    for (int round = 0; round < ROUNDS; round++) {
        uint64_t at = 0;
        double begun = seconds();
        for (int i = 0; i < CALLS; i++) at = writer(&key, v[i], out, at);
        double taken = seconds() - begun;
        kept = at;
        if (taken < least) least = taken;
    }
    return least / CALLS * 1e9;
}

static void times(void) {
    static byte text[16 * CALLS], written[22 * CALLS];
    static uint64_t v[CALLS];
    struct slice in = {text, sizeof text}, out = {written, sizeof written};
    good(text, sizeof text);
    for (int i = 0; i < CALLS; i++) v[i] = next();
    printf("%-32s%10s%16s%24s\n", "nanoseconds of a call", "proved", "byte by byte", "eight at a time, in C");
    printf("%-32s%10.1f%16.1f%24.1f\n", "read", read_time(bench_read, &in), read_time(rule, &in), read_time(eight, &in));
    printf("%-32s%10.1f%16.1f%24.1f\n", "put", put_time(bench_put, v, &out), put_time(put_rule, v, &out), put_time(put_eight, v, &out));
}

int main(int count, char **words) {
    if (count != 3) return 2;
    uint64_t millions = strtoull(words[1], NULL, 10);
    state = strtoull(words[2], NULL, 10);
    page = sysconf(_SC_PAGESIZE);
    int signals[] = {SIGSEGV, SIGBUS, SIGILL, SIGTRAP};
    for (int i = 0; i < 4; i++) signal(signals[i], fault);
    byte *first = pages(page), *last = first + page - 64, *room = pages(page) + page - ROOM, *key_room = pages(page);
    one_byte(first, last);
    said("one byte any", 0, 0);
    uint64_t before = strings, numbers_before = numbers;
    two_bytes(last);
    said("two bytes side by side any", before, numbers_before);
    before = strings, numbers_before = numbers;
    short_slices(last);
    said("short slices, far places", before, numbers_before);
    before = strings, numbers_before = numbers;
    random_strings(last, millions * 1000000);
    said("random", before, numbers_before);
    writes(room, key_room, millions * 50000);
    no_room(room, key_room);
    printf("%-32s%12s lines\n", "written", commas(lines));
    times();
    printf("%s strings, 0 differ\n", commas(strings + lines));
    return 0;
}
