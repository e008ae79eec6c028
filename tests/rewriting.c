/* The rewrite against the independent reading: images of both editions whose defaults share any number of classes, rooms exact, one byte short and longer, damaged images, chains cut in their middle, the largest ones. Then the scans
 * of an image and of what it became: the same bytes taken, reports and states, and of no state and byte more hops. */
#include <stdio.h>
#include <string.h>

#include "built.h"
#include "kamordast.h"
#include "reference/reference.h"
#include "rewritten.h"

static uint8_t other[LONGEST_IMAGE], payload[64], before[6 * KAMORDAST_MOST_LABELS * sizeof payload], after[sizeof before];
static uint64_t scans, gone, unchanged, longer, shallower, nearer, fewer, given_to_damage[26];

/* The hops of each state and class in an image: the steps to the first state on the chain that stores the class. */
typedef struct {
    uint16_t of[512][256];
} hops;

static hops *find_hops(const uint8_t *b, size_t length, hops *found) {
    uint32_t n = states_in(b), k = number16(b, 2);
    size_t records = records_in(b), at = length - 12 - 4 * (size_t)number32(b, 8);
    memset(found, 255, sizeof *found);
    for (uint32_t s = 0; s < n; s++)
        for (uint32_t left = number16(b, records + 4 * s + 2); left; left--, at += 4) found->of[s][number16(b, at)] = 0;
    /* What a state does not store costs a hop more than its default; n rounds are enough for the longest chain. */
    for (uint32_t open = 1, round = 0; open && round <= n; round++) {
        open = 0;
        for (uint32_t s = 0; s < n; s++)
            for (uint32_t c = 0; c < k; c++) {
                if (found->of[s][c] != 65535) continue;
                uint16_t next = found->of[number16(b, records + 4 * s)][c];
                if (next != 65535) found->of[s][c] = (uint16_t)(next + 1);
                else open = 1;
            }
    }
    return found;
}

/* No state and class cost more hops than before; answers how many cost fewer. Both worsts are the largest of them. */
static uint64_t no_farther(size_t length, size_t other_length) {
    static hops old, now;
    uint32_t n = states_in(image), k = number16(image, 2), old_worst = 0, worst = 0;
    uint64_t less = 0;
    find_hops(image, length, &old);
    find_hops(other, other_length, &now);
    for (uint32_t s = 0; s < n; s++)
        for (uint32_t c = 0; c < k; c++) {
            if (now.of[s][c] > old.of[s][c]) fail("a state and a byte cost more hops than before", cases);
            less += now.of[s][c] < old.of[s][c];
            if (old.of[s][c] > old_worst) old_worst = old.of[s][c];
            if (now.of[s][c] > worst) worst = now.of[s][c];
        }
    if (number16(image, length - 4) != old_worst || number16(other, other_length - 4) != worst) fail("the worst is not the largest", cases);
    return less;
}

/* Scans by the archive from every state, or on large images from some: one byte, and payloads in rooms for all, for some and for no reports. */
static void scanned(size_t length, size_t other_length) {
    uint32_t n = states_in(image), step = n > 20 ? n / 5 : 1;
    for (uint32_t s = 0; s <= n; s += step)
        for (int run = 0; run < 4; run++) {
            size_t bytes = run ? below(sizeof payload) : 1, room = below(3) ? sizeof before : below(6 * (uint32_t)bytes + 1);
            for (size_t i = 0; i < bytes; i++) payload[i] = (uint8_t)below(256);
            memset(before, 170, sizeof before);
            memset(after, 170, sizeof after);
            kamordast_scanned a = kamordast_scan(image, length, s, payload, bytes, before, room), b = kamordast_scan(other, other_length, s, payload, bytes, after, room);
            if (a.refused != b.refused || a.taken != b.taken || a.state != b.state || a.reports != b.reports) fail("scans before and after part", cases);
            if (memcmp(before, after, sizeof before)) fail("reports before and after part", cases);
            if (b.hops > a.hops) fail("a payload costs more hops than before", cases);
            fewer += b.hops < a.hops;
            scans++;
        }
}

/* The image rewritten, in rooms around the result's length, and what it became in `other`; every default that stays is the one that stood there. Answers the result's length. */
static size_t rewrite(size_t length) {
    size_t result = with_rooms(REWRITE, image, length, 0, 0);
    if (!result) fail("an image as it should be is not rewritten", cases);
    compared(REWRITE, image, length, 0, 0, LONGEST_IMAGE);
    memcpy(other, wanted, result);
    uint32_t left = unworthy_in(image), went = 0;
    for (uint32_t s = 0; s < states_in(image); s++) {
        uint32_t was = number16(image, records_in(image) + 4 * s), is = number16(other, records_in(other) + 4 * s);
        if (is != was && is != 65535) fail("a default became another", s);
        went += is != was;
    }
    if (went != left || rewritten(image, length, cases) != left) fail("another number of defaults went", cases);
    gone += went;
    unchanged += went == 0;
    longer += result > length;
    shallower += number16(other, 6) < number16(image, 6);
    if (result < length || number16(other, 6) > number16(image, 6) || number16(other, result - 4) > number16(image, length - 4)) fail("shorter, deeper or worse than before", cases);
    nearer += no_farther(length, result);
    return result;
}

/* The image of the table with any list of defaults. */
static size_t written(size_t length) {
    reference_built built = reference_image(table, length, defaults, 2 * (size_t)states_in(table), image, sizeof image);
    if (built.refused) fail("the reference refused its own table", cases);
    return built.length;
}

static void random_images(int rounds) {
    while (rounds--) {
        uint32_t n = rounds % 200 ? 1 + below(14) : 512 - below(100), k = rounds % 200 ? 1 + below(9) : 256 - below(100);
        size_t length = either_edition(table, make_table(table, n, k, below(257)));
        make_defaults(defaults, n, 128 + below(129));
        if (rounds % 5 == 0) leave_worthy(defaults, table);
        length = written(length);
        scanned(length, rewrite(length));
    }
}

/* A chain of states 4 to 0 in which a state shares some number of classes with the next: below two its default goes, from two on it stays, whatever the chain gives. Rows of k classes; `own` says how many classes a
 * state has for itself. */
static size_t make_chain(uint32_t k, const uint32_t *own) {
    size_t length = make_table(table, 5, k, 256);
    for (uint32_t s = 0; s < 5; s++) {
        for (uint32_t c = 0; c < k; c++) set16(table, 272 + 2 * (s * k + c), s == 0 ? 0 : c < own[s] ? s : number16(table, 272 + 2 * ((s - 1) * k + c)));
        set16(defaults, 2 * s, s ? s - 1 : 65535);
    }
    return length;
}

/* Chains cut in the middle, at the end, everywhere and nowhere: with own[s] classes of its own a state shares k - own[s] with the next. */
static void cut_chains(void) {
    for (uint32_t k = 1; k <= 4; k++)
        for (uint32_t number = 0; number < (k + 1) * (k + 1) * (k + 1) * (k + 1); number++) {
            uint32_t own[5] = {0}, rest = number, went = 0;
            for (uint32_t s = 1; s < 5; s++, rest /= k + 1) {
                own[s] = rest % (k + 1);
                went += k - own[s] < 2;
            }
            size_t length = written(make_chain(k, own));
            uint64_t so_far = gone;
            scanned(length, rewrite(length));
            if (gone != so_far + went) fail("a default goes just where it shares fewer than two classes", number);
        }
}

/* Damaged images: the image's number, in every room. */
static void damaged(int rounds) {
    while (rounds--) {
        uint32_t n = 1 + below(8), k = 1 + below(6);
        size_t length = either_edition(table, make_table(table, n, k, below(257)));
        make_defaults(defaults, n, 200);
        length = written(length);
        memcpy(other, image, length);
        damage_image(image, other, length);
        if (below(8) == 0) length = below(2) ? below(24) : below((uint32_t)length);
        uint32_t number = reference_judge_image(image, length);
        uint64_t so_far = given[number];
        if (!number) continue;
        compared(REWRITE, image, length, 0, 0, below(2) ? LONGEST_IMAGE : below(400));
        if (given[number] != so_far + 1) fail("the image's number comes first", cases);
        given_to_damage[number]++;
    }
    static const uint32_t grounds[] = {1, 2, 3, 4, 5, 6, 7, 8, 9, 10, 11, 12, 13, 19};
    for (size_t i = 0; i < sizeof grounds / sizeof *grounds; i++)
        if (!given_to_damage[grounds[i]]) fail("a ground of images was never given", grounds[i]);
}

/* A chain of 511 defaults that all share one class of two: the image grows by an entry for each, and what took 511 hops takes none. Then the largest images of both editions, their states
 * all falling to state 0, with which they share one class of 256. */
static void largest(void) {
    size_t length = make_table(table, 512, 2, 256), result;
    for (uint32_t s = 0; s < 512; s++) {
        set16(table, rows_in(table) + 4 * s, 511);
        set16(table, rows_in(table) + 4 * s + 2, s);
        set16(defaults, 2 * s, s ? s - 1 : 65535);
    }
    length = written(length);
    if (number16(image, 6) != 511 || number16(image, length - 4) != 511) fail("the long chain", length);
    result = rewrite(length);
    if (result != length + 4 * 511 || number16(other, 6) || number16(other, result - 4)) fail("the long chain rewritten", result);
    scanned(length, result);
    for (int edition = 1; edition <= 2; edition++) {
        length = make_table(table, 512, 256, 0);
        if (edition == 2) {
            memmove(table + 262 + 34 * 512, table + 262 + 2 * 512, length - 262 - 2 * 512);
            set16(table, 0, 32768 + 512);
            for (uint32_t s = 0; s < 512; s++) set16(table, 262 + 2 * s, 16);
            for (uint32_t i = 0; i < 16 * 512; i++) set16(table, 262 + 2 * 512 + 2 * i, 1 + i % 16);
            length = LONGEST_TABLE;
        }
        for (uint32_t i = 0; i < 512 * 256; i++) set16(table, rows_in(table) + 2 * i, i % 256 == 77 ? 5 : i / 256);
        memset(defaults, 0, 1024);
        set16(defaults, 0, 65535);
        length = written(length);
        result = rewrite(length);
        if (result != (edition == 2 ? LONGEST_IMAGE : 527640) || length != result - 4 * 511) fail("the largest images", result);
        scanned(length, result);
    }
}

int main(void) {
    begin(221);
    cut_chains();
    random_images(1500);
    damaged(3000);
    largest();
    if (!unchanged || !longer || !shallower || !nearer || !fewer) fail("a kind of rewrite did not occur", cases);
    say("rewriting");
    printf("  %llu defaults went; %llu images unchanged, %llu longer, %llu of less depth; %llu pairs of a state and a class cost fewer hops, none more; %llu scans before and after agree, %llu with fewer hops now\n", (unsigned long long)gone, (unsigned long long)unchanged,
           (unsigned long long)longer, (unsigned long long)shallower, (unsigned long long)nearer, (unsigned long long)scans, (unsigned long long)fewer);
    return 0;
}
