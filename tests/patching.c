/* Judging patches against the independent reading: every ground in every place of a patch, two faults at once, every beginning and every altered byte of a dozen patches, and counts that lead far. */
#include <stdio.h>
#include <string.h>

#include "patched.h"
#include "reference/reference.h"

static uint64_t places, pairs, beginnings, alterations, above;
static uint8_t sound[LONGEST_PATCH];
static size_t length, patch_length;
static uint32_t n, k, p, q;

/* An image with a patch that lists several states, entries, and a state that falls to another; kept in `sound`. */
static void some_base(uint32_t states, uint32_t classes) {
    int falls;
    do {
        length = some_image(states, classes);
        patch_length = some_patch(length);
        falls = 0;
        for (uint32_t i = 0; i < listing.p; i++) falls |= listing.list[i].fallback != 65535 && listing.list[i].count > 0;
    } while (!patch_length || listing.p < 3 || number32(patch, 6) < 4 || !falls);
    memcpy(sound, patch, patch_length);
    n = states_in(image);
    k = number16(image, 2);
    p = listing.p;
    q = number32(patch, 6);
}

/* A word of the sound patch made another, the trailer mended: this number. */
static void at_place(size_t at, uint32_t word, uint32_t number, const char *sentence) {
    memcpy(patch, sound, patch_length);
    if (number16(patch, at) == (word & 65535)) return;
    set16(patch, at, word);
    mend_check_word(patch, patch_length);
    answers(length, patch_length, number, sentence);
    places++;
}

/* Every place of a patch with every kind of wrong word. */
static void every_place(void) {
    for (uint32_t i = 0; i < p; i++) {
        size_t at = number_at(i);
        at_place(at, n, 24, "a state that is not below n");
        at_place(at, n + 1 + below(60000), 24, "a state far above n");
        at_place(at, 65535, 24, "65535 is no state");
        if (i) at_place(at, number16(sound, at - 2), 24, "a state listed twice");
        if (i) at_place(at, number16(sound, at - 2) - 1, 24, "a state below the one before");
        at = record_at(p, i);
        at_place(at, n, 8, "a default that is not below n");
        at_place(at, 65534, 8, "65534 is no default");
        at_place(at, number16(sound, number_at(i)), 11, "a state that names itself");
        if (number16(sound, at + 2) != k) at_place(at, 65535, 8, "no default and a count that is not k");
        at_place(at + 2, number16(sound, at + 2) + 1, 8, "a count more than q says");
        at_place(at + 2, number16(sound, at + 2) - 1, 8, "a count less than q says");
        at_place(at + 2, k + 1, 8, "a count above k");
        at_place(at + 2, 65535, 8, "a count of 65535");
    }
    for (uint32_t i = 0, j = 0; i < p; i++)
        for (uint32_t own = 0; own < number16(sound, record_at(p, i) + 2); own++, j++) {
            size_t at = entry_at(p, j);
            at_place(at, k, 9, "a class that is not below k");
            at_place(at, 65535, 9, "a class of 65535");
            if (own) at_place(at, number16(sound, at - 4), 9, "a class that stands twice");
            if (own && number16(sound, at - 4)) at_place(at, number16(sound, at - 4) - 1, 9, "a class below the one before");
            at_place(at + 2, n, 10, "a next state that is not below n");
            at_place(at + 2, 65535, 10, "a next state of 65535");
        }
    for (size_t at = 2; at <= 4; at += 2) {
        at_place(at, number16(sound, at) + 1, 13, "depth or worst one more");
        at_place(at, number16(sound, at) - 1, 13, "depth or worst one less");
        at_place(at, 65535, 13, "depth or worst 65535");
    }
    for (size_t at = patch_length - 12; at < patch_length - 4; at += 2) at_place(at, number16(sound, at) + 1, 22, "a wrong length or distance back");
    /* In the place of the image's check word: one that is near it, and any other word of the image. */
    for (uint32_t bit = 0; bit < 16; bit++) at_place(patch_length - 4, number16(sound, patch_length - 4) ^ 1u << bit, 23, "another image's word");
    for (size_t at = 0; at < length; at += 2)
        if (number16(image, at) != number16(image, length - 2)) at_place(patch_length - 4, number16(image, at), 23, "another word of the image");
}

/* Two counts moved against each other, so that the sum is q: one above k is 8, although its classes could not all rise below k; else it is what the entries say. */
static void counts_moved(void) {
    for (uint32_t i = 0; i < p; i++)
        for (uint32_t j = 0; j < p; j++) {
            uint32_t from = listing.list[i].count, to = listing.list[j].count;
            for (uint32_t by = 1; i != j && by <= from; by++) {
                memcpy(patch, sound, patch_length);
                set16(patch, record_at(p, i) + 2, from - by);
                set16(patch, record_at(p, j) + 2, to + by);
                mend_check_word(patch, patch_length);
                uint32_t number = agrees(image, length, patch, patch_length);
                if ((to + by > k || listing.list[i].fallback == 65535 || listing.list[j].fallback == 65535) != (number == 8)) fail("a count is right or wrong by the sum alone", cases);
                above += to + by > k;
            }
        }
}

/* Some faults of a patch, from the first ground to the last; each leaves the others' places as they are, or what it leaves there is the earlier fault. */
enum fault { NO_STATES, FAR_COUNT, DISTANCE, LENGTH, CHECK, WORD, NOT_BELOW, NOT_RISING, DEFAULT, SUM, ROOT, CLASS, CLASSES, NEXT, ITSELF, NEEDLESS, DEPTH, WORST, FAULTS };
static const uint32_t ground_of[FAULTS] = {22, 22, 22, 22, 22, 23, 24, 24, 8, 8, 8, 9, 9, 10, 11, 12, 13, 13};

/* A listed state that falls to another and stores an entry, and where its first entry stands. */
static uint32_t falling_state(uint32_t *first) {
    *first = 0;
    for (uint32_t i = 0; i < p; i++) {
        if (listing.list[i].fallback != 65535 && listing.list[i].count) return i;
        *first += listing.list[i].count;
    }
    return 0;
}

/* What the chain of a state gives for a class in the target. */
static uint32_t given_by(uint32_t s, uint32_t c) {
    static uint8_t rows[LONGEST_TABLE];
    reference_expand(target, target_length, rows, sizeof rows);
    return number16(rows, rows_in(rows) + 2 * ((size_t)s * k + c));
}

static void spoil(enum fault f) {
    uint32_t first, i = falling_state(&first);
    size_t end = patch_length;
    switch (f) {
    case NO_STATES: set16(patch, 0, 0); break;
    case FAR_COUNT: set32(patch, 6, q + (1u << 30)); break;
    case DISTANCE: set32(patch, end - 12, 4 * q + 8); break;
    case LENGTH: set32(patch, end - 8, (uint32_t)end + 4); break;
    case CHECK: break; /* when all else is done */
    case WORD: set16(patch, end - 4, number16(sound, end - 4) ^ 256); break;
    case NOT_BELOW: set16(patch, number_at(p - 1), n); break;
    case NOT_RISING: set16(patch, number_at(1), number16(sound, number_at(0))); break;
    case DEFAULT: set16(patch, record_at(p, p - 1), n); break;
    case SUM: set16(patch, record_at(p, i) + 2, listing.list[i].count - 1); break;
    case ROOT:
        if (listing.list[i].count < k) set16(patch, record_at(p, i), 65535);
        else set16(patch, record_at(p, i) + 2, k + 1);
        break;
    case CLASS: set16(patch, entry_at(p, q - 1), k); break;
    case CLASSES: set16(patch, entry_at(p, 0), 65535); break;
    case NEXT: set16(patch, entry_at(p, 0) + 2, n); break;
    case ITSELF: set16(patch, record_at(p, 0), listing.list[0].state); break;
    case NEEDLESS: set16(patch, entry_at(p, first) + 2, given_by(listing.list[i].fallback, listing.list[i].class[0])); break;
    case DEPTH: set16(patch, 2, listing.depth + 1); break;
    default: set16(patch, 4, listing.worst + 1); break;
    }
}

/* Two faults at once, for each two that there are: the number is that of the one whose ground comes first. */
static void every_pair(void) {
    for (int later = 0; later < FAULTS; later++)
        for (int earlier = 0; earlier <= later; earlier++) {
            memcpy(patch, sound, patch_length);
            spoil((enum fault)later);
            spoil((enum fault)earlier);
            mend_check_word(patch, patch_length);
            if (earlier == CHECK || later == CHECK) patch[patch_length - 1 - below(2)] ^= (uint8_t)(1 + below(255));
            answers(length, patch_length, ground_of[earlier], "of two faults the other ground was given");
            pairs++;
        }
    memcpy(patch, sound, patch_length);
    image[below((uint32_t)length)] ^= 1;
    for (int f = 0; f < FAULTS; f++) {
        spoil((enum fault)f);
        if (agrees(image, length, patch, patch_length) >= 22) fail("the image's ground comes first", (uint64_t)f);
    }
}

/* Every beginning of the patch and every other byte in every place of it is 22, by the archive; one in each place by the reading too. */
static void cuts_and_alterations(void) {
    memcpy(patch, sound, patch_length);
    for (size_t cut = 0; cut < patch_length; cut++, beginnings++) answers(length, cut, 22, "a beginning of a patch is not 22");
    for (size_t at = 0; at < patch_length; at++) {
        uint8_t was = patch[at];
        for (uint32_t other = 1; other < 256; other++, alterations++) {
            patch[at] = (uint8_t)(was ^ other);
            if (kamordast_judge_patch(image, length, patch, patch_length) != 22) fail("an altered byte is not 22", at);
        }
        patch[at] = (uint8_t)(was ^ (1 + below(255)));
        answers(length, patch_length, 22, "an altered byte is not 22");
        patch[at] = was;
    }
    /* Bytes behind the end, with the trailer that the patch has and with one that says the length. */
    memset(patch + patch_length, 0, 4);
    for (size_t more = 1; more <= 4; more++) answers(length, patch_length + more, 22, "a byte behind the patch");
    memmove(patch + patch_length - 10, patch + patch_length - 12, 12);
    mend_trailer(patch, patch_length + 2);
    answers(length, patch_length + 2, 22, "a word before the trailer");
}

/* Counts q that are not checked: the same low bits of 4q, in the trailer too, and numbers near 2^32. */
static void far_counts(void) {
    const uint32_t far[] = {q + (1u << 30), q + (2u << 30), q + (3u << 30), q + (1u << 30) - 1, q + 65536, 0xffffffff, 0xfffffffe, 0xffffffff - q, 0x3fffffff, 0x40000000, 0x80000000, 0xc0000000, q + 1, q - 1, 0};
    for (size_t i = 0; i < sizeof far / sizeof *far; i++) {
        memcpy(patch, sound, patch_length);
        set32(patch, 6, far[i]);
        mend_check_word(patch, patch_length);
        answers(length, patch_length, 22, "q is too large or too small for the length");
        mend_trailer(patch, patch_length);
        answers(length, patch_length, 22, "the same with the distance back that the low bits give");
    }
}

int main(void) {
    begin_patched(20);
    for (int round = 0; round < 12; round++) {
        do some_base(4 + below(6), 2 + below(4));
        while (edition_in(image) != 1 + (uint32_t)round % 2);
        applies(length, patch_length);
        every_place();
        counts_moved();
        far_counts();
        cuts_and_alterations();
        every_pair();
    }
    if (places < 1000 || pairs != 12 * FAULTS * (FAULTS + 1) / 2 || alterations < 100000 || !above) fail("places, pairs or alterations did not occur", places);
    say_patched("patching");
    printf("  %llu wrong words in every place of twelve patches, %llu times two faults at once; %llu beginnings and %llu altered bytes are 22\n", (unsigned long long)places, (unsigned long long)pairs,
           (unsigned long long)beginnings, (unsigned long long)alterations);
    return 0;
}
