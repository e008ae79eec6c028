/* Which patch fits which image, against the independent reading: how many states it lists, images that it was not made for, and what it does to states that it does not list, where an entry becomes needless, a chain returns, and depth and worst are others far away.
 * T's patch with every byte. */
#include <stdio.h>
#include <string.h>

#include "patched.h"
#include "reference/reference.h"

static size_t length, patch_length;
static uint64_t changed;

/* The image of a table of edition 1 with these rows and defaults: byte 97 is class 1, byte 98 class 2 and so on. */
static void image_of(uint32_t n, uint32_t k, const uint16_t *rows, const uint16_t *falls) {
    set16(table, 0, n);
    set16(table, 2, k);
    set16(table, 4, 0);
    memset(table + 6, 0, 256 + 2 * (size_t)n);
    for (uint32_t c = 1; c < k; c++) table[6 + 96 + c] = (uint8_t)c;
    for (uint32_t i = 0; i < n * k; i++) set16(table, 262 + 2 * n + 2 * i, rows[i]);
    for (uint32_t s = 0; s < n; s++) set16(defaults, 2 * s, falls[s]);
    reference_built built = reference_image(table, 262 + 2 * (size_t)n + 2 * (size_t)n * k, defaults, 2 * (size_t)n, image, sizeof image);
    if (built.refused) fail("the reading refused a table", built.refused);
    length = built.length;
}

/* Puts the patch that is listed, with the depth and the worst that it has or with others. */
static void listed_patch(uint32_t more_depth, uint32_t more_worst) {
    find_costs(&listing, image);
    listing.depth += more_depth;
    listing.worst += more_worst;
    patch_length = put_patch(&listing, image, length, patch);
}

/* T with the rule 9 on "ab" and none on "abb": state 1 leads by b to state 3, and state 2 is as state 0. All bytes of the patch, and what it makes. */
static void t_patched(void) {
    static const uint16_t rows[] = {0, 1, 0, 0, 1, 2, 0, 1, 3, 0, 1, 0}, falls[] = {65535, 0, 0, 0};
    static const uint8_t bytes[] = {0x02, 0, 0x01, 0, 0x01, 0, 0x01, 0, 0, 0, 0x01, 0, 0x02, 0, 0, 0, 0x01, 0, 0, 0, 0, 0, 0x02, 0, 0x03, 0, 0x10, 0, 0, 0, 0x26, 0, 0, 0, 0x69, 0xfd, 0x52, 0x02};
    static const uint8_t wanted[] = {2, 0, 0, 0, 9, 0};
    uint8_t room[12];
    image_of(4, 3, rows, falls);
    set16(image, 272, 7);
    set16(image, 274, 9);
    mend_check_word(image, length);
    if (length != 324 || number16(image, 322) != 0xfd69) fail("T's image", length);
    listing.p = 0;
    list_state(&listing, image, 2)->count = 0;
    list_state(&listing, image, 1)->next[0] = 3;
    listed_patch(0, 0);
    if (patch_length != sizeof bytes || memcmp(patch, bytes, sizeof bytes)) fail("T's patch", patch_length);
    if (applies(length, patch_length) != 320 || number32(applied, 8) != 4) fail("what it makes of T's image", 0);
    kamordast_scanned run = kamordast_scan_patched(image, length, patch, patch_length, 0, (const uint8_t *)"aabbb", 5, room, sizeof room);
    if (run.refused || run.taken != 5 || run.state != 0 || run.reports != 1 || run.hops != 2 || memcmp(room, wanted, 6)) fail("the patched scan of aabbb", 0);
}

/* State 0 gets the next state that state 1, which falls to it, or 2, which falls to 1, has stored: their entries, which the patch does not list, are needless. With the states listed too and without the entry it is accepted. */
static void needless_elsewhere(void) {
    static const uint16_t rows[] = {0, 1, 2, 0, 2, 2, 1, 2, 2, 0, 0, 0}, falls[] = {65535, 0, 1, 65535};
    for (uint32_t s = 1; s <= 2; s++) {
        image_of(4, 3, rows, falls);
        listing.p = 0;
        list_state(&listing, image, 0)->next[2 - s] = s == 1 ? 2 : 1;
        listed_patch(0, 0);
        answers(length, patch_length, 12, "an entry of a state that is not listed becomes needless");
        listed_patch(1, 0);
        answers(length, patch_length, 12, "12 before 13");
        list_state(&listing, image, s)->count = 0;
        listed_patch(0, 0);
        applies(length, patch_length);
    }
    /* The other way round: what the patch takes from state 0 was stored there only, and the rows of states that are not listed are others; that is not refused. */
    image_of(4, 3, rows, falls);
    listing.p = 0;
    list_state(&listing, image, 0)->next[2] = 3;
    listed_patch(0, 0);
    applies(length, patch_length);
}

/* A chain of 2 to 12 states, each of which falls to the one before; the patch lets the first, and it alone, fall to one of them: a ring, mostly of states that are not listed. Behind it hang more states. 11 before 12 and 13. */
static void ring_elsewhere(void) {
    static const uint16_t rows[12 * 2] = {0};
    for (uint32_t n = 2; n <= 12; n++) {
        uint16_t falls[12] = {65535};
        for (uint32_t s = 1; s < n; s++) falls[s] = (uint16_t)(s - 1);
        image_of(n, 2, rows, falls);
        for (uint32_t to = 0; to < n; to++)
            for (uint32_t count = 0; count <= 2; count++) {
                listing.p = 0;
                listed *first = list_state(&listing, image, 0);
                first->fallback = to;
                first->count = count;
                listed_patch(to % 2, to % 3);
                answers(length, patch_length, 11, "a chain returns over states that are not listed");
            }
    }
}

/* Two chains; the patch lists one state and lets it fall to the other chain's end, or makes it a root: depth and worst are others in states that are not listed. With the numbers of before, of the listed states only, or one off it is 13. */
static void costs_elsewhere(void) {
    static const uint16_t rows[] = {1, 2, 1, 2, 1, 2, 1, 2, 1, 2, 1, 2, 3, 4, 3, 4, 3, 4, 3, 4};
    static const uint16_t falls[] = {65535, 0, 1, 2, 3, 4, 65535, 6, 7, 8};
    image_of(10, 2, rows, falls);
    for (uint32_t s = 0; s < 10; s++)
        for (uint32_t to = 0; to <= 10; to++) {
            uint32_t entries = to == 10 ? 2 : below(2);
            listing.p = 0;
            listed *l = list_state(&listing, image, s);
            l->fallback = to == 10 ? 65535 : to;
            l->count = entries;
            for (uint32_t c = 0; c < entries; c++) {
                l->class[c] = c;
                l->next[c] = 9;
            }
            listed_patch(0, 0);
            if (agrees(image, length, patch, patch_length)) continue;
            applies(length, patch_length);
            uint32_t depth = listing.depth, worst = listing.worst;
            for (uint32_t said_depth = 0; said_depth <= 11; said_depth++)
                for (uint32_t said_worst = 0; said_worst <= 11; said_worst++) {
                    set16(patch, 2, said_depth);
                    set16(patch, 4, said_worst);
                    mend_check_word(patch, patch_length);
                    answers(length, patch_length, said_depth == depth && said_worst == worst ? 0 : 13, "depth and worst are those of all states");
                }
            changed += depth != number16(image, 6) || worst != number16(image, length - 4);
        }
    if (!changed) fail("no patch changed depth or worst", 0);
}

/* How many states a patch may list: of an image of 70 states 1 to 64 of them, whatever they are; of 0 and of 65 it is 22, also where all else is right. More than there are in the image end in 24. */
static void how_many(void) {
    length = some_image(70, 3);
    for (uint32_t number = 1; number <= MOST_LISTED; number += number == 1 || number > 62 ? 1 : 61) {
        listing.p = 0;
        while (listing.p < number) list_state(&listing, image, below(70));
        find_costs(&listing, image);
        patch_length = put_patch(&listing, image, length, patch);
        if (number > KAMORDAST_MOST_PATCHED) answers(length, patch_length, 22, "65 states are listed");
        else if (applies(length, patch_length) != length || memcmp(applied, image, length)) fail("states listed as they were make another image", number);
    }
    static const uint32_t none[] = {0, 65, 66, 256, 32769, 65535};
    for (size_t i = 0; i < sizeof none / sizeof *none; i++)
        for (uint32_t entries = 0; entries < 3; entries++) {
            /* As long as the low numbers ask for; 22 + 6p + 4q is even. */
            memset(patch, 0, 2048);
            set16(patch, 0, none[i]);
            set32(patch, 6, entries);
            patch_length = 22 + 6 * (none[i] < 100 ? none[i] : 0) + 4 * entries;
            memcpy(patch + patch_length - 4, image + length - 2, 2);
            mend_trailer(patch, patch_length);
            answers(length, patch_length, 22, "p out of range");
        }
    for (uint32_t states = 1; states <= 6; states++) {
        length = some_image(states, 2);
        for (uint32_t more = 1; more <= 64 - states; more += 1 + 9 * (more > 2)) {
            listing = (parts){.p = states + more};
            for (uint32_t i = 0; i < listing.p; i++) listing.list[i] = (listed){.state = i, .fallback = 65535, .count = 2, .class = {0, 1}};
            answers(length, put_patch(&listing, image, length, patch), 24, "more states than there are");
        }
    }
    /* A long patch whose length is right: entries that no count tells of. */
    do length = some_image(8, 3), patch_length = some_patch(length);
    while (!patch_length);
    uint32_t p = listing.p, q = number32(patch, 6);
    memmove(patch + entry_at(p, q + 16384), patch + entry_at(p, q), 12);
    memset(patch + entry_at(p, q), 0, 4 * 16384);
    set32(patch, 6, q + 16384);
    mend_trailer(patch, patch_length + 4 * 16384);
    answers(length, patch_length + 4 * 16384, 8, "counts that do not sum to q");
}

/* Patches for another image: with one bit of a label changed; moved to the other edition; the image with the patch applied. Where the words of two images agree the patch is judged by what it says: the labels of two states exchanged do not change the word. */
static void other_images(void) {
    static uint8_t kept[LONGEST_IMAGE];
    do length = some_image(6, 3), patch_length = some_patch(length);
    while (edition_in(image) != 1 || number16(image, 268) == number16(image, 270) || !memcmp(image, target, length));
    applies(length, patch_length);
    memcpy(kept, image, length);
    image[268] ^= 1;
    mend_check_word(image, length);
    answers(length, patch_length, 23, "a label is another");
    memcpy(image, kept, length);
    size_t moved = reference_forward(kept, length, image, sizeof image).length;
    answers(moved, patch_length, 23, "the image was moved");
    if (number16(target, target_length - 2) != number16(kept, length - 2)) {
        memcpy(image, target, target_length);
        answers(target_length, patch_length, 23, "the patch was applied before");
    }
    memcpy(image, kept, length);
    memcpy(image + 268, kept + 270, 2);
    memcpy(image + 270, kept + 268, 2);
    if (number16(image, length - 2) != reference_check_word(image, length - 2)) fail("exchanged labels change the check word", cases);
    applies(length, patch_length);
}

int main(void) {
    begin_patched(202);
    t_patched();
    needless_elsewhere();
    ring_elsewhere();
    costs_elsewhere();
    how_many();
    other_images();
    say_patched("fitting");
    printf("  %llu patches of one state change the depth or the worst of others\n", (unsigned long long)changed);
    return 0;
}
