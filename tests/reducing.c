/* The reduction against the independent reading: tables of both editions at random, tables with each state many times over, with states that no payload reaches, chains of 512 states that split one by one, all states equal, damaged tables,
 * rooms short by one. Of small tables every smaller one is tried by force. Walks of the table before and after, and scans of what compact makes of both, report the same. */
#include <stdio.h>
#include <string.h>

#include "built.h"
#include "kamordast.h"
#include "machine.h"
#include "reference/reference.h"
#include "there_and_back.h"

enum { PAYLOAD = 64 };

static machine now, other;
static uint8_t reduced[LONGEST_TABLE], payload[PAYLOAD], before[6 * KAMORDAST_MOST_LABELS * PAYLOAD], after[sizeof before];
static uint64_t tables, merged, dropped, unchanged, moved_starts, forced, runs, reports;

/* No two states of a small table have equal labels and equal reports: with each as the start state, it is another table. */
static void all_apart(size_t length) {
    static uint8_t one[LONGEST_TABLE], two[LONGEST_TABLE];
    memcpy(one, reduced, length);
    memcpy(two, reduced, length);
    for (uint32_t x = 0; x < states_in(reduced); x++)
        for (uint32_t y = 0; y < x; y++) {
            set16(one, 4, x);
            set16(two, 4, y);
            if (reference_same_reports(one, two)) fail("two states that are left are not told apart", cases);
        }
}

/* Payloads from both starts, in rooms for all, for some and for no reports, by walk and by scans of both images in an order: the same bytes taken, and the same reports. */
static void same_runs(size_t length, size_t reduced_length) {
    static uint8_t old_image[LONGEST_IMAGE], new_image[LONGEST_IMAGE];
    uint32_t in_order = below(4), bound = below(4);
    kamordast_built a = kamordast_compact_in_order(table, length, in_order, (uint16_t)bound, old_image, sizeof old_image);
    kamordast_built b = kamordast_compact_in_order(reduced, reduced_length, in_order, (uint16_t)bound, new_image, sizeof new_image);
    if (a.refused || b.refused) fail("a table is not compacted", cases);
    there_and_back(old_image, a.length, cases);
    there_and_back(new_image, b.length, cases);
    for (int run = 0; run < 6; run++) {
        size_t bytes = below(PAYLOAD + 1), room = below(2) ? sizeof before : below(6 * (uint32_t)bytes + 1);
        for (size_t i = 0; i < bytes; i++) payload[i] = (uint8_t)below(256);
        memset(before, 170, sizeof before);
        memset(after, 170, sizeof after);
        kamordast_scanned x = run % 2 ? kamordast_walk(table, length, number16(table, 4), payload, bytes, before, room)
                                      : kamordast_scan(old_image, a.length, number16(table, 4), payload, bytes, before, room);
        kamordast_scanned y = run % 2 ? kamordast_walk(reduced, reduced_length, number16(reduced, 4), payload, bytes, after, room)
                                      : kamordast_scan(new_image, b.length, number16(reduced, 4), payload, bytes, after, room);
        if (x.refused || y.refused || x.taken != y.taken || x.reports != y.reports || memcmp(before, after, sizeof before)) fail("runs before and after part", cases);
        runs++;
        reports += x.reports;
    }
}

/* The table at hand reduced, in rooms around the result's length; it is left in `reduced`, and reduced again it stays as it is. Answers how many states are left. */
static uint32_t reduce(size_t length) {
    size_t result = with_rooms(REDUCE, table, length, 0, 0);
    if (!result || result > length) fail("a table as it should be is not reduced, or grows", cases);
    compared(REDUCE, table, length, 0, 0, LONGEST_TABLE);
    memcpy(reduced, wanted, result);
    if (number16(reduced, 2) != number16(table, 2) || memcmp(reduced + 6, table + 6, 256)) fail("the classes are others", cases);
    if (!reference_same_reports(table, reduced)) fail("the reports are others", cases);
    if (compared(REDUCE, reduced, result, 0, 0, LONGEST_TABLE) != result || memcmp(wanted, reduced, result)) fail("reduced again it is another", cases);
    if (states_in(reduced) <= 40) all_apart(result);
    same_runs(length, result);
    tables++;
    unchanged += result == length;
    moved_starts += number16(reduced, 4) != number16(table, 4);
    return states_in(reduced);
}

/* How many states some payload reaches. */
static uint32_t reached(void) {
    int level[STATES];
    uint32_t count = 0;
    reference_levels(table, level);
    for (uint32_t s = 0; s < states_in(table); s++) count += level[s] >= 0;
    return count;
}

static void random_tables(int rounds) {
    while (rounds--) {
        make_machine(&now, rounds % 60 ? 1 + below(12) : 512 - below(200), rounds % 60 ? 1 + below(5) : 1 + below(40));
        size_t length = put_table(&now, 1 + below(2));
        uint32_t left = reduce(length), there = reached();
        dropped += now.n - there;
        merged += there - left;
    }
}

/* Tables whose states stand several times over, among them the largest: as many are left as the machine has by itself. */
static void multiplied(int rounds) {
    while (rounds--) {
        uint32_t large = rounds % 50 == 0, times = 2 + below(3), n = large ? STATES / times : 1 + below(8);
        make_machine(&other, n, large ? CLASSES - below(200) : 1 + below(4));
        uint32_t single = reduce(put_table(&other, 1));
        multiply(&now, &other, times);
        if (reduce(put_table(&now, 1 + below(2))) != single) fail("a table with states many times over is not reduced to one with each once", cases);
    }
}

/* The next smaller machine with the table's classes and lists, counted on like the digits of a number; 0 after the last. */
static int count_on(machine *m, uint32_t lists) {
    for (uint32_t s = 0; s < m->n; s++) {
        for (uint32_t c = 0; c < m->k; c++) {
            if (++m->next[s][c] < m->n) return 1;
            m->next[s][c] = 0;
        }
        if (++m->kind[s] < lists) return 1;
        m->kind[s] = 0;
    }
    return 0;
}

/* Every table of one state less, with any of the lists that there are, its start state 0 (any other is this one renumbered): none has the same reports. One of still fewer states could have one added that is not reached. */
static void by_force(int rounds) {
    static uint8_t kept[LONGEST_TABLE];
    while (rounds--) {
        make_machine(&now, 2 + below(6), 1 + below(2));
        for (uint32_t s = 0; s < now.n; s++) now.kind[s] %= 3;
        uint32_t left = reduce(put_table(&now, 2));
        if (left < 2 || left > 4 || (left == 4 && now.k == 2 && rounds % 8)) continue;
        memcpy(kept, reduced, sizeof kept);
        machine *less = &other;
        *less = (machine){.n = left - 1, .k = now.k};
        do {
            put_table(less, 2);
            if (reference_same_reports(kept, table)) fail("a table of fewer states has the same reports", cases);
            forced++;
        } while (count_on(less, 3));
    }
}

/* A chain in which each state leads to the next, the last to itself and every other class to the first: a label on the last state splits one state off in each round. In falling or rising numbers, with two classes or 256; the start
 * state is the first of the chain, so that all are reached, and stay. Without the label one is left. */
static void chains(void) {
    static const uint32_t classes[] = {1, 2, 256};
    for (int falling = 0; falling < 2; falling++)
        for (int i = 0; i < 3; i++)
            for (int labelled = 0; labelled < 2; labelled++) {
                now = (machine){.n = STATES, .k = classes[i], .start = falling ? STATES - 1 : 0};
                for (uint32_t s = 0; s < STATES; s++) {
                    uint32_t on = falling ? (s ? s - 1 : 0) : (s + 1 < STATES ? s + 1 : s);
                    for (uint32_t c = 0; c < now.k; c++) now.next[s][c] = c == now.k / 2 ? on : now.start;
                }
                now.kind[falling ? 0 : STATES - 1] = labelled ? 2 : 0;
                if (reduce(put_table(&now, 1 + (uint32_t)falling)) != (labelled ? STATES : 1)) fail("a chain", classes[i]);
            }
}

/* All states equal, and with labels; a ring; a start state that is not reached again; states that only unreached ones lead to, or that are equal to an unreached one of a smaller number. */
static void shapes(void) {
    for (uint32_t n = 1; n <= STATES; n += n < 20 ? 1 : 123)
        for (uint32_t kind = 0; kind < KINDS; kind++) {
            make_machine(&now, n, 1 + below(6));
            for (uint32_t s = 0; s < n; s++) now.kind[s] = kind;
            if (reduce(put_table(&now, 1 + n % 2)) != 1) fail("equal labels everywhere leave one state", n);
            if (number16(reduced, 4) != 0) fail("its start state", n);
        }
    for (uint32_t n = 2; n <= STATES; n *= 2) {
        now = (machine){.n = n, .k = 1, .start = n - 1};
        for (uint32_t s = 0; s < n; s++) {
            now.next[s][0] = (s + 1) % n;
            now.kind[s] = s % 2;
        }
        if (reduce(put_table(&now, 2)) != 2 || number16(reduced, 4) != 1) fail("a ring by turns", n);
    }
    /* The start state has a label that it never reports, as nothing leads back to it: it is not merged with its like. */
    now = (machine){.n = 3, .k = 1, .start = 2, .kind = {0, 0, 1}};
    if (reduce(put_table(&now, 1)) != 2 || number16(reduced, 4) != 1 || number16(reduced, 262) != 0) fail("a start state with labels", 0);
    /* States 0 and 1 are not reached and equal to 3 and 4; 2 starts. */
    now = (machine){.n = 5, .k = 1, .start = 2, .kind = {1, 2, 0, 1, 2}, .next = {{1}, {2}, {3}, {4}, {2}}};
    if (reduce(put_table(&now, 2)) != 3 || number16(reduced, 4) != 0 || number16(reduced, 262 + 2) != 1 || number16(reduced, 262 + 4) != 2) fail("the smallest reached state numbers a block", 0);
}

/* The table of a word list, in which each string has a label of its own, is as small as can be. */
static void of_word_lists(int rounds) {
    static uint8_t list[2 + 16 * 12];
    while (rounds--) {
        size_t length = 2;
        set16(list, 0, 1 + below(12));
        for (uint32_t i = 0; i < number16(list, 0); i++) {
            uint32_t size = 1 + below(8);
            set16(list, length, 100 - i);
            set16(list, length + 2, size);
            for (length += 4; size; size--) list[length++] = (uint8_t)('a' + below(2));
        }
        reference_built built = reference_strings(list, length, table, sizeof table);
        if (built.refused || reduce(built.length) != states_in(table) || memcmp(reduced, table, built.length)) fail("the table of a word list is not as small as can be", cases);
    }
}

/* Damaged tables: the table's number, in every room. */
static void damaged(int rounds) {
    uint64_t seen[29] = {0};
    while (rounds--) {
        make_machine(&now, 1 + below(6), 1 + below(5));
        size_t length = put_table(&now, 1 + below(2));
        switch (below(7)) {
        case 0: set16(table, 0, below(2) ? below(65536) : number16(table, 0) + below(3) - 1); break;
        case 1: set16(table, 2 + 2 * below(2), below(2) ? below(300) : below(65536)); break;
        case 2: table[6 + below(256)] = (uint8_t)below(256); break;
        case 3: set16(table, 262 + 2 * (size_t)below((uint32_t)(length - 262) / 2), below(3) ? below(20) : below(65536)); break;
        case 4: set16(table, length - 2 * (1 + (size_t)below(now.n * now.k)), now.n + below(3) - 1); break;
        case 5: length -= below(2) ? 1 + below(3) : below((uint32_t)length); break;
        default: table[length++] = 0;
        }
        size_t room = below(2) ? LONGEST_TABLE : below(400);
        seen[reference_reduce(table, length, wanted, room).refused]++;
        compared(REDUCE, table, length, 0, 0, room);
    }
    static const uint32_t grounds[] = {0, 1, 2, 3, 6, 7, 10, 16, 19};
    for (size_t i = 0; i < sizeof grounds / sizeof *grounds; i++)
        if (!seen[grounds[i]]) fail("a ground was never given", grounds[i]);
}

int main(void) {
    begin(241);
    shapes();
    by_force(300);
    random_tables(1500);
    multiplied(250);
    chains();
    damaged(6000);
    of_word_lists(300);
    if (!merged || !dropped || !unchanged || !moved_starts || forced < 10000 || !reports) fail("a kind of reduction did not occur", cases);
    say("reducing");
    printf("  %llu tables: %llu unreached states dropped, %llu merged, %llu tables as they were, %llu with another start state; %llu smaller tables tried by force; %llu runs before and after agree, with %llu reports\n",
           (unsigned long long)tables, (unsigned long long)dropped, (unsigned long long)merged, (unsigned long long)unchanged, (unsigned long long)moved_starts, (unsigned long long)forced, (unsigned long long)runs,
           (unsigned long long)reports);
    return 0;
}
