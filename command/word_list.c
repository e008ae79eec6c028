#include "word_list.h"

#include <string.h>

#include "layout.h"

/* What is read of a text: where it is, its end, and what is wrong with the line at hand. */
typedef struct {
    const uint8_t *at, *end;
    const char *fault;
} reading;

static int set_fault(reading *r, const char *fault) {
    r->fault = fault;
    return -1;
}

/* The label at the front of a line and the tab behind it; -1 where there is none. */
static int read_label(reading *r) {
    int label = 0, digits = 0;
    for (; r->at < r->end && *r->at >= '0' && *r->at <= '9'; r->at++) {
        if (++digits > 5) return set_fault(r, "the label has more than five digits");
        label = 10 * label + (*r->at - '0');
    }
    if (!digits) return set_fault(r, r->at == r->end || *r->at == '\n' ? "the line is empty" : "the line does not begin with a label, a number");
    if (label > 65535) return set_fault(r, "the label is above 65535");
    if (r->at == r->end || *r->at != '\t') return set_fault(r, "there is no tab right behind the label");
    r->at++;
    return label;
}

static int digit_of(uint8_t letter) {
    const char *digits = "0123456789abcdef", *found = letter ? strchr(digits, letter >= 'A' && letter <= 'F' ? letter + 32 : letter) : NULL;
    return found ? (int)(found - digits) : -1;
}

/* The next byte of the string; -1 where there is none. */
static int read_byte(reading *r) {
    uint8_t byte = *r->at++;
    if (byte == '\t') return set_fault(r, "there is a second tab: write \\t for a tab in the string");
    if (byte == '\r') return set_fault(r, "there is a carriage return: end lines with a line feed alone, or write \\x0d for one in the string");
    if (byte < 32 || byte == 127) return set_fault(r, "there is a control character: write it \\xNN");
    if (byte != '\\') return byte;
    uint8_t kind = r->at < r->end ? *r->at++ : 0;
    if (kind == 't') return '\t';
    if (kind == 'n') return '\n';
    if (kind == '\\') return '\\';
    if (kind != 'x') return set_fault(r, "behind a backslash stands neither x, t, n nor a backslash");
    int high = r->at < r->end ? digit_of(r->at[0]) : -1, low = high >= 0 && r->at + 1 < r->end ? digit_of(r->at[1]) : -1;
    if (low < 0) return set_fault(r, "behind \\x stand no two hexadecimal digits");
    r->at += 2;
    return 16 * high + low;
}

/* The string up to the line's end; answers its length, or -1. */
static int read_string(reading *r, uint8_t *bytes) {
    int length = 0;
    while (r->at < r->end && *r->at != '\n') {
        int byte = read_byte(r);
        if (byte < 0) return -1;
        if (length == KAMORDAST_LONGEST_STRING) return set_fault(r, "the string is longer than 32 bytes");
        bytes[length++] = (uint8_t)byte;
    }
    return length ? length : set_fault(r, "the string is empty");
}

size_t list_of_text(const uint8_t *text, size_t length, uint8_t *list, uint32_t *line, const char **fault) {
    reading r = {text, text + length, NULL};
    uint32_t count = 0;
    size_t at = 2;
    for (; r.at < r.end; count++) {
        *line = count + 1;
        if (count == KAMORDAST_MOST_STRINGS) {
            *fault = "there are more than 64 strings";
            return 0;
        }
        int label = read_label(&r), bytes = label < 0 ? -1 : read_string(&r, list + at + 4);
        if (bytes < 0) {
            *fault = r.fault;
            return 0;
        }
        put16(list + at, (uint32_t)label);
        put16(list + at + 2, (uint32_t)bytes);
        at += 4 + (size_t)bytes;
        if (r.at < r.end) r.at++; /* the line's end */
    }
    *line = 0;
    put16(list, count);
    return at;
}

/* Where each string of a list stands that has the shape of one. */
typedef struct {
    const uint8_t *of[KAMORDAST_MOST_STRINGS];
    uint32_t length[KAMORDAST_MOST_STRINGS], label[KAMORDAST_MOST_STRINGS];
} places;

static uint32_t find_places(const uint8_t *list, places *p) {
    uint32_t count = number16(list, 0);
    const uint8_t *at = list + 2;
    for (uint32_t i = 0; i < count; i++) {
        p->label[i] = number16(at, 0);
        p->length[i] = number16(at, 2);
        p->of[i] = at + 4;
        at += 4 + p->length[i];
    }
    return count;
}

static int label_bad(const places *p, uint32_t i) {
    int bad = p->label[i] == 0;
    for (uint32_t j = 0; j < i; j++) bad |= p->label[j] == p->label[i];
    return bad;
}

/* Whether more than 16 strings are endings of string i, itself among them: where a state has too many labels, the longest string that ends there has them too. */
static int crowded(const places *p, uint32_t count, uint32_t i) {
    uint32_t ends = 0;
    for (uint32_t w = 0; w < count; w++) ends += p->length[w] <= p->length[i] && !memcmp(p->of[w], p->of[i] + p->length[i] - p->length[w], p->length[w]);
    return ends > KAMORDAST_MOST_LABELS;
}

/* How many beginnings of string i no string before it has. */
static uint32_t new_states(const places *p, uint32_t i) {
    uint32_t alike = 0;
    for (uint32_t w = 0; w < i; w++)
        while (alike < p->length[i] && alike < p->length[w] && !memcmp(p->of[w], p->of[i], alike + 1)) alike++;
    return p->length[i] - alike;
}

uint32_t refused_line(const uint8_t *list, uint32_t number) {
    places p;
    if (number != 27 && number != 19 && number != 28) return 0;
    uint32_t count = find_places(list, &p), states = 1;
    for (uint32_t i = 0; i < count; i++) {
        states += new_states(&p, i);
        if (number == 27 ? label_bad(&p, i) : number == 19 ? crowded(&p, count, i) : states > 512) return i + 1;
    }
    return 0;
}
