/* A loader: reads an image of either edition from a file, has it judged, and only then uses it.
 *
 *     loader IMAGE
 *
 * Exit status: 0 the image is taken into use, 1 it was refused, 2 usage, 3 the file could not be read. */
#include <errno.h>
#include <stdio.h>
#include <string.h>

#include "kamordast.h"

/* Room for the largest image there can be, of either edition. One byte more tells a longer file. */
static uint8_t image[KAMORDAST_LARGEST_IMAGE + 1];

/* Why an image was refused, in a sentence; docs/OPERATORS.md says what to do. */
static const char *const reasons[] = {
    "",
    "it is too short to be an image",
    "its counts of states, classes or entries are out of range",
    "its length is not the one that its counts give: it was cut short, or something stands after it",
    "its trailer does not fit its length",
    "its check word differs: a byte was altered",
    "its start state is not a state",
    "its byte classes are wrong",
    "a record is wrong",
    "an entry's class is wrong or out of order",
    "an entry leads to no state",
    "a chain of defaults runs in a circle",
    "an entry says what the default's chain says already",
    "its depth or worst is not true",
    [19] = "a state has more than 16 labels, or a label that is 0 or does not rise",
};

/* Stands for what a part does with an image that it trusts. Edition 2 has 32768 added to its first word. */
static void take_into_use(const uint8_t *bytes, size_t length) {
    unsigned first = bytes[0] + 256u * bytes[1], states = first % 32768, edition = first < 32768 ? 1 : 2, classes = bytes[2] + 256u * bytes[3], worst = bytes[length - 4] + 256u * bytes[length - 3];
    printf("in use: %u states, %u classes, at most %u hops a byte, edition %u\n", states, classes, worst, edition);
}

int main(int count, char **words) {
    if (count != 2) {
        fprintf(stderr, "usage: loader IMAGE\n");
        return 2;
    }
    FILE *file = fopen(words[1], "rb");
    if (file == NULL) {
        fprintf(stderr, "%s: %s\n", words[1], strerror(errno));
        return 3;
    }
    size_t length = fread(image, 1, sizeof image, file);
    int failed = ferror(file);
    fclose(file);
    if (failed) {
        fprintf(stderr, "%s: could not be read\n", words[1]);
        return 3;
    }
    uint32_t refused = kamordast_judge_image(image, length);
    if (refused != 0) {
        fprintf(stderr, "%s: refused %u: %s\n", words[1], (unsigned)refused, refused < sizeof reasons / sizeof *reasons && reasons[refused] ? reasons[refused] : "unknown");
        return 1;
    }
    take_into_use(image, length);
    return 0;
}
