/* Prints the independent reading's lines of an image and a payload, which may be longer than the program `served` takes; on standard error how many bytes needed no hop. */
#include <stdio.h>
#include <stdlib.h>

#include "reference/programs.h"
#include "reference/reference.h"
#include "support.h"

static uint8_t *read_all(const char *name, size_t *length) {
    uint8_t *bytes = malloc(1 << 20);
    FILE *f = fopen(name, "rb");
    if (!f || !bytes) fail(name, 0);
    *length = fread(bytes, 1, 1 << 20, f);
    if (*length == 1 << 20) fail("a file of a mebibyte or more", *length);
    fclose(f);
    return bytes;
}

int main(int count, char **words) {
    static char text[REFERENCE_TEXT];
    reference_columns columns;
    size_t length, bytes;
    if (count != 3) fail("an image and a payload are to be named", (uint64_t)count);
    uint8_t *image = read_all(words[1], &length), *payload = read_all(words[2], &bytes);
    if (reference_judge_image(image, length)) fail("the image is refused", length);
    fwrite(text, 1, reference_served_lines(image, payload, bytes, text), stdout);
    reference_serve(image, payload, bytes, &columns);
    fprintf(stderr, "%llu of %zu bytes needed no hop\n", (unsigned long long)columns.without_hop, bytes);
    return 0;
}
