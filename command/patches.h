/* The commands that take an image and a patch, and the one that makes the patch from one image to another. Each answers the status. */
#ifndef PATCHES_H
#define PATCHES_H

/* Says what the patch lists and what it makes of the image, or why it does not fit. */
int judge_patch(const char *image, const char *patch);

/* The image with the patch, as a file of its own; that may be the image's. */
int apply(const char *image, const char *patch, const char *to);

/* The reports of a payload by the image and the patch, from a state, or where that is negative from the start state. */
int scan_patched(const char *image, const char *patch, const char *bytes, long state);

/* Makes the patch that makes the target of the image and says what it saves, or why there is none. It is applied and compared with the target before the file gets its name. */
int diff(const char *image, const char *target, const char *patch);

#endif
