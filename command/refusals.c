#include "refusals.h"

#include <stdio.h>

#include "status.h"

static const struct {
    const char *meaning, *advice;
} sheet[] = {
    {"nothing is wrong", "nothing is to be done"},
    {"the file is too short to be a table or an image", "it is empty or was cut short: fetch it anew from its source"},
    {"the number of states, classes or entries is out of range", "this is no table or image, or its front is damaged: check that the right file was taken, then fetch it anew"},
    {"the length is not the one that the counts give, or the file ends inside its counts of labels", "the file was cut short or has something after its end: compare its size with the source's and fetch it anew"},
    {"the trailer's length or distance back is wrong", "the end of the image is damaged or belongs to another image: fetch it anew and do not load it"},
    {"the check word differs", "a byte was altered on the way: fetch the image anew and do not load it"},
    {"the start state is not a state", "it was built wrongly: send it back to the rules desk"},
    {"a byte's class is not a class, or there is a class that no byte has", "it was built wrongly: send it back to the rules desk"},
    {"a default is not a state, or a count of entries is wrong, or the list of defaults has not two bytes for each state",
     "the list of defaults does not belong to this table, or the image was built wrongly: take the list that was made with the table, or send the image back"},
    {"an entry's class is not a class, or does not stand in order", "the image was built wrongly: build it anew from the table"},
    {"a next state is not a state", "it was built wrongly: send it back to the rules desk"},
    {"a chain of defaults runs in a circle", "take another list of defaults, or build with compact"},
    {"an entry says what the default's chain says already", "the image stores what it need not: build it anew from the table"},
    {"the stated depth or worst is not true", "build the image anew from the table"},
    {"the state is not a state of this image or table", "begin in its own start state"},
    {"the payload has more than 65,536 bytes", "cut the payload and carry the state over from one scan or walk to the next"},
    {"the room for the result is too short", "give a larger room"},
    {0, 0}, /* 17 is not used */
    {"there is no such order", "take order 0, 1, 2 or 3; where none is named it is 0"},
    {"a state has more than 16 labels, or a label that is 0 or not above the one before it", "it was built wrongly: send it back to the rules desk"},
    {"the image is of the edition that it was to be moved to", "it needs no move: load it as it is, or take the other direction; judge names the edition"},
    {"a state has more than one label, and edition 1 has room for one", "it cannot go back: ask the rules desk for a table with one rule on each state, or give the image to a board that takes edition 2"},
    {"this is no patch, or it was cut short or altered on the way", "check that the right file was taken; fetch the patch anew and do not load it"},
    {"the patch was made for another image", "take the patch that was made for this image, or the image that it was made for; judge-patch says whether they fit. A patch that is applied already fits no more"},
    {"the patch lists a state that the image does not have, or its states do not rise", "the patch was built wrongly: make it anew with diff, from the image that the board has"},
    {"a default of the list shares fewer than two classes with its state and is not worth its hops",
            "leave such states without a default (65535), or build with compact; an image that has such defaults stays good, and rewrite takes them out"},
    {"the word list is not 1 to 64 strings of 1 to 32 bytes, or ends too early, or has something after its end",
     "write each string on a line of its own, as its label, one tab and 1 to 32 bytes, in 64 lines at most; of a list in bytes compare the size with the source's and fetch it anew"},
    {"a label of the word list is 0 or stands twice", "give each string a label of its own, from 1 to 65535"},
    {"the table of the word list would have more than 512 states", "take strings out of the list or shorten them, or make two lists and two tables of it"},
};

static int known(uint32_t number) { return number < sizeof sheet / sizeof *sheet && sheet[number].meaning; }
const char *refusal_meaning(uint32_t number) { return known(number) ? sheet[number].meaning : "this is no refusal's number"; }
const char *refusal_advice(uint32_t number) { return known(number) ? sheet[number].advice : "call the engineers"; }

int refuse(const char *name, uint32_t number) {
    fprintf(stderr, "kamordast: %s: refused %u: %s\n  what to do: %s\n", name, (unsigned)number, refusal_meaning(number), refusal_advice(number));
    return REFUSED;
}
