/* An image as a page to look at. */
#ifndef REPORT_H
#define REPORT_H

/* Prints one page of HTML, without scripts and without anything from elsewhere: what the image is, its forest, how hops and entries are spread, and where a payload is named which rows served it and where it was reported.
 * Nothing is printed where the image is refused. Answers the status. */
int report(const char *image, const char *payload);

#endif
