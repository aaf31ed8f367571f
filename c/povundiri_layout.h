/* The words of an image, as docs/FORMAT.md has them, for the files that look at a header themselves. It is not installed. */
#ifndef POVUNDIRI_LAYOUT_H
#define POVUNDIRI_LAYOUT_H

/* Words have 64 bits. A file begins with a word of zeros, and then the image. */
enum { WORD = 8, HEADER_WORDS = 16, MOST_WORDS = 1048576 };

/* What an image begins with. */
enum { SEGMENT_COOKIE = 0x408305DC };

/* The words of a header. */
enum { COOKIE_AT = 0, VERSION_AT = 1, SIZE_AT = 2, PAGE_AT = 3, ID_AT = 4, FLAGS_AT = 6 };

/* The words of a block with the record of a histogram. */
enum { BLOCK_COOKIE_AT = 1, BLOCK_TYPE_AT = 2, NAME_LENGTH_AT = 14, NAME_AT = 15 };

/* What such a block has there: 0xC8799269, and the type. */
#define CLAIMED_COOKIE UINT64_C(0xC8799269)
enum { TYPE_HISTOGRAM = 1 };

/* The flag of a full segment. */
enum { FLAG_FULL = 2 };

#endif
