/* The calls whose instructions tests/register-cost counts, and the books that they are made on. With arguments, a
 * folder and numbers of heights, it makes the books and writes each to a file of that folder: new ones, and ones whose
 * heights are all settled, with eight entries a page. Without, it makes the calls that standard input names, a line
 * each: the kind of book, the call, the length of the buffer, and the book's file. For each it prints a line: the
 * answer and, of Read, the bytes read, in hexadecimal digits. */
#include <stdio.h>
#include <stdlib.h>
#include <string.h>

#include "mavunilai.h"

enum entries { DIFFER, PADDED, COUNT, COLLIDE, KNOWN, AGREE, REPEAT, KINDS };

static const char *const names[KINDS] = {"differ", "padded", "count", "collide", "known", "agree", "repeat"};

static uint8_t book[MAVUNILAI_MOST_BOOK], observed[MAVUNILAI_MOST_OBSERVER_BOOK], buffer[MAVUNILAI_MOST_REGISTER];

/* ---- calls ---- */

/* The one function in which instructions are counted; the bytes of the register, or of the part read. */
__attribute__((noinline)) static uint64_t counted(int observer, int reads, size_t size, size_t room) {
    if (reads) {
        return observer ? mavunilai_observer_read(book, size, buffer, room) : mavunilai_read(book, size, buffer, room);
    }
    return mavunilai_bytes(observer ? mavunilai_observer_size(book, size) : mavunilai_size(book, size));
}

static int make_calls(void) {
    char kind[16], call[16], name[32];
    size_t room, size, at;
    while (scanf("%15s %15s %zu %31s", kind, call, &room, name) == 4) {
        int reads = strcmp(call, "read") == 0;
        FILE *file = fopen(name, "rb");
        uint64_t answer;
        if (!file || room > sizeof buffer) {
            return 1;
        }
        size = fread(book, 1, sizeof book, file);
        fclose(file);
        answer = counted(strcmp(kind, "observer") == 0, reads, size, room);
        printf("%u ", (unsigned)answer);
        for (at = 0; reads && at < answer; at++) {
            printf("%02x", buffer[at]);
        }
        printf("\n");
    }
    return 0;
}

/* ---- entries ---- */

static uint64_t number_at(const uint8_t *bytes, unsigned count) {
    return count ? bytes[0] | number_at(bytes + 1, count - 1) << 8 : 0;
}

/* The place of an entry in a filter with a key: the script gives the modulus of crates/filter/specs/Filter.antt. */
static uint64_t place_of(const uint8_t *key, const uint8_t *entry) {
    uint64_t sum = 0;
    unsigned k;
    for (k = 0; k < 8; k++) {
        sum += number_at(key + 4 * k, 4) * number_at(entry + 2 * k, 2);
    }
    return sum % MODULUS;
}

/* Whether an entry has the place of one before it, among so many places. */
static int is_shared(const uint8_t *key, const uint8_t *entry, const uint8_t *before, unsigned count, uint64_t places) {
    unsigned k;
    for (k = 0; k < count; k++) {
        if (place_of(key, before + MAVUNILAI_ENTRY * k) % places == place_of(key, entry) % places) {
            return 1;
        }
    }
    return 0;
}

/* Whether an entry has place 1 of a filter without a key, by factors and places that such a filter had. */
static int collides(const uint8_t *entry) {
    static const uint64_t factors[] = {3609, 4842, 6902, 1601};
    uint64_t sum = 0;
    unsigned k;
    for (k = 0; k < 4; k++) {
        sum += factors[k] * number_at(entry + 4 * k, 4);
    }
    return sum % 8179 == 1;
}

static void put_last(uint8_t *entry, uint32_t last) {
    unsigned at;
    for (at = 0; at < 4; at++) {
        entry[12 + at] = (uint8_t)(last >> 8 * at);
    }
}

/* The entry of a number among those that differ and have one place without a key: the last four bytes are searched. */
static void put_colliding(uint8_t *entry, unsigned number) {
    uint32_t last = 0;
    snprintf((char *)entry + 1, MAVUNILAI_ENTRY - 1, "plot%04u to", number);
    do {
        put_last(entry, last++);
    } while (!collides(entry));
}

/* Changes the entries of the newest page so that each has the place of an older one, by who knows the key. */
static void put_known(uint8_t *page, unsigned heights) {
    static uint8_t before[MAVUNILAI_ENTRY * 8 * MAVUNILAI_MOST_HEIGHTS];
    unsigned height, place, count = 8 * (heights - 1);
    for (height = 1; height < heights; height++) {
        memcpy(before + MAVUNILAI_ENTRY * 8 * (height - 1),
               book + 576 + 16 * heights + 864 * (height - 1) + MAVUNILAI_PAGE_ENTRIES, MAVUNILAI_ENTRY * 8);
    }
    for (place = 0; place < 8 && count > 0; place++) {
        uint8_t *entry = page + MAVUNILAI_PAGE_ENTRIES + MAVUNILAI_ENTRY * place;
        uint32_t last = 0;
        do {
            put_last(entry, last++);
        } while (!is_shared(page + MAVUNILAI_PAGE_BACK_DIGEST, entry, before, count,
                            32 + 64 * heights <= SMALL ? 8 * (SMALL - 32) : 8 * (LARGE - 32)));
    }
}

/* An entry of a page; those of pages one behind the other are numbered on. */
static void put_entry(uint8_t *entry, enum entries entries, unsigned height, unsigned place) {
    unsigned number = 8 * (height - 1) + place;
    char text[MAVUNILAI_ENTRY];
    if (entries == REPEAT && height > 1 && place >= 4) {
        number -= 12;
    }
    number = entries == AGREE ? 0 : number;
    entry[0] = (uint8_t)(entries == COUNT ? 2 : number % 4);
    if (entries == COLLIDE) {
        put_colliding(entry, number);
    } else if (entries == COUNT) {
        memcpy(entry + 1, "plot, number ", 13);
        entry[14] = (uint8_t)(number >> 8);
        entry[15] = (uint8_t)number;
    } else {
        if (entries == PADDED) {
            snprintf(text, sizeof text, "entry %-9u", number + 1);
        } else {
            snprintf(text, sizeof text, "plot%04u to%04u", 123 + number, 4567 + 7 * number);
        }
        memcpy(entry + 1, text, MAVUNILAI_ENTRY - 1);
    }
}

/* ---- books ---- */

static int written(const char *folder, const char *kind, unsigned heights, const char *name, const uint8_t *bytes,
                   size_t size) {
    char path[512];
    FILE *file;
    snprintf(path, sizeof path, "%s/%s-%u-%s", folder, kind, heights, name);
    file = fopen(path, "wb");
    return file && fwrite(bytes, 1, size, file) == size && fclose(file) == 0;
}

/* A new book of edition 1, which libraries of before and after there were weights take, or of edition 3, where it has
 * more heights than edition 1 can say; no call makes the former. */
static void laid_out(uint8_t *bytes, unsigned heights, int current) {
    bytes[0] = 1;
    if (heights <= 63) {
        bytes[2] = (uint8_t)heights, bytes[4] = (uint8_t)current, bytes[7] = 1;
    } else {
        bytes[7] = 3, bytes[8] = 1, bytes[42] = (uint8_t)current;
        bytes[40] = (uint8_t)heights, bytes[41] = (uint8_t)(heights >> 8);
    }
}

static void opened(unsigned heights) {
    memset(book, 0, MAVUNILAI_BOOK(heights));
    memset(observed, 0, MAVUNILAI_OBSERVER_BOOK(heights));
    laid_out(book, heights, 1);
    laid_out(observed, heights, 0);
}

/* Moves until there is no move, and delivers what was written but for own proposals; a page vote tells the digest. */
static void moved(unsigned heights, uint8_t *digest) {
    uint8_t reply[MAVUNILAI_MOVE_REPLY];
    mavunilai_answer answer;
    do {
        unsigned k;
        answer = mavunilai_move(book, MAVUNILAI_BOOK(heights), reply, sizeof reply);
        for (k = 0; k < mavunilai_frames(answer); k++) {
            const uint8_t *frame = reply + MAVUNILAI_FRAME * k;
            if (frame[MAVUNILAI_FRAME_KIND] == MAVUNILAI_KIND_PAGE_VOTE) {
                memcpy(digest, frame + MAVUNILAI_FRAME_DIGEST, MAVUNILAI_DIGEST);
            }
            if (frame[MAVUNILAI_FRAME_KIND] != MAVUNILAI_KIND_PROPOSAL) {
                mavunilai_deliver(book, MAVUNILAI_BOOK(heights), frame, MAVUNILAI_FRAME);
            }
        }
    } while (mavunilai_made(answer) != MAVUNILAI_MOVE_IDLE);
}

/* The station gets a proposal for each height and votes for it alone. */
static void filled(unsigned heights, enum entries entries) {
    uint8_t digest[MAVUNILAI_DIGEST] = {0};
    unsigned height, place;
    for (height = 1; height <= heights; height++) {
        uint8_t frame[MAVUNILAI_FRAME] = {MAVUNILAI_KIND_PROPOSAL, 0, (uint8_t)height, (uint8_t)(height >> 8)};
        uint8_t *page = frame + MAVUNILAI_FRAME_PAGE;
        page[0] = (uint8_t)height, page[1] = (uint8_t)(height >> 8);
        page[2] = (uint8_t)(height - 1), page[3] = (uint8_t)((height - 1) >> 8);
        page[MAVUNILAI_PAGE_COUNT] = MAVUNILAI_MOST_PAGE_ENTRIES;
        memcpy(page + MAVUNILAI_PAGE_BACK_DIGEST, digest, sizeof digest);
        for (place = 0; place < MAVUNILAI_MOST_PAGE_ENTRIES; place++) {
            put_entry(page + MAVUNILAI_PAGE_ENTRIES + MAVUNILAI_ENTRY * place, entries, height, place);
        }
        if (entries == KNOWN && height == heights) {
            put_known(page, heights);
        }
        mavunilai_deliver(book, MAVUNILAI_BOOK(heights), frame, sizeof frame);
        moved(heights, digest);
    }
}

/* The observer gets the certificates that the station has. */
static void followed(unsigned heights) {
    uint8_t frame[MAVUNILAI_FRAME];
    unsigned height, kind;
    for (height = 1; height <= heights; height++) {
        for (kind = MAVUNILAI_KIND_PAGE_CERTIFICATE; kind <= MAVUNILAI_KIND_FINALISE_CERTIFICATE; kind += 2) {
            mavunilai_fetch(book, MAVUNILAI_BOOK(heights), kind, height, frame, sizeof frame);
            mavunilai_observer_deliver(observed, MAVUNILAI_OBSERVER_BOOK(heights), frame, sizeof frame);
        }
    }
    mavunilai_observer_move(observed, MAVUNILAI_OBSERVER_BOOK(heights));
}

static int make_books(const char *folder, unsigned heights) {
    unsigned entries;
    opened(heights);
    if (!written(folder, "station", heights, "new", book, MAVUNILAI_BOOK(heights)) ||
        !written(folder, "observer", heights, "new", observed, MAVUNILAI_OBSERVER_BOOK(heights))) {
        return 1;
    }
    for (entries = 0; entries < KINDS; entries++) {
        opened(heights);
        filled(heights, (enum entries)entries);
        followed(heights);
        if (mavunilai_settled(book) != heights || mavunilai_settled(observed) != heights ||
            !written(folder, "station", heights, names[entries], book, MAVUNILAI_BOOK(heights)) ||
            !written(folder, "observer", heights, names[entries], observed, MAVUNILAI_OBSERVER_BOOK(heights))) {
            return 1;
        }
    }
    return 0;
}

int main(int count, char **words) {
    int at;
    for (at = 2; at < count; at++) {
        if (make_books(words[1], (unsigned)strtoul(words[at], 0, 10))) {
            return 1;
        }
    }
    return count > 1 ? 0 : make_calls();
}
