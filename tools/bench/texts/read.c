/* Reads the texts of an input of `texts` with our reader and with libical, in turn, and prints MB/s of both. */
#include <libical/ical.h>
#include <stdbool.h>
#include <stdio.h>
#include <stdlib.h>
#include <time.h>

bool rofskenu_count_rows(const unsigned char *text, size_t len, size_t *rows);

struct text {
    char *bytes;
    size_t len;
};

static struct text *texts;
static size_t count, size;

/* Takes all texts into memory. */
static int take(void) {
    char line[64];
    long n;
    while (fgets(line, sizeof line, stdin) && sscanf(line, "text %ld", &n) == 1) {
        texts = realloc(texts, (count + 1) * sizeof *texts);
        char *bytes = malloc(n + 1);
        if (fread(bytes, 1, n, stdin) != (size_t)n) return 1;
        bytes[n] = 0;
        texts[count++] = (struct text){bytes, n};
        size += n;
    }
    return count == 0;
}

/* How many rows our reader finds. */
static size_t ours(void) {
    size_t rows = 0, one = 0;
    for (size_t i = 0; i < count; i++) {
        if (!rofskenu_count_rows((unsigned char *)texts[i].bytes, texts[i].len, &one)) exit(1);
        rows += one;
    }
    return rows;
}

static long sum; /* of all that the rows say, so that none of it is left unread */

/* How many rows libical finds. */
static size_t libical(void) {
    size_t rows = 0;
    for (size_t i = 0; i < count; i++) {
        icalcomponent *zone = icalparser_parse_string(texts[i].bytes);
        if (!zone) exit(1);
        for (icalcomponent *row = icalcomponent_get_first_component(zone, ICAL_ANY_COMPONENT); row;
             row = icalcomponent_get_next_component(zone, ICAL_ANY_COMPONENT)) {
            icalproperty *from = icalcomponent_get_first_property(row, ICAL_TZOFFSETFROM_PROPERTY);
            icalproperty *to = icalcomponent_get_first_property(row, ICAL_TZOFFSETTO_PROPERTY);
            struct icaltimetype start = icalcomponent_get_dtstart(row);
            sum += start.year + start.second + icalproperty_get_tzoffsetfrom(from) + icalproperty_get_tzoffsetto(to);
            rows++;
        }
        icalcomponent_free(zone);
    }
    return rows;
}

/* MB/s of a reader, by processor time. */
static double speed(size_t (*reader)(void), size_t *rows) {
    clock_t start = clock();
    *rows = reader();
    return size / 1e6 / ((double)(clock() - start) / CLOCKS_PER_SEC);
}

int main(void) {
    size_t a, b;
    if (take()) return 1;
    for (int turn = 0; turn < 3; turn++) {
        double us = speed(ours, &a), them = speed(libical, &b);
        printf("zonetext: %.1f MB/s   libical: %.1f MB/s   (%zu texts, %zu and %zu rows)\n", us, them, count, a, b);
    }
    return 0;
}
