/* example FILE: the sheet of a submission's text (crates/submission_text/specs/Text.antt says what a line is), and the first lines of its table. */
#include "pozsmeteg_submission.h"
#include <stdio.h>
#include <stdlib.h>
#include <string.h>

enum { LINES = 5 };

static void stop(const char *why) {
    fprintf(stderr, "example: %s\n", why);
    exit(2);
}

static void *room(size_t count, size_t size) {
    void *place = calloc(count + 1, size); /* never null, also for no entry */
    if (!place) stop("there is not enough memory");
    return place;
}

/* the count in the header of a section */
static size_t header(FILE *text, const char *name) {
    char found[16];
    unsigned long count;
    if (fscanf(text, "%15s %lu", found, &count) != 2 || strcmp(found, name) != 0 || count > 200000) stop("the text is no submission");
    return count;
}

static uint64_t word(FILE *text) {
    char digits[17];
    if (fscanf(text, " %16[0-9A-F]", digits) != 1 || strlen(digits) != 16) stop("the text is no submission");
    return strtoull(digits, NULL, 16);
}

static double number(FILE *text) {
    uint64_t bits = word(text);
    double x;
    memcpy(&x, &bits, sizeof x);
    return x;
}

static pozsmeteg_numbers numbers(FILE *text, size_t count) {
    double *list = room(count, sizeof *list);
    for (size_t i = 0; i < count; i++) list[i] = number(text);
    return (pozsmeteg_numbers){list, count};
}

static pozsmeteg_keyed keyed(FILE *text, const char *name, size_t width) {
    size_t count = header(text, name);
    int64_t *keys = room(count, sizeof *keys);
    double *values = room(count * width, sizeof *values);
    for (size_t k = 0; k < count; k++) {
        keys[k] = (int64_t)word(text);
        for (size_t i = 0; i < width; i++) values[width * k + i] = number(text);
    }
    return (pozsmeteg_keyed){keys, count, values, count * width};
}

static void fields(FILE *text, pozsmeteg_submission *s) {
    size_t count = header(text, "fields"), width = pozsmeteg_field_length(s->degree);
    double *times = room(count, sizeof *times), *added = room(count * width, sizeof *added);
    for (size_t k = 0; k < count; k++) {
        times[k] = number(text);
        for (size_t i = 0; i < width; i++) added[width * k + i] = number(text);
    }
    s->field_times = (pozsmeteg_numbers){times, count};
    s->added = (pozsmeteg_numbers){added, count * width};
}

static void observations(FILE *text, pozsmeteg_submission *s) {
    size_t count = header(text, "observations");
    double *times = room(count, sizeof *times), *values = room(count, sizeof *values);
    uint8_t *good = room(count, 1);
    for (size_t k = 0; k < count; k++) {
        times[k] = number(text);
        values[k] = number(text);
        good[k] = (uint8_t)word(text);
    }
    s->obs_times = (pozsmeteg_numbers){times, count};
    s->obs_values = (pozsmeteg_numbers){values, count};
    s->good = good;
    s->good_length = count;
}

static void tables(pozsmeteg_submission *s) {
    size_t places = pozsmeteg_places(s->degree), length = pozsmeteg_field_scratch(s->degree);
    double *a = room(places, sizeof *a), *b = room(places, sizeof *b), *scratch = room(length, sizeof *scratch);
    if (pozsmeteg_legendre_new(s->degree, a, places, b, places, scratch, length)) stop("the degree is not 2 to 180");
    s->a = (pozsmeteg_numbers){a, places};
    s->b = (pozsmeteg_numbers){b, places};
    free(scratch);
}

static void read_submission(FILE *text, pozsmeteg_submission *s) {
    header(text, "degree");
    s->degree = word(text);
    tables(s);
    header(text, "static");
    s->field = numbers(text, pozsmeteg_field_length(s->degree));
    fields(text, s);
    s->states_c = keyed(text, "states_c", 6);
    s->acc_c = keyed(text, "acc_c", 1);
    s->states_d = keyed(text, "states_d", 6);
    s->acc_d = keyed(text, "acc_d", 1);
    s->nodes = numbers(text, header(text, "nodes"));
    observations(text, s);
}

static void table(const pozsmeteg_sheet_lists *sheet, double horizon) {
    printf("%zu entries, %zu of them final; horizon: ", sheet->kept, sheet->final_count);
    if (horizon < 0) printf("none\n");
    else printf("%.3f s\n", horizon);
    printf("%6s %15s %12s %12s %12s  (nm/s\xc2\xb2)\n", "entry", "time (GPS s)", "raw", "detrended", "passed");
    for (size_t i = 0; i < sheet->kept && i < LINES; i++)
        printf("%6zu %15.4f %12.4f %12.4f %12.4f  %s\n", i + 1, sheet->times[i], sheet->raws[i] * 1e9, sheet->detrended[i] * 1e9,
               sheet->passed[i] * 1e9, i < sheet->final_count ? "final" : "may still move");
}

int main(int count, char **words) {
    if (count != 2) stop("name one file, the text of a submission");
    FILE *text = fopen(words[1], "r");
    if (!text) stop("the file cannot be read");
    static pozsmeteg_submission s;
    read_submission(text, &s);
    fclose(text);
    size_t m = s.obs_times.length, length = pozsmeteg_scratch_of(&s);
    pozsmeteg_sheet_lists sheet = {room(m, 8), room(m, 8), room(m, 8), room(m, 8), m, 0, 0};
    uint8_t refused = pozsmeteg_sheet_of(&s, &sheet, room(length, sizeof(double)), length);
    double horizon;
    if (refused || pozsmeteg_horizon_of(&s, &horizon)) {
        fprintf(stderr, "example: refused %d\n", refused);
        return 2;
    }
    table(&sheet, horizon);
    return 0;
}
