/* A client in C of the control chart library. tests/clients/run builds it and runs it:
 *
 *     target/clients/client_c tests/clients/calls.txt
 *
 * It makes the calls in calls.txt: every function, with every refusal that it has. The clients in Python and Rust make the
 * same comparisons in the same order. */
#include "control_chart.h"

#include <inttypes.h>
#include <stdbool.h>
#include <stdio.h>
#include <stdlib.h>
#include <string.h>

/* ---- Comparing */

static int comparisons;
static char called[300];     /* the call that is compared */
static char form_lent[1700]; /* the form that was lent to it, in hexadecimal */

static const char *hex(char *text, const uint8_t *bytes, size_t count)
{
    text[0] = 0;
    for (size_t i = 0; i < count; i++) {
        sprintf(text + 2 * i, "%02x", bytes[i]);
    }
    return text;
}

static _Noreturn void different(const char *what, const char *expected, const char *came)
{
    fprintf(stderr, "client.c: %s: %s: expected %s, came %s\n", called, what, expected, came);
    if (form_lent[0] != 0) {
        fprintf(stderr, "client.c: the form lent was %s\n", form_lent);
    }
    exit(1);
}

static void same_number(const char *what, int64_t expected, int64_t came)
{
    comparisons++;
    if (expected != came) {
        char e[30], c[30];
        sprintf(e, "%" PRId64, expected);
        sprintf(c, "%" PRId64, came);
        different(what, e, c);
    }
}

#define SAME(what, expected, came) same_number(what, (int64_t)(expected), (int64_t)(came))

/* One comparison. If there is a difference, the eight bytes around it are shown. */
static void same_bytes(const char *what, const void *expected, const void *came, size_t count)
{
    comparisons++;
    for (size_t i = 0; i < count; i += 8) {
        const uint8_t *e = (const uint8_t *)expected + i, *c = (const uint8_t *)came + i;
        const size_t some = count - i < 8 ? count - i : 8;
        if (memcmp(e, c, some) != 0) {
            char where[40], e_text[20], c_text[20];
            snprintf(where, sizeof where, "%s from %zu on", what, i);
            different(where, hex(e_text, e, some), hex(c_text, c, some));
        }
    }
}

/* ---- Every function, with every refusal that it has */

#define FILL 0x77 /* fills lent memory before a call, to show what the call does not change */
#define LENT 820  /* the bytes lent for a chart, more than the longest form */

struct numbers {
    size_t count;
    int64_t at[400];
};

/* The numbers of a line of calls.txt; `/` and `=` separate the lists. */
static struct numbers list[5];
static const int64_t *in, *out;    /* the first list, and the list after `=` */
static const struct numbers *base; /* the list after that */
static const char *out_text;       /* the text after the answer */

/* A chart in lent memory, and the room that a call gets. */
struct chart {
    uint8_t bytes[LENT];
    size_t size, room;
};

/* The other lent memory, with more words, flags, doubles and bytes for a text than any call needs. */
struct lent {
    int16_t words[34];
    size_t rounds, removed, count;
    int16_t word;
    uint16_t verdict;
    uint8_t passed, beyond[7];
    double lines[7];
    char text[200]; /* more than a line of calls.txt */
};

static struct chart now, must; /* the chart that is lent, and what it must be after the call */
static struct lent came, expected;

/* Puts a number into what the chart must be: two bytes, the lower first, words in two's complement. */
static void put(size_t at, int64_t number)
{
    must.bytes[at] = (uint8_t)((uint64_t)number & 0xff);
    must.bytes[at + 1] = (uint8_t)((uint64_t)number >> 8 & 0xff);
}

static void put_record(int record, const int64_t *numbers, size_t count)
{
    put(must.size, 2 + 2 * (int64_t)count);
    put(must.size + 2, record);
    for (size_t i = 0; i < count; i++) {
        put(must.size + 4 + 2 * i, numbers[i]);
    }
    must.size += 4 + 2 * count;
}

static void put_form(const int64_t *head, const struct numbers *base_words, const struct numbers *series)
{
    must.size = 0;
    put_record(1, head, 3);
    put_record(2, base_words->at, base_words->count);
    put_record(3, series->at, series->count);
}

/* A new base, an empty series, status 0. The bytes after the form stay. */
static void put_fresh(int64_t kind)
{
    put_form((const int64_t[]){kind, 0, 0}, base, &(const struct numbers){0});
}

/* Each of the twelve calls sets what is expected if the answer is 0, and gives back the answer that came. */

static uint16_t word(void)
{
    if (out[0] == 0) {
        expected.word = (int16_t)out[1];
    }
    return control_chart_word((uint32_t)in[0], in[1], in[2], in[3], &came.word);
}

static uint16_t build(void)
{
    for (size_t i = 0; i < list[1].count; i++) {
        came.words[i] = expected.words[i] = (int16_t)list[1].at[i];
    }
    if (out[0] == 0) {
        put_fresh(in[0]);
        expected.rounds = (size_t)out[1];
        expected.removed = (size_t)out[2];
    }
    return control_chart_build((uint32_t)in[0], came.words, list[1].count, now.bytes, (size_t)in[1], &now.size,
                               &came.rounds, &came.removed);
}

static uint16_t post(void)
{
    if (out[0] == 0) {
        const size_t series = 12u + must.bytes[10]; /* where its record starts */
        put(must.size, out[1]);
        must.size += 2;
        put(series, (int64_t)(must.size - series - 2));
        put(6, out[2] == 4 ? 2 : out[2] != 0);
        put(8, out[2]);
        expected.word = (int16_t)out[1];
        expected.verdict = (uint16_t)out[2];
    }
    return control_chart_post(now.bytes, now.room, &now.size, (uint32_t)in[0], in[1], in[2], in[3], &came.word,
                              &came.verdict);
}

static uint16_t reanalyse(void)
{
    if (out[0] == 0) {
        expected.word = (int16_t)out[1];
        expected.passed = (uint8_t)out[2];
        put(6, out[2] == 1 ? 0 : 2);
    }
    if (out[0] == 0 && out[2] == 1) {
        put(8, 0);
        put(must.size - 2, out[1]);
    }
    return control_chart_reanalyse(now.bytes, now.room, &now.size, (uint32_t)in[0], in[1], in[2], in[3], &came.word,
                                   &came.passed);
}

static uint16_t correct(void)
{
    if (out[0] == 0) {
        put(6, 1);
    }
    return control_chart_correct(now.bytes, now.room, &now.size);
}

static uint16_t renew(void)
{
    if (out[0] == 0) {
        put_fresh(must.bytes[4]);
        expected.rounds = (size_t)out[1];
        expected.removed = (size_t)out[2];
    }
    return control_chart_renew(now.bytes, now.room, &now.size, &came.rounds, &came.removed);
}

static uint16_t lines(void)
{
    if (out[0] == 0) {
        expected.count = list[1].count - 1;
        for (size_t i = 0; i < expected.count; i++) {
            expected.lines[i] = (double)out[1 + i] / 256.0; /* exact */
        }
    }
    return control_chart_lines(now.bytes, now.size, came.lines, (size_t)in[0], &came.count);
}

static uint16_t against_lines(void)
{
    for (size_t i = 0; out[0] == 0 && i < CONTROL_CHART_BEYOND; i++) {
        expected.beyond[i] = (uint8_t)out[1 + i];
    }
    return control_chart_against_lines(now.bytes, now.size, (int32_t)in[0], came.beyond, (size_t)in[1]);
}

static uint16_t check(void)
{
    return control_chart_check(now.bytes, now.size);
}

/* The text and its 0 byte. The bytes after it stay. */
static void expect_text(void)
{
    if (out[0] == 0) {
        strcpy(expected.text, out_text);
    }
}

static uint16_t refusal_text(void)
{
    expect_text();
    return control_chart_refusal_text((uint32_t)in[0], came.text, (size_t)in[1]);
}

static uint16_t verdict_text(void)
{
    expect_text();
    return control_chart_verdict_text((uint32_t)in[0], came.text, (size_t)in[1]);
}

/* The header has the same version. Only this client reads the header, so this comparison is not counted. */
static uint16_t version(void)
{
    if (out[0] == 0 && strcmp(out_text, CONTROL_CHART_VERSION) != 0) {
        different("CONTROL_CHART_VERSION", out_text, CONTROL_CHART_VERSION);
    }
    expect_text();
    return control_chart_version(came.text, (size_t)in[0]);
}

/* Makes a call, and compares the answer, every output and every lent byte. */
static void compare(uint16_t (*call)(void))
{
    hex(form_lent, now.bytes, now.size < LENT ? now.size : LENT);
    memset(&came, FILL, sizeof came);
    expected = came;
    must = now;
    SAME("answer", out[0], call());
    same_bytes("words", expected.words, came.words, sizeof came.words);
    SAME("rounds", expected.rounds, came.rounds);
    SAME("removed", expected.removed, came.removed);
    SAME("count", expected.count, came.count);
    SAME("word", expected.word, came.word);
    SAME("verdict", expected.verdict, came.verdict);
    SAME("passed", expected.passed, came.passed);
    same_bytes("beyond", expected.beyond, came.beyond, sizeof came.beyond);
    same_bytes("lines", expected.lines, came.lines, sizeof came.lines);
    same_bytes("text", expected.text, came.text, sizeof came.text);
    SAME("size", must.size, now.size);
    same_bytes("bytes", must.bytes, now.bytes, LENT);
}

static bool has_text(const char *name)
{
    return strcmp(name, "refusal_text") == 0 || strcmp(name, "verdict_text") == 0 || strcmp(name, "version") == 0;
}

/* Reads the numbers of a line. strtok has given the name before them. A text is the rest of the line after the answer. */
static void read_numbers(bool with_text)
{
    struct numbers *numbers = list;
    memset(list, 0, sizeof list);
    in = list[0].at;
    out_text = "";
    for (char *token = strtok(NULL, " "); token != NULL; token = strtok(NULL, " ")) {
        if (strcmp(token, "=") == 0) {
            numbers++;
            out = numbers->at;
            base = numbers + 1;
        } else if (strcmp(token, "/") == 0) {
            numbers++;
        } else {
            const char *star = strchr(token, '*');
            const int64_t number = strtoll(star != NULL ? star + 1 : token, NULL, 10);
            for (long times = star != NULL ? atol(token) : 1; times > 0; times--) {
                numbers->at[numbers->count++] = number;
            }
            const char *rest = with_text && numbers != list ? strtok(NULL, "") : NULL;
            if (rest != NULL) {
                out_text = rest;
            }
        }
    }
}

static void same_form(void)
{
    char e[1700] = "", c[1700];
    for (char *token = strtok(NULL, " "); token != NULL; token = strtok(NULL, " ")) {
        strcat(e, token);
    }
    comparisons++;
    if (strcmp(e, hex(c, now.bytes, now.size)) != 0) {
        different("bytes", e, c);
    }
}

/* One line of calls.txt. */
static void step(const char *place, const char *text)
{
    static const struct {
        const char *name;
        uint16_t (*call)(void);
    } calls[12] = {{"word", word},                 {"build", build},                 {"post", post},
                   {"reanalyse", reanalyse},       {"correct", correct},             {"renew", renew},
                   {"lines", lines},               {"against_lines", against_lines}, {"check", check},
                   {"refusal_text", refusal_text}, {"verdict_text", verdict_text},   {"version", version}};
    static const char *const on_a_chart[7] = {"post 2 10000 10000 0", "reanalyse 2 10000 10000 0", "correct", "renew",
                                              "lines 6", "against_lines 10000 6", "check"};
    char line[200];
    snprintf(line, sizeof line, "%s", text);
    snprintf(called, sizeof called, "%s: %s", place, text);
    const char *name = strtok(line, " ");
    long times = 1;
    if (strchr(name, '*') != NULL) {
        times = atol(name);
        name = strchr(name, '*') + 1;
    }
    if (strcmp(name, "form") == 0) {
        same_form();
        return;
    }
    read_numbers(has_text(name));
    if (strcmp(name, "chart") == 0) {
        memset(&must, FILL, sizeof must);
        must.room = LENT;
        put_form(in, &list[1], &list[2]);
        now = must;
    } else if (strcmp(name, "told") == 0) {
        now.size = (size_t)in[0];
        now.room = (size_t)in[1];
    } else if (strcmp(name, "byte") == 0) {
        now.bytes[in[0]] = (uint8_t)in[1];
    } else if (strcmp(name, "all") == 0) {
        const int number = (int)out[0];
        for (size_t i = 0; i < 7; i++) {
            snprintf(line, sizeof line, "%s = %d", on_a_chart[i], number);
            step(place, line);
        }
    } else {
        size_t i = 0;
        while (i < 12 && strcmp(name, calls[i].name) != 0) {
            i++;
        }
        if (i == 12) {
            different("name", "one that calls.txt explains", name);
        }
        if (calls[i].call == build) {
            memset(&now, FILL, sizeof now);
        }
        for (; times > 0; times--) {
            compare(calls[i].call);
        }
    }
}

int main(int count, char **arguments)
{
    FILE *file = count == 2 ? fopen(arguments[1], "r") : NULL;
    if (file == NULL) {
        fprintf(stderr, "client.c: give the path of calls.txt\n");
        return 1;
    }
    char line[200], place[30];
    for (int number = 1; fgets(line, sizeof line, file) != NULL; number++) {
        line[strcspn(line, "\n")] = 0;
        if (line[0] != 0 && line[0] != '#') {
            snprintf(place, sizeof place, "calls.txt line %d", number);
            step(place, line);
        }
    }
    fclose(file);
    printf("client.c: %d comparisons, all as expected\n", comparisons);
    return 0;
}
