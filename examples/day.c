/* A day at the bench, from C. The argument is the name of a new file, which keeps the chart. */
#include "control_chart.h"
#include <stdio.h>
#include <unistd.h>

static uint8_t chart[CONTROL_CHART_FORM_MOST]; /* its first `size` bytes are the chart */
static size_t size;

static void post(int64_t found) /* of 1000 made up */
{
    char text[CONTROL_CHART_TEXT_MOST];
    int16_t word;
    uint16_t verdict, number;

    number = control_chart_post(chart, sizeof chart, &size, CONTROL_CHART_CHECK, found, 1000, 0, &word, &verdict);
    if (number != CONTROL_CHART_DONE) {
        control_chart_refusal_text(number, text, sizeof text);
        printf("refused %d: %s\n", number, text);
        return;
    }
    control_chart_verdict_text(verdict, text, sizeof text);
    printf("word %d verdict %d: %s\n", word, verdict, text);
}

int main(int argc, char **argv)
{
    const int64_t found[15] = {990, 990, 990, 990, 990, 990, 990, 1010, 1010, 1010, 1010, 1010, 1010, 1010, 1000};
    int16_t words[15], word;
    size_t rounds, removed, count;
    double line[CONTROL_CHART_LINES_MOST];
    uint8_t passed;
    FILE *file = fopen(argc == 2 ? argv[1] : "", "wbx"); /* x: a file that is there already stays as it is */

    if (file == NULL) {
        perror(argc == 2 ? argv[1] : "give the name of a new file");
        return 3;
    }
    for (size_t i = 0; i < 15; i++) {
        if (control_chart_word(CONTROL_CHART_CHECK, found[i], 1000, 0, &words[i]) != CONTROL_CHART_DONE) {
            return 2;
        }
    }
    if (control_chart_build(CONTROL_CHART_CHECK, words, 15, chart, sizeof chart, &size, &rounds, &removed) != CONTROL_CHART_DONE
        || control_chart_lines(chart, size, line, CONTROL_CHART_LINES_MOST, &count) != CONTROL_CHART_DONE) {
        return 2;
    }
    printf("word %d\nbuilt rounds %zu removed %zu\n", words[0], rounds, removed);
    printf("lines %.8f %.8f %.8f %.8f %.8f\n", line[0], line[1], line[2], line[3], line[4]);
    post(1002);
    post(1031);
    post(1001);
    if (control_chart_reanalyse(chart, sizeof chart, &size, CONTROL_CHART_CHECK, 1030, 1000, 0, &word, &passed) != CONTROL_CHART_DONE) {
        return 2;
    }
    printf("word %d %s\n", word, passed ? "passed" : "failed");
    if (fwrite(chart, 1, size, file) != size || fflush(file) != 0 || fsync(fileno(file)) != 0) {
        return 3;
    }
    printf("kept %zu bytes\n", size);
    return 0;
}
