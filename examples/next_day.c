/* The next day, from C: posts one check result to the chart in a file. It takes the lock of the program control_chart, so
 * both can work on the same file. docs/C.md, "Keeping a chart", has the steps.
 *
 *     gcc -Iinclude examples/next_day.c target/lib/libcontrol_chart.a -o target/next_day
 *     target/next_day target/lead.chart 998 1000
 *
 * The exit status is that of control_chart: 0 the batch may go, 1 hold it, 2 refused, 3 an error. */
#include "control_chart.h"
#include <errno.h>
#include <fcntl.h>
#include <libgen.h>
#include <stdio.h>
#include <stdlib.h>
#include <string.h>
#include <sys/stat.h>
#include <unistd.h>

#define NAME_MOST 4096

static uint8_t chart[CONTROL_CHART_FORM_MOST]; /* its first `size` bytes are the chart */
static size_t size;

/* Makes the lock, which only one can make. Tries it for two seconds. */
static int take_lock(const char *lock)
{
    for (int i = 0; i < 400; i++) {
        int fd = open(lock, O_WRONLY | O_CREAT | O_EXCL, 0666);
        if (fd >= 0 || errno != EEXIST) {
            return fd;
        }
        usleep(5000);
    }
    return -1;
}

/* Reads the chart, and gives the lock the mode of its file. */
static int read_chart(const char *name, int lock_fd)
{
    int fd = open(name, O_RDONLY);
    struct stat status;
    ssize_t count = -1;

    if (fd >= 0 && fstat(fd, &status) == 0 && status.st_size <= (off_t)sizeof chart && fchmod(lock_fd, status.st_mode & 07777) == 0) {
        count = read(fd, chart, sizeof chart);
        size = count < 0 ? 0 : (size_t)count;
    }
    return count >= 0 && control_chart_check(chart, size) == CONTROL_CHART_DONE;
}

/* Puts the new form into the lock, and renames it over the file. */
static int replace(const char *name, const char *lock, int lock_fd)
{
    return write(lock_fd, chart, size) == (ssize_t)size && fsync(lock_fd) == 0 && rename(lock, name) == 0;
}

/* After this the new name lasts over a loss of power. */
static int sync_folder(const char *name)
{
    char path[NAME_MOST];
    int folder;

    snprintf(path, sizeof path, "%s", name);
    folder = open(dirname(path), O_RDONLY | O_DIRECTORY);
    return folder >= 0 && fsync(folder) == 0;
}

/* Posts to the chart in the file, whose lock is this process's. The lock is gone then. */
static int post(const char *name, const char *lock, int lock_fd, int64_t found, int64_t made_up)
{
    char text[CONTROL_CHART_TEXT_MOST];
    int16_t word;
    uint16_t verdict, number;
    int synced;

    if (!read_chart(name, lock_fd)) {
        fprintf(stderr, "%s: it has no sound chart, or it cannot be read\n", name);
        unlink(lock);
        return 3;
    }
    number = control_chart_post(chart, sizeof chart, &size, CONTROL_CHART_CHECK, found, made_up, 0, &word, &verdict);
    if (number != CONTROL_CHART_DONE) {
        unlink(lock);
        control_chart_refusal_text(number, text, sizeof text);
        printf("refused %d: %s\n", number, text);
        return 2;
    }
    if (!replace(name, lock, lock_fd)) {
        perror(name);
        unlink(lock);
        return 3;
    }
    synced = sync_folder(name);
    control_chart_verdict_text(verdict, text, sizeof text);
    printf("word %d verdict %d: %s\n", word, verdict, text);
    return synced ? verdict != CONTROL_CHART_VERDICT_NONE : 3;
}

/* Whether the whole text is a number. */
static int number_of(const char *text, int64_t *number)
{
    char *end;

    errno = 0;
    *number = strtoll(text, &end, 10);
    return end != text && *end == 0 && errno == 0;
}

int main(int argc, char **argv)
{
    char lock[NAME_MOST];
    int lock_fd;
    int64_t found, made_up;

    if (argc != 4 || !number_of(argv[2], &found) || !number_of(argv[3], &made_up)
        || snprintf(lock, sizeof lock, "%s.lock", argv[1]) >= NAME_MOST) {
        fprintf(stderr, "usage: next_day FILE FOUND MADE-UP\n");
        return 3;
    }
    lock_fd = take_lock(lock);
    if (lock_fd < 0) {
        perror(lock);
        return 3;
    }
    return post(argv[1], lock, lock_fd, found, made_up);
}
