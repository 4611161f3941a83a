/* Runs of a program beside its independent account. */
#include "program.h"

#include <signal.h>
#include <stdio.h>
#include <stdlib.h>
#include <string.h>
#include <sys/wait.h>
#include <time.h>
#include <unistd.h>

#include "account.h"
#include "cards.h"

/* After so many differences no more is tried. */
enum { ENOUGH = 5 };

struct bytes input;
static const char *program;
static char path[4096];
static unsigned long passed, failed;
static struct bytes wanted, got;

int begin_tries(int argc, char **argv)
{
    if (argc < 3) {
        fprintf(stderr, "usage: differential PROGRAM FOLDER [small]\n");
        exit(2);
    }
    program = argv[1];
    snprintf(path, sizeof path, "%s/input", argv[2]);
    signal(SIGPIPE, SIG_IGN);
    seed_random(2026);
    return argc > 3 && strcmp(argv[3], "small") == 0;
}

/* Writes the input to a pipe a few bytes at a time, with pauses. */
static void write_slowly(int to)
{
    size_t at = 0;
    while (at < input.length) {
        size_t k = 1 + random_below(input.length / 8 + 1);
        ssize_t done = write(to, input.at + at, k < input.length - at ? k : input.length - at);
        if (done <= 0) break;
        at += (size_t)done;
        usleep(1000);
    }
    _exit(0);
}

static void save_input(void)
{
    FILE *file = fopen(path, "wb");
    if (file == NULL || fwrite(input.at, 1, input.length, file) != input.length || fclose(file) != 0) {
        perror(path);
        exit(2);
    }
}

/* In the child: standard input from the file, or from the pipe, and standard output to the pipe. */
static void become_program(int slowly, const int in[2], const int out[2])
{
    if (slowly) dup2(in[0], 0);
    else if (freopen(path, "rb", stdin) == NULL) _exit(127);
    dup2(out[1], 1);
    close(in[0]);
    close(in[1]);
    close(out[0]);
    close(out[1]);
    execl(program, program, (char *)NULL);
    _exit(127);
}

/* What the program prints goes to `got`. Gives 1 if it ended well. */
static int run(int slowly)
{
    int in[2], out[2], status;
    unsigned char part[65536];
    ssize_t k;
    pid_t child, writer = 0;

    save_input();
    if (pipe(in) != 0 || pipe(out) != 0) exit(2);
    if (slowly && (writer = fork()) == 0) {
        close(in[0]);
        close(out[0]);
        close(out[1]);
        write_slowly(in[1]);
    }
    child = fork();
    if (child == 0) become_program(slowly, in, out);
    close(in[0]);
    close(in[1]);
    close(out[1]);
    got.length = 0;
    while ((k = read(out[0], part, sizeof part)) > 0) add_bytes(&got, part, (size_t)k);
    close(out[0]);
    if (writer > 0) waitpid(writer, NULL, 0);
    return waitpid(child, &status, 0) == child && WIFEXITED(status) && WEXITSTATUS(status) == 0;
}

/* Some bytes from a position on, line feeds as \n. */
static void show(const struct bytes *text, size_t from)
{
    size_t i;
    putchar('\'');
    for (i = from; i < text->length && i < from + 24; i++)
        if (text->at[i] == '\n') printf("\\n");
        else putchar(text->at[i]);
    putchar('\'');
}

static void show_difference(const char *words, int ended)
{
    size_t same = 0;
    while (same < got.length && same < wanted.length && got.at[same] == wanted.at[same]) same++;
    printf("  differs: %s: an input of %zu bytes (%s): %zu bytes printed, %zu wanted; after %zu bytes ", words, input.length,
           ended ? "ended well" : "did not end well", got.length, wanted.length, same);
    show(&got, same);
    printf(" for ");
    show(&wanted, same);
    printf("\n");
}

void try(const char *words, int slowly)
{
    int ended = run(slowly);
    account(&input, &wanted, 0);
    if (ended && got.length == wanted.length && memcmp(got.at, wanted.at, got.length) == 0) {
        passed++;
        return;
    }
    show_difference(words, ended);
    if (++failed == ENOUGH) {
        printf("%d differences: no more is tried\n", ENOUGH);
        exit(end_tries());
    }
}

void report_time(const char *words)
{
    double least = 1e9;
    int i;
    for (i = 0; i < 10; i++) {
        struct timespec a, b;
        double took;
        clock_gettime(CLOCK_MONOTONIC, &a);
        run(0);
        clock_gettime(CLOCK_MONOTONIC, &b);
        took = 1e3 * (double)(b.tv_sec - a.tv_sec) + 1e-6 * (double)(b.tv_nsec - a.tv_nsec);
        if (took < least) least = took;
    }
    printf("%s, %s: %.1f ms in all\n", program, words, least);
}

int end_tries(void)
{
    printf("%lu passed, %lu failed\n", passed, failed);
    return failed == 0 ? 0 : 1;
}
