/* A harness in small: runs the model beside a board. It feeds the steps of document 01's listing one by one, reads the
 * answer to each before it writes the next, and holds it against the answer that is due.
 *
 *     cc example/board.c -o board && ./board target/bin/sitelog [NAME]
 *
 * With NAME it keeps the acceptance record: NAME.log, the bytes that were fed, and NAME.lines, the lines that came back.
 * docs/BOARD.md says how records are laid out and what a line means. */
#define _POSIX_C_SOURCE 200809L
#include <errno.h>
#include <signal.h>
#include <stdarg.h>
#include <stdint.h>
#include <stdio.h>
#include <stdlib.h>
#include <string.h>
#include <sys/wait.h>
#include <unistd.h>

#define LIMIT 10         /* seconds for an answer, and for the end */
#define LONGEST_LINE 256 /* with its end: no line of the model is longer */

enum status { CLOSE, TRIP };
enum kind { START = 1, TICK, REPORT, DELIVER, SHARE_TIMEOUT, RESEND_TIMEOUT, COMMAND, ACK, QUERY, DOWN, UP, PAIR };

/* How many bytes each field of a kind takes: the table in docs/BOARD.md. A pair is of version 2. */
static const char *const widths[] = {
    [START] = "11214", [TICK] = "", [REPORT] = "1414", [DELIVER] = "11414", [SHARE_TIMEOUT] = "14",
    [RESEND_TIMEOUT] = "14", [COMMAND] = "414", [ACK] = "141", [QUERY] = "14", [DOWN] = "1", [UP] = "1",
    [PAIR] = "11414",
};

static const struct step {
    enum kind kind;
    uint32_t fields[5];
    const char *due; /* the line that must answer it */
} listing[] = {
    {START, {1, 0, 1 << 2, CLOSE, 100}, "1 0 C 100 -"},
    {QUERY, {0, 100}, "2 0 C 100 -"},
    {REPORT, {0, 100, CLOSE, 1}, "3 0 C 100 -"},
    {REPORT, {0, 100, TRIP, 2}, "4 0 C 100 S0T@100,S0T@101"},
    {DELIVER, {2, 0, 100, TRIP, 101}, "5 0 C 100 CT@101"},
    {COMMAND, {100, TRIP, 101}, "6 0 T 101 AT@101"},
    {COMMAND, {100, TRIP, 101}, "7 0 T 101 AT@101"},
    {DELIVER, {1, 0, 100, TRIP, 100}, "8 8 T 101 -"},
    {COMMAND, {100, CLOSE, 101}, "9 8 T 101 -"},
    {START, {0, 0, 0, TRIP, 50}, "10 0 T 50 -"},
    {COMMAND, {50, CLOSE, 51}, "11 8 T 50 -"},
};

struct answer {
    unsigned long long number;
    unsigned refusal; /* 0: done */
    char status;      /* the breaker's: C, T, or - before a Start */
    unsigned stamp;
    char sent[64];
};

static pid_t model;
static FILE *to_model, *from_model;
static FILE *fed, *answered; /* the acceptance record, where one is kept */

static void fail(const char *format, ...)
{
    va_list words;
    va_start(words, format);
    fflush(stdout);
    fputs("board: ", stderr);
    vfprintf(stderr, format, words);
    fputc('\n', stderr);
    va_end(words);
    if (model > 0)
        kill(model, SIGKILL);
    exit(1);
}

static void too_late(int signal)
{
    static const char message[] = "board: the program did not answer in time\n";
    (void)signal;
    if (write(STDERR_FILENO, message, sizeof message - 1) > 0)
        kill(model, SIGKILL);
    _exit(1);
}

static void start_model(char *command)
{
    int input[2], output[2];
    if (pipe(input) != 0 || pipe(output) != 0 || (model = fork()) < 0)
        fail("%s cannot be started: %s", command, strerror(errno));
    if (model == 0) {
        dup2(input[0], STDIN_FILENO);
        dup2(output[1], STDOUT_FILENO);
        close(input[0]);
        close(input[1]);
        close(output[0]);
        close(output[1]);
        execvp(command, (char *[]){command, NULL});
        fail("%s cannot be started: %s", command, strerror(errno));
    }
    close(input[0]);
    close(output[1]);
    to_model = fdopen(input[1], "wb");
    from_model = fdopen(output[0], "rb");
    signal(SIGPIPE, SIG_IGN); /* a program that has ended is told by a failed write */
    signal(SIGALRM, too_late);
}

static size_t put(unsigned char *bytes, unsigned width, uint32_t number)
{
    for (unsigned i = 0; i < width; i++)
        bytes[i] = (unsigned char)(number >> (8 * (width - 1 - i)));
    return width;
}

static size_t make_record(const struct step *step, unsigned char *bytes)
{
    const char *width = widths[step->kind];
    size_t size = 2 + put(bytes + 2, 1, step->kind);
    for (int i = 0; width[i] != '\0'; i++)
        size += put(bytes + size, (unsigned)(width[i] - '0'), step->fields[i]);
    put(bytes, 2, (uint32_t)size - 2);
    return size;
}

static void feed(const unsigned char *bytes, size_t size)
{
    if (fwrite(bytes, 1, size, to_model) != size || fflush(to_model) != 0)
        fail("the program does not take its input: %s", strerror(errno));
    if (fed != NULL && fwrite(bytes, 1, size, fed) != size)
        fail("the log cannot be kept: %s", strerror(errno));
}

/* The next line without its end. */
static void read_line(char *line)
{
    alarm(LIMIT);
    if (fgets(line, LONGEST_LINE, from_model) == NULL)
        fail("the program ended before it answered");
    alarm(0);
    char *end = strchr(line, '\n');
    if (end == NULL)
        fail("a line without an end, or of more than %d bytes", LONGEST_LINE - 1);
    *end = '\0';
    if (answered != NULL && fprintf(answered, "%s\n", line) < 0)
        fail("the lines cannot be kept: %s", strerror(errno));
}

static int take_apart(const char *line, struct answer *answer)
{
    int end = 0;
    int taken = sscanf(line, "%llu %u %c %u %63s%n", &answer->number, &answer->refusal, &answer->status, &answer->stamp,
                       answer->sent, &end);
    return taken == 5 && line[end] == '\0';
}

/* Here a harness does what the model says, or compares it with what its board has done. */
static void carry_out(struct answer *answer)
{
    for (char *one = strtok(answer->sent, ","); one != NULL; one = strtok(NULL, ","))
        switch (one[0]) {
        case 'S': printf("    %s: the node sends this share to the others\n", one); break;
        case 'C': printf("    %s: the node sends this command to the breaker\n", one); break;
        case 'A': printf("    %s: the breaker acknowledges\n", one); break;
        }
}

static void take_step(const struct step *step)
{
    unsigned char record[14];
    char line[LONGEST_LINE];
    struct answer answer;
    feed(record, make_record(step, record));
    read_line(line);
    if (strcmp(line, step->due) != 0 || !take_apart(line, &answer))
        fail("a wrong answer: expected `%s`, found `%s`", step->due, line);
    printf("%-28s ok\n", line);
    carry_out(&answer);
}

static void finish(void)
{
    int status;
    alarm(LIMIT);
    fclose(to_model);
    if (fgetc(from_model) != EOF)
        fail("the program prints more than the answers");
    if (waitpid(model, &status, 0) < 0 || !WIFEXITED(status) || WEXITSTATUS(status) != 0)
        fail("the program did not end well");
    alarm(0);
    if ((fed != NULL && fclose(fed) != 0) || (answered != NULL && fclose(answered) != 0))
        fail("the record cannot be kept: %s", strerror(errno));
}

static FILE *open_record(const char *name, const char *ending)
{
    char path[4096];
    snprintf(path, sizeof path, "%s.%s", name, ending);
    FILE *file = fopen(path, "wb");
    if (file == NULL)
        fail("%s: %s", path, strerror(errno));
    return file;
}

int main(int argc, char **argv)
{
    if (argc < 2 || argc > 3) {
        fputs("usage: board COMMAND [NAME]\n", stderr);
        return 2;
    }
    if (argc == 3) {
        fed = open_record(argv[2], "log");
        answered = open_record(argv[2], "lines");
    }
    start_model(argv[1]);
    feed((const unsigned char[]){1}, 1);
    for (size_t i = 0; i < sizeof listing / sizeof *listing; i++)
        take_step(&listing[i]);
    finish();
    return 0;
}
