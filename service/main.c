/* stocklog: a shell for shared stock logs. */
#include "commands.h"
#include "words.h"

#include <errno.h>
#include <stdio.h>
#include <string.h>
#include <sys/resource.h>

/* The library's calls need so much stack, and this program a little. */
static void need_stack(void)
{
    const rlim_t need = STOCKLOG_STACK + (1 << 20);
    struct rlimit stack;
    if (getrlimit(RLIMIT_STACK, &stack) != 0)
        trouble("the limit of the stack cannot be read: %s", strerror(errno));
    if (stack.rlim_cur != RLIM_INFINITY && stack.rlim_cur < need) {
        stack.rlim_cur = need;
        if (setrlimit(RLIMIT_STACK, &stack) != 0)
            trouble("the library needs a stack of %lu bytes, and the limit is lower (ulimit -s)", (unsigned long)need);
    }
}

static void help(FILE *to)
{
    int at;
    fputs("stocklog: a shell for shared stock logs. FILE is a log file, or postgres: and a connection string of libpq.\n\n", to);
    for (at = 0; at < command_count; at++)
        fprintf(to, "  stocklog %s %s\n", commands[at].name, commands[at].form);
    fputs("\n'stocklog COMMAND --help' says more. An object is a name or an id, a set objects with commas between them.\n"
          "Exit status: 0 done; 1 refused, in words and with the library's number; 2 not understood; 3 a file, the disk or a server failed.\n",
          to);
}

static int run(const struct command *command, int count, char *words[])
{
    struct arguments arguments;
    int at;
    for (at = 0; at < count; at++)
        if (strcmp(words[at], "--help") == 0) {
            printf("usage: stocklog %s %s\n\n%s", command->name, command->form, command->about);
            return ENDS_DONE;
        }
    arguments_read(&arguments, command, count, words);
    need_stack();
    return command->run(&arguments);
}

int main(int count, char *words[])
{
    int at, ends = -1;
    if (count > 1 && strcmp(words[1], "--help") == 0) {
        help(stdout);
        ends = ENDS_DONE;
    }
    for (at = 0; count > 1 && at < command_count; at++)
        if (strcmp(words[1], commands[at].name) == 0)
            ends = run(&commands[at], count - 2, words + 2);
    if (ends < 0 && count > 1)
        usage_error("there is no command %s; 'stocklog --help' lists them", words[1]);
    if (ends < 0) {
        help(stderr);
        return ENDS_USAGE;
    }
    if (fflush(stdout) != 0 || ferror(stdout))
        trouble("standard output cannot be written: %s", strerror(errno));
    return ends;
}
