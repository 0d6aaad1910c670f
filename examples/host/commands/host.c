/* A terminal host over the gate of the Control Authority Protocol: it keeps the image in a file, checks signatures, asks the gate, and says
 * in words what was decided and why. The decisions are the gate's alone; the host turns arguments and files into what the gate takes. */
#include <stdio.h>
#include <string.h>

#include "commands.h"

/* A command by its name, how many arguments it takes, and what they are. */
typedef struct command {
    const char *name;
    int fewest;
    int most;
    int (*run)(char **arguments, int count);
    const char *arguments;
} command;

/* The commands. */
static const command commands[] = {
    {"new", 2, 2, command_new, "IMAGE SIZE"},
    {"upgrade", 2, 2, command_upgrade, "IMAGE SIZE"},
    {"submit", 3, 4, command_submit, "IMAGE KEYS DESCRIPTOR [NOW]"},
    {"request", 9, 11, command_request, "IMAGE KEYS ID FAY TERMINAL RESOURCE MODE NOW SESSION [REVOKED-FILE [LEASE-FILE]]"},
    {"narrow", 2, 2, command_narrow, "PARENT CHILD"},
    {"show", 1, 1, command_show, "DESCRIPTOR"},
};

/* How many commands there are. */
enum { COMMAND_COUNT = sizeof commands / sizeof commands[0] };

/* Tells how the host is called. */
static int tell_usage(void) {
    fputs("usage:\n", stderr);
    for (int place = 0; place < COMMAND_COUNT; place++) {
        fprintf(stderr, "  host %s %s\n", commands[place].name, commands[place].arguments);
    }
    fputs("ID is a UUID text; MODE is read, write, execute or configure; NOW is seconds since 1970, or the word now; that of a\n"
          "request may have milliseconds, as 1767225600.250. SESSION is the longest session in seconds. A - stands for no\n"
          "REVOKED-FILE. Ends with 0: done or granted; 1: refused; 2: an error of files or arguments.\n",
          stderr);
    return ENDED_WITH_ERROR;
}

/* Finds a command that has the name and takes so many arguments, or null. */
static const command *find_command(const char *name, int count) {
    for (int place = 0; place < COMMAND_COUNT; place++) {
        const command *found = &commands[place];
        if (strcmp(found->name, name) == 0 && count >= found->fewest && count <= found->most) {
            return found;
        }
    }
    return NULL;
}

/* Runs the command; where its words couldn't be written, the host ends with an error, whatever was decided. */
int main(int argc, char **argv) {
    const command *found = argc < 2 ? NULL : find_command(argv[1], argc - 2);
    if (found == NULL) {
        return tell_usage();
    }
    int ended = found->run(argv + 2, argc - 2);
    if (fflush(stdout) != 0 || ferror(stdout)) {
        fputs("error: cannot write to the standard output\n", stderr);
        return ENDED_WITH_ERROR;
    }
    return ended;
}
