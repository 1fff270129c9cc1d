/* A command's words: what stands where, its options, and objects, cells and sets as people write them. */
#ifndef SERVICE_ARGUMENTS_H
#define SERVICE_ARGUMENTS_H

#include "directory.h"

enum { MOST_WORDS = 20, MOST_HOSTS = 20 };

/* Options, as bits of what a command takes. */
enum { WITH_SLOTS = 1, WITH_DIRECTORY = 2, WITH_NUMBER = 4, WITH_HOST = 8, WITH_HOSTS = 16, WITH_TO = 32, WITH_OWED = 64, WITH_AFTER = 128 };

struct arguments {
    const char *words[MOST_WORDS]; /* those that are no options */
    int count;
    const char *slots, *directory, *number, *to, *after;
    const char *hosts[MOST_HOSTS];
    int host_count;
    int owed;
};

struct command {
    const char *name;
    const char *form;  /* what follows the name */
    const char *about; /* for --help, whole lines */
    int options;
    int least, most; /* words that are no options */
    int (*run)(const struct arguments *arguments);
};

/* Reads what follows a command's name. What is not understood ends the program with status 2. */
void arguments_read(struct arguments *arguments, const struct command *command, int count, char *words[]);

/* An option's or a word's number; what is no number ends the program with status 2. */
uint64_t asked_number(const char *what, const char *word, uint64_t most);

/* The id of an object, by name or id. An id that the directory does not have is handed on for the library to refuse. */
uint32_t asked_object(const struct directory *directory, const char *word);

/* OBJECT:KEY, and after a mark a number: "north:7=43", "north:7@5". With mark 0 nothing follows the key. */
struct asked_cell { uint32_t object, key; uint64_t number; };
struct asked_cell asked_cell(const struct directory *directory, const char *word, char mark, uint64_t most);

/* A set of objects, "2,5" or "north,orders". */
uint64_t asked_set(const struct directory *directory, const char *word);

#endif
