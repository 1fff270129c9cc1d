/* Text files of words, one record a line, and numbers as people write them. */
#ifndef SERVICE_TEXT_H
#define SERVICE_TEXT_H

#include <stddef.h>
#include <stdint.h>
#include <stdio.h>

/* A decimal number of digits alone, at most a given one. Returns 0 where the word is anything else. */
int text_number(const char *word, uint64_t most, uint64_t *value);

struct text {
    FILE *file;
    const char *name;
    char *line;
    size_t room;
    unsigned at; /* the line's number, from 1 */
};

/* A file that cannot be opened or read ends the program with status 3. */
void text_open(struct text *text, const char *name);

/* The words of the next line that has any, without what follows a '#'; at most so many, a further one counts too. -1 at the end. */
int text_next(struct text *text, char *words[], int most);

void text_close(struct text *text);

#endif
