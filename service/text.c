#include "text.h"

#include "words.h"

#include <errno.h>
#include <stdlib.h>
#include <string.h>

int text_number(const char *word, uint64_t most, uint64_t *value)
{
    uint64_t sum = 0;
    if (*word == '\0')
        return 0;
    for (; *word != '\0'; word++) {
        unsigned digit = (unsigned)(unsigned char)*word - '0';
        if (digit > 9 || digit > most || sum > (most - digit) / 10)
            return 0;
        sum = 10 * sum + digit;
    }
    *value = sum;
    return 1;
}

void text_open(struct text *text, const char *name)
{
    memset(text, 0, sizeof *text);
    text->name = name;
    text->file = fopen(name, "r");
    if (text->file == NULL)
        trouble("%s cannot be read: %s", name, strerror(errno));
}

int text_next(struct text *text, char *words[], int most)
{
    for (;;) {
        int count = 0;
        char *rest = NULL, *word;
        errno = 0;
        if (getline(&text->line, &text->room, text->file) < 0) {
            if (ferror(text->file) || errno != 0)
                trouble("%s cannot be read: %s", text->name, strerror(errno));
            return -1;
        }
        text->at++;
        text->line[strcspn(text->line, "#\n")] = '\0';
        for (word = strtok_r(text->line, " \t\r", &rest); word != NULL; word = strtok_r(NULL, " \t\r", &rest)) {
            if (count < most)
                words[count] = word;
            count++;
        }
        if (count > 0)
            return count;
    }
}

void text_close(struct text *text)
{
    free(text->line);
    fclose(text->file); /* it was only read */
}
