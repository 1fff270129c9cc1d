#include "arguments.h"

#include "text.h"
#include "words.h"

#include <stdlib.h>
#include <string.h>

/* Where the value of an option is put; NULL where the command does not take the option. */
static const char **place_of(struct arguments *arguments, const struct command *command, const char *option)
{
    if (strcmp(option, "--slots") == 0 && command->options & WITH_SLOTS)
        return &arguments->slots;
    if (strcmp(option, "--directory") == 0 && command->options & WITH_DIRECTORY)
        return &arguments->directory;
    if (strcmp(option, "--number") == 0 && command->options & WITH_NUMBER)
        return &arguments->number;
    if (strcmp(option, "--to") == 0 && command->options & WITH_TO)
        return &arguments->to;
    if (strcmp(option, "--after") == 0 && command->options & WITH_AFTER)
        return &arguments->after;
    if (strcmp(option, "--host") == 0 && command->options & (WITH_HOST | WITH_HOSTS)) {
        if (arguments->host_count == (command->options & WITH_HOSTS ? MOST_HOSTS : 1))
            usage_error("%s: --host is given too often", command->name);
        return &arguments->hosts[arguments->host_count++];
    }
    return NULL;
}

void arguments_read(struct arguments *arguments, const struct command *command, int count, char *words[])
{
    int at;
    memset(arguments, 0, sizeof *arguments);
    for (at = 0; at < count; at++) {
        const char **place;
        if (strncmp(words[at], "--", 2) != 0) {
            if (arguments->count == command->most)
                usage_error("%s: %s is one word too many; 'stocklog %s --help' says what is asked", command->name, words[at], command->name);
            arguments->words[arguments->count++] = words[at];
        } else if (strcmp(words[at], "--owed") == 0 && command->options & WITH_OWED) {
            arguments->owed = 1;
        } else if ((place = place_of(arguments, command, words[at])) == NULL) {
            usage_error("%s: it has no option %s; 'stocklog %s --help' says what is asked", command->name, words[at], command->name);
        } else if (*place != NULL) {
            usage_error("%s: %s is given twice", command->name, words[at]);
        } else if (++at == count) {
            usage_error("%s: %s asks for a value", command->name, words[at - 1]);
        } else {
            *place = words[at];
        }
    }
    if (arguments->count < command->least)
        usage_error("usage: stocklog %s %s", command->name, command->form);
}

uint64_t asked_number(const char *what, const char *word, uint64_t most)
{
    uint64_t value;
    if (!text_number(word, most, &value))
        usage_error("%s is a number up to %llu, and %s is none", what, (unsigned long long)most, word);
    return value;
}

uint32_t asked_object(const struct directory *directory, const char *word)
{
    uint64_t id;
    int place = directory_place(directory, word);
    if (place >= 0)
        return directory_id(directory, (unsigned)place);
    if (!text_number(word, UINT32_MAX, &id))
        usage_error("no object of this log is called %s", word);
    return (uint32_t)id;
}

struct asked_cell asked_cell(const struct directory *directory, const char *word, char mark, uint64_t most)
{
    struct asked_cell cell = {0, 0, 0};
    char *copy = strdup(word), *key, *number = NULL;
    if (copy == NULL)
        trouble("no memory for the words of the command");
    key = strchr(copy, ':');
    if (key != NULL && mark != '\0')
        number = strchr(key, mark);
    if (key == NULL || (mark != '\0' && number == NULL))
        usage_error("%s: a cell is written OBJECT:KEY%s", word, mark == '=' ? "=VALUE" : mark == '@' ? "@VERSION" : "");
    *key = '\0';
    if (number != NULL)
        *number = '\0';
    cell.object = asked_object(directory, copy);
    cell.key = (uint32_t)asked_number("a key", key + 1, UINT32_MAX);
    if (number != NULL)
        cell.number = asked_number(mark == '=' ? "a value" : "a version", number + 1, most);
    free(copy);
    return cell;
}

uint64_t asked_set(const struct directory *directory, const char *word)
{
    char *copy = strdup(word), *rest = NULL, *object;
    uint64_t set = 0;
    if (copy == NULL)
        trouble("no memory for the words of the command");
    for (object = strtok_r(copy, ",", &rest); object != NULL; object = strtok_r(NULL, ",", &rest)) {
        int place = directory_place(directory, object);
        if (place < 0)
            usage_error("--host %s: this log has no object %s", word, object);
        set |= UINT64_C(1) << place;
    }
    free(copy);
    return set;
}
