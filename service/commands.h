/* The shell's commands. */
#ifndef SERVICE_COMMANDS_H
#define SERVICE_COMMANDS_H

#include "arguments.h"

extern const struct command commands[];
extern const int command_count;

#endif
