#include "options.h"

#include <stdio.h>
#include <stdlib.h>
#include <string.h>

static void help(const char *usage, const struct option *options, size_t count)
{
    size_t i;
    printf("%s\n\noptions:\n", usage);
    for (i = 0; i < count; i++) printf("  --%-10s %-10s %s\n", options[i].name, options[i].value, options[i].help);
    printf("  --%-10s %-10s %s\n", "help", "", "print this and end");
}

static void wrong(const char *path, const char *argument, const char *why)
{
    const char *slash = strrchr(path, '/'), *program = slash == NULL ? path : slash + 1;
    fprintf(stderr, "%s: %s: %s (--help lists the options)\n", program, argument, why);
    exit(2);
}

static void set(const char *program, const struct option *option, const char *value)
{
    char *end, why[80];
    unsigned long number;
    if (option->text != NULL) { *option->text = value; return; }
    number = strtoul(value, &end, 10);
    if (*value < '0' || *value > '9' || *end != '\0' || number < option->least || number > option->most) {
        snprintf(why, sizeof why, "a number from %u to %u is wanted for --%s", option->least, option->most, option->name);
        wrong(program, value, why);
    }
    *option->number = (uint32_t)number;
}

void read_options(int argc, char **argv, const char *usage, const struct option *options, size_t count)
{
    int at;
    for (at = 1; at < argc; at += 2) {
        size_t i = 0;
        if (strcmp(argv[at], "--help") == 0) { help(usage, options, count); exit(0); }
        while (i < count && (strncmp(argv[at], "--", 2) != 0 || strcmp(argv[at] + 2, options[i].name) != 0)) i++;
        if (i == count) wrong(argv[0], argv[at], "no such option");
        if (at + 1 == argc) wrong(argv[0], argv[at], "a value is wanted after it");
        set(argv[0], &options[i], argv[at + 1]);
    }
}

int option_given(int argc, char **argv, const char *name)
{
    int at;
    for (at = 1; at < argc; at += 2)
        if (strncmp(argv[at], "--", 2) == 0 && strcmp(argv[at] + 2, name) == 0) return 1;
    return 0;
}
