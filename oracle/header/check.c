/* Runs the checks of the themes that are named, or of all of them, and answers whether one failed. */
#define _POSIX_C_SOURCE 200809L
#include "check.h"

#include <stdio.h>
#include <stdlib.h>
#include <unistd.h>

static unsigned failed;

void check(bool holds, const char *claim, const char *file, int line)
{
    if (holds)
        return;
    failed++;
    printf("%s:%d: %s\n", file, line, claim);
    if (getenv("CHECK_STOP") != NULL)
        exit(EXIT_FAILURE);
}

typedef struct theme {
    const char *name;
    void (*run)(void);
} theme;

static const theme themes[] = {
    {"limits", limits},     {"refusals", refusals}, {"precedence", precedence}, {"record", record},     {"materials", materials},
    {"poles", poles},       {"lengths", lengths},   {"parts", parts},           {"tables", tables},     {"walls", walls},
    {"regions", regions},   {"effects", effects},   {"steps", steps},           {"saves", saves},       {"pointers", pointers},
    {"wrappers", wrappers}, {"bytes", bytes},       {"nans", nans},             {"overlap", overlap},   {"constants", constants},
    {"bad_poles", bad_poles},
};

static bool named(const char *name, int count, char **names)
{
    int at;
    for (at = 1; at < count; at++)
        if (strcmp(name, names[at]) == 0)
            return true;
    return count == 1;
}

int main(int count, char **names)
{
    size_t at, ran = 0;
    alarm(10); /* a wrong number may make a check run on */
    for (at = 0; at < LENGTH(themes); at++)
        if (named(themes[at].name, count, names)) {
            themes[at].run();
            ran++;
        }
    if (count > 1 && ran + 1 != (size_t)count)
        printf("%d themes named, %zu run\n", count - 1, ran);
    return failed != 0 || (count > 1 && ran + 1 != (size_t)count);
}
