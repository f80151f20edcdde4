// Starts a program under limits: start [as=BYTES] [stack=BYTES] [file=BYTES] [close=FD] [ignore=SIGNAL] [preload=PATH] -- PROGRAM [WORD..]
//
// Address space, stack and size of written files are limited, descriptors closed, signals ignored, and a library is loaded before the
// program. No core is left behind. It ends with 126 where the program can't be started.
#include <signal.h>
#include <stdio.h>
#include <stdlib.h>
#include <string.h>
#include <sys/resource.h>
#include <unistd.h>

static int limit(int what, const char *bytes) {
    struct rlimit both;
    both.rlim_cur = both.rlim_max = strtoull(bytes, NULL, 10);
    return setrlimit(what, &both);
}

int main(int count, char **words) {
    int k = 1, bad = limit(RLIMIT_CORE, "0");
    const char *space = NULL;
    for (; k < count && strcmp(words[k], "--"); k++) {
        char *value = strchr(words[k], '=');
        if (!value) return 126;
        value++;
        if (!strncmp(words[k], "as=", 3)) space = value;
        else if (!strncmp(words[k], "stack=", 6)) bad |= limit(RLIMIT_STACK, value);
        else if (!strncmp(words[k], "file=", 5)) bad |= limit(RLIMIT_FSIZE, value);
        else if (!strncmp(words[k], "close=", 6)) close(atoi(value));
        else if (!strncmp(words[k], "ignore=", 7)) signal(atoi(value), SIG_IGN);
        else if (!strncmp(words[k], "preload=", 8)) bad |= setenv("LD_PRELOAD", value, 1);
        else return 126;
    }
    if (bad || k + 1 >= count || (space && limit(RLIMIT_AS, space))) return 126;
    execv(words[k + 1], words + k + 1);
    return 126;
}
