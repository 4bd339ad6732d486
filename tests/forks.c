// Put before the C library: of every two processes that a shell starts, the first (LATE_FORKS=0) or the second
// (LATE_FORKS=1) begins its work 0.3 seconds late, so that a signal can reach it before.
#define _GNU_SOURCE
#include <dlfcn.h>
#include <errno.h>
#include <stdlib.h>
#include <time.h>
#include <unistd.h>

pid_t fork(void) {
    static unsigned started;
    pid_t (*next)(void) = (pid_t(*)(void))dlsym(RTLD_NEXT, "fork");
    const char *late = getenv("LATE_FORKS");
    unsigned which = started++ % 2;
    pid_t child = next();
    if (child == 0 && late && which == (unsigned)atoi(late)) {
        struct timespec left = {0, 300000000};
        while (nanosleep(&left, &left) != 0 && errno == EINTR) {
        }
    }
    return child;
}
