/* Calls that crash or come to no end are seen as differences like any other.
 * The archive keeps nothing between calls, so that one can be left half-way.
 */
#define _DEFAULT_SOURCE
#include <setjmp.h>
#include <signal.h>
#include <string.h>
#include <unistd.h>

#include "comparison.h"

enum { LARGE_STACK = 1 << 16 };

static sigjmp_buf back;
static volatile sig_atomic_t watching;

static void on_signal(int number)
{
    if (watching)
        siglongjmp(back, number);
    signal(number, SIG_DFL); /* the comparison itself is wrong */
    raise(number);
}

void watch(void)
{
    static const int numbers[] = {SIGSEGV, SIGBUS,  SIGILL, SIGFPE,
                                  SIGABRT, SIGTRAP, SIGALRM};
    static uint8_t stack[LARGE_STACK];
    stack_t other;
    struct sigaction action;
    memset(&other, 0, sizeof other);
    memset(&action, 0, sizeof action);
    other.ss_sp = stack;
    other.ss_size = sizeof stack;
    sigaltstack(&other, NULL);
    action.sa_handler = on_signal;
    action.sa_flags = SA_ONSTACK | SA_NODEFER;
    for (size_t i = 0; i < COUNT(numbers); i++)
        sigaction(numbers[i], &action, NULL);
}

/* Sets so many seconds for all that follows. */
void be_patient(uint32_t seconds)
{
    alarm(seconds);
}

/* NULL, or the check that fails. */
const char *call_watched(struct lending *l, struct difference *d,
                         const struct call *c)
{
    int number = sigsetjmp(back, 0);
    if (number != 0) {
        watching = 0;
        return number == SIGALRM ? "a call comes to its end"
                                 : "a call comes back";
    }
    watching = 1;
    call_both(l, d, c);
    watching = 0;
    return NULL;
}
