/* The trap flag, for test programs on Linux and x86-64: with it in the flags of a signal's context, the next instruction is
 * executed alone and followed by SIGTRAP. */
#ifndef TRAPS_H
#define TRAPS_H

#include <signal.h>
#include <stdio.h>
#include <stdlib.h>
#include <string.h>

enum { TRAP_FLAG = 0x100 };

static void handle(int number, void (*handler)(int, siginfo_t *, void *)) {
    struct sigaction action;
    memset(&action, 0, sizeof action);
    action.sa_sigaction = handler;
    action.sa_flags = SA_SIGINFO;
    if (sigaction(number, &action, NULL) != 0) {
        perror("sigaction");
        exit(2);
    }
}

#endif
