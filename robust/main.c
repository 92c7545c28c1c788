// robust CASES MODE ..: runs one of the tests; robust/run builds it and says which there are.
#include "robust.h"
#include <inttypes.h>
#include <signal.h>
#include <stdio.h>
#include <stdlib.h>
#include <string.h>
#include <sys/time.h>
#include <unistd.h>

static u8 signal_stack[65536];

// A signal during a call is misbehaviour: the call is shown.
static void on_signal(int number)
{
    const struct call *c = current;
    printf("robust: signal %d\n", number);
    if (c) {
        printf("robust: the call: ");
        show_call(c);
    }
    fflush(stdout);
    _exit(1);
}

// A call that goes on for ten seconds of the processor's time does not end.
static void on_tick(int number)
{
    static u64 last;
    static int same;
    same = current && calls_made == last ? same + 1 : 0;
    last = calls_made;
    if (same >= 10)
        on_signal(number);
}

static void watch(void)
{
    stack_t other = {.ss_sp = signal_stack, .ss_size = sizeof signal_stack};
    sigaltstack(&other, 0);
    struct sigaction action = {.sa_handler = on_signal, .sa_flags = SA_ONSTACK};
    const int numbers[] = {SIGSEGV, SIGBUS, SIGILL, SIGFPE, SIGABRT};
    for (size_t i = 0; i < sizeof numbers / sizeof numbers[0]; i++)
        sigaction(numbers[i], &action, 0);
    struct sigaction tick = {.sa_handler = on_tick, .sa_flags = SA_ONSTACK | SA_RESTART};
    sigaction(SIGVTALRM, &tick, 0);
    struct itimerval second = {{1, 0}, {1, 0}};
    setitimer(ITIMER_VIRTUAL, &second, 0);
}

static int usage(void)
{
    printf("robust CASES replay | memory CALLS | fuzz OPERATION SECONDS SEED DISASSEMBLY"
           " | soak TEXTS | stack TRIES | frames TRIES DISASSEMBLY | teeth CHANGES SEED DISASSEMBLY\n");
    return 2;
}

int main(int argc, char **argv)
{
    if (argc < 3)
        return usage();
    const char *mode = argv[2];
    load_seeds(argv[1]);
    if (strcmp(mode, "memory") == 0 && argc == 4) {
        mode_memory(strtoull(argv[3], 0, 10));
        return 0;
    }
    if (strcmp(mode, "stack") == 0 && argc == 4) {
        mode_stack(strtoull(argv[3], 0, 10));
        return 0;
    }
    if (strcmp(mode, "frames") == 0 && argc == 5) {
        mode_frames(strtoull(argv[3], 0, 10), argv[4]);
        return 0;
    }
    watch();
    lend_init();
    if (strcmp(mode, "replay") == 0) {
        mode_replay();
        return 0;
    }
    if (strcmp(mode, "soak") == 0 && argc == 4) {
        mode_soak(strtoull(argv[3], 0, 10));
        return 0;
    }
    if (strcmp(mode, "teeth") == 0 && argc == 6) {
        mode_teeth(strtoull(argv[3], 0, 10), strtoull(argv[4], 0, 10), argv[5]);
        return 0;
    }
    if (strcmp(mode, "fuzz") == 0 && argc == 7)
        for (int op = 0; op < OPS; op++)
            if (strcmp(argv[3], op_names[op]) == 0) {
                mode_fuzz((enum op)op, strtoull(argv[4], 0, 10), strtoull(argv[5], 0, 10), argv[6]);
                return 0;
            }
    return usage();
}
