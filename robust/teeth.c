// Whether the tests find wrong code: one conditional jump of the loaded library is changed, in a process of its own, and inputs are run.
#include "robust.h"
#include <inttypes.h>
#include <signal.h>
#include <stdio.h>
#include <stdlib.h>
#include <string.h>
#include <sys/time.h>
#include <sys/wait.h>
#include <unistd.h>

#define INPUTS 6000
#define BY_RECORD 3

// Inverts the jump's condition, or moves its bound by one: jb and jbe, jae and ja.
static int change(u64 at, int bound)
{
    u8 *code = (u8 *)at;
    if (code[0] == 0x0f)
        code++;
    int order = (code[0] & 15) == 2 || (code[0] & 15) == 3 || (code[0] & 15) == 6 || (code[0] & 15) == 7;
    if (bound && !order)
        return 0;
    code[0] ^= bound ? 4 : 1;
    return 1;
}

static void run_inputs(void)
{
    static u8 input[2048];
    for (size_t i = 0; i < INPUTS; i++) {
        enum op op = (enum op)(i % OPS);
        size_t len = grow_input(op, input, 1024, 256);
        struct call c = roomy(op, input, len);
        c.count = counts(op) ? grow_count(0) : 0;
        check_input(&c);
        c.out = grow_length(needed_words);
        c.tree = grow_length(needed_tree);
        check_input(&c);
    }
}

static int child(u64 at, int bound)
{
    if (!freopen("/dev/null", "w", stdout) || !change(at, bound))
        return 2;
    // A call that does not end is ended when so much of the processor's time is spent.
    struct itimerval end = {{0, 0}, {8, 0}};
    signal(SIGVTALRM, SIG_DFL);
    setitimer(ITIMER_VIRTUAL, &end, 0);
    run_inputs();
    fail_status = BY_RECORD;
    mode_replay();
    return 0;
}

void mode_teeth(u64 changes, u64 seed, const char *disassembly)
{
    seed_random(seed);
    blocks_load(disassembly);
    u64 tried = 0, rules = 0, record = 0, kept = 0;
    while (tried < changes) {
        u64 at = blocks_jumps[below(blocks_jump_count)];
        int bound = (int)below(2), status;
        random_u64();
        fflush(stdout);
        pid_t pid = fork();
        if (pid < 0)
            exit(2);
        if (pid == 0)
            exit(child(at, bound));
        waitpid(pid, &status, 0);
        if (WIFEXITED(status) && WEXITSTATUS(status) == 2)
            continue;
        tried++;
        if (WIFEXITED(status) && WEXITSTATUS(status) == 0) {
            kept++;
            printf("robust: teeth: not found: the jump at %" PRIx64 "%s\n", at, bound ? ", its bound" : "");
        } else if (WIFEXITED(status) && WEXITSTATUS(status) == BY_RECORD) {
            record++;
        } else {
            rules++;
        }
    }
    printf("robust: teeth: %" PRIu64 " changes of one jump: %" PRIu64 " found by the rules alone, %" PRIu64 " by the recorded answers, %" PRIu64
           " not found\n", tried, rules, record, kept);
}
