/* Runs a program that does not know BOINC, with BOINC's library.
 *
 * usage: wrapper PROGRAM [ARGUMENT ..]
 * It starts PROGRAM in the folder of the job. When the client wants the job to pause or to end, PROGRAM and all that
 * it started do so. The status of PROGRAM is that of the job. PROGRAM must be a file of the version with
 * `executable = true`. It has no checkpoints: if the client ends it, it begins anew.
 */
#include <signal.h>
#include <stdio.h>
#include <stdlib.h>
#include <string.h>
#include <sys/wait.h>
#include <unistd.h>

/* The header of BOINC 8 uses this type and does not declare it for C. */
typedef int SPORADIC_CA_STATE;

#include "boinc_api.h"

#define POLL_MICROSECONDS 100000

/* Starts the program in a process group of its own. */
static pid_t start(char **words)
{
    pid_t child = fork();

    if (child == 0) {
        setpgid(0, 0);
        execv(words[0], words);
        perror(words[0]);
        _exit(127);
    }
    if (child > 0) {
        setpgid(child, child);
    }
    return child;
}

/* Does with the program what the client wants. */
static void control(pid_t child, int *is_paused)
{
    BOINC_STATUS status;

    boinc_get_status(&status);
    if (status.quit_request || status.abort_request || status.no_heartbeat) {
        kill(-child, SIGKILL);
        exit(0); /* without boinc_finish: the client starts the job again, unless it was aborted */
    }
    if (status.suspended != *is_paused) {
        *is_paused = status.suspended;
        kill(-child, *is_paused ? SIGSTOP : SIGCONT);
    }
}

int main(int argc, char **argv)
{
    BOINC_OPTIONS options;
    pid_t child;
    int status = 0, is_paused = 0;

    memset(&options, 0, sizeof options);
    options.main_program = 1;
    options.check_heartbeat = 1;
    options.handle_process_control = 1;
    options.send_status_msgs = 1;
    options.direct_process_action = 0; /* the wrapper acts, and not the library */
    if (boinc_init_options(&options) != 0 || argc < 2) {
        return 1;
    }
    child = start(argv + 1);
    if (child < 0) {
        perror("fork");
        boinc_finish(1);
    }
    while (waitpid(child, &status, WNOHANG) == 0) {
        control(child, &is_paused);
        usleep(POLL_MICROSECONDS);
    }
    boinc_finish(WIFEXITED(status) ? WEXITSTATUS(status) : 1); /* it does not return */
    return 0;
}
