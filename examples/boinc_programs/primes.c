/* Counts the prime numbers below a limit, with BOINC's library.
 *
 * usage: primes [--pause MILLISECONDS] [--say TEXT]
 * It reads the limit from the file `in`, and writes the count to `out`. `log` says how often it was started. After
 * each hundredth of the work it can be stopped: it notes in the file `checkpoint` how far it is, and begins there
 * when it is started again. --pause makes each hundredth take longer, for a trial. --say sends the project a message
 * (a trickle), which the bridge acknowledges and drops. Other words are ignored, such as --nthreads of a plan class.
 */
#include <stdio.h>
#include <stdlib.h>
#include <string.h>
#include <unistd.h>

/* The header of BOINC 8 uses this type and does not declare it for C. */
typedef int SPORADIC_CA_STATE;

#include "boinc_api.h"

#define STEPS 100
#define PATH_BYTES 512

/* what a checkpoint has */
struct state {
    long starts; /* of the program */
    long next;   /* the first number that is not tested yet */
    long count;  /* of primes before it */
};

/* Opens a file under the name that the client gave it. Without it there is no result, so the program ends. */
static FILE *open_file(const char *name, const char *mode)
{
    char path[PATH_BYTES];
    FILE *file;

    boinc_resolve_filename(name, path, sizeof path);
    file = fopen(path, mode);
    if (file == NULL) {
        fprintf(stderr, "%s can't be opened\n", name);
        boinc_finish(2);
    }
    return file;
}

/* Returns the state at the last checkpoint, or that of a new job. */
static struct state read_state(void)
{
    struct state state = {0, 2, 0};
    FILE *file = fopen("checkpoint", "r");

    if (file != NULL) {
        if (fscanf(file, "%ld %ld %ld", &state.starts, &state.next, &state.count) != 3) {
            state = (struct state){0, 2, 0};
        }
        fclose(file);
    }
    state.starts++;
    return state;
}

/* Writes a checkpoint. A stop leaves the old one or the new one. */
static void write_state(const struct state *state)
{
    FILE *file = fopen("checkpoint.new", "w");

    if (file == NULL) {
        return; /* the program begins at the last checkpoint then */
    }
    fprintf(file, "%ld %ld %ld\n", state->starts, state->next, state->count);
    if (fflush(file) == 0 && fsync(fileno(file)) == 0) {
        rename("checkpoint.new", "checkpoint");
    }
    fclose(file);
}

static int is_prime(long number)
{
    long divisor;

    for (divisor = 2; divisor * divisor <= number; divisor++) {
        if (number % divisor == 0) {
            return 0;
        }
    }
    return 1;
}

/* Tests the numbers up to a bound. */
static void advance(struct state *state, long bound)
{
    for (; state->next < bound; state->next++) {
        state->count += is_prime(state->next);
    }
}

/* Returns the word after an option, or NULL if there is no such option. */
static char *word_after(const char *option, int argc, char **argv)
{
    int place;

    for (place = 1; place + 1 < argc; place++) {
        if (strcmp(argv[place], option) == 0) {
            return argv[place + 1];
        }
    }
    return NULL;
}

int main(int argc, char **argv)
{
    struct state state;
    char *pause = word_after("--pause", argc, argv), *text = word_after("--say", argc, argv);
    char variety[] = "steps";
    long limit = 0, step;
    FILE *file;

    if (boinc_init() != 0) {
        return 1;
    }
    if (text != NULL) {
        boinc_send_trickle_up(variety, text);
    }
    file = open_file("in", "r");
    if (fscanf(file, "%ld", &limit) != 1 || limit < 0 || limit > 1000000000) {
        fprintf(stderr, "in has no number up to 1000000000\n");
        boinc_finish(3);
    }
    fclose(file);
    state = read_state();
    write_state(&state);
    for (step = 1; step <= STEPS; step++) {
        if (state.next < limit * step / STEPS) {
            advance(&state, limit * step / STEPS);
            usleep(pause == NULL ? 0 : (useconds_t)(atol(pause) * 1000));
        }
        boinc_fraction_done((double)step / STEPS);
        if (boinc_time_to_checkpoint()) {
            write_state(&state);
            boinc_checkpoint_completed();
        }
    }
    file = open_file("out", "w");
    fprintf(file, "%ld\n", state.count);
    fclose(file);
    file = open_file("log", "w");
    fprintf(file, "started %ld times\n", state.starts);
    fclose(file);
    boinc_finish(0); /* it does not return */
    return 0;
}
