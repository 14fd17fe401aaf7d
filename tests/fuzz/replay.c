/* Runs the harness without libFuzzer: replay SEED MUTATIONS FINDING FILE..
 * Runs each file as it is, then so many mutations of them, the same for the same seed. Prints how often each call gave
 * each number, and fails if a number that a call has was never given. Writes the input of a violation to FINDING. */
#include "calls.h"
#include "dice.h"
#include "harness.h"
#include <sanitizer/common_interface_defs.h>
#include <stdio.h>
#include <stdlib.h>

static uint8_t current[BYTES_MOST];
static size_t current_size;
static const char *finding;

/* AddressSanitizer reports an abort as any other death, so that the input is kept. */
const char *__asan_default_options(void);
const char *__asan_default_options(void) { return "handle_abort=1:detect_leaks=0"; }

static FILE *opened(const char *path, const char *mode)
{
    FILE *file = fopen(path, mode);
    if (file) return file;
    perror(path);
    exit(2);
}

static void keep_finding(void)
{
    FILE *file = opened(finding, "wb");
    bool kept = fwrite(current, 1, current_size, file) == current_size && !fclose(file);
    fprintf(stderr, kept ? "the input is kept in %s\n" : "the input could not be written to %s\n", finding);
}

static void load(const char *path)
{
    FILE *file = opened(path, "rb");
    current_size = fread(current, 1, BYTES_MOST, file);
    fclose(file);
}

/* Prints a call's numbers, and returns how many of them were never given. */
static int report(enum call call)
{
    int never = 0;
    printf("%s:", call_names[call]);
    for (unsigned number = 0; number < NUMBERS; number++) {
        if (!(call_numbers[call] >> number & 1u)) continue;
        printf(" %u: %lu", number, calls_seen[call][number]);
        never += calls_seen[call][number] == 0;
    }
    printf("%s\n", never ? "  SOME NUMBER NEVER GIVEN" : "");
    return never;
}

int main(int argc, char **argv)
{
    if (argc < 5) return fprintf(stderr, "usage: replay SEED MUTATIONS FINDING FILE..\n"), 2;
    struct dice dice = {strtoull(argv[1], NULL, 10)};
    unsigned long mutations = strtoul(argv[2], NULL, 10);
    int never = 0, files = argc - 4;
    finding = argv[3];
    __sanitizer_set_death_callback(keep_finding);
    for (int i = 0; i < files; i++) {
        load(argv[4 + i]);
        LLVMFuzzerTestOneInput(current, current_size);
    }
    for (unsigned long i = 0; i < mutations; i++) {
        load(argv[4 + roll(&dice, (uint32_t)files)]);
        current_size = LLVMFuzzerCustomMutator(current, current_size, BYTES_MOST, roll(&dice, UINT32_MAX));
        LLVMFuzzerTestOneInput(current, current_size);
    }
    printf("%d stored inputs, %lu mutations with seed %s, %lu calls; answers by number:\n", files, mutations, argv[1],
           calls_made);
    for (enum call call = CHECK; call < CALLS; call++) never += report(call);
    return never != 0;
}
