/* Serves the requests of a guest and compares the replies, and makes a run step by step. It ends with 0 where all is as
   it has to be, and names what is not. Give it the folder of guests: embed GUESTS. */
#include "lwcrun.h"

#include <inttypes.h>
#include <stdio.h>
#include <stdlib.h>
#include <string.h>

static int failures;

static void expect(int holds, const char *what) {
    if (holds) return;
    failures++;
    printf("not so: %s\n", what);
}

static struct lwcrun_bytes text(const char *word) {
    return (struct lwcrun_bytes){(const uint8_t *)word, strlen(word)};
}

/* The bytes of a file. Gives up where it cannot be read. */
static struct lwcrun_bytes read_file(const char *folder, const char *name) {
    char path[4096];
    snprintf(path, sizeof path, "%s/%s", folder, name);
    FILE *file = fopen(path, "rb");
    if (file == NULL) {
        perror(path);
        exit(1);
    }
    static uint8_t buffer[1 << 20];
    size_t length = fread(buffer, 1, sizeof buffer, file);
    fclose(file);
    uint8_t *bytes = malloc(length + 1);
    if (bytes == NULL) exit(1);
    memcpy(bytes, buffer, length);
    return (struct lwcrun_bytes){bytes, length};
}

/* The image of a source. */
static struct lwcrun_answer assemble(struct lwcrun_bytes source) {
    struct lwcrun_bytes words[] = {text("asm"), text("source")};
    struct lwcrun_file files[] = {{text("source"), source}};
    struct lwcrun_answer answer;
    expect(lwcrun_line(words, 2, files, 1, &answer) == LWCRUN_OK, "the source makes an image");
    expect(answer.message.length == 0, "a line that ends well has no message");
    return answer;
}

/* Whether a text has a line. */
static int has_line(struct lwcrun_bytes bytes, const char *line) {
    size_t length = strlen(line);
    for (size_t at = 0; at + length < bytes.length; at++)
        if ((at == 0 || bytes.at[at - 1] == '\n') && memcmp(bytes.at + at, line, length) == 0
            && bytes.at[at + length] == '\n')
            return 1;
    return 0;
}

/* Serves the requests of counter_handler by one worker: every reply is 1, since each request gets a fresh home. The
   third request ends with the fault 2, and the fourth is served as if it had not been. */
static void serve(struct lwcrun_bytes image, struct lwcrun_bytes requests) {
    static char steps[400];
    memset(steps, '0', sizeof steps - 1);
    struct lwcrun_bytes words[] = {text("replay"), text("image"), text("schedule"), text("requests"),
                                   text("--workers"), text("1")};
    struct lwcrun_file files[] = {{text("image"), image}, {text("schedule"), text(steps)},
                                  {text("requests"), requests}};
    struct lwcrun_answer answer;
    expect(lwcrun_line(words, 6, files, 3, &answer) == LWCRUN_OK, "the serve is replayed");
    expect(has_line(answer.output, "reply 0 done 0 01"), "reply 0 is 1");
    expect(has_line(answer.output, "reply 1 done 0 01"), "reply 1 is 1");
    expect(has_line(answer.output, "reply 2 fault 2 -"), "request 2 breaks the handler");
    expect(has_line(answer.output, "reply 3 done 0 01"), "reply 3 is 1");
    lwcrun_free(&answer);
    expect(answer.output.at == NULL && answer.output.length == 0, "an answer that was freed is empty");
    lwcrun_free(&answer);
}

/* A guest that stores 7 at the start of its page, and ends. */
static const char *storing = ".entry 0\n.page 0 -\nLI r1, 7\nSTW r1, r0, 0\nHALT\n";

/* Makes the steps of that guest, and looks at it behind each. */
static void make_steps(struct lwcrun_bytes image) {
    uint64_t run;
    struct lwcrun_thread thread;
    struct lwcrun_totals totals;
    struct lwcrun_slot slot;
    static uint8_t page[LWCRUN_PAGE_BYTES];
    expect(lwcrun_open(image, text(""), 4, 10, 0, &run) == LWCRUN_OK, "the run is opened");
    expect(lwcrun_totals(run, &totals) == LWCRUN_OK && totals.threads == 1 && totals.steps == 0 && totals.frames == 1
               && totals.contexts == 1 && totals.work == 10,
           "it has one thread, one context, one frame in use, and no steps");
    expect(lwcrun_page(run, 0, 0, 0, page) == LWCRUN_OK && page[0] == 0, "its page has zeros");
    expect(lwcrun_step(run, 0, &thread) == LWCRUN_OK && thread.status == 1 && thread.registers[1] == 7,
           "the first step loads 7 and stores it");
    expect(lwcrun_page(run, 0, 0, 0, page) == LWCRUN_OK && page[0] == 7 && page[1] == 0, "the page has the 7");
    expect(lwcrun_step(run, 0, &thread) == LWCRUN_OK && thread.status == 2 && thread.code == 0, "the second ends it");
    expect(lwcrun_step(run, 0, &thread) == LWCRUN_OK && thread.status == 2, "a thread that has ended stays as it is");
    expect(lwcrun_totals(run, &totals) == LWCRUN_OK && totals.steps == 2 && totals.work == 0, "two steps were made");
    expect(lwcrun_slot(run, 0, 0, 0, &slot) == LWCRUN_OK && slot.kind == 1, "slot 0 has the console");
    expect(lwcrun_slot(run, 0, 0, 2, &slot) == LWCRUN_OK && slot.kind == 0, "slot 2 is empty");
    expect(lwcrun_close(run) == LWCRUN_OK, "the run is closed");
    expect(lwcrun_step(run, 0, &thread) == LWCRUN_UNKNOWN_RUN, "a closed run is unknown");
    expect(lwcrun_close(run) == LWCRUN_UNKNOWN_RUN, "it is closed once");
}

/* Passes what no function takes. */
static void refuse(struct lwcrun_bytes image) {
    struct lwcrun_answer answer;
    struct lwcrun_thread thread;
    struct lwcrun_totals totals;
    struct lwcrun_slot slot;
    static uint8_t page[LWCRUN_PAGE_BYTES];
    uint64_t run = 0;
    struct lwcrun_bytes null_word = {NULL, 3}, long_word = {(const uint8_t *)"x", SIZE_MAX};
    struct lwcrun_bytes bad_word = text("\xff"), gen[] = {text("gen"), text("40")};
    expect(lwcrun_line(NULL, 1, NULL, 0, &answer) == LWCRUN_NULL, "words may not be null");
    expect(lwcrun_line(gen, 2, NULL, 1, &answer) == LWCRUN_NULL, "files may not be null");
    expect(lwcrun_line(gen, 2, NULL, 0, NULL) == LWCRUN_NULL, "the answer may not be null");
    expect(lwcrun_line(&null_word, 1, NULL, 0, &answer) == LWCRUN_NULL, "a word may not be null");
    expect(lwcrun_line(&long_word, 1, NULL, 0, &answer) == LWCRUN_BAD_LENGTH, "no word has all of memory");
    expect(lwcrun_line(gen, SIZE_MAX, NULL, 0, &answer) == LWCRUN_BAD_LENGTH, "there are not so many words");
    expect(lwcrun_line(&bad_word, 1, NULL, 0, &answer) == LWCRUN_NOT_TEXT, "a word is UTF-8");
    expect(lwcrun_line(gen, 2, NULL, 0, &answer) == LWCRUN_NEEDS_THREADS, "no thread starts in the library");
    expect(lwcrun_line(NULL, 0, NULL, 0, &answer) == LWCRUN_USAGE, "a line has words");
    expect(answer.message.length > 14 && memcmp(answer.message.at, "lwcrun: usage:", 14) == 0, "the message says so");
    lwcrun_free(&answer);
    lwcrun_free(NULL);
    expect(lwcrun_open(image, text(""), 4, 10, 0, NULL) == LWCRUN_NULL, "the number may not be null");
    expect(lwcrun_open(null_word, text(""), 4, 10, 0, &run) == LWCRUN_NULL, "an image may not be null");
    expect(lwcrun_open(image, long_word, 4, 10, 1, &run) == LWCRUN_BAD_LENGTH, "nor have requests all of memory");
    expect(lwcrun_open(text("LWC9"), text(""), 4, 10, 0, &run) == LWCRUN_IMAGE_REFUSED, "an image is one");
    expect(lwcrun_open(image, text("0\n"), 4, 10, 1, &run) == LWCRUN_INPUT_REFUSED, "requests have two digits a byte");
    expect(lwcrun_open(image, text("00\n"), 4, 10, 0, &run) == LWCRUN_INPUT_REFUSED, "a run has no requests");
    expect(lwcrun_open(image, text(""), 0, 10, 0, &run) == LWCRUN_BAD_SETTINGS, "a run has frames");
    expect(lwcrun_open(image, text(""), 4, 100001, 0, &run) == LWCRUN_BAD_SETTINGS, "a budget has a limit");
    expect(lwcrun_open(image, text(""), 4, 10, 17, &run) == LWCRUN_BAD_SETTINGS, "there are at most 16 workers");
    expect(run == 0, "nothing was put");
    expect(lwcrun_open(image, text(""), 4, 10, 0, &run) == LWCRUN_OK && run != 0, "the run is opened");
    expect(lwcrun_step(run, 0, NULL) == LWCRUN_NULL, "the thread's state may not be null");
    expect(lwcrun_step(run, 1, &thread) == LWCRUN_BAD_STEP, "it has one thread");
    expect(lwcrun_step(run, 16, &thread) == LWCRUN_BAD_STEP, "no run has 17 threads");
    expect(lwcrun_thread(run, 1, &thread) == LWCRUN_MISSING, "there is no second thread to see");
    expect(lwcrun_thread(run, 0, NULL) == LWCRUN_NULL, "the thread's state may not be null");
    expect(lwcrun_totals(run, NULL) == LWCRUN_NULL, "the totals may not be null");
    expect(lwcrun_page(run, 0, 0, 0, NULL) == LWCRUN_NULL, "the page may not be null");
    expect(lwcrun_page(run, 0, 1, 0, page) == LWCRUN_MISSING, "there is no second context");
    expect(lwcrun_page(run, 0, 0, 1, page) == LWCRUN_MISSING, "page 1 is absent");
    expect(lwcrun_page(run, 0, 0, UINT32_MAX, page) == LWCRUN_MISSING, "there is no such page");
    expect(lwcrun_slot(run, 0, 0, 64, &slot) == LWCRUN_MISSING, "a context has 64 slots");
    expect(lwcrun_slot(run, 0, 0, 0, NULL) == LWCRUN_NULL, "the slot may not be null");
    expect(lwcrun_totals(run, &totals) == LWCRUN_OK && totals.steps == 0, "none of that made a step");
    expect(lwcrun_close(run) == LWCRUN_OK, "the run is closed");
    expect(lwcrun_totals(run + 1, &totals) == LWCRUN_UNKNOWN_RUN, "no run has that number");
    expect(lwcrun_close(0) == LWCRUN_UNKNOWN_RUN, "no run has the number 0");
}

int main(int count, char **words) {
    if (count != 2) {
        fprintf(stderr, "embed: usage: embed GUESTS\n");
        return 2;
    }
    struct lwcrun_bytes image = read_file(words[1], "counter_handler.lwc");
    struct lwcrun_bytes requests = read_file(words[1], "counter_handler.requests");
    struct lwcrun_answer stored = assemble(text(storing));
    serve(image, requests);
    make_steps(stored.output);
    refuse(stored.output);
    lwcrun_free(&stored);
    free((void *)image.at);
    free((void *)requests.at);
    printf(failures == 0 ? "C: all is as it has to be\n" : "C: %d are not so\n", failures);
    return failures != 0;
}
