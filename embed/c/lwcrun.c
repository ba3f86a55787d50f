/* Tests what a caller in C passes, and calls the functions of crates/lwcrun_c, which rest on it. Keeps the open runs:
   of each the bytes that it was opened with, and the steps that it made. */
#include "lwcrun.h"

#include <pthread.h>
#include <stdbool.h>
#include <stdlib.h>
#include <string.h>

/* A slice as crates/lwcrun_c takes it: the pointer is never null. */
struct slice {
    const uint8_t *at;
    size_t length;
};

struct file_slices {
    struct slice name;
    struct slice bytes;
};

/* A run as crates/lwcrun_c takes it. */
struct run_parts {
    struct slice image;
    struct slice requests;
    struct slice steps;
    uint32_t frames;
    uint32_t budget;
    uint32_t workers;
};

uint32_t lwcrun_c_line(const struct slice *words, size_t word_count, const struct file_slices *files,
                       size_t file_count, struct slice answer[2]);
uint32_t lwcrun_c_totals(const struct run_parts *run, struct lwcrun_totals *totals);
uint32_t lwcrun_c_thread(const struct run_parts *run, uint32_t thread, struct lwcrun_thread *state);
uint32_t lwcrun_c_page(const struct run_parts *run, uint32_t job, uint32_t context, uint32_t page, uint8_t *bytes,
                       size_t length);
uint32_t lwcrun_c_slot(const struct run_parts *run, uint32_t job, uint32_t context, uint32_t slot,
                       struct lwcrun_slot *state);

static const uint8_t nothing[8];

/* Takes bytes over as a slice. Answers why it cannot. */
static int take_slice(struct lwcrun_bytes bytes, struct slice *slice) {
    if (bytes.length > PTRDIFF_MAX) return LWCRUN_BAD_LENGTH;
    if (bytes.at == NULL && bytes.length > 0) return LWCRUN_NULL;
    slice->at = bytes.length > 0 ? bytes.at : nothing;
    slice->length = bytes.length;
    return LWCRUN_OK;
}

/* Memory for an array, not null even where it has no items; null where there is none. */
static void *new_array(size_t count, size_t size) {
    return count > PTRDIFF_MAX / size ? NULL : malloc(count > 0 ? count * size : size);
}

/* Takes words and files over as slices. */
static int take_line(const struct lwcrun_bytes *words, size_t word_count, const struct lwcrun_file *files,
                     size_t file_count, struct slice *word_slices, struct file_slices *file_slices) {
    for (size_t i = 0; i < word_count; i++) {
        int status = take_slice(words[i], &word_slices[i]);
        if (status != LWCRUN_OK) return status;
    }
    for (size_t i = 0; i < file_count; i++) {
        int status = take_slice(files[i].name, &file_slices[i].name);
        if (status == LWCRUN_OK) status = take_slice(files[i].bytes, &file_slices[i].bytes);
        if (status != LWCRUN_OK) return status;
    }
    return LWCRUN_OK;
}

int lwcrun_line(const struct lwcrun_bytes *words, size_t word_count, const struct lwcrun_file *files,
                size_t file_count, struct lwcrun_answer *answer) {
    if (answer == NULL || (words == NULL && word_count > 0) || (files == NULL && file_count > 0)) return LWCRUN_NULL;
    if (word_count > PTRDIFF_MAX / sizeof *words || file_count > PTRDIFF_MAX / sizeof *files) return LWCRUN_BAD_LENGTH;
    struct slice taken[2] = {{nothing, 0}, {nothing, 0}};
    struct slice *word_slices = new_array(word_count, sizeof *word_slices);
    struct file_slices *file_slices = new_array(file_count, sizeof *file_slices);
    int status = LWCRUN_NO_MEMORY;
    if (word_slices != NULL && file_slices != NULL) {
        status = take_line(words, word_count, files, file_count, word_slices, file_slices);
        if (status == LWCRUN_OK)
            status = (int)lwcrun_c_line(word_slices, word_count, file_slices, file_count, taken);
    }
    free(word_slices);
    free(file_slices);
    /* A slice that is not empty is memory of malloc, which is the caller's from here on. */
    answer->output.at = taken[0].length > 0 ? taken[0].at : NULL;
    answer->output.length = taken[0].length;
    answer->message.at = taken[1].length > 0 ? taken[1].at : NULL;
    answer->message.length = taken[1].length;
    return status;
}

void lwcrun_free(struct lwcrun_answer *answer) {
    if (answer == NULL) return;
    free((void *)answer->output.at);
    free((void *)answer->message.at);
    memset(answer, 0, sizeof *answer);
}

#define MOST_STEPS 16000000
#define MOST_THREADS 16

/* An open run. Its bytes and steps are its own; `has_ended` says of each thread whether it makes no more steps. */
struct run {
    uint64_t number;
    struct run_parts parts;
    uint8_t *bytes;
    uint8_t *steps;
    size_t room;
    bool has_ended[MOST_THREADS];
    struct run *next;
};

static pthread_mutex_t turns = PTHREAD_MUTEX_INITIALIZER;
static struct run *first_run;
static uint64_t last_number;

static struct run *find_run(uint64_t number) {
    for (struct run *run = first_run; run != NULL; run = run->next)
        if (run->number == number) return run;
    return NULL;
}

static void free_run(struct run *run) {
    free(run->bytes);
    free(run->steps);
    free(run);
}

/* A run with copies of these bytes; null where there is no memory. */
static struct run *new_run(struct slice image, struct slice requests) {
    struct run *run = calloc(1, sizeof *run);
    bool fits = requests.length <= PTRDIFF_MAX - image.length;
    uint8_t *bytes = fits ? new_array(image.length + requests.length, 1) : NULL;
    if (run == NULL || bytes == NULL) {
        free(run);
        free(bytes);
        return NULL;
    }
    memcpy(bytes, image.at, image.length);
    memcpy(bytes + image.length, requests.at, requests.length);
    run->bytes = bytes;
    run->parts.image = (struct slice){bytes, image.length};
    run->parts.requests = (struct slice){bytes + image.length, requests.length};
    run->parts.steps = (struct slice){nothing, 0};
    return run;
}

int lwcrun_open(struct lwcrun_bytes image, struct lwcrun_bytes requests, uint32_t frames, uint32_t budget,
                uint32_t workers, uint64_t *number) {
    struct slice image_slice, request_slice;
    if (number == NULL) return LWCRUN_NULL;
    int status = take_slice(image, &image_slice);
    if (status == LWCRUN_OK) status = take_slice(requests, &request_slice);
    if (status != LWCRUN_OK) return status;
    struct run *run = new_run(image_slice, request_slice);
    if (run == NULL) return LWCRUN_NO_MEMORY;
    run->parts.frames = frames;
    run->parts.budget = budget;
    run->parts.workers = workers;
    struct lwcrun_totals totals;
    status = (int)lwcrun_c_totals(&run->parts, &totals);
    if (status != LWCRUN_OK) {
        free_run(run);
        return status;
    }
    pthread_mutex_lock(&turns);
    run->number = ++last_number;
    run->next = first_run;
    first_run = run;
    *number = run->number;
    pthread_mutex_unlock(&turns);
    return LWCRUN_OK;
}

/* Puts a step behind those of a run. */
static int append_step(struct run *run, uint32_t thread) {
    size_t length = run->parts.steps.length;
    if (thread >= MOST_THREADS || length == MOST_STEPS) return LWCRUN_BAD_STEP;
    if (length == run->room) {
        size_t room = length < 64 ? 64 : 2 * length;
        uint8_t *steps = realloc(run->steps, room);
        if (steps == NULL) return LWCRUN_NO_MEMORY;
        run->steps = steps;
        run->room = room;
        run->parts.steps.at = steps;
    }
    run->steps[length] = (uint8_t)thread;
    run->parts.steps.length = length + 1;
    return LWCRUN_OK;
}

/* Makes a step of a thread that has not ended. */
static int make_step(struct run *run, uint32_t thread, struct lwcrun_thread *after) {
    int status = append_step(run, thread);
    if (status != LWCRUN_OK) return status;
    status = (int)lwcrun_c_thread(&run->parts, thread, after);
    if (status != LWCRUN_OK) {
        run->parts.steps.length--;
        return status;
    }
    run->has_ended[thread] = after->status >= 2;
    return LWCRUN_OK;
}

int lwcrun_step(uint64_t number, uint32_t thread, struct lwcrun_thread *after) {
    if (after == NULL) return LWCRUN_NULL;
    pthread_mutex_lock(&turns);
    struct run *run = find_run(number);
    int status = LWCRUN_UNKNOWN_RUN;
    if (run != NULL && thread < MOST_THREADS && run->has_ended[thread])
        status = (int)lwcrun_c_thread(&run->parts, thread, after);
    else if (run != NULL)
        status = make_step(run, thread, after);
    pthread_mutex_unlock(&turns);
    return status;
}

int lwcrun_thread(uint64_t number, uint32_t thread, struct lwcrun_thread *state) {
    if (state == NULL) return LWCRUN_NULL;
    pthread_mutex_lock(&turns);
    struct run *run = find_run(number);
    int status = run == NULL ? LWCRUN_UNKNOWN_RUN : (int)lwcrun_c_thread(&run->parts, thread, state);
    pthread_mutex_unlock(&turns);
    return status;
}

int lwcrun_totals(uint64_t number, struct lwcrun_totals *totals) {
    if (totals == NULL) return LWCRUN_NULL;
    pthread_mutex_lock(&turns);
    struct run *run = find_run(number);
    int status = run == NULL ? LWCRUN_UNKNOWN_RUN : (int)lwcrun_c_totals(&run->parts, totals);
    pthread_mutex_unlock(&turns);
    return status;
}

int lwcrun_page(uint64_t number, uint32_t job, uint32_t context, uint32_t page, uint8_t *bytes) {
    if (bytes == NULL) return LWCRUN_NULL;
    pthread_mutex_lock(&turns);
    struct run *run = find_run(number);
    int status = LWCRUN_UNKNOWN_RUN;
    if (run != NULL) status = (int)lwcrun_c_page(&run->parts, job, context, page, bytes, LWCRUN_PAGE_BYTES);
    pthread_mutex_unlock(&turns);
    return status;
}

int lwcrun_slot(uint64_t number, uint32_t job, uint32_t context, uint32_t slot, struct lwcrun_slot *state) {
    if (state == NULL) return LWCRUN_NULL;
    pthread_mutex_lock(&turns);
    struct run *run = find_run(number);
    int status = run == NULL ? LWCRUN_UNKNOWN_RUN : (int)lwcrun_c_slot(&run->parts, job, context, slot, state);
    pthread_mutex_unlock(&turns);
    return status;
}

int lwcrun_close(uint64_t number) {
    pthread_mutex_lock(&turns);
    struct run **link = &first_run;
    while (*link != NULL && (*link)->number != number) link = &(*link)->next;
    struct run *run = *link;
    if (run != NULL) *link = run->next;
    pthread_mutex_unlock(&turns);
    if (run == NULL) return LWCRUN_UNKNOWN_RUN;
    free_run(run);
    return LWCRUN_OK;
}
