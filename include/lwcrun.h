/* The kernel for programs in C: lines carried out over files in memory, and runs that are made step by step.

   Link the library that embed/build makes, as docs/EMBEDDING.md says. A function that answers a number answers
   a status of enum lwcrun_status. Where it is not LWCRUN_OK, nothing was written through the caller's pointers, if the
   function does not say otherwise. Each pointer that is null and may not be, each length that no memory has, and each
   number that is no open run has a status. What cannot be tested is the caller's to keep: a pointer that is not null
   leads to as many bytes as are said. No function keeps a pointer of the caller's.

   lwcrun_line may be called by several threads at once. The functions of runs take turns by a lock. None may be called
   by a signal handler, or in the child of a fork of a process with several threads. */
#ifndef LWCRUN_H
#define LWCRUN_H

#include <stddef.h>
#include <stdint.h>

#ifdef __cplusplus
extern "C" {
#endif

enum lwcrun_status {
    /* The exit statuses of the program. */
    LWCRUN_OK = 0,
    LWCRUN_NO_MEMORY = 1,
    LWCRUN_USAGE = 2,
    LWCRUN_CANNOT_READ = 3,
    LWCRUN_CANNOT_WRITE = 4,
    LWCRUN_IMAGE_REFUSED = 5,
    LWCRUN_INPUT_REFUSED = 6,
    LWCRUN_IMAGE_TOO_LARGE = 7,
    /* The line is one of run, serve, gen and stream, which start threads; the library cannot. */
    LWCRUN_NEEDS_THREADS = 8,
    /* A word, or the name of a file, is not UTF-8. */
    LWCRUN_NOT_TEXT = 9,
    /* The frames, the budget or the workers are not within their limits. */
    LWCRUN_BAD_SETTINGS = 10,
    /* The run has no thread of this number, or has made as many steps as a run may have. */
    LWCRUN_BAD_STEP = 11,
    /* There is no such thread, context, page or slot. */
    LWCRUN_MISSING = 12,
    /* A length is more than any memory has. */
    LWCRUN_BAD_LENGTH = 13,
    /* A pointer is null that may not be. */
    LWCRUN_NULL = 14,
    /* The number is no open run: it never was one, or the run was closed. */
    LWCRUN_UNKNOWN_RUN = 15
};

/* Bytes: `at` may be null where there are none. */
struct lwcrun_bytes {
    const uint8_t *at;
    size_t length;
};

/* A file: its name and its bytes. */
struct lwcrun_file {
    struct lwcrun_bytes name;
    struct lwcrun_bytes bytes;
};

/* What came of a line. Let go by lwcrun_free. */
struct lwcrun_answer {
    struct lwcrun_bytes output;
    struct lwcrun_bytes message;
};

/* Carries out a line of the program, its words from the mode on, as `replay`, `image`, `schedule`, over these files. A
   name that no file has cannot be read; where two files have one name, the first counts. Answers the program's exit
   status, or one of LWCRUN_NEEDS_THREADS, LWCRUN_NOT_TEXT, LWCRUN_BAD_LENGTH and LWCRUN_NULL. Puts into `answer` what
   the program would write to its output and to its error output; both are empty where the status is none of the
   program's, or where memory ran out. */
int lwcrun_line(const struct lwcrun_bytes *words, size_t word_count, const struct lwcrun_file *files,
                size_t file_count, struct lwcrun_answer *answer);

/* Frees what lwcrun_line put into an answer, and empties it. A null pointer and an empty answer are left alone. */
void lwcrun_free(struct lwcrun_answer *answer);

/* The bytes of a page. */
#define LWCRUN_PAGE_BYTES 4096

/* A thread: its status, 0 for idle, 1 for running, 2 for done with `code`, 3 for faulted by the fault of the number
   `code`; its registers; and the name `job`:`context` of the context that it is in. */
struct lwcrun_thread {
    uint64_t code;
    uint64_t pc;
    uint64_t registers[16];
    uint32_t status;
    uint32_t job;
    uint32_t context;
};

/* The size of a run: its threads, the steps that were made, how many more its threads may make, the live contexts, and
   the frames in use, now and at most so far. */
struct lwcrun_totals {
    uint32_t threads;
    uint32_t steps;
    uint32_t work;
    uint32_t contexts;
    uint32_t frames;
    uint32_t peak;
};

/* What a slot has: 0 for nothing, 1 for the console, 2 for the file `first` and 3 for the request `first`, read up to
   `second`, 4 for the reply to the request `first`, 5 for the context `first`:`second`. */
struct lwcrun_slot {
    uint32_t kind;
    uint32_t first;
    uint32_t second;
};

/* Opens a run of an image, or where there are workers a serve of the requests, which are written as in a file of
   requests; a run has none. Copies the bytes. Puts the run's number there, which is never 0. */
int lwcrun_open(struct lwcrun_bytes image, struct lwcrun_bytes requests, uint32_t frames, uint32_t budget,
                uint32_t workers, uint64_t *run);

/* Makes one step of a thread, and puts there how it is then. A thread that has ended makes none, and stays as it is.
   Each step replays the run from its start, so its cost grows with the steps that were made. */
int lwcrun_step(uint64_t run, uint32_t thread, struct lwcrun_thread *after);

/* Puts there how a thread is. */
int lwcrun_thread(uint64_t run, uint32_t thread, struct lwcrun_thread *state);

/* Puts there the size of a run. */
int lwcrun_totals(uint64_t run, struct lwcrun_totals *totals);

/* Copies the LWCRUN_PAGE_BYTES bytes of a page of the context `job`:`context`. */
int lwcrun_page(uint64_t run, uint32_t job, uint32_t context, uint32_t page, uint8_t *bytes);

/* Puts there what is in a slot of the context `job`:`context`. */
int lwcrun_slot(uint64_t run, uint32_t job, uint32_t context, uint32_t slot, struct lwcrun_slot *state);

/* Closes a run. Its number is never given again. */
int lwcrun_close(uint64_t run);

#ifdef __cplusplus
}
#endif

#endif
