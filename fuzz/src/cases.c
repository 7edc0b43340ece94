// Generated cases, no coverage: cases N CORPUS FAILURES. Case i of a target is the same on every run, whichever process makes it.
#include "calls.h"
#include <dirent.h>
#include <stdbool.h>
#include <stdio.h>
#include <stdlib.h>
#include <string.h>
#include <sys/mman.h>
#include <sys/wait.h>
#include <unistd.h>

#define PROCESSES 2
#define MOST 2048u
#define DONE 42       // exit status of a process that made all its cases; a call that exits gives another
#define LEAST 100u    // cases, so that every target has some
#define PATIENCE 120u // seconds for a thousand cases; a call that does not come back ends the process

typedef struct {
    const char *name;
    void (*make)(const uint8_t *, size_t);
    unsigned share; // of 100
} Target;

static const Target targets[] = {
    {"narrow", case_narrow, 9}, {"inside", case_inside, 12}, {"fill", case_fill, 10},    {"open", case_open, 11}, {"fold", case_fold, 9},
    {"build", case_build, 11},  {"put", case_put, 9},        {"remove", case_remove, 8}, {"undo", case_undo, 8},  {"history", case_history, 11},
    {"costliest", case_costliest, 1}, {"write_costliest", case_write_costliest, 1},
};
#define TARGETS (sizeof targets / sizeof *targets)

#define NAME(name) #name,
static const char *const call_names[CALLS] = {EACH_CALL(NAME)};

typedef struct {
    uint64_t cases[TARGETS], made[CALLS], accepted[CALLS], large[CALLS];
    size_t target, length; // the case at hand
    uint64_t number;
    uint8_t bytes[MOST];
} Report;

typedef struct {
    uint8_t **inputs;
    size_t *lengths, count;
} Corpus;

static uint64_t state;

static uint64_t next(void) {
    uint64_t z = state += 0x9e3779b97f4a7c15u;
    z = (z ^ z >> 30) * 0xbf58476d1ce4e5b9u;
    z = (z ^ z >> 27) * 0x94d049bb133111ebu;
    return z ^ z >> 31;
}

static uint64_t below(uint64_t n) { return next() % n; }

static int not_hidden(const struct dirent *entry) { return entry->d_name[0] != '.'; }

static Corpus corpus_of(const char *folder, const char *name) {
    char path[4096];
    snprintf(path, sizeof path, "%s/%s", folder, name);
    struct dirent **entries;
    int found = scandir(path, &entries, not_hidden, alphasort);
    Corpus corpus = {0};
    if (found <= 0) return corpus;
    corpus.inputs = calloc((size_t)found, sizeof *corpus.inputs);
    corpus.lengths = calloc((size_t)found, sizeof *corpus.lengths);
    for (int i = 0; i < found; i++) {
        char whole[8192];
        snprintf(whole, sizeof whole, "%s/%s", path, entries[i]->d_name);
        FILE *file = fopen(whole, "rb");
        if (!file) continue;
        uint8_t *bytes = malloc(MOST);
        corpus.inputs[corpus.count] = bytes;
        corpus.lengths[corpus.count++] = fread(bytes, 1, MOST, file);
        fclose(file);
    }
    return corpus;
}

static size_t mutated(const Corpus *corpus, uint8_t *bytes) {
    size_t which = below(corpus->count), length = corpus->lengths[which];
    memcpy(bytes, corpus->inputs[which], length);
    for (uint64_t times = below(6); times > 0; times--) {
        size_t at = length ? below(length) : 0;
        switch (below(8)) {
        case 0: if (length) bytes[at] = (uint8_t)next(); break;
        case 1: if (length) bytes[at] ^= (uint8_t)(1u << below(8)); break;
        case 2: if (length) bytes[at] = (uint8_t)(bytes[at] + below(9) - 4); break;
        case 3: if (length) bytes[at] = (uint8_t)below(8); break;
        case 4: // longer
            for (uint64_t more = 1 + below(12); more > 0 && length < MOST; more--) bytes[length++] = (uint8_t)next();
            break;
        case 5: // a part taken out
            if (length) {
                size_t part = 1 + below(length - at < 16 ? length - at : 16);
                memmove(bytes + at, bytes + at + part, length - at - part);
                length -= part;
            }
            break;
        case 6: { // the end of another one
            size_t other = below(corpus->count), from = below(corpus->lengths[other] + 1);
            size_t part = corpus->lengths[other] - from;
            if (part > MOST - at) part = MOST - at;
            memcpy(bytes + at, corpus->inputs[other] + from, part);
            length = at + part;
            break;
        }
        case 7: // a part over another
            if (length) {
                size_t from = below(length), part = 1 + below(16);
                if (part > length - at) part = length - at;
                if (part > length - from) part = length - from;
                memmove(bytes + at, bytes + from, part);
            }
            break;
        }
    }
    return length;
}

static size_t generated(const Target *target, const Corpus *corpus, uint8_t *bytes) {
    if (target->make == case_narrow) { // exponents of binary32 and beside, ties and their neighbours
        uint64_t exponent = below(4) ? 1023 - 156 + below(290) : below(2048), fraction = next() >> 12;
        if (below(2)) fraction = (fraction >> 29 << 29 | 1u << 28) + below(3) - 1;
        if (!below(4)) fraction &= ~0ull << below(52);
        if (!below(16)) exponent = 2047, fraction *= below(2); // a NaN or an infinity
        if (!below(16)) exponent = 1023 + 127, fraction = 0xffffff0000000u + below(5) - 2; // 2^128 - 2^103 and beside
        uint64_t pattern = next() >> 63 << 63 | exponent << 52 | (fraction & ((1ull << 52) - 1));
        memcpy(bytes, &pattern, 8);
        return 8;
    }
    uint64_t way = below(4);
    if (way < 2) return mutated(corpus, bytes);
    size_t length = 4 + below(below(4) ? 120 : 400);
    bool grids = target->make == case_costliest || target->make == case_write_costliest; // an input has them and a length, no more
    bool calm = way != 3 && !grids; // zeros and small bytes
    for (size_t i = 0; i < length; i++) {
        uint64_t r = next();
        bytes[i] = (uint8_t)(calm && r >> 62 ? (r >> 61 & 1 ? 0 : r >> 8 & 15) : r);
    }
    bool near = target->make == case_fold || target->make == case_build;
    bool lent = target->make == case_open || near;
    if (calm && lent) memset(bytes + 1, 0, 12); // all lengths as needed
    if (calm && lent && !below(4)) bytes[1] = (uint8_t)(below(2) << 6 | below(3)); // but scratch: of either size, or one word less or more
    if (calm && near && !below(4)) bytes[2] = (uint8_t)below(4); // but the output's: one byte less or more, or none
    size_t at = target->make == case_open ? 19 : near ? 13 : target->make == case_history ? 3 : target->make == case_fill ? 2 : 1;
    if (calm && at < length) bytes[at] = (uint8_t)(next() & 0xe0) | 1 | (below(4) ? 0 : (uint8_t)below(32)); // fields, mostly undamaged
    bool fields = calm && at + 4 < length && target->make != case_fill && target->make != case_inside; // of a point file
    if (fields && bytes[at] >> 5 == 4) { // heavy: g 2 to 8, how, and first a run of 2 to 32 points
        bytes[at + 1] = (uint8_t)(1 + below(7));
        bytes[at + 2] = (uint8_t)(1 + below(3));
        bytes[at + 3] = (uint8_t)below(16);
        bytes[at + 4] = (uint8_t)(below(31) << 3 | 5);
    }
    if (fields && bytes[at] >> 5 == 5) { // sorted: g 1 to 8, up to 63 points, how
        bytes[at + 1] = (uint8_t)below(8);
        bytes[at + 2] = (uint8_t)below(64);
        bytes[at + 3] = (uint8_t)below(8);
    }
    return length;
}

/* Cases of a target: its share of the whole; the shares add up to it. */
static uint64_t cases_of(size_t target, uint64_t whole) {
    unsigned before = 0;
    for (size_t t = 0; t < target; t++) before += targets[t].share;
    return whole * (before + targets[target].share) / 100 - whole * before / 100;
}

static void work(Report *report, const Corpus *corpora, uint64_t whole, unsigned process) {
    for (size_t t = 0; t < TARGETS; t++) {
        uint64_t cases = cases_of(t, whole);
        report->target = t;
        for (uint64_t i = process; i < cases; i += PROCESSES) {
            if (report->cases[t] % 1000 == 0) alarm(PATIENCE);
            state = (i << 4 | t) * 0x2545f4914f6cdd1du;
            report->number = i;
            report->length = generated(&targets[t], &corpora[t], report->bytes);
            targets[t].make(report->bytes, report->length);
            report->cases[t]++;
            memcpy(report->made, calls_made, sizeof calls_made);
            memcpy(report->accepted, calls_accepted, sizeof calls_accepted);
            memcpy(report->large, calls_large, sizeof calls_large);
        }
    }
}

static const char *grouped(uint64_t n) {
    static char texts[8][32];
    static int which;
    char plain[32], *text = texts[which = (which + 1) % 8];
    int digits = snprintf(plain, sizeof plain, "%llu", (unsigned long long)n), to = 0;
    for (int i = 0; i < digits; i++) {
        if (i && (digits - i) % 3 == 0) text[to++] = ',';
        text[to++] = plain[i];
    }
    text[to] = 0;
    return text;
}

/* Tells of the case at which a process ended, and keeps its input. */
static void tell_failure(const Report *report, int status, const char *folder) {
    const char *target = targets[report->target].name;
    char path[4096];
    snprintf(path, sizeof path, "%s/%s-case-%llu", folder, target, (unsigned long long)report->number);
    FILE *file = fopen(path, "wb");
    if (file) {
        fwrite(report->bytes, 1, report->length, file);
        fclose(file);
    }
    fprintf(stderr, "%s: case %llu failed (%s); input in %s\n", target, (unsigned long long)report->number,
            WIFSIGNALED(status) ? strsignal(WTERMSIG(status)) : "exited", path);
}

/* Prints what was made; answers how many cases. */
static uint64_t print_counts(const Report *reports, const unsigned *failures, unsigned failed) {
    uint64_t cases = 0, calls = 0;
    for (size_t t = 0; t < TARGETS; t++) {
        uint64_t of = 0;
        for (unsigned p = 0; p < PROCESSES; p++) of += reports[p].cases[t];
        printf("%s: %s cases, %u failures\n", targets[t].name, grouped(of), failures[t]);
        cases += of;
    }
    for (size_t c = 0; c < CALLS; c++) {
        uint64_t made = 0, accepted = 0, large = 0;
        for (unsigned p = 0; p < PROCESSES; p++) {
            made += reports[p].made[c];
            accepted += reports[p].accepted[c];
            large += reports[p].large[c];
        }
        printf("mascon_%s: %s calls, %s of them accepted", call_names[c], grouped(made), grouped(accepted));
        if (large) printf(", %s too large", grouped(large));
        printf("\n");
        calls += made;
    }
    printf("total: %s cases, %s calls, %u failures\n", grouped(cases), grouped(calls), failed);
    return cases;
}

/* Starts the processes and waits for them; answers how many failed. */
static unsigned share_out(Report *reports, const Corpus *corpora, uint64_t whole, unsigned *failures, const char *folder) {
    pid_t processes[PROCESSES];
    unsigned failed = 0;
    for (unsigned p = 0; p < PROCESSES; p++) {
        processes[p] = fork();
        if (processes[p] < 0) exit(2);
        if (processes[p] == 0) {
            work(&reports[p], corpora, whole, p);
            _exit(DONE);
        }
    }
    for (unsigned p = 0; p < PROCESSES; p++) {
        int status;
        if (waitpid(processes[p], &status, 0) < 0) exit(2);
        if (WIFEXITED(status) && WEXITSTATUS(status) == DONE) continue;
        tell_failure(&reports[p], status, folder);
        failures[reports[p].target]++;
        failed++;
    }
    return failed;
}

int main(int count, char **words) {
    char *end = NULL;
    uint64_t whole = count == 4 && words[1][0] >= '0' && words[1][0] <= '9' ? strtoull(words[1], &end, 10) : 0;
    if (whole < LEAST || *end) return fprintf(stderr, "cases N CORPUS FAILURES, N from %u up\n", LEAST), 2;
    Corpus corpora[TARGETS];
    for (size_t t = 0; t < TARGETS; t++) {
        corpora[t] = corpus_of(words[2], targets[t].name);
        if (!corpora[t].count) return fprintf(stderr, "no inputs in %s/%s\n", words[2], targets[t].name), 2;
    }
    Report *reports = mmap(NULL, PROCESSES * sizeof *reports, PROT_READ | PROT_WRITE, MAP_SHARED | MAP_ANONYMOUS, -1, 0);
    if (reports == MAP_FAILED) return 2;
    unsigned failures[TARGETS] = {0};
    unsigned failed = share_out(reports, corpora, whole, failures, words[3]);
    uint64_t made = print_counts(reports, failures, failed);
    if (!failed && made != whole) fprintf(stderr, "%s cases are missing\n", grouped(whole - made));
    return failed || made != whole;
}
