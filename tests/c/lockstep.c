/* Recorders of one segment, each in a child of its own, do their calls by turns, and what each instruction did in the segment is printed:
 *
 *     lockstep PLAN
 *
 * PLAN has a record in each line. The first, world,SIZE,PAGE,ID,ACTORS,VERSION,UNITS,ENTRIES, says what segment there is, how many units
 * each recorder has, and how many entries its indexes may have. A call of a schedule (docs/STEPPED.md) begins, up to its first instruction
 * that touches the segment. Then come turns:
 *
 *     quiet,ACTOR,TIMES    so many instructions that touch the segment, up to the first that would change a word or to the end of the call
 *     hold,ACTOR           all up to that
 *     change,ACTOR         all up to the first that changes a word, and that one
 *     end,ACTOR            all up to the end of the call, and its answer
 *
 * It prints these lines, and at the end the words:
 *
 *     same,ACTOR,WORD,VALUE        an instruction that changed no word
 *     step,ACTOR,WORD,OLD,NEW      one that changed one
 *     answer,ACTOR,ANSWER
 *     words,WORD,..
 *
 * The word before the image is the library's own: what is done to it is no line. */
#ifndef _GNU_SOURCE
#define _GNU_SOURCE
#endif

#include "lockstep_children.h"

enum { MOST_ACTORS = 8, MOST_RECORDS = 4096, MOST_ANSWER = 65536, BEFORE_IMAGE = 1, MOST_SECONDS = 60 };

/* What the tracer and a child tell one another: the call that comes next, or none, and its answer. */
struct letter {
    size_t next;
    char answer[MOST_ANSWER];
};

static struct povundiri_handle segment;
static struct caller callers[MOST_ACTORS];
static struct child children[MOST_ACTORS];
static struct letter *letters;
static struct shared shared;
static char *lines[MOST_RECORDS];

static void *shared_memory(size_t bytes) {
    void *at = mmap(NULL, bytes, PROT_READ | PROT_WRITE, MAP_SHARED | MAP_ANONYMOUS, -1, 0);
    if (at == MAP_FAILED) fail("no memory\n");
    return at;
}

static size_t read_lines(const char *path) {
    char line[MOST_LINE];
    FILE *file = fopen(path, "r");
    size_t count = 0;
    if (file == NULL) fail("cannot open %s\n", path);
    while (count < MOST_RECORDS && fgets(line, sizeof line, file) != NULL) lines[count++] = strdup(line);
    if (count == 0 || count == MOST_RECORDS) fail("%zu lines\n", count);
    fclose(file);
    return count;
}

/* Makes the segment and its recorders; how many there are. */
static size_t make_world(const char *line) {
    struct record record;
    struct povundiri_shape shape = {0};
    struct povundiri_room room;
    size_t actor, actors;
    split(line, &record);
    shape.size = (uint64_t)number(&record, 1);
    shape.page = (uint64_t)number(&record, 2);
    shape.id = strtoull(field(&record, 3), NULL, 10);
    shape.version = (uint64_t)number(&record, 5);
    actors = (size_t)number(&record, 4);
    shared.length = (shape.size + BEFORE_IMAGE + 1) / 2 * 2;
    room.bytes = shared.length * sizeof *shared.words;
    room.at = shared_memory(room.bytes);
    shared.words = room.at;
    shared.known = malloc(room.bytes);
    if (actors > MOST_ACTORS || shared.known == NULL) fail("too many actors\n");
    if (povundiri_create_in(room, shape, &segment) != POVUNDIRI_DONE) fail("no segment\n");
    for (actor = 0; actor < actors; actor += 1) {
        struct povundiri_handle *recorder = &callers[actor].recorder;
        if (povundiri_recorder(&segment, unsigned_number(&record, 6), recorder) != POVUNDIRI_DONE) fail("no recorder\n");
        if (povundiri_limit_indexes(recorder, (size_t)number(&record, 7)) != POVUNDIRI_DONE) fail("no limit\n");
    }
    memcpy(shared.known, shared.words, room.bytes);
    return actors;
}

/* What a child does: the calls that it is told, and no more. */
static void serve(size_t actor) {
    struct letter *letter = &letters[actor];
    struct record record;
    if (ptrace(PTRACE_TRACEME, 0, NULL, NULL) < 0) fail("no child may be traced\n");
    for (;;) {
        struct text answer = {letter->answer, sizeof letter->answer, 0};
        raise(SIGSTOP);
        if (letter->next == 0) _exit(0);
        split(lines[letter->next], &record);
        call(&callers[actor], &record, &answer);
    }
}

static void start(size_t actor) {
    const pid_t id = fork();
    if (id == 0) serve(actor);
    follow(&children[actor], id, &shared);
}

/* ---- Turns ---- */

/* Passes by the instructions that touch the library's own words. */
static void pass_by(struct child *child) {
    while (!child->waits && child->word < BEFORE_IMAGE) {
        const struct effect effect = do_next(child, &shared);
        if (effect.is_change && effect.word >= BEFORE_IMAGE) fail("a word of the image was changed\n");
        keep(child, &shared);
    }
}

static void print(size_t actor, struct effect effect) {
    const size_t word = effect.word - BEFORE_IMAGE;
    if (effect.is_change) {
        printf("step,%zu,%zu,%" PRIu64 ",%" PRIu64 "\n", actor, word, effect.old, effect.new);
    } else {
        printf("same,%zu,%zu,%" PRIu64 "\n", actor, word, shared.words[effect.word]);
    }
}

enum happened { ENDED, CHANGED, SAME, UNDONE };

/* The next instruction of an actor, which may change a word or is undone if it would. */
static enum happened advance(size_t actor, bool may_change) {
    struct child *child = &children[actor];
    struct effect effect;
    if (child->waits) return ENDED;
    effect = do_next(child, &shared);
    if (effect.is_change && !may_change) {
        undo(child, &shared);
        return UNDONE;
    }
    print(actor, effect);
    keep(child, &shared);
    pass_by(child);
    return effect.is_change ? CHANGED : SAME;
}

static void begin(size_t actor, size_t line) {
    struct child *child = &children[actor];
    if (!child->waits) fail("line %zu: a call of %zu has not ended\n", line + 1, actor);
    letters[actor].next = line;
    trace(PTRACE_SETREGS, child, &child->before);
    run(child, &shared);
    pass_by(child);
}

/* Takes the turn of a record; whether it is one. */
static bool take_turn(size_t actor, const struct record *record) {
    const char *kind = record->fields[0];
    int64_t left;
    if (strcmp(kind, "change") == 0) {
        while (advance(actor, true) == SAME) continue;
    } else if (strcmp(kind, "end") == 0) {
        while (advance(actor, true) != ENDED) continue;
        printf("answer,%zu,%s\n", actor, letters[actor].answer);
    } else if (strcmp(kind, "hold") == 0) {
        while (advance(actor, false) == SAME) continue;
    } else if (strcmp(kind, "quiet") == 0) {
        for (left = number(record, 2); left > 0 && advance(actor, false) == SAME; left -= 1) continue;
    } else {
        return false;
    }
    return true;
}

static void follow_plan(size_t count, size_t actors) {
    struct record record;
    size_t line;
    for (line = 1; line < count; line += 1) {
        size_t actor;
        split(lines[line], &record);
        actor = (size_t)number(&record, 1);
        if (actor >= actors) fail("line %zu: no actor %zu\n", line + 1, actor);
        if (!take_turn(actor, &record)) begin(actor, line);
    }
}

int main(int argc, char **argv) {
    size_t count, actors, actor, at;
    if (argc != 2) return 2;
    alarm(MOST_SECONDS);
    count = read_lines(argv[1]);
    letters = shared_memory(MOST_ACTORS * sizeof *letters);
    actors = make_world(lines[0]);
    for (actor = 0; actor < actors; actor += 1) start(actor);
    follow_plan(count, actors);
    printf("words");
    for (at = BEFORE_IMAGE; at < shared.length; at += 1) printf(",%" PRIu64, shared.words[at]);
    printf("\n");
    return 0;
}
