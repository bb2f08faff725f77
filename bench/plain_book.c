/* Does what the program `trials` measures of books, as a plain program would: it reads the code of three sets as numbers (its round `code`), and has turns of
   their processes on plain arrays. Values have their sort with them; nothing is checked that the sets were checked for. */
#include <stdint.h>
#include <stdio.h>
#include <stdlib.h>
#include <string.h>
#include <sys/resource.h>
#include <sys/wait.h>
#include <time.h>
#include <unistd.h>

enum { ENV = -1, SENDER = -2, NONE = 0, INTEGER = 1, BOOLEAN = 2, START = -1, STOPPED = -2 };
struct value { int sort; int32_t n; };
struct instruction { int32_t which, a, b, c; };
struct piece { int count; struct instruction *code; };
struct trigger { int kind, number; };
struct input { struct trigger trigger; struct piece piece; };
struct state { int saves, inputs; struct trigger *save; struct input *input; };
struct process { int variables, timers, states; struct value *initial; struct piece start; struct state *state; };
struct route { int from, to, count; int *signal; };
struct set { int signals, routes, processes; int *parameters; struct route *route; struct process *process; };

struct item { struct trigger trigger; int sender, count; struct value value[4]; };
struct effect { int kind, number, to, count; int32_t delay; struct value value[4]; };
struct job { int actor; uint64_t turn; const struct piece *piece; struct value variable[32]; struct item given; };
struct done { int actor; uint64_t turn; int end, effects; uint32_t count; struct value variable[32]; struct effect effect[32]; };
struct actor { int standing, items, out; uint64_t turn; struct value variable[32]; struct item given, item[72]; };
struct event { int kind, actor, signal, count; struct value value[4]; };
struct emitted { int sender, signal, count; struct value value[4]; };
struct book {
    const struct set *set;
    int port, env, most, first, emitted, events;
    uint64_t clock, turns, finishes, instructions, deadline[16][8];
    struct actor actor[16];
    struct emitted *ring;
    struct event *journal;
};

static int number(FILE *f) {
    long n;
    if (fscanf(f, "%ld", &n) != 1) { fprintf(stderr, "plain_book: no number\n"); exit(1); }
    return (int)n;
}

static struct piece read_piece(FILE *f) {
    struct piece p = { number(f), NULL };
    p.code = malloc(sizeof *p.code * (size_t)p.count);
    for (int i = 0; i < p.count; i++) {
        struct instruction *it = &p.code[i];
        it->which = number(f); it->a = number(f); it->b = number(f); it->c = number(f);
    }
    return p;
}

static struct trigger read_trigger(FILE *f) {
    struct trigger t = { number(f), 0 };
    t.number = number(f);
    return t;
}

static struct state read_state(FILE *f) {
    struct state s;
    s.saves = number(f);
    s.save = malloc(sizeof *s.save * (size_t)(s.saves + 1));
    for (int i = 0; i < s.saves; i++) s.save[i] = read_trigger(f);
    s.inputs = number(f);
    s.input = malloc(sizeof *s.input * (size_t)(s.inputs + 1));
    for (int i = 0; i < s.inputs; i++) { s.input[i].trigger = read_trigger(f); s.input[i].piece = read_piece(f); }
    return s;
}

static struct process read_process(FILE *f) {
    struct process p;
    p.variables = number(f);
    p.initial = calloc((size_t)p.variables + 1, sizeof *p.initial);
    for (int i = 0; i < p.variables; i++) { p.initial[i].sort = number(f); p.initial[i].n = number(f); }
    p.timers = number(f);
    p.start = read_piece(f);
    p.states = number(f);
    p.state = malloc(sizeof *p.state * (size_t)(p.states + 1));
    for (int i = 0; i < p.states; i++) p.state[i] = read_state(f);
    return p;
}

static struct set *read_set(const char *name) {
    FILE *f = fopen(name, "r");
    if (!f) { fprintf(stderr, "plain_book: %s can't be read\n", name); exit(1); }
    struct set *s = malloc(sizeof *s);
    s->signals = number(f);
    s->parameters = malloc(sizeof(int) * (size_t)(s->signals + 1));
    for (int i = 0; i < s->signals; i++) s->parameters[i] = number(f);
    s->routes = number(f);
    s->route = malloc(sizeof *s->route * (size_t)(s->routes + 1));
    for (int i = 0; i < s->routes; i++) {
        struct route *r = &s->route[i];
        r->from = number(f); r->to = number(f); r->count = number(f);
        r->signal = malloc(sizeof(int) * (size_t)(r->count + 1));
        for (int k = 0; k < r->count; k++) r->signal[k] = number(f);
    }
    s->processes = number(f);
    s->process = malloc(sizeof *s->process * (size_t)(s->processes + 1));
    for (int i = 0; i < s->processes; i++) s->process[i] = read_process(f);
    fclose(f);
    return s;
}

/* ---- the book */
static struct book *open_book(const struct set *set, int port, int env, int journal) {
    struct book *b = calloc(1, sizeof *b);
    b->set = set; b->port = port; b->env = env; b->most = journal;
    b->ring = malloc(sizeof *b->ring * (size_t)env);
    b->journal = malloc(sizeof *b->journal * (size_t)journal);
    for (int i = 0; i < set->processes; i++) {
        b->actor[i].standing = START;
        memcpy(b->actor[i].variable, set->process[i].initial, sizeof(struct value) * (size_t)set->process[i].variables);
    }
    return b;
}

static void close_book(struct book *b) { free(b->ring); free(b->journal); free(b); }

static void keep(struct book *b, int kind, int actor) {
    struct event *e = &b->journal[b->events++];
    e->kind = kind; e->actor = actor;
}

static int has_route(const struct set *s, int actor, int signal) {
    for (int i = 0; i < s->routes; i++)
        if (s->route[i].from == ENV && s->route[i].to == actor)
            for (int k = 0; k < s->route[i].count; k++)
                if (s->route[i].signal[k] == signal) return 1;
    return 0;
}

static int deliver(struct book *b, int actor, int sender, int signal, const struct value *value, int count) {
    struct actor *a = &b->actor[actor];
    if (a->standing == STOPPED || a->items >= b->port) return 0;
    struct item *it = &a->item[a->items++];
    it->trigger.kind = 0; it->trigger.number = signal; it->sender = sender; it->count = count;
    memcpy(it->value, value, sizeof(struct value) * (size_t)count);
    return 1;
}

static int offer(struct book *b, int actor, int signal, const struct value *value, int count) {
    if (actor >= b->set->processes || count != b->set->parameters[signal] || !has_route(b->set, actor, signal) || b->events >= b->most) return 0;
    if (!deliver(b, actor, ENV, signal, value, count)) return 0;
    struct event *e = &b->journal[b->events];
    keep(b, 0, actor);
    e->signal = signal; e->count = count;
    memcpy(e->value, value, sizeof(struct value) * (size_t)count);
    return 1;
}

static int same(struct trigger x, struct trigger y) { return x.kind == y.kind && x.number == y.number; }

static int first_item(const struct actor *a, const struct state *s) {
    for (int i = 0; i < a->items; i++) {
        int saved = 0;
        for (int k = 0; k < s->saves && !saved; k++) saved = same(s->save[k], a->item[i].trigger);
        if (!saved) return i;
    }
    return -1;
}

static void take_out(struct actor *a, int i) {
    memmove(&a->item[i], &a->item[i + 1], sizeof(struct item) * (size_t)(a->items - i - 1));
    a->items--;
}

/* what an actor would run, and the signal that it takes for it: 0 where there is nothing, or no room in the journal for a turn's beginning and end; 2 where a
   signal is to be skipped first */
static int next_piece(struct book *b, int actor, const struct piece **piece, struct item *given) {
    struct actor *a = &b->actor[actor];
    if (actor >= b->set->processes || a->out || a->standing == STOPPED) return 0;
    const struct process *p = &b->set->process[actor];
    int has_room = b->events + 2 <= b->most;
    if (a->standing == START) {
        *piece = &p->start;
        return has_room;
    }
    const struct state *s = &p->state[a->standing];
    int i = first_item(a, s), k = 0;
    if (i < 0) return 0;
    while (k < s->inputs && !same(s->input[k].trigger, a->item[i].trigger)) k++;
    if (k == s->inputs) return 2;
    if (!has_room) return 0;
    *piece = &s->input[k].piece;
    *given = a->item[i];
    take_out(a, i);
    return 1;
}

static int begin(struct book *b, int actor, struct job *job) {
    int found = next_piece(b, actor, &job->piece, &job->given);
    if (found != 1) return found;
    struct actor *a = &b->actor[actor];
    job->actor = actor;
    job->turn = a->turn = ++b->turns;
    memcpy(job->variable, a->variable, sizeof a->variable);
    a->out = 1;
    a->given = job->given;
    keep(b, 1, actor);
    return 1;
}

static int skip(struct book *b, int actor) {
    struct actor *a = &b->actor[actor];
    int i = first_item(a, &b->set->process[actor].state[a->standing]);
    if (i < 0 || b->events >= b->most) return 0;
    take_out(a, i);
    keep(b, 2, actor);
    return 1;
}

static int holds(int relation, int32_t x, int32_t y) {
    switch (relation) {
    case 0: return x == y;
    case 1: return x != y;
    case 2: return x < y;
    case 3: return x <= y;
    case 4: return x > y;
    default: return x >= y;
    }
}

static int32_t wrapped(int64_t n) { return (int32_t)(uint32_t)(uint64_t)n; }

/* runs code on these variables, and says in `done` how it ended, with which effects */
static void run_code(const struct instruction *code, const struct item *given, struct value *variable, struct done *done) {
    struct value stack[17], *top = stack;
    int at = 0;
    done->effects = 0; done->count = 0;
#define PUT(s, v) do { top->sort = (s); top->n = (v); top++; } while (0)
#define TWO(s, v) do { int32_t x = top[-2].n, y = top[-1].n; (void)x; (void)y; top--; top[-1].sort = (s); top[-1].n = (v); } while (0)
    for (;;) {
        const struct instruction *it = &code[at++];
        done->count++;
        switch (it->which) {
        case 0: PUT(INTEGER, it->a); break;
        case 1: PUT(BOOLEAN, it->a); break;
        case 2: *top++ = variable[it->a]; break;
        case 3: variable[it->a] = *--top; break;
        case 4: *top++ = given->value[it->a]; break;
        case 5: TWO(INTEGER, wrapped((int64_t)x + y)); break;
        case 6: TWO(INTEGER, wrapped((int64_t)x - y)); break;
        case 7: TWO(INTEGER, wrapped((int64_t)x * y)); break;
        case 8: top[-1].n = wrapped((int64_t)top[-1].n / it->a); break;
        case 9: top[-1].n %= it->a; if (top[-1].n < 0) top[-1].n += it->a; break;
        case 10: top[-1].n %= it->a; break;
        case 11: top[-1].n = wrapped(-(int64_t)top[-1].n); break;
        case 12: top[-1].n = !top[-1].n; break;
        case 13: TWO(BOOLEAN, x && y); break;
        case 14: TWO(BOOLEAN, x || y); break;
        case 15: TWO(BOOLEAN, x != y); break;
        case 16: TWO(BOOLEAN, x == y); break;
        case 17: TWO(BOOLEAN, holds(it->a, x, y)); break;
        case 18: if (holds(it->a, top[-1].n, it->b)) { top--; at = it->c; } break;
        case 19: if (it->b <= top[-1].n && top[-1].n <= it->c) { top--; at = it->a; } break;
        case 20: at = (--top)->n ? it->b : it->a; break;
        case 21: top--; break;
        case 22: at = it->a; break;
        case 23: {
            struct effect *e = &done->effect[done->effects++];
            e->kind = 0; e->number = it->a; e->to = it->b == SENDER ? given->sender : it->b; e->count = it->c;
            top -= it->c;
            memcpy(e->value, top, sizeof(struct value) * (size_t)it->c);
            break;
        }
        case 24: { struct effect *e = &done->effect[done->effects++]; e->kind = 1; e->number = it->a; e->delay = (--top)->n; break; }
        case 25: { struct effect *e = &done->effect[done->effects++]; e->kind = 2; e->number = it->a; break; }
        case 26: done->end = it->a; return;
        default: done->end = STOPPED; return;
        }
    }
}

static void run(const struct job *job, struct done *done) {
    done->actor = job->actor; done->turn = job->turn;
    memcpy(done->variable, job->variable, sizeof done->variable);
    run_code(job->piece->code, &job->given, done->variable, done);
}

static void drop_timer(struct actor *a, int timer) {
    for (int i = 0; i < a->items; i++)
        if (a->item[i].trigger.kind == 1 && a->item[i].trigger.number == timer) { take_out(a, i); return; }
}

static void lay(struct book *b, int sender, const struct effect *e) {
    if (e->kind == 0 && e->to == ENV) {
        if (b->emitted < b->env) {
            struct emitted *m = &b->ring[(b->first + b->emitted++) % b->env];
            m->sender = sender; m->signal = e->number; m->count = e->count;
            memcpy(m->value, e->value, sizeof(struct value) * (size_t)e->count);
        }
    } else if (e->kind == 0) {
        deliver(b, e->to, sender, e->number, e->value, e->count);
    } else {
        drop_timer(&b->actor[sender], e->number);
        b->deadline[sender][e->number] = e->kind == 1 ? b->clock + (uint64_t)(e->delay < 1 ? 1 : e->delay) : 0;
    }
}

static void end_turn(struct book *b, int actor, const struct done *done) {
    struct actor *a = &b->actor[actor];
    b->finishes++;
    b->instructions += done->count;
    for (int i = 0; i < done->effects; i++) lay(b, actor, &done->effect[i]);
    a->standing = done->end;
    if (done->end == STOPPED) { a->items = 0; memset(b->deadline[actor], 0, sizeof b->deadline[0]); }
    keep(b, 3, actor);
}

static int finish(struct book *b, const struct done *done) {
    struct actor *a = &b->actor[done->actor];
    if (!a->out || a->turn != done->turn) return 0;
    memcpy(a->variable, done->variable, sizeof a->variable);
    a->out = 0;
    end_turn(b, done->actor, done);
    return 1;
}

static int turn_by_job(struct book *b, int actor) {
    struct job job;
    struct done done;
    int began = begin(b, actor, &job);
    if (began == 2) return skip(b, actor);
    if (began != 1) return 0;
    run(&job, &done);
    return finish(b, &done);
}

/* the same without a job: the code runs where it stands, on the actor's own variables */
static int turn_by_book(struct book *b, int actor) {
    const struct piece *piece;
    struct item given;
    struct done done;
    int found = next_piece(b, actor, &piece, &given);
    if (found == 2) return skip(b, actor);
    if (found != 1) return 0;
    b->turns++;
    keep(b, 1, actor);
    run_code(piece->code, &given, b->actor[actor].variable, &done);
    end_turn(b, actor, &done);
    return 1;
}

typedef int turn(struct book *b, int actor);

static void rest(struct book *b, turn *turn) {
    for (int turns = 0; turns < 10000; turns++) {
        int actor = 0;
        while (actor < b->set->processes && !turn(b, actor)) actor++;
        if (actor == b->set->processes) return;
    }
}

/* the environment takes the signal that has waited longest */
static int take_env(struct book *b, struct emitted *taken) {
    if (!b->emitted || b->events >= b->most) return 0;
    *taken = b->ring[b->first];
    b->first = (b->first + 1) % b->env;
    b->emitted--;
    keep(b, 5, 0);
    return 1;
}

/* ---- the rounds */
static double now(void) {
    struct timespec t;
    clock_gettime(CLOCK_MONOTONIC, &t);
    return (double)t.tv_sec + 1e-9 * (double)t.tv_nsec;
}

static void report(const char *name, uint64_t things, double start, int asked) {
    printf("%s %.0f\n", name, asked ? (double)things / (now() - start) : (double)things);
}

/* runs a program, and prints the most memory that it had at once */
static int peak(char **words) {
    int status;
    struct rusage used;
    pid_t child = fork();
    if (child == 0) {
        execv(words[0], words);
        _exit(127);
    }
    if (child < 0 || wait4(child, &status, 0, &used) != child || status != 0) return 1;
    printf("%ld kB\n", used.ru_maxrss);
    return 0;
}

/* turns of the counter, from offer to end */
static void count(const struct set *set, const char *name, turn *turn, int rounds, int asked) {
    struct book *b = open_book(set, 64, 64, 65536);
    turn(b, 0);
    double start = now();
    for (int r = 0; r < rounds; r++) {
        b->events = 0;
        for (int i = 0; i < 300; i++) {
            for (int k = 0; k < 64; k++) { struct value v = { INTEGER, k }; offer(b, 0, 0, &v, 1); }
            for (int k = 0; k < 64; k++) turn(b, 0);
        }
    }
    report(name, b->finishes, start, asked);
    close_book(b);
}

/* turns of the profile, a book opened for each power-on and start; rests make no job */
static void open_links(const struct set *set, const char *name, int rounds, int asked) {
    uint64_t turns = 0;
    double start = now();
    for (int r = 0; r < 100 * rounds; r++) {
        struct book *b = open_book(set, 16, 64, 256);
        rest(b, turn_by_book);
        offer(b, 0, 0, NULL, 0);
        rest(b, turn_by_book);
        offer(b, 0, 1, NULL, 0);
        rest(b, turn_by_book);
        turns += b->finishes;
        close_book(b);
    }
    report(name, turns, start, asked);
}

static void signal_comes(struct book *b, turn *turn, int signal) {
    struct emitted taken;
    offer(b, 0, signal, NULL, 0);
    rest(b, turn);
    while (take_env(b, &taken)) {}
}

/* turns of the profile in one book, whose link starts and stops */
static void cycle(const struct set *set, const char *name, turn *turn, int rounds, int asked) {
    struct book *b = open_book(set, 64, 64, 65536);
    rest(b, turn);
    signal_comes(b, turn, 0);
    double start = now();
    for (int r = 0; r < rounds; r++) {
        b->events = 0;
        for (int i = 0; i < 300; i++) { signal_comes(b, turn, 1); signal_comes(b, turn, 2); }
    }
    report(name, b->finishes, start, asked);
    close_book(b);
}

/* instructions of the long piece, run again and again where it stands */
static void run_long(const struct set *set, const char *name, int rounds, int asked) {
    struct book *b = open_book(set, 1, 1, 16);
    struct value seven = { INTEGER, 7 };
    struct job job;
    struct done done;
    uint64_t instructions = 0;
    turn_by_job(b, 0);
    if (!offer(b, 0, 0, &seven, 1) || begin(b, 0, &job) != 1) exit(1);
    double start = now();
    for (int r = 0; r < 1000 * rounds; r++) {
        run(&job, &done);
        instructions += done.count;
        __asm__ volatile("" : : "r"(&done) : "memory");
    }
    report(name, instructions, start, asked);
    close_book(b);
}

int main(int argc, char **argv) {
    if (argc > 2 && !strcmp(argv[1], "peak")) return peak(argv + 2);
    if (argc < 4) { fprintf(stderr, "plain_book COUNTER STANDARD LONG [ROUNDS], or plain_book peak PROGRAM WORD ..\n"); return 1; }
    struct set *counter = read_set(argv[1]), *standard = read_set(argv[2]), *longs = read_set(argv[3]);
    int asked = argc > 4 ? atoi(argv[4]) : 0, rounds = asked ? asked : 1;
    count(counter, "counter", turn_by_job, rounds, asked);
    open_links(standard, "standard", rounds, asked);
    run_long(longs, "long", rounds, asked);
    count(counter, "counter_own", turn_by_book, rounds, asked);
    cycle(standard, "standard_own", turn_by_book, rounds, asked);
    cycle(standard, "standard_job", turn_by_job, rounds, asked);
    run_long(longs, "straight", rounds, asked);
    count(counter, "counter_room", turn_by_job, rounds, asked);
    cycle(standard, "standard_room", turn_by_job, rounds, asked);
    return 0;
}
