/* A plain program of the same steps as `flux run FILE ITEMS`, to compare times with: it reads the same program and items,
   runs the flows by the event loop, and prints the same journal. A flow that is blocked is not looked at again until its
   key is dropped. It proves nothing, checks nothing, and knows the nodes Pass, Show, Add and Bump on items of one number,
   the predicate IsZero, and the session function ByNumber. */
#include <ctype.h>
#include <stdint.h>
#include <stdio.h>
#include <stdlib.h>
#include <string.h>

enum { MOST_NODES = 4096, MOST_CLASSES = 256, MOST_FLOWS = 4096 };
enum Mode { READER, WRITER };
enum Library { NONE, PASS, SHOW, ADD, BUMP };

typedef struct { int class; enum Mode mode; } Hold;
typedef struct { int zero, count, room, *members; } Case;
typedef struct {
    char *name;
    enum Library call;
    int cases, holds, declared;
    Case *of_case;
    Hold *hold, *declares;
} Node;
typedef struct { char *name; int session; } Class;

static Node nodes[MOST_NODES];
static Class classes[MOST_CLASSES];
static int node_count, class_count, target;

static void *more(void *old, size_t size) {
    void *new = realloc(old, size);
    if (!new) exit(12);
    return new;
}

/* ---- the program */

static char *text, *at, word[65537];

static int next_word(void) {
    while (isspace((unsigned char)*at)) at++;
    if (!*at) return 0;
    int length = 0;
    if (isalnum((unsigned char)*at) || *at == '_')
        while (isalnum((unsigned char)*at) || *at == '_') word[length++] = *at++;
    else if (!strncmp(at, "->", 2) || !strncmp(at, "=>", 2))
        word[length++] = *at++, word[length++] = *at++;
    else
        word[length++] = *at++;
    word[length] = 0;
    return 1;
}

static int is(const char *other) { return !strcmp(word, other); }

static int find_node(const char *name) {
    for (int i = 0; i < node_count; i++)
        if (!strcmp(nodes[i].name, name)) return i;
    nodes[node_count].name = strdup(name);
    return node_count++;
}

static int find_class(const char *name, int session) {
    for (int i = 0; i < class_count; i++)
        if (!strcmp(classes[i].name, name) && classes[i].session == session) return i;
    classes[class_count] = (Class){strdup(name), session};
    return class_count++;
}

static enum Library library_of(const char *name) {
    size_t length = strcspn(name, "_");
    const char *names[] = {"", "Pass", "Show", "Add", "Bump"};
    for (int i = 1; i < 5; i++)
        if (strlen(names[i]) == length && !strncmp(names[i], name, length)) return i;
    return NONE;
}

static void skip(void) { while (next_word() && !is(";")) {} }

static void read_flow(int node) {
    Node *own = &nodes[node];
    own->of_case = more(own->of_case, (own->cases + 1) * sizeof(Case));
    Case *made = &own->of_case[own->cases++];
    *made = (Case){0};
    while (!is("=")) {
        if (is("zero")) made->zero = 1;
        next_word();
    }
    while (next_word() && !is(";")) {
        if (is("->")) continue;
        if (made->count == made->room) {
            made->room = made->room ? 2 * made->room : 4;
            made->members = more(made->members, made->room * sizeof(int));
        }
        made->members[made->count++] = find_node(word);
    }
}

static void declare(Node *own, const char *name, int session, enum Mode mode) {
    own->declares = more(own->declares, (own->declared + 1) * sizeof(Hold));
    own->declares[own->declared++] = (Hold){find_class(name, session), mode};
}

static void read_atomic(void) {
    next_word();
    int node = find_node(word), session = 0;
    enum Mode mode = WRITER;
    char name[256] = "";
    while (next_word() && !is(";")) {
        if (is("?")) mode = READER;
        else if (is("session")) session = 1;
        else if (is(",") || is("}")) {
            declare(&nodes[node], name, session, mode);
            session = 0, mode = WRITER;
        } else if (!is("{") && !is(":") && !is("(") && !is(")") && !is("!")) strcpy(name, word);
    }
}

static void read_program(void) {
    for (at = text; next_word();) {
        if (is("source")) {
            while (!is("=>")) next_word();
            next_word();
            target = find_node(word);
            skip();
        } else if (is("atomic")) read_atomic();
        else if (is("typedef") || is("session")) skip();
        else {
            int node = find_node(word);
            next_word();
            if (is("(")) nodes[node].call = library_of(nodes[node].name), skip();
            else read_flow(node);
        }
    }
}

/* ---- locks: what a node declares, and what is below it up to its greatest class */

static int class_rank(const void *a, const void *b) {
    const Class *x = &classes[((const Hold *)a)->class], *y = &classes[((const Hold *)b)->class];
    int order = strcmp(x->name, y->name);
    return order ? order : x->session - y->session;
}

static void add_hold(Node *own, Hold hold) {
    for (int i = 0; i < own->holds; i++)
        if (own->hold[i].class == hold.class) {
            if (hold.mode > own->hold[i].mode) own->hold[i].mode = hold.mode;
            return;
        }
    own->hold = more(own->hold, (own->holds + 1) * sizeof(Hold));
    own->hold[own->holds++] = hold;
}

static char seen[MOST_NODES];

static void add_below(Node *own, int node, Hold *greatest) {
    for (int i = 0; i < nodes[node].cases; i++)
        for (int j = 0; j < nodes[node].of_case[i].count; j++) {
            int member = nodes[node].of_case[i].members[j];
            if (seen[member]) continue;
            seen[member] = 1;
            for (int k = 0; k < nodes[member].declared; k++)
                if (class_rank(&nodes[member].declares[k], greatest) <= 0) add_hold(own, nodes[member].declares[k]);
            add_below(own, member, greatest);
        }
}

static void hoist(void) {
    for (int i = 0; i < node_count; i++) {
        Node *own = &nodes[i];
        if (!own->declared) continue;
        Hold greatest = own->declares[0];
        for (int j = 0; j < own->declared; j++) {
            add_hold(own, own->declares[j]);
            if (class_rank(&own->declares[j], &greatest) > 0) greatest = own->declares[j];
        }
        memset(seen, 0, sizeof seen);
        add_below(own, i, &greatest);
        qsort(own->hold, own->holds, sizeof(Hold), class_rank);
    }
}

/* ---- keys: how many hold them, a line of waiting flows, flows that are blocked beside it, and one number in the cell */

typedef struct { int flow; enum Mode mode; } Waiter;
typedef struct {
    int used, class, first, waiter_count, waiter_room, waiting_writers, idle_count, idle_room;
    int holders[2];
    uint64_t session;
    Waiter *waiters;
    int *idle;
    int64_t value;
} Key;
typedef struct { Key *key; int count; enum Mode mode; } Held;

enum { TABLE = 1 << 16 };
static Key table[TABLE];

static Key *key_at(int class, uint64_t session) {
    if (!classes[class].session) session = 0;
    uint64_t place = (session * 0x9e3779b97f4a7c15u + class * 0x2545f491u) >> 40;
    for (;; place++) {
        Key *key = &table[place % TABLE];
        if (!key->used) key->used = 1, key->class = class, key->session = session;
        if (key->class == class && key->session == session) return key;
    }
}

/* ---- flows: a stack of nodes, each with its place */

enum Stage { TAKING, ENTERING, BODY, MEMBERS, EXITING, DROPPING };
typedef struct { int node, done, of_case, member; enum Stage stage; int64_t input; } Frame;
typedef struct {
    Frame *frames;
    Held *held;
    int depth, room, held_count, held_room, ended, waits, failed;
    int64_t value;
    uint64_t session;
} Flow;
static Flow flows[MOST_FLOWS];
static int flow_count;

/* The flows that are looked at, a bit each, and which words of them have bits. */
static uint64_t ready[MOST_FLOWS / 64], ready_words;

static void look_at(int flow) { ready[flow / 64] |= 1ull << flow % 64, ready_words |= 1ull << flow / 64; }

static void look_away(int flow) {
    if (!(ready[flow / 64] &= ~(1ull << flow % 64))) ready_words &= ~(1ull << flow / 64);
}

/* The first flow that is looked at, from a number on; MOST_FLOWS where there is none. */
static int first_ready(int from) {
    if (from >= MOST_FLOWS) return MOST_FLOWS;
    uint64_t here = ready[from / 64] & ~0ull << from % 64;
    if (here) return from / 64 * 64 + __builtin_ctzll(here);
    uint64_t words = from / 64 == 63 ? 0 : ready_words & ~0ull << (from / 64 + 1);
    if (!words) return MOST_FLOWS;
    int word = __builtin_ctzll(words);
    return word * 64 + __builtin_ctzll(ready[word]);
}

static Held *held_by(Flow *flow, Key *key) {
    for (int i = 0; i < flow->held_count; i++)
        if (flow->held[i].key == key) return &flow->held[i];
    return NULL;
}

static int is_blocked(Key *key, int number, enum Mode mode) {
    Flow *flow = &flows[number];
    if (held_by(flow, key)) return 0;
    if (key->holders[WRITER] || (mode && key->holders[READER])) return 1;
    if (!flow->waits) return mode ? key->first < key->waiter_count : key->waiting_writers > 0;
    for (int i = key->first; key->waiters[i].flow != number; i++)
        if (mode || key->waiters[i].mode) return 1;
    return 0;
}

static void leave_line(Key *key, int number) {
    int i = key->first;
    while (key->waiters[i].flow != number) i++;
    key->waiting_writers -= key->waiters[i].mode;
    for (; i > key->first; i--) key->waiters[i] = key->waiters[i - 1];
    if (++key->first == key->waiter_count) key->first = key->waiter_count = 0;
}

static void take(Key *key, int number, enum Mode mode) {
    Flow *flow = &flows[number];
    if (flow->waits) leave_line(key, number);
    Held *own = held_by(flow, key);
    if (own) {
        own->count++;
        return;
    }
    if (flow->held_count == flow->held_room) {
        flow->held_room = flow->held_room ? 2 * flow->held_room : 4;
        flow->held = more(flow->held, flow->held_room * sizeof(Held));
    }
    flow->held[flow->held_count++] = (Held){key, 1, mode};
    key->holders[mode]++;
}

static void join_line(Key *key, int number, enum Mode mode) {
    if (key->waiter_count == key->waiter_room) {
        key->waiter_room = key->waiter_room ? 2 * key->waiter_room : 4;
        key->waiters = more(key->waiters, key->waiter_room * sizeof(Waiter));
    }
    key->waiters[key->waiter_count++] = (Waiter){number, mode};
    key->waiting_writers += mode;
}

/* Looks away from a blocked flow. One that is in the key's line is found there again. */
static void park(Key *key, int number) {
    look_away(number);
    if (flows[number].waits) return;
    if (key->idle_count == key->idle_room) {
        key->idle_room = key->idle_room ? 2 * key->idle_room : 4;
        key->idle = more(key->idle, key->idle_room * sizeof(int));
    }
    key->idle[key->idle_count++] = number;
}

/* Looks at the flows that a dropped key may let go on: the first of the line, up to the first writer, and those beside it. */
static void wake(Key *key) {
    for (int i = key->first; i < key->waiter_count; i++) {
        if (i > key->first && key->waiters[i].mode) break;
        look_at(key->waiters[i].flow);
        if (key->waiters[i].mode) break;
    }
    while (key->idle_count) look_at(key->idle[--key->idle_count]);
}

static void drop(Key *key, int number) {
    Flow *flow = &flows[number];
    Held *own = held_by(flow, key);
    if (--own->count) return;
    key->holders[own->mode]--;
    *own = flow->held[--flow->held_count];
    wake(key);
}

static void push(Flow *flow, int node) {
    if (flow->depth == flow->room) {
        flow->room = flow->room ? 2 * flow->room : 8;
        flow->frames = more(flow->frames, flow->room * sizeof(Frame));
    }
    flow->frames[flow->depth++] = (Frame){.node = node, .input = flow->value};
}

static void print_key(Key *key) {
    fputs(classes[key->class].name, stdout);
    if (classes[key->class].session) printf("@%llu", (unsigned long long)key->session);
}

static void print_hold(int number, const char *what, Key *key, enum Mode mode) {
    printf("%d %s ", number, what);
    print_key(key);
    putchar(mode ? '!' : '?'), putchar('\n');
}

static void print_outcome(Flow *flow) {
    if (flow->failed) printf("fail %d\n", flow->failed);
    else puts("ok");
}

static int64_t *cell(Flow *flow, Node *own) {
    return &key_at(own->declares[0].class, flow->session)->value;
}

static void call(int number, Flow *flow, Node *own) {
    long long arg = flow->value;
    printf("%d call %s (%lld) ", number, own->name, arg);
    if (own->call == PASS) printf("ok (%lld)\n", arg);
    else if (own->call == SHOW) printf("ok () emits \"%lld\\n\"\n", arg);
    else if (own->call == ADD) {
        flow->value = *cell(flow, own) += arg;
        printf("ok (%lld) put counter \"total\" %lld\n", (long long)flow->value, (long long)flow->value);
    } else
        printf("ok (%lld) put visits \"n\" %lld\n", arg, (long long)++*cell(flow, own));
}

/* Goes over what makes no event; the frame on top is at an event then, if there is one. */
static void settle(Flow *flow) {
    while (flow->depth) {
        Frame *top = &flow->frames[flow->depth - 1];
        Node *own = &nodes[top->node];
        if (top->stage == TAKING && top->done == own->holds) top->stage = ENTERING;
        else if (top->stage == MEMBERS) {
            Case *taken = &own->of_case[top->of_case];
            if (flow->failed || top->member == taken->count) top->stage = EXITING;
            else push(flow, taken->members[top->member++]);
        } else if (top->stage == DROPPING && top->done == 0) flow->depth--;
        else return;
    }
}

/* Makes a flow's next event and says whether its turn is over with it. */
static int step(int number) {
    Flow *flow = &flows[number];
    if (!flow->depth) {
        printf("%d end ", number);
        if (flow->failed) printf("fail %d\n", flow->failed);
        else puts("done");
        return flow->ended = 1;
    }
    Frame *top = &flow->frames[flow->depth - 1];
    Node *own = &nodes[top->node];
    int over = 0;
    if (top->stage == TAKING) {
        Hold hold = own->hold[top->done];
        Key *key = key_at(hold.class, flow->session);
        if (is_blocked(key, number, hold.mode)) {
            join_line(key, number, hold.mode);
            print_hold(number, "wait", key, hold.mode);
            return flow->waits = 1;
        }
        take(key, number, hold.mode);
        if (flow->waits) flow->waits = 0, wake(key);
        print_hold(number, "take", key, hold.mode);
        top->done++;
    } else if (top->stage == ENTERING) {
        printf("%d enter %s\n", number, own->name);
        top->stage = BODY;
        if (!own->call) {
            int i = 0;
            while (i < own->cases && own->of_case[i].zero && flow->value != 0) i++;
            top->of_case = i;
            if (i == own->cases) flow->failed = 256, top->stage = EXITING;
        }
    } else if (top->stage == BODY && own->call) {
        call(number, flow, own);
        top->stage = EXITING, over = 1;
    } else if (top->stage == BODY) {
        printf("%d choose %d\n", number, top->of_case + 1);
        top->stage = MEMBERS;
    } else if (top->stage == EXITING) {
        printf("%d exit %s ", number, own->name);
        print_outcome(flow);
        top->stage = DROPPING;
    } else {
        Key *key = key_at(own->hold[--top->done].class, flow->session);
        drop(key, number);
        printf("%d drop ", number);
        print_key(key);
        putchar('\n');
    }
    settle(flow);
    return over;
}

/* The key that blocks a flow's next event, or NULL. */
static Key *blocking(int number) {
    Flow *flow = &flows[number];
    if (!flow->depth || flow->frames[flow->depth - 1].stage != TAKING) return NULL;
    Frame *top = &flow->frames[flow->depth - 1];
    Hold hold = nodes[top->node].hold[top->done];
    Key *key = key_at(hold.class, flow->session);
    return is_blocked(key, number, hold.mode) ? key : NULL;
}

/* The first flow, from a number on and then from 0 on, that can go on. */
static int next_owner(int from) {
    for (;;) {
        int number = first_ready(from);
        if (number == MOST_FLOWS) number = first_ready(0);
        Key *key = blocking(number);
        if (!key) return number;
        park(key, number);
    }
}

static char *read_file(const char *name) {
    FILE *file = fopen(name, "rb");
    if (!file) exit(9);
    char *bytes = more(NULL, 16 << 20);
    bytes[fread(bytes, 1, (16 << 20) - 1, file)] = 0;
    fclose(file);
    return bytes;
}

int main(int count, char **words) {
    if (count != 3) return 2;
    text = read_file(words[1]);
    read_program();
    hoist();
    char *items = read_file(words[2]);
    for (char *item = strchr(items, '('); item; item = strchr(item + 1, '(')) {
        Flow *flow = &flows[flow_count++];
        flow->value = strtoll(item + 1, NULL, 10);
        flow->session = (uint64_t)flow->value;
        push(flow, target);
        settle(flow);
        look_at(flow_count - 1);
    }
    for (int live = flow_count, from = 0; live;) {
        int owner = next_owner(from);
        while (!step(owner)) {}
        from = owner + 1;
        if (flows[owner].ended) live--, look_away(owner);
    }
    return 0;
}
