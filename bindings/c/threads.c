/* Handles in threads, by a small table or by the one of a file: threads [TABLE]. A handle is opened in one thread, used in
 * a second and closed in a third; threads use one in turn, behind a lock; each has its own, all at once, on a table of its
 * own and then on one for all, which the last of them frees; handles on one table are closed in each order. All are told
 * what the first thread is. The last line is `threads: ok`, else the number of the first check that failed is printed. */
#define _POSIX_C_SOURCE 200112L
#include "phone.h"
#include <pthread.h>
#include <stdio.h>
#include <stdlib.h>
#include <string.h>
#define CHECK(n, is) do { if (!(is)) { printf("threads: %d\n", n); exit(1); } } while (0)
enum { THREADS = 8, ROUNDS = 20, TABLES = 5, LINES = 5, LINE = 1024, ROOM = 256 };

static const char SMALL[] = "[{\"id\": \"NZ\", \"country_code\": 64, \"international_prefix\": \"00\","
    "\"national_prefix\": \"0\", \"general\": {\"national_number\": \"[2-9]\\\\d{7,9}\", \"possible_length\": [8, 9, 10]},"
    "\"fixed_line\": {\"national_number\": \"[34679]\\\\d{7}\", \"possible_length\": [8]},"
    "\"formats\": [{\"pattern\": \"(\\\\d)(\\\\d{3})(\\\\d{4})\", \"format\": \"$1-$2 $3\"}]}]";
static const char PREFIXES[] = "64\tNew Zealand\n643\tSouth Island\n";
static const char *const lines[LINES] = {"03-331 6005", "+64 3 331 6005 ext. 12", "call me", "+64 21 387 835", "(03) 3316005"};
static const uint8_t *table = (const uint8_t *)SMALL;
static size_t table_len = sizeof SMALL - 1;

#ifdef __SANITIZE_THREAD__
/* What the library does with memory isn't watched: the sanitizer doesn't see its atomic words. */
const char *__tsan_default_suppressions(void);
const char *__tsan_default_suppressions(void) { return "called_from_lib:libphone.so\n"; }
#endif

/* What stands behind a handle is told to a thread by these alone. */
typedef struct {
    phone_handle world;
    phone_prefixes prefixes;
    pthread_mutex_t lock;
    pthread_barrier_t start; /* all threads have a handle on the table */
    int made;                /* how many have one */
    char wanted[LINES][LINE];
} shared;

static void open_both(phone_handle *world, phone_prefixes *prefixes) {
    size_t line = 0;
    CHECK(1, phone_open(table, table_len, PHONE_LIBRARY, world) == PHONE_OK);
    CHECK(2, phone_prefixes_open((const uint8_t *)PREFIXES, sizeof PREFIXES - 1, prefixes, &line) == PHONE_OK);
}

static void share_both(phone_handle *world, phone_prefixes *prefixes, phone_handle *mine, phone_prefixes *own) {
    CHECK(15, phone_share(world, mine) == PHONE_OK);
    CHECK(16, phone_prefixes_share(prefixes, own) == PHONE_OK);
}

static void close_both(phone_handle *world, phone_prefixes *prefixes) {
    uint32_t told = 99;
    uint8_t out[LINE] = {0};
    size_t wrote = 0;
    phone_close(world);
    phone_prefixes_close(prefixes);
    CHECK(3, phone_text_possibility(world, phone_text("NZ", 2), 2, phone_text("3", 1), 1, &told) == PHONE_IS_CLOSED);
    CHECK(4, phone_regions(world, out, sizeof out, &wrote) == PHONE_IS_CLOSED);
}

/* What is told of a line behind them: its reports by both rules, what is shown while it is typed, where a number stands in it;
 * and the longest prefix of some digits. */
static void ask(phone_handle *world, phone_prefixes *prefixes, const char *line, char *told) {
    uint8_t out[ROOM];
    size_t wrote, prefix_len = 0, len = strlen(line);
    const uint8_t *text = phone_text(line, len), *hint = phone_text("NZ", 2);
    phone_place place = {0, 0};
    char *at = told;
    memset(told, 0, LINE);
    for (uint32_t rules = PHONE_LIBRARY; rules <= PHONE_CRATE; rules++) {
        phone_handle by = PHONE_CLOSED;
        memset(out, 0, ROOM);
        CHECK(21, phone_share_by(world, rules, &by) == PHONE_OK);
        CHECK(5, phone_report(&by, hint, 2, text, len, out, ROOM - 1, &wrote) == PHONE_OK);
        at += sprintf(at, "%s\n", (char *)out);
        phone_close(&by);
    }
    memset(out, 0, ROOM);
    CHECK(18, phone_typing_shown(world, hint, 2, text, len, out, ROOM - 1, &wrote) == PHONE_OK);
    at += sprintf(at, "%s\n", (char *)out);
    CHECK(19, phone_find(world, hint, 2, PHONE_IF_VALID, text, len, &place, 1, &wrote) == PHONE_OK);
    at += sprintf(at, "%zu %zu %zu\n", wrote, place.start, place.end);
    memset(out, 0, ROOM);
    CHECK(6, phone_prefixes_longest(prefixes, phone_text("6433316005", 10), 10, out, ROOM - 1, &wrote, &prefix_len) == PHONE_OK);
    at += sprintf(at, "%s %zu\n", (char *)out, prefix_len);
    CHECK(7, prefix_len == 3 && at < told + LINE);
}

/* All lines, often; what is told of each is what was wanted. */
static void ask_all(phone_handle *world, phone_prefixes *prefixes, pthread_mutex_t *lock, char wanted[LINES][LINE]) {
    for (int round = 0; round < ROUNDS; round++) {
        for (int i = 0; i < LINES; i++) {
            char told[LINE];
            if (lock) pthread_mutex_lock(lock);
            ask(world, prefixes, lines[i], told);
            if (lock) pthread_mutex_unlock(lock);
            CHECK(8, !memcmp(told, wanted[i], LINE));
        }
    }
}

static void *opens(void *it) {
    open_both(&((shared *)it)->world, &((shared *)it)->prefixes);
    return NULL;
}
static void *learns(void *it) {
    shared *all = (shared *)it;
    for (int i = 0; i < LINES; i++) ask(&all->world, &all->prefixes, lines[i], all->wanted[i]);
    return NULL;
}
static void *asks_in_turn(void *it) {
    shared *all = (shared *)it;
    ask_all(&all->world, &all->prefixes, &all->lock, all->wanted);
    return NULL;
}
static void *asks_its_own(void *it) {
    phone_handle world = PHONE_CLOSED;
    phone_prefixes prefixes = PHONE_CLOSED;
    open_both(&world, &prefixes);
    ask_all(&world, &prefixes, NULL, ((shared *)it)->wanted);
    close_both(&world, &prefixes);
    return NULL;
}
/* A handle of its own on the table of all, which nobody has asked yet, made of the one behind the lock. That is made anew of
 * this one, so that the next thread's is too, and is closed by the last thread before all ask. */
static void *asks_one_table(void *it) {
    shared *all = (shared *)it;
    phone_handle world = PHONE_CLOSED;
    phone_prefixes prefixes = PHONE_CLOSED;
    pthread_mutex_lock(&all->lock);
    share_both(&all->world, &all->prefixes, &world, &prefixes);
    share_both(&world, &prefixes, &all->world, &all->prefixes);
    if (++all->made % THREADS == 0) close_both(&all->world, &all->prefixes);
    pthread_mutex_unlock(&all->lock);
    pthread_barrier_wait(&all->start);
    ask_all(&world, &prefixes, NULL, all->wanted);
    close_both(&world, &prefixes);
    return NULL;
}
/* Three handles on one table, each made of the one before, closed in each order. Those that are left answer. */
static void *closes_in_each_order(void *it) {
    static const int ORDERS[][3] = {{0, 1, 2}, {0, 2, 1}, {1, 0, 2}, {1, 2, 0}, {2, 0, 1}, {2, 1, 0}};
    for (size_t order = 0; order < sizeof ORDERS / sizeof *ORDERS; order++) {
        phone_handle worlds[] = {PHONE_CLOSED, PHONE_CLOSED, PHONE_CLOSED};
        phone_prefixes prefixes[] = {PHONE_CLOSED, PHONE_CLOSED, PHONE_CLOSED};
        open_both(&worlds[0], &prefixes[0]);
        for (int i = 1; i < 3; i++) share_both(&worlds[i - 1], &prefixes[i - 1], &worlds[i], &prefixes[i]);
        for (int closed = 0; closed < 3; closed++) {
            close_both(&worlds[ORDERS[order][closed]], &prefixes[ORDERS[order][closed]]);
            for (int left = closed + 1; left < 3; left++) {
                char told[LINE];
                ask(&worlds[ORDERS[order][left]], &prefixes[ORDERS[order][left]], lines[0], told);
                CHECK(20, !memcmp(told, ((shared *)it)->wanted[0], LINE));
            }
        }
    }
    return NULL;
}
static void *closes(void *it) {
    close_both(&((shared *)it)->world, &((shared *)it)->prefixes);
    return NULL;
}

/* Runs so many threads at once, and waits for all. */
static void run(int count, void *(*what)(void *), shared *all) {
    pthread_t threads[THREADS];
    for (int i = 0; i < count; i++) CHECK(9, !pthread_create(&threads[i], NULL, what, all));
    for (int i = 0; i < count; i++) CHECK(10, !pthread_join(threads[i], NULL));
}

/* Takes the table from a file. */
static void load(const char *name) {
    static uint8_t text[1 << 22];
    FILE *file = fopen(name, "rb");
    CHECK(11, file != NULL);
    table_len = fread(text, 1, sizeof text, file);
    CHECK(12, table_len > 0 && table_len < sizeof text);
    fclose(file);
    table = text;
}

int main(int count, char **words) {
    static shared all;
    if (count > 1) load(words[1]);
    CHECK(13, !pthread_mutex_init(&all.lock, NULL) && !pthread_barrier_init(&all.start, NULL, THREADS));
    run(1, opens, &all);
    run(1, learns, &all);
    CHECK(14, !strncmp(all.wanted[0], "ok\t+6433316005\t", 15) && !strncmp(all.wanted[2], "error\t1\t", 8));
    run(THREADS, asks_in_turn, &all);
    run(THREADS, asks_its_own, &all);
    run(1, closes, &all);
    for (int i = 0; i < (count > 1 ? 2 : TABLES); i++) {
        run(1, opens, &all);
        run(THREADS, asks_one_table, &all);
        CHECK(17, !all.world.at && !all.prefixes.at);
    }
    run(1, closes_in_each_order, &all);
    pthread_barrier_destroy(&all.start);
    pthread_mutex_destroy(&all.lock);
    puts("threads: ok");
    return 0;
}
