/* Loads a message bus with traffic of one kind after another, and tells for each kind how much passed in a second and
 * what processor time of the bus it took. */
#define _GNU_SOURCE
#include "client.h"
#include <fcntl.h>
#include <signal.h>
#include <stdatomic.h>
#include <stdio.h>
#include <stdlib.h>
#include <string.h>
#include <sys/epoll.h>
#include <sys/mman.h>
#include <sys/prctl.h>
#include <sys/wait.h>
#include <time.h>
#include <unistd.h>

enum { max_workers = 16, max_connections = 128, patience_seconds = 20, window_of_signals = 16 };

static const char *const usage =
    "Usage: load [OPTIONS] SOCKET SCENARIO..\n"
    "\n"
    "Scenarios:\n"
    "  connect-K          K processes connect, authenticate, say Hello and leave; counts connections\n"
    "  calls-N-BYTES      calls and returns of BYTES between two clients, N outstanding; counts messages\n"
    "  calls-N-BYTES-K    the same by K processes side by side\n"
    "  signal-L           a signal to L listeners; counts signals\n"
    "  owner-C            GetNameOwner by C clients; counts calls\n"
    "  churn-C            RequestName and ReleaseName by C clients; counts pairs\n"
    "\n"
    "Options:\n"
    "  --auth NAME        anonymous, external or cookie [default: anonymous]\n"
    "  --keyring FILE     whose last line is the cookie\n"
    "  --pid PID          the bus's process, whose time is told\n"
    "  --seconds S        how long each scenario lasts at most [default: 1]\n"
    "  --count N          how much each counts at most [default: 10000000]\n"
    "\n"
    "Prints for each scenario its name, what it counted, that a second, and the bus's microseconds for each.\n";

static struct way_in way = { .mechanism = "anonymous" };

static struct {
    int pid;
    double seconds;
    long count;
} options = { .seconds = 1, .count = 10000000 };

static double now(void)
{
    struct timespec t;
    clock_gettime(CLOCK_MONOTONIC, &t);
    return t.tv_sec + t.tv_nsec / 1e9;
}

/* ---- What the processes of a scenario share. */

static struct shared {
    _Atomic int ready, finished;
    _Atomic bool goes, stops;
    _Atomic long counted[max_workers];
} *shared;

struct scenario {
    char name[64];
    void (*run)(const struct scenario *);
    int workers, clients, outstanding, worker;
    size_t bytes;
};

static void wait_for_start(void)
{
    shared->ready++;
    while (!shared->goes)
        usleep(200);
}

/* Counts one; false where it is enough. */
static bool count_one(const struct scenario *s)
{
    _Atomic long *counted = &shared->counted[s->worker];
    long count = atomic_load_explicit(counted, memory_order_relaxed) + 1;
    atomic_store_explicit(counted, count, memory_order_relaxed);
    return count < options.count / s->workers && !shared->stops;
}

static struct connection connections[max_connections];

typedef bool (*handler)(const struct scenario *, struct connection *, const struct seen *);

/* Writes what waits, and asks to be told where the socket takes no more. */
static void flush_or_wait(int poller, struct connection *c)
{
    bool waits = !flush(c);
    if (waits == c->waits_to_write)
        return;
    c->waits_to_write = waits;
    epoll_ctl(poller, EPOLL_CTL_MOD, c->fd,
              &(struct epoll_event){ .events = EPOLLIN | (waits ? EPOLLOUT : 0), .data.ptr = c });
}

static bool serve(const struct scenario *s, struct connection *c, handler handle)
{
    bool goes_on = true;
    struct seen seen;
    size_t length;
    if (!fill(c))
        return true;
    while (goes_on && (length = look(&c->in, &seen)) > 0) {
        goes_on = handle(s, c, &seen);
        c->in.start += length;
    }
    return goes_on;
}

/* Hands each message that comes to the handler, until that has enough or the scenario stops. */
static void serve_all(const struct scenario *s, int count, handler handle)
{
    struct epoll_event events[max_connections];
    int poller = epoll_create1(EPOLL_CLOEXEC);
    for (int i = 0; i < count; i++) {
        fcntl(connections[i].fd, F_SETFL, O_NONBLOCK);
        epoll_ctl(poller, EPOLL_CTL_ADD, connections[i].fd,
                  &(struct epoll_event){ .events = EPOLLIN, .data.ptr = &connections[i] });
        flush_or_wait(poller, &connections[i]);
    }
    for (bool goes_on = true; goes_on && !shared->stops;) {
        int happened = epoll_wait(poller, events, max_connections, 100);
        for (int i = 0; i < happened && goes_on; i++)
            if (events[i].events & (EPOLLIN | EPOLLHUP | EPOLLERR))
                goes_on = serve(s, events[i].data.ptr, handle);
        for (int i = 0; i < count; i++)
            if (connections[i].out.start < connections[i].out.end)
                flush_or_wait(poller, &connections[i]);
    }
    close(poller);
}

/* ---- Scenarios. */

static void run_connect(const struct scenario *s)
{
    wait_for_start();
    do {
        struct connection c;
        connect_to_bus(&c, &way);
        close(c.fd);
        free(c.in.bytes);
        free(c.out.bytes);
    } while (count_one(s));
}

static const uint8_t *payload;
static size_t payload_length;

static void put_call(struct connection *caller, const char *destination)
{
    put_message(caller, &(struct message){ .kind = call, .path = "/com/example/Load", .interface = "com.example.Load",
        .member = "Echo", .destination = destination, .signature = "ay", .body = payload,
        .body_length = payload_length });
}

/* The first connection calls, the second returns. */
static bool handle_call(const struct scenario *s, struct connection *c, const struct seen *seen)
{
    if (seen->kind == error_reply)
        fail("a call was answered an error");
    if (seen->kind == call) {
        put_message(c, &(struct message){ .kind = method_return, .reply_serial = seen->serial,
            .destination = seen->sender, .signature = "ay", .body = seen->body, .body_length = seen->body_length });
        return count_one(s);
    }
    if (seen->kind != method_return)
        return true;
    put_call(c, connections[1].name);
    return count_one(s);
}

static void run_calls(const struct scenario *s)
{
    uint32_t length = s->bytes;
    uint8_t *body = calloc(1, 4 + s->bytes);
    memcpy(body, &length, 4);
    payload = body;
    payload_length = 4 + s->bytes;
    connect_to_bus(&connections[0], &way);
    connect_to_bus(&connections[1], &way);
    for (int i = 0; i < s->outstanding; i++)
        put_call(&connections[0], connections[1].name);
    wait_for_start();
    serve_all(s, 2, handle_call);
}

static void put_signal(struct connection *sender)
{
    put_message(sender, &(struct message){ .kind = signal_message, .path = "/com/example/Load",
        .interface = "com.example.Load", .member = "Ticked" });
}

/* Connection 0 sends; a signal counts once all others have it, and then the next is sent. */
static bool handle_signal(const struct scenario *s, struct connection *c, const struct seen *seen)
{
    if (seen->kind != signal_message || !seen->sender || strcmp(seen->sender, connections[0].name))
        return true;
    static int having[max_connections * window_of_signals];
    int *count = &having[c->seen++ % window_of_signals];
    if (++*count < s->clients)
        return true;
    *count = 0;
    put_signal(&connections[0]);
    return count_one(s);
}

static void run_signal(const struct scenario *s)
{
    connect_to_bus(&connections[0], &way);
    for (int i = 1; i <= s->clients; i++) {
        connect_to_bus(&connections[i], &way);
        ask_bus(&connections[i], "AddMatch", "s", "type='signal',interface='com.example.Load'", NULL);
    }
    for (int i = 0; i < window_of_signals; i++)
        put_signal(&connections[0]);
    wait_for_start();
    serve_all(s, s->clients + 1, handle_signal);
}

static bool handle_owner(const struct scenario *s, struct connection *c, const struct seen *seen)
{
    if (seen->kind == error_reply)
        fail("GetNameOwner was answered an error");
    if (seen->kind != method_return)
        return true;
    put_bus_call(c, "GetNameOwner", "s", "com.example.Load", NULL);
    return count_one(s);
}

static void run_owner(const struct scenario *s)
{
    for (int i = 0; i < s->clients; i++)
        connect_to_bus(&connections[i], &way);
    ask_bus(&connections[0], "RequestName", "su", "com.example.Load", &(uint32_t){ 0 });
    for (int i = 0; i < s->clients; i++)
        put_bus_call(&connections[i], "GetNameOwner", "s", "com.example.Load", NULL);
    wait_for_start();
    serve_all(s, s->clients, handle_owner);
}

static void put_change(struct connection *c)
{
    char name[64];
    snprintf(name, sizeof name, "com.example.Load.n%d", (int)(c - connections));
    bool requests = c->step++ % 2 == 0;
    put_bus_call(c, requests ? "RequestName" : "ReleaseName", requests ? "su" : "s", name,
                 requests ? &(uint32_t){ 0 } : NULL);
}

static bool handle_churn(const struct scenario *s, struct connection *c, const struct seen *seen)
{
    if (seen->kind == error_reply || (seen->kind == method_return && u32_at(seen->body) != 1))
        fail("a name was not given or taken");
    if (seen->kind != method_return)
        return true;
    put_change(c);
    return c->step % 2 == 0 || count_one(s);
}

static void run_churn(const struct scenario *s)
{
    for (int i = 0; i < s->clients; i++) {
        connect_to_bus(&connections[i], &way);
        put_change(&connections[i]);
    }
    wait_for_start();
    serve_all(s, s->clients, handle_churn);
}

/* ---- The run of a scenario. */

static struct scenario read_scenario(const char *word)
{
    struct scenario s = { .workers = 1, .clients = 2, .outstanding = 1 };
    snprintf(s.name, sizeof s.name, "%s", word);
    if (sscanf(word, "connect-%d", &s.workers) == 1)
        s.run = run_connect;
    else if (sscanf(word, "calls-%d-%zu-%d", &s.outstanding, &s.bytes, &s.workers) >= 2)
        s.run = run_calls;
    else if (sscanf(word, "signal-%d", &s.clients) == 1)
        s.run = run_signal;
    else if (sscanf(word, "owner-%d", &s.clients) == 1)
        s.run = run_owner;
    else if (sscanf(word, "churn-%d", &s.clients) == 1)
        s.run = run_churn;
    if (!s.run || s.workers < 1 || s.workers > max_workers || s.clients < 1 || s.clients >= max_connections ||
        s.outstanding < 1 || s.outstanding > 200 || s.bytes > 1000000)
        fail("there is no scenario %s", word);
    return s;
}

/* The processor time of the bus so far, in seconds; in steps of a clock tick. */
static double bus_time(void)
{
    char path[64], text[1024];
    unsigned long user = 0, kernel = 0;
    if (!options.pid)
        return 0;
    snprintf(path, sizeof path, "/proc/%d/stat", options.pid);
    FILE *file = fopen(path, "r");
    if (!file || !fgets(text, sizeof text, file))
        fail("there is no process %d", options.pid);
    fclose(file);
    char *behind = strrchr(text, ')');
    if (!behind || sscanf(behind + 2, "%*c %*d %*d %*d %*d %*d %*u %*u %*u %*u %*u %lu %lu", &user, &kernel) != 2)
        fail("the times of process %d don't read", options.pid);
    return (double)(user + kernel) / sysconf(_SC_CLK_TCK);
}

static long counted(const struct scenario *s)
{
    long sum = 0;
    for (int i = 0; i < s->workers; i++)
        sum += shared->counted[i];
    return sum;
}

static bool all_live(const pid_t *workers, int count)
{
    for (int i = 0; i < count; i++)
        if (waitpid(workers[i], NULL, WNOHANG) != 0)
            return false;
    return true;
}

static void end_workers(const pid_t *workers, int count)
{
    for (int i = 0; i < count; i++)
        kill(workers[i], SIGKILL);
    while (wait(NULL) > 0)
        continue;
}

/* Waits until all are ready, lets them go for the time that is given, and prints what they counted. */
static bool measure(const struct scenario *s, const pid_t *workers)
{
    double limit = now() + patience_seconds;
    while (shared->ready < s->workers) {
        if (now() > limit || !all_live(workers, s->workers)) {
            fprintf(stderr, "load: %s: the clients don't get ready\n", s->name);
            return false;
        }
        usleep(500);
    }
    shared->goes = true;
    usleep(50000);
    double begin = now(), time = bus_time();
    long before = counted(s);
    bool live = true;
    while (now() < begin + options.seconds && live && shared->finished == 0) {
        usleep(1000);
        live = shared->finished > 0 || all_live(workers, s->workers);
    }
    double seconds = now() - begin, spent = bus_time() - time;
    long count = counted(s) - before;
    shared->stops = true;
    if (!live || count <= 0) {
        fprintf(stderr, "load: %s: %s\n", s->name, live ? "nothing came through in time" : "a client ended");
        return false;
    }
    printf("%s\t%ld\t%.0f\t%.2f\n", s->name, count, count / seconds, spent * 1e6 / count);
    fflush(stdout);
    return true;
}

static bool run(struct scenario s)
{
    pid_t workers[max_workers];
    memset(shared, 0, sizeof *shared);
    for (s.worker = 0; s.worker < s.workers; s.worker++) {
        workers[s.worker] = fork();
        if (workers[s.worker] == 0) {
            prctl(PR_SET_PDEATHSIG, SIGKILL);
            alarm(patience_seconds + (unsigned)options.seconds + 5);
            s.run(&s);
            shared->finished++;
            pause();
        }
        if (workers[s.worker] < 0)
            fail("no process can be made");
    }
    bool measured = measure(&s, workers);
    end_workers(workers, s.workers);
    return measured;
}

int main(int count, char **words)
{
    int place = 1;
    for (; place + 1 < count && !strncmp(words[place], "--", 2); place += 2) {
        const char *word = words[place] + 2, *value = words[place + 1];
        if (!strcmp(word, "auth"))
            way.mechanism = value;
        else if (!strcmp(word, "keyring"))
            way.keyring = value;
        else if (!strcmp(word, "pid"))
            options.pid = atoi(value);
        else if (!strcmp(word, "seconds"))
            options.seconds = atof(value) < 60 ? atof(value) : 60;
        else if (!strcmp(word, "count"))
            options.count = atol(value);
        else
            fail("there is no option --%s", word);
    }
    if (count - place < 2) {
        fputs(usage, stderr);
        return 2;
    }
    way.path = words[place++];
    shared = mmap(NULL, sizeof *shared, PROT_READ | PROT_WRITE, MAP_SHARED | MAP_ANONYMOUS, -1, 0);
    if (shared == MAP_FAILED)
        fail("no memory");
    bool measured = true;
    for (; place < count; place++)
        measured &= run(read_scenario(words[place]));
    return measured ? 0 : 1;
}
