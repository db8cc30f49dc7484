/* How fast `wlim serve` is beside a plain relay of bytes: serve_speed PROGRAM [BATCHES]
 *
 * An app and a method type through Unix sockets. Measured are batches a second and processor time a batch where the method
 * doesn't wait, the time of one batch at a time with 2 and with 64 links, and what 64 idle links cost in ten seconds. The
 * plain relay is this program itself: a thread that reads a frame of the method's and writes a frame of as many bytes;
 * then the same by two threads, as a server has that keeps nobody waiting for a slow peer: one reads, and wakes one that
 * writes.
 */
#define _GNU_SOURCE
#include <pthread.h>
#include <sched.h>
#include <signal.h>
#include <stdint.h>
#include <stdio.h>
#include <stdlib.h>
#include <string.h>
#include <sys/resource.h>
#include <sys/socket.h>
#include <sys/un.h>
#include <sys/wait.h>
#include <time.h>
#include <unistd.h>

enum { BATCH = 28, ONE_BY_ONE = 20000, MOST_LINKS = 64 };

static const char *app_set_up[] = {
    "0100000001000c0002000000",
    "0200000000002800010000000e000000776c5f636f6d706f7369746f720000000100000003000000",
    "02000000000020000200000008000000776c5f73656174000100000004000000",
    "0200000000003400030000001a0000007a77705f746578745f696e7075745f6d616e616765725f76330000000100000005000000",
    "0300000000000c0006000000",
    "05000000010010000700000004000000",
};
static const char *method_set_up[] = {
    "0100000001000c0002000000",
    "02000000000020000200000008000000776c5f73656174000100000003000000",
    "0200000000003400040000001c0000007a77705f696e7075745f6d6574686f645f6d616e616765725f7632000100000004000000",
    "04000000000010000300000005000000",
};
static const char *enable_and_commit = "07000000010008000700000007000800";
/* commit_string "a", and commit with the serial 1 */
static const char *batch = "050000000000100002000000610000000500000003000c0001000000";

static double now(void) {
    struct timespec t;
    clock_gettime(CLOCK_MONOTONIC, &t);
    return t.tv_sec + t.tv_nsec / 1e9;
}

static void give_up(const char *why) {
    fprintf(stderr, "%s\n", why);
    exit(1);
}

static void write_all(int link, const void *bytes, size_t size) {
    for (size_t at = 0; at < size;) {
        ssize_t wrote = write(link, (const char *)bytes + at, size - at);
        if (wrote <= 0)
            give_up("a write failed");
        at += wrote;
    }
}

static void read_all(int link, void *bytes, size_t size) {
    for (size_t at = 0; at < size;) {
        ssize_t got = read(link, (char *)bytes + at, size - at);
        if (got <= 0)
            give_up("a link ended");
        at += got;
    }
}

/* A frame of these bytes, in hex. */
static size_t frame(const char *hex, uint8_t *out) {
    size_t size = strlen(hex) / 2;
    out[0] = size & 255;
    out[1] = size >> 8;
    out[2] = out[3] = 0;
    for (size_t at = 0; at < size; at++) {
        unsigned byte;
        sscanf(hex + 2 * at, "%2x", &byte);
        out[4 + at] = byte;
    }
    return 4 + size;
}

static void send_frame(int link, const char *hex) {
    uint8_t bytes[512];
    write_all(link, bytes, frame(hex, bytes));
}

/* The bytes of the next frame, which are dropped: how many they are. */
static size_t read_frame(int link) {
    static __thread uint8_t bytes[4096];
    uint16_t head[2];
    read_all(link, head, 4);
    read_all(link, bytes, head[0]);
    return head[0];
}

static void read_bytes(int link, size_t count) {
    for (size_t got = 0; got < count;)
        got += read_frame(link);
}

static int connect_to(const char *path) {
    struct sockaddr_un address = {.sun_family = AF_UNIX};
    strncpy(address.sun_path, path, sizeof address.sun_path - 1);
    for (int tries = 0; tries < 1000; tries++) {
        int link = socket(AF_UNIX, SOCK_STREAM, 0);
        if (connect(link, (struct sockaddr *)&address, sizeof address) == 0)
            return link;
        close(link);
        usleep(5000);
    }
    give_up("nobody listens");
    return -1;
}

struct typing {
    int app, method, shell, count;
    int others[MOST_LINKS];
    pid_t server;
};

static pid_t start_server(const char *program, const char *order) {
    fflush(stdout);
    pid_t child = fork();
    if (child == 0) {
        freopen("/dev/null", "w", stdout);
        execl(program, program, "serve", "--app", "app", "--method", "method", "--shell", "shell", "--order", order,
              "--entries", "4000000", NULL);
        _exit(127);
    }
    return child;
}

/* An app whose field holds the seat, a method, a shell, and more apps: so many links in all. */
static struct typing start(const char *program, int links) {
    char order[MOST_LINKS + 1] = "sam";
    struct typing t = {.count = links - 3};
    for (int at = 3; at < links; at++)
        order[at] = 'a';
    order[links > 3 ? links : 3] = 0;
    t.server = start_server(program, order);
    t.shell = connect_to("shell");
    t.app = connect_to("app");
    t.method = connect_to("method");
    for (int at = 0; at < t.count; at++)
        t.others[at] = connect_to("app");
    for (size_t at = 0; at < sizeof app_set_up / sizeof *app_set_up; at++)
        send_frame(t.app, app_set_up[at]);
    read_bytes(t.app, 112 + 12);
    for (size_t at = 0; at < sizeof method_set_up / sizeof *method_set_up; at++)
        send_frame(t.method, method_set_up[at]);
    read_bytes(t.method, 112 + 12);
    char answer[16];
    usleep(50000);
    write_all(t.shell, "focus 1 6\n", 10);
    if (read(t.shell, answer, sizeof answer) <= 0)
        give_up("the shell isn't answered");
    read_bytes(t.app, 12);
    send_frame(t.app, enable_and_commit);
    read_bytes(t.method, 32);
    return t;
}

static void end(struct typing *t) {
    close(t->app);
    close(t->method);
    close(t->shell);
    for (int at = 0; at < t->count; at++)
        close(t->others[at]);
    int status;
    waitpid(t->server, &status, 0);
    if (status != 0)
        printf("the server's status is %d\n", WEXITSTATUS(status));
}

/* The processor time of the process so far, in seconds. */
static double processor(pid_t process) {
    char path[64], line[1024];
    snprintf(path, sizeof path, "/proc/%d/stat", process);
    FILE *file = fopen(path, "r");
    if (!file || !fgets(line, sizeof line, file))
        give_up("the server is gone");
    fclose(file);
    unsigned long user, system;
    sscanf(strrchr(line, ')') + 2, "%*c %*d %*d %*d %*d %*d %*u %*u %*u %*u %*u %lu %lu", &user, &system);
    return (double)(user + system) / sysconf(_SC_CLK_TCK);
}

static long memory(pid_t process) {
    char path[64], line[256];
    long most = 0;
    snprintf(path, sizeof path, "/proc/%d/status", process);
    FILE *file = fopen(path, "r");
    while (file && fgets(line, sizeof line, file))
        sscanf(line, "VmHWM: %ld", &most);
    if (file)
        fclose(file);
    return most;
}

/* How many batches the method may be ahead of the app: a store has room for twice as many, and a peer whose store is
   full is ended. */
enum { TOGETHER = 64, AHEAD = 16 * TOGETHER };

struct sending {
    int link;
    long count;
    _Atomic long read;
};

static void *send_batches(void *data) {
    struct sending *s = data;
    static uint8_t many[TOGETHER * 64];
    size_t size = 0;
    for (int at = 0; at < TOGETHER; at++)
        size += frame(batch, many + size);
    for (long sent = 0; sent < s->count; sent += TOGETHER) {
        while (sent - s->read > AHEAD)
            sched_yield();
        write_all(s->link, many, size);
    }
    return NULL;
}

/* Seconds until the app got all batches, which the method sent without waiting for each. */
static double pipelined(int method, int app, long count) {
    pthread_t thread;
    struct sending s = {method, count, 0};
    double begun = now();
    pthread_create(&thread, NULL, send_batches, &s);
    for (long got = 0; got < BATCH * count; s.read = got / BATCH)
        got += read_frame(app);
    pthread_join(thread, NULL);
    return now() - begun;
}

static int by_size(const void *a, const void *b) {
    double d = *(const double *)a - *(const double *)b;
    return (d > 0) - (d < 0);
}

static void one_by_one(const char *what, int method, int app) {
    static double times[ONE_BY_ONE];
    for (int at = 0; at < ONE_BY_ONE; at++) {
        double begun = now();
        send_frame(method, batch);
        read_bytes(app, BATCH);
        times[at] = (now() - begun) * 1e6;
    }
    qsort(times, ONE_BY_ONE, sizeof *times, by_size);
    printf("%s: one batch at a time: p50 %.1f us, p99 %.1f us\n", what, times[ONE_BY_ONE / 2], times[ONE_BY_ONE / 100 * 99]);
}

/* The plain relay: a frame of as many bytes for each frame. */
static void *relay(void *data) {
    int *links = data;
    uint8_t bytes[4100];
    for (;;) {
        ssize_t got = 0;
        while (got < 4) {
            ssize_t more = read(links[0], bytes + got, 4 - got);
            if (more <= 0)
                return NULL;
            got += more;
        }
        uint16_t size = bytes[0] | bytes[1] << 8;
        read_all(links[0], bytes + 4, size);
        write_all(links[1], bytes, 4 + size);
    }
}

static void bare(const char *what, void *(*run)(void *), long count) {
    int in[2], out[2];
    socketpair(AF_UNIX, SOCK_STREAM, 0, in);
    socketpair(AF_UNIX, SOCK_STREAM, 0, out);
    int links[2] = {in[1], out[0]};
    pthread_t thread;
    pthread_create(&thread, NULL, run, links);
    double seconds = pipelined(in[0], out[1], count);
    printf("%s: %.0f batches a second, %.2f us a batch\n", what, count / seconds, seconds / count * 1e6);
    one_by_one(what, in[0], out[1]);
    shutdown(in[0], SHUT_RDWR);
    pthread_join(thread, NULL);
}

/* What the thread that reads leaves for the one that writes. */
struct store {
    int link;
    pthread_mutex_t lock;
    pthread_cond_t woken;
    size_t size;
    int ended;
    uint8_t bytes[1 << 20];
};

static void *write_stored(void *data) {
    struct store *s = data;
    static uint8_t bytes[4096];
    for (;;) {
        pthread_mutex_lock(&s->lock);
        while (s->size == 0 && !s->ended)
            pthread_cond_wait(&s->woken, &s->lock);
        size_t size = s->size < sizeof bytes ? s->size : sizeof bytes;
        memcpy(bytes, s->bytes, size);
        memmove(s->bytes, s->bytes + size, s->size - size);
        s->size -= size;
        pthread_mutex_unlock(&s->lock);
        if (size == 0)
            return NULL;
        write_all(s->link, bytes, size);
    }
}

static void *relay_by_two(void *data) {
    int *links = data;
    static struct store s;
    s = (struct store){.link = links[1], .lock = PTHREAD_MUTEX_INITIALIZER, .woken = PTHREAD_COND_INITIALIZER};
    uint8_t bytes[4100];
    pthread_t thread;
    pthread_create(&thread, NULL, write_stored, &s);
    for (ssize_t got; (got = read(links[0], bytes, sizeof bytes)) > 0;) {
        pthread_mutex_lock(&s.lock);
        memcpy(s.bytes + s.size, bytes, got);
        s.size += got;
        pthread_cond_signal(&s.woken);
        pthread_mutex_unlock(&s.lock);
    }
    pthread_mutex_lock(&s.lock);
    s.ended = 1;
    pthread_cond_signal(&s.woken);
    pthread_mutex_unlock(&s.lock);
    pthread_join(thread, NULL);
    return NULL;
}

static void served(const char *program, long count) {
    struct typing t = start(program, 3);
    double before = processor(t.server);
    double seconds = pipelined(t.method, t.app, count);
    double spent = processor(t.server) - before;
    printf("wlim serve: %.0f batches a second, %.2f us a batch, %.2f us of processor time a batch\n", count / seconds,
           seconds / count * 1e6, spent / count * 1e6);
    one_by_one("wlim serve, 3 links", t.method, t.app);
    end(&t);
    t = start(program, MOST_LINKS);
    one_by_one("wlim serve, 64 links", t.method, t.app);
    before = processor(t.server);
    sleep(10);
    printf("64 links idle for ten seconds: %.3f s of processor time, %ld KB at most\n", processor(t.server) - before,
           memory(t.server));
    end(&t);
}

int main(int count, char **words) {
    if (count < 2)
        give_up("serve_speed PROGRAM [BATCHES]");
    long batches = (count > 2 ? atol(words[2]) : 200000) / TOGETHER * TOGETHER;
    char *program = realpath(words[1], NULL);
    char folder[] = "/tmp/serve_speed.XXXXXX";
    signal(SIGPIPE, SIG_IGN);
    if (!program || chdir(mkdtemp(folder)) != 0)
        give_up("no program, or no folder");
    bare("plain relay", relay, batches);
    bare("plain relay by two threads", relay_by_two, batches);
    served(program, batches);
    return chdir("/") || rmdir(folder);
}
