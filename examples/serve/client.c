/* Types through `wlim serve --order ams`, by docs/FORMATS.md alone: client APP METHOD SHELL TEXT
 *
 * It opens all three links: an application's with a surface and a text input, a method's, and a shell's that moves the
 * focus to the surface. The method commits TEXT, and what the text input is told is printed. Nothing here is verified.
 */
#include <stdint.h>
#include <stdio.h>
#include <stdlib.h>
#include <string.h>
#include <sys/socket.h>
#include <sys/un.h>
#include <unistd.h>

enum { DISPLAY = 1, REGISTRY = 2 };
enum { APP_COMPOSITOR = 3, APP_SEAT, APP_MANAGER, SURFACE, TEXT_INPUT, APP_SYNC };
enum { METHOD_SEAT = 3, METHOD_MANAGER, METHOD, METHOD_SYNC };

struct link {
    int socket;
    uint8_t bytes[8192]; /* what came in frames and isn't read yet */
    size_t count;
    uint32_t words[1024]; /* the message that is written: its header and its arguments */
    size_t length;
};

struct message {
    uint32_t object, opcode, body[1024];
};

static void fail(const char *why)
{
    fprintf(stderr, "client: %s\n", why);
    exit(1);
}

static struct link opened(const char *path)
{
    struct link link = {.socket = socket(AF_UNIX, SOCK_STREAM, 0)};
    struct sockaddr_un address = {.sun_family = AF_UNIX};
    strncpy(address.sun_path, path, sizeof address.sun_path - 1);
    for (int tries = 0; connect(link.socket, (struct sockaddr *)&address, sizeof address) != 0; tries++) {
        if (tries == 500)
            fail("nobody listens");
        usleep(10000);
    }
    return link;
}

static void exactly(int socket, void *room, size_t size)
{
    for (size_t got = 0; got < size;) {
        ssize_t more = read(socket, (uint8_t *)room + got, size - got);
        if (more <= 0)
            fail("the link ended");
        got += more;
    }
}

/* Requests: a header, arguments, and then the message goes as one frame without tokens. */
static void begin(struct link *link, uint32_t object, uint32_t opcode)
{
    link->words[0] = object;
    link->words[1] = opcode;
    link->length = 2;
}

static void word(struct link *link, uint32_t value)
{
    link->words[link->length++] = value;
}

static void string(struct link *link, const char *text)
{
    size_t size = strlen(text) + 1;
    word(link, size);
    memset(&link->words[link->length], 0, (size + 3) / 4 * 4);
    memcpy(&link->words[link->length], text, size);
    link->length += (size + 3) / 4;
}

static void send_it(struct link *link)
{
    uint16_t size = link->length * 4, frame[2] = {size, 0};
    link->words[1] |= (uint32_t)size << 16;
    if (write(link->socket, frame, 4) != 4 || write(link->socket, link->words, size) != size)
        fail("a write failed");
}

static void request(struct link *link, uint32_t object, uint32_t opcode, int count, const uint32_t *words)
{
    begin(link, object, opcode);
    for (int at = 0; at < count; at++)
        word(link, words[at]);
    send_it(link);
}
#define REQUEST(link, object, opcode, ...) \
    request(link, object, opcode, sizeof(uint32_t[]){0, ##__VA_ARGS__} / 4 - 1, (uint32_t[]){0, ##__VA_ARGS__} + 1)

static void bind_global(struct link *link, uint32_t name, const char *interface, uint32_t id)
{
    begin(link, REGISTRY, 0);
    word(link, name);
    string(link, interface);
    word(link, 1);
    word(link, id);
    send_it(link);
}

/* The next event; frames are read until one is whole. */
static struct message next(struct link *link)
{
    struct message got = {0};
    uint32_t head[2] = {0, 0}, size = 8;
    for (;;) {
        if (link->count >= 8) {
            memcpy(head, link->bytes, 8);
            size = head[1] >> 16;
        }
        if (link->count >= 8 && link->count >= size)
            break;
        uint16_t frame[2];
        uint32_t tokens[256];
        exactly(link->socket, frame, 4);
        exactly(link->socket, tokens, 4 * frame[1]);
        exactly(link->socket, link->bytes + link->count, frame[0]);
        link->count += frame[0];
    }
    got.object = head[0];
    got.opcode = head[1] & 0xffff;
    memcpy(got.body, link->bytes + 8, size - 8);
    memmove(link->bytes, link->bytes + size, link->count - size);
    link->count -= size;
    if (got.object == DISPLAY && got.opcode == 0)
        fail((char *)&got.body[3]);
    return got;
}

static struct message next_of(struct link *link, uint32_t object, uint32_t opcode)
{
    struct message got;
    do
        got = next(link);
    while (got.object != object || got.opcode != opcode);
    return got;
}

/* A fence: all requests before it are entries of the journal. */
static void sync_with(struct link *link, uint32_t id)
{
    REQUEST(link, DISPLAY, 0, id);
    next_of(link, id, 0);
}

int main(int count, char **words)
{
    if (count != 5)
        fail("client APP METHOD SHELL TEXT");
    static struct link app, method, shell;
    app = opened(words[1]);
    method = opened(words[2]);
    shell = opened(words[3]);

    REQUEST(&app, DISPLAY, 1, REGISTRY);
    bind_global(&app, 1, "wl_compositor", APP_COMPOSITOR);
    bind_global(&app, 2, "wl_seat", APP_SEAT);
    bind_global(&app, 3, "zwp_text_input_manager_v3", APP_MANAGER);
    REQUEST(&app, APP_COMPOSITOR, 0, SURFACE);
    REQUEST(&app, APP_MANAGER, 1, TEXT_INPUT, APP_SEAT);
    sync_with(&app, APP_SYNC);

    REQUEST(&method, DISPLAY, 1, REGISTRY);
    bind_global(&method, 2, "wl_seat", METHOD_SEAT);
    bind_global(&method, 4, "zwp_input_method_manager_v2", METHOD_MANAGER);
    REQUEST(&method, METHOD_MANAGER, 0, METHOD_SEAT, METHOD);
    sync_with(&method, METHOD_SYNC);

    /* the application's link is the first of the letters a and m, so its peer is 1 */
    char answer[32] = {0};
    dprintf(shell.socket, "focus 1 %d\n", SURFACE);
    if (read(shell.socket, answer, sizeof answer - 1) <= 0)
        fail("the shell has no answer");
    printf("the shell is answered\n");

    next_of(&app, TEXT_INPUT, 0); /* enter */
    REQUEST(&app, TEXT_INPUT, 1); /* enable */
    REQUEST(&app, TEXT_INPUT, 7); /* commit */
    next_of(&method, METHOD, 5);  /* the done of its activation, its first */

    begin(&method, METHOD, 0); /* commit_string */
    string(&method, words[4]);
    send_it(&method);
    REQUEST(&method, METHOD, 3, 1); /* commit, naming the first done */

    struct message text = next_of(&app, TEXT_INPUT, 3);
    struct message done = next_of(&app, TEXT_INPUT, 5);
    printf("the field is told \"%s\" and done %u\n", (char *)&text.body[1], done.body[0]);

    struct link *all[] = {&app, &method, &shell};
    for (int at = 0; at < 3; at++)
        shutdown(all[at]->socket, SHUT_WR);
    for (int at = 0; at < 3; at++)
        while (read(all[at]->socket, answer, sizeof answer) > 0)
            ;
    return 0;
}
