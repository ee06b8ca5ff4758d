/* The host in C before a controller that answers at random, with a heap that fails at random.
 *
 * usage: hostile [HOSTS [SEED]]      status 0: no call did what it must not, and no memory is left
 */
#include <stdio.h>
#include <stdlib.h>
#include <string.h>

#include "heap.h"
#include "usb_host.h"

#define MUST(fact)                                                                                                     \
    do {                                                                                                               \
        if (!(fact)) {                                                                                                 \
            printf("%s:%d: not so: %s\n", __FILE__, __LINE__, #fact);                                                  \
            exit(1);                                                                                                   \
        }                                                                                                              \
    } while (0)

static uint64_t state;
static unsigned long attempts, listed, refused, calls, no_memory;

static uint32_t dice(uint32_t below)
{
    state ^= state << 13;
    state ^= state >> 7;
    state ^= state << 17;
    return (uint32_t)(state >> 32) % below;
}

/* ---- The controller ----
 *
 * It often answers what fits, so that the host gets far: a descriptor of the kind that was requested, with bytes
 * changed at random. */

enum { LONGEST = 64 };

static const struct {
    uint8_t length, bytes[LONGEST];
} texts[] = {
    { 18, { 18, 1, 0, 2, 9, 0, 0, 64, 0x34, 0x12, 0x78, 0x56, 0, 1, 1, 2, 3, 1 } },
    { 18, { 18, 1, 0, 2, 0, 0, 0, 64, 0x34, 0x12, 0x78, 0x56, 0, 1, 0, 0, 0, 1 } },
    { 25, { 9, 2, 25, 0, 1, 1, 0, 0xC0, 0, 9, 4, 0, 0, 1, 9, 0, 0, 0, 7, 5, 0x81, 3, 2, 0, 255 } },
    { 48, { 9, 2, 48, 0,    1, 1,  0, 0x80, 50, 9, 4,    0, 0, 3, 8,  6, 0x50, 0, 7, 5, 0x81, 2, 64,   0,
            0, 7, 5,  0x02, 2, 64, 0, 0,    7,  5, 0x83, 3, 8, 0, 10, 9, 4,    0, 1, 0, 8,    6, 0x50, 0 } },
    { 9, { 9, 0x29, 4, 0, 0, 1, 0, 0, 0xFF } },
    { 4, { 4, 3, 9, 4 } },
    { 4, { 1, 1, 1, 0 } }, /* the status of a hub's port */
    { 4, { 3, 1, 16, 0 } },
};

static uint8_t setup[8];
static unsigned given;
static bool is_hub, toggles[16];

static unsigned text_of(void)
{
    if (setup[1] != 6)
        return 6 + dice(2);
    if (setup[0] & 0x20)
        return 4;
    return setup[3] == 1 ? (is_hub ? 0 : 1) : setup[3] == 2 ? (is_hub ? 2 : 3) : 5;
}

static void take_setup(const struct usb_question *q)
{
    memcpy(setup, q->data, sizeof setup);
    given = 0;
    toggles[0] = true;
    if (setup[1] == 6 && setup[3] == 1 && q->address == 0)
        is_hub = dice(3) == 0;
}

static void attempt(struct usb_controller *of, const struct usb_question *q, struct usb_answer *answer)
{
    (void)of;
    attempts++;
    MUST(q->kind >= USB_SETUP && q->kind <= USB_IN && q->address < 128 && q->endpoint < 16);
    MUST(q->kind == USB_IN ? q->length == 0 && q->most >= 1 && q->most <= 64 : q->length <= 64);
    MUST(q->kind != USB_SETUP || (q->length == 8 && q->endpoint == 0 && !(q->flags & USB_DATA1)));
    if (q->kind == USB_SETUP)
        take_setup(q);
    answer->came = (uint8_t)(q->kind != USB_IN ? USB_ACK : USB_DATA);
    if (dice(300) == 0)
        answer->came = (uint8_t)dice(256);
    if (q->kind != USB_IN)
        return;
    bool has_text = q->endpoint == 0 && (setup[0] & 0x80);
    unsigned text = text_of(), asked = setup[6] | setup[7] << 8;
    unsigned all = texts[text].length < asked ? texts[text].length : asked, left = all - (given < all ? given : all);
    answer->length = (uint8_t)(has_text ? (left < q->most ? left : q->most) : q->endpoint ? dice(q->most + 1u) : 0);
    if (dice(300) == 0)
        answer->length = (uint8_t)dice(256);
    answer->toggle = toggles[q->endpoint];
    toggles[q->endpoint] = !toggles[q->endpoint];
    for (unsigned i = 0; i < 64; i++) {
        bool is_text = has_text && given + i < LONGEST && dice(2000);
        answer->data[i] = is_text ? texts[text].bytes[given + i] : (uint8_t)dice(256);
    }
    given += has_text ? answer->length : 0u;
}

/* A row of some full packets, and perhaps a number of them that cannot be. */
static unsigned make_row(struct usb_controller *of, const struct usb_question *q, uint8_t *room,
                         struct usb_answer *last)
{
    struct usb_question one = *q;
    unsigned most = 1 + dice(q->row), count = 0;
    MUST(q->kind == USB_INS && q->row >= 1 && q->row <= USB_ROW && q->length == 0 && q->endpoint >= 1);
    one.kind = USB_IN;
    for (;; count++) {
        memset(last, 0, sizeof *last);
        attempt(of, &one, last);
        if (count + 1 == most || last->came != USB_DATA || last->length > q->most || dice(4) == 0)
            break;
        memcpy(room + count * q->most, last->data, q->most);
    }
    return dice(300) ? count : dice(1000);
}

static uint32_t changes = 1;

static uint32_t status(struct usb_controller *of, unsigned port)
{
    MUST(port >= 1 && port <= of->roots);
    return dice(200) ? changes << 16 | 0x0103 : dice(65536) | dice(65536) << 16;
}

static void call_port(struct usb_controller *of, unsigned port, bool set, unsigned feature)
{
    MUST(port >= 1 && port <= of->roots);
    if (set && feature == USB_PORT_RESET)
        changes |= 0x10;
    else if (!set && feature >= 16)
        changes &= ~(1u << (feature - 16));
    if (dice(10) == 0)
        changes |= 1;
}

static void restart(struct usb_controller *of, unsigned address, unsigned endpoint, bool is_in)
{
    (void)of;
    MUST(address >= 1 && address < 128 && endpoint >= 1 && endpoint < 16);
    if (is_in)
        toggles[endpoint] = false;
}

/* ---- What is reported ---- */

static struct usb_path paths[32];
static unsigned path_count;

static void check_path(const struct usb_path *it)
{
    MUST(it->length >= 1 && it->length <= USB_DEPTH);
    for (int i = 0; i < USB_DEPTH; i++)
        MUST(i < it->length ? it->ports[i] >= 1 && it->ports[i] <= 15 : it->ports[i] == 0);
}

static void count_device(void *context, const struct usb_device *it)
{
    uint32_t *addresses = context;
    check_path(&it->path);
    MUST(it->address >= 1 && it->address < 128 && it->ports <= 15 && it->descriptor[0] == 18);
    MUST(!(addresses[it->address / 32] >> it->address % 32 & 1));
    addresses[it->address / 32] |= 1u << it->address % 32;
    listed++;
    if (path_count < 32)
        paths[path_count++] = it->path;
}

static void count_configuration(void *context, const struct usb_device *it, unsigned index, const uint8_t *bytes,
                                size_t length)
{
    (void)context;
    MUST(index < it->descriptor[17] && length >= 9 && length == (size_t)(bytes[2] | bytes[3] << 8));
}

static void count_text(void *context, const struct usb_device *it, enum usb_text which, const uint8_t *utf16le,
                       size_t length)
{
    (void)context;
    (void)utf16le;
    MUST(it->address && which <= USB_SERIAL_NUMBER && length % 2 == 0 && length <= 252);
}

static void count_refused(void *context, const struct usb_refused *it)
{
    (void)context;
    check_path(&it->path);
    MUST(it->cause >= USB_CAUSE_SILENT && it->cause <= USB_CAUSE_TOO_LARGE && it->said_length <= 18);
    refused++;
}

/* ---- Calls ---- */

static enum usb_status list(struct usb_host *host)
{
    uint32_t addresses[4] = { 0 };
    struct usb_visitor visitor = { count_device, count_configuration, count_text, count_refused, addresses };
    path_count = 0;
    return usb_tree(host, &visitor);
}

static struct usb_path some_path(void)
{
    struct usb_path path = { 0, { 0 } };
    if (path_count && dice(8))
        return paths[dice(path_count)];
    path.length = (uint8_t)dice(9);
    for (int i = 0; i < USB_DEPTH && i < path.length; i++)
        path.ports[i] = (uint8_t)dice(dice(10) ? 4 : 256);
    return path;
}

static enum usb_status transfer(struct usb_host *host, uint32_t which, struct usb_path path, uint8_t number,
                                size_t count)
{
    static uint8_t room[65536];
    struct usb_setup request = { (uint8_t)number, (uint8_t)(count % 16), (uint16_t)(count % 5), 0, (uint16_t)count };
    struct usb_look look;
    struct usb_news news;
    size_t got = 0;
    switch (which) {
    case 0:
        return usb_receive(host, path, room, 512, (unsigned)count % 16, &got);
    case 1:
        return usb_send(host, path, room, count);
    case 2:
        return usb_clear_halt(host, path);
    case 3:
        return usb_receive_from(host, path, number, room, sizeof room, (unsigned)count % 16, &got);
    case 4:
        return usb_send_to(host, path, number, room, count);
    case 5:
        return usb_clear_halt_of(host, path, number);
    case 6:
        return usb_poll(host, path, number, room, &got);
    case 7:
        return usb_set_interface(host, path, 0, (uint8_t)(count % 3));
    case 8:
        return usb_control_in(host, path, &request, room, &got);
    case 9:
        return usb_control_out(host, path, &request, room);
    case 10:
        return usb_look(host, path, &look);
    case 11:
        return usb_news(host, &news);
    case 12:
        return list(host);
    default:
        return usb_round(host);
    }
}

static bool is_known(enum usb_status it)
{
    return it <= USB_NO_INTERFACE || it == USB_NO_MEMORY || it == USB_WRONG_LENGTH || it == USB_BAD_VALUE
        || it == USB_NO_ROOM;
}

/* Makes a call, and makes it again as long as there is no memory. */
static void call(struct usb_host *host)
{
    static const uint8_t numbers[] = { 0x81, 0x02, 0x83, 0x80, 0xA1, 0x21, 0x00 };
    uint32_t which = dice(17);
    struct usb_path path = some_path();
    uint8_t number = dice(5) ? numbers[dice(sizeof numbers)] : (uint8_t)dice(256);
    size_t count = dice(dice(4) ? 70 : 600);
    enum usb_status done;
    calls++;
    for (int tries = 0; (done = transfer(host, which, path, number, count)) == USB_NO_MEMORY; tries++) {
        no_memory++;
        if (tries == 3)
            heap_fails_one_in = 0;
        MUST(tries < 5);
        if (which < 13 && host->is_begun)
            MUST(usb_round(host) == USB_OUT_OF_TURN);
    }
    if (!is_known(done))
        printf("call %u: %s\n", which, usb_status_text(done));
    MUST(is_known(done));
}

int main(int words, char **word)
{
    int hosts = words > 1 ? atoi(word[1]) : 1000;
    state = words > 2 ? strtoull(word[2], NULL, 10) : 1;
    for (int i = 0; i < hosts; i++) {
        static const uint32_t budgets[] = { USB_ANY_BYTES, USB_DEVICE_BYTES, 48, 25, 0 };
        struct usb_controller controller = { 1 + dice(7), attempt, status, call_port, restart, NULL };
        struct usb_options options = { dice(2), budgets[dice(5)] };
        struct usb_host host;
        controller.ins = dice(2) ? make_row : NULL;
        heap_fails_one_in = dice(2) ? 0 : 20 + dice(2000);
        path_count = 0;
        changes = 1;
        enum usb_status opened = usb_open(&host, &controller, dice(4) ? &options : NULL);
        MUST(opened == USB_DONE || (opened == USB_NO_MEMORY && heap_fails_one_in));
        if (opened == USB_DONE) {
            for (int turn = 0; turn < 30; turn++)
                call(&host);
            if (dice(2))
                list(&host);
            MUST(usb_close(&host) == USB_DONE);
        }
        MUST(usb_close(&host) == USB_CLOSED && usb_round(&host) == USB_CLOSED);
        MUST(heap_blocks == 0 && heap_bytes == 0);
    }
    printf("%d hosts, %lu calls, %lu attempts, %lu listed, %lu refused, ", hosts, calls, attempts, listed, refused);
    printf("memory refused %lu times, %zu bytes of heap at most\n", no_memory, heap_most);
    return 0;
}
