/* The host in C before one device in memory: each call of usb_host.h, with blocking and without, and once more for each
 * allocation, which then fails. All of it is done with no rows, with whole rows, and with rows that the controller cuts
 * short: the attempts must be the same. Reports what attempts cost.
 *
 * usage: one_device [--times]      status 0: each call did what usb_host.h says
 */
#define _POSIX_C_SOURCE 200809L
#include <pthread.h>
#include <stdio.h>
#include <stdlib.h>
#include <string.h>
#include <time.h>

#include "heap.h"
#include "usb_host.h"

#define MUST(fact)                                                                                                     \
    do {                                                                                                               \
        if (!(fact)) {                                                                                                 \
            printf("%s:%d: not so: %s\n", __FILE__, __LINE__, #fact);                                                  \
            exit(1);                                                                                                   \
        }                                                                                                              \
    } while (0)

/* ---- The device: at root port 1, of full speed ---- */

static const uint8_t descriptor[18] = { 18, 1, 0, 2, 0, 0, 0, 64, 0x34, 0x12, 0x78, 0x56, 0, 1, 0, 1, 0, 1 };

/* Interface 0: setting 0 has bulk IN 1, bulk OUT 2 and interrupt IN 3; setting 1 has bulk IN 1 alone. */
static const uint8_t configuration[57] = { 9, 2, 57, 0, 1,    1,    0, 0x80, 50, 9, 4, 0,   0,    3, 0xFF,
                                           0, 0, 0,  7, 5,    0x81, 2, 64,   0,  0, 7, 5,   0x02, 2, 64,
                                           0, 0, 7,  5, 0x83, 3,    8, 0,    10, 9, 4, 0,   1,    1, 0xFF,
                                           0, 0, 0,  7, 5,    0x81, 2, 64,   0,  0, 2, 0x24 };
static const uint8_t languages[4] = { 4, 3, 9, 4 };
static const uint8_t product[6] = { 6, 3, 'o', 0, 'k', 0 };

enum { TAKES = 65536 };

static struct {
    uint8_t address, setup[8], setting, key[8];
    const uint8_t *data;
    size_t left, written, taken, given;
    bool toggle[16], out_toggle[16], has_key, is_halted;
    unsigned naks_at, short_at, halts_at; /* which attempt from now on at bulk IN 1 brings that; 0: none does */
    uint8_t wrote[64], took[TAKES];
} it;
static uint32_t port;
static unsigned attempts, resets, restarts, rows;

enum { SHORT = 10 };

/* The bytes that bulk IN 1 gives, one after the other. */
static uint8_t byte_at(size_t place) { return (uint8_t)(place * 7 + place / 251); }

static void take_setup(const uint8_t *setup)
{
    memcpy(it.setup, setup, 8);
    it.data = NULL;
    it.left = it.written = 0;
    if (setup[0] == 0x80 && setup[1] == 6) {
        const uint8_t *texts[] = { NULL, descriptor, configuration, setup[2] ? product : languages };
        it.data = setup[3] < 4 ? texts[setup[3]] : NULL;
        it.left = setup[3] == 2 ? sizeof configuration : it.data ? it.data[0] : 0;
    } else if (setup[0] == 0xC1 && setup[1] == 1) { /* a request of its own: what was written to it last */
        it.data = it.wrote;
        it.left = sizeof it.wrote;
    }
    size_t asked = setup[6] | setup[7] << 8;
    it.left = it.left < asked ? it.left : asked;
    it.toggle[0] = true;
}

static bool refuses(void) { return it.setup[0] == 0xC1 && it.setup[1] == 2; }

/* What a request that ends does. */
static void end_request(void)
{
    const uint8_t *setup = it.setup;
    if (setup[0] == 0 && setup[1] == 5)
        it.address = setup[2];
    if (setup[0] == 0 && setup[1] == 9)
        memset(it.toggle + 1, 0, 15), memset(it.out_toggle + 1, 0, 15);
    if (setup[0] == 1 && setup[1] == 11) {
        it.setting = setup[2];
        memset(it.toggle + 1, 0, 15);
        memset(it.out_toggle + 1, 0, 15);
    }
    if (setup[0] == 2 && setup[1] == 1) {
        *(setup[4] & 0x80 ? &it.toggle[setup[4] & 15] : &it.out_toggle[setup[4] & 15]) = false;
        it.is_halted = false;
    }
}

static void give(const struct usb_question *q, struct usb_answer *answer, const uint8_t *bytes, size_t length)
{
    answer->came = USB_DATA;
    answer->toggle = it.toggle[q->endpoint];
    answer->length = (uint8_t)length;
    if (length)
        memcpy(answer->data, bytes, length);
    it.toggle[q->endpoint] = !it.toggle[q->endpoint];
}

/* Whether it is the turn of a thing that comes at some attempt. */
static bool is_now(unsigned *at) { return *at && --*at == 0; }

static void answer_bulk(const struct usb_question *q, struct usb_answer *answer)
{
    uint8_t bulk[USB_PACKET];
    size_t length = is_now(&it.short_at) ? SHORT : sizeof bulk;
    it.is_halted = is_now(&it.halts_at) || it.is_halted;
    if (it.is_halted) {
        answer->came = USB_STALL;
    } else if (is_now(&it.naks_at)) {
        answer->came = USB_NAK;
    } else {
        for (size_t i = 0; i < length; i++)
            bulk[i] = byte_at(it.given++);
        give(q, answer, bulk, length);
    }
}

static void answer_in(const struct usb_question *q, struct usb_answer *answer)
{
    if (q->endpoint == 0 && refuses()) {
        answer->came = USB_STALL;
    } else if (q->endpoint == 0 && (it.setup[0] & 0x80)) {
        size_t length = it.left < q->most ? it.left : q->most;
        give(q, answer, it.data, length);
        it.data += length;
        it.left -= length;
    } else if (q->endpoint == 0) {
        give(q, answer, NULL, 0);
        end_request();
    } else if (q->endpoint == 1) {
        answer_bulk(q, answer);
    } else if (it.has_key) {
        give(q, answer, it.key, sizeof it.key);
        it.has_key = false;
    } else {
        answer->came = USB_NAK;
    }
}

static void attempt(struct usb_controller *of, const struct usb_question *q, struct usb_answer *answer)
{
    (void)of;
    attempts++;
    if (q->address != it.address || !(port & USB_STATUS_ENABLE))
        return;
    answer->came = USB_ACK;
    if (q->kind == USB_SETUP) {
        take_setup(q->data);
    } else if (q->kind == USB_IN) {
        answer->came = USB_NOTHING;
        answer_in(q, answer);
    } else if (q->endpoint == 0 && q->length) {
        memcpy(it.wrote + it.written, q->data, q->length);
        it.written += q->length;
    } else if (q->endpoint == 2 && it.out_toggle[2] == ((q->flags & USB_DATA1) != 0)) {
        memcpy(it.took + it.taken, q->data, q->length);
        it.taken += q->length;
        it.out_toggle[2] = !it.out_toggle[2];
    }
}

static uint32_t status(struct usb_controller *of, unsigned number)
{
    (void)of;
    return number == 1 ? port : 0;
}

static void call_port(struct usb_controller *of, unsigned number, bool set, unsigned feature)
{
    (void)of;
    if (number != 1)
        return;
    if (feature == USB_PORT_POWER) {
        port = set ? USB_STATUS_POWER | USB_STATUS_CONNECTION | USB_CHANGED_CONNECTION : 0;
    } else if (set && feature == USB_PORT_RESET) {
        port |= USB_STATUS_ENABLE | USB_CHANGED_RESET;
        it.address = 0;
        resets++;
    } else if (!set) {
        port &= ~(UINT32_C(1) << feature);
    }
}

static void restart(struct usb_controller *of, unsigned address, unsigned endpoint, bool is_in)
{
    (void)of;
    MUST(address == it.address && (is_in || endpoint == 2) && endpoint <= 3);
    restarts++;
}

/* The most attempts that the controller makes in a row. */
static unsigned row_most;

static unsigned make_row(struct usb_controller *of, const struct usb_question *q, uint8_t *room,
                         struct usb_answer *last)
{
    unsigned most = q->row < row_most ? q->row : row_most;
    bool is_one = (q->flags & USB_DATA1) != 0;
    struct usb_question one = *q;
    one.kind = USB_IN;
    MUST(q->row >= 1 && q->row <= USB_ROW && q->length == 0 && q->most == 64 && is_one == it.toggle[q->endpoint]);
    rows++;
    for (unsigned count = 0;; count++, is_one = !is_one) {
        memset(last, 0, sizeof *last);
        attempt(of, &one, last);
        if (count + 1 == most || last->came != USB_DATA || last->toggle != is_one || last->length != q->most)
            return count;
        memcpy(room + count * q->most, last->data, q->most);
    }
}

static struct usb_controller controller = { 2, attempt, status, call_port, restart, NULL };

/* The device as it is at first, at a controller that makes rows of at most this number of attempts; 0: no rows. */
static void begin_device(unsigned most)
{
    memset(&it, 0, sizeof it);
    port = 0;
    attempts = resets = restarts = rows = 0;
    row_most = most;
    controller.ins = most ? make_row : NULL;
}

/* ---- What is reported ---- */

struct seen {
    unsigned devices, configurations, texts, refused, left, arrived;
    uint64_t number;
};

static void see_device(void *context, const struct usb_device *device)
{
    struct seen *seen = context;
    MUST(device->path.length == 1 && device->path.ports[0] == 1 && device->path.ports[1] == 0);
    MUST(device->address == 1 && !device->is_low && device->chosen == 0 && device->ports == 0);
    MUST(memcmp(device->descriptor, descriptor, sizeof descriptor) == 0);
    seen->number = device->number;
    seen->devices++;
}

static void see_configuration(void *context, const struct usb_device *device, unsigned index, const uint8_t *bytes,
                              size_t length)
{
    MUST(device->address == 1 && index == 0 && length == sizeof configuration);
    MUST(memcmp(bytes, configuration, length) == 0);
    ((struct seen *)context)->configurations++;
}

static void see_text(void *context, const struct usb_device *device, enum usb_text which, const uint8_t *utf16le,
                     size_t length)
{
    MUST(device->address == 1 && which == USB_PRODUCT && length == 4 && memcmp(utf16le, product + 2, 4) == 0);
    ((struct seen *)context)->texts++;
}

static void see_refused(void *context, const struct usb_refused *refused)
{
    (void)refused;
    ((struct seen *)context)->refused++;
}

/* ---- With blocking ---- */

static struct usb_host host;
static unsigned refusals;

/* Makes a call, again as long as there is no memory, and says what it must return. */
static bool is_refused(enum usb_status it)
{
    refusals += it == USB_NO_MEMORY;
    return it == USB_NO_MEMORY;
}

#define MAKE(wanted, call)                                                                                             \
    do {                                                                                                               \
        enum usb_status now_;                                                                                          \
        do                                                                                                             \
            now_ = (call);                                                                                             \
        while (is_refused(now_));                                                                                      \
        MUST(now_ == (wanted));                                                                                        \
    } while (0)

static const struct usb_path at = { 1, { 1 } }, nowhere = { 1, { 2 } }, far_away = { 2, { 1, 5 } };

/* What is listed: the device as it is, or nothing. */
static uint64_t check_tree(unsigned devices)
{
    struct seen seen = { 0 };
    struct usb_visitor visitor = { see_device, see_configuration, see_text, see_refused, &seen };
    MAKE(USB_DONE, usb_tree(&host, &visitor));
    MUST(seen.devices == devices && seen.configurations == devices && seen.texts == devices && seen.refused == 0);
    return seen.number;
}

static void check_news(bool has_arrived, uint64_t number)
{
    struct usb_news news;
    MAKE(USB_DONE, usb_news(&host, &news));
    MUST(news.has_arrived == has_arrived && news.path.length == 1 && news.path.ports[0] == 1);
    MUST(!has_arrived || news.number == number);
}

static void check_bulk(void)
{
    static uint8_t room[64 * 20];
    size_t got;
    MAKE(USB_DONE, usb_receive(&host, at, room, sizeof room, 20, &got));
    MUST(got == sizeof room && it.given == got);
    for (size_t i = 0; i < got; i++)
        MUST(room[i] == byte_at(i));
    MAKE(USB_DONE, usb_send(&host, at, room, 500));
    MAKE(USB_DONE, usb_send_to(&host, at, 0x02, room + 500, 65));
    MAKE(USB_DONE, usb_send(&host, at, NULL, 0));
    MUST(it.taken == 565 && memcmp(it.took, room, 565) == 0);
    MAKE(USB_DONE, usb_receive_from(&host, at, 0x81, room, sizeof room, 0, &got));
    MUST(got == 0);
    size_t before = it.given;
    room[100] = 0x5A;
    MAKE(USB_NO_ROOM, usb_receive_from(&host, at, 0x81, room, 100, 2, &got));
    MUST(got == 128 && room[99] == byte_at(before + 99) && room[100] == 0x5A);
    MUST(usb_received(&host, room, sizeof room, &got) == USB_DONE && got == 128 && room[127] == byte_at(before + 127));
    it.is_halted = true;
    MAKE(USB_STALLED, usb_receive(&host, at, room, sizeof room, 1, &got));
    MAKE(USB_DONE, usb_clear_halt(&host, at));
    MAKE(USB_DONE, usb_receive(&host, at, room, sizeof room, 1, &got));
    MAKE(USB_DONE, usb_clear_halt_of(&host, at, 0x81));
    MAKE(USB_DONE, usb_receive(&host, at, room, sizeof room, 1, &got));
    MUST(got == 64);
}

/* Packets of which one is short, one was answered by NAK, and one by STALL, over more than one row. */
static void check_rows(void)
{
    static uint8_t room[64 * 70];
    size_t got, first = it.given;
    unsigned before = rows, whole = row_most ? (20 + row_most - 1) / row_most : 0;
    MAKE(USB_DONE, usb_receive(&host, at, room, sizeof room, 20, &got));
    MUST(got == 1280 && rows == before + whole);
    it.short_at = 6;
    MAKE(USB_DONE, usb_receive(&host, at, room, sizeof room, 70, &got));
    MUST(got == 5 * 64 + SHORT && it.given == first + 1280 + got);
    for (size_t i = 0; i < got; i++)
        MUST(room[i] == byte_at(first + 1280 + i));
    first = it.given;
    it.naks_at = 4;
    MAKE(USB_DONE, usb_receive(&host, at, room, sizeof room, 70, &got));
    MUST(got == sizeof room && it.given == first + got);
    for (size_t i = 0; i < got; i++)
        MUST(room[i] == byte_at(first + i));
    it.halts_at = 66;
    MAKE(USB_STALLED, usb_receive(&host, at, room, sizeof room, 70, &got));
    MUST(got == 0);
    MAKE(USB_DONE, usb_clear_halt(&host, at));
}

static void check_others(void)
{
    uint8_t room[64];
    size_t got;
    MAKE(USB_QUIET, usb_poll(&host, at, 0x83, room, &got));
    MUST(got == 0);
    memcpy(it.key, "pressed!", 8);
    it.has_key = true;
    MAKE(USB_DONE, usb_poll(&host, at, 0x83, room, &got));
    MUST(got == 8 && memcmp(room, "pressed!", 8) == 0);
    struct usb_setup write = { 0x41, 7, 1, 2, 12 }, read = { 0xC1, 1, 3, 4, 12 }, refused = { 0xC1, 2, 0, 0, 1 };
    struct usb_setup address = { 0, 5, 9, 0, 0 };
    MAKE(USB_DONE, usb_control_out(&host, at, &write, "twelve bytes"));
    MUST(it.setup[0] == 0x41 && it.setup[2] == 1 && it.setup[4] == 2 && it.setup[6] == 12);
    MAKE(USB_DONE, usb_control_in(&host, at, &read, room, &got));
    MUST(got == 12 && memcmp(room, "twelve bytes", 12) == 0);
    MAKE(USB_STALLED, usb_control_in(&host, at, &refused, room, &got));
    MAKE(USB_RESERVED, usb_control_out(&host, at, &address, NULL));
    MAKE(USB_DONE, usb_set_interface(&host, at, 0, 1));
    MUST(it.setting == 1 && restarts == 1);
    MAKE(USB_NO_ENDPOINT, usb_poll(&host, at, 0x83, room, &got));
    MAKE(USB_DONE, usb_set_interface(&host, at, 0, 0));
    MUST(it.setting == 0 && restarts == 4);
    MAKE(USB_QUIET, usb_poll(&host, at, 0x83, room, &got));
}

static void check_refusals(void)
{
    uint8_t room[64];
    struct usb_look look;
    size_t got = 1;
    unsigned before = attempts;
    MAKE(USB_NO_DEVICE, usb_receive(&host, nowhere, room, sizeof room, 1, &got));
    MUST(got == 0);
    MAKE(USB_NO_DEVICE, usb_send(&host, far_away, room, 1));
    MAKE(USB_NO_PORT, usb_look(&host, far_away, &look));
    MAKE(USB_NO_INTERFACE, usb_set_interface(&host, at, 0, 7));
    MAKE(USB_NO_ENDPOINT, usb_send_to(&host, at, 0x01, room, 1));
    MAKE(USB_BAD_VALUE, usb_send_to(&host, at, 0x80, room, 1));
    MAKE(USB_BAD_VALUE, usb_send(&host, usb_path_of("1..2"), room, 1));
    MAKE(USB_BAD_VALUE, usb_control_in(&host, at, &(struct usb_setup) { 0x21, 10, 0, 0, 0 }, room, &got));
    MAKE(USB_WRONG_LENGTH, usb_receive(&host, at, room, sizeof room, 65536, &got));
    MUST(attempts == before);
}

static void check_looks(uint64_t number)
{
    struct usb_look look;
    struct usb_news news;
    MAKE(USB_DONE, usb_look(&host, at, &look));
    MUST(look.found == USB_ACCEPTED && resets == 2);
    uint64_t again = check_tree(1);
    MUST(again != number);
    check_news(false, number);
    check_news(true, again);
    MAKE(USB_DONE, usb_look(&host, nowhere, &look));
    MUST(look.found == USB_EMPTY);
    port = USB_STATUS_POWER | USB_CHANGED_CONNECTION; /* it is unplugged */
    MAKE(USB_DONE, usb_settle(&host));
    check_tree(0);
    check_news(false, again);
    MAKE(USB_QUIET, usb_news(&host, &news));
}

/* A device that has one byte more than the options allow is refused, and one that has the same number is not. */
static void check_budget(void)
{
    struct usb_options fits = { false, sizeof configuration }, fails = { false, sizeof configuration - 1 };
    struct usb_look look;
    MAKE(USB_DONE, usb_open(&host, &controller, &fails));
    MAKE(USB_DONE, usb_settle(&host));
    MAKE(USB_DONE, usb_look(&host, at, &look));
    MUST(look.found == USB_REFUSED && look.cause == USB_CAUSE_TOO_LARGE && look.of == 0);
    MUST(usb_close(&host) == USB_DONE && heap_blocks == 0);
    MAKE(USB_DONE, usb_open(&host, &controller, &fits));
    MAKE(USB_DONE, usb_settle(&host));
    check_tree(1);
    MUST(usb_close(&host) == USB_DONE && heap_blocks == 0);
}

/* Opens a host, and receives from the device. */
static void check_received(unsigned most)
{
    begin_device(most);
    MAKE(USB_DONE, usb_open(&host, &controller, NULL));
    MAKE(USB_DONE, usb_settle(&host));
    check_rows();
    MUST(usb_close(&host) == USB_DONE && heap_blocks == 0);
}

/* Returns the number of attempts. */
static unsigned check_blocking(unsigned most)
{
    struct usb_news news;
    begin_device(most);
    check_budget();
    begin_device(most);
    MAKE(USB_DONE, usb_open(&host, &controller, NULL));
    MAKE(USB_DONE, usb_round(&host));
    MAKE(USB_QUIET, usb_round(&host));
    MAKE(USB_DONE, usb_settle(&host));
    uint64_t number = check_tree(1);
    check_news(true, number);
    MAKE(USB_QUIET, usb_news(&host, &news));
    check_bulk();
    check_rows();
    check_others();
    check_refusals();
    check_looks(number);
    MUST(usb_close(&host) == USB_DONE && usb_close(&host) == USB_CLOSED && usb_round(&host) == USB_CLOSED);
    MUST(heap_blocks == 0);
    return attempts;
}

/* ---- With no blocking ---- */

static uint8_t row_room[(USB_ROW + 1) * USB_PACKET];

/* Answers what is asked until nothing is. */
static unsigned answer_all(void)
{
    struct usb_question asked;
    uint32_t statuses[USB_ROOTS] = { 0 };
    unsigned questions = 0;
    enum usb_status status;
    for (;; questions++) {
        do
            status = usb_asked(&host, &asked);
        while (is_refused(status));
        if (status == USB_QUIET)
            return questions;
        MUST(status == USB_DONE);
        struct usb_answer answer = { 0 }, long_one = { USB_DATA, 0, USB_PACKET + 1, { 0 } };
        size_t before = 0;
        bool is_row = asked.kind == USB_INS;
        if (asked.kind == USB_PORT_SET || asked.kind == USB_PORT_CLEAR)
            call_port(&controller, asked.address, asked.kind == USB_PORT_SET, asked.endpoint);
        else if (is_row)
            before = (size_t)make_row(&controller, &asked, row_room, &answer) * asked.most;
        else
            attempt(&controller, &asked, &answer);
        statuses[0] = port;
        MUST(usb_answer(&host, &long_one, statuses) == USB_TOO_MUCH);
        MUST(is_row || usb_answer_row(&host, row_room, 64, &answer, statuses) == USB_OUT_OF_TURN);
        MUST(!is_row || usb_answer_row(&host, row_room, asked.most - 1u, &answer, statuses) == USB_WRONG_LENGTH);
        MUST(!is_row || usb_answer_row(&host, row_room, 64u * asked.row, &answer, statuses) == USB_TOO_MUCH);
        MUST(usb_answer_row(&host, row_room, 64, &long_one, statuses) == USB_TOO_MUCH);
        MAKE(USB_DONE, usb_answer_row(&host, row_room, before, &answer, statuses));
        MUST(usb_answer(&host, &answer, statuses) == USB_OUT_OF_TURN);
        MUST(usb_answer_row(&host, row_room, 64, &answer, statuses) == USB_OUT_OF_TURN);
    }
}

static void check_stepped(unsigned most)
{
    uint32_t statuses[USB_ROOTS] = { 0 };
    struct usb_want round = { .kind = USB_WANT_ROUND }, list = { .kind = USB_WANT_TREE }, none = { .kind = 0 };
    struct seen seen = { 0 };
    struct usb_visitor visitor = { see_device, see_configuration, see_text, see_refused, &seen };
    struct usb_want receive = { .kind = USB_WANT_RECEIVE, .path = at, .packets = 130 };
    static uint8_t room[64 * 130];
    size_t got;
    begin_device(most);
    MUST(usb_start(&host, 0, NULL, statuses) == USB_BAD_ROOTS && usb_start(&host, 8, NULL, statuses) == USB_BAD_ROOTS);
    MAKE(USB_DONE, usb_start(&host, 1, NULL, statuses));
    MUST(usb_done(&host) == USB_OUT_OF_TURN && usb_begin(&host, &round, statuses) == USB_OUT_OF_TURN);
    MUST(answer_all() == 2 && usb_done(&host) == USB_DONE && port == 0x00010101);
    statuses[0] = port;
    MAKE(USB_DONE, usb_begin(&host, &round, statuses));
    MUST(answer_all() == attempts + 3 && usb_done(&host) == USB_DONE && it.address == 1);
    statuses[0] = port;
    MAKE(USB_DONE, usb_begin(&host, &round, statuses));
    MUST(answer_all() == 0 && usb_done(&host) == USB_QUIET);
    MAKE(USB_UNKNOWN, usb_begin(&host, &none, statuses));
    MAKE(USB_DONE, usb_begin(&host, &list, statuses));
    MUST(answer_all() == 0 && usb_done(&host) == USB_DONE);
    MAKE(USB_DONE, usb_listed(&host, &visitor));
    MUST(seen.devices == 1 && usb_round(&host) == USB_OUT_OF_TURN);
    MAKE(USB_DONE, usb_begin(&host, &receive, statuses));
    MUST(answer_all() == (most < USB_ROW ? (64 + most - 1) / most * 2 + (2 + most - 1) / most : 3));
    MAKE(USB_DONE, usb_received(&host, room, sizeof room, &got));
    for (size_t i = 0; i < got; i++)
        MUST(got == sizeof room && room[i] == byte_at(i));
    MAKE(USB_DONE, usb_begin(&host, &round, statuses));
    MUST(usb_close(&host) == USB_DONE && heap_blocks == 0);
}

static void check_paths(void)
{
    static const char *const good[] = { "1", "1.12.3", "7.15.15.15.15.15.15", "255" };
    static const char *const bad[] = { "", "0", "1.", ".1", "1..2", "256", "1.2.3.4.5.6.7.8", "1 ", "a", "-1" };
    char text[USB_PATH_TEXT];
    for (size_t i = 0; i < sizeof good / sizeof *good; i++) {
        struct usb_path path = usb_path_of(good[i]);
        MUST(usb_path_text(&path, text) == strlen(good[i]) && strcmp(text, good[i]) == 0);
    }
    for (size_t i = 0; i < sizeof bad / sizeof *bad; i++)
        MUST(usb_path_of(bad[i]).length == 0);
    MUST(strcmp(usb_status_text(USB_CLOSED), "closed") == 0
         && strcmp(usb_status_text(USB_NO_INTERFACE), "no interface") == 0);
    MUST(strcmp(usb_status_text((enum usb_status)39), "?") == 0
         && strcmp(usb_status_text(USB_RESTLESS), "restless") == 0);
    MUST(strcmp(usb_cause_text(USB_CAUSE_NO_ADDRESS), "no address") == 0);
}

/* ---- What it costs ---- */

struct cost {
    unsigned packets;
    bool has_rows;
    double ns;
    size_t heap;
};

static struct cost costs[16];
static unsigned cost_count, enumerated;
static size_t kept, most;

/* What an attempt costs in calls of this number of packets, in rows or not. */
static void measure(unsigned packets, bool has_rows)
{
    static uint8_t room[64 * 4096];
    unsigned before = attempts;
    size_t got;
    heap_most = heap_bytes;
    clock_t from = clock();
    for (unsigned turns = 4096 / packets; turns > 0; turns--)
        MUST(usb_receive(&host, at, room, sizeof room, packets, &got) == USB_DONE && got == 64u * packets);
    double seconds = (double)(clock() - from) / CLOCKS_PER_SEC;
    costs[cost_count++] = (struct cost) { packets, has_rows, 1e9 * seconds / (attempts - before), heap_most };
}

static void *measure_all(void *none)
{
    for (unsigned row = 0; row <= USB_ROW; row += USB_ROW) {
        begin_device(row);
        heap_most = heap_bytes;
        MUST(usb_open(&host, &controller, NULL) == USB_DONE && usb_settle(&host) == USB_DONE);
        enumerated = attempts;
        kept = heap_bytes;
        most = heap_most;
        for (unsigned packets = 1; packets <= 4096; packets *= 4)
            measure(packets, row != 0);
        MUST(usb_close(&host) == USB_DONE && heap_blocks == 0);
    }
    return none;
}

/* Measures on a stack of its own, and finds how much of it was used. */
static void show_costs(void)
{
    enum { STACK = 256 * 1024 };
    static _Alignas(4096) uint8_t stack[STACK];
    pthread_attr_t attributes;
    pthread_t thread;
    size_t unused = 0;
    memset(stack, 0xA5, sizeof stack);
    MUST(!pthread_attr_init(&attributes) && !pthread_attr_setstack(&attributes, stack, sizeof stack));
    MUST(!pthread_create(&thread, &attributes, measure_all, NULL) && !pthread_join(thread, NULL));
    while (stack[unused] == 0xA5)
        unused++;
    printf("enumeration: %u attempts, %zu bytes of heap at most, %zu after it\n", enumerated, most, kept);
    for (unsigned i = 0; i < cost_count; i++)
        printf("receive, %u packets a call, %s: %.0f ns an attempt, %zu bytes of heap at most\n", costs[i].packets,
               costs[i].has_rows ? "in rows" : "one by one", costs[i].ns, costs[i].heap);
    printf("stack: %zu bytes, with that of the C library to begin a thread\n", sizeof stack - unused);
}

static void check_all(void)
{
    check_blocking(0);
    check_stepped(1);
}

static void check_whole_rows(void) { check_received(USB_ROW); }

static void check_cut_rows(void) { check_received(3); }

/* Makes these calls once more for each allocation, which then fails. Returns the number of allocations. */
static long check_each(void (*make_calls)(void))
{
    heap_calls = heap_fails_at = 0;
    make_calls();
    long calls = heap_calls;
    for (long fails = 1; fails <= calls; fails++) {
        heap_calls = 0;
        heap_fails_at = fails;
        make_calls();
    }
    heap_fails_at = 0;
    return calls;
}

int main(int words, char **word)
{
    static const unsigned mosts[] = { USB_ROW, 3, 1 }; /* attempts in a row at most */
    check_paths();
    unsigned made = check_blocking(0);
    for (size_t i = 0; i < sizeof mosts / sizeof *mosts; i++) {
        MUST(check_blocking(mosts[i]) == made);
        check_stepped(mosts[i]);
    }
    long calls = check_each(check_all) + check_each(check_whole_rows) + check_each(check_cut_rows);
    MUST(refusals > 0 && refusals <= (unsigned long)calls);
    printf("each call did what it must; each of %ld allocations failed once, %u calls had no memory\n", calls,
           refusals);
    if (words > 1 && strcmp(word[1], "--times") == 0)
        show_costs();
    return 0;
}
