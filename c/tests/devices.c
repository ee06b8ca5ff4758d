/* The devices of usb_devices.h: each call and each fault, rooms of any size, and each allocation refused once. Reports
 * what a question costs.
 *
 * usage: devices [--times]      status 0: each call did what usb_devices.h says
 */
#define _POSIX_C_SOURCE 200809L
#include <pthread.h>
#include <stdio.h>
#include <stdlib.h>
#include <string.h>
#include <time.h>

#include "heap.h"
#include "usb_devices.h"

#define MUST(fact) \
    do { \
        if (!(fact)) { \
            printf("%s:%d: not so: %s\n", __FILE__, __LINE__, #fact); \
            exit(1); \
        } \
    } while (0)

/* A device that gives bytes at bulk IN 1, 64 to a packet, and one that sends too much. */
#define PLAN(limit, event) \
    "limit = " limit "\nroots = 1\nevent = [{ do = \"plug\", path = \"1\", device = \"scale\" }" event "]\n" \
    "[[device]]\nname = \"scale\"\nspeed = \"full\"\n" \
    "descriptor = \"120100020000004034127856000100000001\"\n" \
    "configs = [\"0902190001010080320904000001FF0000000705810240000A\"]\n" \
    "source = \"00010203040506070809\"\n"
static const char plan[] = PLAN("10000000", "");
static const char short_plan[] = PLAN("1", "");

#define START "usbplan live 1\nport 1 set PORT_POWER\nwait\nport 1 set PORT_RESET\n"
#define STARTED "roots 1 2\nport 1 00010000\nok\nport 1 01010100\nok\nport 1 03011100\nok\n"
static const char course[] = START "SETUP 0.0 / DATA0 8006000100001200\nIN 0.0 64\nlisting 1\n1 refused lost\nend\nwait\n";
static const char answers[] = STARTED "ACK\nDATA1 120100020000004034127856000100000001\nend\n";

static struct usb_devices it;

static uint8_t opened(const char *text) { return usb_devices_open(&it, text, strlen(text)); }

static uint8_t asked(const char *lines) { return usb_devices_ask(&it, lines, strlen(lines)); }

/* Whether these bytes wait, which are fetched by rooms of that size; nothing else may be written. */
static bool said(const char *wanted, size_t size)
{
    char room[256];
    for (size_t left = strlen(wanted);; left -= size < left ? size : left) {
        memset(room, '?', sizeof room);
        size_t count = usb_devices_said(&it, room, size);
        if (count != (size < left ? size : left) || memcmp(room, wanted, count) != 0)
            return false;
        for (size_t i = count; i < sizeof room; i++)
            if (room[i] != '?')
                return false;
        wanted += count;
        if (count == 0)
            return left == 0;
    }
}

/* ---- What each call does ---- */

static void check_handle(void)
{
    char room[1];
    MUST(usb_devices_close(&it) == USB_DEVICES_CLOSED && asked("wait\n") == USB_DEVICES_CLOSED);
    MUST(usb_devices_said(&it, room, sizeof room) == 0);
    MUST(opened("\xC0") == USB_DEVICES_NO_TEXT && opened("limit = [") == USB_DEVICES_NO_PLAN);
    MUST(opened("") == USB_DEVICES_NO_PLAN && usb_devices_close(&it) == USB_DEVICES_CLOSED && heap_blocks == 0);
    MUST(opened(plan) == USB_DEVICES_DONE && opened(plan) == USB_DEVICES_OPEN && opened("") == USB_DEVICES_OPEN);
    MUST(usb_devices_close(&it) == USB_DEVICES_DONE && heap_blocks == 0);
}

static void check_rooms(void)
{
    for (size_t size = 1; size <= 256; size++) {
        MUST(opened(plan) == USB_DEVICES_DONE && said("", size) && asked("") == USB_DEVICES_DONE);
        MUST(asked(course) == USB_DEVICES_DONE && said(answers, size) && said("", size));
        MUST(usb_devices_close(&it) == USB_DEVICES_DONE && heap_blocks == 0);
    }
    MUST(opened(plan) == USB_DEVICES_DONE);
    for (const char *line = course; *line; line += strcspn(line, "\n") + 1)
        MUST(usb_devices_ask(&it, line, strcspn(line, "\n") + 1) == USB_DEVICES_DONE);
    MUST(said(answers, 7) && asked(START) == USB_DEVICES_NO_QUESTION);
    MUST(usb_devices_close(&it) == USB_DEVICES_DONE && heap_blocks == 0);
}

/* After good lines the fault of this one stays, and what was said before it waits. */
static void check_fault(const char *text, const char *line, uint8_t fault)
{
    MUST(opened(text) == USB_DEVICES_DONE && asked(START) == USB_DEVICES_DONE);
    MUST(asked(line) == fault && asked("wait\n") == fault && asked("") == fault && said(STARTED, 9));
    MUST(usb_devices_close(&it) == USB_DEVICES_DONE && heap_blocks == 0);
}

static void check_faults(void)
{
    static char send[2048], longest[1100];
    memset(longest, 'A', sizeof longest - 2);
    longest[sizeof longest - 2] = '\n';
    int length = sprintf(send, "%s", PLAN("100", ", { do = \"control\", path = \"1\", setup = \"210900020000E101\", bytes = \"@\" }"));
    char *at = strchr(send, '@');
    memmove(at + 962, at + 1, (size_t)(send + length - at));
    memset(at, 'A', 962);
    check_fault(plan, "wai\n", USB_DEVICES_NO_QUESTION);
    check_fault(plan, "usbplan live 1\n", USB_DEVICES_NO_QUESTION);
    check_fault(plan, "wait\t\n", USB_DEVICES_BAD_CHARACTER);
    check_fault(plan, "port 2 set PORT_RESET\nwait\n", USB_DEVICES_NO_PORT);
    check_fault(plan, "wait", USB_DEVICES_HALF_LINE);
    check_fault(plan, longest, USB_DEVICES_LONG_LINE);
    check_fault(send, "wait\n", USB_DEVICES_LONG_SEND);
    MUST(opened(short_plan) == USB_DEVICES_DONE && asked(START "IN 0.0 8\n") == USB_DEVICES_DONE);
    MUST(asked("IN 0.0 8\n") == USB_DEVICES_LIMIT && asked("wait\n") == USB_DEVICES_LIMIT);
    MUST(said(STARTED "none\n", 5) && usb_devices_close(&it) == USB_DEVICES_DONE && heap_blocks == 0);
}

/* Each allocation fails once: a handle that is not opened holds nothing, and one that asks stays at that. Returns their
 * number. */
static long check_memory(void)
{
    for (long call = 1;; call++) {
        heap_fails_at = heap_calls + call;
        uint8_t status = opened(plan);
        bool is_open = status == USB_DEVICES_DONE;
        MUST(is_open || (status == USB_DEVICES_NO_MEMORY && heap_blocks == 0));
        uint8_t of_course = is_open ? asked(course) : USB_DEVICES_CLOSED;
        MUST(!is_open || of_course == USB_DEVICES_DONE || of_course == USB_DEVICES_NO_MEMORY);
        MUST(of_course == USB_DEVICES_DONE ? said(answers, 256) : asked("wait\n") == of_course);
        MUST(usb_devices_close(&it) == (is_open ? USB_DEVICES_DONE : USB_DEVICES_CLOSED) && heap_blocks == 0);
        if (heap_calls < heap_fails_at) {
            heap_fails_at = 0;
            return call - 1;
        }
    }
}

/* ---- What a question costs ---- */

enum { QUESTIONS = 200000 };
static double cost;

static void *measure(void *none)
{
    struct timespec from, to;
    char room[256];
    MUST(opened(plan) == USB_DEVICES_DONE && asked(START) == USB_DEVICES_DONE && said(STARTED, 256));
    clock_gettime(CLOCK_MONOTONIC, &from);
    for (int i = 0; i < QUESTIONS; i++) {
        MUST(asked("SETUP 0.0 / DATA0 8006000100001200\n") == USB_DEVICES_DONE);
        MUST(usb_devices_said(&it, room, sizeof room) == 4 && memcmp(room, "ACK\n", 4) == 0);
    }
    clock_gettime(CLOCK_MONOTONIC, &to);
    cost = ((double)(to.tv_sec - from.tv_sec) * 1e9 + (double)(to.tv_nsec - from.tv_nsec)) / QUESTIONS;
    MUST(usb_devices_close(&it) == USB_DEVICES_DONE && heap_blocks == 0);
    return none;
}

/* Measures on a stack of its own, and finds how much of it was used. */
static void show_costs(void)
{
    enum { STACK = 1024 * 1024 };
    static _Alignas(4096) uint8_t stack[STACK];
    pthread_attr_t attributes;
    pthread_t thread;
    size_t unused = 0;
    memset(stack, 0xA5, sizeof stack);
    MUST(!pthread_attr_init(&attributes) && !pthread_attr_setstack(&attributes, stack, sizeof stack));
    MUST(!pthread_create(&thread, &attributes, measure, NULL) && !pthread_join(thread, NULL));
    while (stack[unused] == 0xA5)
        unused++;
    printf("a question: %.0f ns, and its answer fetched; %zu bytes of heap at most\n", cost, heap_most);
    printf("stack: %zu bytes, with that of the C library to begin a thread\n", sizeof stack - unused);
}

int main(int count, char **words)
{
    check_handle();
    check_rooms();
    check_faults();
    printf("%ld allocations refused, each once\n", check_memory());
    if (count > 1 && strcmp(words[1], "--times") == 0)
        show_costs();
    return 0;
}
