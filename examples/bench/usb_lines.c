/* usb_lines.c: see usb_lines.h. C11, and nothing beyond it. */
#include "usb_lines.h"

#include <stdarg.h>
#include <stdio.h>
#include <stdlib.h>
#include <string.h>

enum { ROOTS = 7, LINE = 1026 };

static char line[LINE]; /* a question, or the answer to it */
static size_t used;     /* the length of the question so far */
static struct usb_port ports[ROOTS + 1];

/* The two ends of the lines: standard output and input, or those of usb_linked.c, which includes this file. Each
 * returns whether it went well. A line has its newline, and `room` gets a zero after it. */
static bool put_line(const char *text, size_t length);
static bool get_line(char *room, size_t size);

#ifndef USB_LINKED
static bool put_line(const char *text, size_t length)
{
    return fwrite(text, 1, length, stdout) == length && fflush(stdout) == 0;
}

static bool get_line(char *room, size_t size)
{
    return fgets(room, (int)size, stdin) != NULL;
}
#endif

static void give_up(const char *why)
{
    fprintf(stderr, "usb_lines: %s\n", why);
    exit(4);
}

/* Adds words to the question, as printf does. */
static void add(const char *form, ...)
{
    va_list words;
    va_start(words, form);
    int count = vsnprintf(line + used, sizeof line - used, form, words);
    va_end(words);
    if (count < 0 || (size_t)count >= sizeof line - used)
        give_up("a question without room");
    used += (size_t)count;
}

/* Reads a line into `line`, without its newline. */
static void read_line(void)
{
    if (!get_line(line, sizeof line))
        give_up("the other side is gone");
    size_t length = strcspn(line, "\n");
    if (line[length] != '\n')
        give_up("a line without its end");
    line[length] = '\0';
}

/* Reads pairs of digits, or `-` for none. Returns how many bytes they are. */
static unsigned read_bytes(const char *text, uint8_t *bytes, unsigned most)
{
    unsigned size = 0;
    if (strcmp(text, "-") == 0)
        return 0;
    while (text[0] != '\0') {
        char pair[3] = {text[0], text[1], '\0'};
        char *end;
        unsigned long byte = strtoul(pair, &end, 16);
        if (end != pair + 2 || size == most)
            give_up("bad bytes in an answer");
        bytes[size++] = (uint8_t)byte;
        text += 2;
    }
    return size;
}

/* Reads the status of a root port: `port N HEX`. Returns whether the line is one. */
static bool read_port(void)
{
    uint8_t bytes[4];
    if (strncmp(line, "port ", 5) != 0)
        return false;
    if (line[5] < '1' || line[5] > '0' + ROOTS || line[6] != ' ' || read_bytes(line + 7, bytes, 4) != 4)
        give_up("a bad status of a port");
    ports[line[5] - '0'].status = (uint16_t)(bytes[0] | bytes[1] << 8);
    ports[line[5] - '0'].change = (uint16_t)(bytes[2] | bytes[3] << 8);
    return true;
}

/* Ends a question with its newline, and reads the answer into `line`. */
static void ask(void)
{
    add("\n");
    if (!put_line(line, used))
        give_up("the other side is gone");
    used = 0;
    do
        read_line();
    while (read_port());
}

unsigned usb_begin(void)
{
    add("usbplan live 1");
    ask();
    if (strncmp(line, "roots ", 6) != 0 || line[6] < '1' || line[6] > '0' + ROOTS)
        give_up("no number of root ports");
    if (line[7] != '\0' && strcmp(line + 7, " 2") != 0) /* version 2 answers rows, which are not asked here */
        give_up("another version");
    return (unsigned)(line[6] - '0');
}

static void write_packet(const struct usb_packet *packet)
{
    add(" DATA%u ", packet->toggle);
    if (packet->size == 0)
        add("-");
    for (unsigned i = 0; i < packet->size; i++)
        add("%02X", packet->bytes[i]);
}

static enum usb_outcome read_outcome(struct usb_packet *came)
{
    if (strncmp(line, "DATA", 4) == 0 && (line[4] == '0' || line[4] == '1') && line[5] == ' ') {
        came->toggle = (uint8_t)(line[4] - '0');
        came->size = (uint8_t)read_bytes(line + 6, came->bytes, sizeof came->bytes);
        return USB_DATA;
    }
    if (strcmp(line, "ACK") == 0)
        return USB_ACK;
    if (strcmp(line, "NAK") == 0)
        return USB_NAK;
    if (strcmp(line, "STALL") == 0)
        return USB_STALL;
    if (strcmp(line, "none") != 0)
        give_up("no answer to an attempt");
    return USB_NONE;
}

enum usb_outcome usb_attempt(enum usb_token token, struct usb_target to, struct usb_packet *packet)
{
    static const char *const lows[] = {"", "low ", "PRE "}, *const tokens[] = {"SETUP", "OUT", "IN"};
    add("%s%s %u.%u", lows[to.speed], tokens[token], to.address, to.endpoint);
    if (token == USB_IN) {
        add(" %u", to.most);
    } else {
        add(" /%s", to.speed == USB_LOW_BELOW_HUB ? " PRE" : "");
        write_packet(packet);
    }
    ask();
    return read_outcome(packet);
}

struct usb_port usb_port_status(unsigned port)
{
    return ports[port];
}

static void call_port(unsigned port, const char *call, const char *feature)
{
    add("port %u %s %s", port, call, feature);
    ask();
    if (strcmp(line, "ok") != 0)
        give_up("no answer to a call at a port");
}

void usb_port_set(unsigned port, const char *feature)
{
    call_port(port, "set", feature);
}

void usb_port_clear(unsigned port, const char *feature)
{
    call_port(port, "clear", feature);
}

enum usb_wanted usb_wait(void)
{
    add("wait");
    ask();
    if (strcmp(line, "ok") == 0)
        return USB_NOTHING;
    if (strcmp(line, "show") == 0)
        return USB_SHOW;
    return strcmp(line, "end") == 0 ? USB_END : USB_ASKED;
}

const char *usb_asked(void)
{
    return line;
}

void usb_report(const char *form, ...)
{
    va_list words;
    va_start(words, form);
    vprintf(form, words);
    va_end(words);
    if (putchar('\n') == EOF || fflush(stdout) != 0)
        give_up("the other side is gone");
}
