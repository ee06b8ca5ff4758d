/* The host in C before a controller program of docs/output/live.md. It reports what `usbplan live` reports, apart from the
 * power that a hub's ports give.
 *
 * usage: far PROGRAM ARGUMENT ..      as far usbplan far PLAN
 *        far PLAN                     compiled with LINKED: the devices of usb_devices.h, in the same process
 *
 * With WIDE_HUBS in the environment the host takes wide hubs. With ROWS the controller makes rows of packets.
 */
#define _POSIX_C_SOURCE 200809L
#include <stdio.h>
#include <stdlib.h>
#include <string.h>
#include <unistd.h>

#include "usb_host.h"

enum { LONGEST = 1024, BYTES = 65536 };

static uint32_t statuses[USB_ROOTS + 1];
static char line[LONGEST + 2];

/* ---- Lines ---- */

#ifdef LINKED
#include "usb_devices.h"

static struct usb_devices devices;

static bool start(char **words)
{
    static char plan[1 << 20];
    FILE *file = fopen(words[0], "rb");
    size_t length = file ? fread(plan, 1, sizeof plan, file) : 0;
    return file && !fclose(file) && usb_devices_open(&devices, plan, length) == USB_DEVICES_DONE;
}

static bool put_line(void)
{
    strcat(line, "\n");
    return usb_devices_ask(&devices, line, strlen(line)) == USB_DEVICES_DONE;
}

/* Takes the next line, byte by byte. */
static bool get_line(void)
{
    for (size_t length = 0; length + 1 < sizeof line && usb_devices_said(&devices, line + length, 1) == 1; length++)
        if (line[length] == '\n') {
            line[length] = '\0';
            return true;
        }
    return false;
}
#else
static FILE *to, *from;

static bool start(char **words)
{
    int out[2], in[2];
    if (pipe(out) || pipe(in))
        return false;
    if (fork() == 0) {
        dup2(out[0], 0);
        dup2(in[1], 1);
        for (int i = 0; i < 2; i++) {
            close(out[i]);
            close(in[i]);
        }
        execv(words[0], words);
        _exit(127);
    }
    close(out[0]);
    close(in[1]);
    to = fdopen(out[1], "w");
    from = fdopen(in[0], "r");
    return to && from;
}

static bool put_line(void)
{
    return fprintf(to, "%s\n", line) > 0 && !fflush(to);
}

static bool get_line(void)
{
    if (!fgets(line, sizeof line, from))
        return false;
    line[strcspn(line, "\n")] = '\0';
    return true;
}
#endif

/* Writes the line, and reads its answer after the statuses before it. */
static const char *ask(void)
{
    if (!put_line())
        return "end";
    while (get_line()) {
        unsigned number, byte[4];
        if (sscanf(line, "port %u %2x%2x%2x%2x", &number, byte, byte + 1, byte + 2, byte + 3) != 5
            || number > USB_ROOTS)
            return line;
        statuses[number] = byte[0] | byte[1] << 8 | byte[2] << 16 | byte[3] << 24;
    }
    return "end";
}

static void put_hex(char *text, const uint8_t *bytes, size_t length)
{
    strcpy(text, length ? "" : "-");
    for (size_t i = 0; i < length; i++)
        text += sprintf(text, "%02X", bytes[i]);
}

static size_t get_hex(uint8_t *bytes, const char *text)
{
    size_t length = 0;
    for (unsigned byte; *text != '-' && sscanf(text, "%2x", &byte) == 1; text += 2)
        bytes[length++] = (uint8_t)byte;
    return length;
}

/* ---- The controller ---- */

static void attempt(struct usb_controller *of, const struct usb_question *q, struct usb_answer *answer)
{
    const char *speed = q->flags & USB_PRE ? "PRE " : q->flags & USB_LOW ? "low " : "";
    const char *kind = q->kind == USB_SETUP ? "SETUP" : q->kind == USB_OUT ? "OUT" : "IN";
    char *text = line + sprintf(line, "%s%s %d.%d ", speed, kind, q->address, q->endpoint);
    (void)of;
    if (q->kind == USB_IN) {
        sprintf(text, "%d", q->most);
    } else {
        text += sprintf(text, "/ %sDATA%d ", q->flags & USB_PRE ? "PRE " : "", q->flags & USB_DATA1 ? 1 : 0);
        put_hex(text, q->data, q->length);
    }
    const char *came = ask();
    if (!strncmp(came, "DATA", 4)) {
        answer->came = USB_DATA;
        answer->toggle = came[4] == '1';
        answer->length = (uint8_t)get_hex(answer->data, came + 6);
    } else {
        answer->came = !strcmp(came, "ACK") ? USB_ACK
            : !strcmp(came, "NAK")          ? USB_NAK
            : !strcmp(came, "STALL")        ? USB_STALL
                                            : USB_NOTHING;
    }
}

/* Makes a row of all its packets, one by one. */
static unsigned make_row(struct usb_controller *of, const struct usb_question *q, uint8_t *room,
                         struct usb_answer *last)
{
    struct usb_question one = *q;
    bool is_one = (q->flags & USB_DATA1) != 0;
    one.kind = USB_IN;
    for (unsigned count = 0;; count++, is_one = !is_one) {
        attempt(of, &one, last);
        if (count + 1 == q->row || last->came != USB_DATA || last->toggle != is_one || last->length != q->most)
            return count;
        memcpy(room + count * q->most, last->data, q->most);
    }
}

static uint32_t status(struct usb_controller *of, unsigned port)
{
    (void)of;
    return statuses[port];
}

static void call_port(struct usb_controller *of, unsigned port, bool set, unsigned feature)
{
    static const char *const names[] = {
        [USB_PORT_ENABLE] = "PORT_ENABLE",     [USB_PORT_RESET] = "PORT_RESET",
        [USB_PORT_POWER] = "PORT_POWER",       [USB_C_PORT_CONNECTION] = "C_PORT_CONNECTION",
        [USB_C_PORT_ENABLE] = "C_PORT_ENABLE", [USB_C_PORT_RESET] = "C_PORT_RESET"
    };
    (void)of;
    sprintf(line, "port %u %s %s", port, set ? "set" : "clear", names[feature]);
    ask();
}

static void restart(struct usb_controller *of, unsigned address, unsigned endpoint, bool is_in)
{
    (void)of;
    sprintf(line, "restart %u.%u %s", address, endpoint, is_in ? "in" : "out");
    ask();
}

/* ---- What is reported ---- */

/* The device that was listed last, whose line of a hub comes after its configurations. */
static struct usb_device last;
static char path[USB_PATH_TEXT];

static void show_ports(void)
{
    if (last.ports)
        printf("%s hub %d ports\n", path, last.ports);
    last.ports = 0;
}

static void show_device(void *context, const struct usb_device *it)
{
    char text[64];
    (void)context;
    show_ports();
    last = *it;
    usb_path_text(&it->path, path);
    put_hex(text, it->descriptor, sizeof it->descriptor);
    printf("%s address %d %s %s\n", path, it->address, it->is_low ? "low" : "full", text);
}

static void print_cause(enum usb_cause cause, uint8_t of)
{
    static const char *const requests[] = { "device", "address", "config", "set config" };
    printf("refused %s", usb_cause_text(cause));
    if (cause == USB_CAUSE_STALLED)
        printf(" %s", of < 4 ? requests[of] : "?");
    if (cause == USB_CAUSE_BAD_CONFIGURATION)
        printf(" %d", of);
    printf("\n");
}

static void show_refused(void *context, const struct usb_refused *it)
{
    (void)context;
    show_ports();
    usb_path_text(&it->path, path);
    printf("%s ", path);
    print_cause(it->cause, it->of);
}

static void show_configuration(void *context, const struct usb_device *it, unsigned index, const uint8_t *bytes,
                               size_t length)
{
    static char text[2 * BYTES + 2];
    (void)context;
    put_hex(text, bytes, length);
    printf("%s config %u %s%s\n", path, index, text, index == it->chosen ? " *" : "");
}

static void show_text(void *context, const struct usb_device *it, enum usb_text which, const uint8_t *utf16le,
                      size_t length)
{
    static const char *const names[] = { "manufacturer", "product", "serial" };
    (void)context;
    (void)it;
    show_ports();
    printf("%s %s \"", path, names[which]);
    for (size_t at = 0; at + 1 < length; at += 2) {
        unsigned unit = utf16le[at] | utf16le[at + 1] << 8;
        printf(unit >= 0x20 && unit <= 0x7E && unit != '"' && unit != '\\' ? "%c" : "\\u%04X", unit);
    }
    printf("\"\n");
}

static void show_news(struct usb_host *host)
{
    struct usb_news it;
    char text[USB_PATH_TEXT];
    printf("news\n");
    while (usb_news(host, &it) == USB_DONE) {
        usb_path_text(&it.path, text);
        printf("%s %s\n", it.has_arrived ? "arrived" : "left", text);
    }
    printf("end\n");
}

static void show_all(struct usb_host *host)
{
    static const struct usb_visitor visitor = { show_device, show_configuration, show_text, show_refused, NULL };
    static int number;
    printf("listing %d\n", ++number);
    usb_tree(host, &visitor);
    show_ports();
    printf("end\n");
}

/* ---- What is requested ---- */

static uint8_t bytes[BYTES];
static char text[2 * BYTES + 2];

static void end_line(enum usb_status done, const char *what)
{
    printf(done ? "failed %s\n" : *what ? "done %s\n" : "done\n", done ? usb_status_text(done) : what);
}

static void end_read(enum usb_status done, size_t got)
{
    put_hex(text, bytes, got);
    if (done == USB_QUIET)
        printf("nothing\n");
    else
        end_line(done, text);
}

static void end_write(enum usb_status done, size_t length)
{
    sprintf(text, "%zu", length);
    end_line(done, text);
}

/* A transfer with an endpoint: its words are the kind, the path, the endpoint and perhaps one more. */
static void transfer_of(struct usb_host *host, struct usb_path of, char **word)
{
    uint8_t endpoint = (uint8_t)strtoul(word[2], NULL, 16);
    size_t got = 0;
    printf("%s %s %s ", word[0], word[1], word[2]);
    if (!strcmp(word[0], "send")) {
        got = get_hex(bytes, word[3]);
        end_write(usb_send_to(host, of, endpoint, bytes, got), got);
    } else if (!strcmp(word[0], "receive")) {
        enum usb_status done = usb_receive_from(host, of, endpoint, bytes, BYTES, (unsigned)atoi(word[3]), &got);
        end_read(done, got);
    } else if (!strcmp(word[0], "interrupt")) {
        enum usb_status done = usb_poll(host, of, endpoint, bytes, &got);
        end_read(done, got);
    } else {
        end_line(usb_clear_halt_of(host, of, endpoint), "");
    }
}

/* A transfer with the first bulk endpoints. */
static void transfer(struct usb_host *host, struct usb_path of, char **word)
{
    size_t got = 0;
    printf("%s %s ", word[0], word[1]);
    if (!strcmp(word[0], "send")) {
        got = get_hex(bytes, word[2]);
        end_write(usb_send(host, of, bytes, got), got);
    } else if (!strcmp(word[0], "receive")) {
        enum usb_status done = usb_receive(host, of, bytes, BYTES, (unsigned)atoi(word[2]), &got);
        end_read(done, got);
    } else {
        end_line(usb_clear_halt(host, of), "");
    }
}

static void control(struct usb_host *host, struct usb_path of, char **word, int count)
{
    uint8_t at[8];
    size_t got = 0;
    get_hex(at, word[2]);
    struct usb_setup setup = { at[0], at[1], (uint16_t)(at[2] | at[3] << 8), (uint16_t)(at[4] | at[5] << 8),
                               (uint16_t)(at[6] | at[7] << 8) };
    bool is_in = at[0] & 0x80;
    printf("control %s %s ", word[1], is_in ? "in" : "out");
    if (is_in) {
        enum usb_status done = usb_control_in(host, of, &setup, bytes, &got);
        end_read(done, got);
    } else {
        got = count > 3 ? get_hex(bytes, word[3]) : 0;
        end_write(usb_control_out(host, of, &setup, bytes), got);
    }
}

static void look(struct usb_host *host, struct usb_path of, char **word)
{
    struct usb_look it;
    enum usb_status done = usb_look(host, of, &it);
    printf("look %s ", word[1]);
    if (done)
        end_line(done, "");
    else if (it.found == USB_REFUSED)
        print_cause(it.cause, it.of);
    else
        printf(it.found == USB_ACCEPTED ? "found\n" : "empty\n");
}

/* Does what a line requests. */
static void obey(struct usb_host *host, char *request)
{
    char *word[4] = { NULL };
    int count = 0;
    for (char *at = strtok(request, " "); at && count < 4; at = strtok(NULL, " "))
        word[count++] = at;
    if (!strcmp(word[0], "show")) {
        show_all(host);
    } else if (!strcmp(word[0], "news")) {
        show_news(host);
    } else if (count > 1) {
        struct usb_path of = usb_path_of(word[1]);
        bool has_endpoint = count == 4 || !strcmp(word[0], "interrupt") || (!strcmp(word[0], "clear") && count == 3);
        if (!strcmp(word[0], "control")) {
            control(host, of, word, count);
        } else if (!strcmp(word[0], "interface")) {
            printf("interface %s %s %s ", word[1], word[2], word[3]);
            end_line(usb_set_interface(host, of, (uint8_t)atoi(word[2]), (uint8_t)atoi(word[3])), "");
        } else if (!strcmp(word[0], "look")) {
            look(host, of, word);
        } else if (has_endpoint) {
            transfer_of(host, of, word);
        } else {
            transfer(host, of, word);
        }
    }
}

int main(int count, char **words)
{
    struct usb_controller controller = { 0, attempt, status, call_port, restart, getenv("ROWS") ? make_row : NULL };
    const struct usb_options options = { getenv("WIDE_HUBS") != NULL, USB_ANY_BYTES };
    struct usb_host host;
    if (count < 2 || !start(words + 1))
        return 2;
    strcpy(line, "usbplan live 1");
    if (sscanf(ask(), "roots %u", &controller.roots) != 1 || usb_open(&host, &controller, &options))
        return 1;
    for (;;) {
        enum usb_status settled = usb_settle(&host);
        if (settled != USB_DONE && settled != USB_RESTLESS)
            return fprintf(stderr, "%s\n", usb_status_text(settled)), 1;
        char wanted[sizeof line];
        strcpy(line, "wait");
        strcpy(wanted, ask());
        if (!strcmp(wanted, "end"))
            break;
        obey(&host, wanted);
    }
    show_all(&host);
    return usb_close(&host) ? 1 : 0;
}
