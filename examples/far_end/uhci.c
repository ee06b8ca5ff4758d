/* Drives a UHCI controller from user space: a far end for a host that speaks the lines of docs/output/live.md.
 *
 * usage: uhci       as root on Linux; the host's lines come on standard input, the answers go to standard output
 *
 * The first UHCI controller that no driver of the kernel has is taken. Each question is one transfer descriptor with
 * C_ERR = 1, so one attempt with no retry. All waits are made here. What is wanted is not: `wait` is answered by `ok`.
 * `examples/far_end/under_qemu` runs it in a virtual machine.
 *
 *     gcc -std=c11 -Wall -Wextra -O2 -static -o uhci uhci.c
 */
#define _GNU_SOURCE
#include <ctype.h>
#include <dirent.h>
#include <errno.h>
#include <fcntl.h>
#include <stdbool.h>
#include <stdint.h>
#include <stdio.h>
#include <stdlib.h>
#include <string.h>
#include <sys/io.h>
#include <sys/mman.h>
#include <time.h>
#include <unistd.h>

/* Registers of the controller, from its I/O base on, and their bits. */
enum { USBCMD = 0, USBSTS = 2, USBINTR = 4, FRNUM = 6, FRBASEADD = 8, SOFMOD = 12, PORTSC = 16 };
enum { RUN = 0x01, HCRESET = 0x02, CONFIGURED = 0x40, MAXP = 0x80, HALTED = 0x20, ALL_STATUS = 0x3F };
enum { CCS = 0x0001, CSC = 0x0002, PE = 0x0004, PEC = 0x0008, LSDA = 0x0100, PR = 0x0200 };

/* A transfer descriptor: the words that the controller reads, and bits of the second, which it writes. */
struct td { volatile uint32_t link, status, token, buffer; };
#define TERMINATE 1u
#define ACTIVE (1u << 23)
#define STALLED (1u << 22)
#define ERRORS (1u << 21 | 1u << 20 | 1u << 18 | 1u << 17) /* data buffer; babble; check or time-out; bit stuffing */
#define NAKED (1u << 19)
#define ONE_TRY (1u << 27)
#define LOW_SPEED (1u << 26)

/* Bits of wPortStatus, and of wPortChange above them (11.24.2.7). */
enum { CONNECTION = 0x0001, ENABLE = 0x0002, RESET = 0x0010, POWER = 0x0100, LOW = 0x0200, CHANGED = 16 };

enum { LONGEST = 1024, PACKET = 64, MOST_ROOTS = 7, PAGE = 4096 };
enum { SETUP = 0x2D, OUT = 0xE1, IN = 0x69 };
enum { NAK_FRAMES = 33, LAST_FRAME = 1000 }; /* 256 NAKs in a row take eight seconds, and no attempt more than one */
enum { RESET_MS = 50, RECOVERY_MS = 10, HUB_RESET_MS = 30, ADDRESS_MS = 10, WAIT_MS = 32 };

struct question { int pid, address, endpoint, length; bool low, toggle; }; /* an attempt; its bytes stand in `data` */
struct port { bool powered; uint32_t changes, told; }; /* changes: those that no register of the controller keeps */
struct device { uint8_t setup[8]; bool toggle[16]; };          /* the last SETUP, and what each IN awaits */

static int base, roots;
static int naks; /* how often in a row the question that is answered was answered by NAK */
static struct port ports[MOST_ROOTS + 1];
static struct device devices[128]; /* by address */
static uint32_t *frames;           /* a page: the frame list, each entry the queue */
static volatile uint32_t *queue;   /* another page: the queue head, its only descriptor, and the data */
static struct td *td;
static uint8_t *data;
static uint32_t queue_at;          /* the physical address of that page */
enum { TD_AT = 32, DATA_AT = 64 };

static void die(const char *what, const char *of)
{
    fprintf(stderr, "uhci: %s%s\n", what, of);
    exit(1);
}

static void pause_us(long us)
{
    struct timespec left = { us / 1000000, us % 1000000 * 1000 };
    while (nanosleep(&left, &left) && errno == EINTR)
        ;
}

static void pause_ms(long ms) { pause_us(ms * 1000); }

/* ---- memory and controller ---- */

static uint32_t physical(const void *page)
{
    uint64_t entry = 0;
    int map = open("/proc/self/pagemap", O_RDONLY);
    if (map < 0 || pread(map, &entry, 8, (uintptr_t)page / PAGE * 8) != 8 || !(entry >> 63))
        die("no physical address: ", strerror(errno));
    close(map);
    entry = (entry & ((1ull << 55) - 1)) * PAGE;
    if (!entry || entry >> 32)
        die("a page that the controller cannot reach", "");
    return (uint32_t)entry;
}

/* Two pages that stay where they are. */
static void take_memory(void)
{
    FILE *compact = fopen("/proc/sys/vm/compact_unevictable_allowed", "w"); /* no locked page is moved */
    if (compact && (fputs("0\n", compact) < 0 || fclose(compact)))
        die("locked pages may move: ", strerror(errno));
    uint8_t *pages = mmap(NULL, 2 * PAGE, PROT_READ | PROT_WRITE, MAP_PRIVATE | MAP_ANONYMOUS, -1, 0);
    if (pages == MAP_FAILED || mlock(pages, 2 * PAGE))
        die("no memory: ", strerror(errno));
    memset(pages, 0, 2 * PAGE);
    frames = (uint32_t *)pages;
    queue = (uint32_t *)(pages + PAGE);
    td = (struct td *)(pages + PAGE + TD_AT);
    data = pages + PAGE + DATA_AT;
    queue_at = physical(pages + PAGE);
    queue[0] = queue[1] = TERMINATE;
    for (int i = 0; i < PAGE / 4; i++)
        frames[i] = queue_at | 2; /* a queue head */
}

static bool is_free_uhci(const char *pci)
{
    char path[300], class[16] = "";
    snprintf(path, sizeof path, "/sys/bus/pci/devices/%s/class", pci);
    FILE *file = fopen(path, "r");
    bool is = file && fgets(class, sizeof class, file) && !strncmp(class, "0x0c0300", 8);
    if (file)
        fclose(file);
    snprintf(path, sizeof path, "/sys/bus/pci/devices/%s/driver", pci);
    return is && access(path, F_OK);
}

/* Makes the controller answer at its ports and reach memory; returns its I/O base, which is BAR 4. */
static int open_pci(const char *pci)
{
    char path[300];
    uint32_t bar = 0;
    uint16_t command = 0, legacy = 0x8F00; /* no emulation of a keyboard */
    snprintf(path, sizeof path, "/sys/bus/pci/devices/%s/config", pci);
    int config = open(path, O_RDWR);
    if (config < 0 || pread(config, &command, 2, 0x04) != 2 || pread(config, &bar, 4, 0x20) != 4)
        die("no configuration space: ", pci);
    command |= 0x0005; /* I/O space, bus master */
    if (pwrite(config, &command, 2, 0x04) != 2 || pwrite(config, &legacy, 2, 0xC0) != 2)
        die("configuration space cannot be written: ", pci);
    close(config);
    return bar & 0xFFE0;
}

static void find_controller(void)
{
    DIR *all = opendir("/sys/bus/pci/devices");
    for (struct dirent *it; all && !base && (it = readdir(all));)
        if (it->d_name[0] != '.' && is_free_uhci(it->d_name))
            base = open_pci(it->d_name);
    if (!base)
        die("no UHCI controller without a driver", "");
    if (ioperm((unsigned long)base, 32, 1))
        die("no I/O ports: ", strerror(errno));
    closedir(all);
}

static void start_controller(void)
{
    outw(HCRESET, base + USBCMD);
    pause_ms(10);
    if (inw(base + USBCMD) & HCRESET)
        die("the controller is not reset", "");
    outw(0, base + USBINTR);
    outw(ALL_STATUS, base + USBSTS);
    outw(0, base + FRNUM);
    outl(physical(frames), base + FRBASEADD);
    outw(RUN | CONFIGURED | MAXP, base + USBCMD);
    while (roots < MOST_ROOTS) { /* bit 7 of a port is always 1 */
        uint16_t now = inw(base + PORTSC + 2 * roots);
        if (!(now & 0x80) || now == 0xFFFF || PORTSC + 2 * roots >= 0x20)
            break;
        roots++;
    }
}

/* ---- attempts ---- */

static int frames_since(uint16_t first) { return (inw(base + FRNUM) - first) & 0x7FF; }

/* Makes one attempt and returns the descriptor's status. One that is answered by NAK stays ACTIVE: the controller asks
 * again in each frame. The first NAK is told at once; where the same question comes again behind it, a frame later each
 * time, up to NAK_FRAMES. */
static uint32_t attempt(const struct question *it)
{
    td->link = TERMINATE;
    td->token = (uint32_t)((it->length - 1) & 0x7FF) << 21 | (uint32_t)it->toggle << 19 | (uint32_t)it->endpoint << 15
        | (uint32_t)it->address << 8 | (uint32_t)it->pid;
    td->buffer = queue_at + DATA_AT;
    td->status = ACTIVE | ONE_TRY | (it->low ? LOW_SPEED : 0);
    __sync_synchronize();
    queue[1] = queue_at + TD_AT;
    uint16_t first = inw(base + FRNUM);
    for (int asked = 0; td->status & ACTIVE; asked = frames_since(first)) {
        if (asked > LAST_FRAME || ((td->status & NAKED) && asked >= (naks + 1 < NAK_FRAMES ? naks + 1 : NAK_FRAMES)))
            break;
        pause_us(100);
    }
    queue[1] = TERMINATE;
    __sync_synchronize();
    if (td->status & ACTIVE) { /* the frame may still have it */
        if (inw(base + USBSTS) & HALTED)
            die("the controller has halted", "");
        for (uint16_t last = inw(base + FRNUM); !frames_since(last);)
            pause_us(100);
    }
    return td->status;
}

/* What a request that was done means for the toggles, and for the time until the next attempt. */
static void request_done(int address)
{
    struct device *it = &devices[address];
    const uint8_t *setup = it->setup;
    if (setup[0] == 0x00 && setup[1] == 9) { /* SET_CONFIGURATION */
        memset(it->toggle + 1, 0, sizeof it->toggle - sizeof *it->toggle);
    } else if (setup[0] == 0x02 && setup[1] == 1 && setup[2] == 0) { /* CLEAR_FEATURE of ENDPOINT_HALT */
        if (setup[4] & 0x80) /* the toggle of an OUT stands in the question */
            it->toggle[setup[4] & 15] = false;
    } else if (setup[0] == 0x00 && setup[1] == 5) { /* SET_ADDRESS */
        pause_ms(ADDRESS_MS);
    } else if (setup[0] == 0x23 && setup[1] == 3 && setup[2] == 4) { /* SET_FEATURE of PORT_RESET */
        pause_ms(HUB_RESET_MS);
    }
}

static void hex(char *to, const uint8_t *bytes, int count)
{
    for (int i = 0; i < count; i++)
        to += sprintf(to, "%02X", bytes[i]);
    if (!count)
        strcpy(to, "-");
}

/* Makes the attempt and writes its answer. */
static void answer_attempt(struct question *it, char *answer)
{
    struct device *device = &devices[it->address];
    if (it->pid == SETUP)
        memcpy(device->setup, data, 8);
    if (it->pid == IN)
        it->toggle = device->toggle[it->endpoint];
    uint32_t status = attempt(it);
    if (status & ACTIVE || status & STALLED || status & ERRORS) {
        strcpy(answer, status & ERRORS ? "none" : status & STALLED ? "STALL" : status & NAKED ? "NAK" : "none");
    } else if (it->pid == IN) {
        hex(answer + sprintf(answer, "DATA%d ", it->toggle), data, (int)((status + 1) & 0x7FF));
        device->toggle[it->endpoint] = !it->toggle;
        if (it->endpoint == 0 && !(device->setup[0] & 0x80)) /* the status of a request with no data */
            request_done(it->address);
    } else {
        strcpy(answer, "ACK");
        if (it->pid == SETUP)
            device->toggle[0] = true;
    }
}

/* ---- root ports ---- */

static uint16_t portsc(int number) { return inw(base + PORTSC + 2 * (number - 1)); }

/* Writes a port with these bits set; a change is cleared where its bit is set. */
static void write_port(int number, uint16_t bits) { outw(bits, base + PORTSC + 2 * (number - 1)); }

static uint16_t unchanged(int number) { return portsc(number) & ~(CSC | PEC); }

static uint32_t port_status(int number)
{
    if (!ports[number].powered)
        return 0;
    uint16_t now = portsc(number);
    uint32_t status = POWER | ports[number].changes << CHANGED;
    status |= (now & CCS ? CONNECTION : 0) | (now & PE ? ENABLE : 0) | ((now & CCS) && (now & LSDA) ? LOW : 0);
    return status | (now & CSC ? CONNECTION << CHANGED : 0) | (now & PEC ? ENABLE << CHANGED : 0);
}

static void reset_port(int number)
{
    if (!ports[number].powered || !(portsc(number) & CCS))
        return;
    write_port(number, unchanged(number) | PR);
    pause_ms(RESET_MS);
    if (portsc(number) & CSC) /* kept here, as the end of the reset may set it, too, and is no such change */
        ports[number].changes |= CONNECTION;
    write_port(number, unchanged(number) & ~PR);
    pause_us(10);
    if (!(portsc(number) & CCS))
        return;
    write_port(number, portsc(number) | CSC | PEC);
    for (int tries = 0; tries < 10 && !(portsc(number) & PE); tries++) {
        write_port(number, unchanged(number) | PE);
        pause_us(10);
    }
    ports[number].changes |= RESET;
    pause_ms(RECOVERY_MS);
}

/* The controller gives each port power at all times: of one without it only nothing is told. */
static void power_port(int number, bool on)
{
    struct port *it = &ports[number];
    if (on && !it->powered)
        it->changes = portsc(number) & CCS ? CONNECTION : 0;
    if (on != it->powered)
        write_port(number, (portsc(number) | CSC | PEC) & ~PE);
    it->powered = on;
}

static bool call_port(int number, bool set, const char *name)
{
    struct port *it = &ports[number];
    if (!strcmp(name, "PORT_POWER"))
        power_port(number, set);
    else if (set && !strcmp(name, "PORT_RESET"))
        reset_port(number);
    else if (!set && !strcmp(name, "PORT_ENABLE"))
        write_port(number, unchanged(number) & ~PE);
    else if (!set && !strcmp(name, "C_PORT_CONNECTION"))
        it->changes &= ~CONNECTION, write_port(number, unchanged(number) | CSC);
    else if (!set && !strcmp(name, "C_PORT_ENABLE"))
        it->changes &= ~ENABLE, write_port(number, unchanged(number) | PEC);
    else if (!set && !strcmp(name, "C_PORT_RESET"))
        it->changes &= ~RESET;
    else
        return false;
    return true;
}

static bool all_told(void)
{
    for (int number = 1; number <= roots; number++)
        if (port_status(number) != ports[number].told)
            return false;
    return true;
}

/* Tells each root port that is not as it was told last; the status is written low byte first. */
static void tell_ports(void)
{
    for (int number = 1; number <= roots; number++) {
        uint32_t now = port_status(number);
        if (now != ports[number].told)
            printf("port %d %02X%02X%02X%02X\n", number, now & 255, now >> 8 & 255, now >> 16 & 255, now >> 24);
        ports[number].told = now;
    }
}

/* ---- lines ---- */

/* Reads pairs of digits, or `-`, up to the line's end; -1 where they are none. */
static int bytes_of(const char *text, uint8_t *to)
{
    int count = 0;
    if (!strcmp(text, "-"))
        return 0;
    for (; isxdigit((unsigned char)text[0]) && isxdigit((unsigned char)text[1]) && count < PACKET; text += 2)
        sscanf(text, "%2hhx", &to[count++]);
    return *text ? -1 : count;
}

/* Reads `SETUP A.E / DATA0 HEX`, `OUT A.E / DATA HEX` or `IN A.E MOST`, with LOW and PRE before its packets. */
static bool read_attempt(const char *line, struct question *it)
{
    char kind[6], bytes[2 * PACKET + 2];
    const char *pre = strncmp(line, "PRE ", 4) ? "" : "PRE ";
    int toggle = 0, end = 0;
    it->low = *pre || !strncmp(line, "low ", 4);
    line += it->low ? 4 : 0;
    if (sscanf(line, "%5s %d.%d%n", kind, &it->address, &it->endpoint, &end) != 3)
        return false;
    if (it->address < 0 || it->address > 127 || it->endpoint < 0 || it->endpoint > 15)
        return false;
    line += end;
    end = 0;
    it->pid = !strcmp(kind, "SETUP") ? SETUP : !strcmp(kind, "OUT") ? OUT : !strcmp(kind, "IN") ? IN : 0;
    if (it->pid == IN)
        return sscanf(line, " %d%n", &it->length, &end) == 1 && !line[end] && it->length >= 1 && it->length <= PACKET;
    if (strncmp(line, " / ", 3) || strncmp(line + 3, pre, strlen(pre)))
        return false;
    line += 3 + strlen(pre);
    if (sscanf(line, "DATA%1d %129s%n", &toggle, bytes, &end) != 2 || line[end] || toggle > 1)
        return false;
    it->toggle = toggle;
    it->length = bytes_of(bytes, data);
    return it->pid == OUT ? it->length >= 0 : it->pid == SETUP && it->length == 8 && !toggle && !it->endpoint;
}

static bool ask_port(const char *line)
{
    char verb[8], name[32];
    int number, end = 0;
    if (sscanf(line, "port %d %7s %31s%n", &number, verb, name, &end) != 3 || line[end] || number < 1 || number > roots)
        return false;
    if (strcmp(verb, "set") && strcmp(verb, "clear"))
        return false;
    return call_port(number, !strcmp(verb, "set"), name);
}

/* Makes an endpoint begin again at DATA0. The toggle of an OUT stands in the question. */
static bool restart_endpoint(const char *line)
{
    char way[4];
    int address, endpoint, end = 0;
    if (sscanf(line, "restart %d.%d %3s%n", &address, &endpoint, way, &end) != 3 || line[end])
        return false;
    if (address < 0 || address > 127 || endpoint < 1 || endpoint > 15 || (strcmp(way, "in") && strcmp(way, "out")))
        return false;
    if (!strcmp(way, "in"))
        devices[address].toggle[endpoint] = false;
    return true;
}

/* Answers one question; false where it is none. */
static bool answer_line(const char *line, char *answer)
{
    static char last[LONGEST + 1];
    struct question it;
    if (strcmp(line, last))
        naks = 0;
    snprintf(last, sizeof last, "%s", line);
    strcpy(answer, "ok");
    if (!strncmp(line, "port ", 5))
        return ask_port(line);
    if (!strncmp(line, "restart ", 8))
        return restart_endpoint(line);
    if (strcmp(line, "wait")) {
        if (!read_attempt(line, &it))
            return false;
        answer_attempt(&it, answer);
        naks = strcmp(answer, "NAK") ? 0 : naks + 1;
        return true;
    }
    for (int ms = 0; ms < WAIT_MS && all_told(); ms += 4)
        pause_ms(4);
    return true;
}

/* Whether the line is told and not asked: that of a transfer, a setting or a look, or one of a listing or of news. */
static bool is_told(const char *line)
{
    static const char *const reports[] = {"control ", "send ", "receive ", "interrupt ", "clear ", "interface ",
                                          "look "};
    static bool block;
    if (block) {
        block = strcmp(line, "end");
        return true;
    }
    block = !strncmp(line, "listing ", 8) || !strcmp(line, "news");
    for (size_t i = 0; i < sizeof reports / sizeof *reports; i++)
        if (!strncmp(line, reports[i], strlen(reports[i])))
            return true;
    return block;
}

int main(void)
{
    char *line = NULL, answer[LONGEST];
    size_t room = 0;
    take_memory();
    find_controller();
    start_controller();
    if (getline(&line, &room, stdin) < 0 || strcmp(line, "usbplan live 1\n"))
        die("no hello", "");
    printf("roots %d\n", roots);
    while (fflush(stdout), getline(&line, &room, stdin) >= 0) {
        line[strcspn(line, "\n")] = 0;
        if (is_told(line))
            continue;
        if (!answer_line(line, answer))
            die("no question: ", line);
        tell_ports();
        puts(answer);
    }
    outw(0, base + USBCMD);
    return 0;
}
