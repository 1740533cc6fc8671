/* The rerun of a log, document 02, (iv), in plain C over the calls of the dispatcher that it is linked with; and the same behind one fault, for a test of
 * tests/gate/rerun: each fault has to be found by the logs of that test. The comment behind a fault's number is read by tests/rerun/faults, which prints it.
 *
 *     stand_in [FAULT]           reruns the log on standard input
 *     stand_in FAULT LOG.in ..   reruns each of these logs, given whole, byte by byte and in odd pieces, and compares what it prints with LOG.out; the first
 *                                that is another is named, and the status is 1. A log of a megabyte or more is given whole alone.
 *
 * FAULT 0 is none. */
#define _POSIX_C_SOURCE 200809L
#include "../../firmware/bytes.h"
#include "../layout.h"
#include "../starts.h"

#include <fcntl.h>
#include <inttypes.h>
#include <stdarg.h>
#include <stdio.h>
#include <stdlib.h>
#include <string.h>
#include <sys/stat.h>
#include <unistd.h>

#define CHUNK 65536   /* bytes of a read, at most */
#define HELD 220      /* bytes of a line that are kept: more than a line of the form has */
#define LONGEST 114   /* bytes of the longest line of the form */
#define MOST_WORDS 32 /* of a line, more than the form has */
#define MEGABYTE 1000000

static int chosen;
#define fault(number) (chosen == (number))

struct word {
    const char *at;
    size_t length;
};

static struct rerun {
    uint64_t line; /* the number of the line that is being read */
    uint64_t refused, differs;
    uint32_t stations;
    uint64_t ticks, busy_ticks, busy[MAX_STATIONS + 1], accepted;
    uint8_t image[IMAGE_SIZE], reply[REPLY_SIZE];
    char held[HELD];
    size_t used, length; /* of the line: bytes held, and bytes */
    uint64_t fed;
    int ended;
} r;

/* The number that a word is, if it is one and at most `most`. */
static int decimal(struct word word, uint64_t most, uint64_t *value)
{
    const char *at = word.at, *end = word.at + word.length;
    *value = 0;
    if (fault(7) && at < end && *at == '+') /* a plus sign is taken */
        at++;
    if (fault(14) && at == end) /* no digit is 0 */
        return 1;
    if (at == end)
        return 0;
    if (end - at > 1 && *at == '0' && !fault(1)) /* a leading zero is taken */
        return 0;
    if (fault(17) && end - at > 9) /* no number has more than nine digits, as in plan */
        return 0;
    for (; at < end; at++) {
        if (*at < '0' || *at > '9')
            return at > word.at && fault(13); /* a number ends where the digits do */
        *value = *value * 10 + (uint64_t)(*at - '0');
        if (*value > most && !fault(18) && !fault(19) && !(fault(20) && most == UINT16_MAX) && !(fault(21) && most == UINT8_MAX))
            return 0;
    }
    if (fault(18)) /* values are cut to 32 bits */
        *value = (uint32_t)*value;
    if (fault(20) && most == UINT16_MAX) /* costs are cut to 16 bits */
        *value = (uint16_t)*value;
    if (fault(21) && most == UINT8_MAX) /* ranks are cut to 8 bits */
        *value = (uint8_t)*value;
    if (fault(22)) /* the largest value of a field is too large */
        return *value < most;
    if (fault(26) && most == UINT32_MAX) /* a field of 32 bits has a sign */
        return *value <= INT32_MAX;
    return *value <= most || fault(19); /* values are cut to 64 bits */
}

static int separates(char c)
{
    return c == ' ' || (fault(5) && c == '\t'); /* a tab is a space */
}

/* The words of a line. -1 where there are more than any line of the form has. */
static int split(const char *line, size_t length, struct word *words)
{
    int count = 0;
    for (size_t at = 0;; at++) {
        size_t end = at;
        while (end < length && !separates(line[end]))
            end++;
        if (count == MOST_WORDS)
            return -1;
        int left_out = 0;
        if (fault(2) && end == at && end < length && at > 0) /* two spaces are one */
            left_out = 1;
        if (fault(3) && end == at && at == 0) /* a leading space is taken */
            left_out = 1;
        if (!left_out)
            words[count++] = (struct word){line + at, end - at};
        at = end;
        if (at == length)
            break;
    }
    if (fault(4) && count > 1 && words[count - 1].length == 0) /* a trailing space is taken */
        count--;
    return count;
}

/* `count` numbers after the letter, the k-th at most most[k]. */
static int fields(struct word *words, int given, int count, const uint64_t *most, uint64_t *values)
{
    if (fault(11) && given > count + 1) /* further fields are ignored */
        given = count + 1;
    if (fault(12) && given == count) { /* a last field that is missing is 0 */
        values[count - 1] = 0;
        count--;
    }
    if (given != count + 1)
        return 0;
    for (int k = 0; k < count; k++)
        if (!decimal(words[k + 1], most[k], &values[k]))
            return 0;
    return 1;
}

static int begins(struct word word, char letter)
{
    char first = word.length == 0 ? '\0' : *word.at;
    if (fault(8) && first >= 'a' && first <= 'z') /* small letters are taken */
        first = (char)(first - 'a' + 'A');
    if (fault(10) && letter == 'T' && first > 'A' && first != 'O' && first != 'N') /* any other letter is a tick's */
        first = 'T';
    return first == letter && (word.length == 1 || fault(9)); /* only the first letter is looked at */
}

static int first_line(struct word *words, int count)
{
    const uint64_t most[] = {UINT32_MAX};
    uint64_t values[1], stations = MAX_STATIONS;
    if (!begins(words[0], 'N') || !fields(words, count, 1, most, values))
        return 0;
    if (fault(27)) /* a station count of 9 is let through */
        stations++;
    if (fault(29)) /* a station count is cut to 8 bits */
        values[0] = (uint8_t)values[0];
    if (values[0] > stations)
        return 0;
    if (values[0] == 0 && !fault(28)) /* a station count of 0 is let through */
        return 0;
    r.stations = (uint32_t)values[0];
    memset(r.image, 0, sizeof r.image);
    dispatcher_open(r.image, sizeof r.image, r.stations, r.reply, sizeof r.reply);
    return 1;
}

static void compare(int agrees)
{
    if (!agrees && (r.differs == 0 || fault(48))) /* the last line that disagrees is named */
        r.differs = r.line + fault(35); /* the line after the one that disagrees is named */
    if (!agrees && fault(45)) /* nothing is looked at after a difference */
        r.ended = 1;
}

/* Whether the reply has the recorded ticket. */
static int agrees(uint64_t recorded)
{
    uint32_t ticket = get4(r.reply + REPLY_TICKET_AT);
    return ticket == recorded || (fault(56) && (uint16_t)ticket == (uint16_t)recorded); /* tickets are compared in 16 bits */
}

static void offer(const uint64_t *values)
{
    uint8_t order[BLOCK_SIZE] = {0};
    const unsigned n = r.stations;
    put4(order + BLOCK_DUE_IN_AT, fault(89) ? 0 : (uint32_t)values[0]); /* the due-in is not given to the call */
    for (unsigned j = 0; j < n && j < MAX_STATIONS; j++) {
        unsigned rank = 1 + j, cost = 1 + n + j;
        if (fault(85)) { /* ranks and costs are exchanged */
            rank = 1 + n + j;
            cost = 1 + j;
        }
        if (fault(86)) /* the ranks of the stations are read backwards */
            rank = n - j;
        if (fault(87)) /* the costs of the stations are read backwards */
            cost = 2 * n - j;
        if (fault(88)) { /* rank and cost are read station by station */
            rank = 1 + 2 * j;
            cost = 2 + 2 * j;
        }
        order[BLOCK_RANKS_AT + j] = (uint8_t)values[rank];
        put2(order + BLOCK_COSTS_AT + 2 * j, (uint32_t)values[cost]);
    }
    uint8_t before[IMAGE_SIZE];
    memcpy(before, r.image, sizeof before);
    uint32_t number = dispatcher_offer(r.image, sizeof r.image, order, sizeof order, r.reply, sizeof r.reply);
    if (fault(57)) /* an order is not kept */
        memcpy(r.image, before, sizeof r.image);
    r.accepted += number == 0;
    r.ticks += fault(83); /* an order counts as a tick */
    uint64_t recorded = fault(55) ? (uint8_t)values[2 * n + 1] : values[2 * n + 1]; /* the number is compared in 8 bits */
    int same_number = number == recorded, same_ticket = agrees(values[2 * n + 2]);
    same_number |= fault(49); /* an order's number is not compared */
    same_number |= fault(54) && number != 0 && recorded != 0; /* any decline agrees with any other */
    same_ticket |= fault(50) && number == 0; /* the ticket of a done order is not compared */
    same_ticket |= fault(51) && number != 0; /* the ticket of a declined order is not compared */
    compare(same_number && same_ticket);
}

/* Whether a station is busy in the tick that comes next: an order is there, waiting or in service. */
static unsigned orders_at(const uint8_t *image, unsigned station)
{
    unsigned count = 0;
    for (unsigned k = 0; k < image[LIVE_COUNT_AT]; k++)
        count += image[RECORD(k) + STATION_AT] == station;
    return count;
}

static int serves(const uint8_t *image, unsigned station)
{
    return get4(image + SERVICE(station - 1) + SERVED_AT) != 0;
}

/* Of two orders that wait at a station: whether the one with the larger ticket goes before the other. */
static int goes_before(unsigned station, const uint8_t *order, const uint8_t *other)
{
    unsigned rank = order[RANKS_AT + station - 1], other_rank = other[RANKS_AT + station - 1];
    uint32_t due = get4(order + DUE_AT), other_due = get4(other + DUE_AT);
    if (fault(95) && due != other_due) /* the due tick goes before the rank */
        return due < other_due;
    if (rank != other_rank)
        return rank < other_rank;
    if (fault(96)) /* equal ranks go by the ticket alone */
        return 0;
    if (fault(97)) /* of equal ranks the later due tick goes first */
        return due > other_due;
    if (fault(98)) /* equal ranks go by the due-in */
        return due - get4(order + ACCEPTED_AT) < other_due - get4(other + ACCEPTED_AT);
    if (fault(99) && due == other_due) /* equal ranks and due ticks go by the larger ticket */
        return 1;
    if (fault(100) && due == other_due) /* equal ranks and due ticks go by the due-in */
        return get4(order + ACCEPTED_AT) > get4(other + ACCEPTED_AT);
    if (fault(101) && station > 1) /* after station 1 equal ranks go by the ticket alone */
        return 0;
    if (fault(102) && r.image[LIVE_COUNT_AT] == MAX_LIVE) /* while 32 are live, equal ranks go by the ticket alone */
        return 0;
    return due < other_due;
}

static const uint8_t *goes_first(const uint8_t *image, unsigned station)
{
    const uint8_t *first = NULL;
    for (unsigned k = 0; k < image[LIVE_COUNT_AT]; k++)
        if (image[RECORD(k) + STATION_AT] == station && (first == NULL || goes_before(station, image + RECORD(k), first)))
            first = image + RECORD(k);
    return first;
}

static void advance(uint64_t recorded)
{
    uint8_t before[IMAGE_SIZE];
    const int picks = chosen >= 95; /* the fault is one of who starts */
    memcpy(before, r.image, sizeof before);
    if (picks)
        put_ranks(r.image, goes_first);
    uint32_t number = dispatcher_advance(r.image, sizeof r.image, r.reply, sizeof r.reply);
    if (picks)
        put_ranks_back(r.image, before);
    int any = 0;
    if (number == 0 && !(fault(76) && r.accepted == 0)) /* the ticks before the first order do not count */
        r.ticks++;
    for (unsigned j = 1; j <= r.stations && j <= MAX_STATIONS && number == 0; j++) {
        unsigned busy = orders_at(before, j) > 0;
        any |= (int)busy;
        if (fault(71)) /* an idle station is busy while an order is live */
            busy = before[LIVE_COUNT_AT] > 0;
        if (fault(72)) /* an order that starts in the tick does not count */
            busy = (unsigned)serves(before, j);
        if (fault(73)) /* an order that leaves in the tick does not count */
            busy = (unsigned)serves(r.image, j);
        if (fault(74) && j > 1) /* ticks of station 1 alone are counted */
            busy = 0;
        if (fault(75)) /* orders that wait are counted, too */
            busy = orders_at(before, j);
        r.busy[j] += busy;
    }
    r.busy_ticks += (uint64_t)any;
    int done = number == 0, same_ticket = agrees(recorded);
    done |= fault(84); /* a declined advance agrees */
    same_ticket |= fault(52); /* the ticket out is not compared */
    same_ticket |= fault(53) && recorded == 0; /* a recorded ticket out of 0 agrees with any */
    compare(done && same_ticket);
}

/* Whether the line has the form. If it has, and no line before it disagreed, its call is made. */
static int call_line(struct word *words, int count)
{
    uint64_t most[MOST_WORDS], values[MOST_WORDS] = {0};
    const unsigned n = r.stations;
    most[0] = fault(24) ? MAX_DUE_IN : UINT32_MAX; /* a due-in above 60,000 is too large */
    for (unsigned j = 1; j <= n; j++) {
        most[j] = UINT8_MAX;
        most[n + j] = fault(23) ? MAX_COST : UINT16_MAX; /* a cost above 6,000 is too large */
    }
    most[2 * n + 1] = fault(25) ? UINT8_MAX : UINT32_MAX; /* a number above 255 is too large */
    most[2 * n + 2] = UINT32_MAX;
    if (fault(30) && first_line(words, count)) /* a second line of stations opens another cabinet */
        return 1;
    if (fault(31) && begins(words[0], 'N') && count == 2) /* a second line of stations is passed over */
        return 1;
    int tick = begins(words[0], 'T');
    if (!tick && !begins(words[0], 'O'))
        return 0;
    const uint64_t most_out[] = {UINT32_MAX};
    if (!(tick ? fields(words, count, 1, most_out, values) : fields(words, count, (int)(2 * n + 3), most, values)))
        return 0;
    if (r.differs != 0 && !fault(48))
        return 1;
    if (tick)
        advance(values[0]);
    else
        offer(values);
    return 1;
}

/* A line has ended, or the log has. */
static void line_ended(void)
{
    struct word words[MOST_WORDS];
    size_t length = r.used;
    if (fault(6) && length > 0 && r.held[length - 1] == '\r') /* a carriage return before the line feed is ignored */
        length--;
    if (fault(15) && memchr(r.held, '\0', length) != NULL) /* a zero byte ends the line */
        length = (size_t)((char *)memchr(r.held, '\0', length) - r.held);
    if (fault(16)) /* bytes have seven bits */
        for (size_t k = 0; k < length; k++)
            r.held[k] &= 127;
    if (fault(42) && length > LONGEST) /* a line is cut to the longest that has the form */
        length = LONGEST;
    int count = split(r.held, length, words), passed = 0;
    if (length == 0 && fault(37))
        passed = 1;
    if (length == 0 && fault(36)) /* an empty line is passed over and counted */
        passed = 1;
    if (fault(43) && r.length > HELD) /* a line of more than 220 bytes is passed over */
        passed = 1;
    if (fault(32) && r.line == 1 && count > 0 && !begins(words[0], 'N')) { /* a log without a line of stations is of one */
        r.stations = 1;
        dispatcher_open(r.image, sizeof r.image, 1, r.reply, sizeof r.reply);
        r.line++;
    }
    int formed = passed || (count > 0 && (r.line == 1 ? first_line(words, count) : call_line(words, count)));
    if (!formed && (r.refused == 0 || fault(47))) /* the last line of another form is named */
        r.refused = r.line + fault(34); /* the line after the one of another form is named */
    r.line += !(length == 0 && fault(37)); /* an empty line is passed over and not counted */
    r.used = r.length = 0;
}

static void feed(const char *bytes, size_t length)
{
    if (fault(90)) /* of a line in two chunks the first part is lost */
        r.used = r.length = 0;
    if (fault(92) && r.fed > 0) /* a short read is taken for the end */
        return;
    for (size_t k = 0; k < length && !r.ended; k++) {
        if (fault(91) && k == length - 1 && length > 1 && length < 50) /* the last byte of a short chunk is lost */
            break;
        if (fault(93) && r.fed + k >= CHUNK) /* only the first 64 KB are read */
            break;
        if (bytes[k] == '\n') {
            line_ended();
            continue;
        }
        if (r.used < sizeof r.held)
            r.held[r.used++] = bytes[k];
        r.length++;
    }
    r.fed += length;
}

/* busy × 1,000 / all, rounded to nearest, a half upward. */
static uint64_t share(uint64_t busy, uint64_t all)
{
    if (fault(67)) /* the share is of one tick more */
        all++;
    if (fault(68)) /* the share is of the ticks in which a station was busy */
        all = r.busy_ticks;
    if (fault(78)) /* ticks are counted in 16 bits */
        all = (uint16_t)all;
    if (all == 0)
        return fault(82) ? 1000 : 0; /* where no tick passed the share is the whole */
    uint64_t thousand = fault(80) ? 100 : 1000, up = busy * thousand; /* the share is in hundredths */
    if (fault(77)) /* busy times 1,000 is cut to 32 bits */
        up = (uint32_t)up;
    uint64_t down = up / all, left = up % all;
    if (fault(65)) /* the share is cut off */
        return down;
    if (fault(66)) /* the share is rounded up */
        return down + (left > 0);
    if (fault(63)) /* a half goes down */
        return down + (2 * left > all);
    if (fault(64) && 2 * left == all) /* a half goes to the even neighbour */
        return down + down % 2;
    uint64_t rounded = down + (2 * left >= all);
    return fault(81) && rounded > 999 ? 999 : rounded; /* the share is below 1,000 */
}

/* What is printed, at its end. */
static char printed[1000];
static size_t printed_length;

static void print(const char *format, ...)
{
    va_list values;
    va_start(values, format);
    printed_length += (size_t)vsnprintf(printed + printed_length, sizeof printed - printed_length, format, values);
    va_end(values);
}

static void finish(void)
{
    printed_length = 0;
    if (r.length > 0 && fault(38)) /* a last line without a line feed is taken */
        line_ended();
    else if (r.length > 0 && r.refused == 0 && !r.ended && !fault(39)) /* a last line without a line feed is left out */
        r.refused = r.line + fault(34);
    if (r.length > 0 && r.refused == r.line && r.differs != 0 && fault(44)) /* after a difference the last line may be without a line feed */
        r.refused = 0;
    if (r.line == 1 && r.refused == 0 && !fault(40)) /* an empty log is the same */
        r.refused = 1;
    uint64_t less = fault(33); /* lines count from 0 */
    if (r.fed == 0 && fault(41)) /* an empty log gets 21 at line 0 */
        less = 1;
    if (r.refused != 0 && !(r.differs != 0 && fault(46))) { /* a difference comes before 21 */
        print("refused 21 %" PRIu64 "\n", r.refused - less);
        return;
    }
    if (r.differs != 0)
        print("differs %" PRIu64 "\n", r.differs - less);
    else
        print("same\n");
    if (r.differs != 0 && !fault(58)) /* station lines come after `differs`, too */
        return;
    if (fault(59)) /* no station lines are printed */
        return;
    const unsigned lines = fault(60) ? MAX_STATIONS : r.stations < MAX_STATIONS ? r.stations : MAX_STATIONS; /* there are lines of eight stations */
    for (unsigned k = 1; k <= lines; k++) {
        unsigned station = fault(62) ? lines + 1 - k : k; /* station lines come backwards */
        unsigned counts = fault(70) ? lines + 1 - station : station; /* the stations' counts are exchanged */
        uint64_t busy = fault(79) ? (uint16_t)r.busy[counts] : r.busy[counts]; /* busy ticks are counted in 16 bits */
        uint64_t other = fault(69) ? r.busy[station % lines + 1] : busy; /* the share is that of the next station */
        station -= fault(61); /* stations count from 0 */
        print("%u %" PRIu64 " %" PRIu64 "\n", station, busy, share(other, r.ticks));
        printed_length -= fault(94) && k == lines; /* the last line is not ended */
    }
}

static void begin(void)
{
    memset(&r, 0, sizeof r);
    r.line = 1;
}

static int program(void)
{
    static char chunk[CHUNK];
    ssize_t got;
    begin();
    while ((got = read(STDIN_FILENO, chunk, sizeof chunk)) > 0)
        feed(chunk, (size_t)got);
    finish();
    return write(STDOUT_FILENO, printed, printed_length) == (ssize_t)printed_length ? 0 : 2;
}

/* The bytes of a file, and a length. */
static char *load(const char *path, size_t *length)
{
    struct stat about;
    int file = open(path, O_RDONLY);
    if (file < 0 || fstat(file, &about) != 0) {
        perror(path);
        exit(2);
    }
    char *bytes = malloc((size_t)about.st_size + 1);
    *length = 0;
    for (ssize_t got = 1; got > 0; *length += got > 0 ? (size_t)got : 0)
        got = read(file, bytes + *length, (size_t)about.st_size - *length);
    if (*length != (size_t)about.st_size) {
        perror(path);
        exit(2);
    }
    close(file);
    return bytes;
}

/* The sizes of the pieces that a log is given in, over and over. */
static const size_t whole[] = {CHUNK}, bytewise[] = {1}, odd[] = {1, 2, 7, 3, 64, 5, 13, 4095, 1, 31};
static const struct {
    const char *name;
    const size_t *sizes;
    size_t count;
} pieces[] = {{"whole", whole, 1}, {"byte by byte", bytewise, 1}, {"in odd pieces", odd, sizeof odd / sizeof *odd}};

/* The lines of a text as one. The text has room for a byte more. */
static const char *one_line(char *text, size_t length)
{
    for (size_t k = 0; k < length; k++)
        if (text[k] == '\n')
            text[k] = k == length - 1 ? '\0' : ',';
    text[length] = '\0';
    return text;
}

static int compared(char *path)
{
    size_t length, wanted_length, dot = strlen(path) - 3;
    char *log = load(path, &length), name[4096];
    snprintf(name, sizeof name, "%.*s.out", (int)dot, path);
    char *wanted = load(name, &wanted_length);
    for (size_t p = 0; p < (length < MEGABYTE ? sizeof pieces / sizeof *pieces : 1); p++) {
        begin();
        for (size_t at = 0, k = 0; at < length; k++) {
            size_t size = pieces[p].sizes[k % pieces[p].count];
            size = size < length - at ? size : length - at;
            feed(log + at, size);
            at += size;
        }
        finish();
        if (printed_length != wanted_length || memcmp(printed, wanted, wanted_length) != 0) {
            printf("%s, given %s: '%s' in the place of '%s'\n", path, pieces[p].name, one_line(printed, printed_length), one_line(wanted, wanted_length));
            return 0;
        }
    }
    free(log);
    free(wanted);
    return 1;
}

int main(int count, char **words)
{
    chosen = count > 1 ? atoi(words[1]) : 0;
    if (count < 3)
        return program();
    for (int k = 2; k < count; k++)
        if (!compared(words[k]))
            return 1;
    printf("%d logs agree\n", count - 2);
    return 0;
}
