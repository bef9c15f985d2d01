/* The generator of FORMAT.md for runs without Rust: makes the commands that digest commands stand for, and digests the dumps.
 *
 *   generator expand         reads digest commands (`d`), prints the commands that each stands for
 *   generator digest COUNT   reads dump lines, prints the FNV-1a digest of each COUNT of them, a read header's kept length taken as 0
 */
#include <stdint.h>
#include <stdio.h>
#include <stdlib.h>
#include <string.h>

typedef uint8_t byte;

/* xorshift64, one step for each byte drawn */
static uint64_t state;

static byte draw(void)
{
    state ^= state << 13;
    state ^= state >> 7;
    state ^= state << 17;
    return (byte)(state >> 56);
}

static void fill(byte *bytes, int n)
{
    for (int i = 0; i < n; i++)
        bytes[i] = draw();
}

static int extent(byte choice, byte drawn, int most)
{
    return choice % 4 == 0 ? drawn % most : most + drawn % 4;
}

/* type 4 becomes 0, version 3 becomes 1, mode 1 becomes 2 */
static void mend(byte *frame)
{
    if (frame[0] % 8 == 4)
        frame[0] -= 4;
    if (frame[1] / 16 % 4 == 3)
        frame[1] -= 32;
    if (frame[1] / 4 % 4 == 1)
        frame[1] += 4;
    if (frame[1] / 64 == 1)
        frame[1] += 64;
}

/* compression without a destination gets a short one */
static void aim(byte *frame)
{
    if (frame[0] / 64 % 2 == 1 && frame[1] / 4 % 4 == 0)
        frame[1] += 8;
}

static void print_hex(const byte *bytes, int n)
{
    static const char digits[] = "0123456789abcdef";
    char text[1024];
    for (int i = 0; i < n; i++) {
        text[2 * i] = digits[bytes[i] / 16];
        text[2 * i + 1] = digits[bytes[i] % 16];
    }
    fwrite(text, 1, (size_t)(2 * n), stdout);
}

/* what a command asks for beside its input or record */
struct ask {
    byte place, room, at, choice, counter[4];
};

static void print_command(char letter, const struct ask *ask, const byte *bytes, int n)
{
    putchar(letter);
    putchar('\t');
    if (ask) {
        const byte first[11] = { ask->place, 0, ask->room, 0, ask->at, 0, ask->choice,
                                 ask->counter[0], ask->counter[1], ask->counter[2], ask->counter[3] };
        print_hex(first, 11);
    }
    print_hex(bytes, n);
    putchar('\n');
}

static void header(void)
{
    struct ask ask = { 0 };
    byte frame[41];
    byte mode = draw();
    int length = extent(mode / 4, draw(), 37);
    ask.room = (byte)extent(mode / 16, draw(), 37);
    ask.choice = draw() % 3;
    fill(ask.counter, 4);
    fill(frame, 41);
    byte place = draw();
    byte bit = draw();
    if (mode % 4 != 0)
        mend(frame);
    if (mode % 4 >= 2)
        aim(frame);
    if (mode / 64 == 0)
        frame[place % 41] ^= (byte)(1 << bit % 8);
    print_command('h', &ask, frame, length);
}

static void beacon(void)
{
    struct ask ask = { 0 };
    byte content[100];
    byte mode = draw();
    int length = extent(mode, draw(), 96);
    ask.room = (byte)extent(mode / 4, draw(), 96);
    fill(content, 100);
    print_command('b', &ask, content, length);
}

static void view(void)
{
    byte frame[137];
    byte mode = draw();
    int length = extent(mode / 4, draw(), 133);
    fill(frame, 137);
    if (mode % 4 != 0) {
        mend(frame);
        aim(frame);
    }
    if (mode % 4 >= 2)
        frame[0] -= frame[0] % 16;
    print_command('p', NULL, frame, length);
}

static void fit_address(byte *a)
{
    static const byte modes[3] = { 0, 2, 3 };
    static const int used[4] = { 1, 1, 5, 11 };
    a[0] = modes[a[0] % 3];
    memset(a + used[a[0]], 0, (size_t)(11 - used[a[0]]));
}

static void fit_security(byte *s)
{
    s[0] %= 8;
    s[1] %= 4;
    s[6] %= 4;
    if (s[6] == 0)
        memset(s + 7, 0, 9);
    if (s[6] == 1)
        memset(s + 7, 0, 8);
    if (s[6] == 2)
        memset(s + 11, 0, 4);
}

static void header_record(void)
{
    static const byte types[8] = { 0, 1, 2, 3, 0, 5, 6, 7 };
    struct ask ask = { 0 };
    byte record[48];
    byte mode = draw();
    ask.room = (byte)extent(mode, draw(), 37);
    ask.choice = draw() % 3;
    fill(ask.counter, 4);
    fill(record, 48);
    record[0] = types[record[0] % 8];
    for (int i = 1; i < 6; i++)
        record[i] %= 2;
    record[6] %= 3;
    fit_address(record + 8);
    fit_address(record + 19);
    record[30] %= 2;
    if (record[30] == 0)
        memset(record + 31, 0, 16);
    else
        fit_security(record + 31);
    record[47] = 0;
    print_command('H', &ask, record, 48);
}

static void fit_order(byte *order)
{
    order[0] %= 2;
    order[1] = order[0] == 1 ? 0 : order[1] % 15;
}

static void fit_superframe(byte *superframe)
{
    fit_order(superframe);
    fit_order(superframe + 2);
    superframe[4] %= 16;
    for (int i = 5; i < 8; i++)
        superframe[i] %= 2;
}

static void fit_slots(byte *slots)
{
    static const byte unused[5] = { 0xff, 0xff, 0, 0, 'r' };
    slots[0] %= 2;
    slots[1] %= 8;
    for (int i = 0; i < 7; i++) {
        byte *slot = slots + 2 + 5 * i;
        if (i < slots[1]) {
            slot[2] %= 16;
            slot[3] %= 16;
            slot[4] = slot[4] % 2 == 0 ? 'r' : 't';
        } else {
            memcpy(slot, unused, 5);
        }
    }
}

static void fit_pending(byte *pending)
{
    pending[0] %= 8;
    pending[15] %= 8;
    memset(pending + 1 + 2 * pending[0], 0xff, (size_t)(14 - 2 * pending[0]));
    memset(pending + 16 + 8 * pending[15], 0xff, (size_t)(56 - 8 * pending[15]));
}

static void beacon_record(void)
{
    struct ask ask = { 0 };
    byte record[117];
    byte mode = draw();
    ask.room = (byte)extent(mode, draw(), 96);
    fill(record, 117);
    fit_superframe(record);
    fit_slots(record + 8);
    fit_pending(record + 45);
    print_command('B', &ask, record, 117);
}

static void part(void)
{
    struct ask ask = { 0 };
    byte input[80];
    char letter = "scnaxfegq"[draw() % 9];
    byte mode = draw();
    int length = extent(mode, draw(), 76);
    ask.room = (byte)extent(mode / 4, draw(), 76);
    ask.place = draw() % 4;
    ask.at = draw() % 4;
    ask.choice = 1;
    fill(ask.counter, 4);
    fill(input, 80);
    print_command(letter, &ask, input, length);
}

static int expand(void)
{
    static void (*const families[6])(void) = { header, beacon, view, header_record, beacon_record, part };
    char line[64];
    while (fgets(line, sizeof line, stdin)) {
        unsigned bytes[11];
        int used = 0;
        int good = line[0] == 'd' && line[1] == '\t';
        for (int i = 0; good && i < 11; i++)
            good = sscanf(line + 2 + 2 * i, "%2x", &bytes[i]) == 1, used = 4 + 2 * i;
        if (!good || line[used] != '\n' || bytes[0] > 5) {
            fputs("generator: not a digest command\n", stderr);
            return 1;
        }
        state = 0;
        for (int i = 8; i >= 1; i--)
            state = state << 8 | bytes[i];
        for (unsigned left = bytes[9] + 256 * bytes[10]; left > 0; left--)
            families[bytes[0]]();
    }
    return 0;
}

static uint64_t fnv(uint64_t value, int c)
{
    return (value ^ (byte)c) * 0x100000001b3u;
}

static int digest(long count)
{
    /* the record of a read header is the only third field of so many digits with a field behind it; the last two are the kept length */
    const unsigned digits = 96;
    const uint64_t start = 0xcbf29ce484222325u;
    uint64_t value = start;
    uint64_t without = start;
    unsigned field = 0;
    unsigned width = 0;
    long lines = 0;
    int c;
    while ((c = getchar()) != EOF) {
        if (width == digits - 2)
            without = value;
        if (field == 2 && width == digits && c == '\t')
            value = fnv(fnv(without, '0'), '0');
        value = fnv(value, c);
        width++;
        if (c == '\t' || c == '\n') {
            field = c == '\t' ? field + 1 : 0;
            width = 0;
        }
        if (c == '\n' && ++lines == count) {
            printf("%016llx\n", (unsigned long long)value);
            value = start;
            lines = 0;
        }
    }
    if (lines > 0) {
        fputs("generator: lines are left over\n", stderr);
        return 1;
    }
    return 0;
}

int main(int argc, char **argv)
{
    int status = 2;
    if (argc == 2 && strcmp(argv[1], "expand") == 0)
        status = expand();
    else if (argc == 3 && strcmp(argv[1], "digest") == 0 && atol(argv[2]) > 0)
        status = digest(atol(argv[2]));
    else
        fputs("usage: generator expand | generator digest COUNT\n", stderr);
    if (fflush(stdout) != 0 || ferror(stdout))
        return 1;
    return status;
}
