// The driver: a program that calls the proved library as C does, beside the tests that link it from Rust. The
// library is for x86-64, and so is this program. It reads requests on standard input until they end, and
// answers each on standard output.
//
// A request is the number of a call and four lengths (in elements; 0 where the call has fewer slices), of 32
// bits each, then the contents of the slices. Its answer is the number that the call returns, of 64 bits, then
// the contents of the slices lent for writing. All numbers are as in memory: the low byte first.
//
// Each slice stands in a place of exactly its size, between borders of marks. After a call every mark must be
// there, and every slice lent for reading alone must be as it was. Else the driver ends, with a message.

// The kit has a C compiler and a C library and no headers, so what is used is declared here.
typedef unsigned char byte;
typedef unsigned int u32;
typedef unsigned long u64;

long read(int file, void *to, u64 most);
long write(int file, const void *from, u64 most);
void *memcpy(void *to, const void *from, u64 size);
void *memmove(void *to, const void *from, u64 size);
int memcmp(const void *one, const void *other, u64 size);
u64 strlen(const char *text);
_Noreturn void _exit(int status);

// The exports of crates/nephinor_c: a slice is a pointer and a length.
u64 nephinor_read_block(const byte *bytes, u64, u32 *numbers, u64);
u64 nephinor_write_block(const u32 *numbers, u64, byte *room, u64);
u64 nephinor_run_block(const byte *bytes, u64, u32 *variables, u64, u32 *cells, u64);
u64 nephinor_run_list(const byte *block, u64, const byte *list, u64, u32 *variables, u64, u32 *cells, u64);
u64 nephinor_make_list(const byte *bytes, u64, byte *room, u64);

enum { SLICES = 4, HEADER = 4 * (1 + SLICES), LARGEST = 1 << 17, SPACE = 1 << 20, BORDER = 64 };

// What a call is lent: how many slices, their elements' sizes, and which of them it may write.
static const struct {
    u32 slices, width[SLICES], written[SLICES];
} calls[] = {
    {2, {1, 4}, {0, 1}},             // 0: read_block
    {2, {4, 1}, {0, 1}},             // 1: write_block
    {3, {1, 4, 4}, {0, 1, 1}},       // 2: run_block
    {4, {1, 1, 4, 4}, {0, 0, 1, 1}}, // 3: run_list
    {2, {1, 1}, {0, 1}},             // 4: make_list
};

static byte request[SPACE];
static u64 have; // how many bytes of requests have come and are not yet answered
static _Alignas(4) byte memory[SPACE];
static byte answer[SPACE];

static _Noreturn void fail(const char *message) {
    write(2, "driver: ", 8);
    write(2, message, strlen(message));
    write(2, "\n", 1);
    _exit(1);
}

// Whether so many bytes of the request came before the input's end.
static int came(u64 size) {
    while (have < size) {
        long more = read(0, request + have, SPACE - have);
        if (more < 0) fail("standard input cannot be read");
        if (more == 0) return 0;
        have += (u64)more;
    }
    return 1;
}

static void give(u64 size) {
    for (u64 gone = 0; gone < size;) {
        long more = write(1, answer + gone, size - gone);
        if (more <= 0) fail("standard output cannot be written");
        gone += (u64)more;
    }
}

// A border's bytes differ from their neighbours, so that one copied to its neighbour is seen too.
static byte mark(u64 at) { return (byte)(at * 29 + 101); }

static void put_border(u64 from, u64 to) {
    for (u64 at = from; at < to; at++) memory[at] = mark(at);
}

static void check_border(u64 from, u64 to) {
    for (u64 at = from; at < to; at++)
        if (memory[at] != mark(at)) fail("the library wrote beside what it was lent");
}

static u64 call(u32 number, byte *const *start, const u32 *length) {
    switch (number) {
    case 0: return nephinor_read_block(start[0], length[0], (u32 *)start[1], length[1]);
    case 1: return nephinor_write_block((u32 *)start[0], length[0], start[1], length[1]);
    case 2:
        return nephinor_run_block(start[0], length[0], (u32 *)start[1], length[1], (u32 *)start[2], length[2]);
    case 3:
        return nephinor_run_list(start[0], length[0], start[1], length[1], (u32 *)start[2], length[2],
                                 (u32 *)start[3], length[3]);
    default:
        return nephinor_make_list(start[0], length[0], start[1], length[1]);
    }
}

// Answers the request whose header has come.
static void serve(void) {
    u32 number, length[SLICES];
    memcpy(&number, request, sizeof number);
    memcpy(length, request + sizeof number, sizeof length);
    if (number >= sizeof calls / sizeof calls[0]) fail("a request names no call");
    u32 slices = calls[number].slices;

    u64 size[SLICES], requested = HEADER;
    for (u32 i = 0; i < slices; i++) {
        size[i] = (u64)length[i] * calls[number].width[i];
        if (size[i] > LARGEST) fail("a request lends too much");
        requested += size[i];
    }
    if (!came(requested)) fail("a request ends early");

    byte *start[SLICES];
    u64 from = HEADER, end = 0; // where the next contents start, where the slice before ends
    for (u32 i = 0; i < slices; from += size[i], i++) {
        u64 width = calls[number].width[i], next = (end + BORDER + width - 1) / width * width;
        put_border(end, next);
        start[i] = memory + next;
        memcpy(start[i], request + from, size[i]);
        end = next + size[i];
    }
    put_border(end, end + BORDER);

    u64 result = call(number, start, length);

    u64 given = sizeof result;
    memcpy(answer, &result, sizeof result);
    from = HEADER, end = 0;
    for (u32 i = 0; i < slices; from += size[i], i++) {
        check_border(end, (u64)(start[i] - memory));
        end = (u64)(start[i] - memory) + size[i];
        if (calls[number].written[i]) {
            memcpy(answer + given, start[i], size[i]);
            given += size[i];
        } else if (memcmp(start[i], request + from, size[i]) != 0) {
            fail("the library wrote what it was lent for reading alone");
        }
    }
    check_border(end, end + BORDER);
    give(given);

    have -= requested;
    memmove(request, request + requested, have);
}

int main(void) {
    while (came(HEADER)) serve();
    if (have != 0) fail("a request ends early");
    return 0;
}
