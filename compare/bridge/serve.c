/* Calls our library for a harness on another processor. The archive is for x86-64, so this program
 * is too, and runs under an emulator; it needs no C library.
 *
 * A request on standard input: eight u32 (function, source length, the sizes of five rooms in
 * elements, a junk byte), then the source. The answer on standard output: a u32 that is 1 if nothing
 * outside a room was written, the seven u32 of a reading (those that another function has, and
 * zeros), then all elements of the rooms. Rooms are filled with junk and stand between guards, the
 * source between bytes that would change the answer if they were read. All is little endian.
 *
 * A cutting's second size is the number of its reading, and is no room's.
 *
 * Stored forms: the source of a check and of a reading is a list, that of a writing its blocks and
 * then its text; a writing's first size counts the words of the blocks, and is no room's. Blocks
 * are read into the fourth room and text into the fifth; a list is written into the fifth. The
 * answer is the refusal and two counts, each as its low and its high half. */

typedef unsigned char u8;
typedef unsigned int u32;
typedef unsigned long usize;

enum { CUT, PLAIN, PARAGRAPHS, STANDARD, STORED_CHECK, STORED_READ, STORED_WRITE };
enum { GUARD = 64, GUARD_BYTE = 0x6B, SPACE = 256 << 20, AHEAD = 1 << 16, BEHIND = 1 << 16 };

struct answer {
    u32 words[7];
};

#ifdef STORED
struct stored_answer {
    u32 refusal;
    usize blocks, text;
};
struct write_answer {
    u32 refusal;
    usize bytes;
};
u32 elduvarn_stored_check(const u8 *, usize);
struct stored_answer elduvarn_stored_read(const u8 *, usize, u32 *, usize, u8 *, usize);
struct write_answer elduvarn_stored_write(const u32 *, usize, const u8 *, usize, u8 *, usize);
#else
struct cut_answer {
    u32 refusal, place, tokens;
};
struct cut_answer elduvarn_cut(const u8 *, usize, u32, u32 *, usize);
#ifndef CUTTER
typedef struct answer reading(const u8 *, usize, u32 *, usize, u32 *, usize, u32 *, usize, u32 *,
                              usize, u8 *, usize);
reading elduvarn_read_plain, elduvarn_read_paragraphs, elduvarn_read_standard;
#endif
#endif

static u8 space[SPACE] __attribute__((aligned(64)));
static usize used;
/* Input that was read ahead. */
static u8 ahead[AHEAD];
static usize ahead_at, ahead_end;
/* Output that is not yet written. */
static u8 behind[BEHIND];
static usize behind_end;

static long call(long number, long a, const void *b, usize c)
{
    long result;
    __asm__ volatile("syscall"
                     : "=a"(result)
                     : "a"(number), "D"(a), "S"(b), "d"(c)
                     : "rcx", "r11", "memory");
    return result;
}

static void leave(int status)
{
    for (;;)
        call(60, status, 0, 0);
}

/* What the compiler and the archive may call. Built without the compiler's own notions of them, so
 * that a loop in them is not made a call of itself; wide steps, since emulated ones are slow. */
typedef usize wide __attribute__((aligned(1), may_alias));

void *memset(void *to, int byte, usize count)
{
    usize eight = (u8)byte * 0x0101010101010101ul, at = 0;
    for (; at + 8 <= count; at += 8)
        *(wide *)((u8 *)to + at) = eight;
    for (; at < count; at++)
        ((u8 *)to)[at] = byte;
    return to;
}

void *memcpy(void *to, const void *from, usize count)
{
    usize at = 0;
    for (; at + 8 <= count; at += 8)
        *(wide *)((u8 *)to + at) = *(const wide *)((const u8 *)from + at);
    for (; at < count; at++)
        ((u8 *)to)[at] = ((const u8 *)from)[at];
    return to;
}

void *memmove(void *to, const void *from, usize count)
{
    if ((usize)to - (usize)from >= count)
        return memcpy(to, from, count);
    while (count-- > 0)
        ((volatile u8 *)to)[count] = ((const u8 *)from)[count];
    return to;
}

int memcmp(const void *one, const void *two, usize count)
{
    for (usize i = 0; i < count; i++) {
        int difference = ((const volatile u8 *)one)[i] - ((const volatile u8 *)two)[i];
        if (difference != 0)
            return difference;
    }
    return 0;
}

static void put(const u8 *from, usize count)
{
    while (count > 0) {
        long part = call(1, 1, from, count);
        if (part <= 0)
            leave(1);
        from += part;
        count -= part;
    }
}

static void flush(void)
{
    put(behind, behind_end);
    behind_end = 0;
}

static void give(const void *from, usize count)
{
    if (behind_end + count > BEHIND)
        flush();
    if (count > BEHIND) {
        put(from, count);
    } else {
        memcpy(behind + behind_end, from, count);
        behind_end += count;
    }
}

/* The end of input ends the program. What was given is written before more input is waited for. */
static void take(u8 *to, usize count)
{
    while (count > 0) {
        if (ahead_at == ahead_end) {
            flush();
            long got = call(0, 0, ahead, AHEAD);
            if (got <= 0)
                leave(got < 0);
            ahead_at = 0;
            ahead_end = got;
        }
        usize part = ahead_end - ahead_at < count ? ahead_end - ahead_at : count;
        memcpy(to, ahead + ahead_at, part);
        ahead_at += part;
        to += part;
        count -= part;
    }
}

/* Bytes between guards, behind those already in use. */
static u8 *lend(usize bytes)
{
    if (used + bytes + 2 * GUARD + 8 > SPACE)
        leave(2);
    u8 *place = space + used + GUARD;
    memset(place - GUARD, GUARD_BYTE, GUARD);
    memset(place + bytes, GUARD_BYTE, GUARD);
    used += (bytes + 2 * GUARD + 7) / 8 * 8;
    return place;
}

static u32 guards_hold(const u8 *place, usize bytes)
{
    for (usize i = 1; i <= GUARD; i++)
        if (place[-(long)i] != GUARD_BYTE || place[bytes + i - 1] != GUARD_BYTE)
            return 0;
    return 1;
}

/* What a call is given: a source, with a reading where it is to be cut, and blocks where it is a
 * writing's text. */
struct given {
    u8 *source;
    usize length;
    u32 *blocks;
    usize words;
    u32 reading;
};

static struct given given_by(u32 *head)
{
    struct given given = {0, head[1], 0, 0, 0};
    if (head[0] == CUT) {
        given.reading = head[3];
        head[3] = 0;
    }
    if (head[0] == STORED_WRITE) {
        given.words = head[2];
        given.length -= 4 * given.words;
        given.blocks = (u32 *)lend(4 * given.words);
        take((u8 *)given.blocks, 4 * given.words);
        head[2] = 0;
    }
    given.source = lend(given.length);
    memset(given.source - GUARD, '\\', GUARD);
    memset(given.source + given.length, '}', GUARD);
    take(given.source, given.length);
    return given;
}

#ifdef STORED
static struct answer counted(u32 refusal, usize one, usize two)
{
    struct answer answer = {{refusal, one, one >> 32, two, two >> 32, 0, 0}};
    return answer;
}

static struct answer answered(u32 function, struct given g, u8 **room, const u32 *sizes)
{
    if (function == STORED_CHECK)
        return counted(elduvarn_stored_check(g.source, g.length), 0, 0);
    if (function == STORED_READ) {
        struct stored_answer read = elduvarn_stored_read(g.source, g.length, (u32 *)room[3],
                                                         sizes[5], room[4], sizes[6]);
        return counted(read.refusal, read.blocks, read.text);
    }
    struct write_answer written =
        elduvarn_stored_write(g.blocks, g.words, g.source, g.length, room[4], sizes[6]);
    return counted(written.refusal, written.bytes, 0);
}
#else
static struct answer answered(u32 function, struct given g, u8 **room, const u32 *sizes)
{
    u32 *words[4];
    (void)function;
    for (int i = 0; i < 4; i++)
        words[i] = (u32 *)room[i];
#ifndef CUTTER
    if (function != CUT) {
        reading *read = function == PLAIN        ? elduvarn_read_plain
                        : function == PARAGRAPHS ? elduvarn_read_paragraphs
                                                 : elduvarn_read_standard;
        return read(g.source, g.length, words[0], sizes[2], words[1], sizes[3], words[2],
                    sizes[4], words[3], sizes[5], room[4], sizes[6]);
    }
#endif
    struct cut_answer cut = elduvarn_cut(g.source, g.length, g.reading, words[0], sizes[2]);
    struct answer answer = {{cut.refusal, cut.place, cut.tokens, 0, 0, 0, 0}};
    return answer;
}
#endif

static void serve(void)
{
    u32 head[8];
    u8 *room[5];
    usize bytes[5];
    take((u8 *)head, sizeof head);
    used = 0;
    struct given given = given_by(head);
    for (int i = 0; i < 5; i++) {
        bytes[i] = (usize)head[2 + i] * (i < 4 ? 4 : 1);
        room[i] = lend(bytes[i]);
        memset(room[i], head[7], bytes[i]);
    }
    struct answer answer = answered(head[0], given, room, head);
    u32 hold = 1;
    for (int i = 0; i < 5; i++)
        hold &= guards_hold(room[i], bytes[i]);
    give(&hold, sizeof hold);
    give(&answer, sizeof answer);
    for (int i = 0; i < 5; i++)
        give(room[i], bytes[i]);
}

void run(void)
{
    for (;;)
        serve();
}

__attribute__((naked)) void _start(void)
{
    __asm__("xor %ebp, %ebp\n\tand $-16, %rsp\n\tcall run");
}
