/* The archive as a process of its own: it is x86-64 code, and what compares it
   may run on another machine. Its argument is a file whose memory it shares;
   the buffers of a call lie there. It reads requests from standard input and
   writes answers to standard output; all numbers are 64-bit and little-endian.

   At the start it writes where the shared memory lies, and a number with a bit
   for each call (by docs/CASES.md's number) that the archive has. A request is
   the call's number and 15 arguments in the order of include/ruffleknoll.h,
   zeros after the last. The answer is four numbers: refusal number, place,
   value, mark; `row` has its start and length as the last two, `earlier` its
   answer as value. It ends with status 0 at the end of its input.

   It needs no C library, so that the kit's compiler is all it takes. */

#include "ruffleknoll.h"

typedef unsigned long word;

enum { ARGUMENTS = 15 };

static struct {
    word call, arguments[ARGUMENTS];
} request;

static long system_call(long number, long first, long second, long third, long fourth, long fifth)
{
    register long r10 __asm__("r10") = fourth;
    register long r8 __asm__("r8") = fifth;
    register long r9 __asm__("r9") = 0;
    long result;
    __asm__ volatile("syscall"
                     : "=a"(result)
                     : "a"(number), "D"(first), "S"(second), "d"(third), "r"(r10), "r"(r8), "r"(r9)
                     : "rcx", "r11", "memory");
    return result;
}

static void leave(int status)
{
    for (;;)
        system_call(60, status, 0, 0, 0, 0);
}

/* Reads (0) or writes (1) all of it; false where the other side has ended. */
static int transfer(int number, void *start, word length)
{
    unsigned char *at = start;
    while (length > 0) {
        long count = system_call(number, number, (long)at, (long)length, 0, 0);
        if (count <= 0)
            return 0;
        at += count;
        length -= (word)count;
    }
    return 1;
}

/* Maps the whole file to read and to write, shared. */
static word shared_memory(const char *path)
{
    long file = system_call(2, (long)path, 2, 0, 0, 0);
    long length = file < 0 ? file : system_call(8, file, 0, 2, 0, 0);
    long start = length < 0 ? length : system_call(9, 0, length, 3, 1, file);
    if (start < 0)
        leave(2);
    return (word)start;
}

/* What a compiler may call without being asked. */
void *memset(void *to, int byte, word length)
{
    for (unsigned char *at = to; length > 0; length--)
        *at++ = (unsigned char)byte;
    return to;
}

void *memcpy(void *to, const void *from, word length)
{
    const unsigned char *source = from;
    for (unsigned char *at = to; length > 0; length--)
        *at++ = *source++;
    return to;
}

void *memmove(void *to, const void *from, word length)
{
    if ((word)to - (word)from >= length)
        return memcpy(to, from, length);
    while (length-- > 0)
        ((unsigned char *)to)[length] = ((const unsigned char *)from)[length];
    return to;
}

#define BYTES(i) (const unsigned char *)a[i], a[i + 1]
#define WORDS(i) (const word *)a[i], a[i + 1]
#define TEXT(i) (unsigned char *)a[i], a[i + 1], a[i + 2]
#define BYTES_OUT(i) (unsigned char *)a[i], a[i + 1]
#define WORDS_OUT(i) (word *)a[i], a[i + 1]

/* The calls that read one row, or choose between two. */
static struct ruffleknoll_answer read_row(word call, const word *a)
{
    if (call == 17)
        return (struct ruffleknoll_answer){0, 0, ruffleknoll_earlier(WORDS(0), TEXT(2), WORDS(5), WORDS(7)), 0};
    struct ruffleknoll_part part = ruffleknoll_row(WORDS(0), a[2], a[3]);
    return (struct ruffleknoll_answer){0, 0, part.start, part.length};
}

static struct ruffleknoll_answer ask(word call, const word *a)
{
    switch (call) {
    case 16:
    case 17:
        return read_row(call, a);
    case 18:
        return ruffleknoll_evaluate(BYTES(0), WORDS(2), TEXT(4));
    case 19:
        return ruffleknoll_fold(BYTES(0), TEXT(2), BYTES_OUT(5));
    case 20:
        return ruffleknoll_bind(BYTES(0), WORDS(2), TEXT(4), BYTES_OUT(7));
    case 21:
        return ruffleknoll_with(BYTES(0), BYTES(2), TEXT(4), BYTES_OUT(7));
    case 22:
        return ruffleknoll_print(BYTES(0), TEXT(2), BYTES_OUT(5));
    case 23:
        return ruffleknoll_inner_join_columns(BYTES(0), WORDS(2), BYTES(4), WORDS(6), TEXT(8), WORDS_OUT(11));
    case 24:
        return ruffleknoll_left_join_columns(BYTES(0), WORDS(2), BYTES(4), WORDS(6), TEXT(8), WORDS_OUT(11));
    case 25:
        return ruffleknoll_select(WORDS(0), WORDS(2), WORDS(4), BYTES(6), TEXT(8), WORDS_OUT(11));
    case 26:
        return ruffleknoll_inner_join(WORDS(0), WORDS(2), WORDS(4), WORDS(6), BYTES(8), TEXT(10), WORDS_OUT(13));
    case 27:
        return ruffleknoll_left_join(WORDS(0), WORDS(2), WORDS(4), WORDS(6), BYTES(8), TEXT(10), WORDS_OUT(13));
    case 28:
        return ruffleknoll_delete(WORDS(0), WORDS(2), BYTES(4), TEXT(6), WORDS_OUT(9));
    case 29:
        return ruffleknoll_update(WORDS(0), WORDS(2), WORDS(4), BYTES(6), TEXT(8), WORDS_OUT(11));
    case 30:
        return ruffleknoll_insert(WORDS(0), WORDS(2), WORDS(4), TEXT(6), WORDS_OUT(9));
    }
    leave(3);
    return (struct ruffleknoll_answer){0};
}

/* A bit for each call that stands above. */
static word calls(void)
{
    return (1ul << 31) - (1ul << 16);
}

/* The stack has the count of words that the process was called by, then each. */
__asm__(".globl _start\n_start: mov %rsp, %rdi\n and $-16, %rsp\n call start\n");

__attribute__((used)) void start(const word *stack)
{
    if (stack[0] != 2)
        leave(2);
    word greeting[2] = {shared_memory((const char *)stack[2]), calls()};
    if (!transfer(1, greeting, sizeof greeting))
        leave(2);
    while (transfer(0, &request, sizeof request)) {
        struct ruffleknoll_answer answer = ask(request.call, request.arguments);
        if (!transfer(1, &answer, sizeof answer))
            leave(2);
    }
    leave(0);
}
