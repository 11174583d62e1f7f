/* Calls bench_pairs once on 64 left rows and N right rows of 4 cells. The condition is one comparison OP of the rows' first cells:
   Ints, or with TEXT=1 texts of 8 bytes, each side's at places of its own. The exit status is the low bits of the entry count. */
typedef unsigned long u64;
typedef unsigned char u8;

u64 bench_pairs(const u64 *nodes, u64 nodes_n, u64 count, const u64 *lefts, u64 lefts_n, u64 left_width, u64 m,
                const u64 *rights, u64 rights_n, u64 right_width, u64 n, u8 *text, u64 text_n, u64 used,
                u64 *froms, u64 froms_n, u64 *tos, u64 tos_n);

void *memcpy(void *to, const void *from, u64 n) {
    u8 *a = to;
    const u8 *b = from;
    while (n--) *a++ = *b++;
    return to;
}

#define KIND(k) ((u64)(k) << 56)
#define W 4

static u64 lefts[64 * W], rights[256 * W], nodes[64], froms[4096], tos[4096];
static u8 text[65536];

static void put_text(u64 at, u64 i) {
    for (u64 c = 0; c < 8; c++) text[at + c] = '0' + (c < 5 ? 0 : c == 5 ? i / 100 : c == 6 ? i / 10 % 10 : i % 10);
}

void run(void) {
    u64 used = 0;
    for (u64 i = 0; i < 64; i++)
        for (u64 c = 0; c < W; c++) lefts[i * W + c] = KIND(1) + i * 7 + c;
    for (u64 i = 0; i < 256; i++)
        for (u64 c = 0; c < W; c++) rights[i * W + c] = KIND(1) + i * 5 + c;
    if (TEXT) {
        used = 4096;
        for (u64 i = 0; i < 256; i++) put_text(i * 8, i), put_text(2048 + i * 8, i);
        for (u64 i = 0; i < 64; i++) lefts[i * W] = KIND(2) + i * 8 * 65536 + 8;
        for (u64 i = 0; i < 256; i++) rights[i * W] = KIND(2) + (2048 + i * 8) * 65536 + 8;
    }
    nodes[0] = KIND(4);
    nodes[1] = KIND(4) + W;
    nodes[2] = KIND(OP);
    u64 k = bench_pairs(nodes, 64, 3, lefts, 64 * W, W, 64, rights, N * W, W, N, text, 65536, used, froms, 4096, tos, 4096);
    __asm__ volatile("syscall" ::"a"(60ul), "D"(k & 127) : "rcx", "r11", "memory");
    __builtin_unreachable();
}

__asm__(".globl _start\n_start: and $-16, %rsp\n call run\n");
