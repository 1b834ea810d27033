/* The library's calls, answered over a pipe (emulated.rs asks): the archive for Arm answers so
 * under an emulator, and that for x86-64 as it is. No C library: three system calls, memset and
 * memcpy.
 *
 * A question is 13 words of 64 bits (what is asked, three numbers, the lengths of job,
 * work, pairs, out, ids, map, log and origins, and whether the pairs hold anything), then what is
 * lent, the report of 16 words last. The answer is a word, then of a call that has a report
 * everything lent but the job, with a word before the pairs that says whether they hold
 * anything. Pairs that hold nothing are zeros, and are not sent. Of a glyph map written the
 * output follows the word; its words were lent as work. So of a width table, whose store is
 * the job. A store that is recovered or cut down is the job, too; one that is judged is the
 * output. Rows and words of sets are lent as ids, places as the map. Of a question to a job and
 * its store both go as the job, one behind the other; the third number is the length of the
 * first, the second has the question's two numbers, the lower half first. */
typedef unsigned char u8;
typedef unsigned int u32;
typedef unsigned long u64;
typedef struct {
    u32 gain, first, second;
} pair;

u64 ivs_work_words(u64 records, u64 regions);
u64 ivs_head_regions(u32 axes, const u8 *job, u64 job_len);
u32 ivs_build(u32 axes, u32 mode, const u8 *job, u64 job_len, u32 *work, u64 work_len, pair *pairs, u64 pairs_len,
              u8 *out, u64 out_len, u32 *ids, u64 ids_len, u32 *map, u64 map_len, u32 *log, u64 log_len, u32 *origins,
              u64 origins_len, u64 *report);
u32 ivs_build_panel(u32 axes, u32 mode, const u8 *job, u64 job_len, u32 *work, u64 work_len, pair *pairs, u64 pairs_len,
                    u8 *out, u64 out_len, u32 *ids, u64 ids_len, u32 *map, u64 map_len, u32 *log, u64 log_len,
                    u32 *origins, u64 origins_len, u64 *report);
u32 ivs_forecast(u32 axes, u32 mode, const u8 *job, u64 job_len, u32 *work, u64 work_len, pair *pairs, u64 pairs_len,
                 u64 *report);
u32 ivs_part(u32 axes, const u8 *job, u64 job_len, u32 first, u32 second, u32 *work, u64 work_len, u64 *report);
u32 ivs_why(u32 axes, const u8 *job, u64 job_len, const u8 *store, u64 store_len, u32 first, u32 second, u32 *work,
            u64 work_len, pair *pairs, u64 pairs_len, u8 *out, u64 out_len, u32 *ids, u64 ids_len, u32 *map,
            u64 map_len, u32 *log, u64 log_len, u32 *origins, u64 origins_len, u64 *report);
u32 ivs_show(u32 axes, const u8 *job, u64 job_len, const u8 *store, u64 store_len, u32 id, u32 what, u32 *work,
             u64 work_len, pair *pairs, u64 pairs_len, u8 *out, u64 out_len, u32 *ids, u64 ids_len, u32 *map,
             u64 map_len, u32 *log, u64 log_len, u32 *origins, u64 origins_len, u64 *report);
u64 ivs_read(const u8 *store, u64 store_len, u32 outer, u32 inner, u32 region);
u64 ivs_write_glyphs(const u32 *words, u64 words_len, u8 *out, u64 out_len);
u64 ivs_read_glyph(const u8 *map, u64 map_len, u32 glyph);
u64 ivs_write_widths(const u8 *store, u64 store_len, const u32 *words, u64 words_len, u8 *out, u64 out_len);
u64 ivs_read_width(const u8 *table, u64 table_len, u32 glyph, u32 region);
u64 ivs_recover_words(u64 bytes);
u32 ivs_recover(const u8 *store, u64 store_len, u32 *work, u64 work_len, u8 *out, u64 out_len, u64 *report);
u64 ivs_judge_words(u64 records, u64 regions, u64 bytes);
u32 ivs_judge(u32 axes, const u8 *job, u64 job_len, const u8 *store, u64 store_len, const u32 *words, u64 words_len,
              u32 *work, u64 work_len, u64 *report);
u64 ivs_keep_words(u64 bytes, u64 rows);
u32 ivs_keep(const u8 *store, u64 store_len, const u32 *rows, u64 rows_len, u32 *work, u64 work_len, u8 *out,
             u64 out_len, u32 *places, u64 places_len, u64 *report);

#if defined __aarch64__
enum { SYS_READ = 63, SYS_WRITE = 64, SYS_MMAP = 222, SYS_EXIT = 94 };
static long system_call(long number, long a, long b, long c, long d, long e, long f) {
    register long x8 __asm__("x8") = number;
    register long x0 __asm__("x0") = a;
    register long x1 __asm__("x1") = b;
    register long x2 __asm__("x2") = c;
    register long x3 __asm__("x3") = d;
    register long x4 __asm__("x4") = e;
    register long x5 __asm__("x5") = f;
    __asm__ volatile("svc 0" : "+r"(x0) : "r"(x8), "r"(x1), "r"(x2), "r"(x3), "r"(x4), "r"(x5) : "memory");
    return x0;
}
#define START
#else
enum { SYS_READ = 0, SYS_WRITE = 1, SYS_MMAP = 9, SYS_EXIT = 231 };
static long system_call(long number, long a, long b, long c, long d, long e, long f) {
    register long r10 __asm__("r10") = d;
    register long r8 __asm__("r8") = e;
    register long r9 __asm__("r9") = f;
    long answer;
    __asm__ volatile("syscall"
                     : "=a"(answer)
                     : "a"(number), "D"(a), "S"(b), "d"(c), "r"(r10), "r"(r8), "r"(r9)
                     : "rcx", "r11", "memory");
    return answer;
}
#define START __attribute__((force_align_arg_pointer))
#endif

static void leave(int status) {
    for (;;) system_call(SYS_EXIT, status, 0, 0, 0, 0, 0);
}

void *memset(void *at, int byte, u64 count) {
    u8 *p = at;
    u64 word = (u8)byte * 0x0101010101010101ul;
    for (; count >= 8; count -= 8, p += 8) *(u64 *)p = word;
    for (; count > 0; count--) *p++ = (u8)byte;
    return at;
}

void *memcpy(void *to, const void *from, u64 count) {
    u8 *p = to;
    const u8 *q = from;
    for (; count > 0; count--) *p++ = *q++;
    return to;
}

static void take(u8 *at, u64 count) {
    while (count > 0) {
        long got = system_call(SYS_READ, 0, (long)at, (long)count, 0, 0, 0);
        if (got <= 0) leave(got < 0);
        at += got;
        count -= (u64)got;
    }
}

static void give(const u8 *at, u64 count) {
    while (count > 0) {
        long put = system_call(SYS_WRITE, 1, (long)at, (long)count, 0, 0, 0);
        if (put <= 0) leave(1);
        at += put;
        count -= (u64)put;
    }
}

/* Whether a byte of these is not zero; so many words at a time, which the compiler makes wide. */
static int holds(const u8 *at, u64 count) {
    while (count >= 512) {
        u64 any = 0;
        for (int i = 0; i < 64; i++) any |= ((const u64 *)at)[i];
        if (any) return 1;
        at += 512;
        count -= 512;
    }
    for (; count > 0; count--)
        if (*at++) return 1;
    return 0;
}

/* What is lent lies in here, each part at a multiple of 16; the pairs apart from the rest, so that they need not be
 * cleared again where they have not been written to. */
#define ROOM (1ul << 30)
#define PAIRS_ROOM (1ul << 25)

/* What is asked. */
enum { WORK_WORDS, BUILD, READ, WRITE_GLYPHS, READ_GLYPH, FORECAST, PART, BUILD_PANEL, WHY, SHOW };
enum { WRITE_WIDTHS = 20, READ_WIDTH };
enum { HEAD_REGIONS = 29, RECOVER_WORDS, RECOVER, JUDGE_WORDS, JUDGE, KEEP_WORDS, KEEP };

/* The parts of a question, with the bytes of one of each. */
enum { JOB, WORK, PAIRS, OUT, IDS, MAP, LOG, ORIGINS, REPORT, PARTS };
static const u64 size[PARTS] = {1, 4, sizeof(pair), 1, 4, 4, 4, 4, 8};

/* So many bytes of the pairs' room, from its start, may be other than zero. */
static u64 used_pairs;

/* The pairs of a question. */
static void take_pairs(u8 *pairs, u64 bytes, u64 held) {
    if (bytes > PAIRS_ROOM) leave(3);
    if (held) {
        take(pairs, bytes);
        if (used_pairs < bytes) used_pairs = bytes;
    } else {
        memset(pairs, 0, used_pairs);
        used_pairs = 0;
    }
}

/* The pairs of an answer. */
static void give_pairs(const u8 *pairs, u64 bytes) {
    u64 held = (u64)holds(pairs, bytes);
    if (used_pairs <= bytes) used_pairs = held ? bytes : 0;
    give((u8 *)&held, sizeof held);
    if (held) give(pairs, bytes);
}

static u64 build(const u64 *asked, const u64 *count, u8 **at) {
    return ivs_build((u32)asked[1], (u32)asked[2], at[JOB], count[JOB], (u32 *)at[WORK], count[WORK], (pair *)at[PAIRS],
                     count[PAIRS], at[OUT], count[OUT], (u32 *)at[IDS], count[IDS], (u32 *)at[MAP], count[MAP],
                     (u32 *)at[LOG], count[LOG], (u32 *)at[ORIGINS], count[ORIGINS], (u64 *)at[REPORT]);
}

static u64 build_panel(const u64 *asked, const u64 *count, u8 **at) {
    return ivs_build_panel((u32)asked[1], (u32)asked[2], at[JOB], count[JOB], (u32 *)at[WORK], count[WORK],
                           (pair *)at[PAIRS], count[PAIRS], at[OUT], count[OUT], (u32 *)at[IDS], count[IDS],
                           (u32 *)at[MAP], count[MAP], (u32 *)at[LOG], count[LOG], (u32 *)at[ORIGINS], count[ORIGINS],
                           (u64 *)at[REPORT]);
}

static u64 forecast(const u64 *asked, const u64 *count, u8 **at) {
    return ivs_forecast((u32)asked[1], (u32)asked[2], at[JOB], count[JOB], (u32 *)at[WORK], count[WORK],
                        (pair *)at[PAIRS], count[PAIRS], (u64 *)at[REPORT]);
}

static u64 part(const u64 *asked, const u64 *count, u8 **at) {
    return ivs_part((u32)asked[1], at[JOB], count[JOB], (u32)asked[2], (u32)asked[3], (u32 *)at[WORK], count[WORK],
                    (u64 *)at[REPORT]);
}

/* A question to a job and its store: why, or what shows an id. */
static u64 question(const u64 *asked, const u64 *count, u8 **at) {
    u32 (*call)(u32, const u8 *, u64, const u8 *, u64, u32, u32, u32 *, u64, pair *, u64, u8 *, u64, u32 *, u64, u32 *,
                u64, u32 *, u64, u32 *, u64, u64 *) = asked[0] == WHY ? ivs_why : ivs_show;
    if (asked[3] > count[JOB]) leave(3);
    return call((u32)asked[1], at[JOB], asked[3], at[JOB] + asked[3], count[JOB] - asked[3], (u32)asked[2],
                (u32)(asked[2] >> 32), (u32 *)at[WORK], count[WORK], (pair *)at[PAIRS], count[PAIRS], at[OUT],
                count[OUT], (u32 *)at[IDS], count[IDS], (u32 *)at[MAP], count[MAP], (u32 *)at[LOG], count[LOG],
                (u32 *)at[ORIGINS], count[ORIGINS], (u64 *)at[REPORT]);
}

static u64 recover(const u64 *count, u8 **at) {
    return ivs_recover(at[JOB], count[JOB], (u32 *)at[WORK], count[WORK], at[OUT], count[OUT], (u64 *)at[REPORT]);
}

static u64 judge(const u64 *asked, const u64 *count, u8 **at) {
    return ivs_judge((u32)asked[1], at[JOB], count[JOB], at[OUT], count[OUT], (u32 *)at[IDS], count[IDS],
                     (u32 *)at[WORK], count[WORK], (u64 *)at[REPORT]);
}

static u64 keep(const u64 *count, u8 **at) {
    return ivs_keep(at[JOB], count[JOB], (u32 *)at[IDS], count[IDS], (u32 *)at[WORK], count[WORK], at[OUT], count[OUT],
                    (u32 *)at[MAP], count[MAP], (u64 *)at[REPORT]);
}

static u64 answered(const u64 *asked, const u64 *count, u8 **at) {
    switch (asked[0]) {
    case WORK_WORDS: return ivs_work_words(asked[1], asked[2]);
    case HEAD_REGIONS: return ivs_head_regions((u32)asked[1], at[JOB], count[JOB]);
    case BUILD: return build(asked, count, at);
    case BUILD_PANEL: return build_panel(asked, count, at);
    case FORECAST: return forecast(asked, count, at);
    case PART: return part(asked, count, at);
    case WHY:
    case SHOW: return question(asked, count, at);
    case WRITE_GLYPHS: return ivs_write_glyphs((u32 *)at[WORK], count[WORK], at[OUT], count[OUT]);
    case WRITE_WIDTHS:
        return ivs_write_widths(at[JOB], count[JOB], (u32 *)at[WORK], count[WORK], at[OUT], count[OUT]);
    case READ_WIDTH: return ivs_read_width(at[JOB], count[JOB], (u32)asked[1], (u32)asked[2]);
    case RECOVER_WORDS: return ivs_recover_words(asked[1]);
    case RECOVER: return recover(count, at);
    case JUDGE_WORDS: return ivs_judge_words(asked[1], asked[2], asked[3]);
    case JUDGE: return judge(asked, count, at);
    case KEEP_WORDS: return ivs_keep_words(asked[1], asked[2]);
    case KEEP: return keep(count, at);
    case READ_GLYPH: return ivs_read_glyph(at[JOB], count[JOB], (u32)asked[1]);
    default: return ivs_read(at[JOB], count[JOB], (u32)asked[1], (u32)asked[2], (u32)asked[3]);
    }
}

/* Whether the call has a report. */
static int reports(u64 what) {
    return what == BUILD || what == BUILD_PANEL || what == FORECAST || what == PART || what == WHY ||
           what == SHOW || what == RECOVER || what == JUDGE || what == KEEP;
}

START void _start(void) {
    u8 *room = (u8 *)system_call(SYS_MMAP, 0, ROOM + PAIRS_ROOM, 3, 0x4022, -1, 0);
    if ((long)room < 0) leave(2);
    for (;;) {
        u64 asked[13], bytes[PARTS], answer, used = 0;
        const u64 *count = asked + 4;
        u8 *at[PARTS];
        take((u8 *)asked, sizeof asked);
        u64 held = asked[12];
        asked[12] = 16; /* words of the report */
        for (int i = 0; i < PARTS; i++) {
            bytes[i] = count[i] * size[i];
            if (i == PAIRS) {
                at[i] = room + ROOM;
                take_pairs(at[i], bytes[i], held);
                continue;
            }
            at[i] = room + used;
            used += (bytes[i] + 31) / 16 * 16;
            if (used > ROOM) leave(3);
            take(at[i], bytes[i]);
        }
        answer = answered(asked, count, at);
        give((u8 *)&answer, sizeof answer);
        if (asked[0] == WRITE_GLYPHS || asked[0] == WRITE_WIDTHS) give(at[OUT], bytes[OUT]);
        if (!reports(asked[0])) continue;
        for (int i = WORK; i < PARTS; i++) {
            if (i == PAIRS) {
                give_pairs(at[i], bytes[i]);
            } else {
                give(at[i], bytes[i]);
            }
        }
    }
}
