// A library to load before the program (LD_PRELOAD) that calls its `main` again and again in one process, on mutated inputs.
//
// A case is fixed by the seed and its number: the words, and the input, which is a made script or one of those that were given, mutated.
// The program is run on it twice, and has to answer the same; once as `check`, which has to refuse the same scripts by the same line; and
// once disturbed: an allocation is refused, a read or a write fails, or reads and writes are short. Each answer has to be of its form, a
// text whole with status 0 and 1 alone, and all memory given back. A trace that was written is given back to `verify`, which has to say
// that it is a run, and to `span`; then it is mutated, and both have to agree on it. Another answer, a crash or a hang is told with the
// number of the case.
//
//   STORM_SEED=n  STORM_FIRST=n (the number of the first case)  STORM_CASES=n  STORM_SECONDS=n  STORM_SCRIPTS=PATH:PATH..
//   STORM_SHOW=1  writes the words and the input of the first case and ends
//   STORM_KEEP=PATH  a pair of script and trace that has a wrong answer is written there
//
// The program has to be started with at least WORDS words, whose places in the list it is given the words of the cases.
#define _GNU_SOURCE
#include <dlfcn.h>
#include <errno.h>
#include <fcntl.h>
#include <setjmp.h>
#include <signal.h>
#include <stdarg.h>
#include <stdatomic.h>
#include <stdint.h>
#include <stdio.h>
#include <stdlib.h>
#include <string.h>
#include <sys/mman.h>
#include <sys/syscall.h>
#include <sys/time.h>
#include <time.h>
#include <unistd.h>

#define WORDS 44
#define ROOM (1L << 29)         // of addresses for a text; pages are taken as they are written
#define LIMIT 65536             // bytes of a script
#define PAIR (1L << 19)         // bytes of a script with its trace; longer ones are left out
#define HANG 100                // seconds of processor time that a run may take; the longest takes less than one

void *__libc_malloc(size_t);
void *__libc_realloc(void *, size_t);
void __libc_free(void *);
ssize_t __read(int, void *, size_t);
ssize_t __write(int, const void *, size_t);

typedef struct {
    int status;
    size_t out_len, err_len;
    char *out, err[256];
} Answer;

typedef struct {                // what disturbs a run; numbers count from 1
    long alloc, alloc_from, read, write, read_max, write_max;
} Trouble;

static int running;             // whether the program runs now, and calls are ours
static Answer *answer;
static Trouble trouble;
static long reads, writes;
static atomic_long allocs, held;
static char input[LIMIT + 4096];
static size_t input_len;
static char pair[PAIR + 8192];  // a script with a trace
static size_t pair_len;
static const char *source = input;
static size_t source_len, source_at;
static char *list[WORDS + 1];   // the words of the case, the program's own name at the front
static char words[1 << 20];
static size_t words_len;
static int count;
static long number;
static uint64_t state;

static void too_long(void);

// The calls of the program.

static int refuses(void) {
    if (!running) return 0;
    long n = atomic_fetch_add(&allocs, 1) + 1;
    return n == trouble.alloc || (trouble.alloc_from && n >= trouble.alloc_from);
}

void *malloc(size_t n) {
    if (refuses()) return NULL;
    void *made = __libc_malloc(n);
    if (running && made) held++;
    return made;
}

void *realloc(void *block, size_t n) {
    if (refuses()) return NULL;
    void *made = __libc_realloc(block, n);
    if (running && made && !block) held++;
    return made;
}

void free(void *block) {
    if (running && block) held--;
    __libc_free(block);
}

static size_t least(size_t a, size_t b) { return a < b ? a : b; }

ssize_t read(int fd, void *buf, size_t n) {
    if (fd != 0 || !running) return __read(fd, buf, n);
    if (++reads == trouble.read) {
        errno = EIO;
        return -1;
    }
    n = least(n, source_len - source_at);
    if (trouble.read_max) n = least(n, (size_t)trouble.read_max);
    memcpy(buf, source + source_at, n);
    source_at += n;
    return (ssize_t)n;
}

ssize_t write(int fd, const void *buf, size_t n) {
    if (!running || fd > 2) return __write(fd, buf, n);
    if (fd == 2) {
        n = least(n, sizeof answer->err - answer->err_len);
        memcpy(answer->err + answer->err_len, buf, n);
        answer->err_len += n;
        return (ssize_t)n;
    }
    if (++writes == trouble.write) {
        errno = ENOSPC;
        return -1;
    }
    if (trouble.write_max) n = least(n, (size_t)trouble.write_max);
    if (n > ROOM - answer->out_len) too_long();
    memcpy(answer->out + answer->out_len, buf, n);
    answer->out_len += n;
    return (ssize_t)n;
}

// A program that may start threads ends by this call.

static jmp_buf ended;
static int end_status;

void _exit(int status) {
    if (running) {
        end_status = status;
        longjmp(ended, 1);
    }
    for (;;) syscall(SYS_exit_group, status);
}

// What is told, and the end.

static void tell(const char *form, ...) {
    char line[1024];
    va_list rest;
    va_start(rest, form);
    int n = vsnprintf(line, sizeof line, form, rest);
    va_end(rest);
    running = 0;
    if (__write(1, line, n < 0 ? 0 : least((size_t)n, sizeof line - 1)) < 0) _exit(5);
}

static void fail(const char *what) {
    char *path = getenv("STORM_KEEP");
    int fd = path && source == pair ? open(path, O_WRONLY | O_CREAT | O_TRUNC, 0644) : -1;
    if (fd >= 0 && __write(fd, pair, pair_len) < 0) close(fd);
    tell("FAILED case %ld: %s\n", number, what);
    _exit(4);
}

static void too_long(void) { fail("a text that no script has"); }

static void fault(int signal) {
    running = 0;
    fail(signal == SIGPROF ? "hangs" : signal == SIGABRT ? "aborts" : signal == SIGFPE ? "divides by zero" : "crashes");
}

// Numbers by chance (SplitMix64).

static uint64_t chance(void) {
    uint64_t z = (state += 0x9e3779b97f4a7c15u);
    z = (z ^ (z >> 30)) * 0xbf58476d1ce4e5b9u;
    z = (z ^ (z >> 27)) * 0x94d049bb133111ebu;
    return z ^ (z >> 31);
}

static long below(long n) { return (long)(chance() % (uint64_t)n); }
static int one_in(long n) { return below(n) == 0; }

// Scripts.

static char *given[64];
static size_t given_len[64];
static int givens;
static long left;               // statements that may still be made

static void put(const char *form, ...) {
    if (input_len > LIMIT) return;
    va_list rest;
    va_start(rest, form);
    int n = vsnprintf(input + input_len, sizeof input - input_len, form, rest);
    va_end(rest);
    input_len = least(input_len + (size_t)n, sizeof input - 1);
}

// (the order in which a call's arguments are made is the compiler's, so no call has two of them by chance)
static void expression(int depth) {
    static const char *signs[] = {"+", "-", "*", "<", "=="};
    switch (depth > 4 ? below(3) : below(6)) {
    case 0: put("%ld", one_in(40) ? 9223372036854775807 - below(3) : below(6)); break;
    case 1: put("n%ld", below(3)); break;
    case 2: if (one_in(2)) put("here"); else put("%ld", below(4)); break;
    case 3: put("n%ld", one_in(30) ? below(6) : below(3)); break;
    case 4: put("%ld", below(3)); break;
    default:
        put("(");
        expression(depth + 1);
        put(" %s ", signs[below(5)]);
        expression(depth + 1);
        put(")");
    }
}

static void block(int depth);

static void statement(int depth) {
    left--;
    int deep = depth > 7 && !one_in(100);
    switch (deep ? below(8) : below(20)) {
    case 0: case 1: put("set n%ld = ", below(4)); expression(0); put("; "); break;
    case 2: put("new r%ld = ", below(3)); put("%ld; ", 1 + below(5)); break;
    case 3:
        if (one_in(3)) { put("census n%ld; ", below(4)); break; }
        put("get n%ld = ", below(3)); put("r%ld[", below(2)); expression(3); put("]; ");
        break;
    case 4: put("put r%ld[", below(2)); expression(3); put("] = "); expression(2); put("; "); break;
    case 5: put("forget r%ld; ", below(2)); break;
    case 6: put("print "); expression(0); put("; "); break;
    case 7: if (one_in(2)) { put("throw "); expression(3); put("; "); } else { put("print %ld; ", below(10)); } break;
    case 8: case 9: put("async "); block(depth + 1); break;
    case 10: case 11: case 12: put("at "); expression(4); put(" async "); block(depth + 1); break;
    case 13: put("at "); expression(4); put(" "); block(depth + 1); break;
    case 14: case 15: case 16: put("finish "); block(depth + 1); break;
    case 17: put("if "); expression(2); put(" "); block(depth + 1); put("else "); block(depth + 1); break;
    case 18: put("repeat %ld ", below(4)); block(depth + 1); break;
    default: put("try "); block(depth + 1); put(one_in(2) ? "catch " : "catch dead "); block(depth + 1);
    }
}

static void block(int depth) {
    put("{ ");
    for (long n = below(4); n > 0 && left > 0; n--) statement(depth);
    put("} ");
}

static void make_script(void) {
    input_len = 0;
    if (!one_in(10)) {
        for (int k = 0; k < 2; k++) put("set n%d = %ld; ", k, below(5));
        for (int k = 0; k < 2; k++) put("new r%d = %ld; ", k, 1 + below(4));
        put("set n2 = here; ");
    }
    for (left = 2 + below(30); left > 0;) statement(0);
}

static void put_in(char *text, size_t *len, size_t most, size_t from, size_t to, const char *bytes, size_t n) {
    size_t tail = *len - to;
    if (from + n + tail > most) return;
    memmove(text + from + n, text + to, tail);
    memcpy(text + from, bytes, n);
    *len = from + n + tail;
}

static void replace(size_t from, size_t to, const char *bytes, size_t n) { put_in(input, &input_len, LIMIT + 64, from, to, bytes, n); }

static void mutate(void) {
    static const char *tokens[] = {"{", "}", "(", ")", "[", "]", "=", ";", "+", "==", "<", ",", "set ", "new ", "get ", "put ", "forget ",
        "print ", "throw ", "async ", "at ", "finish ", "if ", "else ", "repeat ", "try ", "catch ", "dead ", "here ", "census ", " 0",
        " 1", " 9223372036854775808", " 00", "#", "\n", "n0", "r0", "x", "finish {", "at 1 async {", "try {", "} catch dead {", "} catch {",
        "abcdefghijklmnopq", "\xff", "\x01"};
    char piece[4096];
    size_t at = (size_t)below((long)input_len + 1);
    size_t to = at + least((size_t)below(one_in(4) ? 200 : 8), input_len - at);
    size_t n = least(to - at, sizeof piece);
    switch (below(9)) {
    case 0: if (at < input_len) input[at] = (char)chance(); break;
    case 1: if (at < input_len) input[at] ^= (char)(1 << below(7)); break;
    case 2: replace(at, to, "", 0); break;
    case 3: memcpy(piece, input + at, n); replace(to, to, piece, n); break;
    case 4: memcpy(piece, input + at, n); at = (size_t)below((long)input_len + 1); replace(at, at, piece, n); break;
    case 5: if (one_in(4)) input_len = at; break;
    case 6: case 7: {
        const char *token = tokens[below(sizeof tokens / sizeof *tokens)];
        if (one_in(2)) to = at;
        replace(at, to, token, strlen(token));
        break;
    }
    default:
        if (givens) {
            int k = (int)below(givens);
            size_t from = (size_t)below((long)given_len[k] + 1);
            replace(at, to, given[k] + from, least((size_t)below(60), given_len[k] - from));
        }
    }
    if (one_in(1500)) {             // a long row of one token
        const char *token = tokens[below(sizeof tokens / sizeof *tokens)];
        for (long k = 1 + below(30000); k > 0 && input_len < LIMIT; k--) replace(at, at, token, strlen(token));
    }
}

// Numbers after `repeat` are cut to one or two digits, but for a few, so that most runs are short.
static void shorten(void) {
    if (one_in(2000)) return;
    long digits = one_in(20) ? 2 : 1;
    for (size_t k = 0; k + 7 < input_len; k++) {
        if (memcmp(input + k, "repeat", 6)) continue;
        size_t at = k + 6;
        while (at < input_len && (input[at] < '0' || input[at] > '9') && input[at] != '{') at++;
        for (long n = 0; at < input_len && input[at] >= '0' && input[at] <= '9'; at++)
            if (++n > digits) input[at] = ' ';
    }
}

// Words.

static void word(const char *form, ...) {
    if (count >= WORDS) return;
    va_list rest;
    va_start(rest, form);
    int n = vsnprintf(words + words_len, sizeof words - words_len, form, rest);
    va_end(rest);
    list[++count] = words + words_len;
    words_len += (size_t)n + 1;
}

static void make_words(void) {
    words_len = 0;
    count = 0;
    int gen = one_in(12);
    word(gen ? "gen" : "step");
    if (gen) { word("--size"); word("%ld", one_in(50) ? 1 + below(300) : 1 + below(12)); }
    long places = 2, joins = 0, joined[3];
    if (!one_in(3)) { word("--places"); word("%ld", places = one_in(8) ? 1 + below(16) : 2 + below(4)); }
    if (one_in(4)) { word("--heap"); word("%ld", one_in(20) ? 4096 : 1 + below(12)); }
    for (long k = gen || !one_in(3) ? 0 : 1 + below(3), moment = 0; k > 0 && places + joins < 16; k--) {
        moment += one_in(10) ? below(1000) : below(12);
        word("--join");
        word("%ld", joined[joins++] = moment);
    }
    for (long k = one_in(2) ? 0 : 1 + below(3), first = 1; k > 0 && first < places + joins; k--) {
        long place = first + below(places + joins - first);
        first = place + 1;
        word("--kill");
        long moment = one_in(10) ? below(1000) : below(25);
        if (place >= places && moment < joined[place - places]) moment = joined[place - places];
        word("%ld@%ld", place, moment);
    }
    if (one_in(3)) {
        word("--seed");
        word("%lu", one_in(2) ? chance() : (uint64_t)below(100));
    } else if (!gen && one_in(2)) {
        char picks[512];
        int n = 0;
        for (long k = 1 + below(30); k > 0; k--) n += snprintf(picks + n, sizeof picks - (size_t)n, "%s%ld", n ? "," : "", below(6));
        word("--pick");
        word("%s", picks);
    }
    if (!one_in(25)) return;
    switch (below(5)) {             // words that are most likely wrong
    case 0: list[1 + below(count)] = "--places"; break;
    case 1: count = (int)below(count + 1); break;
    case 2: {
        long place = below(18);
        if (one_in(3)) { word("--join"); word("%ld", one_in(2) ? below(9) : 1000001); break; }
        word("--kill");
        word("%ld@%ld", place, one_in(2) ? below(9) : 1000001);
        break;
    }
    case 3: word("%s", one_in(2) ? "--seed" : "x"); word("%ld", below(100) - 3); break;
    default: {
        char *it = list[1 + below(count)];
        char byte = (char)(1 + below(255));
        if (*it) it[below((long)strlen(it))] = byte;
    }
    }
}

static void make_case(long seed) {
    state = (uint64_t)seed;         // (mixed twice, so that neighbours have nothing in common)
    state = chance() + (uint64_t)number;
    state = chance();
    make_words();
    if (givens && one_in(4)) {
        int k = (int)below(givens);
        memcpy(input, given[k], input_len = given_len[k]);
    } else {
        make_script();
    }
    if (one_in(3))
        for (long k = 1 + below(6); k > 0; k--) mutate();
    shorten();
    if (one_in(20000)) while (input_len < LIMIT + 1) input[input_len++] = " \n"[one_in(9)];
}

// Runs and what is held of them.

static int (*program)(int, char **, char **);
static char **argv_, **envp_;

static void run(Answer *to, Trouble with) {
    for (int k = 1; k <= count; k++) argv_[k] = list[k];
    argv_[count + 1] = NULL;
    trouble = with;
    allocs = reads = writes = held = 0;
    if (source == input) source_len = input_len; else source_len = pair_len;
    source_at = 0;
    to->out_len = to->err_len = 0;
    answer = to;
    running = 1;
    if (!setjmp(ended)) end_status = program(count + 1, argv_, envp_);
    running = 0;
    to->status = end_status & 255;
    // (the blocks that libc has for threads are its own)
    if (held && strcmp(list[1], "live")) fail("memory is not given back");
}

static int is_same(const Answer *a, const Answer *b) {
    return a->status == b->status && a->out_len == b->out_len && a->err_len == b->err_len && !memcmp(a->out, b->out, a->out_len)
        && !memcmp(a->err, b->err, a->err_len);
}

static int says(const Answer *a, const char *line) {
    size_t n = strlen(line);
    return a->err_len >= n && !memcmp(a->err, line, n) && memchr(a->err, '\n', a->err_len) == a->err + a->err_len - 1;
}

static int is_no_memory(const Answer *a) { return a->status == 8 && says(a, "no memory\n") && !a->out_len; }

static void hold_trace(const Answer *a) {
    static const char head[] = "rx10 trace 2\nplaces ", tail[] = "\ndone\n", journal[] = "\njournal 0\n", root[] = " release host s0";
    if (a->out_len < 60 || memcmp(a->out, head, sizeof head - 1)) fail("a trace has no head");
    if (memcmp(a->out + a->out_len - sizeof tail + 1, tail, sizeof tail - 1)) fail("a trace has no end");
    char *at = memmem(a->out, a->out_len, journal, sizeof journal - 1);
    char *first = memmem(a->out, a->out_len, root, sizeof root - 1);
    if (!at || !first || first > at || memchr(first, '\n', a->out_len) != at) fail("the root's release is not the last entry");
    if ((a->status == 1) != (first + sizeof root - 1 != at)) fail("the status is not that of the root's release");
}

static void hold(const Answer *a) {
    static const char *lines[] = {"", "", "usage ", "syntax ", "bad ", "too long\n"};
    if (a->status > 5) fail("an answer that no input has");
    if (a->status > 1) {
        if (a->out_len || !says(a, lines[a->status])) fail("a refusal that is not of its form");
        return;
    }
    if (a->err_len) fail("a line on standard error beside a text");
    if (!strcmp(list[1], "step") || !strcmp(list[1], "live")) hold_trace(a);
    else if (!a->out_len || a->out[a->out_len - 1] != '\n') fail("a text is not whole");
}

static void hold_disturbed(const Answer *a, const Answer *own, const Trouble *with) {
    if (is_same(a, own)) return;
    if ((with->alloc || with->alloc_from) && is_no_memory(a)) return;
    if (with->read && a->status == 6 && says(a, "read fault\n") && !a->out_len) return;
    int is_front = a->out_len < own->out_len && !memcmp(a->out, own->out, a->out_len);
    if (with->write && a->status == 7 && says(a, "write fault\n") && is_front) return;
    fail("a wrong answer to a disturbed run");
}

static Trouble some_trouble(long total, long total_reads, size_t text) {
    Trouble with = {0};
    switch (below(6)) {
    case 0: case 1: case 2: with.alloc = 1 + below(total + 1); break;
    case 3: with.alloc_from = 1 + below(total + 1); break;
    case 4: with.read_max = one_in(2) ? 1 + below(50) : 0; with.read = one_in(3) ? 0 : 1 + below(total_reads + 3); break;
    default:
        with.write_max = text > 20000 ? 4096 : 1 + below(200);
        with.write = one_in(3) ? 0 : 1 + below((long)text / with.write_max + 2);
    }
    return with;
}

// Pairs of a script and a trace.

static void change(size_t from, size_t to, const char *bytes, size_t n) { put_in(pair, &pair_len, PAIR, from, to, bytes, n); }

static void make_pair(const Answer *trace) {
    pair_len = (size_t)snprintf(pair, sizeof pair, "rx10 pair %zu\n", input_len);
    memcpy(pair + pair_len, input, input_len);
    pair_len += input_len;
    memcpy(pair + pair_len, trace->out, trace->out_len);
    pair_len += trace->out_len;
}

// A place in the trace, mostly; else anywhere.
static size_t some_place(size_t trace) { return one_in(12) ? (size_t)below((long)pair_len + 1) : trace + (size_t)below((long)(pair_len - trace) + 1); }

static size_t line_start(size_t at) {
    while (at > 0 && pair[at - 1] != '\n') at--;
    return at;
}

static size_t line_end(size_t at) {
    while (at < pair_len && pair[at] != '\n') at++;
    return at < pair_len ? at + 1 : at;
}

static void change_pair(size_t trace) {
    static const char *tokens[] = {" 0", " 1", " 2", " 4294967295", " 4294967296", " t0", " t1", " s0", " s1", " host", " lost", " masked",
        " thrown", " |", "open", "at", "spawn", "arrive", "wait", "release", "end", "death", "join", "print", "census", "make", "get", "put",
        "forget", "full", "stale", "index", "close", "journal 0", "done", "dead:1", "num:3", "overflow", "-1", "00", " is ", "\n", "  ", "\xff"};
    char piece[4096];
    if (trace > pair_len) trace = 0;
    size_t at = some_place(trace), from = line_start(at), to = line_end(at), n = least(to - from, sizeof piece);
    switch (below(12)) {
    case 0: if (at < pair_len) pair[at] = (char)chance(); break;
    case 1: if (at < pair_len) pair[at] ^= (char)(1 << below(7)); break;
    case 2: change(from, to, "", 0); break;
    case 3: memcpy(piece, pair + from, n); change(to, to, piece, n); break;
    case 4: if (one_in(6)) pair_len = at; break;
    case 5: {                       // two lines in a row, each with the other's number
        size_t end = line_end(to), first = from, second = to;
        while (first < to && pair[first] != ' ') first++;
        while (second < end && pair[second] != ' ') second++;
        size_t one = to - first, two = end - second, mid = second - to;
        if (end <= to || first == to || second == end || one + two + mid > sizeof piece) break;
        memcpy(piece, pair + second, two);
        memcpy(piece + two, pair + to, mid);
        memcpy(piece + two + mid, pair + first, one);
        memcpy(pair + first, piece, one + two + mid);
        break;
    }
    case 6: {                       // a line goes elsewhere
        memcpy(piece, pair + from, n);
        change(from, from + n, "", 0);
        at = line_start(some_place(trace < pair_len ? trace : 0));
        change(at, at, piece, n);
        break;
    }
    case 7: case 8: {
        const char *token = tokens[below(sizeof tokens / sizeof *tokens)];
        change(at, at + least((size_t)below(6), pair_len - at), token, strlen(token));
        break;
    }
    default:                        // a digit
        while (at < pair_len && (pair[at] < '0' || pair[at] > '9')) at++;
        if (at < pair_len) pair[at] = (char)('0' + below(10));
    }
}

static int is_number(const char **at, const char *end) {
    const char *from = *at;
    while (*at < end && **at >= '0' && **at <= '9') (*at)++;
    return *at > from && (*from != '0' || *at == from + 1);
}

static int is_line(const Answer *a, const char *front, int numbers) {
    const char *at = a->out + strlen(front), *end = a->out + a->out_len;
    if (a->out_len < strlen(front) || memcmp(a->out, front, strlen(front))) return 0;
    for (; numbers > 0; numbers--)
        if (at == end || *at++ != ' ' || !is_number(&at, end)) return 0;
    return at + 1 == end && *at == '\n';
}

static void hold_pair(const Answer *a, int is_span) {
    static const char *lines[] = {"", "", "", "syntax ", "bad ", "too long\n", "", "", "", "bad pair\n", "bad line "};
    if (a->status > 1) {
        if (a->status > 10 || !*lines[a->status] || a->out_len || !says(a, lines[a->status])) fail("a refusal of a pair is not of its form");
        return;
    }
    if (a->err_len) fail("a line on standard error beside a verdict");
    if (a->status == 1) {
        if (!is_line(a, "entry", 1) && !is_line(a, "end", 0) && !is_line(a, "event", 2) && !is_line(a, "open", 1)) fail("no verdict");
        return;
    }
    if (!is_span) {
        if (!is_line(a, "run", 0)) fail("status 0 and another verdict than `run`");
        return;
    }
    const char *at = a->out + 11, *end = a->out + a->out_len;
    long lines_left = 0;
    if (a->out_len < 20 || memcmp(a->out, "statements ", 11)) fail("a chain has no head");
    long statements = atol(at);
    if (!is_number(&at, end) || end - at < 8 || memcmp(at, "\nchain ", 7)) fail("a chain has no length");
    at += 7;
    long chain = atol(at);
    if (!is_number(&at, end) || at == end || *at++ != '\n') fail("a chain has no length");
    for (const char *k = at; k < end; k++) lines_left += *k == '\n';
    if (lines_left != chain || chain > statements || (chain == 0) != (statements == 0)) fail("a chain is not as long as it says");
}

static long verdicts[12];

// The pair, by `verify` and by `span`: they refuse the same pairs by the same line.
static void judge_pair(Answer *first, Answer *second) {
    Trouble none = {0};
    list[1] = "verify";
    count = 1;
    run(first, none);
    hold_pair(first, 0);
    verdicts[first->status]++;
    long total = allocs, total_reads = reads;
    run(second, none);
    if (!is_same(first, second)) fail("two verdicts on one pair");
    Trouble with = some_trouble(total, total_reads, first->out_len);
    run(second, with);
    hold_disturbed(second, first, &with);
    list[1] = "span";
    run(second, none);
    hold_pair(second, 1);
    if (first->status == 0 ? second->status != 0 : !is_same(first, second)) fail("`span` and `verify` differ in what they refuse");
}

// The trace of a run is judged, and some that were made of it.
static void try_pair(Answer *trace, Answer *other) {
    if (trace->out_len + input_len + 64 > PAIR || trace->status > 1) return;
    char *kept = list[1];
    int kept_count = count;
    make_pair(trace);
    size_t head = pair_len - trace->out_len, whole = pair_len;
    source = pair;
    judge_pair(trace, other);
    if (trace->status != 0) fail("the trace of a run is judged as no run");
    static char copy[PAIR + 8192];
    memcpy(copy, pair, whole);
    for (int round = 0; round < 3; round++) {
        if (round) memcpy(pair, copy, pair_len = whole);
        for (long k = 1 + below(one_in(3) ? 5 : 2); k > 0; k--) change_pair(head);
        judge_pair(trace, other);
    }
    source = input;
    list[1] = kept;
    count = kept_count;
}

static volatile sig_atomic_t stopped;

static void stop(int signal) { stopped = signal; }

// The same by threads, without picks: a run, and the same refusals; it may be disturbed by a refused allocation.
static void try_live(Answer *step, Answer *other) {
    int kept = count;
    count = 1;
    for (int k = 2; k + 1 <= kept; k += 2) {
        if (!strcmp(list[k], "--pick") || !strcmp(list[k], "--seed")) continue;
        char *option = list[k], *value = list[k + 1];
        list[++count] = option;
        list[++count] = value;
    }
    list[1] = "live";
    if (count + 2 > WORDS) return;
    word("--workers");
    word("%ld", 1 + below(4));
    Trouble with = {0};
    if (one_in(2)) with.alloc = 1 + below(200);
    run(other, with);
    if (with.alloc && is_no_memory(other)) return;
    if (step->status > 1 ? !is_same(step, other) : other->status > 1) fail("`live` and `step` differ in what they refuse");
    hold(other);
    if (one_in(2)) try_pair(other, step);
}

static long statuses[6];

static void try_case(Answer *first, Answer *second) {
    struct itimerval most = {{0, 0}, {HANG, 0}};
    setitimer(ITIMER_PROF, &most, NULL);
    Trouble none = {0};
    run(first, none);
    hold(first);
    statuses[first->status]++;
    long total = allocs, total_reads = reads;
    run(second, none);
    if (!is_same(first, second)) fail("two answers to one input");
    Trouble with = some_trouble(total, total_reads, first->out_len);
    run(second, with);
    hold_disturbed(second, first, &with);
    if (first->status == 2 || strcmp(list[1], "step")) return;
    char *kept = list[1];
    int kept_count = count;
    list[1] = "check";
    count = 1;
    run(second, none);
    hold(second);
    if (first->status > 1 ? !is_same(first, second) : second->status != 0) fail("`check` and `step` differ in what they refuse");
    list[1] = kept;
    count = kept_count;
    if (one_in(8)) try_live(first, second);
    else if (one_in(6)) try_pair(first, second);
}

static void load(const char *path) {
    int fd = open(path, O_RDONLY);
    char *room = __libc_malloc(LIMIT);
    ssize_t n = fd < 0 || !room ? -1 : __read(fd, room, LIMIT);
    if (n < 0) fail("a script can't be read");
    given[givens] = room;
    given_len[givens++] = (size_t)n;
    close(fd);
}

static long told(const char *name, long otherwise) {
    const char *text = getenv(name);
    return text && *text ? atol(text) : otherwise;
}

static int storm(int argc, char **argv, char **envp) {
    if (argc < WORDS + 1) fail("there are too few words");
    argv_ = argv;
    envp_ = envp;
    static char stack[1 << 16];
    stack_t other = {.ss_sp = stack, .ss_size = sizeof stack};
    sigaltstack(&other, NULL);
    struct sigaction act = {.sa_handler = fault, .sa_flags = SA_ONSTACK};
    int signals[] = {SIGSEGV, SIGBUS, SIGILL, SIGFPE, SIGABRT, SIGPROF};
    for (size_t k = 0; k < sizeof signals / sizeof *signals; k++) sigaction(signals[k], &act, NULL);
    char *paths = getenv("STORM_SCRIPTS");
    for (char *path = paths ? strtok(strdup(paths), ":") : NULL; path && givens < 64; path = strtok(NULL, ":")) load(path);
    static Answer both[2];
    for (int k = 0; k < 2; k++) {
        both[k].out = mmap(NULL, ROOM, PROT_READ | PROT_WRITE, MAP_PRIVATE | MAP_ANONYMOUS | MAP_NORESERVE, -1, 0);
        if (both[k].out == MAP_FAILED) fail("there is no room for texts");
    }
    struct sigaction gently = {.sa_handler = stop};
    sigaction(SIGTERM, &gently, NULL);
    sigaction(SIGINT, &gently, NULL);
    long seed = told("STORM_SEED", 1), from = told("STORM_FIRST", 0), most = told("STORM_CASES", 1L << 60);
    time_t end = time(NULL) + told("STORM_SECONDS", 1L << 40);
    for (number = from; number - from < most && !stopped && (number % 64 || time(NULL) < end); number++) {
        make_case(seed);
        if (getenv("STORM_SHOW")) {
            for (int k = 1; k <= count; k++) tell("%s\n", list[k]);
            tell("--\n");
            return __write(1, input, input_len) < 0;
        }
        try_case(&both[0], &both[1]);
        if (number % 1000 == 999) {         // the pages of long texts go back
            for (int k = 0; k < 2; k++) madvise(both[k].out, ROOM, MADV_DONTNEED);
        }
    }
    tell("%ld cases, by status %ld %ld %ld %ld %ld %ld; pairs: run %ld, another verdict %ld, refused %ld\n", number - from, statuses[0],
         statuses[1], statuses[2], statuses[3], statuses[4], statuses[5], verdicts[0], verdicts[1],
         verdicts[3] + verdicts[4] + verdicts[5] + verdicts[9] + verdicts[10]);
    return 0;
}

int __libc_start_main(int (*main)(int, char **, char **), int argc, char **argv, void (*init)(void), void (*fini)(void),
                      void (*rtld_fini)(void), void *stack_end) {
    int (*real)(int (*)(int, char **, char **), int, char **, void (*)(void), void (*)(void), void (*)(void), void *);
    *(void **)&real = dlsym(RTLD_NEXT, "__libc_start_main");
    program = main;
    return real(storm, argc, argv, init, fini, rtld_fini, stack_end);
}
