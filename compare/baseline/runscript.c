/*
 * The program runscript in plain C: reads a script on standard input, and writes the reply to each line to standard
 * output. It calls the functions of cellpool.h; the benchmark links it with baseline.c under these names.
 */
#define _POSIX_C_SOURCE 200112L
#include "cellpool.h"

#include <errno.h>
#include <stdio.h>
#include <stdlib.h>
#include <unistd.h>

/* The longest reply is "ok", two numbers of ten digits, each after a space, and the line end. */
enum { BUFFER = 65536, LONGEST_REPLY = 25, MOST_WORDS = 5, BAD = 0, END = -1 };

static unsigned char in[BUFFER];
/* What is read of the script and not yet used. */
static const unsigned char *in_at = in, *in_end = in;
static int in_ended;

static char out[BUFFER];
static size_t out_length;

static uint32_t words[CELLPOOL_WORDS(CELLPOOL_MOST_CELLS)];
/* How many of the words are the pool's: none before the first fresh pool. */
static size_t used;

static void fail(const char *what) {
    perror(what);
    exit(EXIT_FAILURE);
}

static void flush(void) {
    for (size_t done = 0; done < out_length;) {
        ssize_t wrote = write(STDOUT_FILENO, out + done, out_length - done);
        if (wrote >= 0)
            done += (size_t)wrote;
        else if (errno != EINTR)
            fail("write");
    }
    out_length = 0;
}

/* Reads on, and answers whether there is more. The replies to what was read before are written first. */
static int refill(void) {
    ssize_t got;
    if (in_ended) return 0;
    flush();
    do got = read(STDIN_FILENO, in, sizeof in);
    while (got < 0 && errno == EINTR);
    if (got < 0) fail("read");
    in_ended = got == 0;
    in_at = in;
    in_end = in + got;
    return !in_ended;
}

/* The next byte of the script, or END, where at and end are locals: so they stand in registers. */
#define NEXT() (at < end ? *at++ : refill() ? (at = in_at, end = in_end, *at++) : END)

static inline int is_digit(int c) { return c >= '0' && c <= '9'; }

struct line {
    int letter;
    /* How many words the line has, the letter among them. */
    unsigned words;
    uint32_t numbers[MOST_WORDS - 1];
};

/* How many words a line with this letter has; 0 for no such letter. */
static const unsigned char words_of[256] = {
    ['g'] = 1, ['f'] = 2, ['z'] = 2, ['v'] = 2, ['c'] = 3, ['l'] = 3,
    ['r'] = 3, ['L'] = 3, ['R'] = 3, ['V'] = 3, ['s'] = 3, ['n'] = 5,
    ['p'] = 5, ['e'] = 2, ['o'] = 2,
};

/* Reads a line and its end; the letter of a bad line is BAD. Answers 0 where there is no further line. */
static int read_line(struct line *line) {
    const unsigned char *at = in_at, *end = in_end;
    int c = NEXT();
    if (c == END) return 0;
    line->letter = c == '\n' ? BAD : c;
    line->words = 1;
    if (c != '\n') c = NEXT();
    while (c == ' ' && line->words < MOST_WORDS) {
        uint64_t number = 0;
        c = NEXT();
        if (!is_digit(c)) {
            line->letter = BAD;
            break;
        }
        do {
            number = 10 * number + (uint64_t)(c - '0');
            c = NEXT();
        } while (is_digit(c) && number <= UINT32_MAX);
        if (number > UINT32_MAX) {
            line->letter = BAD;
            break;
        }
        line->numbers[line->words++ - 1] = (uint32_t)number;
    }
    if (c != '\n' && c != END) {
        line->letter = BAD;
        do c = NEXT();
        while (c != '\n' && c != END);
    }
    in_at = at;
    if (line->words != words_of[line->letter]) line->letter = BAD;
    return 1;
}

static void put(char c) { out[out_length++] = c; }

static void put_number(uint32_t number) {
    char digits[10];
    unsigned count = 0;
    do digits[count++] = (char)('0' + number % 10);
    while ((number /= 10) != 0);
    put(' ');
    while (count > 0) put(digits[--count]);
}

/* "ok" and so many numbers, or "no" and the refusal. */
static void reply(uint32_t refusal, unsigned count, uint32_t first, uint32_t second) {
    if (refusal == CELLPOOL_OK) {
        put('o');
        put('k');
        if (count >= 1) put_number(first);
        if (count >= 2) put_number(second);
    } else {
        put('n');
        put('o');
        put_number(refusal);
    }
    put('\n');
}

static uint32_t fresh(uint32_t n) {
    uint32_t cells, leftover;
    if (n < 1 || n > CELLPOOL_MOST_CELLS) return CELLPOOL_REFUSED_SIZE;
    used = CELLPOOL_WORDS(n);
    return cellpool_fresh(words, used, &cells, &leftover);
}

static void run_line(const struct line *line) {
    const uint32_t *x = line->numbers;
    uint32_t refusal, first = 0, second = 0;
    unsigned count = 0;
    switch (line->letter) {
    case 'f': refusal = fresh(x[0]); break;
    case 'n': refusal = cellpool_new(words, used, x[0], x[1], x[2], x[3], &first); break;
    case 'p': refusal = cellpool_point(words, used, x[0], x[1], x[2], x[3], &first); break;
    case 'c': refusal = cellpool_copy(words, used, x[0], x[1]); break;
    case 'z': refusal = cellpool_clear(words, used, x[0]); break;
    case 'l': refusal = cellpool_left(words, used, x[0], x[1]); break;
    case 'r': refusal = cellpool_right(words, used, x[0], x[1]); break;
    case 'L': refusal = cellpool_setleft(words, used, x[0], x[1]); break;
    case 'R': refusal = cellpool_setright(words, used, x[0], x[1]); break;
    case 'V': refusal = cellpool_setvalue(words, used, x[0], x[1]); break;
    case 'v':
        refusal = cellpool_value(words, used, x[0], &first);
        count = 1;
        break;
    case 'e':
        refusal = cellpool_east(words, used, x[0], &first);
        count = 1;
        break;
    case 'o':
        refusal = cellpool_north(words, used, x[0], &first);
        count = 1;
        break;
    case 's':
        refusal = cellpool_same(words, used, x[0], x[1], &first);
        count = 1;
        break;
    case 'g':
        refusal = cellpool_collect(words, used, &first, &second);
        count = 2;
        break;
    default:
        put('b');
        put('a');
        put('d');
        put('\n');
        return;
    }
    reply(refusal, count, first, second);
}

int main(void) {
    struct line line;
    while (read_line(&line)) {
        if (sizeof out - out_length < LONGEST_REPLY) flush();
        run_line(&line);
    }
    flush();
    return 0;
}
