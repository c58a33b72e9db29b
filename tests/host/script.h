/* Scripts of commands: one a line, words parted by one space, numbers in decimal, bytes in lower-case hex, `-` for none. */
#ifndef SCRIPT_H
#define SCRIPT_H

#include <stddef.h>
#include <stdint.h>
#include <stdio.h>
#include <string.h>

enum { SCRIPT_MOST = 1 << 20, LINE_MOST = 65000, WORDS_MOST = 70 };

static char script_text[SCRIPT_MOST + 1];
static const char *word[WORDS_MOST];
static size_t word_len[WORDS_MOST], words;

/* Cuts a line into words; 0 where it is not so made. */
static int cut_line(const char *line, size_t len)
{
    size_t i, start = 0;
    words = 0;
    for (i = 0; i <= len; i++) {
        if (i < len && line[i] != ' ') continue;
        if (i == start || words == WORDS_MOST) return 0;
        word[words] = line + start;
        word_len[words++] = i - start;
        start = i + 1;
    }
    return 1;
}

static int is_word(size_t i, const char *text) { return word_len[i] == strlen(text) && memcmp(word[i], text, word_len[i]) == 0; }

/* A number without leading zeros, at most `most`. */
static int number_word(size_t i, uint32_t most, uint32_t *value)
{
    uint64_t sum = 0;
    size_t k;
    if (word_len[i] > 10 || (word_len[i] > 1 && word[i][0] == '0')) return 0;
    for (k = 0; k < word_len[i]; k++) {
        if (word[i][k] < '0' || word[i][k] > '9') return 0;
        sum = 10 * sum + (uint64_t)(word[i][k] - '0');
    }
    *value = (uint32_t)sum;
    return sum <= most;
}

static int hex_digit(char c)
{
    if (c >= '0' && c <= '9') return c - '0';
    return c >= 'a' && c <= 'f' ? c - 'a' + 10 : -1;
}

/* Bytes, stored at `bytes`, which has room for half a line. */
static int bytes_word(size_t i, uint8_t *bytes, size_t *len)
{
    size_t k;
    *len = 0;
    if (is_word(i, "-")) return 1;
    if (word_len[i] % 2 != 0) return 0;
    for (k = 0; k < word_len[i]; k += 2) {
        const int high = hex_digit(word[i][k]), low = hex_digit(word[i][k + 1]);
        if (high < 0 || low < 0) return 0;
        bytes[(*len)++] = (uint8_t)(16 * high + low);
    }
    return 1;
}

static void say_bytes(const uint8_t *bytes, size_t len)
{
    size_t i;
    putchar(' ');
    if (len == 0) putchar('-');
    for (i = 0; i < len; i++) printf("%02x", (unsigned)bytes[i]);
}

/* Plays standard input, line by line; a line that is too long or not cut, or that `play` does not know, is malformed, and so is a last
 * one without its newline. `play` sees a line that is not cut as one empty word. */
static int play_script(int (*play)(void))
{
    const size_t size = fread(script_text, 1, SCRIPT_MOST + 1, stdin);
    size_t start = 0, i;
    if (size > SCRIPT_MOST) { puts("too long"); return 0; }
    for (i = 0; i < size; i++) {
        if (script_text[i] != '\n') continue;
        if (i - start > LINE_MOST || !cut_line(script_text + start, i - start)) {
            words = 1;
            word_len[0] = 0;
        }
        if (!play()) puts("malformed");
        start = i + 1;
    }
    if (start < size) puts("malformed");
    return ferror(stdin) || fflush(stdout) != 0;
}

#endif
