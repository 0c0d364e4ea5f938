/* Judges a certificate of version 3 whose tree has branches by slack and bound leaves that name marked walks alone, as plainly
 * as can be: what `pesp check --sharp` does for such a text, without a proof and without the faults of other texts.
 * usage: walks PERIOD INSTANCE CERTIFICATE */
#include <stdio.h>
#include <stdlib.h>
#include <string.h>

typedef long long whole;
enum { MOST = 1 << 20, DEEP = 1 << 17 };

static whole lower[MOST], weight[MOST], low[MOST], high[MOST], plain[MOST], flipped[MOST];
static int first_pass[MOST], touched[MOST], is_touched[MOST], row_of[16 * MOST];
static signed char sign_of[16 * MOST], is_flipped[16 * MOST];
static struct { int row; whole bound, low, high; } waiting[DEEP];

static char *read_text(const char *name)
{
    FILE *file = fopen(name, "rb");
    if (!file || fseek(file, 0, SEEK_END)) exit(2);
    long size = ftell(file);
    rewind(file);
    char *text = malloc(size + 1);
    if (!text || fread(text, 1, size, file) != (size_t)size) exit(2);
    text[size] = 0;
    fclose(file);
    return text;
}

static whole number(char **at) { return strtoll(*at, at, 10); }

static void touch(int row, int *count)
{
    if (is_touched[row]) return;
    is_touched[row] = 1;
    plain[row] = flipped[row] = 0;
    touched[(*count)++] = row;
}

/* What a walk with its multiplier shows, and what its passes charge their rows. */
static whole add_walk(whole period, int walk, whole multiplier, int *count)
{
    whole sum = 0;
    for (int at = first_pass[walk]; at < first_pass[walk + 1]; at++) {
        int row = row_of[at];
        sum += sign_of[at] * (lower[row] + (is_flipped[at] ? high[row] : low[row]));
    }
    whole rest = ((-sum % period) + period) % period;
    for (int at = first_pass[walk]; at < first_pass[walk + 1]; at++) {
        int row = row_of[at];
        touch(row, count);
        int is_forward = (sign_of[at] > 0) != is_flipped[at];
        (is_flipped[at] ? flipped : plain)[row] += multiplier * (is_forward ? period - rest : rest);
    }
    return multiplier * rest * (period - rest);
}

int main(int count, char **words)
{
    if (count < 4) return 2;
    whole period = atoll(words[1]), bound, scale, base = 0;
    int rows = 0, walks = 0, passes = 0, depth = 0, leaves = 0;
    for (char *at = read_text(words[2]); *at; rows++) {
        whole field[6];
        for (int i = 0; i < 6; i++) field[i] = number(&at), at += *at != 0;
        lower[rows + 1] = field[3], weight[rows + 1] = field[5];
        high[rows + 1] = field[4] - field[3];
    }
    char *at = strstr(read_text(words[3]), "scale ") + 6;
    for (scale = number(&at), at++; !strncmp(at, "walk ", 5); at++) {
        for (first_pass[walks++] = passes, at += 4; *at == ' '; passes++) {
            whole signed_row = number(&at);
            row_of[passes] = llabs(signed_row), sign_of[passes] = signed_row < 0 ? -1 : 1;
            is_flipped[passes] = *at == '*', at += *at == '*';
        }
    }
    first_pass[walks] = passes;
    at = strstr(at, "answer open ") + 12, bound = number(&at);
    for (at = strchr(at, '\n') + 1; strncmp(at, "end", 3); at++) {
        if (*at == 's') {
            at++;
            int row = number(&at);
            whole most = number(&at);
            waiting[depth].row = row, waiting[depth].bound = most + 1, waiting[depth].low = low[row];
            waiting[depth++].high = high[row];
            if (most < high[row]) high[row] = most;
            continue;
        }
        whole value = base;
        int touches = 0;
        for (int row = 1; row <= rows; row++) value += scale * weight[row] * low[row];
        for (at++; *at == ' ';) {
            int walk = number(&at) - 1;
            value += add_walk(period, walk, number(&at), &touches);
        }
        for (int i = 0; i < touches; i++) {
            int row = touched[i];
            whole span = high[row] - low[row], at_low = -flipped[row] * span;
            whole at_high = scale * weight[row] * span - plain[row] * span;
            value += at_low < at_high ? at_low : at_high, is_touched[row] = 0;
        }
        if (value <= scale * (bound - 1)) return printf("refused\n"), 1;
        leaves++;
        /* Back to the last branch whose second part is still to come. */
        while (depth && waiting[depth - 1].bound < 0) {
            depth--;
            low[waiting[depth].row] = waiting[depth].low, high[waiting[depth].row] = waiting[depth].high;
        }
        if (depth) {
            int row = waiting[depth - 1].row;
            high[row] = waiting[depth - 1].high;
            if (waiting[depth - 1].bound > low[row]) low[row] = waiting[depth - 1].bound;
            waiting[depth - 1].bound = -1;
        }
    }
    printf("accepted open %lld none, %d leaves, %d walks\n", bound, leaves, walks);
    return 0;
}
