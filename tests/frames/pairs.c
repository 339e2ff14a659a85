#include "pairs.h"

#include <stdlib.h>
#include <string.h>

void put_escaped(struct text *t, struct bytes b)
{
    for (size_t i = 0; i < b.length; i++)
        if (b.at[i] == '\n' || b.at[i] == '\\')
            put_string(t, b.at[i] == '\n' ? "\\n" : "\\\\");
        else
            put_byte(t, b.at[i]);
}

void put_unescaped(struct text *t, struct bytes b)
{
    for (size_t i = 0; i < b.length; i++)
        if (b.at[i] == '\\' && i + 1 < b.length)
            put_byte(t, b.at[++i] == 'n' ? '\n' : '\\');
        else
            put_byte(t, b.at[i]);
}

/* The text of the line that starts at a byte of the file; the next line's start. */
static struct bytes line_at(struct bytes file, size_t *at)
{
    const uint8_t *lf = memchr(file.at + *at, '\n', file.length - *at);
    size_t start = *at, end = lf == NULL ? file.length : (size_t)(lf - file.at);
    *at = lf == NULL ? end : end + 1;
    if (lf != NULL && end > start && file.at[end - 1] == '\r')
        end--;
    return part(file, start, end);
}

/* True if the line is a pair; mark is where its key ends. */
static int is_pair(struct bytes line, size_t *mark)
{
    size_t i = 0;
    while (i + 1 < line.length && (line.at[i] != ':' || (line.at[i + 1] != ' ' && line.at[i + 1] != '=')))
        i++;
    *mark = i;
    return i + 1 < line.length && line.at[0] != '#' && line.at[i + 1] == '=';
}

static struct pair pair_of(struct bytes line, size_t mark)
{
    static struct text key;
    struct pair pair = {NULL, 0, part(line, 0, mark), part(line, mark + 2, line.length)};
    key.length = 0;
    put_unescaped(&key, pair.key_text);
    pair.key = malloc(key.length + 1);
    pair.length = key.length;
    memcpy(pair.key, key.at, key.length);
    return pair;
}

/* Takes the pair with this key out. */
static size_t without(struct pair *pairs, size_t count, struct pair pair)
{
    for (size_t i = 0; i < count; i++)
        if (pairs[i].length == pair.length && memcmp(pairs[i].key, pair.key, pair.length) == 0) {
            free(pairs[i].key);
            memmove(pairs + i, pairs + i + 1, (count - i - 1) * sizeof *pairs);
            return count - 1;
        }
    return count;
}

size_t take_pairs(struct bytes file, size_t lines, struct pair *pairs)
{
    size_t at = 0, mark, count = 0;
    if (file.length > 0)
        line_at(file, &at);
    for (; at < file.length && lines > 1; lines--) {
        struct bytes line = line_at(file, &at);
        if (line.length == 0)
            break;
        if (is_pair(line, &mark)) {
            struct pair pair = pair_of(line, mark);
            count = without(pairs, count, pair);
            ensure(count < MOST_PAIRS, "a header has too many pairs");
            pairs[count++] = pair;
        }
    }
    return count;
}

void free_pairs(struct pair *pairs, size_t count)
{
    while (count-- > 0)
        free(pairs[count].key);
}

size_t take_starts(struct bytes file, struct text *starts)
{
    size_t at = 0, count = 0, length = 1;
    while (at < file.length && (count < 2 || length > 0)) {
        put_number(starts, at);
        length = line_at(file, &at).length;
        count++;
    }
    return count;
}
