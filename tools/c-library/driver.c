/*
 * Asks the library what comes on standard input, and writes its answers to standard output. It takes
 * no memory of its own, so that each request that is refused is one of the library.
 *
 * A question is a letter (`v` version, `s` script, `c` compat, `t` targets, `m` merge; of a session `n`
 * new, `f` feed, `e` end), and then the texts that the function takes, each as its length in four bytes
 * and its bytes. An answer is what the function returns, in eight bytes, and the bytes of the answer.
 * Numbers are those of the machine.
 *
 * Without the word `once`, each question is asked with no room, with half of what its answer needs,
 * and with all of it, and what lies behind the room has to stay as it is: else the status is 3.
 */
#include "wac.h"

#include <string.h>
#include <unistd.h>

#define ROOM (1 << 20)
#define BEHIND 64

static uint8_t given[ROOM], out[ROOM + BEHIND], half[ROOM + BEHIND];
static wac_session session;

struct text {
    const uint8_t *bytes;
    uint32_t length;
};

static int read_all(void *to, size_t length)
{
    uint8_t *at = to;
    while (length > 0) {
        ssize_t got = read(0, at, length);
        if (got <= 0)
            return 0;
        at += got;
        length -= (size_t)got;
    }
    return 1;
}

static void write_all(const void *from, size_t length)
{
    const uint8_t *at = from;
    while (length > 0) {
        ssize_t put = write(1, at, length);
        if (put <= 0)
            _exit(4);
        at += put;
        length -= (size_t)put;
    }
}

/* Feeds the session, and fetches the answer. */
static ptrdiff_t feed(const struct text *text, uint8_t *to, size_t room)
{
    ptrdiff_t length = wac_session_feed(&session, text->bytes, text->length);
    return length < 0 ? length : wac_session_ask(&session, given, 0, to, room);
}

static ptrdiff_t ask(char kind, const struct text *t, uint8_t *to, size_t room)
{
    switch (kind) {
    case 'n':
        return wac_session_new(&session);
    case 'f':
        return feed(t, to, room);
    case 'a':
        return wac_session_ask(&session, given, 0, to, room);
    case 'e':
        wac_session_free(&session);
        return 0;
    case 'v':
        return wac_version(to, room);
    case 's':
        return wac_answer_script(t[0].bytes, t[0].length, to, room);
    case 'c':
        return wac_compat(t[0].bytes, t[0].length, t[1].bytes, t[1].length, to, room);
    case 't':
        return wac_targets(t[0].bytes, t[0].length, t[1].bytes, t[1].length, t[2].bytes, t[2].length,
                           t[3].bytes, t[3].length, to, room);
    default:
        return wac_merge(t[0].bytes, t[0].length, t[1].bytes, t[1].length, to, room);
    }
}

/* Whether all bytes from here on are those that were put there first. */
static int is_untouched(const uint8_t *from)
{
    for (size_t i = 0; i < BEHIND; i++)
        if (from[i] != 0xa5)
            return 0;
    return 1;
}

/* Asks with less room: the length is the same, and the bytes that fit are. */
static int holds_in_less(char kind, const struct text *texts, ptrdiff_t length)
{
    /* a session isn't fed twice, and keeps no answer where there was none */
    if (kind == 'f') {
        if (length < 0)
            return 1;
        kind = 'a';
    }
    if (ask(kind, texts, half, 0) != length)
        return 0;
    size_t room = length > 0 ? (size_t)length / 2 : BEHIND;
    if (room > ROOM)
        room = ROOM;
    memset(half, 0xa5, room + BEHIND);
    if (ask(kind, texts, half, room) != length)
        return 0;
    return length > 0 ? memcmp(half, out, room) == 0 && is_untouched(half + room) : is_untouched(half);
}

int main(int count, char **words)
{
    int is_once = count > 1 && strcmp(words[1], "once") == 0;
    char kind;
    memset(out, 0xa5, ROOM + BEHIND);
    while (read_all(&kind, 1)) {
        struct text texts[4] = {{given, 0}, {given, 0}, {given, 0}, {given, 0}};
        int taken = strchr("vne", kind) ? 0 : strchr("sf", kind) ? 1 : kind == 't' ? 4 : 2;
        size_t at = 0;
        for (int i = 0; i < taken; i++) {
            if (!read_all(&texts[i].length, 4) || texts[i].length > ROOM - at || !read_all(given + at, texts[i].length))
                return 5;
            texts[i].bytes = given + at;
            at += texts[i].length;
        }
        int64_t length = ask(kind, texts, out, ROOM);
        size_t written = length < 0 ? 0 : length < ROOM ? (size_t)length : ROOM;
        if (!is_untouched(out + written) || (!is_once && !holds_in_less(kind, texts, length)))
            return 3;
        write_all(&length, 8);
        write_all(out, written);
        memset(out, 0xa5, written);
    }
    return 0;
}
