/*
 * Proved answers about the types of WebAssembly components, for C.
 *
 * Each function answers texts by a text. A text is given by its bytes, in UTF-8 and without a zero
 * at the end, and by how many they are. The answer goes into OUT, which has ROOM bytes, none of which
 * is read. No pointer may be null; where there are no bytes any other one will do. Nothing writes what
 * a pointer leads to while a call runs, but for the call itself what OUT leads to.
 *
 * A function returns the length of the whole answer in bytes, also where it is above ROOM: then the
 * first ROOM bytes of it stand in OUT, and the caller may ask again with more room. The rest of OUT
 * is as it was, and no zero is put behind the answer. Where there is no answer, OUT is as it was, and
 * the result is one of the negative numbers below.
 *
 * Every input gets an answer or such a number: that the functions are safe and return is proved, for
 * each text, of what the compiler is given. They print nothing and read no file, and but for sessions
 * they keep nothing between calls, so threads may call them at the same time. They take memory by
 * `malloc` and `realloc`, and give back what isn't a session's before they return. These two and `free`
 * have to be one allocator's, whose blocks are aligned as C asks, to 16 bytes where they have as many.
 * No call comes from a signal handler, or from the forked child of a process with threads.
 */
#ifndef WAC_H
#define WAC_H

#include <stddef.h>
#include <stdint.h>

#ifdef __cplusplus
extern "C" {
#endif

/* A text isn't UTF-8. */
#define WAC_NO_TEXT (-1)

/* An allocation failed. */
#define WAC_NO_MEMORY (-2)

/* There is no session: it wasn't begun, or it was ended. */
#define WAC_NO_SESSION (-3)

/* The version of this library, as `0.11.0`: that of the Rust crate wac-types whose calls it has. */
ptrdiff_t wac_version(uint8_t *out, size_t room);

/*
 * The answers of a script, as `wac-replay` prints them: a line or more for each question. A line that
 * is malformed, or that names what isn't there, ends the script; the last line of the answer then
 * says `line N: ` and what is wrong with it. The answers to questions begin with their numbers.
 */
ptrdiff_t wac_answer_script(const uint8_t *script, size_t script_length, uint8_t *out, size_t room);

/*
 * A script that goes on: what it has built stays, so that many questions are asked about it. It is
 * made of one word, which this library alone reads and writes. Before `wac_session_new` it has to be
 * WAC_SESSION_NONE. It may be moved, but not copied: after a copy is used, the other is no session.
 * A session is used by one thread at a time, and stays on the thread that began it.
 */
typedef struct wac_session {
    void *at;
} wac_session;

#define WAC_SESSION_NONE ((wac_session){0})

/* Begins a session; one that is there is ended. Returns 0, or WAC_NO_MEMORY: then SESSION is as it was. */
ptrdiff_t wac_session_new(wac_session *session);

/*
 * Carries out the lines of SCRIPT, after all that were carried out before. Returns how long the answer
 * is, which the session keeps until the next call that carries out lines. A line that is malformed, or
 * that names what isn't there, ends the call, as of `wac_answer_script`, with lines counted from the
 * first of SCRIPT. Where memory is wanting, no answer is kept. The lines before a line that ends a call
 * have been carried out, and the session goes on. Answers to questions begin with their numbers, which
 * count all of the session's.
 */
ptrdiff_t wac_session_feed(wac_session *session, const uint8_t *script, size_t script_length);

/*
 * The same, with the answer in OUT. Where SCRIPT has no bytes nothing is carried out, and the answer is
 * that which is kept: so one that had too little room is fetched.
 */
ptrdiff_t wac_session_ask(wac_session *session, const uint8_t *script, size_t script_length,
                          uint8_t *out, size_t room);

/* Ends a session, if one is there, and gives back its memory. SESSION is WAC_SESSION_NONE from then on. */
void wac_session_free(wac_session *session);

/*
 * The functions below take packages of WIT, each text as one file: `package ns:name@1.0.0;`, with its
 * interfaces and worlds, and the packages that it uses in braces (`package ns:other@1.0.0 { .. }`).
 * They answer as `wac-wit --json` prints it, whose page has what the JSON says
 * (crates/wac_wit_answers/README.md), or, where a text is refused, `{"refused": TEXT}`, with a line
 * for each place and what is wrong there. Places name the files as below.
 */

/*
 * Whether the packages of NEW_WIT (`new.wit`) serve whoever was built against those of OLD_WIT
 * (`old.wit`): `{"compatible": .., ..}`.
 */
ptrdiff_t wac_compat(const uint8_t *old_wit, size_t old_length,
                     const uint8_t *new_wit, size_t new_length,
                     uint8_t *out, size_t room);

/*
 * Whether a component that imports and exports all of the world WORLD of WIT (`component.wit`) runs
 * where the world TARGET of TARGET_WIT (`target.wit`) is the target: `{"runs": .., ..}`. A world is
 * named by its name, or by its identifier, as `wasi:cli/command@0.2.4`.
 */
ptrdiff_t wac_targets(const uint8_t *world, size_t world_length,
                      const uint8_t *wit, size_t wit_length,
                      const uint8_t *target, size_t target_length,
                      const uint8_t *target_wit, size_t target_wit_length,
                      uint8_t *out, size_t room);

/*
 * The imports of a component of each of some worlds of WIT (`worlds.wit`), as one list:
 * `{"merged": .., ..}`. WORLDS has the worlds' names, with blanks between them.
 */
ptrdiff_t wac_merge(const uint8_t *worlds, size_t worlds_length,
                    const uint8_t *wit, size_t wit_length,
                    uint8_t *out, size_t room);

#ifdef __cplusplus
}
#endif

#endif
