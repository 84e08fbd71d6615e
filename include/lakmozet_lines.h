/*
 * The lines of a script for commands that were played by calls, so that an engine has the script of its own session, which
 * lak_record makes a log of.
 *
 * Each of these writes the line of one call of lakmozet.h, with its newline and without a zero byte behind it, and returns how
 * many bytes it has. It returns 0, and writes nothing, where the room is too short, or where a number has more than 18 digits,
 * which no accepted command has. LAK_LINE_ROOM bytes are always enough. They use no locale and take no memory.
 *
 *     if (lak_move(&cloth, 0, hand) == LAK_DONE)
 *         length += lak_line_move(script + length, sizeof script - length, 0, hand);
 *
 * A refused command changes nothing, so a script without it comes to the same world. lak_save has no line, and lak_restore takes
 * back what was played since: keep the script's length beside each slot, and go back to that length; for a slot that was saved in
 * what was taken back since, keep the script itself. A mesh that was opened and a state that was read have no line either: the log
 * is of a session that began with a scene's text alone.
 */
#ifndef LAKMOZET_LINES_H
#define LAKMOZET_LINES_H

#include "lakmozet.h"

/* The longest line is that of a move: its word, a count, three numbers with their signs, four blanks and a newline. */
enum { LAK_LINE_ROOM = 4 + 4 * 19 + 3 + 1 };

/* Adds a word to a line of `length` bytes, and returns the new length. */
static inline size_t lak_line_word(char *line, size_t length, const char *word)
{
    while (*word != 0)
        line[length++] = *word++;
    return length;
}

/* Adds a blank and a number of at most 18 digits. */
static inline size_t lak_line_number(char *line, size_t length, bool minus, uint64_t size)
{
    uint64_t power = 1;
    line[length++] = ' ';
    if (minus)
        line[length++] = '-';
    while (size / power >= 10)
        power *= 10;
    for (; power > 0; power /= 10)
        line[length++] = (char)('0' + size / power % 10);
    return length;
}

/* The line of a word, of a count where there is one, and of a vector where there is one. */
static inline size_t lak_line_of(char *into, size_t room, const char *word, const uint64_t *count, const lak_vec3 *vector)
{
    const uint64_t most = 999999999999999999u;
    char line[LAK_LINE_ROOM];
    size_t length = lak_line_word(line, 0, word), i;
    if (count != NULL) {
        if (*count > most)
            return 0;
        length = lak_line_number(line, length, false, *count);
    }
    if (vector != NULL) {
        const int64_t axes[3] = {vector->x, vector->y, vector->z};
        for (i = 0; i < 3; i++) {
            const uint64_t size = axes[i] < 0 ? 0 - (uint64_t)axes[i] : (uint64_t)axes[i];
            if (size > most)
                return 0;
            length = lak_line_number(line, length, axes[i] < 0, size);
        }
    }
    line[length++] = '\n';
    if (room < length)
        return 0;
    for (i = 0; i < length; i++)
        into[i] = line[i];
    return length;
}

/* The line of lak_step. */
static inline size_t lak_line_step(char *into, size_t room, uint64_t n)
{
    return lak_line_of(into, room, "step", &n, NULL);
}

/* The line of lak_pin. */
static inline size_t lak_line_pin(char *into, size_t room, uint64_t particle)
{
    return lak_line_of(into, room, "pin", &particle, NULL);
}

/* The line of lak_unpin. */
static inline size_t lak_line_unpin(char *into, size_t room, uint64_t particle)
{
    return lak_line_of(into, room, "unpin", &particle, NULL);
}

/* The line of lak_move. */
static inline size_t lak_line_move(char *into, size_t room, uint64_t particle, lak_vec3 to)
{
    return lak_line_of(into, room, "move", &particle, &to);
}

/* The line of lak_cut. */
static inline size_t lak_line_cut(char *into, size_t room, uint64_t link)
{
    return lak_line_of(into, room, "cut", &link, NULL);
}

/* The line of lak_gravity. */
static inline size_t lak_line_gravity(char *into, size_t room, lak_vec3 gravity)
{
    return lak_line_of(into, room, "gravity", NULL, &gravity);
}

#endif
