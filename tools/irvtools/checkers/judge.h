/* What both judges need: lists of numbers, files, numbers and literals as the formats write them, and
   the formula of a query as `irv export` prints it ("Formulas" in docs/reference/formats.md).

   A literal of variable v is the number 2v, and its negative 2v + 1. */

#ifndef JUDGE_H
#define JUDGE_H

#include <stdint.h>
#include <stdio.h>
#include <stdlib.h>
#include <string.h>

#define MUCH ((uint64_t)1 << 40)    /* more than there are variables or clauses: no number is kept above it */

/* A part of a text: the bytes from the first up to, but not with, the last. */
struct part {
    const char *from, *to;
};

/* Numbers one after another. */
struct list {
    uint32_t *at;
    size_t count, room;
};

/* Clauses one after another: clause i, from 0, has the literals from start i up to start i + 1. */
struct clauses {
    struct list literals, starts;
};

struct formula {
    uint64_t variables;
    struct clauses clauses;
};

/* Ends the judging: no answer. */
static void give_up(const char *why, const char *what)
{
    fprintf(stderr, "%s: %s\n", what, why);
    exit(2);
}

static void *room_for(void *old, size_t bytes)
{
    void *got = realloc(old, bytes ? bytes : 1);
    if (got == NULL) give_up("no memory", "judge");
    return got;
}

static void push(struct list *list, uint32_t number)
{
    if (list->count == list->room) {
        list->room = list->room ? 2 * list->room : 4;
        list->at = room_for(list->at, list->room * sizeof *list->at);
    }
    list->at[list->count++] = number;
}

static uint32_t opposite(uint32_t literal)
{
    return literal ^ 1;
}

/* Ends the clause whose literals were put behind those of the others. */
static void end_clause(struct clauses *clauses)
{
    if (clauses->literals.count > UINT32_MAX) give_up("too many literals", "judge");
    push(&clauses->starts, (uint32_t)clauses->literals.count);
}

static struct clauses no_clauses(void)
{
    struct clauses none = {{NULL, 0, 0}, {NULL, 0, 0}};
    end_clause(&none);
    return none;
}

static size_t count_of(const struct clauses *clauses)
{
    return clauses->starts.count - 1;
}

/* The bytes of a file; none, and false, where it can't be read. */
static int read_file(const char *name, struct part *text)
{
    FILE *file = fopen(name, "rb");
    if (file == NULL) return 0;
    char *bytes = NULL;
    size_t count = 0, room = 0, got;
    do {
        room = room ? 2 * room : 1 << 16;
        bytes = room_for(bytes, room);
        got = fread(bytes + count, 1, room - count, file);
        count += got;
    } while (count == room);
    if (ferror(file)) give_up("can't be read", name);
    fclose(file);
    *text = (struct part){bytes, bytes + count};
    return 1;
}

static int is_same(struct part one, const char *other)
{
    size_t length = strlen(other);
    return (size_t)(one.to - one.from) == length && memcmp(one.from, other, length) == 0;
}

/* Takes the bytes before the next such byte, and that byte; returns false if there is none. */
static int take_until(struct part *rest, char byte, struct part *taken)
{
    const char *found = rest->from == rest->to ? NULL : memchr(rest->from, byte, rest->to - rest->from);
    if (found == NULL) return 0;
    *taken = (struct part){rest->from, found};
    rest->from = found + 1;
    return 1;
}

/* The number that a word writes: decimal digits, of which the first isn't 0. It is 0 where the word isn't
   such, and MUCH where it is as much or more. */
static uint64_t number_of(struct part word)
{
    uint64_t number = 0;
    if (word.from == word.to || *word.from == '0') return 0;
    for (; word.from < word.to; word.from++) {
        if (*word.from < '0' || *word.from > '9') return 0;
        number = number < MUCH / 10 ? 10 * number + (uint64_t)(*word.from - '0') : MUCH;
    }
    return number;
}

/* The literal that a word writes, of at most so many variables; 0 where it isn't one. */
static uint32_t literal_of(struct part word, uint64_t variables)
{
    int is_negative = word.from < word.to && *word.from == '-';
    word.from += is_negative;
    uint64_t variable = number_of(word);
    return variable <= variables ? (uint32_t)(2 * variable + (is_negative && variable)) : 0;
}

/* Takes the literals of a line of a formula, each before a space, and the 0 after them. */
static int take_clause(struct part line, struct formula *formula)
{
    struct part word;
    while (take_until(&line, ' ', &word)) {
        uint32_t literal = literal_of(word, formula->variables);
        if (literal == 0) return 0;
        push(&formula->clauses.literals, literal);
    }
    end_clause(&formula->clauses);
    return is_same(line, "0");
}

/* The number of a head's word, where 0 may stand too; MUCH where it is none. */
static uint64_t number_or_zero(struct part word)
{
    uint64_t number = number_of(word);
    return number == 0 && !is_same(word, "0") ? MUCH : number;
}

/* Reads the formula of a file, exactly; false where the file isn't there. */
static int read_formula(const char *name, struct formula *formula)
{
    struct part text, line, word;
    if (!read_file(name, &text)) return 0;
    char *bytes = (char *)text.from;
    int is_right = take_until(&text, '\n', &line) && take_until(&line, ' ', &word) && is_same(word, "p")
        && take_until(&line, ' ', &word) && is_same(word, "cnf") && take_until(&line, ' ', &word);
    formula->variables = is_right ? number_or_zero(word) : MUCH;
    uint64_t count = is_right ? number_or_zero(line) : MUCH;
    formula->clauses = no_clauses();
    is_right = formula->variables < UINT32_MAX / 4 && count < MUCH;
    for (uint64_t i = 0; is_right && i < count; i++)
        is_right = take_until(&text, '\n', &line) && take_clause(line, formula);
    if (!is_right || text.from != text.to) give_up("is no formula", name);
    free(bytes);
    return 1;
}

#endif
