/* Judges a refutation without hints, item by item, by what docs/reference/formats.md says of it ("Refutations").

       rup_judge FORMULA TEXT

   prints `refuted`, or `rejected item I` with the first bad item. It shares nothing with the program but
   the formula, and nothing with rup.py but what both are written from.

   What follows from the clauses alone is set for ever, since no clause is ever taken away. So a clause is
   kept without its literals that are false for ever, and not at all where one of them is true for ever.
   Two literals of each clause that aren't false watch it: it is looked at where one becomes false. */

#include "judge.h"

static char *is_true;               /* by literal */
static struct list trail;           /* the true literals, in the order in which they became so */
static struct list kept;            /* each clause that is kept: how many literals, then these, watching ones first */
static struct list *watched;        /* by literal: each clause that it watches, and before it another literal of it */
static char *is_seen;               /* by literal: whether it is in the current clause */
static int is_refuted;

static struct list clause;          /* the literals of the item at hand, each once */
static int has_opposites;           /* whether some literal and its opposite are among them */
static int is_open, is_deletion;    /* whether the item is begun and not finished, and begins with d */
static unsigned long long item;     /* its number */

static void reject(void)
{
    printf("rejected item %llu\n", item);
    exit(0);
}

static int is_false(uint32_t literal)
{
    return is_true[opposite(literal)];
}

static void set_true(uint32_t literal)
{
    is_true[literal] = 1;
    push(&trail, literal);
}

static void swap(uint32_t *one, uint32_t *other)
{
    uint32_t was = *one;
    *one = *other;
    *other = was;
}

static void watch(uint32_t literal, uint32_t other, uint32_t place)
{
    push(&watched[literal], other);
    push(&watched[literal], place);
}

/* Finds another literal to watch a clause in place of the second, which became false; 0 where all others
   are false. */
static int is_watched_else(uint32_t place)
{
    uint32_t *literals = kept.at + place + 1, count = kept.at[place];
    for (uint32_t i = 2; i < count; i++) {
        if (is_false(literals[i])) continue;
        swap(&literals[1], &literals[i]);
        watch(literals[1], literals[0], place);
        return 1;
    }
    return 0;
}

/* Looks at the clauses that a literal watches which became false, and sets what follows; 0 where one of
   them is false. */
static int look_at(uint32_t lost)
{
    struct list *entries = &watched[lost];
    size_t left = 0, at = 0;
    int holds = 1;
    while (holds && at < entries->count) {
        uint32_t other = entries->at[at++], place = entries->at[at++];
        uint32_t *literals = kept.at + place + 1;
        if (!is_true[other]) {
            if (literals[0] == lost) swap(&literals[0], &literals[1]);
            other = literals[0];
            if (!is_true[other] && is_watched_else(place)) continue;
            if (is_false(other)) holds = 0;
            else if (!is_true[other]) set_true(other);
        }
        entries->at[left++] = other;
        entries->at[left++] = place;
    }
    while (at < entries->count) entries->at[left++] = entries->at[at++];
    entries->count = left;
    return holds;
}

/* Sets what follows from what was set from this place on; 0 where a clause becomes false. */
static int propagate(size_t at)
{
    while (at < trail.count)
        if (!look_at(opposite(trail.at[at++]))) return 0;
    return 1;
}

/* Sets a literal for ever, with what follows. */
static void set_for_ever(uint32_t literal)
{
    size_t begin = trail.count;
    set_true(literal);
    is_refuted = !propagate(begin);
}

/* Adds the clause at hand. */
static void add(void)
{
    size_t place = kept.count;
    if (is_refuted || has_opposites) return;
    push(&kept, 0);
    for (size_t i = 0; i < clause.count; i++) {
        if (is_true[clause.at[i]]) {
            kept.count = place;
            return;
        }
        if (!is_false(clause.at[i])) push(&kept, clause.at[i]);
    }
    if (kept.count > UINT32_MAX) give_up("too many literals", "judge");
    uint32_t count = (uint32_t)(kept.count - place - 1), *literals = kept.at + place + 1;
    kept.at[place] = count;
    if (count >= 2) {
        watch(literals[0], literals[1], (uint32_t)place);
        watch(literals[1], literals[0], (uint32_t)place);
        return;
    }
    kept.count = place;
    if (count == 0) is_refuted = 1;
    else set_for_ever(literals[0]);
}

/* Whether a clause becomes false where all literals of the clause at hand are set false. */
static int follows(void)
{
    size_t begin = trail.count;
    int holds = !is_refuted;
    for (size_t i = 0; holds && i < clause.count; i++) {
        if (is_true[clause.at[i]]) holds = 0;
        else if (!is_false(clause.at[i])) set_true(opposite(clause.at[i]));
    }
    holds = holds && propagate(begin);
    while (trail.count > begin) is_true[trail.at[--trail.count]] = 0;
    return !holds;
}

/* Begins a clause without literals. */
static void begin_clause(void)
{
    for (size_t i = 0; i < clause.count; i++) is_seen[clause.at[i]] = 0;
    clause.count = 0;
    has_opposites = 0;
}

static void take_literal(uint32_t literal)
{
    if (is_seen[literal]) return;
    is_seen[literal] = 1;
    has_opposites = has_opposites || is_seen[opposite(literal)];
    push(&clause, literal);
}

/* Judges the item at hand, which is finished: one that begins with d only has to be well written. */
static void end_item(void)
{
    is_open = 0;
    if (is_deletion || has_opposites) return;
    if (!follows()) reject();
    add();
}

/* Takes a word of an item that is begun. */
static void take_word(struct part word, uint64_t variables)
{
    if (is_same(word, "0")) {
        end_item();
        return;
    }
    uint32_t literal = literal_of(word, variables);
    if (literal == 0) reject();
    take_literal(literal);
}

/* Takes the next word of the text. Between items it begins one. */
static void take_next(struct part word, uint64_t variables)
{
    int is_first = !is_open;
    if (is_first) {
        item++;
        begin_clause();
        is_open = 1;
        is_deletion = is_same(word, "d");
    }
    if (!is_first || !is_deletion) take_word(word, variables);
}

static int is_gap(char byte)
{
    return byte == ' ' || byte == '\t' || byte == '\r';
}

/* Takes the words of a line. */
static void take_line(struct part line, uint64_t variables)
{
    while (line.from < line.to) {
        struct part word = {line.from, line.from};
        while (word.to < line.to && !is_gap(*word.to)) word.to++;
        if (word.from < word.to) take_next(word, variables);
        line.from = word.to < line.to ? word.to + 1 : line.to;
    }
}

/* Takes all items of a text, of whose lines those that begin with c are left out. The last has to be
   finished. */
static void take_text(struct part text, uint64_t variables)
{
    struct part line;
    while (text.from < text.to) {
        if (!take_until(&text, '\n', &line)) {
            line = text;
            text.from = text.to;
        }
        if (line.from == line.to || *line.from != 'c') take_line(line, variables);
    }
    if (is_open) reject();
}

/* Adds the clauses of the formula. */
static void add_formula(const struct clauses *clauses)
{
    for (size_t i = 0; i < count_of(clauses); i++) {
        begin_clause();
        for (uint32_t k = clauses->starts.at[i]; k < clauses->starts.at[i + 1]; k++)
            take_literal(clauses->literals.at[k]);
        add();
    }
}

int main(int count, char **words)
{
    struct formula formula;
    struct part text;
    if (count != 3) give_up("two words are wanted, two files", words[0]);
    if (!read_formula(words[1], &formula)) give_up("isn't there", words[1]);
    if (!read_file(words[2], &text)) give_up("isn't there", words[2]);
    size_t literals = 2 * formula.variables + 2;
    is_true = calloc(literals, 1);
    is_seen = calloc(literals, 1);
    watched = calloc(literals, sizeof *watched);
    if (is_true == NULL || is_seen == NULL || watched == NULL) give_up("no memory", "judge");
    add_formula(&formula.clauses);
    take_text(text, formula.variables);
    item++;
    if (!is_refuted) reject();
    printf("refuted\n");
    return 0;
}
