/* Judges a certificate, line by line, by what docs/reference/formats.md says of how audit reads one ("Certificates").

       certificate_judge FORMULAS CERTIFICATE..

   FORMULAS is a directory with the formula of each query, in files named as `hazard-0`. Of each certificate it
   prints `accepted k=K`, or `rejected line N` with the first bad line; or `wants QUERY N`, where the
   certificate comes to a query whose formula isn't there. It shares nothing with the program but the
   formulas, and nothing with certificate.py but what both are written from. */

#include <setjmp.h>

#include "judge.h"

#define MOST 16                     /* the greatest K */

static struct part text;            /* the certificate */
static struct part rest;            /* what of it wasn't taken yet */
static struct part line;            /* the line at hand */
static unsigned long long number;   /* its number */
static jmp_buf end_of_it;           /* where the judging of a certificate goes on that is answered */

static void reject(void)
{
    printf("rejected line %llu\n", number);
    longjmp(end_of_it, 1);
}

/* The next line; it is bad where no line feed ends it. */
static void next_line(void)
{
    number++;
    if (!take_until(&rest, '\n', &line)) reject();
}

static void need_line(const char *wanted)
{
    next_line();
    if (!is_same(line, wanted)) reject();
}

/* The number of the line `safe K`. */
static unsigned safe_number(void)
{
    char wanted[16];
    next_line();
    for (unsigned most = 1; most <= MOST; most++) {
        snprintf(wanted, sizeof wanted, "safe %u", most);
        if (is_same(line, wanted)) return most;
    }
    reject();
    return 0;
}

/* What holds while a step is looked at: which literals are true, and in which order they became so. */
struct setting {
    char *is_true;
    struct list trail;
};

/* A query's formula, behind which its steps are put, and how much of it is the formula itself. */
struct query {
    struct formula formula;
    struct setting setting;
    size_t literals, starts;
};

static void set_true(struct setting *setting, uint32_t literal)
{
    setting->is_true[literal] = 1;
    push(&setting->trail, literal);
}

static void clear(struct setting *setting)
{
    while (setting->trail.count > 0) setting->is_true[setting->trail.at[--setting->trail.count]] = 0;
}

/* The words of a list, each before a space, up to the word 0, which is the line's last where it has to be. */
static int take_word(struct part *words, int is_last_list, struct part *word)
{
    if (is_last_list && is_same(*words, "0")) {
        words->from = words->to;
        return 0;
    }
    if (!take_until(words, ' ', word)) reject();
    return is_last_list || !is_same(*word, "0");
}

/* Takes the literals of a step, which are of different variables, and sets each false. */
static void take_literals(struct part *words, struct formula *formula, struct setting *setting)
{
    struct part word;
    while (take_word(words, 0, &word)) {
        uint32_t literal = literal_of(word, formula->variables);
        if (literal == 0 || setting->is_true[literal] || setting->is_true[opposite(literal)]) reject();
        set_true(setting, opposite(literal));
        push(&formula->clauses.literals, literal);
    }
}

/* How many literals of a clause aren't false, and the last of them. */
static size_t not_false(const struct clauses *clauses, uint64_t hint, const struct setting *setting,
                        uint32_t *found)
{
    size_t count = 0;
    for (uint32_t i = clauses->starts.at[hint - 1]; i < clauses->starts.at[hint]; i++) {
        if (setting->is_true[opposite(clauses->literals.at[i])]) continue;
        *found = clauses->literals.at[i];
        count++;
    }
    return count;
}

/* Takes the hints of a step. Each but the last names a clause with one literal that isn't set and all
   others false, which is set true; the last names one with all literals false. */
static void take_hints(struct part *words, const struct formula *formula, struct setting *setting)
{
    struct part word;
    uint32_t found = 0;
    int is_false = 0;
    while (take_word(words, 1, &word)) {
        uint64_t hint = number_of(word);
        if (is_false || hint == 0 || hint > count_of(&formula->clauses)) reject();
        size_t count = not_false(&formula->clauses, hint, setting, &found);
        is_false = count == 0;
        if (count > 1 || (count == 1 && setting->is_true[found])) reject();
        if (count == 1) set_true(setting, found);
    }
    if (!is_false) reject();
}

/* Takes the line of a step; whether its clause is the empty one. */
static int take_step(struct formula *formula, struct setting *setting)
{
    struct part words = {line.from, line.to}, word;
    if (!take_until(&words, ' ', &word) || !is_same(word, "step")) reject();
    size_t before = formula->clauses.literals.count;
    take_literals(&words, formula, setting);
    take_hints(&words, formula, setting);
    clear(setting);
    end_clause(&formula->clauses);
    return formula->clauses.literals.count == before;
}

/* The query of a kind, 0 to 2, and a number: its formula, read where it is first asked for, alone. */
static struct query *query_of(const char *directory, int kind, const char *word, unsigned steps)
{
    static struct query *known[3][MOST + 1];
    char name[4096];
    if (known[kind][steps] == NULL) {
        struct query *query = calloc(1, sizeof *query);
        snprintf(name, sizeof name, "%s/%s-%u", directory, word, steps);
        if (query == NULL) give_up("no memory", "judge");
        if (!read_formula(name, &query->formula)) {
            printf("wants %s %u\n", word, steps);
            longjmp(end_of_it, 1);
        }
        query->setting.is_true = calloc(2 * query->formula.variables + 2, 1);
        if (query->setting.is_true == NULL) give_up("no memory", "judge");
        query->literals = query->formula.clauses.literals.count;
        query->starts = query->formula.clauses.starts.count;
        known[kind][steps] = query;
    }
    return known[kind][steps];
}

/* Takes the line of a query, and its steps up to the one with the empty clause. */
static void take_query(const char *directory, int kind, unsigned steps)
{
    static const char *const words[] = {"hazard", "breach", "step"};
    char name[32];
    snprintf(name, sizeof name, "query %s %u", words[kind], steps);
    need_line(name);
    struct query *query = query_of(directory, kind, words[kind], steps);
    query->formula.clauses.literals.count = query->literals;
    query->formula.clauses.starts.count = query->starts;
    clear(&query->setting);
    do next_line();
    while (!take_step(&query->formula, &query->setting));
}

/* Takes a certificate, line by line. */
static void take_certificate(const char *directory)
{
    need_line("irv certificate 3");
    unsigned most = safe_number();
    for (unsigned steps = 0; steps <= most; steps++) {
        take_query(directory, 0, steps);
        take_query(directory, 1, steps);
    }
    take_query(directory, 2, most);
    need_line("end");
    if (rest.from != rest.to) {
        number++;
        reject();
    }
    printf("accepted k=%u\n", most);
}

int main(int count, char **words)
{
    if (count < 3) give_up("a directory and files are wanted", words[0]);
    for (int i = 2; i < count; i++) {
        if (!read_file(words[i], &rest)) give_up("isn't there", words[i]);
        text = rest;
        number = 0;
        if (setjmp(end_of_it) == 0) take_certificate(words[1]);
        free((char *)text.from);
    }
    return 0;
}
