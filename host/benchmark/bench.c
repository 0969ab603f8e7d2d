/*
 * bench check SEED CASES: the self-check.
 * bench time: the tables of times, in Markdown.
 * bench count LIBRARY FILE CALL N: N calls, each edit with its undo, for a counter of instructions. LIBRARY, FILE and CALL are
 *     places in their tables; the calls are the four questions, then the edits.
 */
#include "check.h"
#include "groups.h"
#include "sounds.h"
#include "tables.h"
#include "timing.h"

#include <stdio.h>
#include <stdlib.h>
#include <string.h>

const struct library libraries[LIBRARIES] = {LIBRARY(blorb), LIBRARY(plain), LIBRARY(fast)};

static const double GOAL_PLAIN = 1.2, GOAL_FAST = 1.3, GOAL_MOVE = 0.9;
static struct times edit_times, undo_times;
static unsigned rows, over_plain, over_fast;

/* A time with its unit, in one of a few buffers by turns. */
static const char *shown(double ns)
{
    static char text[8][24];
    static unsigned turn;
    char *to = text[turn++ % 8];

    if (ns < 1e4)
        snprintf(to, sizeof text[0], "%.0f ns", ns);
    else if (ns < 1e6)
        snprintf(to, sizeof text[0], "%.1f us", ns / 1e3);
    else
        snprintf(to, sizeof text[0], "%.2f ms", ns / 1e6);
    return to;
}

/* The goals that the row misses, judged by the least times. The one against (b) is for files with rising numbers. */
static const char *missed(double plain, double fast, enum order order)
{
    bool a = plain > GOAL_PLAIN, b = order == RISING && fast > GOAL_FAST;

    rows++;
    over_plain += a;
    over_fast += b;
    return a && b ? "(a) (b)" : a ? "(a)" : b ? "(b)" : "";
}

static void print_row(const struct sample *s, const char *before, const char *call, const struct times *t)
{
    char name[64];
    double plain = t->least[0] / t->least[1], fast = t->least[0] / t->least[2];

    snprintf(name, sizeof name, "%s%s", before, call);
    printf("| %-23s | %-32s | %9s | %5.2f | %7.2f | %5.2f | %7.2f | %-7s |\n", s->name, name, shown(t->least[0]), plain, fast,
           t->median[0] / t->median[1], t->median[0] / t->median[2], missed(plain, fast, s->order));
    fflush(stdout);
}

static void edit_rows(const struct sample *s, const struct sample *to_add)
{
    struct edit edits[EDITS], adding_entries[EDITS];

    edits_of(s, edits);
    edits_of(to_add, adding_entries);
    for (unsigned k = 0; k < EDITS; k++) {
        bool adds = adds_entry(&edits[k]);
        time_edit(adds ? to_add : s, adds ? &adding_entries[k] : &edits[k], &edit_times, &undo_times);
        print_row(s, "", edits[k].name, &edit_times);
        print_row(s, "undo of ", edits[k].name, &undo_times);
    }
}

static void table_of_calls(void)
{
    printf("| %-23s | %-32s | %9s | %5s | %7s | %5s | %7s | %-7s |\n", "File", "Call", "Archive", "/ (a)", "/ (b)", "m (a)",
           "m (b)", "Missed");
    puts("|---|---|--:|--:|--:|--:|--:|---|");
    for (unsigned i = 0; i < SAMPLES; i++) {
        struct sample s = sample(i), to_add = sample_to_add(i);
        for (enum question q = READ; q < QUESTIONS; q++) {
            time_question(&s, q, &edit_times);
            print_row(&s, "", question_names[q], &edit_times);
        }
        if (s.order != REVERSED)
            edit_rows(&s, &to_add);
        free_sample(&s);
        free_sample(&to_add);
    }
    printf("\nOf %u rows %u miss the goal against (a), %u that against (b).\n", rows, over_plain, over_fast);
}

/* `least` are the least times of the edit, with the part behind that moves; `bare` those of the same edit with nothing behind. */
static void print_move(const char *bytes, size_t by, const char *way, const double *least, const double *bare)
{
    double memmove = least[3], own = memmove / (least[0] - bare[0]);

    printf("| %-6s | %3zu %-5s | %9s | %9s | %9s | %5.2f | %5.2f | %5.2f | %-6s |\n", bytes, by, way, shown(memmove),
           shown(least[0]), shown(bare[0]), memmove / least[0], own, memmove / (least[1] - bare[1]),
           own < GOAL_MOVE ? "missed" : "");
    fflush(stdout);
}

/* A first resource of 100 bytes grows by `by`, and what is behind it moves. */
static void move_rows(const char *bytes, size_t size, size_t by)
{
    static struct times bare_edit, bare_undo;
    struct sample s = make_pair(bytes, 100, size - 8), bare = make_pair(bytes, 100, 0);
    struct edit e = {"a move", REPLACE, s.first, NULL, NULL, 0};

    e.what.size += by;
    time_edit(&bare, &e, &bare_edit, &bare_undo);
    time_move(&s, &e, size, by, &edit_times, &undo_times);
    print_move(bytes, by, "right", edit_times.least, bare_edit.least);
    print_move(bytes, by, "left", undo_times.least, bare_undo.least);
    free_sample(&s);
    free_sample(&bare);
}

static void table_of_moves(void)
{
    static const struct {
        const char *name;
        size_t size;
    } parts[] = {{"64 KB", 65536}, {"65,000", 65000}, {"15 MB", 15 * 1048576}};
    static const size_t ways[] = {2, 12, 512};

    printf("| %-6s | %-9s | %9s | %9s | %9s | %5s | %5s | %5s | %-6s |\n", "Bytes", "Moved by", "memmove", "Edit", "without",
           "whole", "Speed", "(a)'s", "Goal");
    puts("|---|---|--:|--:|--:|--:|--:|--:|---|");
    for (unsigned i = 0; i < 3; i++)
        for (unsigned k = 0; k < 3; k++)
            move_rows(parts[i].name, parts[i].size, ways[k]);
}

static void table_by_entries(void)
{
    static const size_t counts[] = {16, 64, 256, 1024, 4096};

    printf("| %-7s | %9s | %8s | %8s | %8s | %9s | %9s | %9s |\n", "Entries", "Read", "an entry", "(a)", "(b)", "Falling",
           "an entry", "Reversed");
    puts("|--:|--:|--:|--:|--:|--:|--:|--:|");
    for (unsigned i = 0; i < 5; i++) {
        struct sample s = make_sample("", counts[i], 1024, RISING), falling = make_sample("", counts[i], 1024, FALLING);
        struct sample reversed = make_sample("", counts[i], 1024, REVERSED);
        double n = (double)counts[i];
        time_question(&falling, READ, &edit_times);
        double down = edit_times.least[0];
        time_question(&reversed, READ, &edit_times);
        double back = edit_times.least[0];
        time_question(&s, READ, &edit_times);
        printf("| %7zu | %9s | %5.1f ns | %5.1f ns | %5.1f ns | %9s | %6.0f ns | %9s |\n", counts[i],
               shown(edit_times.least[0]), edit_times.least[0] / n, edit_times.least[1] / n, edit_times.least[2] / n,
               shown(down), down / n, shown(back));
        free_sample(&s);
        free_sample(&falling);
        free_sample(&reversed);
    }
}

static void table_by_bytes(void)
{
    static const size_t megabytes[] = {1, 4, 15};

    printf("| %-5s | %9s | %9s | %9s | %9s |\n", "Bytes", "Read", "Replace", "a MB", "(a) a MB");
    puts("|--:|--:|--:|--:|--:|");
    for (unsigned i = 0; i < 3; i++) {
        double n = (double)megabytes[i];
        struct sample s = make_sample("by bytes", 16, megabytes[i] * 65536 - 64, RISING);
        struct edit e = {"replace front, 512 more", REPLACE, s.first, NULL, NULL, 0};
        e.what.size += MORE;
        time_question(&s, READ, &undo_times);
        double read = undo_times.least[0];
        time_edit(&s, &e, &edit_times, &undo_times);
        printf("| %2zu MB | %9s | %9s | %9s | %9s |\n", megabytes[i], shown(read), shown(edit_times.least[0]),
               shown(edit_times.least[0] / n), shown(edit_times.least[1] / n));
        free_sample(&s);
    }
}

static void table_of_longest(void)
{
    static const char *const flaws[FLAWS]
        = {"none", "the last entry has the pair before it", "the last entry starts at no chunk", "the last chunk is an index"};

    printf("| %-37s | %7s | %9s | %5s | %7s |\n", "Flaw", "Refusal", "Archive", "/ (a)", "/ (b)");
    puts("|---|--:|--:|--:|--:|");
    for (unsigned i = 0; i < FLAWS; i++) {
        struct sample s = make_crowded((enum flaw)i);
        time_question(&s, READ, &edit_times);
        printf("| %-37s | %7u | %9s | %5.2f | %7.2f |\n", flaws[i], (unsigned)blorb_read(s.file, s.length, BLORB_PLAIN).refusal,
               shown(edit_times.least[0]), edit_times.least[0] / edit_times.least[1], edit_times.least[0] / edit_times.least[2]);
        fflush(stdout);
        free_sample(&s);
    }
}

static int print_times(void)
{
    time_clock();
    puts("## Calls\n");
    table_of_calls();
    puts("\n## Moves of bytes\n");
    table_of_moves();
    puts("\n## Growth with the entries\n");
    table_by_entries();
    puts("\n## Growth with the bytes\n");
    table_by_bytes();
    puts("\n## Longest readings\n");
    table_of_longest();
    puts("\n## Finding tables\n");
    print_tables();
    puts("\n## Finding tables in columns");
    print_columns();
    puts("\n## Sounds\n");
    print_sounds();
    puts("\n## Group files\n");
    print_groups();
    puts("\n## Scaled pictures\n");
    print_scaling();
    puts("\n## Spoken descriptions\n");
    print_texts();
    return 0;
}

static int run_calls(const struct library *l, unsigned file, unsigned call, unsigned n)
{
    struct sample s = sample_to_add(file);
    struct edit edits[EDITS];

    edits_of(&s, edits);
    for (unsigned i = 0; i < n; i++) {
        if (call < QUESTIONS) {
            ask(l, &s, (enum question)call);
            continue;
        }
        blorb_edit_answer a
            = carry_out(l, s.file, s.room, s.length, journal(), JOURNAL_ROOM, 0, BLORB_PLAIN, &edits[call - QUESTIONS]);
        l->undo(s.file, s.room, a.length, journal(), JOURNAL_ROOM, a.used, BLORB_PLAIN);
    }
    free_sample(&s);
    return 0;
}

int main(int argc, char **argv)
{
    unsigned arg[5] = {0};

    for (int i = 2; i < argc && i < 6; i++)
        arg[i - 1] = (unsigned)strtoul(argv[i], NULL, 10);
    if (argc == 4 && strcmp(argv[1], "check") == 0)
        return check_all(arg[1], arg[2]) ? 0 : 1;
    if (argc == 2 && strcmp(argv[1], "time") == 0)
        return print_times();
    if (argc == 6 && strcmp(argv[1], "count") == 0 && arg[1] < LIBRARIES && arg[2] < SAMPLES && arg[3] < QUESTIONS + EDITS)
        return run_calls(&libraries[arg[1]], arg[2], arg[3], arg[4]);
    fputs("use: bench check SEED CASES | bench time | bench count LIBRARY FILE CALL N\n", stderr);
    return 2;
}
