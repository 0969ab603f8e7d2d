/* blorb: a command line program for those who pack and write text adventures. docs/COMMAND.md describes it. */
#define _XOPEN_SOURCE 700
#include <errno.h>
#include <fcntl.h>
#include <signal.h>
#include <stdio.h>
#include <string.h>
#include <unistd.h>

#include "blorb.h"
#include "commands.h"
#include "files.h"
#include "helping.h"
#include "kinds.h"
#include "words.h"

typedef struct command {
    const char *name;
    const char *operands; /* in order, by the letters of `operands` below; one in capitals may be left out */
    const char *options;  /* by the letters of `options` below, besides --adrift, which all take */
    const char *usage;
    const char *help;
    int (*run)(const request *r);
} command;

static const command commands[] = {
    {"list", "f", "jl", "list FILE [--long | --json]",
     "print the file's length and its resources, in the order of the index; --long and --json print more of each, as the size of a"
     " picture and how long an AIFF sound plays", run_list},
    {"info", "f", "j", "info FILE [--json]",
     "print title, author, IFID, cover, release and what story it is", run_info},
    {"check", "f+", "jt", "check FILE.. [--strict] [--json]",
     "say whether the file keeps every rule, or which one it breaks and where; warn of what is likely to be wrong; check FILE.table too", run_check},
    {"table", "f", "co", "table FILE [--c-array [-o OUT]]",
     "write the file's finding table to FILE.table; from then on every edit and undo brings it up to date; --c-array prints it as C instead",
     run_table},
    {"find", "fun", "", "find FILE USAGE NUMBER",
     "check FILE.table, and find the start of a resource's chunk by it", run_find},
    {"get", "fun", "oax", "get FILE USAGE NUMBER [-o OUT], or get FILE --all FOLDER [--force]",
     "write a resource's data to OUT; without it, or with -, to standard output; --all writes every resource to FOLDER", run_get},
    {"sheet", "f", "o", "sheet FILE [-o OUT]",
     "write a web page that shows every picture, sound and text", run_sheet},
    {"unpack", "fk", "x", "unpack FILE FOLDER [--force]",
     "write all of the file to FOLDER, with a list.txt that `pack` takes", run_unpack},
    {"pack", "lq", "sx", "pack LIST OUT [--as-is] [--force]",
     "make a file of a list of files, or of a Blurb script", run_pack},
    {"mend", "f", "o", "mend FILE -o OUT",
     "mend what can be mended for certain, to the new file OUT", run_mend},
    {"forms", "fI", "o", "forms FILE [N [-o OUT]]",
     "list the FORMs of an artists' group file (IFF with LIST and CAT), from 0; or write FORM N, a whole file, to OUT or standard output", run_forms},
    {"scale", "fnwS", "", "scale FILE NUMBER WIDTHxHEIGHT [PICTURE_WIDTHxPICTURE_HEIGHT]",
     "print how large a picture is shown in a window of that size, by the file's 'Reso'; its own size is read from its data where it is left out",
     run_scale},
    {"describe", "fun", "ow", "describe FILE [USAGE NUMBER [-o OUT]], or describe FILE --write LISTFILE [-o CHUNK]",
     "list the spoken descriptions of the file's resources, or print one; --write makes the chunk that holds those of LISTFILE", run_describe},
    {"diff", "ab", "", "diff A B",
     "say what differs from A to B, by resource and chunk: - is only in A, + only in B, ! in both; the exit status is 0 where nothing differs, 1 where"
     " something does, and 2 where one of them is refused or cannot be read", run_diff},
    {"explain", "n", "", "explain NUMBER", "say what a refusal means by its number, what its place is and what helps; 100 + k too", run_explain},
    {"new", "f", "", "new FILE", "make a file with no resources", run_new},
    {"add", "funTd", "snq", "add FILE USAGE NUMBER [TYPE] DATAFILE [--as-is] [--no-undo] [-q]",
     "add a resource with the data of DATAFILE; - is standard input", run_add},
    {"replace", "funTd", "snq", "replace FILE USAGE NUMBER [TYPE] DATAFILE [--as-is] [--no-undo] [-q]",
     "give a resource another type and other data", run_replace},
    {"remove", "fun", "nq", "remove FILE USAGE NUMBER [--no-undo] [-q]", "remove a resource", run_remove},
    {"link", "funvm", "nq", "link FILE USAGE NUMBER NEWUSAGE NEWNUMBER [--no-undo] [-q]",
     "give a resource a second name, on the same data: nothing is copied", run_link},
    {"undo", "fE", "q", "undo FILE [N] [-q]", "take back the last edit, or the last N, that are not taken back yet", run_undo},
    {"history", "f", "", "history FILE", "list the edits that undo can take back, the last one first", run_history},
    {"forget", "f", "", "forget FILE", "drop the journal FILE.undo, and with it all undoing up to here", run_forget},
};

enum { COMMANDS = sizeof commands / sizeof *commands };

/* What stands behind a command, by a letter. */
typedef struct operand {
    char letter;
    const char *name;
} operand;

static const operand operands[] = {{'f', "FILE"}, {'a', "A"}, {'b', "B"}, {'u', "USAGE"}, {'n', "NUMBER"}, {'t', "TYPE"}, {'d', "DATAFILE"},
                                   {'e', "N"}, {'i', "N"}, {'v', "NEWUSAGE"}, {'m', "NEWNUMBER"}, {'w', "WIDTHxHEIGHT"},
                                   {'s', "PICTURE_WIDTHxPICTURE_HEIGHT"}, {'k', "FOLDER"}, {'l', "LIST"}, {'q', "OUT"}};

/* In place of a letter: any number of further FILEs. */
enum { MORE_FILES = '+' };

typedef struct option {
    char letter;
    const char *name;
    int takes_name;
} option;

#define ADRIFT_OPTION "--adrift"
static const option options[] = {
    {'p', ADRIFT_OPTION, 0},
    {'o', "-o", 1}, {'a', "--all", 1}, {'s', "--as-is", 0}, {'n', "--no-undo", 0}, {'j', "--json", 0}, {'l', "--long", 0},
    {'w', "--write", 1}, {'q', "-q", 0}, {'c', "--c-array", 0}, {'x', "--force", 0}, {'t', "--strict", 0},
};

static void print_help(void)
{
    puts("blorb: look into Blorb files, and change them with undo\n");
    for (int i = 0; i < COMMANDS; i++) {
        print_forms("  ", commands[i].usage);
        print_wrapped(commands[i].help, 6, 0);
    }
    puts("  blorb help [COMMAND]\n      explain a command with its options\n  blorb --version\n      print the version\n");
    print_all_words();
    print_wrapped("What undo needs is kept beside the file, in FILE.undo. Names that end in .undo, .table or .blorb-temp, in any case, are the program's own."
                  " `blorb explain NUMBER` says more about a refusal.", 0, 0);
    print_wrapped("Exit status: 0 done; 1 the library refused, with its number, place and reason; 2 wrong use, data that contradicts TYPE, or the system"
                  " failed.", 0, 0);
}

static void print_help_of(const command *c)
{
    print_forms("usage: ", c->usage);
    print_wrapped(c->help, 2, 0);
    putchar('\n');
    print_words_of(c->usage);
}

static int misused(const command *c, const char *why, const char *what)
{
    fprintf(stderr, "blorb %s: %s%s", c->name, why, what[0] != '\0' ? ": " : "");
    say_safely(what);
    fprintf(stderr, "\n  usage: blorb %s\n", c->usage);
    return FAILED;
}

/* Four bytes; spaces at the end may be left out, and what is known may have any case. */
static int read_tag(const char *text, char tag[4], void settle(char tag[4]))
{
    size_t length = strlen(text);
    if (length < 1 || length > 4)
        return -1;
    memset(tag, ' ', 4);
    memcpy(tag, text, length);
    settle(tag);
    return 0;
}

/* Decimal digits only, up to `end`. */
static int read_digits(const char *text, const char *end, uint64_t *number)
{
    uint64_t n = 0;
    if (text == end)
        return -1;
    for (const char *c = text; c != end; c++) {
        if (*c < '0' || *c > '9')
            return -1;
        n = 10 * n + (uint64_t)(*c - '0');
        if (n > UINT32_MAX)
            return -1;
    }
    *number = n;
    return 0;
}

static int read_number(const char *text, uint32_t *number)
{
    uint64_t n = 0;
    int done = read_digits(text, text + strlen(text), &n);
    *number = (uint32_t)n;
    return done;
}

/* Two numbers with an x between them. Which of them are too large the library says. */
static int read_sides(const char *text, uint64_t sides[2])
{
    const char *between = strchr(text, 'x');
    if (between == NULL || read_digits(text, between, &sides[0]) != 0)
        return -1;
    return read_digits(between + 1, between + 1 + strlen(between + 1), &sides[1]);
}

/* One operand; gives what it should have been where it is wrong. */
static const char *read_operand(char letter, const char *text, request *r)
{
    switch (letter) {
    case 'f': case 'a': case 'q':
        r->file = text;
        return NULL;
    case 'b':
        r->other = text;
        return NULL;
    case 'k':
        r->folder = text;
        return NULL;
    case 'u': case 'v':
        return read_tag(text, letter == 'u' ? r->usage : r->new_usage, settle_usage) == 0 ? NULL : "a usage has one to four letters";
    case 'n': case 'm':
        return read_number(text, letter == 'n' ? &r->number : &r->new_number) == 0 ? NULL : "a number is 0 to 4294967295, in digits";
    case 't':
        return read_tag(text, r->type, settle_type_name) == 0 ? NULL : "a type has one to four letters";
    case 'e':
        return read_number(text, &r->edits) == 0 && r->edits > 0 ? NULL : "N is how many edits to take back, from 1, in digits";
    case 'i':
        r->picks_form = 1;
        return read_number(text, &r->form) == 0 ? NULL : "N is the number of a FORM in the list, from 0, in digits";
    case 'w':
        return read_sides(text, r->window) == 0 ? NULL : "the window is WIDTHxHEIGHT, in digits, each at most 65535, such as 640x480";
    case 's':
        r->has_size = 1;
        return read_sides(text, r->size) == 0 ? NULL : "the picture's size is WIDTHxHEIGHT, in digits, each at most 65535, such as 320x200";
    default:
        r->data = text;
        return NULL;
    }
}

/* Gives 0, or -1 where the option has been given its name before. */
static int set_option(char letter, const char *name, request *r)
{
    int given_before = (letter == 'o' && r->out != NULL) || (letter == 'a' && r->folder != NULL) || (letter == 'w' && r->data != NULL);
    switch (letter) {
    case 'p':
        r->profile = BLORB_ADRIFT;
        break;
    case 'o':
        r->out = name;
        break;
    case 'a':
        r->folder = name;
        break;
    case 's':
        r->as_is = 1;
        break;
    case 'w':
        r->data = name;
        break;
    case 'n':
        r->no_undo = 1;
        break;
    case 'q':
        r->quiet = 1;
        break;
    case 'c':
        r->c_array = 1;
        break;
    case 'j':
        r->json = 1;
        break;
    case 'x':
        r->force = 1;
        break;
    case 't':
        r->strict = 1;
        break;
    default:
        r->detailed = 1;
    }
    return given_before ? -1 : 0;
}

static const option *find_option(const command *c, const char *word)
{
    for (size_t i = 0; i < sizeof options / sizeof *options; i++)
        if ((options[i].letter == 'p' || strchr(c->options, options[i].letter) != NULL) && strcmp(options[i].name, word) == 0)
            return &options[i];
    return NULL;
}

/* The words behind a command without its options. */
typedef struct words {
    char **at;
    size_t count;
} words;

/* -1 is a wrong number and no option; - is standard input, and --help was asked for in front or is a name. */
static int looks_like_option(const char *word)
{
    return word[0] == '-' && word[1] != '\0' && !(word[1] >= '0' && word[1] <= '9') && strcmp(word, "--help") != 0;
}

/* Takes the options out of the words given. A word that looks like one and is none may be a slip: behind -- it is a name. */
static int take_options(const command *c, int count, char **given, request *r, words *left)
{
    int names_only = 0;
    *left = (words){.at = given};
    for (int i = 0; i < count; i++) {
        const option *o = names_only ? NULL : find_option(c, given[i]);
        if (o != NULL) {
            const char *name = o->takes_name && i + 1 < count ? given[++i] : NULL;
            if ((o->takes_name && name == NULL) || set_option(o->letter, name, r) != 0)
                return misused(c, "this option takes one name, once", o->name);
        } else if (!names_only && strcmp(given[i], "--") == 0) {
            names_only = 1;
        } else if (!names_only && looks_like_option(given[i])) {
            return misused(c, "there is no such option; put -- in front of a name that begins so", given[i]);
        } else {
            left->at[left->count++] = given[i];
        }
    }
    return CARRIED_OUT;
}

static const char *name_of_operand(char letter)
{
    for (size_t i = 0; i < sizeof operands / sizeof *operands; i++)
        if (operands[i].letter == letter)
            return operands[i].name;
    return "";
}

static int may_be_left_out(char letter)
{
    return letter >= 'A' && letter <= 'Z';
}

/* What a command needs from here on, by name. */
static int say_missing(const command *c, const char *wanted)
{
    char names[96] = "";
    size_t length = 0, count = 0;
    for (const char *l = wanted; *l != '\0'; l++)
        if (!may_be_left_out(*l) && *l != MORE_FILES) {
            length += (size_t)snprintf(names + length, sizeof names - length, "%s%s", count > 0 ? ", " : "", name_of_operand(*l));
            count++;
        }
    return misused(c, "missing", names);
}

/* The words from this one on that no operand takes. */
static int say_too_much(const command *c, const words *left, size_t next)
{
    char all[160] = "";
    for (size_t length = 0; next < left->count && length < sizeof all; next++)
        length += (size_t)snprintf(all + length, sizeof all - length, "%s%s", length > 0 ? " " : "", left->at[next]);
    return misused(c, "too much", all);
}

/* Hands the words to the operands in order. Where there are too few, TYPE and N are left out. */
static int read_operands(const command *c, const char *wanted, const words *left, request *r)
{
    size_t spare = left->count, next = 0;
    for (const char *l = wanted; *l != '\0'; l++)
        spare -= !may_be_left_out(*l) && *l != MORE_FILES && spare > 0;
    for (const char *l = wanted; *l != '\0'; l++) {
        int optional = may_be_left_out(*l);
        if (*l == MORE_FILES) {
            r->files = (const char *const *)left->at;
            r->file_count = next = left->count;
            break;
        }
        if (optional && spare == 0)
            continue;
        if (next == left->count)
            return say_missing(c, l);
        const char *wrong = read_operand(optional ? (char)(*l - 'A' + 'a') : *l, left->at[next], r);
        if (wrong != NULL)
            return misused(c, wrong, left->at[next]);
        spare -= (size_t)optional;
        next++;
    }
    return next == left->count ? CARRIED_OUT : say_too_much(c, left, next);
}

/* A file of such a name is the program's own: edits of the file beside it write, add to and delete it. */
static int refuse_own_names(const request *r)
{
    const char *files[] = {r->file, r->other};
    for (size_t i = 0; i < sizeof files / sizeof *files; i++)
        if (files[i] != NULL && own_ending(files[i]) != NULL)
            return say_cannot(files[i], "names that end in .undo, .table or .blorb-temp, in any case, are this program's own, for the journal and the"
                              " finding table of a file and for what is being written",
                              "Give the name of the Blorb file itself; if this is one, rename it.");
    if (r->data != NULL && is_temporary(r->data))
        return say_cannot(r->data, "names that end in .blorb-temp are this program's own, and the next edit may delete such a file",
                          "Rename it first.");
    return CARRIED_OUT;
}

static int is_help(const char *word)
{
    return strcmp(word, "--help") == 0 || strcmp(word, "-h") == 0;
}

/* A command that goes over all of FILE takes its name alone. */
static const char *operands_wanted(const command *c, const request *r, const words *left)
{
    int describes = c->run == run_describe;
    return r->folder != NULL || (describes && (r->data != NULL || left->count < 2)) ? "f" : c->operands;
}

/* What does not go together once the operands are known. */
static int refuse_misuse(const command *c, const request *r)
{
    if (c->run == run_forms && r->out != NULL && !r->picks_form)
        return misused(c, "-o is for one FORM, whose N is missing", "");
    if (c->run == run_describe && r->out != NULL && r->data == NULL && !r->has_pair)
        return misused(c, "-o is for one text, or for --write", "");
    if (c->run == run_table && r->out != NULL && !r->c_array)
        return misused(c, "-o is for --c-array", "");
    if (c->run == run_mend && r->out == NULL)
        return misused(c, "missing", "-o OUT");
    if (c->run == run_get && r->force && r->folder == NULL)
        return misused(c, "--force is for --all", "");
    return refuse_own_names(r);
}

static int run_command(const command *c, uint32_t profile, int count, char **given)
{
    request r = {.edits = 1, .profile = profile};
    words left;
    if (count > 0 && is_help(given[0])) {
        print_help_of(c);
        return CARRIED_OUT;
    }
    int status = take_options(c, count, given, &r, &left);
    if (status == CARRIED_OUT && r.json && r.detailed)
        status = misused(c, "either --long or --json", "");
    if (status == CARRIED_OUT && r.folder != NULL && r.out != NULL)
        status = misused(c, "either -o OUT or --all FOLDER", "");
    if (status == CARRIED_OUT)
        status = read_operands(c, operands_wanted(c, &r, &left), &left, &r);
    r.has_pair = left.count > 1;
    if (status == CARRIED_OUT)
        status = refuse_misuse(c, &r);
    return status == CARRIED_OUT ? c->run(&r) : status;
}

static const command *find_command(const char *name)
{
    for (int i = 0; i < COMMANDS; i++)
        if (strcmp(name, commands[i].name) == 0)
            return &commands[i];
    fputs("blorb: there is no command ", stderr);
    say_safely(name);
    fputs(". `blorb --help` lists them.\n", stderr);
    return NULL;
}

static int run(int count, char **given)
{
    uint32_t profile = BLORB_PLAIN;
    for (; count > 0 && strcmp(given[0], ADRIFT_OPTION) == 0; count--, given++)
        profile = BLORB_ADRIFT;
    if (count == 0) {
        fputs("blorb: no command given. `blorb --help` lists them.\n", stderr);
        return FAILED;
    }
    int helping = is_help(given[0]) || strcmp(given[0], "help") == 0;
    if (strcmp(given[0], "--version") == 0) {
        puts("blorb " BLORB_VERSION_TEXT ", for Blorb 2.0.4");
        return CARRIED_OUT;
    }
    if (helping && count == 1) {
        print_help();
        return CARRIED_OUT;
    }
    const command *c = find_command(given[helping ? 1 : 0]);
    if (c == NULL)
        return FAILED;
    if (!helping)
        return run_command(c, profile, count - 1, given + 1);
    print_help_of(c);
    return CARRIED_OUT;
}

/* A standard stream that is closed stays unusable, and no file of the program's takes its place. */
static void hold_streams(void)
{
    for (int fd = STDIN_FILENO; fd <= STDERR_FILENO; fd++)
        if (fcntl(fd, F_GETFD) < 0 && open("/dev/null", fd == STDIN_FILENO ? O_WRONLY : O_RDONLY) < 0)
            _exit(FAILED);
}

/* Gives 0, or -1 and errno. The reason of a failure before the last write is no longer known. */
static int close_output(void)
{
    int lost = ferror(stdout);
    if (fclose(stdout) != 0)
        return -1;
    if (lost != 0)
        errno = EIO;
    return lost != 0 ? -1 : 0;
}

int main(int count, char **given)
{
    hold_streams();
    /* A limit on file sizes is then a failed write like any other, and cleaned up after. */
    signal(SIGXFSZ, SIG_IGN);
    int status = run(count > 0 ? count - 1 : 0, given + 1);
    if (close_output() != 0)
        return say_output_failed("the text cannot be written");
    return status;
}
