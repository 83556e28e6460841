/* desk: the host for the people at the counter. It reads a batch from a directory and asks the library; show_help has the commands.
   Exit status: 0 answered, 1 refused, 2 wrong use or a file that can't be read.

   The library judges: what it refuses is refused, with its number. The host reads files and arguments, shows names and times of a batch that the library
   accepted, and refuses by itself only a stop number that the batch doesn't have (desk trips). */
#include "desk.h"

#include <string.h>

#define HOLIDAYS " --holidays FILE | --no-holidays"

struct command {
    const char *name;
    const char *usage;
    int least, most; /* how many arguments, without options */
    int asks_of_a_day;
    enum status (*run)(const struct arguments *arguments);
};

static const struct command commands[] = {
    {"check", "DIR", 1, 1, 0, run_check},
    {"sale", "DIR LINE TRIP DATE FROM TO" HOLIDAYS, 6, 6, 1, run_sale},
    {"trips", "DIR FROM TO DATE" HOLIDAYS, 4, 4, 1, run_trips},
    {"stops", "DIR LINE TRIP", 3, 3, 0, run_stops},
    {"stop", "DIR TOWN [PART [PLACE]]", 2, 4, 0, run_stop},
};

static const struct command *command_named(const char *name)
{
    size_t i;
    for (i = 0; i < sizeof commands / sizeof commands[0]; i++)
        if (strcmp(commands[i].name, name) == 0)
            return &commands[i];
    return NULL;
}

static enum status see_help(void)
{
    tell(stderr, "desk --help shows how it is used\n", "nápovědu zobrazí desk --help\n");
    return WRONG_USE;
}

/* One option; `next` is the argument behind it, or NULL. How many arguments it takes, or 0 if it is wrong. */
static int take_option(const char *option, const char *next, struct arguments *arguments)
{
    if (strcmp(option, "--help") == 0) {
        arguments->help = 1;
        return 1;
    }
    if (strcmp(option, "--no-holidays") == 0) {
        arguments->no_holidays = 1;
        return 1;
    }
    if (strcmp(option, "--holidays") != 0) {
        COMPLAIN("there is no option %s", "přepínač %s neexistuje", plain(option));
        return 0;
    }
    if (next == NULL || arguments->holidays != NULL) {
        COMPLAIN("%s is followed by the name of one file, and stands once", "za %s následuje název souboru a přepínač se uvádí jen jednou", option);
        return 0;
    }
    arguments->holidays = next;
    return 2;
}

/* Sorts arguments from options. */
static enum status take_arguments(int argc, char **argv, struct arguments *arguments)
{
    const int room = sizeof arguments->given / sizeof arguments->given[0];
    int i = 0, taken, options_ended = 0;
    memset(arguments, 0, sizeof *arguments);
    for (; i < argc; i += taken) {
        taken = 1;
        if (options_ended || strncmp(argv[i], "--", 2) != 0) {
            if (arguments->count < room)
                arguments->given[arguments->count] = argv[i];
            arguments->count++;
        } else if (argv[i][2] == 0) {
            options_ended = 1;
        } else {
            taken = take_option(argv[i], i + 1 < argc ? argv[i + 1] : NULL, arguments);
            if (taken == 0)
                return WRONG_USE;
        }
    }
    return ANSWERED;
}

static enum status wrong_use_of(const struct command *command)
{
    TELL(stderr, "it is used so: desk %s %s\n", "použití: desk %s %s\n", command->name, command->usage);
    return WRONG_USE;
}

/* A sale needs to know the holidays: a list that was forgotten looks like a year without any. */
static enum status check_holidays(const struct command *command, const struct arguments *arguments)
{
    int said = arguments->holidays != NULL, said_none = arguments->no_holidays;
    if (command->asks_of_a_day && said != said_none)
        return ANSWERED;
    if (!command->asks_of_a_day && !said && !said_none)
        return ANSWERED;
    if (!command->asks_of_a_day)
        COMPLAIN("%s has no list of holidays", "příkaz %s seznam svátků nepoužívá", command->name);
    else if (said)
        COMPLAIN("%s has either --holidays or --no-holidays", "příkaz %s má buď --holidays, nebo --no-holidays, ne obojí", command->name);
    else
        COMPLAIN("%s needs the list of holidays, or --no-holidays if there are none",
                 "příkaz %s potřebuje seznam svátků, nebo --no-holidays, pokud žádné nejsou", command->name);
    return WRONG_USE;
}

static enum status run(int argc, char **argv)
{
    struct arguments arguments;
    const struct command *command;
    if (argc < 2) {
        show_help(stderr);
        return WRONG_USE;
    }
    if (take_arguments(argc - 1, argv + 1, &arguments) != ANSWERED)
        return see_help();
    if (arguments.help) {
        show_help(stdout);
        return ANSWERED;
    }
    if (arguments.count == 0)
        return see_help();
    command = command_named(arguments.given[0]);
    if (command == NULL) {
        COMPLAIN("there is no command %s", "příkaz %s neexistuje", plain(arguments.given[0]));
        return see_help();
    }
    arguments.count--;
    memmove(arguments.given, arguments.given + 1, sizeof arguments.given - sizeof arguments.given[0]);
    if (arguments.count < command->least || arguments.count > command->most) {
        COMPLAIN("%s has another number of arguments", "příkaz %s má jiný počet argumentů", command->name);
        return wrong_use_of(command);
    }
    if (check_holidays(command, &arguments) != ANSWERED)
        return wrong_use_of(command);
    return command->run(&arguments);
}

int main(int argc, char **argv)
{
    enum status status;
    choose_language();
    if (slovdrim_version() != SLOVDRIM_VERSION) {
        tell(stderr, "desk: the library is not of this header's version\n", "desk: knihovna je jiné verze než tento program\n");
        return WRONG_USE;
    }
    status = run(argc, argv);
    if (fflush(stdout) != 0 || ferror(stdout)) {
        tell(stderr, "desk: the answer can't be written\n", "desk: odpověď nelze zapsat\n");
        return WRONG_USE;
    }
    return status;
}
