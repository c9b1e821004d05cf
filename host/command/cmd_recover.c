/* recover: what is known of a journal that stops everybody, and what a person
 * chooses to do about it. */
#include "commands.h"

#include "bhtf_file.h"

static const char *state_words(uint32_t state)
{
    switch (state) {
    case BHTF_FILE_NO_JOURNAL:
        return "there is none; the file is as its last writer left it";
    case BHTF_FILE_UNFINISHED:
        return "whole, with an unfinished change; the next command that writes "
               "finishes it";
    case BHTF_FILE_OF_NO_USE:
        return "of no use: the file is proved to be whole; the next command "
               "that writes removes it";
    case BHTF_FILE_FOREIGN:
        return "of another file, or of this one before it was replaced";
    case BHTF_FILE_OWNER:
        return "of a user who may not write to the file";
    default:
        return "damaged; the file may be half written";
    }
}

static void print_change(const struct bhtf_file_journal *j)
{
    printf("its head: %s\n", j->head ? "whole" : "damaged, or there is none");
    if (j->mark < 0)
        printf("its mark: cut away\n");
    else
        printf("its mark: 0x%02X (%s)\n", (unsigned)j->mark,
               j->mark == 0xA5 ? "a change is under way"
               : j->mark == 0 ? "no change is under way" : "damaged");
    if (!j->content) {
        printf("its change: not all of it is there\n");
        return;
    }
    printf("its change: whole, %lu bytes in %lu stretches, of which %lu are in "
           "the file\n", (unsigned long)j->bytes, (unsigned long)j->stretches,
           (unsigned long)j->written);
    printf("the file's other bytes: %s\n", j->same
           ? "those that the change is for" : "others than the change is for");
    printf("the file with the change: %s\n",
           j->sound_after ? "sound" : "not sound");
}

static void print_choices(const char *path, const struct bhtf_file_journal *j)
{
    if (j->state <= BHTF_FILE_OF_NO_USE)
        return;
    printf("\nKeep a copy of file and journal first. Then one of\n");
    if (j->content && j->same && j->state != BHTF_FILE_OWNER)
        printf("  bhtf recover %s --finish     makes the change; the file is "
               "then as after it\n", path);
    printf("  bhtf recover %s --set-aside  leaves the file as it stands%s; the "
           "journal gets another name\n", path,
           j->sound ? "" : ", which is not sound");
    printf("or put a copy of the file from before in its place, and set the "
           "journal aside.\n");
}

/* Status 1 says that a person has to choose. */
static int look(const char *path, const struct bhtf_file_journal *j)
{
    printf("journal: %s\n", state_words(j->state));
    if (j->state != BHTF_FILE_NO_JOURNAL) {
        printf("its length and owner: %lu bytes, user %lu\n",
               (unsigned long)j->length, (unsigned long)j->owner);
        print_change(j);
    }
    printf("the file as it stands: %s\n", j->sound ? "sound" : "not sound");
    print_choices(path, j);
    return finish_output(j->state > BHTF_FILE_OF_NO_USE ? REFUSED : DONE);
}

static int done(const struct options *o, uint32_t choice,
                const struct bhtf_file_journal *j)
{
    if (o->quiet)
        return DONE;
    if (choice == BHTF_FILE_FINISH)
        printf("the change is made; bhtf check says whether the file is sound\n");
    else
        printf("the file is as it was; its journal is %s%s now\n", o->word[0],
               j->aside);
    return finish_output(DONE);
}

int run_recover(const struct options *o)
{
    const struct bhtf_file_how how = { 0, (uint32_t)o->wait * 1000u, NULL,
                                       NULL };
    const uint64_t both = OPTION_FINISH | OPTION_SET_ASIDE;
    uint32_t choice = o->given & OPTION_FINISH ? BHTF_FILE_FINISH
                    : o->given & OPTION_SET_ASIDE ? BHTF_FILE_SET_ASIDE
                    : BHTF_FILE_LOOK;
    struct bhtf_file_journal j;
    struct bhtf_file_error why;

    if ((o->given & both) == both) {
        complain("recover: --finish or --set-aside, not both");
        return TROUBLE;
    }
    if (bhtf_file_recover(o->word[0], choice, &how, &j, &why) !=
        BHTF_ACCEPTED) {
        complain("%s", why.words);
        return choice == BHTF_FILE_LOOK ? TROUBLE : REFUSED;
    }
    return choice == BHTF_FILE_LOOK ? look(o->word[0], &j)
                                    : done(o, choice, &j);
}
