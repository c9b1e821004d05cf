/* The table of commands, and their help.
 *
 * In a help, {slots}, {image}, {key} and the like stand for the limits of
 * bhtf.h and command_limits.h. */
#include "commands.h"

#include "command_limits.h"

#include <string.h>

#define NAMES \
    "\nNames shorter than the file's key size are padded with zero bytes;\n" \
    "longer ones are refused. \\xHH in a name stands for one byte.\n"

#define WAITING \
    "  -w, --wait S       seconds to wait while others use the file; {wait}\n" \
    "                     unless given\n"

#define SLOTS_READ \
    "      --slots        say on standard error how many slots were read\n"

#define DELTA \
    "      --delta FILE   append what changed to FILE, for bhtf apply\n"

#define NO_SYNC \
    "      --no-sync      do not wait for the disk: faster, and safe if the\n" \
    "                     command is killed, but not if the power fails\n"

#define LOG \
    "      --log          begin FILE.log beside the file; one that is there is\n" \
    "                     gone on with by every change\n"

#define ALLOW \
    "Refused, with their names, unless these are given:\n" \
    "      --allow-far    points far from all others, in plan or in height\n" \
    "      --allow-near   points within a centimetre of another\n" \
    "      --allow-swapped  points that would lie near the others if easting and\n" \
    "                     northing changed places\n"

#define DROP \
    "      --drop FIELDS  what --replace may take away: words out of easting,\n" \
    "                     northing, height, note and text, with commas\n"

#define EPOCHS \
    "      --epoch T      a point of that epoch, in a file of epochs: a number, or\n" \
    "                     a date YYYY-MM-DD, which stands for its days since\n" \
    "                     1970-01-01, or with --epoch-unit week for its weeks\n"

#define QUIET "  -q, --quiet        say nothing but errors and warnings\n"

#define PATTERNS \
    "\nA word that is the name of a point means that point; any other is a\n" \
    "pattern: * stands for anything, ? for one character, [..] for one of " \
    "several.\n"

static const struct command commands[] = {
    { "create", OPTION_KEY_SIZE | OPTION_SLOTS | OPTION_SEED | OPTION_SIZE |
                OPTION_FORMAT | OPTION_NO_SYNC | OPTION_LOG, 1, 1,
      run_create,
      "bhtf create FILE [--key-size K] [--slots N] [--seed S] [--size BYTES] "
      "..\n"
      "Makes an empty file. An existing file is never overwritten.\n"
      "  -k, --key-size K   bytes in a name, from 1 to {key}; {key_usual} "
      "unless given\n"
      "  -s, --slots N      points that it can hold, at most {slots}; 0, also "
      "if\n"
      "                     not given, for {slots_usual}\n"
      "      --seed S       number from 0 to 4294967295 by which names are\n"
      "                     scattered; 0 unless given\n"
      "  -S, --size BYTES   length of the file, a multiple of {page} up to\n"
      "                     {image}, also as 64K or 16M; unless given, the\n"
      "                     table and {slot_bytes} bytes a slot\n"
      "      --format V     1.0.2 unless given; 1.0.1 for a station that refuses\n"
      "                     1.0.2 (5), until an empty text is stored; 2.0.0 for\n"
      "                     texts above {text} bytes\n"
      LOG NO_SYNC },
    { "add", OPTION_REPLACE | OPTION_APPEND | OPTION_EASTING |
             OPTION_NORTHING | OPTION_HEIGHT | OPTION_NOTE |
             OPTION_NO_TEXT | OPTION_SLOTS_READ | OPTION_DELTA |
             OPTION_EPOCH | OPTION_EPOCH_UNIT | OPTION_DROP | OPTION_ALLOWED |
             OPTION_LOG | OPTION_NO_SYNC | OPTION_TEXT_FILE, 2, 3,
      run_add,
      "bhtf add FILE NAME [TEXT] [--replace | --append] [--slots] ..\n"
      "bhtf add FILE NAME --easting E --northing N [--height H] [--note TEXT]\n"
      "bhtf add FILE NAME --text-file SCAN\n"
      "bhtf add FILE NAME --no-text\n"
      "Stores a point with a text: TEXT, or all of standard input, or one of\n"
      "  -E, --easting E    a number, with a decimal point\n"
      "  -N, --northing N\n"
      "  -H, --height H\n"
      "  -t, --note TEXT    whatever is to be said of the point\n"
      "      --text-file F  all bytes of that file; of standard input if it is -\n"
      "A text has up to {text} bytes, in a file of version 2.0.0 up to "
      "{text_2}.\n"
      "An empty text is a text, as for a point that was visited; a file with "
      "one is\n"
      "of version 1.0.2, which stations that know only 1.0.1 refuse (5).\n"
      "      --no-text      store the point without a text\n"
      "A point that is already there is refused, except with\n"
      "  -r, --replace      put the text in place of its own; refused if that\n"
      "                     would take a coordinate or a note away: see bhtf "
      "set\n" DROP
      "  -a, --append       put the text behind its own\n" ALLOW
      EPOCHS SLOTS_READ DELTA LOG NO_SYNC QUIET WAITING NAMES },
    { "set", OPTION_EASTING | OPTION_NORTHING | OPTION_HEIGHT | OPTION_NOTE |
             OPTION_ALLOWED | OPTION_DELTA | OPTION_LOG | OPTION_NO_SYNC, 2, 2,
      run_set,
      "bhtf set FILE NAME [--easting E --northing N] [--height H] [--note "
      "TEXT]\n"
      "Changes what is given of a point that is there, and nothing else; says "
      "what\n"
      "changed. An empty value takes a height or a note away.\n"
      "  -E, --easting E    a number, with a decimal point\n"
      "  -N, --northing N\n"
      "  -H, --height H\n"
      "  -t, --note TEXT\n" ALLOW
      DELTA LOG NO_SYNC QUIET WAITING NAMES },
    { "rename", OPTION_DELTA | OPTION_LOG | OPTION_NO_SYNC, 3, 3, run_rename,
      "bhtf rename FILE NAME NEW\n"
      "Gives a point another name, under which no other is. Its text stays.\n"
      DELTA LOG NO_SYNC WAITING NAMES },
    { "withdraw", OPTION_SLOTS_READ | OPTION_DELTA | OPTION_LOG |
                  OPTION_NO_SYNC, 2, 2,
      run_withdraw,
      "bhtf withdraw FILE NAME [--slots] [--delta FILE]\n"
      "Takes a point's text away; the point stays, without a text.\n"
      SLOTS_READ DELTA LOG NO_SYNC WAITING NAMES },
    { "delete", OPTION_SLOTS_READ | OPTION_DELTA | OPTION_LOG |
                OPTION_NO_SYNC | OPTION_DRY_RUN, 2, ANY_NUMBER, run_take_out,
      "bhtf delete FILE NAME [--slots] [--delta FILE]\n"
      "bhtf delete FILE PATTERN.. [--dry-run] [--delta FILE]\n"
      "Takes points out: all that are named, as one change, or none.\n"
      "  -n, --dry-run      change nothing; print the names\n"
      SLOTS_READ DELTA LOG NO_SYNC QUIET WAITING NAMES PATTERNS },
    { "batch", OPTION_DRY_RUN | OPTION_ALLOWED | OPTION_DELTA | OPTION_LOG |
               OPTION_NO_SYNC, 1, 2, run_batch,
      "bhtf batch FILE [CHANGES] [--dry-run] ..\n"
      "Makes several changes as one: all of them, or, if one is refused, none. "
      "A line\n"
      "of CHANGES, or of standard input if that is - or not given, is a change "
      "as on\n"
      "the command line, without bhtf and FILE: add, set, rename, withdraw or "
      "delete.\n"
      "Quotes of either kind keep blanks; # begins a comment.\n"
      "  -n, --dry-run      change nothing; say what would be refused\n" ALLOW
      DELTA LOG NO_SYNC QUIET WAITING NAMES },
    { "log", 0, 1, 2, run_log,
      "bhtf log FILE [NAME]\n"
      "Prints the log beside the file: when and by whom it was changed, and of "
      "each\n"
      "point the text before and after; of one point, if it is named. Status 1 "
      "if an\n"
      "entry was changed or taken away, or the file was changed without the "
      "log.\n"
      "A log is begun by --log at a change, or by BHTF_LOG=yes in the "
      "environment.\n"
      "  -q, --quiet        print no entries; only say whether it is whole\n"
      WAITING NAMES },
    { "get", OPTION_TSV | OPTION_JSON | OPTION_SLOTS_READ | OPTION_TEXT_FILE,
      2, ANY_NUMBER, run_get,
      "bhtf get FILE NAME.. [--tsv | --json] [--slots]\n"
      "bhtf get FILE NAME --text-file SCAN\n"
      "Prints a point's text, byte for byte. Of several points, each on a "
      "line\n"
      "behind its name and a tab. Status 1 if one is not there, or has no "
      "text;\n"
      "an empty text is printed as one.\n"
      "      --text-file F  make a new file F of the text\n"
      "      --tsv          fields with tabs between them, as list prints them\n"
      "      --json         an object a line, as list prints them\n"
      SLOTS_READ
      "                     for each point; fields and objects have it, too\n"
      QUIET WAITING NAMES },
    { "count", 0, 1, 1, run_count,
      "bhtf count FILE\n"
      "Prints the number of points.\n"
      WAITING },
    { "list", OPTION_LONG | OPTION_BY | OPTION_TSV | OPTION_JSON, 1, ANY_NUMBER,
      run_list,
      "bhtf list FILE [PATTERN..] [--by name | --by slot] [--long | --tsv | "
      "--json]\n"
      "Prints the names, one a line, in the order of their slots: without "
      "their\n"
      "padding; bytes that do not print, the backslash, and blanks at either\n"
      "end as \\xHH. With patterns, the names that match one of them.\n"
      "  -b, --by ORDER     name, in the order of the names' bytes; or slot\n"
      "  -l, --long         slot and length of the text in front of each; - if\n"
      "                     there is no text\n"
      "      --tsv          name, slot, easting, northing, height and note "
      "with\n"
      "                     tabs between them, under a heading; \\N for the "
      "note\n"
      "                     if there is no text\n"
      "      --json         the same, an object a line\n"
      WAITING PATTERNS },
    { "store-records", OPTION_WIDTH | OPTION_FIELDS | OPTION_LITTLE |
                       OPTION_CSV | OPTION_DELTA | OPTION_LOG |
                       OPTION_NO_SYNC, 2, 3, run_store_records,
      "bhtf store-records FILE NAME --width W [RECORDS]\n"
      "bhtf store-records FILE NAME --csv --fields u16,i32,f32,.. [RECORDS]\n"
      "Stores readings, records of W bytes each, as a point's text, in place of\n"
      "the one that it has. RECORDS is a file, or standard input. They are kept\n"
      "by column: the first bytes of all records, then the second ones ..\n"
      "      --width W      bytes of a record, from 1 to 64\n"
      "      --csv          lines of numbers, one for each of\n"
      "      --fields F     u8 u16 u32 u64 i8 i16 i32 i64 f32 f64, with commas\n"
      "      --little       numbers have their least significant byte first\n"
      DELTA LOG NO_SYNC QUIET WAITING NAMES },
    { "read-records", OPTION_FIELDS | OPTION_LITTLE | OPTION_COLUMN |
                      OPTION_CSV, 2, 2, run_read_records,
      "bhtf read-records FILE NAME [--csv --fields u16,i32,f32,..] [--column "
      "N]\n"
      "Prints the records that store-records stored, byte for byte, or\n"
      "      --csv          as lines of numbers, one for each of\n"
      "      --fields F     u8 u16 u32 u64 i8 i16 i32 i64 f32 f64, with commas\n"
      "      --little       numbers have their least significant byte first\n"
      "      --column N     one column alone, of bytes or of the fields; the\n"
      "                     others are not read\n" WAITING NAMES },
    { "find", OPTION_ALIKE | OPTION_NEAR | OPTION_TSV | OPTION_JSON |
              OPTION_CSV, 2, ANY_NUMBER, run_find,
      "bhtf find FILE PATTERN.. [--alike] [--near E,N,R] [--tsv | --json | "
      "--csv]\n"
      "Points whose names fit a pattern, as of a target plate that is half\n"
      "legible, with their texts. Status 1 where none does.\n"
      "  ?        any byte               [3-8A]   one of these\n"
      "  *        at the end: any bytes  [!3-8A]  none of these\n"
      "  \\xHH     one byte               and every other byte itself\n"
      "Put a pattern in quotes, so that the shell leaves it alone.\n"
      "      --alike        try letters and digits that look alike too: 0 O D,\n"
      "                     1 I 7, 8 B, 5 S and others; it says which\n"
      "      --near E,N,R   only within R metres of a place, the nearest first\n"
      "      --tsv          name, slot, easting, northing, height, note\n"
      "      --json         one object a line\n"
      "      --csv          as export writes it\n" QUIET WAITING },
    { "at", OPTION_EPOCH_UNIT, 3, 3, run_at,
      "bhtf at FILE NAME EPOCH [--epoch-unit day | week]\n"
      "The text of a point at an epoch, or at the last one before it, with that\n"
      "epoch in front. In a file of epochs the last four bytes of a key are a\n"
      "number; bhtf add --epoch and bhtf import --epoch store such points.\n"
      "EPOCH is a number, or a date YYYY-MM-DD: the days from 1970-01-01 to it,\n"
      "      --epoch-unit week   or the whole weeks from 1970-01-05, a Monday\n"
      QUIET WAITING NAMES },
    { "epochs", 0, 1, ANY_NUMBER, run_epochs,
      "bhtf epochs FILE [PATTERN]..\n"
      "A line for each point: its name, how many epochs it has, and which.\n"
      "A PATTERN is a shell's, for names.\n" WAITING },
    { "report", OPTION_FROM | OPTION_TO | OPTION_EPOCH_UNIT |
                OPTION_TOLERANCE | OPTION_SIGMA | OPTION_ALPHA | OPTION_CSV |
                OPTION_JSON | OPTION_SVG | OPTION_PAPER | OPTION_FORM, 1,
      ANY_NUMBER, run_report,
      "bhtf report FILE [PATTERN..] --from A --to B [--tolerance MM] "
      "[--sigma MM] ..\n"
      "Says how each prism of a file of epochs moved from epoch A to epoch B: "
      "dE, dN,\n"
      "dH and the length, those beyond the tolerance first; prisms without a "
      "reading\n"
      "at one of the two are named. Status 1 if a tolerance is exceeded, 2 if "
      "something\n"
      "could not be told, else 0.\n"
      "      --from A       numbers, or dates as in bhtf at\n"
      "      --to B\n"
      "      --epoch-unit U  day or week: dates are days from 1970-01-01, as unless\n"
      "                     given, or whole weeks from 1970-01-05, a Monday\n"
      "      --tolerance MM  the longest movement that is allowed\n"
      "      --sigma MM     standard deviation of a coordinate in one epoch, or\n"
      "                     two, as 0.8,1.2, for plan and height: each movement\n"
      "                     is tested by chi-square\n"
      "      --alpha P      level of the test in per cent; 5 unless given\n"
      "      --csv          as CSV\n"
      "      --json         as one object\n"
      "      --svg          as a sheet: a plan with vectors, heights, and a line\n"
      "                     for each prism over all epochs\n"
      "      --pdf          the same as PDF\n"
      "      --png          the same as PNG\n"
      "      --html         the same as a page for a browser\n"
      "  -p, --paper SIZE   of the sheet: A3, A2, A1 or A0; unless given, the\n"
      "                     smallest that holds all prisms\n"
      QUIET WAITING PATTERNS },
    { "check", 0, 1, 1, run_check,
      "bhtf check FILE\n"
      "Says whether the file is sound: status 0 if so, 1 if not. If so it says "
      "the\n"
      "number of points, the version, how many bytes are dead and the sum; if "
      "not,\n"
      "where, which two points share bytes, and what to do about that. Sound "
      "does not\n"
      "mean right: a digit changed in a text is not seen.\n"
      QUIET WAITING },
    { "compact", OPTION_DRY_RUN | OPTION_DELTA | OPTION_LOG | OPTION_NO_SYNC,
      1, 1, run_compact,
      "bhtf compact FILE [--dry-run] [--delta FILE]\n"
      "Gives the bytes of texts that were replaced, withdrawn or deleted back, "
      "and\n"
      "says how much is used before and after. A file that is not sound is left "
      "as\n"
      "it is, with the words of check and status 1.\n"
      "  -n, --dry-run      change nothing; say what would be\n"
      DELTA LOG NO_SYNC QUIET WAITING },
    { "book", 0, 1, 1, run_book,
      "bhtf book FILE\n"
      "Prints the book that calls on a sound file start from: its terms, and "
      "of each\n"
      "point the name, the bytes held and the text, in the order of slots; a "
      "minus\n"
      "for what there is not.\n"
      WAITING },
    { "stat", 0, 1, 1, run_stat,
      "bhtf stat FILE\n"
      "Prints how full the file is, how many slots are read to find its points "
      "and\n"
      "where a name is not there, how many bytes of its data are dead, and how "
      "many\n"
      "bhtf compact would free; of a file of epochs, how many more have room at "
      "the\n"
      "rate of the last four.\n"
      WAITING },
    { "import", OPTION_REPLACE | OPTION_UPDATE | OPTION_DROP |
                OPTION_EPOCH | OPTION_EPOCH_UNIT |
                OPTION_COLUMNS | OPTION_DELIMITER | OPTION_DECIMAL |
                OPTION_ENCODING | OPTION_SKIP | OPTION_ANY_TEXT |
                OPTION_DRY_RUN | OPTION_GSI | OPTION_LANDXML |
                OPTION_ALLOWED | OPTION_DELTA | OPTION_LOG | OPTION_NO_SYNC |
                OPTION_KEEP_GOING, 2, 2, run_import,
      "bhtf import FILE CSV [--columns ORDER] [--update | --replace] "
      "[--dry-run] ..\n"
      "Stores a point for each line of a CSV file; of standard input if CSV is "
      "-.\n"
      "A heading says which column is which: name, easting, northing, height,\n"
      "note or the usual other words, in any order; lengths are metres. All of "
      "it is\n"
      "stored, or, if a line is refused, nothing. A line of empty fields is a "
      "point\n"
      "without a text; yes in a column empty makes it one with an empty text.\n"
      "A column epoch has the epoch of each line, for a file of epochs; with\n"
      "--epoch-unit day or week so has a column date or week.\n"
      "GSI-16 and LandXML are told by their first bytes.\n"
      "  -c, --columns ORDER  the columns of a file without a heading: PNEZD,\n"
      "                     PENZD, or words as above, with commas between "
      "them;\n"
      "                     - for one to pass over\n"
      "  -d, --delimiter D  comma, semicolon or tab; found out unless given. Or\n"
      "                     blank, in any number\n"
      "      --decimal C    , where numbers have a decimal comma\n"
      "      --encoding E   windows-1252, or what iconv knows; UTF-8 unless "
      "given.\n"
      "                     bytes keeps bytes as they are\n"
      "      --skip N       pass over the first N lines\n"
      "      --any-text     take coordinates that are not numbers\n"
      "      --update       of points that are already there change what the "
      "lines\n"
      "                     give, and nothing else; an empty field gives "
      "nothing\n"
      "  -r, --replace      replace points that are already there; refused "
      "where\n"
      "                     that would take a coordinate or a note away\n" DROP
      "      --keep-going   store the other lines if some are refused\n"
      "  -n, --dry-run      store nothing; say of each point what would become "
      "of\n"
      "                     it, the worst first, and each line that would be\n"
      "                     refused\n"
      "      --gsi          CSV is a Leica GSI-16 file\n"
      "      --landxml      CSV is a LandXML file; its CgPoints are read\n"
      EPOCHS ALLOW DELTA LOG NO_SYNC QUIET WAITING NAMES },
    { "export", OPTION_CRLF | OPTION_SPREADSHEET | OPTION_GSI | OPTION_LANDXML |
                OPTION_DXF | OPTION_BY, 1, ANY_NUMBER, run_export,
      "bhtf export FILE [PATTERN..] [--by ORDER] [--crlf] [--spreadsheet] |\n"
      "            --gsi | --landxml | --dxf\n"
      "Prints the points as import reads them, with a heading. Texts that are "
      "not\n"
      "easting,northing,height,note stand in a column text; an empty text is a "
      "yes\n"
      "in a column empty. Status 3 if something is left out or cut.\n"
      "  -b, --by ORDER     name or slot; unless given, CSV by slot and the "
      "others by\n"
      "                     name\n"
      "      --crlf         end lines with carriage return and line feed\n"
      "      --spreadsheet  an apostrophe in front of names, notes and texts that\n"
      "                     a spreadsheet would run; import gets that, too\n"
      "      --gsi          as Leica GSI-16\n"
      "      --landxml      as CgPoints of LandXML 1.2\n"
      "      --dxf          as points and names of DXF, release 12\n"
      QUIET WAITING PATTERNS },
    { "dump", 0, 1, 1, run_dump,
      "bhtf dump FILE\n"
      "Prints all of a file as text, a line for each point in the order of "
      "their\n"
      "names. load makes an equal file of it.\n"
      QUIET WAITING },
    { "load", OPTION_KEY_SIZE | OPTION_SLOTS | OPTION_SEED | OPTION_SIZE |
              OPTION_FORMAT | OPTION_LOG | OPTION_NO_SYNC, 1, 2, run_load,
      "bhtf load FILE [DUMP] [--size BYTES] [--slots N] ..\n"
      "Makes a file of what dump printed; of standard input if DUMP is - or "
      "not\n"
      "given. An existing file is never overwritten. In place of what the dump "
      "says:\n"
      "  -k, --key-size K   bytes in a name\n"
      "  -s, --slots N      points that it can hold; the file becomes longer, so "
      "that\n"
      "                     as much room is left for the text of each\n"
      "      --seed S       number by which names are scattered\n"
      "  -S, --size BYTES   length of the file\n"
      "      --format V     its version; 1.0.1 for a station that refuses 1.0.2 "
      "(5).\n"
      "                     An empty text then has no place. 2.0.0 for texts\n"
      "                     above {text} bytes\n"
      LOG NO_SYNC QUIET },
    { "delta", 0, 2, 2, run_delta,
      "bhtf delta OLD NEW > CHANGES\n"
      "Prints, for bhtf apply, what changed from OLD to NEW: a record of bytes, "
      "with\n"
      "check sums of both. Both files have the same length.\n"
      QUIET WAITING },
    { "apply", OPTION_DRY_RUN | OPTION_LOG | OPTION_NO_SYNC, 1, 2, run_apply,
      "bhtf apply COPY [CHANGES] [--dry-run]\n"
      "Makes of COPY what the office's file became: CHANGES, or standard input "
      "if\n"
      "that is - or not given, is what delta printed or --delta wrote. Records "
      "that\n"
      "the copy already has are passed over. If one is missing, out of order or "
      "for\n"
      "another file the status is 1; if one is cut short or damaged it is 2; "
      "COPY is\n"
      "then as it was. Names the points that change, as diff does, and the "
      "sum.\n"
      "  -n, --dry-run      change nothing; say what would be\n"
      LOG NO_SYNC QUIET WAITING },
    { "recover", OPTION_FINISH | OPTION_SET_ASIDE, 1, 1, run_recover,
      "bhtf recover FILE [--finish | --set-aside]\n"
      "Says what is known of the journal beside FILE, where commands refuse the\n"
      "file because of it: status 1 if a person has to choose.\n"
      "      --finish       make the change that is in the journal\n"
      "      --set-aside    leave the file as it stands, and give the journal\n"
      "                     another name\n" WAITING QUIET },
    { "diff", OPTION_TSV | OPTION_TOLERANCE, 2, ANY_NUMBER, run_diff,
      "bhtf diff OLD NEW [PATTERN..] [--tolerance MM] [--tsv]\n"
      "Says point by point what became of OLD in NEW: new, gone, moved by how "
      "far,\n"
      "another text, or damaged, and all that changed of it. Status 0 if "
      "nothing did, 1\n"
      "if something, 2 if that cannot be told.\n"
      "      --tolerance MM  moves of no more millimetres are no change; they "
      "are\n"
      "                     counted\n"
      "      --tsv          fields with tabs between them, under a heading\n"
      QUIET WAITING PATTERNS },
    { "plot", OPTION_AGAINST | OPTION_PAPER | OPTION_TOLERANCE | OPTION_SVG |
              OPTION_FORM | OPTION_BLOCK | OPTION_SHEET, 1, ANY_NUMBER,
      run_plot,
      "bhtf plot FILE [PATTERN..] [--against OLD] [--paper SIZE] [--pdf] .. > "
      "PLAN\n"
      "Prints a plan of the points to scale, with names, grid, north, a scale "
      "bar,\n"
      "title block and list of coordinates; details where points are dense.\n"
      "      --svg          as SVG, as unless given\n"
      "      --pdf          as PDF with all sheets\n"
      "      --png          as PNG of 200 dots an inch\n"
      "      --html         as a page for a browser: pan, zoom, search, a "
      "point's text\n"
      "                     and history; printed, it is the sheets\n"
      "      --against OLD  also show what became of them since that file, as "
      "diff\n"
      "                     says it\n"
      "      --tolerance MM  moves of no more millimetres are no change\n"
      "  -p, --paper SIZE   A4, A3, A2, A1 or A0; A3 unless given\n"
      "      --sheet N      that sheet alone, where there are several\n"
      "      --project TEXT  for the title block\n"
      "      --datum TEXT   the same\n"
      QUIET WAITING PATTERNS },
    { "figure", OPTION_STATION | OPTION_SIGMA | OPTION_SVG | OPTION_FORM, 2,
      ANY_NUMBER,
      run_figure,
      "bhtf figure FILE --station E,N NAME NAME NAME .. [--sigma MGON] "
      "[--svg]\n"
      "Says how well directions from a station at easting E and northing N to\n"
      "the named points would determine it: good (status 0), weak or not\n"
      "determined (status 1), and why; status 2 if that cannot be told. "
      "Geometry alone\n"
      "is judged.\n"
      "  -s, --station E,N  where the station is, or will be, in metres\n"
      "      --sigma MGON   standard deviation of a direction; 1 unless given\n"
      "      --svg          print a picture instead of words\n"
      "      --pdf          the same as PDF\n"
      "      --png          the same as PNG\n"
      "      --html         the same as a page for a browser\n"
      WAITING NAMES PATTERNS },
    { "sum", OPTION_LONG, 1, ANY_NUMBER, run_sum,
      "bhtf sum FILE..\n"
      "Prints a short sum of each file's bytes, as 7f3a-91c2, which office and "
      "station\n"
      "can compare by voice; deltas and check name the same.\n"
      "  -l, --long         all 64 digits of the SHA-256\n"
      WAITING },
    { "copy", OPTION_NO_SYNC, 2, 2, run_copy,
      "bhtf copy FILE NEW\n"
      "Makes a copy with the same bytes, also while others change FILE, and "
      "says its\n"
      "sum. An existing file is never overwritten.\n"
      NO_SYNC QUIET WAITING },
    { "convert", OPTION_SIZE | OPTION_LOG | OPTION_NO_SYNC, 2, 2, run_convert,
      "bhtf convert FILE NEW [--size BYTES]\n"
      "Makes NEW of FILE in the other version: 2.0.0, in which texts may have up "
      "to\n"
      "{text_2} bytes, of one of 1.0.0 to 1.0.2, or 1.0.2, with up to {text}, "
      "of\n"
      "one of 2.0.0. Points, texts and slots are the same, without dead bytes. "
      "FILE\n"
      "stays, an existing file is never overwritten, and a file that is not "
      "sound is\n"
      "refused. Stations with an older library refuse a file of 2.0.0 (5).\n"
      "  -S, --size BYTES   length of NEW; unless given, that of FILE, or more "
      "if\n"
      "                     the points need it\n"
      LOG NO_SYNC QUIET WAITING },
    { "grow", OPTION_SLOTS | OPTION_SIZE | OPTION_SEED | OPTION_NO_SYNC, 1, 1,
      run_grow,
      "bhtf grow FILE --slots N [--size BYTES]\n"
      "Makes the table of FILE larger, so that it takes more points: FILE is then "
      "a new\n"
      "file with N slots, with the same points and texts and no dead bytes, whole "
      "or not\n"
      "at all; until then others read the old one. A file that is not sound, and "
      "a table\n"
      "that is not larger, are refused. No delta leads there: send the stations "
      "the file.\n"
      "  -s, --slots N      slots of the new table, up to {slots}\n"
      "  -S, --size BYTES   length of the file; unless given, texts keep their "
      "room, and\n"
      "                     more slots bring more of it\n"
      "      --seed SEED    of the new scramble; unless given, 0\n"
      NO_SYNC QUIET WAITING },
    { "show", 0, 1, 2, run_show,
      "bhtf show CHANGES [COPY]\n"
      "Says what a delta is: its records, with the sums of the files that they "
      "lead\n"
      "from and to. With a copy of the file, also what becomes of its points, "
      "as diff\n"
      "says it; if the copy has the records already, the points that they "
      "wrote.\n"
      "Nothing is changed.\n"
      QUIET WAITING },
    { "scramble", 0, 1, 1, run_scramble,
      "bhtf scramble SEED\n"
      "Prints the 95 numbers, one a line, by which names are scattered in a "
      "file\n"
      "that is made with this seed, a number from 0 to 4294967295.\n" },
};

const struct command *command_find(const char *name)
{
    for (size_t i = 0; i < sizeof commands / sizeof commands[0]; i++)
        if (strcmp(commands[i].name, name) == 0)
            return &commands[i];
    return NULL;
}

/* Prints a limit that stands in braces, and answers what stands after it. */
static const char *print_limit(const char *at, FILE *to)
{
    static const struct {
        const char *name;
        unsigned long value;
    } all[] = {
        { "{key}", BHTF_KEY_MAX },
        { "{key_usual}", KEY_SIZE_USUAL },
        { "{slots}", BHTF_SLOTS_MAX },
        { "{slots_usual}", BHTF_SLOTS_DEFAULT },
        { "{page}", BHTF_PAGE },
        { "{image}", BHTF_IMAGE_MAX },
        { "{slot_bytes}", BYTES_A_SLOT },
        { "{wait}", WAIT_USUAL },
        { "{text}", BHTF_MESSAGE_MAX },
        { "{text_2}", BHTF_MESSAGE_MAX_2 }
    };

    for (size_t i = 0; i < sizeof all / sizeof all[0]; i++)
        if (strncmp(at, all[i].name, strlen(all[i].name)) == 0) {
            fprintf(to, "%lu", all[i].value);
            return at + strlen(all[i].name);
        }
    fputc(*at, to);
    return at + 1;
}

void help_print_command(const struct command *command, FILE *to)
{
    const char *at = command->help;

    while (*at != '\0') {
        size_t plain = strcspn(at, "{");

        fwrite(at, 1, plain, to);
        at += plain;
        if (*at != '\0')
            at = print_limit(at, to);
    }
}

void help_print(FILE *to)
{
    fputs("bhtf keeps named control points with their texts in one file.\n"
          "\n"
          "  bhtf create FILE            make an empty file\n"
          "  bhtf add FILE NAME [TEXT]   store a point\n"
          "  bhtf set FILE NAME ..       change a coordinate or a note\n"
          "  bhtf rename FILE NAME NEW   give a point another name\n"
          "  bhtf withdraw FILE NAME     take a point's text away\n"
          "  bhtf delete FILE NAME       take a point out\n"
          "  bhtf batch FILE CHANGES     make several such changes as one\n"
          "  bhtf log FILE [NAME]        print who changed what, and when\n"
          "  bhtf get FILE NAME..        print texts of points\n"
          "  bhtf count FILE             print the number of points\n"
          "  bhtf list FILE              print the names\n"
          "  bhtf find FILE PATTERN      points of a plate that is half legible\n"
          "  bhtf at FILE NAME EPOCH     a point's text at an epoch\n"
          "  bhtf epochs FILE            which epochs its points have\n"
          "  bhtf report FILE --from A --to B  which prisms moved, and how far\n"
          "  bhtf store-records FILE NAME  store readings by column\n"
          "  bhtf read-records FILE NAME   print them\n"
          "  bhtf check FILE             say whether the file is sound\n"
          "  bhtf compact FILE           give the space of dead texts back\n"
          "  bhtf book FILE              print the book that a file starts from\n"
          "  bhtf stat FILE              load, searches and dead bytes\n"
          "  bhtf import FILE CSV        store points from a CSV file\n"
          "  bhtf export FILE            print all points as CSV\n"
          "  bhtf dump FILE              print all of it as text\n"
          "  bhtf load FILE DUMP         make a file of such a text\n"
          "  bhtf delta OLD NEW          print what changed, for a copy\n"
          "  bhtf apply COPY             bring a copy up to date with that\n"
          "  bhtf show CHANGES [COPY]    say what that changes\n"
          "  bhtf copy FILE NEW          make a copy with the same bytes\n"
          "  bhtf convert FILE NEW       make one of the other version\n"
          "  bhtf grow FILE --slots N    make its table larger\n"
          "  bhtf sum FILE..             print a short sum to compare by voice\n"
          "  bhtf recover FILE           look at a journal that stops commands\n"
          "  bhtf diff OLD NEW           say what became of the points\n"
          "  bhtf plot FILE              print a plan as SVG, PDF, PNG or HTML\n"
          "  bhtf figure FILE --station E,N NAME..\n"
          "                              judge the figure of a resection\n"
          "  bhtf scramble SEED          print the numbers of a seed\n"
          "\n"
          "bhtf help COMMAND says more about one of them; bhtf --version says "
          "which\n"
          "this is, and what proved it. Status: 0 done; 1 refused, no such "
          "point, or\n"
          "not sound; 2 wrong usage, input that is wrong, or the system "
          "failed.\n", to);
}
