//! What `--help` prints.

pub const ALL: &str = "\
card shows, changes and compares smart-card directories (ISO/IEC 7816-15).

    card show FILE [--json]                    a card in words
    card list FILE                             its links, each in a line
    card why FILE [ROW]                        each missing link and why, or one row of the list
    card where FILE OBJECT                     where an object stands, and its bytes as a tree
    card set IN OBJECT.FIELD=VALUE .. -o OUT   change fields by name
    card diff A B                              what differs, by object and field
    card read DUMP -o BOOK                     a dump into its book
    card write BOOK -o DUMP                    a book into its dump

FILE is a dump or a book, told apart by the first record's kind; - is standard input. An output that exists needs
--force; -o - is standard output. card COMMAND --help says more, card --version which program this is.

It ends with 0 where all is good, 1 where a link is missing or the files differ, 2 where the input is refused, 3 where
the call is wrong or a file can't be read or written.
";

const SHOW: &str = "\
card show FILE [--json]

Shows a dump or a book in words: CIAInfo, EF.OD's entries, each file with its objects, EF.DIR's templates, what is
missing and why, and a line of counts. With --json it prints what docs/JSON.md sets down; a refusal, too.
Ends with 1 where a link is missing.
";

const LIST: &str = "\
card list FILE

Prints the links of a dump or a book, a row each: its number, the link, the stating object, the book offset of the
stating record, the identifier, the answering object or MISSING. Ends with 1 where a link is missing.
";

const WHY: &str = "\
card why FILE [ROW]

Says of each missing link of a dump or a book why it is missing, or of one row of the list (from 0) why it is as it is.
Ends with 1 where a link is missing.
";

const WHERE: &str = "\
card where FILE OBJECT

Says in which file an object (by its number, from 0) stands and where, and prints its bytes as a tree of elements, each
with its offset in the file.
";

const SET: &str = "\
card set IN OBJECT.FIELD=VALUE .. -o OUT [--force]

Changes fields of a dump or a book by name, has the proved library accept the result, writes it to OUT in the form of
IN, and says which links that mends or breaks. OBJECT is an object's number or CIAInfo; FIELD is the name that show
prints, its spaces as they are, as dashes or left out (own-authId, guarded-by). VALUE is as show prints it:

    octets     hex, or text in double quotes, or empty
    text       as it is, or in double quotes with \\u{202E} for a character
    flags      names with commas between, or none
    number     decimal        boolean   true or false        time   2026-11-18 09:30:00 UTC

absent takes the field away. Ends with 1 where the card that was written misses a link.
";

const DIFF: &str = "\
card diff A B

Says what differs between two cards, each a dump or a book, by object and field. Objects are told to be the same by
class and identifier, else by class and label, else by class and order. Ends with 1 where they differ.
";

const READ: &str = "\
card read DUMP -o BOOK [--force]

Turns a dump into its book.
";

const WRITE: &str = "\
card write BOOK -o DUMP [--force]

Turns a book into its dump.
";

/// A command's help.
pub fn of(command: &str) -> Option<&'static str> {
    Some(match command {
        "show" => SHOW,
        "list" => LIST,
        "why" => WHY,
        "where" => WHERE,
        "set" => SET,
        "diff" => DIFF,
        "read" => READ,
        "write" => WRITE,
        _ => return None,
    })
}

/// How a command is called: the first line of its help.
pub fn usage(command: &str) -> String {
    let line = of(command).and_then(|help| help.lines().next()).unwrap_or("card COMMAND ..; see card --help");
    format!("usage: {line}")
}
