//! What --help prints.

const CODES: &str = "\
Exit codes:
  0  done
  1  done in part: the save was cut off, or its write round did not end; some nodes hold it
  2  wrong use: arguments, a file that is not there, a block of the wrong length, a plan outside its rules,
     a wish that no plan serves
  3  ended without a value: never written
  4  ended without a value: aborted (non-repair plans)
  5  ended without a value: rounds spent
  6  ended without a value: clock spent (save)
  7  no end: too few nodes answered; nothing was stored by a save, nothing was given by an open
  8  damaged: the folder's plan or an ask number cannot be used, or check found a book or a node that is not good
  9  system: a file could not be read or written
";

// A backslash at the end of a line would take the blanks before the next word away.
const COMMON: &str = "  --json        say it as one JSON object on standard output
  --help        this text
";

const DOWN: &str = "  --down NODES  take these nodes as silent, as 0,3\n";

const NET: &str = "  --nodes NODES  the nodes are those of this file; sheet --help says what stands in it
  --within SECONDS  give up after so long, 30 without this; a part of a second may be given, as 0.5
";

pub fn version() -> String {
    format!("sheet {}, interface {} of libpasis\n", env!("CARGO_PKG_VERSION"), pasis::interface())
}

pub fn all() -> String {
    format!(
        "\
sheet: a block of fixed size, kept as fragments at N nodes so that it survives the loss of some. The nodes are books in a folder, or
programs anywhere, which a file names.

  sheet plan                the smallest plan for a wish: how many nodes may be lost or lie, how many pieces give a block
  sheet new FOLDER          make a plan and N fresh books
  sheet save FOLDER FILE    save a block
  sheet open FOLDER FILE    open the block that the rule decides on
  sheet show FOLDER         who holds what, and what the rule decides
  sheet check FOLDER        which books are good
  sheet serve PLAN BOOK     be a node: requests on standard input or a socket, replies when the book is on disk
  sheet heal --nodes NODES --node K
                            a node that lost its book gets the last save

save, open, show and check take --nodes NODES in place of FOLDER. The file NODES has a line plan PATH, and then a line a node in the
order of their numbers, how it is reached: node 0 tcp ADDRESS:PORT, or node 3 exec COMMAND, whose standard input and output are the
channel; with bare before tcp or exec where it is a keeper, which knows no greeting (docs/NODES.md).
`sheet VERB --help` says more. FILE may be - for standard input or output.
A book that is missing or damaged counts as a silent node and is named on standard error; the command goes on without it.

{CODES}"
    )
}

pub fn verb(verb: &str) -> String {
    let (text, options) = match verb {
        "plan" => (PLAN, WISH_OPTIONS.to_string()),
        "new" => (NEW, format!("{NEW_OPTIONS}{WISH_OPTIONS}")),
        "save" => (SAVE, format!("{DOWN}{SAVE_OPTIONS}{NET}")),
        "open" => (OPEN, format!("{DOWN}{NET}")),
        "show" => (SHOW, format!("{DOWN}{SHOW_OPTIONS}{NET}")),
        "serve" => return format!("{SERVE}\nOptions:\n{SERVE_OPTIONS}\n{CODES}"),
        "heal" => (HEAL, format!("{HEAL_OPTIONS}{NET}")),
        _ => (CHECK, format!("{NET}{CHECK_OPTIONS}")),
    };
    format!("{text}\nOptions:\n{options}{COMMON}\n{CODES}")
}

const PLAN: &str = "\
sheet plan --lost T --lying B --pieces M [--non-repair]

Prints the smallest plan for a wish, ready to be saved as a plan file: sheet new --plan and keeper take it as it is. Comments in it
say what the plan survives, what a save costs on all nodes, and what one more node would buy: a greater T, B or M, each alone.
No plan has more than 16 nodes; where that is too few, a line says which value to lower and how far.
";

const WISH_OPTIONS: &str = "  --lost T      so many nodes may be lost or silent
  --lying B     so many of those may lie, at most T
  --pieces M    so many good pieces (fragments) of a save give its block back, 1 or more
  --non-repair  the member non-repair: an open stores nothing, but may end aborted; without this, repairable
";

const NEW: &str = "\
sheet new FOLDER [--plan FILE] [--room BYTES]
sheet new FOLDER --lost T --lying B --pieces M [--non-repair] [--room BYTES]

Makes FOLDER, which must be empty or not there, with a plan, N fresh books (book-0, book-1, ...) and an ask number.
With --lost, --lying and --pieces the plan is the one that sheet plan prints for them. A plan is nine lines; where none is given it is
these, for blocks of 2,048 bytes:

  N 5                   nodes, 1 to 16
  t 1                   of them may be lost or worse
  b 1                   of those may lie, at most t
  Q 3                   t+b+1 to N-t-b (non-repair: to N-2t-2b)
  m 2                   fragments that give the block, 1 to Q-t (non-repair: to Q+b)
  F 1024                bytes of a fragment, 1 to 1,024; a block has m times F bytes
  member repairable     or non-repair
  clients crash         or byzantine
  W 16                  most rounds of an open, 1 to 65,535
";

const NEW_OPTIONS: &str = "  --plan FILE   take the plan from this file, or from standard input (-)
  --room BYTES  bytes of each book, at most 65,536, which is what it is without this
";

const SAVE: &str = "\
sheet save FOLDER FILE [--down NODES] [--stop-after K]
sheet save FILE --nodes NODES [--within SECONDS]

Saves a block: a FILE of exactly m times F bytes, or as many from standard input (-). Every node gets it; N-t of them are enough.
Over nodes a line says what each of them did. There a save whose write round did not end is code 1 also where no node answered: some
may hold it.
";

const SAVE_OPTIONS: &str =
    "  --stop-after K  cut the save off after K nodes stored it, as a crash would (for demonstrations)\n";

const OPEN: &str = "\
sheet open FOLDER FILE [--down NODES]
sheet open FILE --nodes NODES [--within SECONDS]

Opens the block into FILE, or to standard output (-), where the rest is then said on standard error. FILE is written when the open is
done, whole, and not otherwise; it may not lie in FOLDER. Where the rule says repair, the save is stored at the nodes first.
";

const SHOW: &str = "\
sheet show FOLDER [--down NODES] [--all]
sheet show --nodes NODES [--all] [--within SECONDS]

Prints a row a node and a column a save (time, and the first 4 bytes of its verifier), then what the eye would choose, the newest
fragment seen, and what the rule decides: each round with its candidate, the candidate's set and the verdict. Nothing is written;
the verdict is that of an open made now with the same nodes silent. It ends with 0 whatever the verdict.
Over nodes every one is asked for all that it holds; then it also says which are silent, damaged or behind, and how many more saves fit.
";

const SHOW_OPTIONS: &str = "  --all         all columns, not only the newest\n";

const CHECK_OPTIONS: &str = "  --room-for K  warn if fewer than so many more saves fit, 3 without this\n";

const CHECK: &str = "\
sheet check FOLDER
sheet check --nodes NODES [--within SECONDS] [--room-for K]

Says of each book whether it is good: there, of this plan and node, and each record with the right hashes. It ends with 0 if all are,
with 8 if not, and says whether there are more than the plan allows. Over nodes it asks every one for all that it holds, and warns on
standard error if room is short.
";

const HEAL: &str = "\
sheet heal --nodes NODES --node K [--within SECONDS]

A machine was lost, and node K has a fresh book (sheet serve PLAN BOOK --new K). Opens the last save from the other nodes, stores it at
node K under its own timestamp and asks whether it is held; then K counts as good again. It says how many more nodes may fail until then
and afterwards. Begin when every save and open that was under way when the machine was lost has ended. Where the plan's b is 0, no other
client may reach the fresh book before this has ended: docs/NODES.md says why, and how.
";

const HEAL_OPTIONS: &str = "  --node K      the node that lost its book\n";

const SERVE: &str = "\
sheet serve PLAN BOOK [--listen ADDRESS:PORT [--beyond-loopback] | --socket] [--connections K] [--idle SECONDS]
      [--idle-stop SECONDS] [--wait SECONDS] [--counters FILE] [--quiet | --verbose] [--json]
sheet serve PLAN BOOK --new NODE [--room BYTES]

Serves one book as a node does, until the end of its input, SIGTERM or SIGINT. It has the book's lock, BOOK.lock, and keeps the book in
memory; requests that wait are taken together, and their replies go out when the book is on disk. Without --listen or --socket it serves
standard input and output, one channel. A client that greets is told at once if it has another plan; one that does not greet is served.
A refused request gets no reply and one line on standard error. SIGUSR1 has the counters printed there. With --new it makes a fresh book, which
must not be there, and serves nothing: a fresh book in the place of a lost one has forgotten what it acknowledged.

It ends with 0 at the end of its input, after a signal and when nobody came; with 2 also where bytes on standard input are no requests; with
8 where BOOK or its plan cannot be served, or another changed it; with 9 where the lock is taken or the disk fails: then no reply of that run
was sent, and the book on disk is whole.
";

const SERVE_OPTIONS: &str = "  --listen ADDRESS:PORT  take connections of TCP there; port 0 is one that the system chooses and a line tells
  --beyond-loopback      ADDRESS may be reached from other machines; channels are taken to be authentic
  --socket               take connections of the sockets that systemd hands over
  --connections K        at most so many at once, 64 without this; one more is closed
  --idle SECONDS         close a connection that sends nothing for so long, 60 without this; 0 is never
  --idle-stop SECONDS    end when no connection was there for so long; without this, or 0, never
  --wait SECONDS         wait so long for the book's lock, 5 without this
  --counters FILE        write the counters there, at SIGUSR1 and at the end
  --new NODE             make a fresh book for this node, and a copy of the plan beside it, BOOK.plan
  --room BYTES           bytes of the fresh book, at most 65,536, which is what it is without this
  --quiet, --verbose     say refused requests and faults alone; all requests and connections. Without these, with a socket,
                         writes too; on standard input as --quiet
  --json                 each line on standard error as a JSON object, and one at the end with the code
  --help                 this text
";
