//! What --help says.

pub const GENERAL: &str = "\
seipolku: whether two models of a system behave the same, by strong and by weak bisimilarity.
Verdicts, refusals and every step and pair that is listed come from a library whose code is proved; that a listing misses no
step is tested.

  seipolku compare LEFT RIGHT    the strong and the weak verdict, rounds, time, and where the nodes went
  seipolku pairs LEFT RIGHT      the largest bisimulation, pair by pair
  seipolku steps MODEL           the steps of a model, state by state
  seipolku show MODEL            a model in words and as an expression, or as a picture
  seipolku check MODEL           whether a model text is accepted
  seipolku from-aut FILE..       Aldebaran files (.aut) to model texts
  seipolku to-aut MODEL          the reachable part of a model as an .aut file
  seipolku build FILE..          the readable form to model texts, and back
  ./seipolku install [PREFIX]    in the repository: copies command, library, header and pages

'seipolku COMMAND --help' says more and gives examples. MODEL, LEFT and RIGHT are model texts (.hex); names of channels, processes and
states are read from the file of the same name with the ending .names, if there is one. docs/TUTORIAL.md is a first walk.

A text whose .model or .aut file has changed since it was built is refused, with the command that builds it anew. No command writes over
a file that it reads. In messages, lines and columns of a file are counted from 1, as editors do; the lines of a model have numbers from
0, as in --line K.

Exit status: 0 done, or the models are equal; 1 they are different; 2 the library refuses a model, a comparison or a verdict; 3 wrong
words or files, name tables that disagree, a text that is older than its source, or a model that is too large to list: nothing was asked
of the library, or its answer is not printed.
";

const COMPARE: &str = "\
seipolku compare LEFT RIGHT [--mode strong|weak|both] [--limit N] [--nodes N] [--by-number] [--quiet] [--json]

Compares two model texts, strongly and weakly in one call. It prints a line for each verdict with its rounds, one with the nodes and the
time for both, and below it where the nodes went. Strong: a step is answered by one step. Weak: internal steps are not counted. A refusal
is explained below the lines, with its number and what to do; that of a text also with its side, its line and the line itself.

  --mode strong|weak|both   which verdict is printed and decides the exit status. Both are worked out in any case. Default: both.
  --limit N                 the most rounds of each verdict. One that takes more is refused with 9, and the other one is given all the
                            same. More rounds need more nodes. Default: 1,000,000.
  --nodes N                 the table's length, 2 to 1,048,576 entries, of which N - 2 hold nodes. Where the nodes of both verdicts
                            together don't fit, neither is given, and the comparison is refused with 8. Default: 1,048,576.
  --by-number               compare though the name tables disagree; the verdict says 'channels by number'.
  --quiet                   print no verdict: the exit status says it. Refusals, errors and notes go to standard error.
  --json                    print one JSON object, whatever happens; docs/FORMS.md says what it has. With --quiet too, the object is
                            printed, and refusals, errors and notes go to standard error as well.

Where the nodes went: three stages fill one table, one after the other. Each has a line with its own nodes, the nodes so far, that is, up to
this stage, and its share of all nodes, rounded, in percent and as a bar. A node that several stages need counts for the first of them.

  relations                 the steps of both models
  weak answers              their weak steps: a step with any internal steps before and after it, or internal steps alone
  comparison                what is worked out from both, round by round, until the verdicts fall or the limit is reached

After refusal 8 the lines show what fills the table, with shares of the nodes that fit. The bar of the stage at which it is full ends with
'>', since that stage may need more, and the stages after it have no numbers. So it can be seen whether the models themselves, their weak
steps or the comparison are too large; the advice goes by that. To compare a part by itself, put it into a file of its own: the first lines
of a text are a model, too.

Channels are compared by number. Two models whose name tables give a number two names or a name two numbers, or have a name as a gate on
one side and as a channel with directions on the other, are not compared, unless --by-number is given. If a model does not name its
channels and the other does, the verdict says 'channels by number'.
On a terminal the elapsed time is shown while a comparison runs.
Exit status: 0 equal, 1 different, 2 refused by the library (of two verdicts the worst); 3 wrong words or files, name tables that
disagree, or a text that is older than its source.

Examples:
  seipolku compare models/shuttle_one_faulty.hex models/shuttle_one_service.hex
  seipolku compare models/shuttle_one.hex models/shuttle_one_service.hex --mode weak --quiet && echo bought
  seipolku compare models/abp.hex models/abp_service.hex --json
";

const PAIRS: &str = "\
seipolku pairs LEFT RIGHT [--mode strong|weak] [--reachable] [--most N] [--limit N] [--nodes N] [--by-number]

After 'equal', lists every pair of the largest bisimulation between the two models' states, each state leaf by leaf, as in steps. All
states count, reachable or not.

  --mode strong|weak   which verdict, and the bisimulation that belongs to it. Default: weak.
  --reachable          only states that can be reached from the starts.
  --most N             the most pairs to ask for, and with --reachable the most states of each model. Default: 1,000,000; at most
                       1,000,000,000, of which 10,000,000 are listed.
  --limit N, --nodes N, --by-number as for compare.

Exit status: 0 equal, 1 different, 2 refused by the library; 3 as for compare, or too large to list.

Examples:
  seipolku pairs models/shuttle_one.hex models/shuttle_one_service.hex
  seipolku pairs models/buffer_bag2.hex models/buffer_places2.hex --mode strong
";

const STEPS: &str = "\
seipolku steps MODEL [--all] [--line K] [--most N]

Lists the states that can be reached from the start and their steps, which the operators' rules give: '-- in a -->' is an input and
'-- out a -->' an output on channel a, '-- tau -->' an internal step, '-- exit -->' the termination of a phase. A state is written leaf
by leaf; under enable and disable only the leaves of the operands that are alive are named.

  --all      every state, reachable or not.
  --line K   the process of line K in place of the last one.
  --most N   the most states. Default: 1,000. A larger model is not listed at all, nor one with more than 10,000,000 states and steps.

Exit status: 0 done; 2 the library refuses the model, or its steps and weak steps need a larger table than there is; 3 wrong words or
files, a text that is older than its source, or a model that is too large to list.

Examples:
  seipolku steps models/shuttle_one.hex
  seipolku steps models/shuttle_one.hex --line 0 --all
";

const SHOW: &str = "\
seipolku show MODEL [--line K] [--dot [--most N]]

Prints a model line by line in words, and as an expression: P | Q compose, P \\ {a} restrict, P[b/a] relabel (a becomes b),
hide a in P, P |[a]| Q joint (exit is always on both sides together), P >> Q enable, P [> Q disable.

  --line K   the model up to line K.
  --dot      a picture for Graphviz: of the reachable part of the model, or of a leaf with all its states if the last line is one.
             Outputs are written a!, inputs a?, termination exit; internal steps are dashed.
  --most N   the most states in a picture. Default: 1,000. There is no picture of a larger model, nor of one with more than 10,000,000
             states and steps.

Exit status: 0 done; 2 the library refuses the model, or its steps and weak steps need a larger table than there is; 3 wrong words or
files, a text that is older than its source, or a model that is too large for a picture.

Examples:
  seipolku show models/shuttle_one.hex
  seipolku show models/shuttle_one.hex --dot | dot -Tsvg > shuttle_one.svg
  seipolku show models/shuttle_one.hex --dot --line 0 | dot -Tsvg > journal.svg
";

const CHECK: &str = "\
seipolku check MODEL

Says whether the library accepts a model text: then its lines, leaf uses, bits and states, else the refusal in words with the line.
After the bits stands in brackets how many of them are added, if any: one by each enable, two by each disable, each use counted.
Exit status: 0 accepted, 2 refused, 3 a file can't be read or the text is older than its source.

Example:
  seipolku check models/shuttle_one.hex
";

const FROM_AUT: &str = "\
seipolku from-aut FILE.. [--into FOLDER] [--names TABLE]

Turns each Aldebaran file X.aut into a model text X.hex of one leaf, and a table of names X.names, both written over if they are there
and not read. All files given together get one numbering of channels, so that they can be compared. The table also has a digest of X.aut,
so that an outdated X.hex is known.

Labels, with or without quotes: i or tau is an internal step; exit is the termination event of LOTOS; NAME! or !NAME is an output,
NAME? or ?NAME an input; NAME alone is a gate, that is, an output that is written back without the mark. A first state other than 0
changes places with state 0. A leaf has at most 64 states and 84 transitions, and all files together have at most 30 names.

  --into FOLDER   write the files there, not beside the .aut files.
  --names TABLE   take channel numbers from this table of names first.

Examples:
  seipolku from-aut examples/journal_faulty.aut examples/service.aut
  seipolku from-aut examples/journal_flushed.aut --names examples/service.names
";

const TO_AUT: &str = "\
seipolku to-aut MODEL [--line K] [--most N] [--tau] [--out FILE]

Writes the part of a model that can be reached from its start as an Aldebaran file, with the names of its table; the termination event is
written exit. The states of a model of one leaf that came from an .aut file get their old numbers back. from-aut reads it back, up to 64
states and 84 transitions.

  --line K    the process of line K in place of the last one.
  --most N    the most states. Default: 1,000. Nothing is written of a larger model, nor of one with more than 10,000,000 states and
              steps.
  --tau       write internal steps as tau in place of i.
  --out FILE  write to a file, not to standard output.

Exit status: 0 done; 2 the library refuses the model, or its steps and weak steps need a larger table than there is; 3 wrong words or
files, a text that is older than its source, or a model that is too large to list.

Examples:
  seipolku to-aut models/shuttle_one.hex
  seipolku to-aut models/scheduler4.hex --out scheduler4.aut
";

const BUILD: &str = "\
seipolku build FILE.. [--into FOLDER] [--names TABLE]
seipolku build --text MODEL [--out FILE]

Turns each file X.model of the readable form into a model text X.hex and a table of names X.names, both written over if they are there and
not read. The table also has digests of X.model and of the .aut files that it names, so that an outdated X.hex is known.
With --text it goes back: the readable form of a model text with its names. Back and forth gives the same text and the same names.

  # A remark. A name of other characters than letters, digits, _ . ' stands in quotes.
  channels move, done, drop, up          numbers 1, 2, .. in this order, or one's own from 1 to 30: channels drop = 7
  gates put, get                         channels without inputs, whose outputs are written without 'out'

  leaf journal                           or: leaf journal from \"journal.aut\"
    states empty, pending, parked        the first one is the start; without this line, as the steps name them
    empty -- in move --> pending
    pending -- out done --> empty
    pending -- tau --> empty
    empty -- exit --> parked             termination, no channel: never declared and in no list

  both = compose journal supply          either side alone, also by exit, or output and input together as tau; three or more from the left
  closed = restrict both on drop, up     no steps on these channels
  other = relabel cell move to log, done to go   one after the other
  quiet = hide both on drop              steps on these channels become tau
  met = joint one other on put, get      on these channels both take the same step together; they exit only together
  started = enable startup then run      startup alone; its exit becomes tau and starts run; three or more from the left
  model = disable started by stop        either may step; a step of stop drops started, an exit of started drops stop; three or more
                                         from the left

Operators are not nested: an operand is the name of a process that is defined above. The last definition is the model. Files given
together get one numbering of channels.

  --into FOLDER   write the files there, not beside the given ones.
  --names TABLE   take channel numbers from this table of names first.
  --out FILE      write the readable form to a file, not to standard output.

Examples:
  seipolku build examples/shuttle_faulty.model examples/shuttle_flushed.model
  seipolku build --text models/shuttle_one.hex
";

/// The help of a subcommand, or the general one.
pub fn of(command: &str) -> &'static str {
    match command {
        "compare" => COMPARE,
        "pairs" => PAIRS,
        "steps" => STEPS,
        "show" => SHOW,
        "check" => CHECK,
        "from-aut" => FROM_AUT,
        "to-aut" => TO_AUT,
        "build" => BUILD,
        _ => GENERAL,
    }
}
