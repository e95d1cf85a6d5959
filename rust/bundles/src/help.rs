//! What `bundles help` says.

struct Command {
    name: &'static str,
    words: &'static str,
    short: &'static str,
    long: &'static str,
}

const COMMANDS: [Command; 13] = [
    Command {
        name: "pack",
        words: "[BOARD]",
        short: "a board written as text, to a job on standard output",
        long: "\
BOARD is a text file, as docs/TEXT-FORM.md describes it and examples/clock-board.txt shows.
A line that is not as it should be is named with what was expected there; no job is written then.
Whether the stage accepts the board is not looked at: `bundles draw` says so. But where the text says
`grid yes`, each number that is off the drafting grid is named on standard error, with its line and the
numbers of the grid beside it; and so is each end of an edge that is not at its port, since the stage does
not look whether it is. The job is written all the same.",
    },
    Command {
        name: "unpack",
        words: "[JOB] [--names FILE]",
        short: "a job, to its text on standard output",
        long: "\
With a FILE of names, which may be a board's text, the text has them.

Every job can be unpacked that is whole: its length is right, its version is 1, flags, sides and
roles are listed, no field is missing and no byte is left over. Packing the text gives the same
bytes. A text's comments, blank lines and spaces are not in a job, so they do not come back.",
    },
    Command {
        name: "names",
        words: "BOARD",
        short: "the names in a board's text, to a file of names on standard output",
        long: "\
A job's bytes have no names. A file of names has lines such as `node 5 \"timestamp unit\"`, for nodes,
ports, edges and bundles; every command with `--names FILE` takes such a file, or a board's text. A line
that is none such is refused, and so is a name of what the board does not have: the file may be that of
another.",
    },
    Command {
        name: "plan",
        words: "[JOB]",
        short: "a job, to its plan on standard output, to draw from later",
        long: "\
A plan says for each bundle, in the job's order, at which x its collector is to stand inside the sheet, or
that it is to stand at the rail; and how many tap visits are left. Keep it with the board's revision, and
`bundles draw --plan PLAN JOB` draws from it on delivery: with its own job, byte for byte what `bundles
draw JOB` gives. `bundles explain --plan PLAN` says it in words.

Nothing is drawn here, so that only what is wrong with the job itself is refused, and 13. A refusal is the
six bytes of a notice in the plan's place, and is said in words on standard error. A JOB may be a board's
text.",
    },
    Command {
        name: "draw",
        words: "[JOB...] [--plan PLAN] [--names FILE]",
        short: "a job, to its answer on standard output; or several jobs, each to a file",
        long: "\
The answer is the sheet with its bundles drawn, or the six bytes of a refusal, byte for byte what
the program `sheet` writes; as there, at most 65,536 bytes of a job are looked at. A refusal is
also said in words on standard error, with what it is about: the field, record and id; the bundle and
the edge or node; the bundles of a component; what grant would be enough. A JOB may be a board's text,
which is packed: then the lines are named too. Names of a FILE are for these words, and of one JOB.

The stage takes routes as they are. An end of an edge that the sheet does not lead to the port that the edge
names is told on standard error: by no route, by one that ends elsewhere, or by a bundle that stands at
another port; or the board has no such port. Twelve are told, and how many more there are; `bundles explain`
names all. The sheet is drawn all the same, and the exit code is 0. Where the search for places ran out of tap visits,
so that a bundle may stand at the rail for that alone, it is told with what would be enough; pictures and pages have
it below the title.

With a PLAN, made by `bundles plan`, the one job is drawn from it and nothing is planned. It may be the plan
of another revision: it is refused with 17 where it does not fit the job's bundles, with 18 where a planned
number is none for this job, and else drawn as any other, with all checks.

With two jobs or more, each answer is written beside its job, with `.answer` in place of `.job` at
the end of the name, or behind a name with another end; a file that is there is replaced, but for a job that is
given and an answer that was just written: that job is told, and not drawn. Each job has a line on standard
error. A job that cannot be read is told, and the others are drawn. The exit
code is 2 where one could not be read, else 1 where any was refused.",
    },
    Command {
        name: "explain",
        words: "[ANSWER [JOB [--plan PLAN]] | --plan PLAN [JOB]] [--names FILE]",
        short: "an answer in words: a table of its bundles, or why the job was refused; or a plan",
        long: "\
The table has a line for each bundle: its id, its role, whether it stands inside the sheet
(interior) or at the rail, the x of its collector, from which y to which it goes, and how many taps
it has. With the answer's JOB, whose text may have names, there follows for each bundle its name and from which
ports to which it leads, and the names of nodes, ports and edges. Below it are the visits left. An answer does not have the role: it is read off the spine,
which leads to the right for an input and to the left for an output. With the answer's JOB the role
is the job's, the visits granted and paid are said too, and what is known of the joints.

Joints are looked at where crossings are forbidden, on the sheet in the answer, in exact numbers. None
is false where a segment of a bundle and a run of some length share no point, or exactly one, which
within 1e-7 is that route's tap on the bundle and an end of the run; where segments of two bundles share none if the
earlier one's has length; and where no member's route enters a node but its source and its target. All
this is proved of every sheet before its last shift, which subtracts the least coordinates, where they
are below 0, and rounds each difference. So a false joint in an answer is the work of that rounding.
Each is named: bundle, route or node, and place.

Of the last shift it is said, across and down, that it subtracted nothing; or that it was exact, as
all numbers of the job are multiples of 1/64 up to 2^20; or that it rounded; or, where an answer does
not tell, that it may have rounded. Where nothing was subtracted there is no false joint, which is
proved; where it was exact none was found on any board tried.

The ANSWER has to be that of the JOB, drawn from the PLAN if one is given behind the two: the job is drawn again
to compare. Of another answer it is said in what the two differ, and nothing else; the exit code is 2.

The last lines say of the ends of routes whether all are at their ports, or which are not, and where they and
their ports are, in the job's own coordinates. What no paper shows does not count, a part of 2^-32 of the board's
length and never more than 2^-18; nor does what the rounding of its numbers may put between the two. An end in a bundle is
where the bundle's port is.

With a PLAN in the answer's place the table has a line for each bundle: the x that is planned for it, or
none. With the JOB it also has the bundle's id and role and where it stands on the sheet that is drawn from
the plan; then from which ports to which each bundle leads, and the names of nodes, ports and edges, as with an
answer's JOB; and it is said whether the plan is the one that is made for this job, and whether the sheet is
accepted, or why it is refused and where.",
    },
    Command {
        name: "svg",
        words: "JOB ANSWER [--title TITLE] [--names FILE] [--plan PLAN]",
        short: "a job and its answer, to a picture on standard output",
        long: "\
The picture is an SVG file: open it with a browser, print it from there; it is printed at its own size, on paper
of that size. The ANSWER has to be that of the JOB, drawn from the PLAN if one is given: of another it is said
in what the two differ, there is no picture, and the exit code is 2. The page is A4 where on it the
white between two lines that do not join is at least 0.2 mm, each joint has its dot, each bundle its id, and
a line keeps enough between two that go over it: a bundle twice its width or more, and room for its whole
mark; else the first larger paper up to A0 where this is so. Where it is so on none of these, the sheet is
stretched where lines are near to each other, across and down, on papers up to 4A0: the order of all places is
kept, so that lines that cross still cross and no others do, but it is not to scale, and the last line of the
page says so. Where that does not do either, papers up to 4756 by 3364 mm are tried on which a line may go
under several others in one gap of 4 mm at most; else there is no picture, but words that say what would
mislead, and the exit code is 2.

Nodes are boxes with their ids, ports are squares, routes are thin lines and bundles heavy ones, each
with a colour and a mark of its own. A dot is a joint: a tap on its collector. Where lines cross
without a joint, the one goes over the other in an arch; arches that run into each other are joined, and
one that has no room to rise is a gap. Where a bundle and a route do so, that is the list of `bundles
crossings`: each crossing of it is shown by an arch or a gap, counted for each bundle and route. Of a sheet
that is drawn from a PLAN it is the list of that sheet. A list has at most 1,024 crossings: of a sheet with
more the board is drawn in parts, from its plan, all bundles in each, and the picture is drawn from the lists
of these. Where not even a part has a list the tool itself finds where they cross. The picture says which it is. Routes that lie over each other, or very
near, are drawn side by side: where taps are at one place, one that leaves along the collector leaves from the
last of them, and routes that turn straight back at one place turn one after the other. Arches side by side
over a bundle rise to one side; a route in two bundles changes its colour half way. No line comes
within 0.2 mm of the square of a port at which it does not end; a sheet that itself has a line on the place of
such a port has no picture, but words that name the line, the port and the node. None goes along the frame of a node
at which it does not end within 0.2 mm of it; one that lies on the frame on the sheet itself is named below the
title. Two edges cross on the page as often as on the sheet, however near to each other they turn or end. The legend has each
bundle's id, from which ports to which it leads, its role, place and width. Below it stands what `bundles
explain` says of the joints and of the last shift; a false joint has a ring around it, and its words stand
below the title.

An end of a route that is not at its port has a cross, which touches no other line, with `not at` and the port
beside it where there is room: nothing is joined there, however near it is to something. A larger paper is taken
where it has room for more crosses, as a page is stretched for them. Below the title stand the words, six at most,
and how many more there are; the last line counts the ends for whose cross no paper has room, as where two are in
one place. An end at its port is drawn up to the port's square. In the legend such a port has a cross behind it in the line of a bundle.

Lines and letters have their sizes in millimetres of the page; no letter is smaller than 1.8. Where
lines would be too near to each other, the sheet is stretched across or down, and the last line of the
page says how much, or that it is not to scale. An id of a node, port or edge for which there is no room is
left out, and the last line counts those. Names stand on the sheet where there is room beside the ids without
covering a line: a node's below its id or beside its box, those of bundles, ports and edges with their ids. Names
that have no room there stand in the legend, where lines with those of ports and edges take a sixth of the page at
most. Where that takes from an edge the room for its id, or a name has no room, the next larger paper that has room
for all is taken; where none has, the last line counts what is left out. In a browser a line or a box under the
pointer says its id and its name.

Without a TITLE the title is the job's name without its end.

For a refusal the picture has the board as it was given, in grey, if the job is whole, and the refusal
in words with what it is about. Where the drawing refused it (10, 11, 12), the bundle that was refused
lies over it as it was tried, dashed: its spine and collector, its taps, where its members would be led,
and a ring where it was refused. None of that is a sheet. A line on the place of a port at which it does not
end is there shown with a ring, and named below the title.",
    },
    Command {
        name: "html",
        words: "BOARD [--title TITLE] [--names FILE] [--plan PLAN]",
        short: "a board's text or job, to a page on standard output to follow its bundles on",
        long: "\
The page is one file that needs nothing else: open it with a browser. It has the picture of
`bundles svg`. Point at a bundle, a route, a node or a port, and its way from unit to port is lifted,
the rest is dimmed, and the way is told in words; a click or a tap of the finger keeps it so. Of another
bundle on the way, as in a chain, only the stretch between its port and the taps on the way is lifted, where
wires leave it elsewhere too; that is told. The search takes names and ids, as `5:11`, `edge 41` or `B4 time code`, words in any order; of what it finds it lists twelve, and says how
many more there are, or that there is nothing. Wheel, two fingers, `+` and `-` zoom;
dragging and the arrows move; Page Up and Page Down move the words where they are longer than their place, and so do
the arrows while the words have the focus; `0` shows the whole sheet, Tab goes from one thing to the next, the bundles first
in the order of the legend, Enter or Space chooses, Escape shows all again, `/` goes to the search. What search, Tab or address choose is brought into
view. Behind `#` in the address can stand what is chosen: sheet.html#bundle-4, #edge-41, #port-5-11, #node-5.
Printed it is the picture, on paper of its size. Where no picture would be clear, the page has the title, the words that say so
and those that the picture would have below its title, search and ways as else, and the exit code is 2, as with
`bundles svg`.

Where an end of a route is not at its port, the way has a cross between the two instead of an arrow, and above
it stands why.

With a PLAN the page is that of the sheet drawn from it. For a refusal it has the board as it was given: its
bundles have the ways of their members, and the refused one what was tried of it. An end of a member in its
bundle is not told as loose there either. Of two records with one id
each is chosen and told apart from the other; the second has a number behind it in the address, as #edge-41-2.
An end that names them is of the one at which the route ends, or of both where it ends at none.",
    },
    Command {
        name: "crossings",
        words: "[BOARD] [--plan PLAN] [--names FILE]",
        short: "a board's text or job, to the list of where bundles and routes cross",
        long: "\
For boards on which crossings are permitted: a line for each place where a route crosses a bundle without
a joint, with the place on the sheet before its last shift, the bundle and the edge; by y, then x, then the
board's order. That each crossing stands there once, that nothing else does, and that a bundle and a route
share no other point but the route's own tap, is proved of the sheet before its last shift. Crossings of two
bundles are not in the list, nor are those of two routes.

A sheet with more than 1,024 is refused with 19, and it is told how many there are, and of which bundle and
of which edge the most are. With a PLAN the list is that of the sheet drawn from it.",
    },
    Command {
        name: "page",
        words: "[BOARD] [--plan PLAN] [--names FILE] [--with-names]",
        short: "a board's text or job, to the page of its bundles on standard output",
        long: "\
The page is a listing to clip to the unit, for boards on the drafting grid (`grid yes` in the text):
one line for each bundle, in the board's order, and nothing else. A line is the bundle's id in 10
columns, `I` where it stands inside the sheet (interior) or `R` where it stands at the rail, the x of its
collector, and the y at which the collector begins and ends, each in 20 columns with seven decimals. The
decimals are exact: each number is the one that is drawn, which is proved. All columns are set flush right,
with a space between them; a line has 76 bytes, its newline among them.

With a PLAN the page is that of the sheet drawn from it.

With `--with-names` a blank line and the names stand behind the page: a line for each bundle, with its id, its
name and from which ports to which it leads, as `B4 time code: 2:1, 5:11, 5:12 → 7:1`; then the names of
nodes, ports and edges, as `bundles explain` tells them. The lines of the page itself stay as they are.

A board that is not said to be on the grid has no page: it is refused with 16, if with nothing else, and it is
told on which line that is said, and how many of its numbers are off the grid. Where the board is refused,
standard output stays empty, and the refusal is told on standard error, with names where there are some.",
    },
    Command {
        name: "picture",
        words: "BOARD [--title TITLE] [--names FILE] [--plan PLAN]",
        short: "a board's text or a job, drawn, to a picture on standard output: all in one",
        long: "The picture is that of `bundles svg`, drawn from the PLAN if one is given. What `bundles draw` says on \
               standard error is said here too.",
    },
    Command {
        name: "version",
        words: "",
        short: "the tool's version",
        long: "",
    },
    Command {
        name: "help",
        words: "[COMMAND]",
        short: "this, or all about one command",
        long: "",
    },
];

const FILES: &str = "\
Where a file is left out, or named `-`, standard input is read. A word that begins with `-` is a flag, and
one that the command does not have is refused; a file of such a name is named with its folder, as ./-x.

Exit codes: 0, done. 1, the job was refused; the answer, its explanation or its picture is written
all the same, a bundle page or a list of crossings is not. 2, bad usage, or a file that cannot be read
or written or is not what it should be.";

/// All commands.
pub fn all() -> String {
    let mut text = String::from(
        "bundles: draws the bundles of a schematic sheet, and shows what was drawn\n\n",
    );
    for command in &COMMANDS {
        let usage = format!("{} {}", command.name, command.words);
        // Words that would run into it stand on a line of their own.
        let gap = match usage.len() < 58 {
            true => String::new(),
            false => format!("\n{:68}", ""),
        };
        text.push_str(&format!("  bundles {usage:58}{gap}{}\n", command.short));
    }
    text.push_str(&format!(
        "\n{FILES}\n\n\
         `bundles COMMAND --help` says all about one. From a text to a picture at once:\n\n  \
         bundles picture board.txt > board.svg\n\n\
         and step by step:\n\n  \
         bundles pack board.txt > board.job\n  \
         bundles draw board.job > board.answer\n  \
         bundles explain board.answer board.job\n  \
         bundles svg board.job board.answer > board.svg\n\n\
         Planned with the revision, drawn on delivery:\n\n  \
         bundles plan board.job > board.plan\n  \
         bundles draw --plan board.plan board.job > board.answer\n"
    ));
    text
}

/// One command, if there is one of that name.
pub fn one(name: &str) -> Option<String> {
    let command = COMMANDS.iter().find(|command| command.name == name)?;
    let Command {
        name,
        words,
        short,
        long,
    } = command;
    let gap = if long.is_empty() { "" } else { "\n\n" };
    Some(format!(
        "bundles {name} {words}\n\n{short}\n\n{long}{gap}{FILES}\n"
    ))
}

/// How a command is called.
pub fn usage(name: &str) -> Option<String> {
    let command = COMMANDS.iter().find(|command| command.name == name)?;
    Some(format!("bundles {} {}", command.name, command.words))
}
