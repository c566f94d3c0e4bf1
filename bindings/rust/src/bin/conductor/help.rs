//! What `--help` prints. The first line of a part's help is its usage.

pub const USAGE: &str = "usage: conductor check | show | picture | run | join | best | small-plans | serve ...
`conductor --help` says more";

pub const WHOLE: &str = "conductor: keeps survey drones from meeting at a crossing, by the proved calls of the field conductor

  conductor check PLAN          is the plan taken? If not: which line, which drones
  conductor show PLAN           drones, stops, who waits for whom, cost and rounds
  conductor picture PLAN        a picture of the plan (SVG) to standard output
  conductor run PLAN            answers call lines from standard input, each at once
  conductor join EAST WEST      two plans made into one, to standard output
  conductor best PLAN           the cheapest order, and what it would save
  conductor small-plans         every small plan for the bench
  conductor serve PLAN          a page for pilots, on this machine

PLAN is the file of a plan text, `-` standard input. `--site SITE` reads the plan with a site text, which lists the crossings that are near each other.
`conductor PART --help` says more of a part, and `man conductor` has all of it.

Status: 0 accepted, 1 refused, 2 the command line is wrong or a file cannot be read or written.
";

pub const CHECK: &str = "conductor check PLAN [--site SITE]

Reads the plan and says whether it is taken. A refusal comes with its number and in words: the line and its number, or the drones by their names and the lines of their stops.

  --site SITE   the site text that the plan is read with
";

pub const SHOW: &str = "conductor show PLAN [--site SITE] [--calls CALLS]

Prints each drone with its whole name, its stops, where it is and whom it waits for; each dependency, with who goes first and what turning it would change; the cost, and in how many rounds the
last drone lands.

  --site SITE     the site text that the plan is read with; it may also stand before the plan in one file
  --calls CALLS   call lines that are made first, as `conductor run` takes them; they may also follow the plan
";

pub const PICTURE: &str = "conductor picture PLAN [--drones] [--by-number] [--site SITE] [--calls CALLS] > plan.svg

Draws the plan: time to the right, a row for each crossing that is shared, an arrow for each dependency from who goes first to who waits, and where everybody is.

  --drones        a row for each drone instead
  --by-number     the crossings in the order of their numbers, and not of the times at which they are first visited
  --site SITE     the site text that the plan is read with; it may also stand before the plan in one file
  --calls CALLS   call lines that are made first, as `conductor run` takes them; they may also follow the plan
";

pub const RUN: &str = "conductor run PLAN [--site SITE] [--quiet] < CALLS

Prints `plan=0`, or `plan=` and the refusal's number, and answers each call line from standard input at once, a line for a line, as `field` does. Refusals come in words on standard error too.
Where PLAN is `-`, the plan comes first on standard input, through its line `end=plan`, and the calls after it. There is no limit to how many calls there are.

  grant=D           grant=0; grant=N refused; grant=23:P, it must wait for dependency P
  arrive=D          arrive=0, or the refusal
  withdraw=D        withdraw=0, or the refusal
  turn=P            turn=0, or the refusal
  turns=P,P,..      turns=0, or the refusal: a rising list, turned all at once
  preview=P         preview=0:CHANGE, the cost after the turn less the cost now; or what the turn would be refused by
  previews=P,P,..   previews=0:CHANGE, likewise of a list
  cost=0            cost=C, the rounds of all drones added up
  rounds=0          rounds=R, the rounds until the last drone has landed
  press=none        press=0:D,D,.. the handset's button: the drones that it granted
  press=D           the same after the arrival of drone D; press=N refused
  best=BUDGET       best=0:COST:COUNT:P,P,.. the least cost, how many choices were entered, which dependencies to turn; best=37:COUNT where the budget was not enough; best=38

D is a drone and P a dependency, numbered from 0, at most 65,535. A malformed line prints `call=2`, a number outside its range `call=4`, and ends the output; else `end=calls` is last.
The status is 1 where the plan is refused or a line malformed; a call that is refused is an answer like any other.

  --site SITE   the site text that the plan is read with
  --quiet       no words on standard error
";

pub const JOIN: &str = "conductor join EAST WEST [--site SITE] > BOTH

Makes two plans into one and prints its text: the first plan's drones come first, and times are kept. A refusal has the line of the joined text, or the drones that collide by their names.

  --site SITE   the site text that both plans are read with
";

pub const BEST: &str = "conductor best PLAN [--budget N] [--site SITE] [--calls CALLS]

Looks for the cheapest order: which dependencies to turn so that the remaining rounds of all drones add up to the least. Prints what it would save, each turn in words, and last the line `turns=P,P,..`
that `conductor run` takes (none where nothing can be saved).

  --budget N      how many choices the search may enter, 1 to 100,000; without it 100,000
  --site SITE     the site text that the plan is read with; it may also stand before the plan in one file
  --calls CALLS   call lines that are made first, as `conductor run` takes them; they may also follow the plan
";

pub const SMALL_PLANS: &str = "conductor small-plans

Prints every small plan for the bench, 378 texts one after the other: two drones named a and b, locations 0 to 2, one to three stops each, times up to 4.
";

pub const SERVE: &str = "conductor serve PLAN [--site SITE] [--journal FILE] [--listen ADDRESS] [--host NAME] [--secret FILE]

Shows the plan and everybody's progress on a page, takes the pilots' calls there, and shows each change on every open page at once. It prints two addresses: the pilots' one has a secret in it, without
which nothing can be changed; the other is for whoever only looks.

  --site SITE       the site text that the plan is read with
  --journal FILE    each accepted call is in FILE, on disk, before it is answered. Started again with the same plan, the program makes the calls in FILE first and goes on where it was.
                    A last line that was torn is cut off; a journal of another plan, a damaged one, or one with a call that is refused is left as it is, and the program does not start
  --listen ADDRESS  127.0.0.1:8420 unless said otherwise. Whoever reaches another address can look, and on the way to it the secret can be overheard: use it in a net that you trust
  --host NAME       a further name under which browsers reach this machine; may be given more than once
  --secret FILE     the secret stands in FILE, which is made if it is not there, so that the pilots' address stays the same when the program is started again
";
