% The tables of a mission, for a constraint solver: what docs/tables.md asks of them, what is wished, and what they are best at.
% tools/place writes the data, and says which aim is sought and what the aims before it came to.
include "cumulative.mzn";
include "all_different_int.mzn"; % by these names Gecode has its own ones
include "table_int.mzn";
include "gecode.mzn";

% The mission. There is one table for each size of a configuration; positions are those of a table.
int: units;
int: tasks;
int: sensors;
set of int: SIZE = 4..units;
set of int: TASK = 0..tasks - 1;
set of int: SENSOR = 0..sensors - 1;
set of int: POSITION = 0..units - 1;
array[TASK] of set of int: reads_now; % the tasks whose words of this frame each task reads
array[TASK] of set of int: senses; % the sensors that it reads

% The wishes.
int: least_subframes;
int: most_subframes;
array[SIZE, TASK] of int: least_executors;
array[SIZE, TASK] of int: most_executors;
array[SIZE, TASK] of set of int: must_run; % positions that run a task, where it isn't shed
array[SIZE, TASK] of set of int: must_not_run;
array[TASK] of int: shed_turn; % 1 for the task that is shed first, 2 for the next; 0 for one that isn't to be shed
int: most_size; % the largest size that may shed
set of int: KEPT; % the sizes whose tables stay as they are
array[SIZE, TASK] of int: kept_run;
array[SIZE, TASK] of int: kept_poll;
array[SIZE, TASK] of set of int: kept_at;
array[SIZE, TASK] of bool: kept_shed;

% A table: of each task the subframes of its run and of its poll, the positions that run it, and whether it is shed.
var least_subframes..most_subframes: subframes;
array[SIZE, TASK] of var 0..63: run;
array[SIZE, TASK] of var 0..63: poll;
array[SIZE, TASK, POSITION] of var bool: at;
array[SIZE, TASK] of var bool: shed;

% Rule 1: `run`, `poll` and `at` have one entry for each task. So have the arrays above.

% Rule 2: no task runs before subframe 4.
constraint forall (size in SIZE, task in TASK) (not shed[size, task] -> run[size, task] >= 4);

% Rule 3: none is polled after the sixth subframe from the end.
constraint forall (size in SIZE, task in TASK) (not shed[size, task] -> poll[size, task] <= subframes - 6);

% Rule 4: it is polled two subframes after its run, or later.
constraint forall (size in SIZE, task in TASK) (not shed[size, task] -> poll[size, task] >= run[size, task] + 2);

% Rule 5: it has three positions, or more.
array[SIZE, TASK] of var 0..units: executors;
constraint forall (size in SIZE, task in TASK) (executors[size, task] = sum (position in POSITION) (at[size, task, position]));
constraint forall (size in SIZE, task in TASK) (not shed[size, task] -> executors[size, task] >= 3);

% Rule 6: each position is below the size.
constraint forall (size in SIZE, task in TASK, position in POSITION where position >= size) (not at[size, task, position]);

% Rule 7: positions ascend strictly. `at` says of each whether it is one, and so none stands twice; they are written in order.

% Rule 8: a task runs when each that it reads by `now`, and that isn't shed, has been polled.
constraint forall (size in SIZE, task in TASK, read in reads_now[task])
  (not shed[size, task] /\ not shed[size, read] -> poll[size, read] <= run[size, task]);

% Rule 9: two tasks that run in one subframe share no position. One that is shed has none.
constraint forall (size in SIZE, before, task in TASK where before < task) (
  let { var bool: together = (run[size, before] = run[size, task]) } in
  forall (position in 0..size - 1) (not together \/ not at[size, before, position] \/ not at[size, task, position]));

% Rule 10: the numbers of `shed` ascend strictly, and are those of tasks. `shed` says of each task whether it is one.

% Rule 11: of a task that is shed `run` and `poll` are 0, and `at` is empty.
constraint forall (size in SIZE, task in TASK)
  (shed[size, task] -> run[size, task] = 0 /\ poll[size, task] = 0 /\ executors[size, task] = 0);

% Wishes: how many executors a task has, and which positions run it and which don't.
constraint forall (size in SIZE diff KEPT, task in TASK) (not shed[size, task] ->
  least_executors[size, task] <= executors[size, task] /\ executors[size, task] <= most_executors[size, task]);
constraint forall (size in SIZE diff KEPT, task in TASK, position in must_run[size, task])
  (not shed[size, task] -> at[size, task, position]);
constraint forall (size in SIZE diff KEPT, task in TASK, position in must_not_run[size, task]) (not at[size, task, position]);

% Wishes: which tasks may be shed, and up to which size.
constraint forall (size in SIZE diff KEPT, task in TASK where shed_turn[task] = 0 \/ size > most_size) (not shed[size, task]);

% Wishes: tables that stay as they are.
constraint forall (size in KEPT, task in TASK) (
  run[size, task] = kept_run[size, task] /\ poll[size, task] = kept_poll[size, task] /\ shed[size, task] = kept_shed[size, task]
  /\ forall (position in POSITION) (at[size, task, position] = (position in kept_at[size, task])));

% Readers that aren't caught: of each size the sensors that some task reads, but none of those that their reader runs.
array[SIZE, SENSOR] of var bool: missed;
constraint forall (size in SIZE, sensor in SENSOR) (missed[size, sensor] <->
  exists (task in TASK) (sensor in senses[task])
  /\ forall (task in TASK where sensor in senses[task]) (not at[size, task, sensor mod size]));

% Work: of each size the most tasks that a position runs.
array[SIZE, POSITION] of var 0..tasks: work;
array[SIZE] of var 0..tasks: most_work;
constraint forall (size in SIZE, position in POSITION) (
  work[size, position] = sum (task in TASK) (at[size, task, position]) /\ work[size, position] <= most_work[size]);

% Changes: a unit is lost, and those behind it move up. A task changes its units where one that is left begins to run it, or
% no longer does.
array[5..units, TASK, POSITION] of var bool: changed;
constraint forall (size in 5..units, task in TASK, lost in POSITION) (changed[size, task, lost] <-> lost < size /\
  exists (position in 0..size - 2)
    (at[size - 1, task, position] != at[size, task, if position < lost then position else position + 1 endif]));

% The aims, each of which is to be least: what was reached of one bounds it when the next is sought.
% ROOM is that there are tables at all; SHED counts what is shed, and TURNS whether that are the tasks that are to be shed first.
enum AIM = { ROOM, SUBFRAMES, READERS, SHED, TURNS, WORK, CHANGES };
AIM: aim;
array[AIM] of int: least; % below which none can be
array[AIM] of int: most;
array[AIM] of var int: value = [0, subframes, sum (missed),
  sum (size in SIZE diff KEPT, task in TASK) (shed[size, task]),
  sum (size in SIZE diff KEPT, task in TASK) (shed_turn[task] * shed[size, task]),
  sum (most_work), sum (changed)];
constraint forall (each in AIM) (least[each] <= value[each] /\ value[each] <= most[each]);

% What follows from all this, or takes nothing from it, and shortens the search.
% No aim gains by a later poll.
constraint forall (size in SIZE diff KEPT, task in TASK) (not shed[size, task] -> poll[size, task] = run[size, task] + 2);
% In one subframe no more executors run than there are positions: no more than some whole tasks have. Of two tasks with more than
% half of the positions each, only one. A task that is shed gets a subframe of its own behind the frame.
array[SIZE] of int: room;
array[SIZE, TASK] of var int: turn = array2d(SIZE, TASK, [run[size, task] +
  if shed_turn[task] > 0 \/ size in KEPT then bool2int(shed[size, task]) * (100 + task) else 0 endif | size in SIZE, task in TASK]);
constraint forall (size in SIZE diff KEPT) (
  cumulative([turn[size, task] | task in TASK], [1 | task in TASK], [least_executors[size, task] | task in TASK], room[size])
  /\ all_different_int([turn[size, task] | task in TASK where 2 * least_executors[size, task] > size]));
% All positions together have the work of all tasks.
constraint forall (size in SIZE) (
  sum (position in POSITION) (work[size, position]) = sum (task in TASK) (executors[size, task])
  /\ size * most_work[size] >= sum (task in TASK) (executors[size, task]));
% The positions of a task as one number, and how many losses change its units: of a task with as many executors in the smaller
% table, all that the two can be stand in a list.
set of int: NUMBER = 0..pow(2, units) - 1;
array[NUMBER] of set of POSITION: members = array1d(NUMBER,
  [{ position | position in POSITION where (number div pow(2, position)) mod 2 = 1 } | number in NUMBER]);
array[SIZE, TASK] of var NUMBER: positions;
constraint forall (size in SIZE, task in TASK, position in POSITION) (
  let { array[NUMBER] of bool: is_member = array1d(NUMBER, [position in members[number] | number in NUMBER]) } in
  at[size, task, position] = is_member[positions[size, task]]);
array[5..units, TASK] of var 0..units: losses;
constraint forall (size in 5..units, task in TASK) (losses[size, task] = sum (lost in POSITION) (changed[size, task, lost]));
constraint sum (losses) = value[CHANGES];
array[NUMBER, POSITION] of int: moved = array2d(NUMBER, POSITION, % where a position is lost, and those behind it move up
  [number mod pow(2, lost) + number div pow(2, lost + 1) * pow(2, lost) | number in NUMBER, lost in POSITION]);
function int: count_losses(int: size, int: larger, int: smaller) = sum (lost in 0..size - 1) (bool2int(moved[larger, lost] != smaller));
function array[int] of int: numbers_of(int: size, int: count, bool: may_be_shed) =
  [number | number in 0..pow(2, size) - 1 where card(members[number]) = count \/ may_be_shed /\ number = 0];
function array[int, int] of int: pairs_of(int: size, int: count, bool: may_be_shed) =
  let {
    array[int] of int: larger = numbers_of(size, count, may_be_shed);
    array[int] of int: smaller = numbers_of(size - 1, count, may_be_shed)
  } in array2d(1..length(larger) * length(smaller), 1..3,
    [[one, other, count_losses(size, one, other)][place] | one in larger, other in smaller, place in 1..3]);
constraint forall (size in 5..units, count in 3..size - 1, may_be_shed in [false, true] where not (size in KEPT \/ size - 1 in KEPT)) (
  let { set of int: some = { task | task in TASK where (shed_turn[task] > 0) = may_be_shed /\
    forall (each in { size, size - 1 }) (least_executors[each, task] = count /\ most_executors[each, task] = count) } } in
  if some = {} then true else let { array[int, int] of int: pairs = pairs_of(size, count, may_be_shed) } in
    forall (task in some) (table_int([positions[size, task], positions[size - 1, task], losses[size, task]], pairs)) endif);
% Where it is asked for, a task runs in the same subframe at all sizes: then not all tables are tried.
bool: same_runs;
constraint same_runs -> forall (size in SIZE diff KEPT, task in TASK)
  (not shed[size, task] /\ not shed[units, task] -> run[size, task] = run[units, task]);

% The search: nothing shed, or all that may be where that makes room or less work, no reader missed, the least work, the earliest
% subframes, the fewest changes, the first positions. Where tables are given to begin with, each entry stays with a probability
% in percent, and the others are sought anew.
array[int] of TASK: urgent; % the tasks, the first with the most that waits for it
int: kept_percent;
array[int] of int: given;
ann: runs_first = int_search([run[size, task] | size in SIZE, task in urgent], smallest, indomain_min);
ann: changes_first = int_search([[losses[size, task], positions[size, task], positions[size - 1, task]][place]
  | task in TASK, size in reverse([each | each in 5..units]), place in 1..3], input_order, indomain_min);
solve
  :: if kept_percent > 0 then relax_and_reconstruct(array1d(run) ++ array1d(positions), kept_percent, given) else seq_search([]) endif
  :: seq_search([
    bool_search([shed[size, task] | size in SIZE, task in TASK], input_order, if aim in { SUBFRAMES, WORK } then indomain_max else indomain_min endif),
    if aim = READERS then bool_search(array1d(missed), input_order, indomain_min) else seq_search([]) endif,
    if aim in { WORK, CHANGES } then int_search(most_work, input_order, indomain_min) else seq_search([]) endif,
    if aim = CHANGES /\ not same_runs then seq_search([]) else runs_first endif,
    if aim = CHANGES then changes_first else seq_search([]) endif,
    bool_search([at[size, task, position] | size in SIZE, task in TASK, position in 0..size - 1], input_order, indomain_max),
    runs_first])
  minimize value[aim];

output [
  "{\"run\": \(run), \"poll\": \(poll), \"at\": \([bool2int(fix(one)) | one in at]), \"shed\": \([bool2int(fix(one)) | one in shed]), ",
  "\"value\": \(value)}\n"];
