# Sourced by tools/terminal.sh, and by nothing else. Made by tools/make_help.py of tools/commands.py.
commands="plan check replay post tree columns fronts simulate fence spill segments reduce bound upgrade demo"
declare -A usage_of=(
    [plan]='[--print text|json] (INPUT | --graph FILE [--order FILE] [--effort E])'
    [check]='(INPUT | --graph FILE) (--plan FILE [--workers W] | --fences FILE)'
    [replay]='(INPUT | --graph FILE) (--order FILE | --plan FILE)'
    [post]=TREE
    [tree]=MATRIX
    [columns]='MATRIX [--order FILE | --plan FILE] [--print text|perm]'
    [fronts]='--matrix FILE [--perm FILE | --iperm FILE | --ordering natural|mindeg] --bound B --workers W'
    [simulate]='(INPUT | --graph FILE) (--order FILE | --plan FILE) --bound B --workers W [--priority FILE]'
    [fence]='(INPUT | --graph FILE) [--bound B [--order FILE | --plan FILE] [--fewest no|yes]] [--workers W]'
    [spill]='(INPUT | --graph FILE) (--order FILE | --plan FILE) --bound B'
    [segments]=INPUT
    [reduce]='--graph FILE [--order FILE | --plan FILE]'
    [bound]='--graph FILE [--order FILE] [--effort E]'
    [upgrade]='(--tree FILE | --workflow FILE | --graph FILE | --plan FILE [--priority FILE])'
    [demo]='(--seed S --tasks N [--kind tree|workflow] | --kind grid --rows R --cols C)'
)
declare -A options_of=(
    [plan]='tree workflow matrix perm iperm ordering shape amalgamate inplace graph order effort print'
    [check]='tree workflow matrix perm iperm ordering shape amalgamate inplace graph plan workers fences'
    [replay]='tree workflow matrix perm iperm ordering shape amalgamate inplace graph order plan'
    [post]='tree matrix perm iperm ordering shape amalgamate inplace'
    [tree]='matrix perm iperm ordering shape amalgamate inplace'
    [columns]='matrix perm iperm ordering shape amalgamate inplace order plan print'
    [fronts]='matrix perm iperm ordering bound workers'
    [simulate]='tree workflow matrix perm iperm ordering shape amalgamate inplace graph order plan bound workers priority'
    [fence]='tree workflow matrix perm iperm ordering shape amalgamate inplace graph order plan bound workers fewest'
    [spill]='tree workflow matrix perm iperm ordering shape amalgamate inplace graph order plan bound'
    [segments]='tree workflow matrix perm iperm ordering shape amalgamate inplace'
    [reduce]='graph order plan'
    [bound]='graph order effort'
    [upgrade]='tree workflow graph plan priority'
    [demo]='kind seed tasks rows cols'
)
declare -A one_of=(
    [plan]='tree|workflow|matrix|graph'
    [check]='tree|workflow|matrix|graph plan|fences'
    [replay]='tree|workflow|matrix|graph order|plan'
    [post]='tree|matrix'
    [tree]=matrix
    [columns]=matrix
    [fronts]='matrix bound workers'
    [simulate]='tree|workflow|matrix|graph order|plan bound workers'
    [fence]='tree|workflow|matrix|graph'
    [spill]='tree|workflow|matrix|graph order|plan bound'
    [segments]='tree|workflow|matrix'
    [reduce]=graph
    [bound]=graph
    [upgrade]='tree|workflow|graph|plan'
    [demo]='seed|rows'
)
declare -A only_with=(
    [plan]='perm:matrix iperm:matrix ordering:matrix shape:matrix amalgamate:matrix inplace:matrix order:graph effort:graph'
    [check]='perm:matrix iperm:matrix ordering:matrix shape:matrix amalgamate:matrix inplace:matrix workers:plan'
    [replay]='perm:matrix iperm:matrix ordering:matrix shape:matrix amalgamate:matrix inplace:matrix'
    [post]='perm:matrix iperm:matrix ordering:matrix shape:matrix amalgamate:matrix inplace:matrix'
    [tree]=''
    [columns]=''
    [fronts]=''
    [simulate]='perm:matrix iperm:matrix ordering:matrix shape:matrix amalgamate:matrix inplace:matrix'
    [fence]='perm:matrix iperm:matrix ordering:matrix shape:matrix amalgamate:matrix inplace:matrix order:bound plan:bound fewest:bound'
    [spill]='perm:matrix iperm:matrix ordering:matrix shape:matrix amalgamate:matrix inplace:matrix'
    [segments]='perm:matrix iperm:matrix ordering:matrix shape:matrix amalgamate:matrix inplace:matrix'
    [reduce]=''
    [bound]=''
    [upgrade]=priority:plan
    [demo]='kind=grid:rows rows:kind=grid cols:rows rows:cols tasks:seed seed:tasks'
)
at_most_one="perm|iperm|ordering order|plan"
declare -A value_of=(
    [tree]=FILE
    [workflow]=FILE
    [matrix]=FILE
    [perm]=FILE
    [iperm]=FILE
    [ordering]='natural|mindeg'
    [shape]='triangle|square'
    [amalgamate]=Z
    [inplace]='no|yes'
    [graph]=FILE
    [order]=FILE
    [effort]=E
    [print]='text|json'
    [plan]=FILE
    [workers]=W
    [fences]=FILE
    [bound]=B
    [priority]=FILE
    [fewest]='no|yes'
    [kind]='tree|workflow|grid'
    [seed]=S
    [tasks]=N
    [rows]=R
    [cols]=C
    [columns.print]='text|perm'
)
declare -A range_of=(
    [amalgamate]='0 1099511627776'
    [effort]='0 18446744073709551615'
    [workers]='1 4096'
    [bound]='0 18446744073709551615'
    [seed]='0 18446744073709551615'
    [tasks]='1 1000000'
    [rows]='1 50000'
    [cols]='1 50000'
)

print_help() { # COMMAND, or nothing
    case $1 in
        plan)
            cat <<'END'
memplan plan: an order of least peak, its peak, and a certificate

usage: memplan plan [--print text|json] (INPUT | --graph FILE [--order FILE]
[--effort E])
INPUT is TREE, or --workflow FILE
TREE is --tree FILE, or MATRIX
MATRIX is --matrix FILE, with at most one of --perm, --iperm and --ordering,
and any of the others

  --tree FILE                a tree file: tasks of which each leaves one block
                             to its parent, as fronts do
  --workflow FILE            a workflow file: series-parallel tasks and their
                             data
  --matrix FILE              a matrix in Matrix Market's coordinate format; its
                             pattern is taken, made symmetric
  --perm FILE                its rows are eliminated in this order: the k-th
                             number is the row that goes k-th, from 1
  --iperm FILE               the inverse of such an order, as METIS or Scotch
                             writes it: of METIS the v-th number is the place
                             of row v, from 0 where a 0 stands in it, else from
                             1; of Scotch each row stands before its place,
                             from 0 or from 1
  --ordering natural|mindeg  in the order of the file, or by minimum degree (at
                             most 50,000 rows)
  --shape triangle|square    count the entries of one triangle of each front,
                             or of both
  --amalgamate Z             merge fronts where that adds at most Z zeros, Z up
                             to 2^40; none without it
  --inplace no|yes           with yes a front is assembled in the place of its
                             greatest child's block
  --graph FILE               a task graph file: tasks, and the data that go
                             from one to another
  --order FILE               an order file: the plan of the graph has no higher
                             peak than it
  --effort E                 how many steps a search of a thousand tasks may
                             take, of more tasks more, up to 15 E;
                             1,000,000,000 without it
  --print text|json          print a plan file, or one line of JSON

Prints a plan file: an order of the tasks, the peak, and the claims from which
it follows that no order has a lower peak. Of a task graph a plan of version 3:
no order has a peak below its bound, so it is least where that is its peak, as
it is wherever the graph is series-parallel. Status 1: the order is no
traversal of the graph.

$ memplan plan --tree examples/five.tree --print json
{"claims":[[5,"R",5,5],[10,"R",5,5],[11,"R",10,10],[13,"R",10,0]],"order":[3,1,4,2,5],"peak":11}
END
            ;;
        check)
            cat <<'END'
memplan check: the verdict on a plan, or on fences, whoever made them

usage: memplan check (INPUT | --graph FILE) (--plan FILE [--workers W] |
--fences FILE)
INPUT is TREE, or --workflow FILE
TREE is --tree FILE, or MATRIX
MATRIX is --matrix FILE, with at most one of --perm, --iperm and --ordering,
and any of the others

  --tree FILE                a tree file: tasks of which each leaves one block
                             to its parent, as fronts do
  --workflow FILE            a workflow file: series-parallel tasks and their
                             data
  --matrix FILE              a matrix in Matrix Market's coordinate format; its
                             pattern is taken, made symmetric
  --perm FILE                its rows are eliminated in this order: the k-th
                             number is the row that goes k-th, from 1
  --iperm FILE               the inverse of such an order, as METIS or Scotch
                             writes it: of METIS the v-th number is the place
                             of row v, from 0 where a 0 stands in it, else from
                             1; of Scotch each row stands before its place,
                             from 0 or from 1
  --ordering natural|mindeg  in the order of the file, or by minimum degree (at
                             most 50,000 rows)
  --shape triangle|square    count the entries of one triangle of each front,
                             or of both
  --amalgamate Z             merge fronts where that adds at most Z zeros, Z up
                             to 2^40; none without it
  --inplace no|yes           with yes a front is assembled in the place of its
                             greatest child's block
  --graph FILE               a task graph file: tasks, and the data that go
                             from one to another
  --plan FILE                the plan file that is judged
  --workers W                how many threads share the work, 1 to 4096; 1
                             without it
  --fences FILE              the fence file that is judged, as fence prints it

Prints yes PEAK, or the first objection. The options of the input have to be
those that the plan was made with. Of a task graph, whose plan has a bound
(version 3), yes PEAK least or yes PEAK above BOUND. Of fences yes BOUND: no
run that keeps to them, on as many workers as they are for, uses more, and none
comes to a stop. Status 1: the plan is not accepted, or the fences are not.

$ memplan check --tree examples/five.tree --plan examples/five.plan
yes 11
END
            ;;
        replay)
            cat <<'END'
memplan replay: the peak of an order

usage: memplan replay (INPUT | --graph FILE) (--order FILE | --plan FILE)
INPUT is TREE, or --workflow FILE
TREE is --tree FILE, or MATRIX
MATRIX is --matrix FILE, with at most one of --perm, --iperm and --ordering,
and any of the others

  --tree FILE                a tree file: tasks of which each leaves one block
                             to its parent, as fronts do
  --workflow FILE            a workflow file: series-parallel tasks and their
                             data
  --matrix FILE              a matrix in Matrix Market's coordinate format; its
                             pattern is taken, made symmetric
  --perm FILE                its rows are eliminated in this order: the k-th
                             number is the row that goes k-th, from 1
  --iperm FILE               the inverse of such an order, as METIS or Scotch
                             writes it: of METIS the v-th number is the place
                             of row v, from 0 where a 0 stands in it, else from
                             1; of Scotch each row stands before its place,
                             from 0 or from 1
  --ordering natural|mindeg  in the order of the file, or by minimum degree (at
                             most 50,000 rows)
  --shape triangle|square    count the entries of one triangle of each front,
                             or of both
  --amalgamate Z             merge fronts where that adds at most Z zeros, Z up
                             to 2^40; none without it
  --inplace no|yes           with yes a front is assembled in the place of its
                             greatest child's block
  --graph FILE               a task graph file: tasks, and the data that go
                             from one to another
  --order FILE               an order file: the numbers of the tasks, in order,
                             from 1; or what post prints
  --plan FILE                a plan, as plan prints it: a plan file, or its
                             JSON; its order is taken

Prints peak PEAK, or the first place at which the order fails. Status 1: the
order is no traversal.

$ memplan replay --tree examples/five.tree --order examples/five.postorder
peak 15
END
            ;;
        post)
            cat <<'END'
memplan post: the best postorder of a tree, and its peak

usage: memplan post TREE
TREE is --tree FILE, or MATRIX
MATRIX is --matrix FILE, with at most one of --perm, --iperm and --ordering,
and any of the others

  --tree FILE                a tree file: tasks of which each leaves one block
                             to its parent, as fronts do
  --matrix FILE              a matrix in Matrix Market's coordinate format; its
                             pattern is taken, made symmetric
  --perm FILE                its rows are eliminated in this order: the k-th
                             number is the row that goes k-th, from 1
  --iperm FILE               the inverse of such an order, as METIS or Scotch
                             writes it: of METIS the v-th number is the place
                             of row v, from 0 where a 0 stands in it, else from
                             1; of Scotch each row stands before its place,
                             from 0 or from 1
  --ordering natural|mindeg  in the order of the file, or by minimum degree (at
                             most 50,000 rows)
  --shape triangle|square    count the entries of one triangle of each front,
                             or of both
  --amalgamate Z             merge fronts where that adds at most Z zeros, Z up
                             to 2^40; none without it
  --inplace no|yes           with yes a front is assembled in the place of its
                             greatest child's block

Prints peak PEAK, order N, N lines with one task each, end. No postorder has a
lower peak.

$ memplan post --matrix examples/grid.mtx
peak 9
order 2
1
2
end
END
            ;;
        tree)
            cat <<'END'
memplan tree: the tree of fronts of a matrix

usage: memplan tree MATRIX
MATRIX is --matrix FILE, with at most one of --perm, --iperm and --ordering,
and any of the others

  --matrix FILE              a matrix in Matrix Market's coordinate format; its
                             pattern is taken, made symmetric
  --perm FILE                its rows are eliminated in this order: the k-th
                             number is the row that goes k-th, from 1
  --iperm FILE               the inverse of such an order, as METIS or Scotch
                             writes it: of METIS the v-th number is the place
                             of row v, from 0 where a 0 stands in it, else from
                             1; of Scotch each row stands before its place,
                             from 0 or from 1
  --ordering natural|mindeg  in the order of the file, or by minimum degree (at
                             most 50,000 rows)
  --shape triangle|square    count the entries of one triangle of each front,
                             or of both
  --amalgamate Z             merge fronts where that adds at most Z zeros, Z up
                             to 2^40; none without it
  --inplace no|yes           with yes a front is assembled in the place of its
                             greatest child's block

Prints a tree file: a line for each front, with its parent, its contribution
block, what it needs beside that, and its columns.

$ memplan tree --matrix examples/arrow.mtx --ordering mindeg
tree 1
nodes 3
3 1 2 1
3 1 2 1
0 0 3 2
end
END
            ;;
        columns)
            cat <<'END'
memplan columns: the columns of every front of a matrix, by the numbers of its
file

usage: memplan columns MATRIX [--order FILE | --plan FILE] [--print text|perm]
MATRIX is --matrix FILE, with at most one of --perm, --iperm and --ordering,
and any of the others

  --matrix FILE              a matrix in Matrix Market's coordinate format; its
                             pattern is taken, made symmetric
  --perm FILE                its rows are eliminated in this order: the k-th
                             number is the row that goes k-th, from 1
  --iperm FILE               the inverse of such an order, as METIS or Scotch
                             writes it: of METIS the v-th number is the place
                             of row v, from 0 where a 0 stands in it, else from
                             1; of Scotch each row stands before its place,
                             from 0 or from 1
  --ordering natural|mindeg  in the order of the file, or by minimum degree (at
                             most 50,000 rows)
  --shape triangle|square    count the entries of one triangle of each front,
                             or of both
  --amalgamate Z             merge fronts where that adds at most Z zeros, Z up
                             to 2^40; none without it
  --inplace no|yes           with yes a front is assembled in the place of its
                             greatest child's block
  --order FILE               an order file of the fronts, or what post prints:
                             they come in this order; by rising number without
                             it
  --plan FILE                a plan, as plan prints it, a file or its JSON: the
                             fronts come in its order
  --print text|perm          print a line for each front, or all columns as a
                             permutation file

Prints columns N, a line for each front with its columns, end. One after the
other they are an order of elimination with the same fill and, where none were
merged, the same fronts: --print perm prints that, one column on a line, as
--perm and solvers take it. Status 1: the order is no traversal of the fronts.

$ memplan columns --matrix examples/arrow.mtx --ordering mindeg
columns 3
2
3
1 4
end
END
            ;;
        fronts)
            cat <<'END'
memplan fronts: the rows of every front of a matrix

usage: memplan fronts --matrix FILE [--perm FILE | --iperm FILE | --ordering
natural|mindeg] --bound B --workers W

  --matrix FILE              a matrix in Matrix Market's coordinate format; its
                             pattern is taken, made symmetric
  --perm FILE                its rows are eliminated in this order: the k-th
                             number is the row that goes k-th, from 1
  --iperm FILE               the inverse of such an order, as METIS or Scotch
                             writes it: of METIS the v-th number is the place
                             of row v, from 0 where a 0 stands in it, else from
                             1; of Scotch each row stands before its place,
                             from 0 or from 1
  --ordering natural|mindeg  in the order of the file, or by minimum degree (at
                             most 50,000 rows)
  --bound B                  at most B rows are held at once
  --workers W                how many fronts at once, 1 to 4096, on threads
                             where they are large

Prints fronts M, rounds R, used U, a line for each round and one for each
front, end. Rows are places in the order of elimination. Status 5: the bound is
below the peak of the fronts, one after the other.

$ memplan fronts --matrix examples/arrow.mtx --ordering mindeg --bound 4 --workers 2
fronts 3
rounds 2
used 4
1 2
3
1 3
2 3
3 4
end
END
            ;;
        simulate)
            cat <<'END'
memplan simulate: a run on several workers within a bound on memory

usage: memplan simulate (INPUT | --graph FILE) (--order FILE | --plan FILE)
--bound B --workers W [--priority FILE]
INPUT is TREE, or --workflow FILE
TREE is --tree FILE, or MATRIX
MATRIX is --matrix FILE, with at most one of --perm, --iperm and --ordering,
and any of the others

  --tree FILE                a tree file: tasks of which each leaves one block
                             to its parent, as fronts do
  --workflow FILE            a workflow file: series-parallel tasks and their
                             data
  --matrix FILE              a matrix in Matrix Market's coordinate format; its
                             pattern is taken, made symmetric
  --perm FILE                its rows are eliminated in this order: the k-th
                             number is the row that goes k-th, from 1
  --iperm FILE               the inverse of such an order, as METIS or Scotch
                             writes it: of METIS the v-th number is the place
                             of row v, from 0 where a 0 stands in it, else from
                             1; of Scotch each row stands before its place,
                             from 0 or from 1
  --ordering natural|mindeg  in the order of the file, or by minimum degree (at
                             most 50,000 rows)
  --shape triangle|square    count the entries of one triangle of each front,
                             or of both
  --amalgamate Z             merge fronts where that adds at most Z zeros, Z up
                             to 2^40; none without it
  --inplace no|yes           with yes a front is assembled in the place of its
                             greatest child's block
  --graph FILE               a task graph file: tasks, and the data that go
                             from one to another
  --order FILE               an order file: the numbers of the tasks, in order,
                             from 1; or what post prints
  --plan FILE                a plan, as plan prints it: a plan file, or its
                             JSON; its order is taken
  --bound B                  the memory that there is, in the units of the
                             input
  --workers W                how many workers, 1 to 4096
  --priority FILE            a ranking of the tasks: of those that may start,
                             the first of it is started

Prints makespan T, used U, booked B, events E, a line for each event, end.
Status 1: the order is no traversal. Status 5: the bound is below the peak of
the order.

$ memplan simulate --tree examples/five.tree --order examples/five.order --bound 11 --workers 2 | head -n 2
makespan 5
used 11
END
            ;;
        fence)
            cat <<'END'
memplan fence: fences that keep every parallel run within a bound on memory, or
what no run passes without any

usage: memplan fence (INPUT | --graph FILE) [--bound B [--order FILE | --plan
FILE] [--fewest no|yes]] [--workers W]
INPUT is TREE, or --workflow FILE
TREE is --tree FILE, or MATRIX
MATRIX is --matrix FILE, with at most one of --perm, --iperm and --ordering,
and any of the others

  --tree FILE                a tree file: tasks of which each leaves one block
                             to its parent, as fronts do
  --workflow FILE            a workflow file: series-parallel tasks and their
                             data
  --matrix FILE              a matrix in Matrix Market's coordinate format; its
                             pattern is taken, made symmetric
  --perm FILE                its rows are eliminated in this order: the k-th
                             number is the row that goes k-th, from 1
  --iperm FILE               the inverse of such an order, as METIS or Scotch
                             writes it: of METIS the v-th number is the place
                             of row v, from 0 where a 0 stands in it, else from
                             1; of Scotch each row stands before its place,
                             from 0 or from 1
  --ordering natural|mindeg  in the order of the file, or by minimum degree (at
                             most 50,000 rows)
  --shape triangle|square    count the entries of one triangle of each front,
                             or of both
  --amalgamate Z             merge fronts where that adds at most Z zeros, Z up
                             to 2^40; none without it
  --inplace no|yes           with yes a front is assembled in the place of its
                             greatest child's block
  --graph FILE               a task graph file: tasks, and the data that go
                             from one to another
  --order FILE               an order file: the numbers of the tasks, in order,
                             from 1; or what post prints
  --plan FILE                a plan, as plan prints it: a plan file, or its
                             JSON; its order is taken
  --bound B                  the memory that there is, in the units of the
                             input
  --workers W                for runs on at most W workers, 1 to 4096; on any
                             number of them without it
  --fewest no|yes            with yes fences are left out that the others can
                             do without

Prints a fence file: each fence is a line FROM TO, by which task TO waits for
task FROM, or for all readers of an item. From its amounts follows that no run
on so many workers that keeps to the fences passes the bound, whatever starts
the tasks, and however long they take; and none comes to a stop. With a bound
and no order, the order is planned, as plan does. Without a bound, the file has
one that no run passes as the tasks stand: its fences forbid no run. Status 1:
the order is no traversal. Status 5: the bound is below the peak of the order,
or of the plan.

$ memplan fence --tree examples/five.tree --order examples/five.order --bound 16 | head -n 2
fences 1
bound 16
END
            ;;
        spill)
            cat <<'END'
memplan spill: the least volume that must go to disk within a bound

usage: memplan spill (INPUT | --graph FILE) (--order FILE | --plan FILE)
--bound B
INPUT is TREE, or --workflow FILE
TREE is --tree FILE, or MATRIX
MATRIX is --matrix FILE, with at most one of --perm, --iperm and --ordering,
and any of the others

  --tree FILE                a tree file: tasks of which each leaves one block
                             to its parent, as fronts do
  --workflow FILE            a workflow file: series-parallel tasks and their
                             data
  --matrix FILE              a matrix in Matrix Market's coordinate format; its
                             pattern is taken, made symmetric
  --perm FILE                its rows are eliminated in this order: the k-th
                             number is the row that goes k-th, from 1
  --iperm FILE               the inverse of such an order, as METIS or Scotch
                             writes it: of METIS the v-th number is the place
                             of row v, from 0 where a 0 stands in it, else from
                             1; of Scotch each row stands before its place,
                             from 0 or from 1
  --ordering natural|mindeg  in the order of the file, or by minimum degree (at
                             most 50,000 rows)
  --shape triangle|square    count the entries of one triangle of each front,
                             or of both
  --amalgamate Z             merge fronts where that adds at most Z zeros, Z up
                             to 2^40; none without it
  --inplace no|yes           with yes a front is assembled in the place of its
                             greatest child's block
  --graph FILE               a task graph file: tasks, and the data that go
                             from one to another
  --order FILE               an order file: the numbers of the tasks, in order,
                             from 1; or what post prints
  --plan FILE                a plan, as plan prints it: a plan file, or its
                             JSON; its order is taken
  --bound B                  the memory that there is, in the units of the
                             input

Prints volume V, items K, K lines ITEM AMOUNT, end; of a task graph gaps K and
K lines ITEM READER AMOUNT, each of an item until this task reads it, or with 0
to the end. Status 1: the order is no traversal. Status 10: a step needs more
for itself than the bound.

$ memplan spill --tree examples/five.tree --order examples/five.postorder --bound 11
volume 4
items 1
2 4
end
END
            ;;
        segments)
            cat <<'END'
memplan segments: how low memory can come within each bound

usage: memplan segments INPUT
INPUT is TREE, or --workflow FILE
TREE is --tree FILE, or MATRIX
MATRIX is --matrix FILE, with at most one of --perm, --iperm and --ordering,
and any of the others

  --tree FILE                a tree file: tasks of which each leaves one block
                             to its parent, as fronts do
  --workflow FILE            a workflow file: series-parallel tasks and their
                             data
  --matrix FILE              a matrix in Matrix Market's coordinate format; its
                             pattern is taken, made symmetric
  --perm FILE                its rows are eliminated in this order: the k-th
                             number is the row that goes k-th, from 1
  --iperm FILE               the inverse of such an order, as METIS or Scotch
                             writes it: of METIS the v-th number is the place
                             of row v, from 0 where a 0 stands in it, else from
                             1; of Scotch each row stands before its place,
                             from 0 or from 1
  --ordering natural|mindeg  in the order of the file, or by minimum degree (at
                             most 50,000 rows)
  --shape triangle|square    count the entries of one triangle of each front,
                             or of both
  --amalgamate Z             merge fronts where that adds at most Z zeros, Z up
                             to 2^40; none without it
  --inplace no|yes           with yes a front is assembled in the place of its
                             greatest child's block

Prints two lines for each node of a tree, or each position of a workflow: from
its start (F) and back from its end (R).

$ memplan segments --tree examples/roots.tree
segments 2
1 F 0
1 R 3 3 0
2 F 0
2 R 4 5 0
end
END
            ;;
        reduce)
            cat <<'END'
memplan reduce: the series-parallel workflow of a task graph

usage: memplan reduce --graph FILE [--order FILE | --plan FILE]

  --graph FILE  a task graph file: tasks, and the data that go from one to
                another
  --order FILE  an order file of the workflow's tasks: it is printed by the
                tasks of the graph, in place of the workflow
  --plan FILE   a plan of the workflow, a file or its JSON; its order is taken

Prints a workflow file, with a line # K NAME for each task: task K is task NAME
of the graph, or a join if there is none. With an order of its tasks, that
order by the tasks of the graph, as post prints one: peak P, order N, N lines
with one task each, end. Or the arcs, or the item, in the way. Status 1: the
order is no traversal of the workflow. Status 9: the graph is not
series-parallel, or an item has several readers and none after all the others.

$ memplan reduce --graph examples/four.graph | tail -n 4
# 1 3
# 2 2
# 3 4
# 4 1
END
            ;;
        bound)
            cat <<'END'
memplan bound: what no order of a task graph has a peak below

usage: memplan bound --graph FILE [--order FILE] [--effort E]

  --graph FILE  a task graph file: tasks, and the data that go from one to
                another
  --order FILE  an order file: its peak is told too
  --effort E    how many steps a search may take, some 100 million a second;
                1,000,000,000 without it

Prints bound L with the evidence for it, as in a plan file of version 3, end;
beside an order peak P before them. Status 1: the order is no traversal.

$ memplan bound --graph examples/shared.graph --order examples/shared.order | head -n 2
peak 16
bound 16
END
            ;;
        upgrade)
            cat <<'END'
memplan upgrade: a file as version 2 of its format

usage: memplan upgrade (--tree FILE | --workflow FILE | --graph FILE | --plan
FILE [--priority FILE])

  --tree FILE      a tree file: tasks of which each leaves one block to its
                   parent, as fronts do
  --workflow FILE  a workflow file: series-parallel tasks and their data
  --graph FILE     a task graph file: tasks, and the data that go from one to
                   another
  --plan FILE      a plan file
  --priority FILE  a ranking of the tasks, in place of the plan's

Prints the file, with a share of 0, items in place of arcs, or no priority
where version 1 has none. Write it to another file.

$ memplan upgrade --tree examples/one.tree
tree 2
nodes 1
0 7 2 0 1
end
END
            ;;
        demo)
            cat <<'END'
memplan demo: an input made from a number, planned and checked

usage: memplan demo (--seed S --tasks N [--kind tree|workflow] | --kind grid
--rows R --cols C)

  --kind tree|workflow|grid  a random tree, a random workflow, or the fronts of
                             a grid
  --seed S                   the number of which it is made
  --tasks N                  how many tasks, 1 to 1000000
  --rows R                   the height of the grid; R times C is at most 50000
  --cols C                   the width of the grid

Prints demo KIND, tasks N, positions K, peak P, of trees postorder Q, check
yes, end.

$ memplan demo --kind grid --rows 2 --cols 2
demo grid
tasks 2
positions 5
peak 9
postorder 9
check yes
end
END
            ;;
        *)
            cat <<'END'
memplan orders tasks so that their temporary data needs as little memory as
possible, and proves it.

usage: memplan COMMAND OPTIONS

  plan      an order of least peak, its peak, and a certificate
  check     the verdict on a plan, or on fences, whoever made them
  replay    the peak of an order
  post      the best postorder of a tree, and its peak
  tree      the tree of fronts of a matrix
  columns   the columns of every front of a matrix, by the numbers of its file
  fronts    the rows of every front of a matrix
  simulate  a run on several workers within a bound on memory
  fence     fences that keep every parallel run within a bound on memory, or
            what no run passes without any
  spill     the least volume that must go to disk within a bound
  segments  how low memory can come within each bound
  reduce    the series-parallel workflow of a task graph
  bound     what no order of a task graph has a peak below
  upgrade   a file as version 2 of its format
  demo      an input made from a number, planned and checked

'memplan help plan' has the options of plan, and so on. The command comes
first, then its options in any order, each at most once: --name value, or
--name=value. A value is not empty and does not begin with a hyphen. Files are
read by place, so no pipe will do; /dev/stdin is standard input, where that is
a file.

Statuses:
  0   done; the report is on standard output
  1   the order is no traversal, or the plan or the fences are not accepted; a
      line says why
  2   usage: the words are no command with its options; nothing is printed
  3   a file is not of its format: refused format FILE KIND LINE
  4   a file passes a limit: refused limit FILE NAME
  5   the bound is below the peak: refused bound BOUND PEAK
  6   a file could not be read; nothing is printed
  7   the report could not be written whole
  8   memory ran out; nothing is printed
  9   the task graph is not series-parallel: refused graph rest K, and K arcs;
      or of version 2 refused graph uses K, item I or arcs
  10  a step needs more than the bound: refused working-set STEP NEED BOUND

docs/COMMANDS.md has all of this, docs/FORMATS.md the files, docs/REPORTS.md
the refusals.
END
            ;;
    esac
}
