! memplan for Fortran: the calls of memplan.h by iso_c_binding, which says what each needs and what its answers mean.
!
! Unsigned numbers of C are signed here of the same width: all sizes, peaks and counts are below 2^63. Numbers of tasks are from 1, as
! Fortran counts. What is passed stays with the caller; arrays are contiguous.
module memplan
   use, intrinsic :: iso_c_binding, only: c_int32_t, c_int64_t, c_ptr, c_size_t
   implicit none
   private

   ! A node of a tree.
   type, bind(c), public :: memplan_node
      integer(c_int32_t) :: parent = 0
      integer(c_int64_t) :: out = 0
      integer(c_int64_t) :: extra = 0
      integer(c_int64_t) :: share = 0
      integer(c_int64_t) :: time = 1
   end type memplan_node

   ! A task of a system, and a data item.
   type, bind(c), public :: memplan_task
      integer(c_int64_t) :: extra = 0
      integer(c_int64_t) :: share = 0
      integer(c_int64_t) :: time = 1
   end type memplan_task

   type, bind(c), public :: memplan_item
      integer(c_int64_t) :: size = 0
      integer(c_int32_t) :: from = 0
      integer(c_int32_t) :: to = 0
   end type memplan_item

   ! A data item that any number of tasks read: so many of the numbers in the array of readers are its own.
   type, bind(c), public :: memplan_shared_item
      integer(c_int64_t) :: size = 0
      integer(c_int32_t) :: from = 0
      integer(c_int32_t) :: readers = 0
   end type memplan_shared_item

   ! A claim that certifies a plan.
   type, bind(c), public :: memplan_claim
      integer(c_int32_t) :: position = 0
      integer(c_int32_t) :: backward = 0
      integer(c_int64_t) :: bound = 0
      integer(c_int64_t) :: rest = 0
   end type memplan_claim

   ! How the fronts of a matrix are made.
   type, bind(c), public :: memplan_front_options
      integer(c_int32_t) :: shape = 0
      integer(c_int32_t) :: in_place = 0
      integer(c_int32_t) :: merge = 0
      integer(c_int64_t) :: zeros = 0
   end type memplan_front_options

   ! What is wrong.
   type, bind(c), public :: memplan_fault
      integer(c_int32_t) :: kind = 0
      integer(c_int64_t) :: at = 0
      integer(c_int64_t) :: value = 0
   end type memplan_fault

   ! Statuses.
   integer(c_int32_t), parameter, public :: memplan_done = 0, memplan_no = 1, memplan_usage = 2, memplan_format = 3, &
      memplan_limit = 4, memplan_bound = 5, memplan_no_memory = 8, memplan_working_set = 10

   ! Shapes.
   integer(c_int32_t), parameter, public :: memplan_triangle = 0, memplan_square = 1

   ! Kinds of faults, as tools/make_messages.py makes them.
   integer(c_int32_t), parameter, public :: memplan_kind_no_memory = 1
   integer(c_int32_t), parameter, public :: memplan_kind_room = 2
   integer(c_int32_t), parameter, public :: memplan_kind_claim_room = 3
   integer(c_int32_t), parameter, public :: memplan_kind_workers = 4
   integer(c_int32_t), parameter, public :: memplan_kind_no_node = 10
   integer(c_int32_t), parameter, public :: memplan_kind_many_tasks = 11
   integer(c_int32_t), parameter, public :: memplan_kind_parent = 12
   integer(c_int32_t), parameter, public :: memplan_kind_time = 13
   integer(c_int32_t), parameter, public :: memplan_kind_size = 14
   integer(c_int32_t), parameter, public :: memplan_kind_long_time = 15
   integer(c_int32_t), parameter, public :: memplan_kind_total = 16
   integer(c_int32_t), parameter, public :: memplan_kind_cycle = 17
   integer(c_int32_t), parameter, public :: memplan_kind_share = 18
   integer(c_int32_t), parameter, public :: memplan_kind_unknown = 20
   integer(c_int32_t), parameter, public :: memplan_kind_repeated = 21
   integer(c_int32_t), parameter, public :: memplan_kind_too_early = 22
   integer(c_int32_t), parameter, public :: memplan_kind_missing = 23
   integer(c_int32_t), parameter, public :: memplan_kind_bound_below = 30
   integer(c_int32_t), parameter, public :: memplan_kind_working_set = 31
   integer(c_int32_t), parameter, public :: memplan_kind_long_order = 40
   integer(c_int32_t), parameter, public :: memplan_kind_great_peak = 41
   integer(c_int32_t), parameter, public :: memplan_kind_many_claims = 42
   integer(c_int32_t), parameter, public :: memplan_kind_claim = 43
   integer(c_int32_t), parameter, public :: memplan_kind_other_peak = 44
   integer(c_int32_t), parameter, public :: memplan_kind_no_root_claim = 45
   integer(c_int32_t), parameter, public :: memplan_kind_wrong_claim = 46
   integer(c_int32_t), parameter, public :: memplan_kind_many_items = 50
   integer(c_int32_t), parameter, public :: memplan_kind_ends = 51
   integer(c_int32_t), parameter, public :: memplan_kind_item_size = 52
   integer(c_int32_t), parameter, public :: memplan_kind_many_uses = 53
   integer(c_int32_t), parameter, public :: memplan_kind_counts = 54
   integer(c_int32_t), parameter, public :: memplan_kind_readers = 55
   integer(c_int32_t), parameter, public :: memplan_kind_apart = 56
   integer(c_int32_t), parameter, public :: memplan_kind_rising = 57
   integer(c_int32_t), parameter, public :: memplan_kind_base = 60
   integer(c_int32_t), parameter, public :: memplan_kind_no_column = 61
   integer(c_int32_t), parameter, public :: memplan_kind_many_columns = 62
   integer(c_int32_t), parameter, public :: memplan_kind_many_entries = 63
   integer(c_int32_t), parameter, public :: memplan_kind_start = 64
   integer(c_int32_t), parameter, public :: memplan_kind_entries = 65
   integer(c_int32_t), parameter, public :: memplan_kind_row = 66
   integer(c_int32_t), parameter, public :: memplan_kind_places = 67
   integer(c_int32_t), parameter, public :: memplan_kind_no_such_column = 68
   integer(c_int32_t), parameter, public :: memplan_kind_column_repeated = 69
   integer(c_int32_t), parameter, public :: memplan_kind_degree = 70
   integer(c_int32_t), parameter, public :: memplan_kind_shape = 71
   integer(c_int32_t), parameter, public :: memplan_kind_node_room = 72
   integer(c_int32_t), parameter, public :: memplan_kind_column_fronts = 73
   integer(c_int32_t), parameter, public :: memplan_kind_no_such_front = 74
   ! The end of the kinds.

   ! The effort of memplan_plan_shared where nothing else is known.
   integer(c_int64_t), parameter, public :: memplan_effort = 1000000000_c_int64_t

   public :: memplan_plan_tree, memplan_certify_tree, memplan_check_tree, memplan_best_postorder, memplan_replay_tree
   public :: memplan_spill_tree, memplan_fronts, memplan_replay_system, memplan_replay_shared, memplan_plan_shared
   public :: memplan_analyse, memplan_columns, memplan_minimum_degree
   public :: memplan_core_size, memplan_core_new, memplan_core_begin, memplan_core_begin_system, memplan_core_begin_shared
   public :: memplan_core_activate, memplan_core_next, memplan_core_start, memplan_core_finish, memplan_core_is_startable
   public :: memplan_core_is_done, memplan_core_used, memplan_core_booked, memplan_core_end
   public :: memplan_message

   interface
      function memplan_plan_tree(nodes, count, order, places, peak, fault) result(status) bind(c)
         import :: c_int32_t, c_int64_t, c_size_t, memplan_node, memplan_fault
         type(memplan_node), intent(in) :: nodes(*)
         integer(c_size_t), value :: count, places
         integer(c_int32_t), intent(inout) :: order(*)
         integer(c_int64_t), intent(inout) :: peak
         type(memplan_fault), intent(inout) :: fault
         integer(c_int32_t) :: status
      end function memplan_plan_tree

      function memplan_certify_tree(nodes, count, order, places, peak, claims, claim_room, claim_count, fault) &
         result(status) bind(c)
         import :: c_int32_t, c_int64_t, c_size_t, memplan_node, memplan_claim, memplan_fault
         type(memplan_node), intent(in) :: nodes(*)
         integer(c_size_t), value :: count, places, claim_room
         integer(c_int32_t), intent(inout) :: order(*)
         integer(c_int64_t), intent(inout) :: peak, claim_count
         type(memplan_claim), intent(inout) :: claims(*)
         type(memplan_fault), intent(inout) :: fault
         integer(c_int32_t) :: status
      end function memplan_certify_tree

      function memplan_check_tree(nodes, count, order, places, peak, claims, claim_count, fault) result(status) bind(c)
         import :: c_int32_t, c_int64_t, c_size_t, memplan_node, memplan_claim, memplan_fault
         type(memplan_node), intent(in) :: nodes(*)
         integer(c_size_t), value :: count, places, claim_count
         integer(c_int32_t), intent(in) :: order(*)
         integer(c_int64_t), value :: peak
         type(memplan_claim), intent(in) :: claims(*)
         type(memplan_fault), intent(inout) :: fault
         integer(c_int32_t) :: status
      end function memplan_check_tree

      function memplan_best_postorder(nodes, count, order, places, peak, fault) result(status) bind(c)
         import :: c_int32_t, c_int64_t, c_size_t, memplan_node, memplan_fault
         type(memplan_node), intent(in) :: nodes(*)
         integer(c_size_t), value :: count, places
         integer(c_int32_t), intent(inout) :: order(*)
         integer(c_int64_t), intent(inout) :: peak
         type(memplan_fault), intent(inout) :: fault
         integer(c_int32_t) :: status
      end function memplan_best_postorder

      function memplan_replay_tree(nodes, count, order, places, peak, fault) result(status) bind(c)
         import :: c_int32_t, c_int64_t, c_size_t, memplan_node, memplan_fault
         type(memplan_node), intent(in) :: nodes(*)
         integer(c_size_t), value :: count, places
         integer(c_int32_t), intent(in) :: order(*)
         integer(c_int64_t), intent(inout) :: peak
         type(memplan_fault), intent(inout) :: fault
         integer(c_int32_t) :: status
      end function memplan_replay_tree

      function memplan_spill_tree(nodes, count, order, places, bound, amounts, room, volume, fault) result(status) bind(c)
         import :: c_int32_t, c_int64_t, c_size_t, memplan_node, memplan_fault
         type(memplan_node), intent(in) :: nodes(*)
         integer(c_size_t), value :: count, places, room
         integer(c_int32_t), intent(in) :: order(*)
         integer(c_int64_t), value :: bound
         integer(c_int64_t), intent(inout) :: amounts(*), volume
         type(memplan_fault), intent(inout) :: fault
         integer(c_int32_t) :: status
      end function memplan_spill_tree

      function memplan_fronts(base, starts, start_count, rows, entries, order, places, options, nodes, room, count, front_of, &
         columns, fault) result(status) bind(c)
         import :: c_int32_t, c_int64_t, c_size_t, memplan_node, memplan_front_options, memplan_fault
         integer(c_int32_t), value :: base
         integer(c_int32_t), intent(in) :: starts(*), rows(*), order(*)
         integer(c_size_t), value :: start_count, entries, places, room, columns
         type(memplan_front_options), intent(in) :: options
         type(memplan_node), intent(inout) :: nodes(*)
         integer(c_int64_t), intent(inout) :: count
         integer(c_int32_t), intent(inout) :: front_of(*)
         type(memplan_fault), intent(inout) :: fault
         integer(c_int32_t) :: status
      end function memplan_fronts

      function memplan_analyse(base, starts, start_count, rows, entries, order, places, options, nodes, room, count, front_of, &
         front_of_columns, columns, places_of_columns, fault) result(status) bind(c)
         import :: c_int32_t, c_int64_t, c_size_t, memplan_node, memplan_front_options, memplan_fault
         integer(c_int32_t), value :: base
         integer(c_int32_t), intent(in) :: starts(*), rows(*), order(*)
         integer(c_size_t), value :: start_count, entries, places, room, front_of_columns, places_of_columns
         type(memplan_front_options), intent(in) :: options
         type(memplan_node), intent(inout) :: nodes(*)
         integer(c_int64_t), intent(inout) :: count
         integer(c_int32_t), intent(inout) :: front_of(*), columns(*)
         type(memplan_fault), intent(inout) :: fault
         integer(c_int32_t) :: status
      end function memplan_analyse

      function memplan_minimum_degree(base, starts, start_count, rows, entries, columns, places, fault) result(status) bind(c)
         import :: c_int32_t, c_size_t, memplan_fault
         integer(c_int32_t), value :: base
         integer(c_int32_t), intent(in) :: starts(*), rows(*)
         integer(c_size_t), value :: start_count, entries, places
         integer(c_int32_t), intent(inout) :: columns(*)
         type(memplan_fault), intent(inout) :: fault
         integer(c_int32_t) :: status
      end function memplan_minimum_degree

      function memplan_columns(base, columns, count, front_of, of_columns, fronts, front_count, new_columns, places, fault) &
         result(status) bind(c)
         import :: c_int32_t, c_size_t, memplan_fault
         integer(c_int32_t), value :: base
         integer(c_int32_t), intent(in) :: columns(*), front_of(*), fronts(*)
         integer(c_size_t), value :: count, of_columns, front_count, places
         integer(c_int32_t), intent(inout) :: new_columns(*)
         type(memplan_fault), intent(inout) :: fault
         integer(c_int32_t) :: status
      end function memplan_columns

      function memplan_replay_system(tasks, count, items, item_count, order, places, peak, fault) result(status) bind(c)
         import :: c_int32_t, c_int64_t, c_size_t, memplan_task, memplan_item, memplan_fault
         type(memplan_task), intent(in) :: tasks(*)
         type(memplan_item), intent(in) :: items(*)
         integer(c_size_t), value :: count, item_count, places
         integer(c_int32_t), intent(in) :: order(*)
         integer(c_int64_t), intent(inout) :: peak
         type(memplan_fault), intent(inout) :: fault
         integer(c_int32_t) :: status
      end function memplan_replay_system

      function memplan_replay_shared(tasks, count, items, item_count, readers, reader_count, order, places, peak, fault) &
         result(status) bind(c)
         import :: c_int32_t, c_int64_t, c_size_t, memplan_task, memplan_shared_item, memplan_fault
         type(memplan_task), intent(in) :: tasks(*)
         type(memplan_shared_item), intent(in) :: items(*)
         integer(c_size_t), value :: count, item_count, reader_count, places
         integer(c_int32_t), intent(in) :: readers(*), order(*)
         integer(c_int64_t), intent(inout) :: peak
         type(memplan_fault), intent(inout) :: fault
         integer(c_int32_t) :: status
      end function memplan_replay_shared

      function memplan_plan_shared(tasks, count, items, item_count, readers, reader_count, start, start_count, effort, order, &
         places, peak, bound, fault) result(status) bind(c)
         import :: c_int32_t, c_int64_t, c_size_t, memplan_task, memplan_shared_item, memplan_fault
         type(memplan_task), intent(in) :: tasks(*)
         type(memplan_shared_item), intent(in) :: items(*)
         integer(c_size_t), value :: count, item_count, reader_count, start_count, places
         integer(c_int32_t), intent(in) :: readers(*), start(*)
         integer(c_int64_t), value :: effort
         integer(c_int32_t), intent(inout) :: order(*)
         integer(c_int64_t), intent(inout) :: peak, bound
         type(memplan_fault), intent(inout) :: fault
         integer(c_int32_t) :: status
      end function memplan_plan_shared

      function memplan_core_size() result(bytes) bind(c)
         import :: c_size_t
         integer(c_size_t) :: bytes
      end function memplan_core_size

      subroutine memplan_core_new(core) bind(c)
         import :: c_ptr
         type(c_ptr), value :: core
      end subroutine memplan_core_new

      function memplan_core_begin(core, nodes, count, order, places, bound, workers, fault) result(status) bind(c)
         import :: c_int32_t, c_int64_t, c_ptr, c_size_t, memplan_node, memplan_fault
         type(c_ptr), value :: core
         type(memplan_node), intent(in) :: nodes(*)
         integer(c_size_t), value :: count, places
         integer(c_int32_t), intent(in) :: order(*)
         integer(c_int64_t), value :: bound
         integer(c_int32_t), value :: workers
         type(memplan_fault), intent(inout) :: fault
         integer(c_int32_t) :: status
      end function memplan_core_begin

      function memplan_core_begin_system(core, tasks, count, items, item_count, order, places, bound, workers, fault) &
         result(status) bind(c)
         import :: c_int32_t, c_int64_t, c_ptr, c_size_t, memplan_task, memplan_item, memplan_fault
         type(c_ptr), value :: core
         type(memplan_task), intent(in) :: tasks(*)
         type(memplan_item), intent(in) :: items(*)
         integer(c_size_t), value :: count, item_count, places
         integer(c_int32_t), intent(in) :: order(*)
         integer(c_int64_t), value :: bound
         integer(c_int32_t), value :: workers
         type(memplan_fault), intent(inout) :: fault
         integer(c_int32_t) :: status
      end function memplan_core_begin_system

      function memplan_core_begin_shared(core, tasks, count, items, item_count, readers, reader_count, order, places, bound, &
         workers, fault) result(status) bind(c)
         import :: c_int32_t, c_int64_t, c_ptr, c_size_t, memplan_task, memplan_shared_item, memplan_fault
         type(c_ptr), value :: core
         type(memplan_task), intent(in) :: tasks(*)
         type(memplan_shared_item), intent(in) :: items(*)
         integer(c_size_t), value :: count, item_count, reader_count, places
         integer(c_int32_t), intent(in) :: readers(*), order(*)
         integer(c_int64_t), value :: bound
         integer(c_int32_t), value :: workers
         type(memplan_fault), intent(inout) :: fault
         integer(c_int32_t) :: status
      end function memplan_core_begin_shared

      function memplan_core_activate(core) result(task) bind(c)
         import :: c_int32_t, c_ptr
         type(c_ptr), value :: core
         integer(c_int32_t) :: task
      end function memplan_core_activate

      function memplan_core_next(core) result(task) bind(c)
         import :: c_int32_t, c_ptr
         type(c_ptr), value :: core
         integer(c_int32_t) :: task
      end function memplan_core_next

      function memplan_core_start(core, task) result(yes) bind(c)
         import :: c_int32_t, c_ptr
         type(c_ptr), value :: core
         integer(c_int32_t), value :: task
         integer(c_int32_t) :: yes
      end function memplan_core_start

      function memplan_core_finish(core, task) result(yes) bind(c)
         import :: c_int32_t, c_ptr
         type(c_ptr), value :: core
         integer(c_int32_t), value :: task
         integer(c_int32_t) :: yes
      end function memplan_core_finish

      function memplan_core_is_startable(core, task) result(yes) bind(c)
         import :: c_int32_t, c_ptr
         type(c_ptr), value :: core
         integer(c_int32_t), value :: task
         integer(c_int32_t) :: yes
      end function memplan_core_is_startable

      function memplan_core_is_done(core, task) result(yes) bind(c)
         import :: c_int32_t, c_ptr
         type(c_ptr), value :: core
         integer(c_int32_t), value :: task
         integer(c_int32_t) :: yes
      end function memplan_core_is_done

      function memplan_core_used(core) result(memory) bind(c)
         import :: c_int64_t, c_ptr
         type(c_ptr), value :: core
         integer(c_int64_t) :: memory
      end function memplan_core_used

      function memplan_core_booked(core) result(memory) bind(c)
         import :: c_int64_t, c_ptr
         type(c_ptr), value :: core
         integer(c_int64_t) :: memory
      end function memplan_core_booked

      subroutine memplan_core_end(core) bind(c)
         import :: c_ptr
         type(c_ptr), value :: core
      end subroutine memplan_core_end

      ! A text of C, which ends with a zero.
      function memplan_message(kind) result(text) bind(c)
         import :: c_int32_t, c_ptr
         integer(c_int32_t), value :: kind
         type(c_ptr) :: text
      end function memplan_message
   end interface
end module memplan
