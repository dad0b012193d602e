! Two chains of two nodes below a root: an order of least peak, and the core run along it by one worker; the fronts of a matrix of four
! columns, of which the first is joined to all others; and three tasks that read one input of 10, whose plan is better than the order that it
! begins with. Prints both peaks; ends with an error where something is not as it was worked by hand.
program five
   use, intrinsic :: iso_c_binding, only: c_int32_t, c_int64_t, c_loc, c_ptr, c_size_t
   use memplan
   implicit none
   integer(c_size_t), parameter :: count = 5
   type(memplan_node) :: nodes(count)
   integer(c_int32_t) :: order(count), status, task
   integer(c_int64_t) :: peak, best, top
   type(memplan_fault) :: fault
   integer(c_int64_t), allocatable, target :: room(:)
   type(c_ptr) :: core

   nodes%parent = [2, 5, 4, 5, 0]
   nodes%out = [1, 5, 1, 5, 0]
   nodes%extra = [9, 0, 9, 0, 0]
   status = memplan_best_postorder(nodes, count, order, count, best, fault)
   if (status /= memplan_done .or. best /= 15) error stop 'best postorder'
   status = memplan_plan_tree(nodes, count, order, count, peak, fault)
   if (status /= memplan_done .or. peak /= 11) error stop 'plan'

   allocate (room((memplan_core_size() + 7)/8))
   core = c_loc(room)
   call memplan_core_new(core)
   status = memplan_core_begin(core, nodes, count, order, count, peak - 1, 1, fault)
   if (status /= memplan_bound .or. fault%value /= peak) error stop 'a bound below the peak'
   status = memplan_core_begin(core, nodes, count, order, count, peak, 1, fault)
   if (status /= memplan_done) error stop 'begin'
   top = 0
   do
      task = memplan_core_activate(core)
      if (task == 0) exit
      if (memplan_core_next(core) /= task) error stop 'next'
      if (memplan_core_start(core, task) /= 1) error stop 'start'
      top = max(top, memplan_core_used(core))
      if (memplan_core_finish(core, task) /= 1) error stop 'finish'
   end do
   if (memplan_core_is_done(core, 5) /= 1 .or. top /= peak) error stop 'run'
   call fork(core)
   call memplan_core_end(core)
   call arrow()
   print '(a, i0, a, i0)', 'least peak ', peak, ', best postorder ', best

contains

   subroutine arrow()
      integer(c_int32_t), parameter :: starts(5) = [1, 4, 4, 4, 4], rows(3) = [2, 3, 4], ends_first(4) = [2, 3, 1, 4]
      type(memplan_front_options) :: options
      type(memplan_node) :: fronts(4)
      integer(c_int32_t) :: front_of(4)
      integer(c_int64_t) :: made
      options%shape = memplan_square
      status = memplan_fronts(1, starts, 5_c_size_t, rows, 3_c_size_t, ends_first, 4_c_size_t, options, fronts, 4_c_size_t, made, &
         front_of, 4_c_size_t, fault)
      if (status /= memplan_done .or. made /= 3) error stop 'fronts'
      if (any(fronts(1:3)%parent /= [3, 3, 0]) .or. any(fronts(1:3)%extra /= [3, 3, 4])) error stop 'nodes'
      if (any(front_of /= [3, 1, 2, 3])) error stop 'fronts of columns'
   end subroutine arrow

   subroutine fork(core)
      type(c_ptr), intent(in) :: core
      integer(c_int32_t), parameter :: readers(6) = [1, 2, 3, 4, 4, 4], in_turn(4) = [1, 2, 3, 4], other_way(4) = [3, 2, 1, 4]
      integer(c_int32_t) :: found(4)
      type(memplan_task) :: tasks(4)
      type(memplan_shared_item) :: items(5)
      integer(c_int64_t) :: needed, best_peak, bound
      tasks%extra = [6, 1, 0, 0]
      items%size = [10, 3, 4, 5, 2]
      items%from = [0, 1, 2, 3, 4]
      items%readers = [3, 1, 1, 1, 0]
      status = memplan_replay_shared(tasks, 4_c_size_t, items, 5_c_size_t, readers, 6_c_size_t, in_turn, 4_c_size_t, needed, fault)
      if (status /= memplan_done .or. needed /= 22) error stop 'readers'
      status = memplan_plan_shared(tasks, 4_c_size_t, items, 5_c_size_t, readers, 6_c_size_t, other_way, 4_c_size_t, &
         memplan_effort, found, 4_c_size_t, best_peak, bound, fault)
      if (status /= memplan_done .or. best_peak /= 22 .or. bound /= 22) error stop 'a plan with readers'
      status = memplan_core_begin_shared(core, tasks, 4_c_size_t, items, 5_c_size_t, readers, 6_c_size_t, in_turn, 4_c_size_t, &
         needed, 1, fault)
      if (status /= memplan_done .or. memplan_core_used(core) /= 10) error stop 'a core with readers'
   end subroutine fork
end program five
