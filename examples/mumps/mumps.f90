! MUMPS's estimate of its memory, and what memplan makes of the same tree and the same order:
!
!     mumps [--row] MATRIX.mtx [ldlt | rows | lu]
!
! MUMPS analyses the pattern of a matrix, by AMD, and estimates how many entries factors, fronts and blocks take at once, with all
! factors in memory: KEEP8(34). Here each of its fronts is a node that leaves its block and the factors of its subtree, and takes
! over the factors of its children's subtrees; memplan_replay_tree tells the peak along MUMPS's own order.
!
! For L U, and for L D L^T with the whole rows of each factor (rows), the two are the same but where MUMPS's room for a stack of at
! least 2,000 entries beside all factors is more; where they are not, the program ends with 1. By itself (ldlt) MUMPS gives back
! some of the upper triangles of its factors before a front ends, for which a node has no word.
program mumps_estimate
   use, intrinsic :: iso_c_binding
   use memplan
   implicit none
   include 'mpif.h'
   include 'dmumps_struc.h'
   type(dmumps_struc) :: id
   type(memplan_node), allocatable :: nodes(:)
   integer(c_int64_t), allocatable :: factors(:)
   integer(c_int32_t), allocatable :: order(:), other(:)
   type(memplan_fault) :: fault
   integer(c_int64_t) :: own, least, all_factors
   integer(c_size_t) :: count
   character(len=512) :: name
   integer(c_int64_t), parameter :: least_stack = 2000
   integer(c_int64_t) :: expected
   character(len=8) :: kind
   logical :: is_row, is_lu
   integer :: error, k

   call get_command_argument(1, name)
   is_row = name == '--row'
   if (is_row) call get_command_argument(2, name)
   call get_command_argument(merge(3, 2, is_row), kind)
   if (kind == '') kind = 'ldlt'
   is_lu = kind == 'lu'
   call mpi_init(error)
   call analyse(trim(name))
   count = int(id%keep(28), c_size_t)
   allocate (nodes(count), factors(count), order(count), other(count))
   call read_fronts
   call read_order
   all_factors = sum(factors)
   call carry_factors
   call check(memplan_replay_tree(nodes, count, order, count, own, fault))
   call check(memplan_plan_tree(nodes, count, other, count, least, fault))
   expected = max(own, all_factors + least_stack)
   k = index(name, '/', back=.true.) + 1
   if (is_row) then
      name = name(k:index(name, '.mtx') - 1)
      print '(a, 6(" | ", i0), a)', '| '//trim(name)//' | '//trim(kind), id%n, count, all_factors, own, id%keep8(34), &
         id%keep8(34) - expected, ' |'
   else
      print '(a, i0, a)', trim(name(k:))//', '//trim(kind)//': ', count, ' fronts'
      print '(a, i0)', '  entries of the factor              ', all_factors
      print '(a, i0)', '  peak along the order of MUMPS      ', own
      print '(a, i0)', '  least peak of all orders           ', least
      print '(a, i0)', '  estimate of MUMPS                  ', id%keep8(34)
      print '(a, i0)', '  the same, less the expected        ', id%keep8(34) - expected
   end if
   if (kind /= 'ldlt' .and. id%keep8(34) /= expected) stop 1
   id%job = -2
   call dmumps(id)
   call mpi_finalize(error)

contains

   subroutine check(status)
      integer(c_int32_t), intent(in) :: status
      if (status == 0) return
      print '(a, i0, a, i0, a, i0)', 'mumps: memplan answered ', status, ': kind ', fault%kind, ' at ', fault%at
      stop 2
   end subroutine

   ! The analysis of a Matrix Market file by MUMPS, of which the pattern counts: without a transversal, by AMD, and without a root
   ! that several processes share.
   subroutine analyse(file)
      character(len=*), intent(in) :: file
      character(len=512) :: line
      integer :: unit, n, columns, entries, i
      open (newunit=unit, file=file, status='old')
      do
         read (unit, '(a)') line
         if (line(1:1) /= '%') exit
      end do
      read (line, *) n, columns, entries
      if (n /= columns) stop 2
      id%comm = MPI_COMM_WORLD
      id%par = 1
      id%sym = merge(0, 2, is_lu)
      id%job = -1
      call dmumps(id)
      id%icntl(1:4) = [-1, -1, -1, 0]
      id%icntl(6) = 0
      id%icntl(7) = 0
      id%icntl(12) = 1
      id%icntl(13) = 1
      ! How many panels the factor of a front is cut into.
      if (kind == 'rows') id%keep(459) = 1
      id%n = n
      id%nnz = entries
      allocate (id%irn(entries), id%jcn(entries))
      do i = 1, entries
         read (unit, '(a)') line
         read (line, *) id%irn(i), id%jcn(i)
      end do
      close (unit)
      id%job = 1
      call dmumps(id)
      if (id%infog(1) >= 0) return
      print '(a, i0)', 'mumps: the analysis ended with ', id%infog(1)
      stop 2
   end subroutine

   ! STEP is above 0 at the first variable of each front: its number. FILS leads from there to its other variables, and ends at 0
   ! or below; ND_STEPS has the order of the front, DAD_STEPS the first variable of its parent, or 0. For L D L^T a factor has whole
   ! rows, and a block its triangle; a front is a square.
   subroutine read_fronts
      integer(c_int64_t) :: rows, pivots, block
      integer :: i, variable, front
      do i = 1, id%n
         front = id%step(i)
         if (front <= 0) cycle
         pivots = 0
         variable = i
         do while (variable > 0)
            pivots = pivots + 1
            variable = id%fils(variable)
         end do
         rows = id%nd_steps(front)
         block = merge((rows - pivots)*(rows - pivots), (rows - pivots)*(rows - pivots + 1)/2, is_lu)
         factors(front) = merge(pivots*(2*rows - pivots), pivots*rows, is_lu)
         nodes(front)%parent = 0
         if (id%dad_steps(front) /= 0) nodes(front)%parent = id%step(id%dad_steps(front))
         nodes(front)%out = block
         nodes(front)%extra = rows*rows - block - factors(front)
         nodes(front)%share = 0
         nodes(front)%time = 1
      end do
   end subroutine

   ! MUMPS's own order: NA tells its leaves, behind their number and that of the roots; the last one in is the first one out, and a
   ! front comes in when its last child is done.
   subroutine read_order
      integer :: left(count), pool(count), top, place, front, parent, i
      left = 0
      do i = 1, int(count)
         parent = nodes(i)%parent
         if (parent /= 0) left(parent) = left(parent) + 1
      end do
      top = id%na(1)
      do i = 1, top
         pool(i) = id%step(id%na(2 + i))
      end do
      do place = 1, int(count)
         front = pool(top)
         top = top - 1
         order(place) = front
         parent = nodes(front)%parent
         if (parent == 0) cycle
         left(parent) = left(parent) - 1
         if (left(parent) > 0) cycle
         top = top + 1
         pool(top) = parent
      end do
   end subroutine

   ! A front leaves the factors of its subtree beside its block, and takes over those of its children's.
   subroutine carry_factors
      integer :: i, front, parent
      do i = 1, int(count)
         front = order(i)
         parent = nodes(front)%parent
         nodes(front)%out = nodes(front)%out + factors(front)
         if (parent == 0) cycle
         factors(parent) = factors(parent) + factors(front)
         nodes(parent)%share = nodes(parent)%share + factors(front)
      end do
   end subroutine
end program
