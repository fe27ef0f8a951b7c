! A tape behind the four calls of a printed adjoint, for small runs: a main tape of words, and lists with a tape for each iteration of a
! parallel loop. Different iterations may push and pop at the same time.
module formad_tape
  implicit none
  private
  public :: formad_open, formad_close, formad_push, formad_pop, formad_is_empty

  type :: words
    integer(kind=8), allocatable :: held(:)
    integer :: used = 0
  end type words

  type :: iterations
    type(words), allocatable :: tapes(:)
  end type iterations

  type(words), save :: main
  type(iterations), save :: lists(1000)
  integer, save :: depth = 0
  logical, save :: begun = .false.

  interface formad_push
    module procedure push_1, push_2, push_4, push_8
  end interface formad_push

  interface formad_pop
    module procedure pop_1, pop_2, pop_4, pop_8
  end interface formad_pop

contains

  ! begins a list of so many tapes, or takes back the one on top
  subroutine formad_open(count)
    integer, intent(in) :: count
    begun = count >= 0
    if (begun) then
      depth = depth + 1
      allocate(lists(depth)%tapes(0:count-1))
    end if
  end subroutine formad_open

  ! keeps a list that was begun, and drops one that was taken back, which is to be empty
  subroutine formad_close()
    if (begun) return
    if (any(lists(depth)%tapes%used /= 0)) error stop 'words are left on the tape of an iteration'
    deallocate(lists(depth)%tapes)
    depth = depth - 1
  end subroutine formad_close

  logical function formad_is_empty()
    formad_is_empty = main%used == 0 .and. depth == 0
  end function formad_is_empty

  subroutine put(tape, word)
    type(words), intent(inout) :: tape
    integer(kind=8), intent(in) :: word
    integer(kind=8), allocatable :: more(:)
    if (.not. allocated(tape%held)) allocate(tape%held(8))
    if (tape%used == size(tape%held)) then
      allocate(more(2*tape%used))
      more(1:tape%used) = tape%held
      call move_alloc(more, tape%held)
    end if
    tape%used = tape%used + 1
    tape%held(tape%used) = word
  end subroutine put

  subroutine take(tape, word)
    type(words), intent(inout) :: tape
    integer(kind=8), intent(out) :: word
    if (tape%used == 0) error stop 'a tape is empty'
    word = tape%held(tape%used)
    tape%used = tape%used - 1
  end subroutine take

  subroutine push_8(key, word)
    integer, intent(in) :: key
    integer(kind=8), intent(in) :: word
    if (key < 0) then
      call put(main, word)
    else
      call put(lists(depth)%tapes(key), word)
    end if
  end subroutine push_8

  subroutine pop_8(key, word)
    integer, intent(in) :: key
    integer(kind=8), intent(out) :: word
    if (key < 0) then
      call take(main, word)
    else
      call take(lists(depth)%tapes(key), word)
    end if
  end subroutine pop_8

  subroutine push_1(key, word)
    integer, intent(in) :: key
    integer(kind=1), intent(in) :: word
    call push_8(key, int(word, 8))
  end subroutine push_1

  subroutine pop_1(key, word)
    integer, intent(in) :: key
    integer(kind=1), intent(out) :: word
    integer(kind=8) :: wide
    call pop_8(key, wide)
    word = int(wide, 1)
  end subroutine pop_1

  subroutine push_2(key, word)
    integer, intent(in) :: key
    integer(kind=2), intent(in) :: word
    call push_8(key, int(word, 8))
  end subroutine push_2

  subroutine pop_2(key, word)
    integer, intent(in) :: key
    integer(kind=2), intent(out) :: word
    integer(kind=8) :: wide
    call pop_8(key, wide)
    word = int(wide, 2)
  end subroutine pop_2

  subroutine push_4(key, word)
    integer, intent(in) :: key
    integer(kind=4), intent(in) :: word
    call push_8(key, int(word, 8))
  end subroutine push_4

  subroutine pop_4(key, word)
    integer, intent(in) :: key
    integer(kind=4), intent(out) :: word
    integer(kind=8) :: wide
    call pop_8(key, wide)
    word = int(wide, 4)
  end subroutine pop_4
end module formad_tape
