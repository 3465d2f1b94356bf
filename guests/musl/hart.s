# __coz_hart_wait(hart, map, size): the end of a thread, from here on without a stack. Unmaps `size` bytes at `map`, if there
# are some, lets go of the lock of the list of threads, and waits until the hart has a turn, as harts.c lays it out. Without a
# hart it is the end of this hart too, which lets go of that lock.
.global __coz_hart_wait
.hidden __coz_hart_wait
.type   __coz_hart_wait, %function
__coz_hart_wait:
	mv s0, a0
	beqz a1, 1f
	mv a0, a1
	mv a1, a2
	li a7, 215 # SYS_munmap
	ecall
1:	beqz s0, 4f
	la a0, __thread_list_lock
	fence rw, w
	sw zero, 0(a0)
	li a1, 1   # FUTEX_WAKE, of one, as the end of a hart does
	li a2, 1
	li a7, 98  # SYS_futex
	ecall
2:	lw t0, 0(s0)
	bnez t0, 3f
	mv a0, s0
	li a1, 128 # FUTEX_WAIT | FUTEX_PRIVATE
	li a2, 0
	li a3, 0
	li a7, 98  # SYS_futex
	ecall
	j 2b
3:	fence r, rw
	ld sp, 8(s0)
	ld tp, 16(s0)
	mv a0, s0
	call __coz_hart_begins
4:	li a0, 0
	li a7, 93  # SYS_exit
	ecall

# __coz_on_stack(main, argc, argv, init, fini, ldso, stack): __libc_start_main, on another stack.
.global __coz_on_stack
.hidden __coz_on_stack
.type   __coz_on_stack, %function
__coz_on_stack:
	mv sp, a6
	tail __libc_start_main
