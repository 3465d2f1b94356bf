// What GCC's own configuration would say of the machine: a register of the tables of frames is its own column of the unwinder.
#define DWARF_REG_TO_UNWIND_COLUMN(number) (number)
