# Edits GCC's libgcc/unwind-dw2-fde.c, which is under the GPL, version 3 or later, with the GCC Runtime Library Exception. It
# lets threads that throw search the tables of a program side by side: a program for coz is static, and registers its tables
# before its first thread starts, so that a search takes no lock once they are sorted.
/^static struct object \*unseen_objects;/a\
static int settled;
s/^  ob->next = unseen_objects;/  __atomic_store_n (\&settled, 0, __ATOMIC_RELEASE);\n&/
/^_Unwind_Find_FDE/,/^}/ {
    s/^  init_object_mutex_once ();/  int locks = !__atomic_load_n (\&settled, __ATOMIC_ACQUIRE);\n&/
    s/^  __gthread_mutex_lock (/  if (locks)\n  &/
    s/^  __gthread_mutex_unlock (/  if (locks \&\& !unseen_objects)\n    __atomic_store_n (\&settled, 1, __ATOMIC_RELEASE);\n  if (locks)\n  &/
}
