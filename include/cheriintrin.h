/* The intrinsics of CHERI C are declared before every file: cheri_address_get, cheri_base_get, cheri_length_get,
   cheri_offset_get, cheri_tag_get, cheri_perms_get, cheri_address_set, cheri_tag_clear, cheri_bounds_set,
   cheri_bounds_set_exact, cheri_perms_and, cheri_is_equal_exact, cheri_representable_length and
   cheri_representable_alignment_mask. Here are the numbers of permissions, and what can be said by these. */
#ifndef __CHERIC_CHERIINTRIN_H
#define __CHERIC_CHERIINTRIN_H
#define CHERI_PERM_GLOBAL 1
#define CHERI_PERM_EXECUTE 2
#define CHERI_PERM_LOAD 4
#define CHERI_PERM_STORE 8
#define CHERI_PERM_LOAD_CAP 16
#define CHERI_PERM_STORE_CAP 32
#define CHERI_PERM_STORE_LOCAL_CAP 64
typedef unsigned long cheri_perms_t;
#define cheri_is_valid(pointer) cheri_tag_get(pointer)
#define cheri_is_invalid(pointer) (!cheri_tag_get(pointer))
#define cheri_perms_clear(pointer, perms) cheri_perms_and(pointer, ~(unsigned long)(perms))
#endif
