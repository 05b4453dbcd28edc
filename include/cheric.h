/* Read before every file: words of other compilers that headers can take away or say in words of the language.
   What can be left out without a change of the meaning is left out; what changes a meaning is an error here. */
#ifndef __CHERIC_H
#define __CHERIC_H

/* Other spellings of words of the language. */
#define __const const
#define __const__ const
#define __inline__ inline
#define __restrict__ restrict
#define __signed signed
#define __signed__ signed
#define __volatile volatile
#define __volatile__ volatile

/* Words that say nothing about what a program means. */
#define _Noreturn
#define __extension__

/* An error of the preprocessor, in the place where the macro is used. */
#define __CHERIC_PRAGMA(text) _Pragma(#text)
#define __CHERIC_LEFT_OUT(text) __CHERIC_PRAGMA(GCC error text)

/* __attribute__((A, ..)), up to eight of a list. An attribute is dropped, but for those that change a layout, a type
   or what is called: each of these has a macro below whose second part is an error. */
#define __attribute__(list) __CHERIC_ATTRIBUTES list
#define __attribute(list) __CHERIC_ATTRIBUTES list
#define __CHERIC_ATTRIBUTES(...) __CHERIC_ATTRIBUTES_8(__VA_ARGS__, , , , , , , , )
#define __CHERIC_ATTRIBUTES_8(a, b, c, d, e, f, g, h, ...) \
    __CHERIC_ATTRIBUTE(a) __CHERIC_ATTRIBUTE(b) __CHERIC_ATTRIBUTE(c) __CHERIC_ATTRIBUTE(d) \
    __CHERIC_ATTRIBUTE(e) __CHERIC_ATTRIBUTE(f) __CHERIC_ATTRIBUTE(g) __CHERIC_ATTRIBUTE(h)
#define __CHERIC_ATTRIBUTE(name) __CHERIC_SECOND_PART(__CHERIC_IS_##name)
#define __CHERIC_SECOND_PART(...) __CHERIC_SECOND(__VA_ARGS__, , )
#define __CHERIC_SECOND(first, second, ...) second
#define __CHERIC_DROP(...)
#define __CHERIC_REFUSED(text) , __CHERIC_LEFT_OUT(text) __CHERIC_DROP
#define __CHERIC_IS_packed __CHERIC_REFUSED("the attribute packed changes a meaning")
#define __CHERIC_IS___packed__ __CHERIC_REFUSED("the attribute packed changes a meaning")
#define __CHERIC_IS_aligned __CHERIC_REFUSED("the attribute aligned changes a meaning")
#define __CHERIC_IS___aligned__ __CHERIC_REFUSED("the attribute aligned changes a meaning")
#define __CHERIC_IS_alias __CHERIC_REFUSED("the attribute alias changes a meaning")
#define __CHERIC_IS___alias__ __CHERIC_REFUSED("the attribute alias changes a meaning")
#define __CHERIC_IS_cleanup __CHERIC_REFUSED("the attribute cleanup changes a meaning")
#define __CHERIC_IS___cleanup__ __CHERIC_REFUSED("the attribute cleanup changes a meaning")
#define __CHERIC_IS_constructor __CHERIC_REFUSED("the attribute constructor changes a meaning")
#define __CHERIC_IS___constructor__ __CHERIC_REFUSED("the attribute constructor changes a meaning")
#define __CHERIC_IS_destructor __CHERIC_REFUSED("the attribute destructor changes a meaning")
#define __CHERIC_IS___destructor__ __CHERIC_REFUSED("the attribute destructor changes a meaning")
#define __CHERIC_IS_ifunc __CHERIC_REFUSED("the attribute ifunc changes a meaning")
#define __CHERIC_IS___ifunc__ __CHERIC_REFUSED("the attribute ifunc changes a meaning")
#define __CHERIC_IS_mode __CHERIC_REFUSED("the attribute mode changes a meaning")
#define __CHERIC_IS___mode__ __CHERIC_REFUSED("the attribute mode changes a meaning")
#define __CHERIC_IS_ms_struct __CHERIC_REFUSED("the attribute ms_struct changes a meaning")
#define __CHERIC_IS_scalar_storage_order __CHERIC_REFUSED("the attribute scalar_storage_order changes a meaning")
#define __CHERIC_IS_vector_size __CHERIC_REFUSED("the attribute vector_size changes a meaning")
#define __CHERIC_IS___vector_size__ __CHERIC_REFUSED("the attribute vector_size changes a meaning")
#define __CHERIC_IS_weakref __CHERIC_REFUSED("the attribute weakref changes a meaning")
#define __CHERIC_IS___weakref__ __CHERIC_REFUSED("the attribute weakref changes a meaning")

/* C11 6.7.10, at file scope and in blocks, not among members: the value of the enumerator asks for the condition,
   and a quotient by zero is no constant (refusal 134, at the `enum`'s name). */
#define _Static_assert(...) __CHERIC_ASSERTED(__COUNTER__, __VA_ARGS__, )
#define __CHERIC_ASSERTED(number, condition, ...) __CHERIC_ASSERTED_AS(number, condition)
#define __CHERIC_ASSERTED_AS(number, condition) enum { __cheric_asserted_##number = 1 / !!(condition) }

/* C11 6.5.3.4: behind one byte a type stands at its alignment. For types that a member can be declared of as `T m`. */
#define _Alignof(type) (sizeof(struct { char __cheric_byte; type __cheric_member; }) - sizeof(type))
#define __alignof__(type) _Alignof(type)

/* C11 7.19: no constant expression here, since the language has none with a pointer in it. */
#define __builtin_offsetof(type, member) ((size_t)&((type *)0)->member)

/* What the compiler is told or asked by these has one honest answer. A place that is never reached ends the run, if
   it is reached, with the status of `abort`. */
#define __builtin_expect(value, expected) (value)
#define __builtin_constant_p(value) 0
#define __builtin_unreachable() exit(134)
#define __builtin_trap() exit(134)

/* The words of a program that has no command line: its name alone. */
extern char *__cheric_argv[2];

#endif
