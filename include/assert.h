/* C11 7.2. Read anew each time, for NDEBUG. A failed assertion is written to the output and ends the run as `abort`
   does. */
#ifndef __CHERIC_ASSERT_H
#define __CHERIC_ASSERT_H
void __cheric_assertion_failed(const char *, const char *, int);
#define static_assert _Static_assert
#endif
#undef assert
#ifdef NDEBUG
#define assert(condition) ((void)0)
#else
#define assert(condition) \
    ((condition) ? (void)0 : __cheric_assertion_failed(#condition, __FILE__, __LINE__))
#endif
