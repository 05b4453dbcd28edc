/* BSD: macros around declarations, all of them without a meaning here. */
#ifndef __CHERIC_SYS_CDEFS_H
#define __CHERIC_SYS_CDEFS_H
#define __BEGIN_DECLS
#define __END_DECLS
#define __RCSID(text)
#define __FBSDID(text)
#define __COPYRIGHT(text)
#define __P(parameters) parameters
#define __THROW
#define __unused
#define __used
#define __dead
#define __dead2
#define __pure
#define __pure2
#define __printflike(format, first)
#define __weak_alias(name, of)
#define __predict_true(condition) (condition)
#define __predict_false(condition) (condition)
#endif
