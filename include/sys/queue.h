/* BSD: lists and queues of structs that hold their links. An address of a link is made of the struct that it stands
   in, and keeps the bounds of that: so STAILQ_LAST, TAILQ_LAST and TAILQ_PREV reach the struct from the link. */
#ifndef __CHERIC_SYS_QUEUE_H
#define __CHERIC_SYS_QUEUE_H
#include <stddef.h>

#define __CHERIC_WITHIN(p, member) ((void *)((char *)(p) + ((char *)&(p)->member - (char *)(p))))

/* A list in one direction. */
#define SLIST_HEAD(name, type) \
    struct name { \
        struct type *slh_first; \
    }
#define SLIST_HEAD_INITIALIZER(head) { 0 }
#define SLIST_ENTRY(type) \
    struct { \
        struct type *sle_next; \
    }
#define SLIST_INIT(head) ((head)->slh_first = 0)
#define SLIST_EMPTY(head) ((head)->slh_first == 0)
#define SLIST_FIRST(head) ((head)->slh_first)
#define SLIST_NEXT(elm, field) ((elm)->field.sle_next)
#define SLIST_FOREACH(var, head, field) for ((var) = (head)->slh_first; (var); (var) = (var)->field.sle_next)
#define SLIST_FOREACH_SAFE(var, head, field, next) \
    for ((var) = (head)->slh_first; (var) && ((next) = (var)->field.sle_next, 1); (var) = (next))
#define SLIST_INSERT_HEAD(head, elm, field) \
    do { \
        (elm)->field.sle_next = (head)->slh_first; \
        (head)->slh_first = (elm); \
    } while (0)
#define SLIST_INSERT_AFTER(at, elm, field) \
    do { \
        (elm)->field.sle_next = (at)->field.sle_next; \
        (at)->field.sle_next = (elm); \
    } while (0)
#define SLIST_REMOVE_HEAD(head, field) ((head)->slh_first = (head)->slh_first->field.sle_next)
#define SLIST_REMOVE_AFTER(elm, field) ((elm)->field.sle_next = (elm)->field.sle_next->field.sle_next)
#define SLIST_REMOVE(head, elm, type, field) \
    do { \
        struct type **__cheric_at = &(head)->slh_first; \
        while (*__cheric_at != (elm)) __cheric_at = &(*__cheric_at)->field.sle_next; \
        *__cheric_at = (elm)->field.sle_next; \
    } while (0)

/* A list in one direction, whose elements know what points to them. */
#define LIST_HEAD(name, type) \
    struct name { \
        struct type *lh_first; \
    }
#define LIST_HEAD_INITIALIZER(head) { 0 }
#define LIST_ENTRY(type) \
    struct { \
        struct type *le_next; \
        struct type **le_prev; \
    }
#define LIST_INIT(head) ((head)->lh_first = 0)
#define LIST_EMPTY(head) ((head)->lh_first == 0)
#define LIST_FIRST(head) ((head)->lh_first)
#define LIST_NEXT(elm, field) ((elm)->field.le_next)
#define LIST_FOREACH(var, head, field) for ((var) = (head)->lh_first; (var); (var) = (var)->field.le_next)
#define LIST_FOREACH_SAFE(var, head, field, next) \
    for ((var) = (head)->lh_first; (var) && ((next) = (var)->field.le_next, 1); (var) = (next))
#define LIST_INSERT_HEAD(head, elm, field) \
    do { \
        (elm)->field.le_next = (head)->lh_first; \
        if ((elm)->field.le_next) (head)->lh_first->field.le_prev = &(elm)->field.le_next; \
        (head)->lh_first = (elm); \
        (elm)->field.le_prev = &(head)->lh_first; \
    } while (0)
#define LIST_INSERT_AFTER(at, elm, field) \
    do { \
        (elm)->field.le_next = (at)->field.le_next; \
        if ((elm)->field.le_next) (at)->field.le_next->field.le_prev = &(elm)->field.le_next; \
        (at)->field.le_next = (elm); \
        (elm)->field.le_prev = &(at)->field.le_next; \
    } while (0)
#define LIST_INSERT_BEFORE(at, elm, field) \
    do { \
        (elm)->field.le_prev = (at)->field.le_prev; \
        (elm)->field.le_next = (at); \
        *(at)->field.le_prev = (elm); \
        (at)->field.le_prev = &(elm)->field.le_next; \
    } while (0)
#define LIST_REMOVE(elm, field) \
    do { \
        if ((elm)->field.le_next) (elm)->field.le_next->field.le_prev = (elm)->field.le_prev; \
        *(elm)->field.le_prev = (elm)->field.le_next; \
    } while (0)

/* A queue in one direction. */
#define STAILQ_HEAD(name, type) \
    struct name { \
        struct type *stqh_first; \
        struct type **stqh_last; \
    }
#define STAILQ_HEAD_INITIALIZER(head) { 0, (void *)&(head) }
#define STAILQ_ENTRY(type) \
    struct { \
        struct type *stqe_next; \
    }
#define STAILQ_INIT(head) ((head)->stqh_first = 0, (head)->stqh_last = __CHERIC_WITHIN(head, stqh_first))
#define STAILQ_EMPTY(head) ((head)->stqh_first == 0)
#define STAILQ_FIRST(head) ((head)->stqh_first)
#define STAILQ_NEXT(elm, field) ((elm)->field.stqe_next)
#define STAILQ_LAST(head, type, field) \
    (STAILQ_EMPTY(head) ? 0 : (struct type *)((char *)(head)->stqh_last - offsetof(struct type, field.stqe_next)))
#define STAILQ_FOREACH(var, head, field) for ((var) = (head)->stqh_first; (var); (var) = (var)->field.stqe_next)
#define STAILQ_FOREACH_SAFE(var, head, field, next) \
    for ((var) = (head)->stqh_first; (var) && ((next) = (var)->field.stqe_next, 1); (var) = (next))
#define STAILQ_INSERT_HEAD(head, elm, field) \
    do { \
        (elm)->field.stqe_next = (head)->stqh_first; \
        if (!(elm)->field.stqe_next) (head)->stqh_last = __CHERIC_WITHIN(elm, field.stqe_next); \
        (head)->stqh_first = (elm); \
    } while (0)
#define STAILQ_INSERT_TAIL(head, elm, field) \
    do { \
        (elm)->field.stqe_next = 0; \
        *(head)->stqh_last = (elm); \
        (head)->stqh_last = __CHERIC_WITHIN(elm, field.stqe_next); \
    } while (0)
#define STAILQ_INSERT_AFTER(head, at, elm, field) \
    do { \
        (elm)->field.stqe_next = (at)->field.stqe_next; \
        if (!(elm)->field.stqe_next) (head)->stqh_last = __CHERIC_WITHIN(elm, field.stqe_next); \
        (at)->field.stqe_next = (elm); \
    } while (0)
#define STAILQ_REMOVE_HEAD(head, field) \
    do { \
        (head)->stqh_first = (head)->stqh_first->field.stqe_next; \
        if (!(head)->stqh_first) (head)->stqh_last = __CHERIC_WITHIN(head, stqh_first); \
    } while (0)
#define STAILQ_REMOVE(head, elm, type, field) \
    do { \
        struct type *__cheric_at = (head)->stqh_first; \
        if (__cheric_at == (elm)) STAILQ_REMOVE_HEAD(head, field); \
        else { \
            while (__cheric_at->field.stqe_next != (elm)) __cheric_at = __cheric_at->field.stqe_next; \
            __cheric_at->field.stqe_next = (elm)->field.stqe_next; \
            if (!__cheric_at->field.stqe_next) \
                (head)->stqh_last = __CHERIC_WITHIN(__cheric_at, field.stqe_next); \
        } \
    } while (0)
#define STAILQ_CONCAT(head, other) \
    do { \
        if (!STAILQ_EMPTY(other)) { \
            *(head)->stqh_last = (other)->stqh_first; \
            (head)->stqh_last = (other)->stqh_last; \
            STAILQ_INIT(other); \
        } \
    } while (0)

/* A queue in both directions. */
#define TAILQ_HEAD(name, type) \
    struct name { \
        struct type *tqh_first; \
        struct type **tqh_last; \
    }
#define TAILQ_HEAD_INITIALIZER(head) { 0, (void *)&(head) }
#define TAILQ_ENTRY(type) \
    struct { \
        struct type *tqe_next; \
        struct type **tqe_prev; \
    }
#define TAILQ_INIT(head) ((head)->tqh_first = 0, (head)->tqh_last = __CHERIC_WITHIN(head, tqh_first))
#define TAILQ_EMPTY(head) ((head)->tqh_first == 0)
#define TAILQ_FIRST(head) ((head)->tqh_first)
#define TAILQ_NEXT(elm, field) ((elm)->field.tqe_next)
#define TAILQ_LAST(head, headname) (*((struct headname *)(head)->tqh_last)->tqh_last)
#define TAILQ_PREV(elm, headname, field) (*((struct headname *)(elm)->field.tqe_prev)->tqh_last)
#define TAILQ_FOREACH(var, head, field) for ((var) = (head)->tqh_first; (var); (var) = (var)->field.tqe_next)
#define TAILQ_FOREACH_SAFE(var, head, field, next) \
    for ((var) = (head)->tqh_first; (var) && ((next) = (var)->field.tqe_next, 1); (var) = (next))
#define TAILQ_FOREACH_REVERSE(var, head, headname, field) \
    for ((var) = TAILQ_LAST(head, headname); (var); (var) = TAILQ_PREV(var, headname, field))
#define TAILQ_FOREACH_REVERSE_SAFE(var, head, headname, field, next) \
    for ((var) = TAILQ_LAST(head, headname); (var) && ((next) = TAILQ_PREV(var, headname, field), 1); (var) = (next))
#define TAILQ_INSERT_HEAD(head, elm, field) \
    do { \
        (elm)->field.tqe_next = (head)->tqh_first; \
        if ((elm)->field.tqe_next) (head)->tqh_first->field.tqe_prev = __CHERIC_WITHIN(elm, field.tqe_next); \
        else (head)->tqh_last = __CHERIC_WITHIN(elm, field.tqe_next); \
        (head)->tqh_first = (elm); \
        (elm)->field.tqe_prev = __CHERIC_WITHIN(head, tqh_first); \
    } while (0)
#define TAILQ_INSERT_TAIL(head, elm, field) \
    do { \
        (elm)->field.tqe_next = 0; \
        (elm)->field.tqe_prev = (head)->tqh_last; \
        *(head)->tqh_last = (elm); \
        (head)->tqh_last = __CHERIC_WITHIN(elm, field.tqe_next); \
    } while (0)
#define TAILQ_INSERT_AFTER(head, at, elm, field) \
    do { \
        (elm)->field.tqe_next = (at)->field.tqe_next; \
        if ((elm)->field.tqe_next) (elm)->field.tqe_next->field.tqe_prev = __CHERIC_WITHIN(elm, field.tqe_next); \
        else (head)->tqh_last = __CHERIC_WITHIN(elm, field.tqe_next); \
        (at)->field.tqe_next = (elm); \
        (elm)->field.tqe_prev = __CHERIC_WITHIN(at, field.tqe_next); \
    } while (0)
#define TAILQ_INSERT_BEFORE(at, elm, field) \
    do { \
        (elm)->field.tqe_prev = (at)->field.tqe_prev; \
        (elm)->field.tqe_next = (at); \
        *(at)->field.tqe_prev = (elm); \
        (at)->field.tqe_prev = __CHERIC_WITHIN(elm, field.tqe_next); \
    } while (0)
#define TAILQ_REMOVE(head, elm, field) \
    do { \
        if ((elm)->field.tqe_next) (elm)->field.tqe_next->field.tqe_prev = (elm)->field.tqe_prev; \
        else (head)->tqh_last = (elm)->field.tqe_prev; \
        *(elm)->field.tqe_prev = (elm)->field.tqe_next; \
    } while (0)
#define TAILQ_CONCAT(head, other, field) \
    do { \
        if (!TAILQ_EMPTY(other)) { \
            *(head)->tqh_last = (other)->tqh_first; \
            (other)->tqh_first->field.tqe_prev = (head)->tqh_last; \
            (head)->tqh_last = (other)->tqh_last; \
            TAILQ_INIT(other); \
        } \
    } while (0)
#endif
